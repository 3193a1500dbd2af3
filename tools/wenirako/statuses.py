"""With which status a question ends."""

# Nothing to tell: nothing changes, all that was promised holds, it is allowed.
NOTHING = 0
# The input is bad.
BAD = 1
# A word of the command line doesn't fit.
BAD_WORDS = 2
# There is something to tell: a change, a promise that doesn't hold, a flow that would be dropped, a slip, a denial.
TELLS = 3
# What is told may be otherwise, since a policy of the state isn't read whole.
UNSURE = 4
# There is no answer.
NO_ANSWER = 70
# It was interrupted, or told to end, as a shell has it.
INTERRUPTED, TERMINATED = 130, 143
