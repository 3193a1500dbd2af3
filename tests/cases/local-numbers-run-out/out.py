"""The answers, by the rules: prefix i has the number 16777217 + i, and 38 comes where there would be over 65,535.

A prefix that has a number takes no other, nor do 0.0.0.0/0 and ::/0. A policy that replaces another takes before it gives back.
The prefix 65,535 gets what the prefix 65,000 had. Without `p7` the numbers of its thousand prefixes are free, but for that of
prefix 7,007, which another policy holds; what comes then takes the least of them, in the order of the document.
"""
FIRST, WORLD = 16_777_217, 9


def trace(at, number):
    print(f"trace allowed at {at} remote {number} denies - allows -")


print("ok 1 identity 256")
for k in range(66):
    print(f"ok {k + 2}")
for number in (FIRST, FIRST + 7_007, FIRST + 65_534, WORLD):
    trace(67, number)
print("refused 38 local-exhausted at 67", "ok 68", "refused 38 local-exhausted at 68", "refused 38 local-exhausted at 68", "ok 69", "ok 70", sep="\n")
for number in (WORLD, FIRST + 65_001, FIRST + 65_000):
    trace(70, number)
print("refused 38 local-exhausted at 70", "ok 71", sep="\n")
for number in (WORLD, FIRST + 7_007, WORLD):
    trace(71, number)
print("ok 72")
for number in (FIRST + 7_001, FIRST + 7_000, WORLD):
    trace(72, number)
