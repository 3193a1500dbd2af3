"""What a generated script asks and what it is answered, worked out here from the rules alone.

The draws are those of docs/RULES.md; a verdict scans all policies. `summary` gives the line that `--generate N` prints,
in the modes `default` and `never`.
"""
import compare


class Draws:
    """Numbers that are drawn one after another, from a seed on."""

    def __init__(self, seed):
        self.state = seed

    def below(self, most):
        self.state = (self.state * 6364136223846793005 + 1442695040888963407) % 2**64
        return (self.state >> 33) % most


def summary(rounds, mode="default"):
    draws = Draws(rounds)
    apps = [draws.below(8) for _ in range(32)]
    policies, commits = {}, len(apps)
    words = {"allowed": 0, "denied-by-rule": 0, "denied-by-default": 0}
    for at in range(1, rounds + 1):
        name, subject, peer, port, wider, section = (draws.below(most) for most in (64, 8, 8, 1024, 100, 4))
        policies[name] = (subject, peer, range(port + 1, port + wider + 2), section == 0)
        commits += 1
        if at % 10 == 0 or at == rounds:
            for app in apps:
                other, port = apps[draws.below(32)], draws.below(1124) + 1
                words[verdict(policies.values(), app, other, port, mode)] += 1
    return f"commits {commits} refused 0 " + " ".join(f"{word} {count}" for word, count in words.items())


def verdict(policies, app, other, port, mode):
    """The word at an endpoint of an app, for a packet from another app."""
    if mode == "never":
        return "allowed"
    selecting = [it for it in policies if it[0] == app]
    covering = [denies for _, peer, ports, denies in selecting if peer == other and port in ports]
    if any(covering):
        return "denied-by-rule"
    return "allowed" if covering or not selecting else "denied-by-default"


def checks():
    """That the cases of generated scripts ask for these lines: pairs of a name and what finds out what is wrong."""
    for case in compare.cases("case", "cases"):
        words = case.words()
        if words[:1] == ["--generate"] and case.status() == 0:
            yield f"rules of {case.name}", lambda case=case: told(case)


def told(case):
    words = case.words()
    modes = [after for before, after in zip(words, words[1:]) if before == "--enable-policy"]
    return compare.difference("out", f"{summary(int(words[1]), *modes)}\n".encode(), case.out())
