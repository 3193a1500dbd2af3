"""A judge of outputs: whether the answers to a script are a run of the policy machine (`runs`), and what a drill writes (`serial`)."""

# How many entries a policy map may have, where no word says it.
LIMIT = 16384


def values(words):
    """The words with their values, where each has one."""
    texts = [it for word in words for it in (word.split("=", 1) if word.startswith("--") else [word])]
    return dict(zip(texts[::2], texts[1::2]))


def options(words):
    """The mode, whether the local host is always let in and the limit of maps, by the words."""
    found = {"--enable-policy": "default", "--allow-localhost": "always", "--policy-map-max": LIMIT, **values(words)}
    return found["--enable-policy"], found["--allow-localhost"] == "always", int(found["--policy-map-max"])


def script_options(words):
    """The same; None where no lines are answered by sessions."""
    asked = {word.split("=")[0] for word in words}
    return None if asked & {"--generate", "--map", "--audit", "--crash-at"} else options(words)


def crash_of(words):
    """The call of the disk that is the first to fail; None where no crash is drilled."""
    call = values(words).get("--crash-at")
    return None if call is None else int(call)
