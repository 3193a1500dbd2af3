#!/usr/bin/env python3
"""Runs where no thread can be made: each must end, and its answers must be those of a run with threads.

    tests/refused_threads.py PROGRAM

There are two ways to refuse threads. By root, the program is run as a user of its own who may have one process. By
anybody, each stack is made larger than a process has room for. A way that refuses no thread here is named and left out.
"""
import _thread
import json
import os
import pathlib
import resource
import shutil
import subprocess
import sys
import tempfile

sys.dont_write_bytecode = True
from compare import TOP, difference  # noqa: E402
from judge import script_options  # noqa: E402
from judge.runs import wrong_with  # noqa: E402

# How long a run may take, by a proved build and by one without proof.
SECONDS, SECONDS_UNPROVED = 20, 100
WORKERS = ("0", "1", "2", "8")
# A user who has no process, and a stack larger than the addresses of a process.
USER, STACK = 50000 + os.getpid() % 10000, 1 << 47
NAMESPACE = "k8s:io.kubernetes.pod.namespace=default"
PROBE = "import _thread, sys\ntry: _thread.start_new_thread(int, ())\nexcept RuntimeError: sys.exit(1)"


# ---- how threads are refused


def one_process():
    os.setgroups([])
    os.setgid(USER)
    os.setuid(USER)
    resource.setrlimit(resource.RLIMIT_NPROC, (1, 1))


def no_room_for_stacks():
    resource.setrlimit(resource.RLIMIT_STACK, (STACK, resource.getrlimit(resource.RLIMIT_STACK)[1]))


def refuses_a_process():
    """Whether a user of one process is refused a thread, which a child of this process tries."""
    child = os.fork()
    if child == 0:
        try:
            one_process()
            _thread.start_new_thread(int, ())
        except RuntimeError:
            os._exit(1)
        except OSError:
            pass
        os._exit(0)
    return os.waitstatus_to_exitcode(os.waitpid(child, 0)[1]) == 1


def refuses_a_stack():
    try:
        return subprocess.run([sys.executable, "-c", PROBE], preexec_fn=no_room_for_stacks, stderr=subprocess.DEVNULL).returncode == 1
    except (OSError, subprocess.SubprocessError):
        return False


WAYS = (("one process", one_process, refuses_a_process), ("no room for stacks", no_room_for_stacks, refuses_a_stack))


# ---- what is run


def line(session, **value):
    return json.dumps(value | {"session": session}, separators=(",", ":"))


def own_lines(session, sessions):
    """What a session does: with an endpoint of its own, and in the second phase with a policy that lets the one before it in."""
    before = (session - 2) % sessions + 1
    spec = {"endpointSelector": {"matchLabels": {"app": f"a{session}"}}, "ingress": [{"fromEndpoints": [{"matchLabels": {"app": f"a{before}"}}]}]}
    policy = {"apiVersion": "cilium.io/v2", "kind": "CiliumNetworkPolicy", "metadata": {"name": f"p{session}"}, "spec": spec}
    endpoint = line(session, op="endpoint", name=f"e{session}", labels=[f"k8s:app=a{session}", NAMESPACE], address=f"10.0.0.{session}")
    asked = {"endpoint": f"e{session}", "direction": "ingress", "address": f"10.0.0.{before}", "protocol": "TCP", "port": 80}
    first = [endpoint, line(session, op="sync"), line(session, op="verdict", **asked)]
    return first, [line(session, op="apply", policy=policy), line(session, op="sync"), line(session, op="verdict", **asked), line(session, op="trace", **asked)]


def script(sessions):
    first, second = zip(*(own_lines(session, sessions) for session in range(1, sessions + 1)))
    lines = [*sum(first, []), '{"op":"phase"}', *sum(second, [])]
    return "".join(f"{it}\n" for it in lines).encode()


def large_script():
    """A script that is cut into parts, which are read at once."""
    asked = line(1, op="verdict", endpoint="e1", direction="ingress", address="10.0.0.1", protocol="TCP", port=80)
    return script(1) + f"{asked}\n".encode() * 1000


def runs():
    """Names, words and scripts; and the answers, where one is none the judge takes them for a run or not."""
    summary = (TOP / "tests" / "cases" / "generate-1" / "out").read_bytes()
    for workers in WORKERS:
        for sessions in range(1, 9):
            yield f"{sessions} sessions", ["--workers", workers], script(sessions), None
        yield "a large script", ["--workers", workers], large_script(), None
        yield "a generated script", ["--workers", workers, "--generate", "1"], b"", summary


def wrong_in(program, way, words, given, answers, seconds):
    try:
        ended = subprocess.run([program, *words], input=given, stdout=subprocess.PIPE, stderr=subprocess.PIPE, timeout=seconds, preexec_fn=way)
    except subprocess.TimeoutExpired:
        return [f"no end within {seconds} seconds"]
    except (OSError, subprocess.SubprocessError) as error:
        return [str(error)]
    if answers is None:
        wrong = wrong_with(given, ended.stdout, ended.returncode, *script_options(words))
        return [f"no run of the policy machine: {wrong}", *ended.stderr.decode(errors="replace").splitlines()[-5:]] if wrong else []
    return difference("out", answers, ended.stdout) or ([f"status {ended.returncode}"] if ended.returncode else [])


def play(program, wanted=lambda name: True, seconds=SECONDS):
    """Yields the name of each run and what is wrong with it, in lines."""
    ways = [it for it in WAYS if any(wanted(f"refused threads: {it[0]}: {name}") for name, *_ in runs())]
    with tempfile.TemporaryDirectory() as folder:
        os.chmod(folder, 0o755)
        copy = shutil.copy(program, pathlib.Path(folder) / "policyd")
        os.chmod(copy, 0o755)
        for name, way, refuses in ways:
            if not refuses():
                print(f"left out, since it refuses no thread here: {name}")
                continue
            for what, words, given, answers in runs():
                named = f"refused threads: {name}: {what}"
                if wanted(named):
                    yield f"{named} {' '.join(words)}", wrong_in(copy, way, words, given, answers, seconds)


def main(words):
    failed = 0
    for name, wrong in play(words[0]):
        failed += bool(wrong)
        print(f"{name}: {'; '.join(wrong) or 'ends, and is a run'}", flush=True)
    return 1 if failed else 0


if __name__ == "__main__":
    sys.exit(main(sys.argv[1:]))
