#!/usr/bin/env python3
"""How long policyd takes for many lines, and how much memory, by doubling.

    bench/lines.py          plays `{"op":"sync"}` up to 1,000,000 times; up to 400,000 lines of endpoints that are
                            refused once they are read; 256 endpoints, 64 policies and up to 100,000 verdicts,
                            and as many traces; and generated scripts of up to 10,000 rounds
    bench/lines.py --keep   the same, and its figures are appended to bench/results.tsv

Each row has the seconds, the peak memory in MiB, the megabytes of the script for a second, and the ratio of its
seconds to those of the row before.
"""
import json
import os
import pathlib
import subprocess
import sys
import tempfile
import time

sys.dont_write_bytecode = True
sys.path.insert(0, str(pathlib.Path(__file__).resolve().parent))
import results  # noqa: E402

TOP = pathlib.Path(__file__).resolve().parent.parent
PROGRAM = TOP / "crates" / "policyd" / "out" / "policyd"
NAMESPACE = "k8s:io.kubernetes.pod.namespace=default"


def text(value):
    return json.dumps(value, separators=(",", ":")) + "\n"


def syncs(count):
    return text({"op": "sync"}) * count


def endpoint(i):
    return text({"op": "endpoint", "name": f"e{i}", "labels": [f"k8s:app=a{i % 32}", NAMESPACE], "address": f"10.0.{i // 250}.{i % 250}"})


def policy(i):
    spec = {"endpointSelector": {"matchLabels": {"app": f"a{i % 32}"}}, "ingress": [{"fromEndpoints": [{"matchLabels": {"app": f"a{(i + 7) % 32}"}}]}]}
    return text({"op": "apply", "policy": {"apiVersion": "cilium.io/v2", "kind": "CiliumNetworkPolicy", "metadata": {"name": f"p{i}"}, "spec": spec}})


def verdict(i):
    return text({"op": "verdict", "endpoint": f"e{i % 256}", "direction": "ingress", "identity": 256 + i % 40, "protocol": "TCP", "port": i % 65536})


def verdicts(count):
    return "".join([*map(endpoint, range(256)), *map(policy, range(64)), *map(verdict, range(count))])


def trace(i):
    return verdict(i).replace('"op":"verdict"', '"op":"trace"')


def traces(count):
    return "".join([*map(endpoint, range(256)), *map(policy, range(64)), *map(trace, range(count))])


def readings(count):
    """Lines that are read to their end and then refused for their address, so that nothing else is measured."""
    return "".join(endpoint(i).replace('"address":"10', '"address":"310') for i in range(count))


def measured(words, script):
    """The seconds and the peak memory, in MiB, of a run with the words on the script."""
    with tempfile.TemporaryFile() as file:
        file.write(script.encode())
        file.seek(0)
        before = time.monotonic()
        child = subprocess.Popen([PROGRAM, *words], stdin=file, stdout=subprocess.DEVNULL)
        _, status, used = os.wait4(child.pid, 0)
        seconds = time.monotonic() - before
    if os.waitstatus_to_exitcode(status) not in (0, 1):
        sys.exit(f"policyd ended with {status}")
    return seconds, used.ru_maxrss / 1024


MEASURED = (
    ("synchronisations", syncs, (250_000, 500_000, 1_000_000)),
    ("lines read alone", readings, (100_000, 200_000, 400_000)),
    ("verdicts", verdicts, (25_000, 50_000, 100_000)),
    ("traces", traces, (25_000, 50_000, 100_000)),
    ("rounds generated", None, (1250, 2500, 5000, 10_000)),
)


def main():
    rows = results.Rows("--keep" in sys.argv[1:])
    for name, make, counts in MEASURED:
        last = None
        for count in counts:
            script = make(count) if make else ""
            seconds, memory = measured([] if make else ["--generate", str(count)], script)
            rows.add(f"bench/lines.py {name}", count, [seconds], "s")
            rows.add(f"bench/lines.py {name}: peak", count, [memory], "MiB")
            ratio = "" if last is None else f"  x{seconds / last:.2f}"
            speed = f"  {len(script) / seconds / 1e6:.1f} MB/s" if make else ""
            print(f"{count:>9} {name:<17} {seconds:8.2f} s {memory:9.1f} MiB{speed}{ratio}", flush=True)
            last = seconds


if __name__ == "__main__":
    main()
