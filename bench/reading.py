#!/usr/bin/env python3
"""How fast policyd reads policy documents, and whether time and memory grow with the document alone.

    bench/reading.py        applies of about 400 bytes, one policy after another in place of each other; the same, read and
                            then refused for the last port's protocol; one policy of 2,500, 5,000 and 10,000 entries; and
                            one whose `status` has 2.5, 5 and 10 MiB
    bench/reading.py --keep the same, and its figures are appended to bench/results.tsv

Each row has the size of the script, the seconds, MB/s, the peak memory in MiB, and the ratio of its seconds to those of
the row before. `applies` are committed too; what is refused is read alone. `no-spec` lines are refused where the document
is, so they show the JSON reader and the walk.
"""
import pathlib
import sys

sys.dont_write_bytecode = True
sys.path.insert(0, str(pathlib.Path(__file__).resolve().parent))
import lines  # noqa: E402
import results  # noqa: E402


def apply(name, spec, **more):
    policy = {"apiVersion": "cilium.io/v2", "kind": "CiliumNetworkPolicy", "metadata": {"name": name}, "spec": spec, **more}
    return lines.text({"op": "apply", "policy": policy})


def entry(i, protocol="TCP"):
    ports = [{"port": str(1 + i % 65535), "protocol": protocol}]
    return {"fromEndpoints": [{"matchLabels": {"app": f"a{i % 64}", "tier": "front"}}], "toPorts": [{"ports": ports}]}


def small(i, protocol="TCP"):
    selector = {"matchLabels": {"app": f"a{i % 64}", "io.kubernetes.pod.namespace": "default"}}
    return apply("p", {"description": "one of many", "endpointSelector": selector, "ingress": [entry(i, protocol)], "egress": []})


def applies(count):
    return "".join(map(small, range(count)))


def refused(count):
    return "".join(small(i, "IP") for i in range(count))


def of_entries(count):
    return apply("p", {"endpointSelector": {}, "ingress": [*map(entry, range(count))]})


def with_status(kibibytes):
    condition = {"type": "Valid", "status": "True", "message": "x" * 1000}
    return apply("p", {"endpointSelector": {}}, status={"conditions": [condition] * kibibytes})


def no_spec(count):
    return lines.text({"op": "apply", "policy": {"apiVersion": "cilium.io/v2", "kind": "CiliumNetworkPolicy", "metadata": {"name": "p"}, "status": ["x" * 300]}}) * count


def main():
    rows = results.Rows("--keep" in sys.argv[1:])
    for name, script, counts in (
        ("applies", applies, (20_000, 40_000, 80_000)),
        ("refused applies", refused, (20_000, 40_000, 80_000)),
        ("no-spec lines", no_spec, (20_000, 40_000, 75_000)),
        ("entries", of_entries, (2_500, 5_000, 10_000)),
        ("KiB of status", with_status, (2_560, 5_120, 10_240)),
    ):
        last = None
        for count in counts:
            made = script(count)
            seconds, memory = lines.measured([], made)
            size = len(made) / 1e6
            rows.add(f"bench/reading.py {name}", f"{count}, of {size:.1f} MB", [size / seconds], "MB/s")
            rows.add(f"bench/reading.py {name}: peak", f"{count}, of {size:.1f} MB", [memory], "MiB")
            ratio = "" if last is None else f"  x{seconds / last:.2f}"
            print(f"{count:>9} {name:<15} {size:8.1f} MB {seconds:8.2f} s {size / seconds:8.1f} MB/s {memory:9.1f} MiB{ratio}", flush=True)
            last = seconds


if __name__ == "__main__":
    main()
