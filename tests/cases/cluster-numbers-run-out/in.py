"""Each of the 65,280 cluster numbers is taken. Then a new label set finds none, until a number has lost its last holder."""
import json


def line(**value):
    print(json.dumps(value, separators=(",", ":")))


def identity(name, n):
    line(op="identity", name=name, labels=[f"k8s:n={n}"])


def endpoint(name, labels, address):
    line(op="endpoint", name=name, labels=labels, address=address)


def gone(name):
    line(op="remove-identity", name=name)


for i in range(65_280):
    identity(f"n{i}", i)
identity("more", "more")
endpoint("e", ["k8s:n=more"], "10.0.0.1")
endpoint("begun", ["reserved:init"], "10.0.0.2")
identity("again", 7)
gone("n7")
identity("more", "more")
gone("again")
endpoint("e", ["k8s:n=more"], "10.0.0.1")
identity("more", "more")
identity("other", "other")
gone("n65279")
gone("n0")
identity("other", "other")
identity("last", "last")
identity("none", "none")
