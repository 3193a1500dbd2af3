#!/usr/bin/env python3
"""A stand-in for connections, for checks of what asks it: tests/judge tells what is open. Other words than --halves mean nothing."""
import pathlib
import sys

sys.dont_write_bytecode = True
sys.path.insert(0, str(pathlib.Path(__file__).resolve().parent))
from judge import opened  # noqa: E402


def main(words, data):
    told, status = opened.told(data, halves="--halves" in words)
    sys.stdout.buffer.write(told)
    return status


if __name__ == "__main__":
    sys.exit(main(sys.argv[1:], sys.stdin.buffer.read()))
