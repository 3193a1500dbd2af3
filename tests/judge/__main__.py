"""Judges one output.

    tests/judge SCRIPT OUTPUT STATUS     says what is wrong with the output, and ends with 1 where something is
"""
import sys
from pathlib import Path

sys.path.insert(0, str(Path(__file__).resolve().parent.parent))
from judge.runs import wrong_with

if __name__ == "__main__":
    script, output, status = sys.argv[1:]
    wrong = wrong_with(Path(script).read_bytes(), Path(output).read_bytes(), int(status))
    print(wrong or "a run")
    sys.exit(1 if wrong else 0)
