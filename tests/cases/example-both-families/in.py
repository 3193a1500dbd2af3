"""The script is the example of this case's name."""
import pathlib
import sys

case = pathlib.Path(__file__).resolve().parent
name = case.name.removeprefix("example-")
sys.stdout.buffer.write((case.parents[2] / "examples" / f"{name}.jsonl").read_bytes())
