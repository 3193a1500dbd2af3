"""The script of `map-above-the-limit`: 16,385 entries."""
import pathlib
import runpy

runpy.run_path(str(pathlib.Path(__file__).parent.parent / "map-above-the-limit" / "in.py"))
