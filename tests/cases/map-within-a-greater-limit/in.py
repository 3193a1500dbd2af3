"""The script of `map-too-large`: a map of 16,385 entries, and then of one less."""
import pathlib
import runpy

runpy.run_path(str(pathlib.Path(__file__).parent.parent / "map-too-large" / "in.py"))
