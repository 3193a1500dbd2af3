"""The same map, whatever limit is asked for."""
import pathlib
import runpy

runpy.run_path(str(pathlib.Path(__file__).parent.parent / "map-above-the-limit" / "out.py"))
