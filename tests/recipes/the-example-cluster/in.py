"""The objects of examples/cluster, with the policy that is proposed."""
import pathlib

folder = pathlib.Path(__file__).resolve().parents[3] / "examples" / "cluster"
for name in ("state.json", "proposed.json"):
    print((folder / name).read_text())
