"""1,000,000 lines, as many as a script may have."""
import sys

sys.stdout.write('{"op":"sync"}\n' * 1_000_000)
