"""1,000,000 empty lines."""
import sys

sys.stdout.write("\n" * 1_000_000)
