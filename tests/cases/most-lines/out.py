"""The answers to 1,000,000 synchronisations of an empty state."""
import sys

sys.stdout.write("synced 0\n" * 1_000_000)
