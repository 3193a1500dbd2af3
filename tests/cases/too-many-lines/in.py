"""1,000,001 empty lines: one more than a script may have."""
import sys

sys.stdout.write("\n" * 1_000_001)
