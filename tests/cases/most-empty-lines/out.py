import sys

sys.stdout.write("refused 1 json\n" * 1_000_000)
