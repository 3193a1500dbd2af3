"""A line of 1 MiB between two others: a text that is no form of the script."""
print('{"op":"sync"}')
print('{"op":"' + "x" * (1 << 20) + '"}')
print('{"op":"sync"}')
