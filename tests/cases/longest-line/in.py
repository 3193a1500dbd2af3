"""A line of 16 MiB between two others."""
print('{"op":"sync"}')
print('{"op":"' + "x" * ((1 << 24) - 9) + '"}')
print('{"op":"sync"}')
