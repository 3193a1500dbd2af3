"""A document that is nested too deeply."""
print("[" * 100000)
