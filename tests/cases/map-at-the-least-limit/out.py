"""The answers, by the rules: with 254 identities the map has 256 entries, and the endpoint keeps it while there is one more."""
print("ok 1 identity 256")
for j in range(254):
    print(f"ok {j + 2} identity {257 + j}")
print("ok 256", "synced 256", "allowed at 256", sep="\n")
print("ok 257 identity 511", "synced 257 full web@257=257", "denied-by-default at 256", sep="\n")
print("ok 258", "synced 258", "allowed at 258", sep="\n")
