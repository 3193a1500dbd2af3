"""The answers, by the rules: 16,385 entries are as many as a map may have here."""
print("ok 1 identity 256")
for j in range(182):
    print(f"ok {j + 2} identity {257 + j}")
print("ok 184", "synced 184", "denied-by-default at 184", sep="\n")
print("ok 185", "synced 185", "allowed at 185", sep="\n")
print("ok 186", "synced 186", "allowed at 186", sep="\n")
