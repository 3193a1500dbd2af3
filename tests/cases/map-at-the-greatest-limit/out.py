"""The answers, by the rules: 728 times 90, 14, 1 and 1 are 65,536; with one port more the endpoint keeps that map."""
print("ok 1 identity 256")
for j in range(728):
    print(f"ok {j + 2} identity {257 + j}")
print("ok 730", "ok 731", "synced 731", "allowed at 731", sep="\n")
print("ok 732", "synced 732 full web@732=65537", "denied-by-default at 731", sep="\n")
print("ok 733", "synced 733", "denied-by-default at 733", sep="\n")
