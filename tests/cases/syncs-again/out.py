"""The answers, by the rules: 182 times 90, and 1, 2, 1 and 1, are 16,385; one less is as many as a map may have."""
print("ok 1 identity 256")
for j in range(182):
    print(f"ok {j + 2} identity {257 + j}")
print("ok 184", "ok 185", *["synced 185 full web@185=16385"] * 3, "phase 1", sep="\n")
print(*["synced 185 full web@185=16385"] * 3, "ok 186 identity 439", *["synced 186 full web@186=16385"] * 3, "phase 2", sep="\n")
print("ok 187", *["synced 187"] * 3, "allowed at 187", "phase 3", sep="\n")
print("ok 188", *["synced 188"] * 3, "ok 189 identity 256", *["synced 189"] * 3, "allowed at 189", sep="\n")
