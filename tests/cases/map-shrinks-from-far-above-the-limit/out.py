"""The answers, by the rules: an entry for each of the prefixes, and one for the local host and one for egress beside them."""


def prefixes(first, last):
    """How many port prefixes make up the range: from the first port on, each time the widest one that fits."""
    count = 0
    while first <= last:
        size = 65536 if first == 0 else first & -first
        while first + size - 1 > last:
            size //= 2
        first, count = first + size, count + 1
    return count


entries = 400 * 3 * sum(prefixes(at + 1, at + 1636) for at in range(0, 40 * 1638, 1638)) + 2
print("ok 1 identity 256")
for j in range(400):
    print(f"ok {j + 2} identity {257 + j}")
print("synced 401", "allowed at 401", "noendpoint at 401", "ok 402", "ok 403 identity 256", sep="\n")
print(f"synced 403 full first@403={entries} second@403={entries}", "allowed at 401", "notyet at 403", sep="\n")
print("ok 404", "synced 404", "allowed at 404", "allowed at 404", sep="\n")
