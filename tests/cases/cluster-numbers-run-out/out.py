"""The answers, by the rules: the numbers 256 to 65535, the least free one first, and 37 where none is free.

A set that has a number takes no other, nor does `reserved:init`, which is 5. The number 263 is free once both who hold it
have gone; it goes to an endpoint then. At last 256 and 65535 are free, and go in that order.
"""
for i in range(65_280):
    print(f"ok {i + 1} identity {256 + i}")
print("""refused 37 identities-exhausted at 65280
refused 37 identities-exhausted at 65280
ok 65281 identity 5
ok 65282 identity 263
ok 65283
refused 37 identities-exhausted at 65283
ok 65284
ok 65285 identity 263
ok 65286 identity 263
refused 37 identities-exhausted at 65286
ok 65287
ok 65288
ok 65289 identity 256
ok 65290 identity 65535
refused 37 identities-exhausted at 65290""")
