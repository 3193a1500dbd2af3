"""No crate above the ground knows how an address is made of bits.

The crates of addresses, of the prefix table and of local prefixes do, and all others ask them. So no other file of code or of
definitions names a kind of address, its bits, or how many bits a family has; it may write an IPv4 address by its octets. Files of
examples and laws, and crates of tests and benchmarks, may: they make values.
"""
import re

import kinds

GROUND = {"pol_addr", "pol_prefix_table", "pol_local_prefixes"}
EXAMPLES = re.compile(r"xample|laws")
NAMES = r"\b(?:V4|V6|bits_of|width_of|addr_in|Ipv4Addr|Ipv6Addr)\b"
IMPORTS = r"pol_addr\.specs\.(?:Cidr\.\{[^}]*\bnetwork|Families\.\{[^}]*\bwidth)\b"
BITS = re.compile(rf"{NAMES}|{IMPORTS}|\.width\(\)")


def named():
    """Where a crate above the ground names the bits of an address."""
    for crate, path, text in kinds.searched():
        if crate not in GROUND and not EXAMPLES.search(path):
            for word in sorted(set(BITS.findall(text))):
                yield f"crates/{crate}/{path} names {word}: ask pol_addr"


def checks():
    yield "bits of addresses above the ground", lambda: list(named())
