"""The map, by the rules: the ports 1 to 65534 in the widest prefixes, for each identity and protocol, beside what is for all."""
PROTOCOLS = ("TCP", "UDP", "SCTP")
SPLIT = [(2**k, 16 - k) for k in range(15)] + [(65536 - 2**k, 17 - k) for k in range(15, 0, -1)]
for protocol in PROTOCOLS:
    print(f"ingress 0 {protocol} 80/16 allow")
print("ingress 1 every 0/0 allow")
for j in range(182):
    for protocol in PROTOCOLS:
        for port, length in SPLIT:
            print(f"ingress {257 + j} {protocol} {port}/{length} allow")
print("egress 0 every 0/0 allow")
