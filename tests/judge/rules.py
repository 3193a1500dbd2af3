"""What policies mean, written from docs/RULES.md alone: it shares nothing with the program.

A state is plain data. `after` gives the state after a request, `fault` the first fault that a request has in a state,
`verdict` the word for a packet by a scan of all rules, `explain` the word with its places, and `map_size` how many entries
an endpoint's policy map has.
"""
import re
from dataclasses import dataclass, field, replace

NAMESPACE = "io.kubernetes.pod.namespace"
NAMESPACE_LABELS = "io.cilium.k8s.namespace.labels."
RESERVED = ["host", "world", "unmanaged", "health", "init", "remote-node", "kube-apiserver", "ingress", "world-ipv4", "world-ipv6"]
ENTITIES = ["all", "world", "world-ipv4", "world-ipv6", "host", "remote-node", "kube-apiserver", "ingress", "init", "health", "unmanaged", "cluster"]
CLUSTER_LABEL = ("k8s", "io.cilium.k8s.policy.cluster", "default")
INIT_LABELS = frozenset({("reserved", "init", "")})
INGRESS, EGRESS = "ingress", "egress"
PROTOCOLS = ["TCP", "UDP", "SCTP"]
MOST_ENDPOINTS, FIRST_CLUSTER, LAST_CLUSTER = 256, 256, 65535
FIRST_LOCAL, LAST_LOCAL, HOST = 16777217, 16842751, 1
# Each family with the bits of its addresses, and the identity and the name of its world.
IPV4, IPV6 = 4, 6
WIDTHS = {IPV4: 32, IPV6: 128}
WORLDS = {IPV4: 9, IPV6: 10}
WORLD_NAMES = {IPV4: "world-ipv4", IPV6: "world-ipv6"}
# Who lies outside the cluster: what the entity `world` selects, by its labels.
OUTSIDE = ["world", *WORLD_NAMES.values()]
GROUPS, GROUP_BITS = 8, 16


# ---- labels, selectors, prefixes

def label_of(text):
    """(source, key, value) of a label text, None where it is bad."""
    before = text.split("=", 1)[0]
    value = text.split("=", 1)[1] if "=" in text else ""
    source, key = before.split(":", 1) if ":" in before else ("unspec", before)
    bad = not key or not source or source == "any" or re.search("[^!-~]", text)
    return None if bad else (source, key, value)


@dataclass(frozen=True)
class Requirement:
    """What a selector asks of the labels of a key; the source None stands for every one."""
    source: object
    key: str
    operator: str
    values: tuple = ()

    def met_by(self, labels):
        found = [v for s, k, v in labels if k == self.key and self.source in (None, s)]
        return {"In": any(v in self.values for v in found), "NotIn": not any(v in self.values for v in found),
                "Exists": bool(found), "DoesNotExist": not found}[self.operator]


def matches(selector, labels):
    return all(one.met_by(labels) for one in selector)


def dotted(text):
    """The number of four decimal numbers, None where the text is none."""
    parts = text.split(".")
    if len(parts) != 4 or not all(re.fullmatch("0|[1-9][0-9]{0,2}", it) and int(it) < 256 for it in parts):
        return None
    return sum(int(it) << 8 * (3 - at) for at, it in enumerate(parts))


def groups_of(text):
    """The groups of a text of them, none of an empty one; None where one of them is no group."""
    parts = text.split(":") if text else []
    return [int(it, 16) for it in parts] if all(re.fullmatch("[0-9a-fA-F]{1,4}", it) for it in parts) else None


def grouped(text):
    """The number of eight groups, some of which may be written as `::`; None where the text is none."""
    parts = [groups_of(it) for it in text.split("::")]
    if None in parts or len(parts) > 2:
        return None
    front, back = parts[0], parts[-1] if len(parts) == 2 else []
    left_out = GROUPS - len(front) - len(back)
    if left_out < 1 if len(parts) == 2 else left_out != 0:
        return None
    return sum(it << GROUP_BITS * (GROUPS - 1 - at) for at, it in enumerate([*front, *[0] * left_out, *back]))


def address_of(text):
    """(family, number) of an address, None where the text is none."""
    family, number = (IPV6, grouped(text)) if ":" in text else (IPV4, dotted(text))
    return None if number is None else (family, number)


def cleared(address, length):
    """The prefix (family, network, length) of an address."""
    family, number = address
    behind = WIDTHS[family] - length
    return (family, number >> behind << behind, length)


def prefix_of(text):
    """(family, network, length) of a CIDR text, None where the text is none."""
    head, slash, tail = text.partition("/")
    address = address_of(head)
    if address is None:
        return None
    length = tail if slash else str(WIDTHS[address[0]])
    if not re.fullmatch("0|[1-9][0-9]{0,2}", length) or int(length) > WIDTHS[address[0]]:
        return None
    return cleared(address, int(length))


def contains(prefix, address):
    return prefix[0] == address[0] and cleared(address, prefix[2]) == prefix


def covers(prefix, other):
    return prefix[2] <= other[2] and contains(prefix, other[:2])


def world_around(prefix):
    """The prefix of all addresses of a prefix's family."""
    return (prefix[0], 0, 0)


# ---- policies

@dataclass(frozen=True)
class Peer:
    """One peer: a selector, a prefix with exceptions, or an entity."""
    kind: str
    selector: tuple = ()
    prefix: tuple = ()
    exceptions: tuple = ()
    entity: str = ""


@dataclass(frozen=True)
class Entry:
    """Peers (None is every remote) and ports: (protocol or None, first, last)."""
    peers: object
    ports: tuple


@dataclass(frozen=True)
class Rule:
    """What its member says of default deny is by direction, None or nothing where it says nothing."""
    subject: tuple
    sections: dict = field(hash=False)
    default_deny: dict = field(default_factory=dict, hash=False)


@dataclass(frozen=True)
class Policy:
    """Its key is (cluster-wide, namespace, name)."""
    key: tuple
    rules: tuple


def prefixes_of(policy):
    """The prefixes that take numbers, in the order of the document, each once: all but the two of the worlds."""
    found = []
    for rule in policy.rules:
        for section in ("ingress", "ingressDeny", "egress", "egressDeny"):
            for entry in rule.sections[section]:
                for peer in entry.peers or ():
                    found += [it for it in (peer.prefix, *peer.exceptions) if peer.kind == "cidr"]
    return [*dict.fromkeys(it for it in found if it != world_around(it))]


# ---- the state

@dataclass(frozen=True)
class Row:
    """An identity."""
    labels: frozenset
    prefix: object
    holders: int


@dataclass(frozen=True)
class Endpoint:
    added: int
    slot: int
    labels: frozenset
    identity: int
    address: tuple


@dataclass(frozen=True)
class State:
    """Identities by number, names of identities, policies by key in their order, endpoints by name."""
    mode: str
    localhost: bool
    revision: int = 0
    rows: dict = field(default_factory=dict)
    names: dict = field(default_factory=dict)
    policies: dict = field(default_factory=dict)
    endpoints: dict = field(default_factory=dict)


def labels_named(name):
    return frozenset({("reserved", name, "")})


def start(mode, localhost):
    rows = {number: Row(labels_named(name), None, 1) for number, name in enumerate(RESERVED, 1)}
    for family, number in WORLDS.items():
        rows[number] = replace(rows[number], prefix=(family, 0, 0))
    return State(mode, localhost, 0, rows)


def is_reserved(number):
    return number <= len(RESERVED)


def least_free(rows, first, last):
    return next((number for number in range(first, last + 1) if number not in rows), None)


def number_of_labels(rows, labels):
    if labels == INIT_LABELS:
        return 5
    return next((number for number, row in rows.items() if row.labels == labels and row.prefix is None and not is_reserved(number)), None)


def prefix_numbers(rows):
    """The local numbers, by their prefixes."""
    return {row.prefix: number for number, row in rows.items() if number >= FIRST_LOCAL}


def held(rows, number, row):
    """The rows with one holder more of the number, whose row this is where it is new."""
    if is_reserved(number):
        return rows
    old = rows.get(number)
    return {**rows, number: replace(old, holders=old.holders + 1) if old else row}


def released(rows, number):
    if is_reserved(number):
        return rows
    if rows[number].holders == 1:
        return {at: row for at, row in rows.items() if at != number}
    return {**rows, number: replace(rows[number], holders=rows[number].holders - 1)}


def hold_labels(rows, labels):
    number = number_of_labels(rows, labels) or least_free(rows, FIRST_CLUSTER, LAST_CLUSTER)
    return held(rows, number, Row(labels, None, 1)), number


def hold_prefixes(rows, prefixes):
    rows, numbers = dict(rows), prefix_numbers(rows)
    free = (number for number in range(FIRST_LOCAL, LAST_LOCAL + 1) if number not in rows)
    for prefix in prefixes:
        number = numbers[prefix] if prefix in numbers else next(free)
        old = rows.get(number)
        rows[number] = replace(old, holders=old.holders + 1) if old else Row(labels_named(WORLD_NAMES[prefix[0]]), prefix, 1)
    return rows


def release_prefixes(rows, prefixes):
    rows, numbers = dict(rows), prefix_numbers(rows)
    for number in (numbers[it] for it in prefixes):
        if rows[number].holders == 1:
            del rows[number]
        else:
            rows[number] = replace(rows[number], holders=rows[number].holders - 1)
    return rows


# ---- requests: (operation, what it is about ..)

def labels_fault(state, request):
    """Reserved labels, and numbers that are all taken."""
    labels, is_endpoint = request[2], request[0] == "endpoint"
    reserved = any(source == "reserved" for source, _, _ in labels)
    full = number_of_labels(state.rows, labels) is None and least_free(state.rows, FIRST_CLUSTER, LAST_CLUSTER) is None
    return reserved and not (is_endpoint and labels == INIT_LABELS), full


def endpoint_fault(state, request):
    reserved, full = labels_fault(state, request)
    return (41 if reserved else 30 if request[1] in state.endpoints else 32 if len(state.endpoints) == MOST_ENDPOINTS
            else 35 if any(it.address == request[3] for it in state.endpoints.values()) else 37 if full else None)


def identity_fault(state, request):
    reserved, full = labels_fault(state, request)
    return 41 if reserved else 33 if request[1] in state.names else 37 if full else None


def apply_fault(state, request):
    numbers = prefix_numbers(state.rows)
    new = sum(it not in numbers for it in prefixes_of(request[1]))
    return 38 if len(numbers) + new > LAST_LOCAL - FIRST_LOCAL + 1 else None


def fault(state, request):
    """The number of the first fault that the request has in the state, None where it has none."""
    return {"endpoint": endpoint_fault, "identity": identity_fault, "apply": apply_fault,
            "remove-endpoint": lambda s, r: None if r[1] in s.endpoints else 31,
            "remove-identity": lambda s, r: None if r[1] in s.names else 34,
            "delete": lambda s, r: None if r[1] in s.policies else 36,
            "mode": lambda s, r: None}[request[0]](state, request)


def without(table, key):
    return {at: it for at, it in table.items() if at != key}


def with_endpoint(state, request):
    _, name, labels, address = request
    rows, number = hold_labels(state.rows, labels)
    taken = {it.slot for it in state.endpoints.values()}
    slot = next(at for at in range(MOST_ENDPOINTS) if at not in taken)
    row = Endpoint(state.revision + 1, slot, labels, number, address)
    return replace(state, rows=rows, endpoints={**state.endpoints, name: row}), number


def with_policy(state, policy):
    old = state.policies.get(policy.key)
    rows = hold_prefixes(state.rows, prefixes_of(policy))
    rows = release_prefixes(rows, prefixes_of(old) if old else [])
    return replace(state, rows=rows, policies={**state.policies, policy.key: policy})


def without_holder(state, table, name):
    number = state.endpoints[name].identity if table == "endpoints" else state.names[name]
    return replace(state, rows=released(state.rows, number), **{table: without(getattr(state, table), name)})


def after(state, request):
    """The state after a request that has no fault, and the number of the identity that it gives."""
    op, number = request[0], None
    if op == "endpoint":
        state, number = with_endpoint(state, request)
    elif op == "identity":
        rows, number = hold_labels(state.rows, request[2])
        state = replace(state, rows=rows, names={**state.names, request[1]: number})
    elif op == "remove-endpoint":
        state = without_holder(state, "endpoints", request[1])
    elif op == "remove-identity":
        state = without_holder(state, "names", request[1])
    elif op == "apply":
        state = with_policy(state, request[1])
    elif op == "delete":
        rows = release_prefixes(state.rows, prefixes_of(state.policies[request[1]]))
        state = replace(state, rows=rows, policies=without(state.policies, request[1]))
    else:
        state = replace(state, mode=request[1])
    return replace(state, revision=state.revision + 1), number


# ---- verdicts

def selects(rows, peer, number):
    row = rows.get(number)
    if peer.kind == "entity" and peer.entity == "all":
        return True
    if row is None:
        return False
    if peer.kind == "labels":
        return matches(peer.selector, row.labels)
    if peer.kind == "cidr":
        inside = row.prefix is not None and covers(peer.prefix, row.prefix)
        return inside and not any(covers(it, row.prefix) for it in peer.exceptions)
    if peer.entity == "cluster":
        return number in (1, 3, 4, 5, 6, 7, 8) or CLUSTER_LABEL in row.labels
    names = OUTSIDE if peer.entity == "world" else [peer.entity]
    return any(("reserved", name, "") in row.labels for name in names)


def has_effect(entry):
    return entry.peers is not None or bool(entry.ports)


def entry_covers(rows, entry, number, protocol, port):
    peers = entry.peers is None or any(selects(rows, it, number) for it in entry.peers)
    ports = not entry.ports or any(p in (None, protocol) and first <= port <= last for p, first, last in entry.ports)
    return has_effect(entry) and peers and ports


def selecting(state, labels):
    """The rules that select an endpoint, each with its policy's key and its place there."""
    return [(key, at, rule) for key, policy in state.policies.items() for at, rule in enumerate(policy.rules)
            if matches(rule.subject, labels)]


def says(rule, direction):
    """Whether the rule puts a direction under default deny."""
    said = rule.default_deny.get(direction)
    return bool(rule.sections[direction] or rule.sections[direction + "Deny"]) if said is None else said


def enforced(state, endpoint, direction):
    if state.mode != "default":
        return state.mode == "always"
    return endpoint.identity == 5 or any(says(rule, direction) for _, _, rule in selecting(state, endpoint.labels))


def places(state, endpoint, section, packet):
    found = []
    for (_, namespace, name), at, rule in selecting(state, endpoint.labels):
        found += [f"{namespace}/{name}#{at}.{section}[{n}]" for n, entry in enumerate(rule.sections[section])
                  if entry_covers(state.rows, entry, *packet)]
    return found


def explain(state, endpoint, direction, packet):
    """The word, the places that deny and those that allow; a packet is (number, protocol, port)."""
    denies, allows = (places(state, endpoint, direction + end, packet) for end in ("Deny", ""))
    local = direction == INGRESS and packet[0] == HOST and state.localhost
    if state.mode == "never":
        word = "allowed"
    elif denies:
        word = "denied-by-rule"
    else:
        word = "allowed" if allows or not enforced(state, endpoint, direction) or local else "denied-by-default"
    return word, denies, allows


def remote(state, address):
    """The number that an address has."""
    own = next((it.identity for it in state.endpoints.values() if it.address == address), None)
    around = [(row.prefix[2], number) for number, row in state.rows.items() if row.prefix and contains(row.prefix, address)]
    return own if own is not None else max(around)[1]


# ---- the size of a map

def split(first, last):
    """The port prefixes (first port, how many ports) of a range, the widest that lie in it."""
    found = []
    while first <= last:
        size = first & -first if first else 65536
        while first + size - 1 > last:
            size //= 2
        found.append((first, size))
        first += size
    return found


def entry_keys(rows, entry):
    """The (number, protocol, first port, how many) that an entry gives; the protocol None is every one."""
    numbers = [0] if entry.peers is None else [
        number for peer in entry.peers
        for number in ([0] if (peer.kind, peer.entity) == ("entity", "all") else [n for n in rows if selects(rows, peer, n)])]
    ports = [(None, 0, 65536)] if not entry.ports else [
        (proto, *part) for p, first, last in entry.ports for proto in (PROTOCOLS if p is None else [p]) for part in split(first, last)]
    return {(number, *port) for number in numbers for port in ports}


def lies_under(key, other):
    wide = other[1] is None or other[1] == key[1]
    return key != other and wide and key[0] == other[0] and other[2] <= key[2] and key[2] + key[3] <= other[2] + other[3]


def direction_size(state, endpoint, direction):
    keys = {"": set(), "Deny": set()}
    for _, _, rule in selecting(state, endpoint.labels):
        for end, found in keys.items():
            for entry in rule.sections[direction + end]:
                found |= entry_keys(state.rows, entry) if has_effect(entry) else set()
    allows, denies = keys[""], keys["Deny"]
    allows |= set() if enforced(state, endpoint, direction) else {(0, None, 0, 65536)}
    allows |= {(HOST, None, 0, 65536)} if direction == INGRESS and state.localhost else set()
    by_number = {}
    for deny in denies:
        by_number.setdefault(deny[0], []).append(deny)
    return sum(not any(lies_under(key, deny) for deny in by_number.get(key[0], [])) for key in allows | denies)


def map_size(state, endpoint):
    if state.mode == "never":
        return 2
    return sum(direction_size(state, endpoint, direction) for direction in (INGRESS, EGRESS))
