"""The plain reading of a disk's bytes: whether `pfd` opens an image, and what it then holds; or which refusal it gives, and its place.

It was written once, slowly, from docs/DISK.md and not from the code, so that two readings that were made apart can be compared. What that
page says of rules, entries and states is how many bytes they have; what stands in these is a table here (`rule`, `entry`, `state`), and which
names, paths and numbers are allowed is as docs/LINES.md has it.

    read(image)       what `pfd show` finds: a Found, or Refusal is raised
    shown(image)      the lines that `pfd show` prints, or the one line of its refusal
    refused(image)    the words by which `pfd run` and `pfd serve` would refuse to open it, or None
    snapshot(held)    the bytes of a snapshot of what is held

It sees nothing of want of memory, of a device that fails, or of a file's name and length that the words ask for.
"""
import hashlib
import struct
from typing import NamedTuple

OPEN = 0xA5
LEAST_SIZE, MOST_SIZE = 256, 1_073_741_824
# The bytes of a bank's header, of an opening's record with its gate and the gate behind it, of a rule without its label, and of what stands
# behind a state's flow.
HEADER, OPENING, RULE, ALL_ONES = 24, 12, 204, b"\xff" * 8
# The versions that a bank may have. The newest is written; a rule has a label from the second on, a snapshot a tick and a state an expiry
# from the third.
VERSIONS, NEWEST, LABELS_FROM, EXPIRY_FROM = (1, 2, 3), 3, 2, 3
MOST_GENERATION = (1 << 63) - 1
LAST_EPOCH = (1 << 32) - 1
MOST_RULES, MOST_RULESETS, MOST_TABLES, MOST_ENTRIES, MOST_STATES = 1024, 1024, 1024, 65_536, 65_536
MOST_CHANGES, MOST_ITEMS = 64, 64
MOST_PATH, MOST_PARTS, MOST_PART, MOST_NAME, MOST_INTERFACE, MOST_REFERENCE, MOST_LABEL = 255, 16, 63, 31, 15, 63, 63
NAME_BYTES = frozenset(b"ABCDEFGHIJKLMNOPQRSTUVWXYZabcdefghijklmnopqrstuvwxyz0123456789_.-")
TCP, UDP = 6, 17
BLOCK, PASS, ANCHOR = 0, 1, 2
ANY, NETWORK, TABLE = 0, 1, 2
# What has the same length everywhere, field by field: a bank's header, an entry, a state, a rule up to its label, one of its two hosts.
HEADER_FIELDS = struct.Struct(">BB6sQI4s")
ENTRY_FIELDS = struct.Struct(">BBBB16s")
STATE_FIELDS = struct.Struct(">QIIBBBB16s16sHH8sB3sI16sQ")
RULE_FIELDS = struct.Struct(">BBBBBB2s16s56s56s64sBB2s")
HOST_FIELDS = struct.Struct(">BBBBHH16s32s")


class Refusal(Exception):
    """An image that isn't opened, with the program's words for it."""


class NoForm(Exception):
    """Bytes that nothing is written as."""


class NoFit(Exception):
    """A change that doesn't fit what is kept before it."""


def demand(holds, fault=NoForm):
    if not holds:
        raise fault


class Reader:
    """Bytes that are taken from the front on, as a version writes them."""

    def __init__(self, some, version=NEWEST):
        self.some, self.version, self.place = some, version, 0

    def go(self, count):
        """Goes on by so many bytes, and gives the place before them."""
        start, self.place = self.place, self.place + count
        if self.place > len(self.some):
            raise NoForm
        return start

    def take(self, count):
        start = self.go(count)
        return self.some[start : start + count]

    def number(self, width):
        start = self.go(width)
        return int.from_bytes(self.some[start : start + width], "big")

    def fields(self, form):
        return form.unpack_from(self.some, self.go(form.size))

    def one_of(self, *allowed):
        byte = self.number(1)
        demand(byte in allowed)
        return byte

    def end(self):
        demand(self.place == len(self.some))


class Bound(NamedTuple):
    """The main rule that a state is bound to, by its number and the checksum of the main rules then."""

    number: int
    checksum: bytes


class State(NamedTuple):
    """What stands behind a state's name. `bound` is None for the default rule, `expiry` 0 for never."""

    generation: int
    direction: int
    family: int
    protocol: int
    source: bytes
    destination: bytes
    source_port: int
    destination_port: int
    bound: Bound | None
    expiry: int = 0

    def flow(self):
        """The same for each two states of one flow: that of the packets that come in."""
        ends = (self.source, self.source_port), (self.destination, self.destination_port)
        return (self.family, self.protocol, *(ends if self.direction == 1 else ends[::-1]))

    def is_due(self, tick):
        """Whether the tick has reached its expiry."""
        return 0 < self.expiry <= tick


class Held:
    """What a disk holds: the tick, rules by path, entries by path and name, states by id and creator."""

    def __init__(self, epoch, tick=0):
        self.epoch, self.tick, self.rulesets, self.tables, self.states, self.flows = epoch, tick, {}, {}, {}, {}

    def put_rules(self, path, rules):
        put(self.rulesets, path, rules)

    def put_table(self, key, entries):
        put(self.tables, key, entries)

    def put_state(self, name, state):
        self.drop_state(name)
        self.states[name] = state
        self.flows[state.flow()] = name

    def drop_state(self, name):
        state = self.states.pop(name, None)
        if state is not None:
            del self.flows[state.flow()]

    def copied(self):
        """The same, of which nothing changes when this does."""
        made = Held(self.epoch, self.tick)
        made.rulesets, made.tables, made.states, made.flows = map(dict, (self.rulesets, self.tables, self.states, self.flows))
        return made

    def checksum(self):
        """MD5 over the bytes of the main rules, with their labels."""
        return hashlib.md5(b"".join(self.rulesets.get(b"", []))).digest()

    def within_limits(self):
        return (len(self.rulesets) <= MOST_RULESETS and len(self.tables) <= MOST_TABLES and len(self.states) <= MOST_STATES
                and all(len(rules) <= MOST_RULES for rules in self.rulesets.values())
                and all(len(entries) <= MOST_ENTRIES for entries in self.tables.values()))


def put(some, key, value):
    """What is empty isn't there."""
    if value:
        some[key] = value
    else:
        some.pop(key, None)


# Names and paths


def is_name(some, most):
    return 1 <= len(some) <= most and NAME_BYTES.issuperset(some)


def is_part(some):
    """A component of a path."""
    return is_name(some, MOST_PART) and some not in (b"..", b"-")


def is_path(some, most=MOST_PATH):
    parts = some.split(b"/")
    return len(some) <= most and len(parts) <= MOST_PARTS and all(map(is_part, parts))


def path(reader):
    """Behind its length; main's has no bytes."""
    some = reader.take(reader.number(1))
    demand(some == b"" or is_path(some))
    return some


def table_name(reader):
    some = reader.take(reader.number(1))
    demand(is_name(some, MOST_NAME))
    return some


def filled(some):
    """A name in a field that has zeros behind it, down to none at all."""
    name = some.rstrip(b"\0")
    demand(b"\0" not in name)
    return name


# Addresses, entries and states


def is_address(some, family):
    """16 bytes, of which an IPv4 address has the first four and zeros behind them."""
    return family == 6 or some[4:] == bytes(12)


def network(family, length, some):
    """An address whose bits behind the length are zeros."""
    demand(length <= (32 if family == 4 else 128) and is_address(some, family))
    demand(int.from_bytes(some, "big") & ((1 << 128 - length) - 1) == 0)
    return family, some, length


def entry(reader):
    """20 bytes: family, length, 1 where it is negated, a zero, and the address. It gives the network, and whether it is negated."""
    family, length, negated, zero, some = reader.fields(ENTRY_FIELDS)
    demand(family in (4, 6) and negated in (0, 1) and zero == 0)
    return network(family, length, some), negated == 1


def entries(reader):
    """Entries behind their number, as they were handed in."""
    return [entry(reader) for _ in range(reader.number(4))]


def table(reader):
    """Entries behind their number, in the order of a table: IPv4 before IPv6, then by address, then the shorter first."""
    rows = entries(reader)
    demand(len(rows) <= MOST_ENTRIES and rises([row[0] for row in rows]))
    return dict(rows)


def rises(keys):
    return all(one < other for one, other in zip(keys, keys[1:]))


def flow(direction, family, protocol, zero, source, destination, *ports):
    """40 bytes of a record: direction, family, protocol, a zero, both addresses and both ports."""
    demand(direction in (1, 2) and family in (4, 6) and protocol != 0 and zero == 0)
    demand(is_address(source, family) and is_address(destination, family) and (ports == (0, 0) or protocol in (TCP, UDP)))
    return direction, family, protocol, source, destination, *ports


def bound(kind, zeros, number, checksum):
    """24 bytes: 0 for the default rule or 1 for a main rule, three zeros, its number, a checksum."""
    demand(kind in (0, 1) and zeros == bytes(3))
    demand(kind == 1 or (number == 0 and checksum == bytes(16)))
    return Bound(number, checksum) if kind == 1 else None


def tick(reader):
    """There is none before the third version: then it is 0."""
    return reader.number(8) if reader.version >= EXPIRY_FROM else 0


def state_name(reader):
    return reader.number(8), reader.number(4)


def state(reader):
    """96 bytes: id, creator, generation, the flow, eight bytes of all ones, what it is bound to, and when it expires. In a version before the
    third that is zeros."""
    number, creator, generation, *some = reader.fields(STATE_FIELDS)
    ones, expiry = some[8], some[13]
    demand(ones == ALL_ONES and (expiry == 0 or reader.version >= EXPIRY_FROM))
    return (number, creator), State(generation, *flow(*some[:8]), bound(*some[9:13]), expiry)


# Rules


class Host(NamedTuple):
    kind: int
    negated: int
    length: int
    test: int
    ports: tuple
    address: bytes
    name: bytes


class Rule(NamedTuple):
    effect: int
    direction: int
    quick: int
    keeps: int
    family: int
    protocol: int
    interface: bytes
    source: Host
    destination: Host
    reference: bytes
    wildcard: int
    label: bytes


def port_test(test, ports):
    """0 none; 1 to 6 by one port; 7 to 9 by two. What doesn't apply is 0."""
    demand(test <= 9 and (ports == (0, 0) if test == 0 else test >= 7 or ports[1] == 0))


def host(some, family):
    """56 bytes: kind, negated, length, the test of a port, its two ports, the address, and the table's name in 32."""
    kind, negated, length, test, *ports, address, name = HOST_FIELDS.unpack(some)
    ports, name = tuple(ports), filled(name)
    demand(kind in (ANY, NETWORK, TABLE) and negated in (0, 1) and (kind != ANY or negated == 0))
    port_test(test, ports)
    demand(kind == NETWORK or (length == 0 and address == bytes(16)))
    demand(is_name(name, MOST_NAME) if kind == TABLE else name == b"")
    if kind == NETWORK:
        demand(family != 0)
        network(family, length, address)
    return Host(kind, negated, length, test, ports, address, name)


def reference(some, wildcard, effect):
    """65 bytes: a path in 64, 1 where `/*` stood behind it. Only an anchor rule has one."""
    name = filled(some)
    demand(wildcard in (0, 1))
    demand(is_path(name, MOST_REFERENCE - 2 * wildcard) if effect == ANCHOR else name == b"" and wildcard == 0)
    return name


def label(reader, length, zeros, effect):
    """3 bytes: how long the label is that stands behind them, two zeros. No anchor rule has one, and no rule of the first version."""
    demand(zeros == bytes(2) and (length == 0 or (effect != ANCHOR and reader.version >= LABELS_FROM)))
    some = reader.take(length)
    demand(length == 0 or is_name(some, MOST_LABEL))
    return some


def rule_of(some):
    """The bytes of a rule, as the newest version writes them, as the rule that they tell."""
    reader = Reader(some)
    made = rule_from(reader)
    reader.end()
    return made


def rule_from(reader):
    """204 bytes and those of the label."""
    (effect, direction, quick, keeps, family, protocol, zeros, interface, source, destination, referred, wildcard, length,
     more_zeros) = reader.fields(RULE_FIELDS)
    demand(effect in (BLOCK, PASS, ANCHOR) and direction <= 2 and quick <= 1 and keeps <= 1 and family in (0, 4, 6))
    demand((keeps == 0 or effect == PASS) and zeros == bytes(2))
    interface = filled(interface)
    demand(interface == b"" or is_name(interface, MOST_INTERFACE))
    source, destination = host(source, family), host(destination, family)
    demand(protocol in (TCP, UDP) or source.test == destination.test == 0)
    name, named = reference(referred, wildcard, effect), label(reader, length, more_zeros, effect)
    return Rule(effect, direction, quick, keeps, family, protocol, interface, source, destination, name, wildcard, named)


def rule(reader):
    """The bytes of a rule, which are one."""
    start = reader.place
    rule_from(reader)
    return reader.some[start : reader.place]


def rules(reader):
    count = reader.number(4)
    demand(count <= MOST_RULES)
    return [rule(reader) for _ in range(count)]


# A snapshot


def read_snapshot(some, version=NEWEST):
    """What was kept when the bank was begun. No ruleset and no table is empty, each stands in its order, and no state's name or flow twice;
    and no state is due."""
    reader = Reader(some, version)
    held = Held(reader.number(4), tick(reader))
    read_rulesets(reader, held)
    read_tables(reader, held)
    read_states(reader, held)
    reader.end()
    demand(held.within_limits())
    return held


def read_rulesets(reader, held):
    keys = []
    for _ in range(reader.number(4)):
        keys.append(path(reader))
        some = rules(reader)
        demand(some)
        held.put_rules(keys[-1], some)
    demand(rises(keys))


def read_tables(reader, held):
    keys = []
    for _ in range(reader.number(4)):
        keys.append((path(reader), table_name(reader)))
        some = table(reader)
        demand(some)
        held.put_table(keys[-1], some)
    demand(rises(keys))


def read_states(reader, held):
    names = []
    for _ in range(reader.number(4)):
        name, one = state(reader)
        names.append(name)
        demand(one.flow() not in held.flows and not one.is_due(held.tick))
        held.put_state(name, one)
    demand(rises(names))


def text_with_length(some):
    return bytes([len(some)]) + some


def number_bytes(number, width=4):
    return number.to_bytes(width, "big")


def entry_bytes(net, negated):
    family, some, length = net
    return bytes([family, length, negated, 0]) + some


def state_bytes(name, one):
    flow_of = one.direction, one.family, one.protocol, 0, one.source, one.destination, one.source_port, one.destination_port
    bound_to = (1, bytes(3), one.bound.number, one.bound.checksum) if one.bound else (0, bytes(3), 0, bytes(16))
    return STATE_FIELDS.pack(*name, one.generation, *flow_of, ALL_ONES, *bound_to, one.expiry)


def snapshot(held):
    """The bytes of a snapshot of what is held, in the newest version."""
    some = [number_bytes(held.epoch), number_bytes(held.tick, 8), number_bytes(len(held.rulesets))]
    for key, forms in sorted(held.rulesets.items()):
        some += [text_with_length(key), number_bytes(len(forms)), *forms]
    some.append(number_bytes(len(held.tables)))
    for (at, name), rows in sorted(held.tables.items()):
        some += [text_with_length(at), text_with_length(name), number_bytes(len(rows))]
        some += [entry_bytes(net, negated) for net, negated in sorted(rows.items())]
    some.append(number_bytes(len(held.states)))
    some += [state_bytes(name, one) for name, one in sorted(held.states.items())]
    return b"".join(some)


# A record's payload: a group of changes and openings. Each is read, and then made to follow what the ones before it left.


def follow_group(held, payload, version=NEWEST):
    for make, *words in group(payload, version):
        make(held, *words)


def group(payload, version):
    """The changes of a record."""
    reader = Reader(payload, version)
    count = reader.number(1)
    demand(1 <= count <= MOST_CHANGES)
    changes = [change(reader) for _ in range(count)]
    reader.end()
    return changes


def has_form(payload, version):
    """Whether a version writes what these bytes tell in the newest."""
    try:
        group(payload, version)
    except NoForm:
        return False
    return True


def change(reader):
    """The function that makes the change, and what it is called with."""
    kind = reader.one_of(1, 2, 3, 4, 5, 6, 7, *((8,) if reader.version >= EXPIRY_FROM else ()))
    if kind == 1:
        return commit, items(reader)
    if kind in (2, 3, 4):
        return {2: add, 3: delete, 4: replace}[kind], (path(reader), table_name(reader)), entries(reader)
    if kind == 5:
        return take_steps, [step(reader) for _ in range(reader.number(4))]
    if kind == 6:
        return remove, state_name(reader)
    if kind == 8:
        return expire, reader.number(8)
    return begin_epoch, reader.number(4)


def items(reader):
    """What a commit replaces: 1, a path and its rules; or 2, a path and the tables that were defined there, in the order of their names."""
    count = reader.number(1)
    demand(1 <= count <= MOST_ITEMS)
    return [item(reader) for _ in range(count)]


def item(reader):
    kind, key = reader.one_of(1, 2), path(reader)
    if kind == 1:
        return kind, key, rules(reader)
    rows = [(table_name(reader), table(reader)) for _ in range(reader.number(4))]
    demand(rises([name for name, _ in rows]) and len(rows) <= MOST_TABLES)
    return kind, key, rows


def commit(held, replaced):
    """Of rulesets each is replaced whole, of tables those that were defined; what is empty then is gone. No ruleset is named twice."""
    named = [(kind, key) for kind, key, _ in replaced]
    demand(len(set(named)) == len(named), NoFit)
    for kind, key, some in replaced:
        if kind == 1:
            held.put_rules(key, some)
        else:
            for name, rows in some:
                held.put_table((key, name), rows)
    demand(held.within_limits(), NoFit)


def without_conflict(rows):
    """No list names a network with both signs."""
    signs = {}
    for net, negated in rows:
        demand(signs.setdefault(net, negated) == negated, NoFit)


def edit(held, key, made):
    held.put_table(key, made)
    demand(held.within_limits(), NoFit)


def add(held, key, rows):
    """An entry whose network is there stays as it is, with its own sign."""
    without_conflict(rows)
    made = dict(held.tables.get(key, {}))
    for net, negated in rows:
        made.setdefault(net, negated)
    edit(held, key, made)


def delete(held, key, rows):
    """An entry that isn't there with this sign changes nothing."""
    without_conflict(rows)
    gone = set(rows)
    edit(held, key, {net: negated for net, negated in held.tables.get(key, {}).items() if (net, negated) not in gone})


def replace(held, key, rows):
    without_conflict(rows)
    edit(held, key, dict(rows))


def step(reader):
    """1 and a state to insert; 2, an id and a creator to delete; 3 and a creator to clear."""
    kind = reader.one_of(1, 2, 3)
    if kind == 1:
        return kind, state(reader)
    return kind, state_name(reader) if kind == 2 else reader.number(4)


def take_steps(held, steps):
    """No state is inserted that is due, even if that would change nothing."""
    demand(not any(kind == 1 and what[1].is_due(held.tick) for kind, what in steps), NoFit)
    for kind, what in steps:
        take_step(held, kind, what)
        demand(len(held.states) <= MOST_STATES, NoFit)


def take_step(held, kind, what):
    """What became of an insert, or how many states are gone."""
    if kind == 1:
        return insert(held, *what)
    names = [what] if kind == 2 else [name for name in held.states if name[1] == what]
    gone = [name for name in names if name in held.states]
    for name in gone:
        held.drop_state(name)
    return len(gone)


def insert(held, name, new):
    """The first of these that holds: stale, clash, replaced, new. The first two change nothing."""
    old = held.states.get(name)
    if old is not None and old.generation >= new.generation:
        return "stale"
    if held.flows.get(new.flow(), name) != name:
        return "clash"
    held.put_state(name, new)
    return "new" if old is None else "replaced"


def remove(held, name):
    held.drop_state(name)


def expire(held, tick):
    """How many states are due at a tick, which doesn't go back, and are gone."""
    demand(tick >= held.tick, NoFit)
    held.tick = tick
    gone = [name for name, one in held.states.items() if one.is_due(tick)]
    for name in gone:
        held.drop_state(name)
    return len(gone)


def begin_epoch(held, epoch):
    """An opening: its epoch is the next one."""
    demand(epoch == held.epoch + 1, NoFit)
    held.epoch = epoch


# An image


class Found(NamedTuple):
    """What an image holds: the bank that counts by its first place, its version and its generation, the place of its closed gate, and whether
    the other bank's gate is open."""

    held: Held
    start: int
    version: int
    generation: int
    gate: int
    is_other_open: bool


def read(image):
    """What the image holds. The refusals come in this order: the size, no open gate, two banks of one generation, the header of the bank
    that counts, its snapshot, its records from the first on."""
    if len(image) % 2 or not LEAST_SIZE <= len(image) <= MOST_SIZE:
        raise Refusal("bad size")
    half = len(image) // 2
    start, is_other_open = counting(image, half)
    bank = image[start : start + half]
    version, generation, length = header(bank, start)
    held = snapshot_of(bank[HEADER : HEADER + length], version, start)
    gate = follow_records(held, bank, HEADER + length, version, start)
    return Found(held, start, version, generation, start + gate, is_other_open)


def counting(image, half):
    """The first place of the bank that counts: of those whose gate is open the one with the greater generation."""
    first, second = image[0] == OPEN, image[half] == OPEN
    if not first and not second:
        raise Refusal("no bank")
    if not first or not second:
        return 0 if first else half, False
    generation, other = (int.from_bytes(image[start + 8 : start + 16], "big") for start in (0, half))
    if generation == other:
        raise Refusal("corrupt at 0")
    return 0 if generation > other else half, True


def header(bank, start):
    """The version, the generation and the snapshot's length."""
    _, version, zeros, generation, length, more_zeros = HEADER_FIELDS.unpack_from(bank)
    has_form = version in VERSIONS and zeros == bytes(6) and more_zeros == bytes(4)
    if not has_form or generation > MOST_GENERATION or HEADER + length + 1 > len(bank):
        raise Refusal(f"corrupt at {start}")
    return version, generation, length


def snapshot_of(some, version, start):
    try:
        return read_snapshot(some, version)
    except NoForm:
        raise Refusal(f"corrupt at {start + HEADER}") from None


def follow_records(held, bank, gate, version, start):
    """Makes the changes of each record behind an open gate, and gives the place of the closed one."""
    while bank[gate] == OPEN:
        length = int.from_bytes(bank[gate + 1 : gate + 5], "big")
        try:
            demand(gate + 6 + length <= len(bank))
            follow_group(held, bank[gate + 5 : gate + 5 + length], version)
        except (NoForm, NoFit):
            raise Refusal(f"corrupt at {start + gate}") from None
        gate += 5 + length
    return gate


def has_room(image, found):
    """Whether an opening's record finds room, in its bank or in the other one behind a snapshot of what is held."""
    half = len(image) // 2
    return found.gate - found.start + OPENING <= half or HEADER + len(snapshot(found.held)) + OPENING <= half


def refused(image):
    """Why it isn't opened to be changed, or None."""
    try:
        found = read(image)
    except Refusal as refusal:
        return str(refusal)
    if found.held.epoch == LAST_EPOCH:
        return "epochs exhausted"
    return None if has_room(image, found) else "full"


def told(held):
    """What `pfd show` prints of what is held."""
    counts = [f"rulesets {len(held.rulesets)}", f"tables {len(held.tables)}", f"states {len(held.states)}"]
    return [f"epoch {held.epoch}", f"sum {held.checksum().hex()}", *counts, f"tick {held.tick}"]


def shown(image):
    """The lines that `pfd show` prints."""
    try:
        return told(read(image).held)
    except Refusal as refusal:
        return [f"pfd: {refusal}"]
