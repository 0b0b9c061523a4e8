"""Snapshots and groups of changes at random, as bytes: of good parts, and now and then of a strange one, in good order or not.

    Former(random).groups_image()       a bank that was begun with nothing, and some records behind it
    Former(random).snapshot_image()     a bank with a snapshot, in either half, with more room behind it or less
    limits()                            images at each limit and one past it, by name

It is for `images.py`, which compares what the program and the plain reading make of them.
"""
from . import reading, writing
from .grammar import LineFault, Words, rule
from .lines import Maker
from .model import Session, rule_bytes
from .reading import number_bytes, text_with_length
from .streams import Maker as MessageMaker
from .streams import read_insert

SIZES = (512, 1024, 2048, 2048, 4096, 4096, 8192)
# Places of a rule's bytes, of a state's and of an entry's that mean something by themselves, and bytes for them.
HOST_PLACES = (0, 1, 2, 3, 4, 6, 8, 11, 12, 23, 24, 25, 55)
RULE_PLACES = (*range(9), 23, *(24 + place for place in HOST_PLACES), *(80 + place for place in HOST_PLACES), 136, 137, 138, 199, 200, 201, 202, 203)
STATE_PLACES = (*range(16, 24), 24, 35, 36, 40, 52, 53, 54, 55, 56, 60, 63, *range(64, 72), 72, 87, 88, 95)
STRANGE_PATHS = (b"..", b"-", b"/", b"a/", b"/a", b"a//b", b"a/../b", b"a/-", b"a b", b"a\0", b"*", b"a" * 63, b"a" * 64, b"a/" * 15 + b"a",
                 b"a/" * 16 + b"a", b"abcdefghijklmno/" * 15 + b"abcdefghijklmno", b"b/" * 127 + b"b")
STRANGE_NAMES = (b"", b"a b", b"a\0", b"..", b"-", b"n" * 31, b"n" * 32, b"\xff", b"a/b")
BYTES = (0, 1, 2, 3, 4, 5, 6, 7, 8, 9, 10, 16, 17, 32, 33, 65, 128, 129, 255)


def main_image(start, bank, half):
    """A device whose one bank is this, and the rest zeros."""
    made = bytearray(2 * half)
    writing.put_at(made, start, bank)
    return bytes(made)


class Former:
    """Forms at random."""

    def __init__(self, random):
        self.random, self.lines, self.messages = random, Maker(random, Session()), MessageMaker(random, names=6)

    def rarely(self, of=40):
        return self.random.randrange(of) == 0

    def strange(self, some, places):
        """The bytes with one to three others at such places."""
        some = bytearray(some)
        for _ in range(self.random.choice((1, 1, 2, 3))):
            some[self.random.choice(places)] = self.random.choice(BYTES)
        return bytes(some)

    def shuffled(self, parts):
        """The parts with two exchanged, one twice, or one left out."""
        parts, how = list(parts), self.random.randrange(3)
        if parts and how == 0:
            parts.append(self.random.choice(parts))
        elif parts and how == 1:
            parts.pop(self.random.randrange(len(parts)))
        else:
            self.random.shuffle(parts)
        return parts

    def some(self, make, most=4):
        return [make() for _ in range(self.random.randrange(most))]

    # Parts

    def tick(self):
        return self.random.choice((0, 0, 0, 0, 1, 5, 6, 7, 1 << 40, (1 << 64) - 1))

    def path(self):
        return self.random.choice(STRANGE_PATHS) if self.rarely(60) else self.random.choice((b"", b"", b"a", b"a-b", b"a/b", b"b"))

    def name(self):
        return self.random.choice(STRANGE_NAMES) if self.rarely(60) else self.random.choice((b"t", b"u", b"t1"))

    def row(self):
        if self.random.randrange(2):
            length = self.random.choice((0, 8, 16, 24, 32))
            front = bytes([10, self.random.randrange(2), self.random.randrange(2), self.random.randrange(2)]) + bytes(12)
        else:
            length, front = self.random.choice((0, 16, 64, 127, 128)), b"\x20\x01" + bytes(13) + bytes([self.random.randrange(2)])
        kept = int.from_bytes(front, "big") >> 128 - length << 128 - length
        family = 4 if front[0] == 10 else 6
        made = bytes([family, length, self.random.randrange(4) == 0, 0]) + kept.to_bytes(16, "big")
        return self.strange(made, range(20)) if self.rarely() else made

    def rows_in_order(self):
        """Of a table: no network twice."""
        rows = {(row[0], row[4:], row[1]): row for row in self.some(self.row)}
        made = [row for _, row in sorted(rows.items())]
        return self.shuffled(made) if self.rarely(20) else made

    def rule(self):
        while True:
            try:
                made = rule_bytes(rule(Words(self.lines.rule().split())))
                break
            except LineFault:
                continue
        return self.strange(made, (*RULE_PLACES, *range(reading.RULE, len(made)))) if self.random.randrange(6) == 0 else made

    def state(self):
        insert = read_insert(self.messages.record(1))
        bound = reading.Bound(self.random.choice((0, 1, 2, (1 << 32) - 1)), self.random.randbytes(16)) if self.random.randrange(2) else None
        made = reading.state_bytes(insert.name, reading.State(insert.generation, *insert[2:9], bound, self.tick()))
        return self.strange(made, STATE_PLACES) if self.random.randrange(6) == 0 else made

    # Changes

    def step(self):
        kind = self.random.choice((1, 1, 2, 3))
        if kind == 1:
            return b"\1" + self.state()
        return bytes([kind]) + self.messages.name()[0 if kind == 2 else 8 :]

    def tables_item(self):
        tables = {self.name(): self.rows_in_order() for _ in range(self.random.randrange(4))}
        made = sorted(tables.items())
        return writing.tables_item(self.path(), self.shuffled(made) if self.rarely(8) else made)

    def item(self):
        return writing.rules_item(self.path(), self.some(self.rule, 3)) if self.random.randrange(2) else self.tables_item()

    def items(self):
        """Mostly of different rulesets."""
        items = {item[: 2 + item[1]]: item for item in self.some(self.item, 5)}
        return self.shuffled(items.values()) if self.rarely(8) else list(items.values())

    def change(self, epoch):
        kind = self.random.choice((1, 1, 2, 3, 4, 5, 5, 6, 7, 8))
        if self.rarely(80):
            return bytes([self.random.choice((0, 9, 10, 255))]) + self.random.randbytes(8)
        if kind == 1:
            return writing.commit_bytes(self.items())
        if kind <= 4:
            return writing.edit_bytes(kind, self.path(), self.name(), self.some(self.row))
        if kind == 5:
            return writing.steps_bytes(self.some(self.step))
        if kind == 6:
            return writing.removal_bytes((self.random.randrange(6), self.random.randrange(1, 4)))
        if kind == 8:
            return writing.tick_bytes(self.tick())
        return writing.opening(epoch + self.random.choice((1, 1, 1, 1, 2, 0)))

    def group(self, epoch):
        changes = [self.change(epoch) for _ in range(self.random.choice((1, 1, 1, 2, 3)))]
        if self.rarely(30):
            changes *= self.random.choice((0, 20, 63, 64, 65))
        return writing.group_bytes(changes)

    # Images

    def version(self):
        return self.random.choice((0, 4, 5, 255) if self.rarely(60) else (*reading.VERSIONS, reading.NEWEST))

    def groups_image(self):
        """A strange group mostly ends an image, so most that aren't opened are left out before the last."""
        half = self.random.choice(SIZES) // 2
        version = self.version()
        some = nothing_of(version)
        bank, gate, epoch = bytearray(half), reading.HEADER + len(some), 0
        writing.put_at(bank, 0, writing.bank_bytes(1, some, version))
        for _ in range(self.random.randrange(1, 9)):
            payload, made = self.group(epoch), bytearray(bank)
            if gate + 6 + len(payload) > half:
                break
            writing.appended(made, gate, payload)
            shown = reading.shown(main_image(0, made, half))[0].split()
            if shown[0] == "epoch":
                bank, gate, epoch = made, gate + 5 + len(payload), int(shown[1])
            elif self.rarely(3):
                bank = made
                break
        return main_image(0, bank, half)

    def snapshot(self, version):
        """Rulesets, tables and states behind their numbers, mostly in order, and mostly with a tick where this version has one."""
        rulesets = {self.path(): self.some(self.rule, 3) for _ in range(self.random.randrange(4))}
        tables = {(self.path(), self.name()): self.rows_in_order() for _ in range(self.random.randrange(4))}
        states = {state[:12]: state for state in self.some(self.state)}
        parts = [[ruleset_form(path, rules) for path, rules in sorted(rulesets.items()) if rules or self.rarely(6)],
                 [table_form(*key, rows) for key, rows in sorted(tables.items()) if rows or self.rarely(6)],
                 [state for _, state in sorted(states.items())]]
        some = [number_bytes(self.random.choice((0, 1, 5, reading.LAST_EPOCH - 1, reading.LAST_EPOCH)))]
        if (version >= reading.EXPIRY_FROM) != self.rarely(60):
            some.append(number_bytes(self.tick(), 8))
        for part in parts:
            part = self.shuffled(part) if self.rarely(10) else part
            some += [number_bytes(len(part)), *part]
        return b"".join(some) + (b"\0" if self.rarely() else b"")

    def snapshot_image(self):
        version = self.version()
        some = self.snapshot(version)
        half = max(128, reading.HEADER + len(some) + self.random.choice((0, 1, 2, 11, 12, 13, 64, 75, 76, 300)))
        generation = self.random.choice((0, 1, 2, reading.MOST_GENERATION, reading.MOST_GENERATION + 1))
        bank = writing.bank_bytes(generation, some, version)[:half]
        return main_image(self.random.choice((0, half)), bank, half)


# Limits


def some_rule(number=0):
    return bytes([0, 1]) + bytes(202) if number == 0 else bytes([0, 1, 0, 0, 0, 6]) + bytes(198)


def many_rows(count):
    return [bytes([4, 32, 0, 0, 10]) + number.to_bytes(3, "big") + bytes(12) for number in range(count)]


def many_states(count):
    states = []
    for number in range(count):
        flow = bytes([1, 4, 99, 0, 10]) + number.to_bytes(3, "big") + bytes(12) + bytes([10]) + bytes(19)
        states.append(number_bytes(number, 8) + number_bytes(1) + number_bytes(0) + flow + reading.ALL_ONES + bytes(32))
    return states


def path_of(number):
    return b"p%05d" % number


def image_of(bank):
    half = len(bank) + 100
    return main_image(0, bank, half + half % 2)


def nothing_of(version=reading.NEWEST):
    """A snapshot of nothing, which has a tick from the third version on."""
    return bytes(24 if version >= reading.EXPIRY_FROM else 16)


def snapshot_of(rulesets=(), tables=(), states=(), version=reading.NEWEST):
    parts = [number_bytes(0), number_bytes(0, 8) if version >= reading.EXPIRY_FROM else b""]
    for part in (rulesets, tables, states):
        parts += [number_bytes(len(part)), *part]
    return image_of(writing.bank_bytes(1, b"".join(parts), version))


def ruleset_form(path, rules):
    return text_with_length(path) + number_bytes(len(rules)) + b"".join(rules)


def table_form(path, name, rows):
    return text_with_length(path) + text_with_length(name) + number_bytes(len(rows)) + b"".join(rows)


def records_of(*payloads, version=reading.NEWEST):
    bank = bytearray(writing.bank_bytes(1, nothing_of(version), version))
    for payload in payloads:
        writing.appended(bank, len(bank) - 1, payload)
    return image_of(bytes(bank))


def group_of(*changes):
    return writing.group_bytes(list(changes))


def rules_commit(first, count, rules):
    """Commits of rulesets, 64 at most in each."""
    items = [writing.rules_item(path_of(number), rules) for number in range(first, first + count)]
    return [writing.commit_bytes(items[start : start + 64]) for start in range(0, len(items), 64)]


def limits():
    """Each limit and one past it, and what no store leaves."""
    for some in (limits_of_1024, limits_of_65536, limits_of_64, labels, what_none_leaves):
        yield from some()


def limits_of_1024():
    row = many_rows(1)
    for count in (1024, 1025):
        rulesets = [ruleset_form(path_of(number), [some_rule()]) for number in range(count)]
        tables = [table_form(b"", path_of(number), row) for number in range(count)]
        named = [(path_of(number), row) for number in range(count)]
        yield f"{count} rulesets in a snapshot", snapshot_of(rulesets)
        yield f"{count} rules in a snapshot", snapshot_of([ruleset_form(b"", [some_rule()] * count)])
        yield f"{count} tables in a snapshot", snapshot_of((), tables)
        yield f"{count} rules in a commit", records_of(group_of(writing.commit_bytes([writing.rules_item(b"", [some_rule()] * count)])))
        yield f"{count} tables in a commit", records_of(group_of(writing.commit_bytes([writing.tables_item(b"", named)])))
        yield f"{count} rulesets by commits", records_of(group_of(*rules_commit(0, count, [some_rule()])))
        sets = [writing.edit_bytes(4, b"", path_of(number), row) for number in range(count)]
        yield f"{count} tables by edits", records_of(*[group_of(*sets[start : start + 64]) for start in range(0, count, 64)])


def limits_of_65536():
    for count in (65_536, 65_537):
        rows, states = many_rows(count), many_states(count)
        inserts = [b"\1" + state for state in states]
        yield f"{count} entries in a snapshot", snapshot_of((), [table_form(b"", b"t", rows)])
        yield f"{count} entries by an add", records_of(group_of(writing.edit_bytes(2, b"", b"t", rows)))
        yield f"{count} entries by a set", records_of(group_of(writing.edit_bytes(4, b"", b"t", rows)))
        yield f"{count} entries by a commit", records_of(group_of(writing.commit_bytes([writing.tables_item(b"", [(b"t", rows)])])))
        yield f"{count} entries that are one, by a set", records_of(group_of(writing.edit_bytes(4, b"", b"t", rows[:1] * count)))
        yield f"{count} states in a snapshot", snapshot_of((), (), states)
        yield f"{count} states by steps", records_of(group_of(writing.steps_bytes(inserts)))
        yield f"{count} states by steps, and one taken out", records_of(group_of(writing.steps_bytes([*inserts, b"\2" + states[0][:12]])))


def limits_of_64():
    row = many_rows(1)
    for count in (0, 1, 64, 65):
        yield f"{count} changes", records_of(writing.group_bytes([writing.edit_bytes(4, b"", b"t", row)] * count))
        items = [writing.rules_item(path_of(number), [some_rule()]) for number in range(count)]
        yield f"{count} rulesets in a commit", records_of(group_of(writing.commit_bytes(items)))
        yield f"{count} openings in a record", records_of(writing.group_bytes([writing.opening(number + 1) for number in range(count)]))


def labelled(length, label, effect=0):
    """The bytes of a rule whose label is said to have so many bytes."""
    return bytes([effect, 1]) + bytes(199) + bytes([length, 0, 0]) + label


def labels():
    for version in (*reading.VERSIONS, reading.NEWEST + 1):
        for name, some in (("no label", labelled(0, b"")), ("a label", labelled(1, b"x")), ("63 bytes", labelled(63, b"l" * 63)),
                           ("64 bytes", labelled(64, b"l" * 64)), ("no name", labelled(1, b"!")), ("a byte less", labelled(2, b"x")),
                           ("a byte more", labelled(1, b"xy")), ("an anchor rule", anchor_rule(b"")), ("its label", anchor_rule(b"x"))):
            yield f"{name} in a snapshot of version {version}", snapshot_of([ruleset_form(b"", [some])], version=version)
            yield f"{name} twice in a record of version {version}", records_of(
                group_of(writing.commit_bytes([writing.rules_item(b"", [some, some])])), version=version)


def anchor_rule(label):
    """An anchor rule that refers to `a`, with a label that it can't have."""
    return bytes([2]) + bytes(135) + b"a".ljust(65, b"\0") + bytes([len(label), 0, 0]) + label


def what_none_leaves():
    row, flow = many_rows(1), many_states(1)[0]
    yield "two names of one flow", snapshot_of((), (), [flow, number_bytes(1, 8) + flow[8:]])
    yield "one name twice", snapshot_of((), (), [flow, flow])
    yield "a ruleset without rules", snapshot_of([ruleset_form(b"a", [])])
    yield "a table without entries", snapshot_of((), [table_form(b"", b"t", [])])
    yield "an opening beside a change", records_of(group_of(writing.opening(1), writing.edit_bytes(4, b"", b"t", row)))
    yield "a table named twice in a commit", records_of(group_of(writing.commit_bytes([writing.tables_item(b"", [(b"t", row), (b"t", row)])])))
    for kind in (2, 3, 4):
        yield f"an edit {kind} of no entries", records_of(group_of(writing.edit_bytes(kind, b"", b"t", [])))
    yield "no steps", records_of(group_of(writing.steps_bytes([])))
    yield "a commit of no tables", records_of(group_of(writing.commit_bytes([writing.tables_item(b"", [])])))
    bound = reading.Bound((1 << 32) - 1, bytes(16))
    state = reading.State(0, 1, 4, 99, bytes(16), bytes(16), 0, 0, bound)
    yield "a state bound to the last number that there is", snapshot_of((), (), [reading.state_bytes((0, 0), state)])
