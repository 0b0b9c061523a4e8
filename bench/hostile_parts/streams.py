"""Peers' streams: the plain reading of them, written from docs/PEERS.md, and a generator of good and of broken ones with fixed seeds.

    read_stream(bytes)     the messages that are whole, and the fault behind them, or None
    one_message(bytes)     the one message that a `peer` line has, or PeerFault is raised
    Maker(random)          messages, streams of them, and such whose bytes, sums, lengths and counts are changed, or that are cut anywhere

What is told of messages depends on what is kept: `model.py` says that.
"""
import struct
from typing import NamedTuple

from .reading import TCP, UDP

PEER, LEAST, RECORD, NONE = 5, 20, 64, 0xFFFFFFFF
# The fields of an insert's record, of a group's front, and of a state's name.
INSERT_FIELDS, GROUP_FIELDS, NAME_FIELDS = struct.Struct(">QIIBBBB16s16sHHII"), struct.Struct(">BBH"), struct.Struct(">QI")
MOST_MESSAGE, MOST_ON_A_LINE = 65_535, 2_045
INSERT, DELETE, CLEAR = 1, 6, 0
NO_RULES = bytes.fromhex("d41d8cd98f00b204e9800998ecf8427e")
# The example of docs/PEERS.md.
EXAMPLE = bytes.fromhex(
    "05000058d41d8cd98f00b204e9800998ecf8427e01000001" "00000000000000010000000200000000" "01040600"
    "0a000001000000000000000000000000" "0a000002000000000000000000000000" "04d20050" "00000000ffffffff")


class PeerFault(Exception):
    """Bytes that are no messages, with the word of the refusal."""


class Insert(NamedTuple):
    name: tuple
    generation: int
    direction: int
    family: int
    protocol: int
    source: bytes
    destination: bytes
    source_port: int
    destination_port: int
    rule: int
    anchor: int


class Message(NamedTuple):
    """The sender's checksum, and what its records ask for, in turn: an Insert, the name of a Delete, the creator of a Clear."""

    checksum: bytes
    steps: list


def read_insert(some):
    number, creator, generation, direction, family, protocol, zero, source, destination, port, other_port, rule, anchor = INSERT_FIELDS.unpack(some)
    allowed = direction in (1, 2) and family in (4, 6) and protocol != 0 and zero == 0
    short = family == 6 or source[4:] == destination[4:] == bytes(12)
    if not (allowed and short and (port == other_port == 0 or protocol in (TCP, UDP))):
        raise PeerFault("record")
    return Insert((number, creator), generation, direction, family, protocol, source, destination, port, other_port, rule, anchor)


def read_record(action, some):
    if action == INSERT:
        return INSERT, read_insert(some)
    name = NAME_FIELDS.unpack_from(some)
    return action, name if action == DELETE else name[1]


def read_groups(some):
    """What stands behind a message's header, to its end."""
    steps, place = [], 0
    while place < len(some):
        if len(some) - place < 4:
            raise PeerFault("length")
        action, zero, count = GROUP_FIELDS.unpack_from(some, place)
        if action not in (INSERT, DELETE, CLEAR) or zero != 0:
            raise PeerFault("action")
        place += 4
        if place + RECORD * count > len(some):
            raise PeerFault("length")
        steps += [read_record(action, some[at : at + RECORD]) for at in range(place, place + RECORD * count, RECORD)]
        place += RECORD * count
    return steps


def read_front(some):
    """The message in front and its length, or None where more bytes may make one."""
    if some[0] != PEER or some[1:2] not in (b"", b"\0"):
        raise PeerFault("version")
    if len(some) < 4:
        return None
    length = int.from_bytes(some[2:4], "big")
    if length < LEAST:
        raise PeerFault("length")
    if len(some) < length:
        return None
    return Message(some[4:20], read_groups(some[20:length])), length


def read_stream(some):
    """The messages that are whole, and the fault behind them: its word, or None. A stream that ends within a message is `ended`."""
    messages, place = [], 0
    while place < len(some):
        try:
            front = read_front(some[place:])
        except PeerFault as fault:
            return messages, str(fault)
        if front is None:
            return messages, "ended"
        messages.append(front[0])
        place += front[1]
    return messages, None


def one_message(some):
    messages, fault = read_stream(some)
    if fault is not None or len(messages) != 1:
        raise PeerFault(fault or "count")
    return messages[0]


def message_bytes(checksum, groups):
    """A message of groups, each an action and its records."""
    some = b"".join(struct.pack(">BBH", action, 0, len(records)) + b"".join(records) for action, records in groups)
    return struct.pack(">BBH", PEER, 0, LEAST + len(some)) + checksum + some


class Maker:
    """Messages of a few names and flows, so that they meet one another."""

    def __init__(self, random, names=40, most_records=6):
        self.random, self.names, self.most_records = random, names, most_records
        self.checksums = [NO_RULES, bytes(16)]

    def address(self, family):
        last = self.random.randrange(1, 9)
        return bytes([10, 0, 0, last]) + bytes(12) if family == 4 else bytes([0x20, 1, 0x0D, 0xB8]) + bytes(11) + bytes([last])

    def name(self):
        return struct.pack(">QI", self.random.randrange(self.names), self.random.randrange(1, 4))

    def record(self, action):
        """Of a delete and a clear the rest may be any bytes."""
        random = self.random
        if action != INSERT:
            return self.name() + random.randbytes(RECORD - 12)
        family, protocol = random.choice((4, 4, 6)), random.choice((1, 6, 6, 17, 17, 58, 99, 255))
        ports = [random.randrange(1, 5) if protocol in (TCP, UDP) else 0 for _ in range(2)]
        rule = random.choice((0, 0, 1, 2, NONE)), random.choice((NONE, NONE, NONE, 0))
        head = self.name() + struct.pack(">IBBBB", random.randrange(4), random.choice((1, 2)), family, protocol, 0)
        return head + self.address(family) + self.address(family) + struct.pack(">HHII", *ports, *rule)

    def message(self):
        random = self.random
        groups = []
        for _ in range(random.choice((0, 1, 1, 1, 1, 2, 3))):
            action = random.choice((INSERT, INSERT, INSERT, DELETE, CLEAR))
            groups.append((action, [self.record(action) for _ in range(random.randrange(self.most_records))]))
        return message_bytes(random.choice(self.checksums), groups)

    def long_message(self):
        """One that is as long as a message may be, or nearly."""
        records = [self.record(INSERT) for _ in range(self.random.randrange(1000, 1024))]
        return message_bytes(NO_RULES, [(INSERT, records)])

    def stream(self):
        most = self.random.choice((1, 2, 5, 70))
        return b"".join(self.message() for _ in range(self.random.randrange(1, most + 1)))

    def broken(self, some):
        """With up to four changes, of which none takes the first byte."""
        some = bytearray(some)
        for _ in range(self.random.randrange(1, 5)):
            self.random.choice((self.byte, self.length, self.count, self.checksum, self.cut, self.double, self.drop, self.more))(some)
        return bytes(some[: 1 << 18])

    def place(self, some):
        return self.random.randrange(1, len(some)) if len(some) > 1 else None

    def byte(self, some):
        place = self.place(some)
        if place is not None:
            some[place] = self.random.choice((0, 1, 2, 4, 5, 6, 17, 255, self.random.randrange(256), some[place] ^ 1 << self.random.randrange(8)))

    def starts(self, some):
        """Where messages begin, as far as their lengths tell."""
        places, place = [0], 0
        while place + 4 <= len(some) and (length := int.from_bytes(some[place + 2 : place + 4], "big")) >= 4:
            place += length
            places.append(place)
        return [place for place in places if place + 4 <= len(some)]

    def length(self, some):
        """A message's length, which is a little or much too short or too long."""
        starts = self.starts(some)
        if starts:
            place = self.random.choice(starts) + 2
            length = int.from_bytes(some[place : place + 2], "big") + self.random.choice((-64, -4, -1, 1, 4, 64, 1000, -1000))
            some[place : place + 2] = struct.pack(">H", length % 65_536)

    def count(self, some):
        """The count, the action or the zero of a message's first group."""
        starts = [place for place in self.starts(some) if place + 24 <= len(some)]
        if starts:
            some[self.random.choice(starts) + self.random.choice((20, 21, 22, 23, 23, 23))] = self.random.choice((0, 1, 2, 3, 6, 7, 255))

    def checksum(self, some):
        starts = [place for place in self.starts(some) if place + 20 <= len(some)]
        if starts:
            place = self.random.choice(starts)
            some[place + 4 : place + 20] = self.random.randbytes(16)

    def cut(self, some):
        """At its end, anywhere."""
        place = self.place(some)
        if place is not None:
            del some[place:]

    def drop(self, some):
        place = self.place(some)
        if place is not None:
            del some[place : place + self.random.choice((1, 1, 2, 4, 64))]

    def double(self, some):
        place = self.place(some)
        if place is not None:
            some[place:place] = some[place : place + self.random.choice((1, 4, 64, 68))]

    def more(self, some):
        some += self.random.choice((b"\5", b"\5\0", b"\0", self.random.randbytes(self.random.randrange(1, 9)), self.message()))
