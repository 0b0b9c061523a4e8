"""A Book over a device: its opening, saves and groups, call by call, and what lines are answered over it.

    Book(device)            opens what the device holds, or raises Refusal; Fault where a call of the opening fails
    Book(device, True)      the same behind a Book over it that wasn't halted: nothing is read back
    book.line(line)         the reply to a line, with bars between its lines; a line `group A + B` is both in one group

Which calls an opening and a save make is written from docs/DISK.md, and what a group is refused for from docs/PEERS.md. What bytes mean and which
are written is in `reading` and `writing`, what a line is answered in `model`.
"""
import copy
from typing import NamedTuple

from . import reading, writing
from .devices import Fault
from .grammar import Command, LineFault, read_line
from .model import NO_LIMIT, Refused, Session
from .reading import HEADER, NEWEST, Refusal, snapshot

# The longest history of a Book of these tests.
HISTORY = 1000
# The first byte of a bank that is closed, and what stands between the lines of a group and between those of a reply.
CLOSED, GROUPED, BAR = b"\0", " + ", " | "
# What a group may have, and what a Book refuses whose device failed.
CHANGES = ("commit", "tadd", "tdel", "tset", "tkill", "track", "kill", "expire", "peer")
REFUSED_WHEN_HALTED = (*CHANGES, "begin", "add", "define", "extend", "rollback")
# What all that is kept is told by.
QUESTIONS = [Command("show", ("rules", b"")), Command("show", ("rules", b"web")), Command("show", ("tables", b"")),
             Command("show", ("tables", b"web")), Command("show", ("states",)), Command("sum", ())]


def reply_text(reply):
    return BAR.join(reply)


# Openings and saves


class Place(NamedTuple):
    """The bank that counts by its first place, its version and its generation, its closed gate, and whether the other bank's gate is open."""

    start: int
    version: int
    generation: int
    gate: int
    is_other_open: bool


def with_record(device, place, payload, kept):
    """Makes the calls by which a record is kept, and says what counts then. `kept` is a snapshot of what was kept before it."""
    half = len(device.bytes) // 2
    if place.gate - place.start + 6 + len(payload) > half or not writing.has_form(payload, place.version):
        place = switched(device, place, half - place.start, kept())
    device.write(place.gate + 1, reading.number_bytes(len(payload)) + payload + CLOSED)
    device.sync()
    device.write(place.gate, bytes([reading.OPEN]))
    device.sync()
    return place._replace(gate=place.gate + 5 + len(payload))


def switched(device, place, start, kept):
    """Begins the other bank. Its gate is closed before anything else of it is written, and opened last."""
    if place.is_other_open:
        device.write(start, CLOSED)
        device.sync()
    bank = writing.bank_bytes(place.generation + 1, kept)
    device.write(start + 1, bank[1:])
    device.sync()
    device.write(start, bank[:1])
    device.sync()
    return Place(start, NEWEST, place.generation + 1, start + HEADER + len(kept), True)


def found_in(image):
    """What an image holds that can be opened."""
    found = reading.read(image)
    if found.held.epoch == reading.LAST_EPOCH:
        raise Refusal("epochs exhausted")
    if not reading.has_room(image, found):
        raise Refusal("full")
    return found


class Book(Session):
    """A session over a device, from its opening on."""

    def __init__(self, device, is_known=False):
        image = bytes(device.bytes)
        found = found_in(image)
        super().__init__(len(image) // 2, HISTORY, held=found.held)
        self.device, self.has_halted, self.lost, self.pending, self.gate_found = device, False, 0, None, found.gate
        self.open(Place(*found[1:]), is_known)

    def open(self, place, is_known):
        """One sync and four reads, unless what is there is known; and a record of the next epoch."""
        if not is_known:
            self.device.sync()
            for _ in range(4):
                self.device.read()
        record = writing.group_bytes([writing.opening(self.held.epoch + 1)])
        self.place = with_record(self.device, place, record, lambda: snapshot(self.held))
        self.held.epoch += 1

    # Saves

    def keep(self, change, make, outcome=""):
        """Makes a change and saves it, or leaves it to the group that it is of."""
        if self.pending is not None:
            said = super().keep(change, make, outcome)
            self.pending.append(change)
            return said
        before, number, undone = snapshot(self.held), self.changes, []

        def make_and_note():
            undone.append(make())
            return undone[0]

        said = super().keep(change, make_and_note, outcome)
        self.save([change], before, lambda: self.undo(undone[0], number))
        return said

    def undo(self, undone, number):
        undone()
        self.changes = number

    def save(self, changes, before, undo):
        """A device that fails halts the Book for good, and nothing of the save is kept."""
        try:
            self.place = with_record(self.device, self.place, writing.group_bytes(changes), lambda: before)
        except Fault:
            self.has_halted, self.lost = True, len(changes)
            undo()
            raise Refused("err fault") from None

    # Lines

    def run(self, command):
        if self.has_halted and command.word in REFUSED_WHEN_HALTED:
            raise Refused("err halted")
        return super().run(command)

    def log(self):
        """The changes of a save that failed stand in the history all the same."""
        return f"log {self.changes + self.lost} acked {self.changes} shown {self.changes}"

    def line(self, line):
        """The reply to a line, or to a row of several that are kept together."""
        if isinstance(line, str) and line.startswith("group"):
            return self.group_text(line[5:].lstrip())
        return reply_text(self.reply(line.encode() if isinstance(line, str) else line))

    def lines(self, lines):
        return ", ".join([self.line(line) for line in lines])

    def kept(self):
        """All that is kept, but for the epoch. No question asks for the tick."""
        return ", ".join([*[reply_text(self.run(question)) for question in QUESTIONS], f"tick {self.held.tick}"])

    def answer(self, command):
        """The text of the reply to a command."""
        try:
            return reply_text(self.run(command))
        except Refused as refusal:
            return str(refusal)

    # Groups

    def group_text(self, lines):
        commands = list(commands_in(lines))
        try:
            self.check_group(commands)
            return self.grouped(commands)
        except Refused as refusal:
            return str(refusal)

    def check_group(self, commands):
        """A Book that has halted says so first, whatever the commands are."""
        if self.has_halted:
            raise Refused("err halted")
        if not 1 <= len(commands) <= reading.MOST_CHANGES:
            raise Refused("err count")
        for place, command in enumerate(commands):
            if command.word not in CHANGES:
                raise Refused(f"err grouped {place}")

    def grouped(self, commands):
        """The replies to commands that are kept together, or the one refusal of all."""
        before, length, number = snapshot(self.held), self.length(), self.changes
        held, offers = copy.deepcopy(self.held), dict(self.offers)

        def undo():
            self.held, self.offers, self.changes = held, offers, number

        replies, changes = self.without_limits(commands)
        if changes:
            fault = self.fault_of(length, changes)
            if fault:
                undo()
                raise Refused(fault)
            self.save(changes, before, undo)
        return GROUPED.join(replies)

    def without_limits(self, commands):
        """The replies to commands, and their changes, which aren't saved yet."""
        room = self.half, self.history
        self.half, self.history, self.pending = NO_LIMIT, NO_LIMIT, []
        replies, changes = [self.answer(command) for command in commands], self.pending
        (self.half, self.history), self.pending = room, None
        return replies, changes

    def fault_of(self, length, changes):
        """Why there is no room for these changes, of which the snapshot before them had so many bytes."""
        if self.changes > self.history:
            return "err history"
        is_full = HEADER + self.length() + writing.SPARE > self.half or HEADER + length + 1 + sum(map(len, changes)) + 6 > self.half
        return "err full" if is_full else None


def commands_in(lines):
    """The commands of a row's lines. A line that is none is left out."""
    for line in lines.split(GROUPED):
        try:
            command = read_line(line.encode())
        except LineFault:
            continue
        if command is not None:
            yield command
