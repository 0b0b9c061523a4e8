"""A device in memory that notes its calls: what a crash in each of them may leave, and devices whose calls fail.

    Device(image, fuse)            a device with these bytes, perhaps one whose calls fail
    device.image(moment, fill)     what a crash in that call leaves, with this where it may leave any bytes

What a crash leaves is written from docs/DISK.md: all that was written before the last sync that passed, and any bytes where something was
written after it.
"""
from typing import NamedTuple

# What stands where a crash may leave any bytes: the bytes of the last sync, those that were written, 00, a5, what was written inverted. Bytes as
# long as the device may stand in place of these.
OLD, NEW, ZEROS, OPENS, INVERTED = range(5)
PLAIN_FILLS = (OLD, NEW, ZEROS, OPENS, INVERTED)
OPPOSITE = bytes(255 - byte for byte in range(256))


class Fault(Exception):
    """A call of the device that failed."""


class Fuse(NamedTuple):
    """Which calls fail: `once` the one behind so many others, and perhaps another one, `after` all behind them, `torn` the one, by which a write
    leaves this fill."""

    kind: str
    calls: int
    fill: int = OLD
    other: int = -1

    def fails(self, tried):
        return tried >= self.calls if self.kind == "after" else tried in (self.calls, self.other)


class State(NamedTuple):
    """What reads see, what the last sync kept, and the ranges that were written since."""

    seen: bytes
    kept: bytes
    unsynced: tuple


def filled(fill, written, before):
    """What a fill puts in the place of some bytes."""
    if fill == OLD:
        return before
    if fill == NEW:
        return written
    if fill == INVERTED:
        return written.translate(OPPOSITE)
    return bytes(len(written)) if fill == ZEROS else b"\xa5" * len(written)


class Device:
    """`calls` are those that reached it, and `passed` how many of them didn't fail."""

    def __init__(self, image, fuse=None):
        self.first, self.bytes, self.fuse = bytes(image), bytearray(image), fuse
        self.calls, self.passed, self.tried, self.known = [], 0, 0, None

    def sync(self):
        self.call(None, b"")

    def read(self):
        self.call(0, b"")

    def write(self, place, some):
        self.call(place, bytes(some))

    def call(self, place, some):
        """A write of these bytes. One of none is a read, and without a place it is a sync."""
        self.tried += 1
        if self.fuse and self.fuse.fails(self.tried - 1):
            self.tear(place, some)
            raise Fault
        self.passed += 1
        self.make(place, some)

    def make(self, place, some):
        self.calls.append((place, some))
        self.known = None
        if some:
            self.bytes[place : place + len(some)] = some

    def tear(self, place, some):
        if self.fuse.kind == "torn" and some:
            self.make(place, filled(self.fuse.fill, some, bytes(self.bytes[place : place + len(some)])))

    # Crashes

    def states(self):
        """The state before the first call, and behind each."""
        if self.known is None:
            self.known = [State(self.first, self.first, ())]
            for place, some in self.calls:
                self.known.append(next_state(self.known[-1], place, some))
        return self.known

    def state(self, moment):
        """What there is in the course of a call: a write may have reached any of its bytes, a sync has kept nothing yet."""
        made = min(moment, len(self.calls))
        is_in_sync = 0 < moment == made and self.calls[made - 1][0] is None
        return self.states()[made - 1 if is_in_sync else made]

    def image(self, moment, fill):
        state = self.state(moment)
        if fill == NEW or not state.unsynced:
            return state.seen
        image = bytearray(state.seen)
        for start, end in state.unsynced:
            part = slice(start, end)
            image[part] = fill[part] if isinstance(fill, bytes) else filled(fill, state.seen[part], state.kept[part])
        return bytes(image)


def next_state(state, place, some):
    if place is None:
        return State(state.seen, state.seen, ())
    if not some:
        return state
    end = place + len(some)
    return State(state.seen[:place] + some + state.seen[end:], state.kept, (*state.unsynced, (place, end)))
