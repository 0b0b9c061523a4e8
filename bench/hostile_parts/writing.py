"""What the program leaves on a disk, byte for byte, as docs/DISK.md has it: formatted, opened, and with groups of changes saved.

    formatted(size)          a device of zeros that was formatted
    opened(image)            what an opening leaves of an image
    saved(image, changes)    what a save of these changes' bytes leaves, or None where it is refused as full
    Gauge(half)              what a program says of how full the disk is

A crash within these is no part of it.
"""
import copy

from .reading import (HEADER, LAST_EPOCH, NEWEST, OPEN, Refusal, follow_group, has_form, has_room, number_bytes, read, snapshot,
                      text_with_length)

# What is kept free in a bank behind a snapshot of what is kept.
SPARE = 64


def bank_bytes(generation, some, version=NEWEST):
    """A bank's header and its snapshot, and a closed gate behind them."""
    return bytes([OPEN, version]) + bytes(6) + number_bytes(generation, 8) + number_bytes(len(some)) + bytes(4) + some + b"\0"


def put_at(image, place, some):
    image[place : place + len(some)] = some


def formatted(size):
    image = bytearray(size)
    put_at(image, 0, bank_bytes(1, bytes(24)))
    return bytes(image)


def group_bytes(changes):
    """The payload of a record: how many changes, and they."""
    return bytes([len(changes)]) + b"".join(changes)


def appended(image, gate, payload):
    put_at(image, gate, bytes([OPEN]) + number_bytes(len(payload)) + payload + b"\0")


def with_record(image, found, payload):
    """With a record at the closed gate, or in the other bank behind a snapshot of what is held, where it has no room or no form."""
    made, half = bytearray(image), len(image) // 2
    gate = found.gate
    if gate - found.start + 6 + len(payload) > half or not has_form(payload, found.version):
        some = snapshot(found.held)
        put_at(made, half - found.start, bank_bytes(found.generation + 1, some))
        gate = half - found.start + HEADER + len(some)
    appended(made, gate, payload)
    return bytes(made)


def opened(image):
    found = read(image)
    if found.held.epoch == LAST_EPOCH:
        raise Refusal("epochs exhausted")
    if not has_room(image, found):
        raise Refusal("full")
    return with_record(image, found, group_bytes([opening(found.held.epoch + 1)]))


def saved(image, changes):
    found, payload, half = read(image), group_bytes(changes), len(image) // 2
    after = copy.deepcopy(found.held)
    follow_group(after, payload)
    if HEADER + len(snapshot(after)) + SPARE > half or HEADER + len(snapshot(found.held)) + len(payload) + 6 > half:
        return None
    return with_record(image, found, payload)


class Gauge:
    """What is said of how full a disk is whose half has so many bytes, as docs/CRASH.md has it."""

    def __init__(self, half):
        self.half, self.told = half, 0

    def lines(self, held):
        """What is said once this is held: a line, or none."""
        used = HEADER + len(snapshot(held)) + SPARE
        percent = min(100, 100 * used // self.half)
        if 8 * used > 7 * self.half and percent > self.told:
            self.told = percent
            return f"pfd: the disk is {percent} % full\n"
        if 4 * used <= 3 * self.half:
            self.told = 0
        return ""


# The bytes of changes, by what they are of.


def opening(epoch):
    return b"\7" + number_bytes(epoch)


def edit_bytes(kind, path, name, rows):
    """2 add, 3 delete, 4 set: entries of 20 bytes each."""
    return bytes([kind]) + text_with_length(path) + text_with_length(name) + number_bytes(len(rows)) + b"".join(rows)


def commit_bytes(items):
    return b"\1" + bytes([len(items)]) + b"".join(items)


def rules_item(path, rules):
    return b"\1" + text_with_length(path) + number_bytes(len(rules)) + b"".join(rules)


def tables_item(path, tables):
    """Tables as pairs of a name and its rows, in the order of their names."""
    parts = [text_with_length(name) + number_bytes(len(rows)) + b"".join(rows) for name, rows in tables]
    return b"\2" + text_with_length(path) + number_bytes(len(tables)) + b"".join(parts)


def steps_bytes(steps):
    return b"\5" + number_bytes(len(steps)) + b"".join(steps)


def removal_bytes(name):
    return b"\6" + number_bytes(name[0], 8) + number_bytes(name[1])


def tick_bytes(tick):
    return b"\10" + number_bytes(tick, 8)
