"""Compares the plain reading with every example that stands in the repository: no program is run.

Those of docs/DISK.md, the images whose bytes stand in crates/pf_store_tests/stdin with what its stdout says that they are opened as, and
the files of crates/pfd_rows/stdin that begin with bytes, with what `pfd show` and `pfd run` say of them.
"""
import os
import re

from . import reading, writing
from .program import Result

ROOT = os.path.dirname(os.path.dirname(os.path.dirname(os.path.abspath(__file__))))


def text_of(name):
    with open(os.path.join(ROOT, name), encoding="utf-8") as it:
        return it.read()


# Lines that edit one table, as the bytes of a change.


def network_row(word):
    """The entry that a word of IPv4 spells, as 20 bytes."""
    text = word.removeprefix("!")
    address, _, length = text.partition("/")
    length = int(length or 32)
    number = 0
    for place, part in enumerate(address.split(".")):
        number += int(part) << 8 * (15 - place)
    number &= ~((1 << 128 - length) - 1)
    return bytes([4, length, word.startswith("!"), 0]) + number.to_bytes(16, "big")


def edit_of(line):
    """The change of a `tset`, `tadd`, `tdel` or `tkill` line, or None for another one."""
    word, *rest = line.split()
    kind = {"tadd": 2, "tdel": 3, "tset": 4, "tkill": 4}.get(word)
    if kind is None or any(":" in entry for entry in rest):
        return None
    path, name = (b"" if rest[0] == "-" else rest[0].encode()), rest[1].encode()
    return kind, (path, name), writing.edit_bytes(kind, path, name, [network_row(entry) for entry in rest[2:]])


# The rows of crates/pf_store_tests.


class Device:
    """An image, and what rows make of it."""

    def __init__(self):
        self.image = None

    def put(self, words):
        for word in words:
            place, byte = word.split("=")
            self.image[int(place)] = int(byte, 16)

    def open(self):
        try:
            self.image = bytearray(writing.opened(bytes(self.image)))
        except reading.Refusal as refusal:
            return fault_name(str(refusal))
        found = reading.read(bytes(self.image))
        return f"epoch {found.held.epoch}, gate {found.gate}"

    def with_bytes(self, words):
        other = Device()
        other.image = bytearray(self.image)
        other.put(words)
        return other.open()

    def save(self, changes):
        made = writing.saved(bytes(self.image), changes)
        if made is None:
            return "err full"
        self.image = bytearray(made)
        return f"gate {reading.read(made).gate}"


def fault_name(words):
    """The program's words as the rows have them."""
    names = {"bad size": "BadSize", "no bank": "NoBank", "epochs exhausted": "EpochsExhausted", "full": "Full"}
    return names.get(words) or "Corrupt { at: " + words.split()[-1] + " }"


def try_row(device, row, told, count):
    """Plays one row and compares what is told. False where the rows behind it can't be played by this reading."""
    word, *words = row.split()
    if word == "zeros":
        device.image = bytearray(int(words[0]))
    elif word == "format":
        if told.startswith("Ok"):
            device.image = bytearray(writing.formatted(len(device.image)))
    elif word == "put":
        device.put(words)
    elif word == "bytes":
        count.compare(row, told, device.image[int(words[0]) : int(words[1])].hex())
    elif word == "snapshot":
        count.compare(row, told.split()[0], str(len(reading.snapshot(reading.read(bytes(device.image)).held))))
    elif word == "open":
        count.compare(row, re.sub(r", \d+ calls$", "", told), device.open())
    elif word == "with":
        count.compare(row, re.sub(r", saves .*$", "", told), device.with_bytes(words))
    elif word not in ("crashes", "each", "crash", "test", "show"):
        return try_save(device, row, told, count)
    return True


def try_save(device, row, told, count):
    """A line, or some in a group, whose changes are edits of tables."""
    lines = row.removeprefix("group").strip().split(" + ")
    edits = [edit_of(line) for line in lines] if all(line.split() for line in lines) else [None]
    if None in edits or len(edits) > 64:
        return row.startswith("group") and told.startswith("err")
    held, changes = reading.read(bytes(device.image)).held, []
    tables = dict(held.tables)
    for line, (kind, key, some) in zip(lines, edits):
        if line.startswith("tkill") and key not in tables:
            continue
        changes.append(some)
        reading.follow_group(held, writing.group_bytes([some]))
        tables = dict(held.tables)
    if not changes:
        return True
    gate = re.search(r"gate \d+|err full", told)
    count.compare(row, gate[0] if gate else None, device.save(changes))
    return True


def told_of_rows():
    """Each row of the tables with what it is told."""
    told, text = [], text_of("crates/pf_store_tests/stdout")
    for line in text[text.index("\n== ") :].split("\n"):
        if " -> " in line and not line.startswith(("  ", "//")):
            row, _, reply = line.rpartition(" -> ")
            told.append((row, reply))
    return told


def try_store_rows(count):
    device, plays = Device(), False
    for row, told in told_of_rows():
        plays = plays or row.startswith("zeros ")
        if plays:
            plays = try_row(device, row, told, count)


# docs/DISK.md and crates/pfd_rows.


def try_disk_page(count):
    """The blocks of bytes, the payloads and the places that the page names."""
    page = text_of("docs/DISK.md")
    block = re.search(r"its places 0 to 59 are\n\n((?:    .*\n)+)", page)[1]
    image = bytes.fromhex("".join(block.split()))
    start = image + bytes(300 - len(image))
    count.compare("the 60 bytes", start, writing.opened(writing.formatted(300)))
    payload = bytes.fromhex("".join(re.search(r"has the payload\n`([0-9a-f ]+)`", page)[1].split()))
    change = edit_of("tset - t 10.0.0.0/8")[2]
    count.compare("the payload of 29 bytes", payload, writing.group_bytes([change]))
    first = writing.saved(start, [change])
    count.compare("places 59 to 92", bytes.fromhex("a50000001d") + payload, first[59:93])
    count.compare("a closed gate at 93", 93, reading.read(first).gate)
    second = writing.saved(first, [change])
    count.compare("the same again", 127, reading.read(second).gate)
    third = reading.read(writing.saved(second, [change]))
    count.compare("the second bank", (150, 2, 259), (third.start, third.generation, third.gate))
    count.compare("its snapshot", 51, len(reading.snapshot(third.held)))
    count.compare("a second table", None, writing.saved(start, [change, edit_of("tset - u 10.0.0.0/8")[2]]))
    count.compare("a snapshot of nothing", bytes(24), reading.snapshot(reading.Held(0)))
    for what, place in (("a crash at 59 that leaves 37", 59),):
        crashed = bytearray(first)
        crashed[place] = 0x37
        count.compare(what, 0, len(reading.read(bytes(crashed)).held.tables))


def try_program_rows(count):
    """Files that begin with bytes, and what the program says of them. `$1` stands for the words."""
    for table in text_of("crates/pfd_rows/stdin").split("\n== ")[1:]:
        made = {}
        for row in table.split("\n"):
            if file := re.fullmatch(r": file (\S+) (\d+)(?: ((?:\\[0-9a-f]{2})*))?", row):
                first = bytes.fromhex((file[3] or "").replace("\\", ""))
                made[file[1]] = first + bytes(int(file[2]) - len(first))
            if said := re.fullmatch(r"pfd (show|run) --disk (\S+) -> 1 (pfd: .*)", row):
                if said[2] in made and ": locked" not in table:
                    is_so = reading.shown(made[said[2]])[0] if said[1] == "show" else f"pfd: {reading.refused(made[said[2]])}"
                    count.compare(row, said[3], is_so)


def play(_options):
    count = Result()
    for part in (try_disk_page, try_store_rows, try_program_rows):
        part(count)
    return count
