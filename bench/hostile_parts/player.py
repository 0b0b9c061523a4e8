"""Plays the rows of crates/pf_store_tests by the plain reading alone, and so says what each has to come to. No program is run.

    player = Player(folder)    rows `file NAME` find their images in this folder
    player.play(row)           the lines with which the program tells this row

What the rows mean is said in the head of that crate's stdin. What a crash leaves is in `devices`, openings, saves and replies in `books`.

Beside what a row is told with, `player.wrong` has what no image of a crash may come to: each has to open as what was kept behind the changes
that were answered before the call that was cut, or as that with the change of that call too; and openings that were stopped and made again as
the same, in an epoch that is greater by one for each.

Equal bytes are opened once, however many rows but `images` ask for them, which open each. `player.images` counts what was asked for, as the
program opens each anew.
The row `cuts` isn't played.
"""
import os

from . import chances, reading, writing
from .books import BAR, GROUPED, HISTORY, QUESTIONS, Book, reply_text
from .devices import NEW, OLD, PLAIN_FILLS, Device, Fault, Fuse
from .model import Session
from .reading import Refusal, snapshot
from .streams import read_stream

# How many calls of a device fail in turn, and a moment behind all calls.
CALLS, NEVER = 18, 1 << 60
# What stands between lines and the questions behind the opening that follows them, and how many calls such a row makes at most.
AGAIN, MOST_CALLS = " = ", 64
REFUSALS = {"no bank": "NoBank", "full": "Full", "epochs exhausted": "EpochsExhausted", "bad size": "BadSize"}
STREAM_FAULTS = {None: "None", "version": "Some(BadVersion)", "length": "Some(BadLength)", "action": "Some(BadAction)",
                 "record": "Some(BadRecord)", "ended": "Some(Ended)"}


class NotPlayed(Exception):
    """A row that isn't played here."""


def refusal_text(refusal):
    words = str(refusal)
    return REFUSALS.get(words) or f"Corrupt {{ at: {words.split()[-1]} }}"


# Images that are opened


class Opened:
    """What an image was opened as, and the device after that."""

    def __init__(self, image):
        book = Book(Device(image))
        self.half, self.gate_before = book.half, book.gate_found
        self.epoch, self.gate, self.kept, self.device = book.held.epoch, book.place.gate, book.kept(), book.device
        self.stops, self.left, self.again = None, None, None

    def has_switched(self):
        return (self.gate_before < self.half) != (self.gate < self.half)


def opened_anew(image):
    """What an image is opened as, or the name of its refusal."""
    try:
        return Opened(image)
    except Refusal as refusal:
        return refusal_text(refusal)


class Reopened:
    """What openings came to beside an earlier one, which gave an epoch one greater than it found."""

    def __init__(self):
        self.all, self.same, self.least, self.most = 0, 0, reading.LAST_EPOCH, 0

    def count(self, opened, earlier):
        self.all += 1
        if isinstance(opened, Opened):
            self.same += opened.kept == earlier.kept
            later = opened.epoch - (earlier.epoch - 1)
            self.least, self.most = min(self.least, later), max(self.most, later)

    def add(self, other):
        self.all, self.same = self.all + other.all, self.same + other.same
        self.least, self.most = min(self.least, other.least), max(self.most, other.most)

    def __str__(self):
        return f"{self.same} of {self.all} by {self.least} to {self.most}"


def left_by(device, moment, number):
    """What a crash in a call leaves: by the five fills, by 3c, by bytes at random."""
    if number in PLAIN_FILLS:
        return device.image(moment, number)
    size = len(device.first)
    return device.image(moment, b"\x3c" * size if number == 5 else chances.Chance(moment).bytes(size))


def moments(device):
    """Each call, and the time behind them."""
    return range(1, len(device.calls) + 2)


def put(image, changes):
    """With other bytes at some places, each as `51=a5`. What isn't written so is left out."""
    made = bytearray(image)
    for change in changes.split(" "):
        place, _, byte = change.partition("=")
        if place.isdigit() and int(place) < len(made):
            made[int(place)] = int(byte, 16)
    return bytes(made)


class Player:
    """A device between two rows, the Book over it where it is open, and what was kept since: at the start, and behind each save."""

    def __init__(self, folder=None, checksum=chances.checksum):
        self.folder, self.image, self.book, self.kept, self.words, self.checksum = folder, b"", None, [], chances.Words(), checksum
        self.known, self.images, self.wrong = {}, 0, []
        # How many saves there were in all; and behind how many calls each was answered since the opening, or None where some weren't noted.
        self.saved, self.answered = 0, []

    def different(self):
        """How many different images were opened."""
        return len(self.known)

    def opened(self, image):
        """What an image is opened as, or the name of its refusal, each image once."""
        if image not in self.known:
            self.known[image] = opened_anew(image)
        return self.known[image]

    def saves(self, kept):
        return str(self.kept.index(kept)) if kept in self.kept else "?"

    def opened_text(self, image):
        self.images += 1
        opened = self.opened(image)
        return opened if isinstance(opened, str) else f"epoch {opened.epoch}, gate {opened.gate}, saves {self.saves(opened.kept)}"

    def place_text(self, image):
        """Behind how many saves what is opened was kept, and of an opening that switches how many of its own crashes leave the same."""
        self.images += 1
        opened = self.opened(image)
        if isinstance(opened, str):
            return opened
        return self.saves(opened.kept) + (self.stops_text(opened) if opened.has_switched() else "")

    def stops_text(self, opened):
        if opened.stops is None:
            again = [self.opened(left_by(opened.device, moment, number)) for moment in moments(opened.device) for number in range(7)]
            same = sum(isinstance(one, Opened) and one.kept == opened.kept and one.epoch - opened.epoch in (0, 1) for one in again)
            opened.stops = same, len(again)
        self.images += opened.stops[1]
        same, count = opened.stops
        if same != count:
            self.wrong.append(f"crashes in an opening that switches leave the same in {same} of {count}")
        return f"({same} of {count})"

    def check_front(self, moment, image):
        """An image of a crash opens as what was kept behind the answered changes, or behind one more."""
        opened = self.opened(image)
        if self.answered is not None:
            count = sum(calls < moment for calls in self.answered)
            if not isinstance(opened, Opened) or opened.kept not in self.kept[count : count + 2]:
                self.wrong.append(f"a crash in call {moment}, behind {count} answered saves, is opened as {self.opened_text(image)}")

    # Rows over an open device

    def crashes(self, _rest):
        device, told = self.book.device, [""]
        for moment in moments(device):
            images = [left_by(device, moment, number) for number in range(7)]
            told.append(f"  in call {moment}: " + " ".join(map(self.place_text, images)))
            for image in images:
                self.check_front(moment, image)
        return told

    def stopped(self, _rest):
        device, told = self.book.device, [""]
        for moment in moments(device):
            images = [left_by(device, moment, fill) for fill in PLAIN_FILLS]
            second, third = Reopened(), Reopened()
            told.append(f"  in call {moment}: " + " ".join(self.stopped_text(image, second, third) for image in images))
            told[-1] += f"; {second}; {third}"
            self.check_again(moment, second, third)
            for image in images:
                self.check_front(moment, image)
        return told

    def check_again(self, moment, second, third):
        for again, most in ((second, 2), (third, 3)):
            if again.same != again.all or again.least < 1 or again.most > most:
                self.wrong.append(f"openings of a crash in call {moment} that were stopped are the same in {again}")

    def stopped_text(self, image, second, third):
        """Behind how many saves what is opened was kept. Openings of what stops in that opening leave are counted, and of what stops in these
        leave."""
        self.images += 1
        opened = self.opened(image)
        if isinstance(opened, str):
            return opened
        if opened.again is None:
            opened.again = self.reopened(opened)
        for total, some in zip((second, third), opened.again):
            total.add(some)
            self.images += some.all
        return self.saves(opened.kept)

    def reopened(self, first):
        second, third = Reopened(), Reopened()
        for image in self.images_of(first):
            again = self.opened(image)
            second.count(again, first)
            if isinstance(again, Opened):
                for other in self.images_of(again):
                    third.count(self.opened(other), first)
        return second, third

    def images_of(self, opened):
        """What stops in the calls of an opening leave, each image once."""
        if opened.left is None:
            opened.left = list(dict.fromkeys(left_by(opened.device, moment, fill) for moment in moments(opened.device) for fill in PLAIN_FILLS))
        return opened.left

    def crash(self, rest):
        return [self.crash_text(rest)]

    def crash_text(self, rest):
        """What a crash in a call leaves with bytes at some places, and the replies to lines then."""
        crash, _, lines = rest.partition(BAR)
        moment, _, changes = crash.partition(" ")
        image = self.with_bytes(int(moment), changes)
        said = self.opened_text(image)
        if lines:
            said += ": " + (Book(Device(image)).lines(lines.split(BAR)) if isinstance(self.opened(image), Opened) else "")
        return said

    def with_bytes(self, moment, changes):
        device = self.book.device
        image = device.image(moment, put(device.image(moment, NEW), changes))
        self.check_front(moment, image)
        return image

    def each(self, rest):
        told = [""]
        for moment in moments(self.book.device):
            told.append(f"  in call {moment}:")
            texts = [(byte, self.crash_text(f"{moment} {rest}={byte:02x}")) for byte in range(256)]
            told[-1] += first_of_each(texts, "02x", ";")
        return told

    def snapshot(self, _rest):
        some = snapshot(self.book.held)
        return [f"{len(some)} bytes, read back: {str(snapshot(reading.read_snapshot(some)) == some).lower()}"]

    def times(self, rest):
        count, _, line = rest.partition(" ")
        for _ in range(int(count) - 1):
            self.book.line(line)
        self.answered = None
        return self.call(line)

    def call(self, line):
        said = self.book.line(line)
        if "applied" in said:
            self.note_save()
            said += f", gate {self.book.place.gate}"
        return [said]

    def note_save(self):
        self.saved += 1
        self.kept.append(self.book.kept())
        self.image = bytes(self.book.device.bytes)
        if self.answered is not None:
            self.answered.append(len(self.book.device.calls))

    def random_lines(self, rest):
        seed, count = map(int, rest.split(" "))
        chance, tally, book, others = chances.Chance(seed), chances.Tally(self.checksum), self.book, 0
        self.words.ticket, kept = "1.1", book.kept()
        for _ in range(count):
            said = book.line(self.words.line(chance))
            now = book.kept()
            others += said.startswith(("err ", "busy ")) and now != kept
            kept = now
            if said.startswith("ok "):
                self.words.ticket = said.split(" ")[-1]
            tally.count(chances.kind_of(said), said)
        self.note_save()
        self.answered = None
        return ["", *tally.told(), f"  refused and not as before: {others}"]

    # Rows over a device that isn't open, or over the bytes of one that is

    def zeros(self, rest):
        self.book, self.image = None, bytes(int(rest))
        return ["closed"]

    def file(self, rest):
        self.book = None
        path = os.path.join(self.folder, rest)
        if not os.path.isfile(path):
            return ["no such file"]
        with open(path, "rb") as it:
            self.image = it.read()
        return ["closed"]

    def format(self, _rest):
        self.book = None
        if len(self.image) % 2 or not reading.LEAST_SIZE <= len(self.image) <= reading.MOST_SIZE:
            return ["Err(BadSize), 0 calls"]
        self.image = writing.formatted(len(self.image))
        return ["Ok(()), 7 calls"]

    def open(self, _rest):
        self.book, device, before = None, Device(self.image), self.image
        try:
            self.book = Book(device)
        except Refusal as refusal:
            return [refusal_text(refusal)]
        self.image, self.kept, self.answered = bytes(device.bytes), [self.book.kept()], []
        if self.image != writing.opened(before):
            self.wrong.append("the calls of an opening come to other bytes than an opening leaves")
        return [f"epoch {self.book.held.epoch}, gate {self.book.place.gate}, {len(device.calls)} calls"]

    def openings(self, rest):
        for _ in range(int(rest)):
            self.image = writing.opened(self.image)
        return [f"epoch {reading.read(self.image).held.epoch}"]

    def put_bytes(self, rest):
        self.image = put(self.image, rest)
        return ["put"]

    def bytes_between(self, rest):
        start, end = map(int, rest.split(" "))
        return [self.image[start:end].hex()]

    def with_others(self, rest):
        return [self.opened_text(put(self.image, rest))]

    def played(self, fuse, lines):
        """What lines come to over a device that fails, and the device."""
        device = Device(self.image, fuse)
        try:
            return Book(device).lines(lines), device
        except Fault:
            return "Fault", device
        except Refusal as refusal:
            return refusal_text(refusal), device

    def fault_text(self, fuse, lines):
        said, device = self.played(fuse, lines)
        then, other = (self.opened_text(device.image(NEVER, fill)) for fill in (OLD, NEW))
        return f"{said}; then {then}; or {other}"

    def faults(self, rest):
        told, lines = [""], rest.split(BAR) * 2
        for calls in range(CALLS):
            told.append(f"  one behind {calls} calls fails: " + self.fault_text(Fuse("once", calls), lines))
            told.append(f"  all behind {calls} calls fail: " + self.fault_text(Fuse("after", calls), lines))
        return told

    def failing(self, rest):
        calls, _, lines = rest.partition(BAR)
        return [self.fault_text(Fuse("after", int(calls)), lines.split(BAR))]

    def torn(self, rest):
        return ["", *(self.torn_text(calls, rest.split(BAR) * 2) for calls in range(CALLS))]

    def torn_text(self, calls, lines):
        told, last = f"  behind {calls} calls:", ""
        for fill in PLAIN_FILLS:
            said, device = self.played(Fuse("torn", calls, fill), lines)
            text = f"{said}, {device.passed} passed; then"
            told += f" {text}" if text != last else ""
            told, last = f"{told} {self.place_text(bytes(device.bytes))}", text
        return told

    def renewed(self, fuse, rest):
        """What lines come to over a device that fails, and questions behind another opening of it; and whether that was opened. None if the first
        opening fails."""
        device, (lines, _, questions) = Device(self.image, fuse), rest.partition(AGAIN)
        try:
            book = Book(device)
        except (Fault, Refusal):
            return None, device, False
        replies = book.lines(lines.split(BAR))
        again, is_open = asked(device, questions, not book.has_halted)
        left = "".join(f"; {word} {asked(Device(device.image(NEVER, fill)), questions)[0]}" for word, fill in (("then", OLD), ("or", NEW)))
        return f"{replies}; again {again}{'' if is_open else left}", device, is_open

    def again(self, rest):
        told = [""]
        for calls in range(MOST_CALLS):
            text, device, _ = self.renewed(Fuse("after", calls), rest)
            if text is None:
                continue
            if device.tried <= calls:
                return [*told, f"  no call fails: {text}"]
            torn = [self.renewed(Fuse("torn", calls, fill), rest)[0] or "" for fill in PLAIN_FILLS]
            told += [f"  all behind {calls} calls fail: {text}", *(f"  one behind {calls} calls fails: {text}" for text in dict.fromkeys(torn))]
        return told

    def twice(self, rest):
        first, _, rest = rest.partition(" ")
        told = [""]
        for calls in range(int(first) + 1, MOST_CALLS):
            text, _, is_open = self.renewed(Fuse("once", int(first), other=calls), rest)
            if is_open:
                break
            if text is not None:
                told.append(f"  and one behind {calls}: {text}")
        return told

    def pairs(self, rest):
        before, _, lines = rest.rpartition(BAR)
        lines = lines.split(GROUPED)
        return ["", *(self.pair_text(before.split(BAR), first, second) for first in lines for second in lines)]

    def pair_text(self, before, first, second):
        """The replies to two lines in one group, and whether they and what is kept are the same one by one."""
        one_by_one = self.behind(before, [first, second])
        grouped = self.behind(before, [f"group {first}{GROUPED}{second}"])
        is_same = ", ".join(grouped).replace(GROUPED, ", ") == ", ".join(one_by_one)
        return f"  {first}{GROUPED}{second}: {grouped[len(before)]}; one by one the same: {str(is_same).lower()}"

    def behind(self, before, lines):
        book = Book(Device(self.image))
        return [*(book.line(line) for line in [*before, *lines]), *map(book.answer, QUESTIONS)]

    def word(self, rest):
        name, _, texts = rest.partition(BAR)
        self.words.add(name, texts.split(BAR))
        return [f"{len(texts.split(BAR))} texts"]

    def streams(self, rest):
        """That each comes to the same in pieces is what is wanted: the plain reading knows no pieces."""
        seed, count = map(int, rest.split(" "))
        chance, tally, book = chances.Chance(seed), chances.Tally(self.checksum), Book(Device(self.image))
        for _ in range(count):
            some = self.words.stream(chance)
            text = stream_text(Session(book.half, HISTORY, book.held.copied()), some)
            chances.pass_pieces(chance, len(some))
            tally.count(text.partition(": ")[0], text)
        return ["", *tally.told(), f"  in pieces the same: {count}"]

    def random_images(self, rest):
        seed, count = map(int, rest.split(" "))
        chance, tally = chances.Chance(seed), chances.Tally(self.checksum)
        for _ in range(count):
            kind, outcome = self.kind_and_outcome(chances.changed_image(chance, self.image))
            tally.count(kind, outcome)
        return ["", *tally.told()]

    def kind_and_outcome(self, image):
        self.images += 1
        opened = opened_anew(image)
        if isinstance(opened, str):
            return opened, opened
        kind = f"opened, gate {opened.gate}, saves {self.saves(opened.kept)}"
        return kind, f"epoch {opened.epoch}, gate {opened.gate}: {opened.kept}{kind}"

    # All rows

    def play(self, row):
        """The row and what it comes to, as the program tells it."""
        if not is_played(row):
            return [row]
        word, _, rest = row.partition(" ")
        if word == "cuts":
            raise NotPlayed(row)
        first, *more = self.come_to(word, rest, row)
        return [f"{row} -> {first}", *more]

    def come_to(self, word, rest, row):
        if row in ("open", "format") or word in ("zeros", "file"):
            return getattr(self, word)(rest)
        if word in ANYWHERE:
            return ANYWHERE[word](self, rest)
        if self.book is None:
            return WHEN_CLOSED[word](self, rest) if word in WHEN_CLOSED else [""]
        return WHEN_OPEN[word](self, rest) if word in WHEN_OPEN else self.call(row)


def asked(device, questions, is_known=False):
    """What a device is opened as, with the replies to these questions, or the name of its refusal; and whether it is opened."""
    try:
        book = Book(device, is_known)
        return f"epoch {book.held.epoch}: {book.lines(questions.split(BAR))}", True
    except Fault:
        return "Fault", False
    except Refusal as refusal:
        return refusal_text(refusal), False


def stream_text(session, some):
    """How many messages a stream has, and its fault; behind a colon the replies to them, and the states then."""
    messages, fault = read_stream(some)
    replies = "".join([session.alone(message) + ", " for message in messages])
    return f"{len(messages)} messages, {STREAM_FAULTS[fault]}: {replies}{reply_text(session.show('states'))}"


def is_played(row):
    """Comments, headings and empty rows aren't."""
    return row != "" and not row.startswith(("//", "=="))


def first_of_each(texts, form, end):
    """Each text behind the first of the numbers in a row that it stands for."""
    told, last = "", None
    for number, text in texts:
        if text != last:
            told += f" {number:{form}} {text}{end}"
        last = text
    return told


ANYWHERE = {"bytes": Player.bytes_between, "with": Player.with_others, "openings": Player.openings, "faults": Player.faults,
            "failing": Player.failing, "again": Player.again, "twice": Player.twice, "pairs": Player.pairs, "torn": Player.torn,
            "streams": Player.streams, "images": Player.random_images}
WHEN_CLOSED = {"put": Player.put_bytes, "word": Player.word}
WHEN_OPEN = {"times": Player.times, "snapshot": Player.snapshot, "crash": Player.crash, "crashes": Player.crashes, "stopped": Player.stopped,
             "lines": Player.random_lines, "each": Player.each}
