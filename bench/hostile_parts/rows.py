"""Plays the rows of crates/pfd_rows/stdin on the plain model, which were worked out by hand: no program is run.

It takes the tables of lines, of whole inputs, of sessions and of peers' streams that need no device that fails, no reader or writer that does,
no session that may only ask (`doors` plays those), and no program. The head of that file says how rows are written.
"""
import itertools
import re

from .examples import text_of
from .model import Session
from .program import Result
from .streams import read_stream

# The most bytes that a row's input may have to be played here.
MOST_INPUT = 3_000_000
# How many sessions a status says to be open in rows of sessions, as crates/pfd_rows/src/sharing.rt has it.
OPEN = 3


class Table:
    """A table's name, its settings and its rows."""

    def __init__(self, text):
        self.name, *lines = text.split("\n")
        self.settings, self.rows = {"as": [], "before": []}, []
        for line in lines:
            if line.startswith(": "):
                word, _, rest = line[2:].partition(" ")
                if word in ("as", "before"):
                    self.settings[word].append(rest)
                else:
                    self.settings[{"in": "in turn"}.get(word, word)] = rest
            elif line and not line.startswith("//"):
                self.rows.append(line)

    def has(self, *words):
        return any(word in self.settings for word in words)

    def session(self):
        size, history = int(self.settings.get("size", 8192)), int(self.settings.get("history", 65_536))
        return Session(size // 2, history, sessions=OPEN if self.has("session") else 1)

    def played(self):
        """What is played on one Book: the rows of `as` for each row, in turn, or the row as it is."""
        for row in self.rows:
            fields = row.split(" -> ")
            shapes = [re.sub(r"\$(\d)", lambda found: field(fields, int(found[1])), shape) for shape in self.settings["as"]]
            for way in chosen("\n".join(shapes or [row])):
                yield way.split("\n")


def field(fields, number):
    return fields[number - 1] if number <= len(fields) else ""


def chosen(row):
    """The row with each of the texts in brackets; those that have as many are chosen together."""
    found = re.findall(r"\(([^()]*)\)", row)
    counts = sorted({text.count("|") + 1 for text in found})
    for places in itertools.product(*map(range, counts)):
        place = dict(zip(counts, places))
        yield re.sub(r"\(([^()]*)\)", lambda one: one[1].split("|")[place[one[1].count("|") + 1]], row)


def repeated(found):
    first, last, text = found[1], found[2], found[3] or ""
    if first is None:
        return ""
    first, last = int(first), int(last)
    numbers = range(first, last + 1) if first <= last else range(first, last - 1, -1)
    return "".join(text.replace("#", str(number)) for number in numbers)


def bytes_of(text):
    """What a field stands for."""
    text = re.sub(r"\{(?:(\d+)\.\.(\d+))?:?([^{}]*)\}", repeated, text)
    return re.sub(rb"\\([0-9a-f]{2})", lambda found: bytes.fromhex(found[1].decode()), text.encode())


def reply_of(text):
    lines = [bytes_of(line).decode("latin-1") for line in text.split(" | ")]
    return "".join(line if line.endswith("\n") or not text else line + "\n" for line in lines)


def is_too_long(text):
    return sum((abs(int(last) - int(first)) + 1) * len(some) for first, last, some in re.findall(r"\{(\d+)\.\.(\d+):([^{}]*)\}", text)) > MOST_INPUT


def lines_in(some):
    lines = some.split(b"\n")
    return lines if lines[-1] else lines[:-1]


def told(session, some):
    return "".join(f"{said}\n" for line in lines_in(some) for said in session.reply(line))


def play_lines(table, count):
    session = None
    for rows in table.played():
        if any(map(is_too_long, rows)):
            if table.has("in turn"):
                return
            continue
        if session is None or not table.has("in turn"):
            session = table.session()
            play_rows(session, table, table.settings["before"], count)
        play_rows(session, table, rows, count)


def play_rows(session, table, rows, count):
    for row in rows:
        line, _, reply = row.partition(" -> ")
        count.compare(f"{table.name}: {row}", reply_of(reply), told(session, bytes_of(line)))


def play_sessions(table, count):
    """Inputs whose reads and writes all go well."""
    for row in itertools.chain.from_iterable(table.played()):
        given, *rest = row.split(" -> ")
        given, _, limits = given.partition(" > ")
        if "!" not in given and "~" not in given and re.fullmatch(r"(interrupted \d+)?", limits) and rest[0].startswith("ok"):
            count.compare(f"{table.name}: {row}", reply_of(rest[1] if len(rest) > 1 else ""), told(table.session(), bytes_of(given.replace("|", ""))))


def play_peers(table, count):
    """Streams whose reads and writes all go well, in whatever pieces they come."""
    for row in itertools.chain.from_iterable(table.played()):
        given, *rest = row.split(" -> ")
        given, _, limits = given.partition(" > ")
        pieces = [piece for piece in bytes_of(given).split(b"|") if piece != b"~"]
        if b"!" in pieces or not re.fullmatch(r"(interrupted \d+)?", limits):
            continue
        session = table.session()
        messages, fault = read_stream(b"".join(pieces))
        said = session.stream(messages) + ([f"err peer {fault}"] if fault else [])
        count.compare(f"{table.name}: {row}", reply_of(rest[1] if len(rest) > 1 else ""), "".join(f"{line}\n" for line in said))


def play_table(table, count):
    if table.has("words", "server", "fails", "locked", "asking"):
        return
    if table.has("peer"):
        play_peers(table, count)
    elif table.has("session"):
        play_sessions(table, count)
    else:
        play_lines(table, count)


def play(_options):
    count = Result()
    for text in text_of("crates/pfd_rows/stdin").split("\n== ")[1:]:
        play_table(Table(text), count)
    return count
