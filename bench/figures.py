"""What bench/run has measured: figures by table, row and column, as lines to read and as the tables of a document.

In the document a table is what stands between two markers, `<!-- table: NAME -->` and `<!-- end -->`. The table called `machine` is the line
that says where and of which sources the figures are. A table that isn't of the same run says so in a line of its own.

Usage: from figures import Figures, machine, number, write
"""
import math
import os
import re
import subprocess
import sys
import tempfile
import time

ROOT = os.path.dirname(os.path.dirname(os.path.abspath(__file__)))
MARKED = re.compile(r"(<!-- table: ([a-z]+) -->\n)(.*?)(<!-- end -->)", re.S)
OTHER_RUN = "This table is of another run: "


def number(value, digits=2):
    """A number with so many significant digits, and one more from 100 on."""
    if value == 0:
        return "0"
    places = digits + (abs(value) >= 100) - 1 - math.floor(math.log10(abs(value)))
    return f"{round(value, places):,.{max(places, 0)}f}"


def cell(figure, digits=2):
    """A figure as it is shown: a text as it is."""
    return figure if isinstance(figure, str) else number(figure, digits)


class Figures:
    """The figures of one program. `heads` are the heads of each table by its name; the first is that of its rows."""

    def __init__(self, heads):
        self.heads = heads
        self.rows = {name: {} for name in heads}
        self.notes = {name: {} for name in heads}

    def put(self, table, row, column, figure):
        """A figure, a number or a text, in place of one that is there."""
        assert column in self.heads[table][1:], (table, column)
        self.rows[table].setdefault(row, {})[column] = figure

    def cost(self, table, row, column, value):
        """A time or a size, of which the least of some rounds counts."""
        self.put(table, row, column, min(value, self.rows[table].get(row, {}).get(column, value)))

    def rate(self, table, row, column, value):
        """A rate, of which the greatest of some rounds counts."""
        self.put(table, row, column, max(value, self.rows[table].get(row, {}).get(column, value)))

    def note(self, table, name, text):
        """A sentence below the table, in place of one of this name."""
        self.notes[table][name] = text

    def lines(self, table):
        """A line for each row, with a digit more, and the sentences."""
        for row, figures in self.rows[table].items():
            told = "; ".join(f"{column}: {cell(figure, 3)}" for column, figure in figures.items())
            yield f"{table}, {row}: {told}"
        yield from self.notes[table].values()

    def markdown(self, table):
        """The table, with a dash where a row has no such figure, and the sentences below it."""
        heads = self.heads[table]
        lines = [f"|{'|'.join(heads)}|", f"|---{'|---:' * (len(heads) - 1)}|"]
        for row, figures in self.rows[table].items():
            lines.append(f"|{'|'.join([row, *(cell(figures.get(head, '–')) for head in heads[1:])])}|")
        if self.notes[table]:
            lines += ["", " ".join(self.notes[table].values())]
        return "".join(f"{line}\n" for line in lines)


def first_match(path, pattern, otherwise):
    """What a file's first line that has this pattern says."""
    with open(path, encoding="utf-8") as it:
        found = re.search(pattern, it.read(), re.M)
    return found[1].strip() if found else otherwise


def disk_of(folder):
    """The file system that a folder is on, and the device of that."""
    folder, best = os.path.realpath(folder), ("", "", "")
    with open("/proc/self/mountinfo", encoding="utf-8") as it:
        for line in it:
            place, (kind, source) = line.split()[4], line.partition(" - ")[2].split()[:2]
            if os.path.commonpath([place, folder]) == place and len(place) >= len(best[0]):
                best = place, kind, source
    return f"{best[1]} on {best[2]}"


def output(*command):
    """The first line that a command writes, or nothing where it isn't there or fails."""
    try:
        ran = subprocess.run(command, cwd=ROOT, stdout=subprocess.PIPE, stderr=subprocess.DEVNULL, text=True)
    except OSError:
        return ""
    return ran.stdout.splitlines()[0] if ran.returncode == 0 and ran.stdout else ""


def machine():
    """A line that names the machine, the day, the toolchain and the sources."""
    processor = first_match("/proc/cpuinfo", r"^model name\s*:(.*)$", os.uname().machine)
    memory = int(first_match("/proc/meminfo", r"^MemTotal:\s*(\d+) kB$", "0")) / (1 << 20)
    commit = output("git", "rev-parse", "--short", "HEAD") or "unknown"
    if output("git", "status", "--porcelain", "--", "crates", "crates.txt"):
        commit += " with changes"
    parts = [processor, f"{os.cpu_count()} processors", f"{memory:.0f} GiB of memory", f"Linux {os.uname().release}"]
    parts += [f"files on {disk_of(tempfile.gettempdir())}", time.strftime("%Y-%m-%d"), output("rt", "version") or "no toolchain", f"commit {commit}"]
    return "; ".join(parts)


def replaced(text, tables, line, whole):
    """A document's text with these tables in place of its own, and the names of those that it has no place for. Where they are all that is measured, or all
    that the document has, `line` becomes the document's; a table that is then of another run, or is replaced alone, says so."""
    places = {name: body for _, name, body, _ in MARKED.findall(text)}
    old = places.get("machine", "").strip()
    now = line if whole or not old or places.keys() - {"machine"} <= tables.keys() else old

    def block(match):
        begin, name, body, end = match.groups()
        if name == "machine":
            body = now
        elif name in tables:
            body = tables[name] + ("" if line == now else f"\n{OTHER_RUN}{line}")
        elif body.strip() and old not in ("", now) and OTHER_RUN not in body:
            body = f"{body.strip()}\n\n{OTHER_RUN}{old}"
        return f"{begin}\n{body.strip()}\n\n{end}"

    return MARKED.sub(block, text), [name for name in tables if name not in places]


def write(path, tables, line, whole):
    """Puts the tables, by name as Markdown, into a document. One that it has no place for is printed, and standard error says so."""
    with open(path, encoding="utf-8") as it:
        text, missing = replaced(it.read(), tables, line, whole)
    with open(f"{path}.new", "w", encoding="utf-8") as it:
        it.write(text)
    os.replace(f"{path}.new", path)
    for name in missing:
        print(f"bench: {path} has no place for the table {name}", file=sys.stderr)
        print(tables[name], flush=True)
