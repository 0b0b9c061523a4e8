"""What an agent asks of its pfd: lines and replies, the marks, a file in one commit, and the entries of tables.

A mark is an entry of a table that no rule asks, an address of IPv6: in two bytes what it marks, in six the beginning of a checksum, in
eight a revision of etcd. All marks are below the path `fleet`:

- `fleet/conf`, a table of each group: the revision of its file that is in force. It is defined in the commit that loads the file.
- `fleet/conf/GROUP`, a table of each name that this file fills, with the same mark from the same commit. So the next file's commit knows
  which tables go with it.
- `fleet/tables`, a table of each name whose entries come one by one: the revision whose entries are there. It is made before the first of
  them, and renewed after each batch. So entries that are gone from etcd are taken out after a crash too.

A `begin` for them makes void what another agent, or this one before a crash, began on them and has not committed. So where a commit was
not answered, the next one first begins and then reads the mark: the former can't be done any more between these and its own commit.
"""
import hashlib
import ipaddress
import os
import re
import shutil
import socket
import subprocess
import tempfile
import typing

HERE = os.path.dirname(os.path.realpath(__file__))
TOP = os.path.dirname(os.path.dirname(HERE))
CONF, TABLES = "fleet/conf", "fleet/tables"
# The most bytes of a line, how many entries of a file's table go into one, how many lines are sent before their replies are read, and the
# most seconds for a reply.
LONGEST, ENTRIES, AT_ONCE, ANSWERS = 4096, 64, 50, 20
OF_FILE, OF_ENTRIES = 0xFD01, 0xFD02


class Gone(Exception):
    """pfd doesn't answer, or ended before it had: what was asked last may be done or not."""


class Busy(Exception):
    """Somebody else began on the same ruleset meanwhile."""


class Fault(Exception):
    """A file, an entry or a change that is refused, in one line. Nothing of it is done."""


# ---- marks and entries


class Mark(typing.NamedTuple):
    """What a mark says: its kind, the checksum's beginning, and the revision."""

    kind: int
    digest: int
    revision: int

    def entry(self):
        number = self.kind << 112 | self.digest << 64 | self.revision
        return ":".join(f"{number >> place & 0xFFFF:x}" for place in range(112, -1, -16))


def mark_of(entry):
    """The mark that an entry is, or None."""
    try:
        number = int(ipaddress.IPv6Address(entry))
    except ValueError:
        return None
    return Mark(number >> 112, number >> 64 & (1 << 48) - 1, number & (1 << 64) - 1)


def digest_of(*texts):
    """The first six bytes of a checksum: another cluster of etcd, or one from a backup, has other files at the same revision."""
    return int.from_bytes(hashlib.sha256("\0".join(texts).encode()).digest()[:6], "big")


def canonical(text):
    """An entry as pfd shows it. ValueError if it is none."""
    sign, rest = ("!", text[1:]) if text.startswith("!") else ("", text)
    if "%" in rest:
        raise ValueError(text)
    network = ipaddress.ip_network(rest, strict=False)
    address = str(network.network_address)
    if network.version == 6:
        address = ":".join(f"{int(it, 16):x}" for it in network.network_address.exploded.split(":"))
    return f"{sign}{address}{'' if network.prefixlen == network.max_prefixlen else f'/{network.prefixlen}'}"


def is_name(text):
    """Whether a group, a host or a table may be called so."""
    return re.fullmatch(r"[A-Za-z0-9_.-]{1,31}", text) is not None and text not in ("-", "..")


# ---- a file


class File(typing.NamedTuple):
    """What a file says: each offer as its word (`add`, `define` or `extend`) and what stands behind the ticket, and the checksum of its rules."""

    offers: list
    sum: str

    def filled(self):
        """The tables that it fills."""
        return [text.split(" ", 1)[0] for word, text in self.offers if word == "define"]


def program():
    """The pfd that reads files, as examples/pfctl finds it."""
    built = os.path.join(TOP, "pfd")
    return os.environ.get("PFD_PROGRAM") or (built if os.access(built, os.X_OK) and os.path.isfile(built) else "pfd")


def offers_in(shown, path):
    """The offers of a file whose meaning `pfd check` shows so. Fault, if it has rules or tables elsewhere: a group has one ruleset."""
    for line in shown:
        word, _, rest = line.partition(" ")
        if word.startswith("@"):
            yield "add", rest
        elif word == "table" and rest.startswith(f"{path} "):
            name, *entries = rest.split(" ")[1:]
            yield "define", " ".join([name, *entries[:ENTRIES]])
            for start in range(ENTRIES, len(entries), ENTRIES):
                yield "extend", " ".join([name, *entries[start : start + ENTRIES]])
        elif line != f"anchor {path}":
            raise Fault(f"a group's file has one ruleset, and this one has more: {line[:80]}")


def read_file(text, name, path):
    """What the file means, as `pfd check` reads it for the ruleset at this path. Fault, with the file's line and column, if it isn't taken."""
    reader = shutil.which(program())
    if not reader:
        raise Fault(f"files are read by a pfd, and there is none at {program()}; PFD_PROGRAM may name another")
    reader = os.path.abspath(reader)
    with tempfile.TemporaryDirectory() as folder:
        place = os.path.join(folder, name)
        os.makedirs(os.path.dirname(place), exist_ok=True)
        with open(place, "w", encoding="utf-8") as it:
            it.write(text)
        read = subprocess.run([reader, "check", name, "--anchor", path], cwd=folder, capture_output=True, text=True, errors="replace")
    if read.returncode:
        raise Fault((read.stderr.strip().splitlines() or ["pfd check failed"])[-1])
    offers = list(offers_in(read.stdout.splitlines(), path))
    rules = [f"add - 1.1 {rule}" for word, rule in offers if word == "add"]
    lines = "\n".join(["begin filter -", *rules, "commit filter - 1.1", "sum"])
    summed = subprocess.run([reader, "run"], input=lines, capture_output=True, text=True)
    if summed.returncode:
        raise Fault((summed.stderr.strip().splitlines() or ["pfd run failed"])[-1])
    return File(offers, summed.stdout.splitlines()[-1])


# ---- a session with pfd


def connected(address):
    """A connection to HOST:PORT, or to the Unix socket at a path."""
    if "/" not in address:
        host, _, port = address.rpartition(":")
        return socket.create_connection((host.strip("[]"), int(port)), ANSWERS)
    stream = socket.socket(socket.AF_UNIX)
    stream.settimeout(ANSWERS)
    stream.connect(address)
    return stream


class Session:
    """A connection to a pfd."""

    def __init__(self, address):
        self.address, self.tickets = address, []
        try:
            self.socket = connected(address)
        except OSError:
            raise Gone(f"no pfd answers at {address}") from None
        self.replies = self.socket.makefile("rb")

    def __enter__(self):
        return self

    def __exit__(self, *_):
        self.replies.close()
        self.socket.close()

    def send(self, lines):
        try:
            self.socket.sendall("".join(f"{line}\n" for line in lines).encode())
        except OSError:
            raise Gone(self.ended()) from None

    def reply(self):
        try:
            line = self.replies.readline()
        except OSError:
            line = b""
        if not line.endswith(b"\n"):
            raise Gone(self.ended())
        return line.decode().rstrip("\n")

    def ended(self):
        return f"the pfd at {self.address} ended, or took more than {ANSWERS} seconds, before it had answered"

    def ask(self, *lines):
        """The replies to these lines, each of which has one of one line."""
        replies = []
        for start in range(0, len(lines), AT_ONCE):
            some = lines[start : start + AT_ONCE]
            self.send(some)
            replies += [self.reply() for _ in some]
        return replies

    def ask_list(self, line):
        """The lines of a list."""
        self.send([line])
        found = [self.reply()]
        while not re.match(r"end \d+$|err ", found[-1]):
            found.append(self.reply())
        if found.pop() != f"end {len(found)}":
            raise Fault(f"pfd doesn't answer '{line}'")
        return found

    def tables(self, path):
        """The tables at a path: a set of entries for each name."""
        return {name: set(entries.split()) for name, _, entries in (line.partition(" ") for line in self.ask_list(f"show tables {path}"))}

    def marks(self, path):
        """The marks at a path, by the names of their tables."""
        return {name: mark_of(next(iter(entries))) for name, entries in self.tables(path).items()}

    def epoch(self):
        """The number of pfd's opening of its file. (It ends what was begun on the marks of entries.)"""
        ticket = self.begin([("table", TABLES)])[0]
        self.rollback([("table", TABLES)])
        return int(ticket.split(".")[0])

    # ---- a transaction

    def begin(self, rulesets):
        (reply,) = self.ask("begin " + " ".join(f"{kind} {path}" for kind, path in rulesets))
        if not reply.startswith("ok "):
            raise Fault(f"pfd refuses to begin: {reply}")
        self.tickets = reply.split()[1:]
        return self.tickets

    def listed(self, rulesets):
        return " ".join(f"{kind} {path} {ticket}" for (kind, path), ticket in zip(rulesets, self.tickets))

    def rollback(self, rulesets):
        self.ask(f"rollback {self.listed(rulesets)}")

    def commit(self, rulesets, lines):
        """Makes these offers and commits them, or raises what was refused; then nothing is changed."""
        refused = next((it for it in self.ask(*lines) if it != "ok"), None)
        reply = refused or self.ask(f"commit {self.listed(rulesets)}")[0]
        if is_applied(reply):
            return
        if reply.startswith("busy "):
            raise Busy("somebody else began on the same ruleset")
        self.rollback(rulesets)
        raise Fault(f"pfd refuses: {meaning(reply)}")

    def load(self, group, path, file, mark):
        """Makes a group's file what is in force at this path, and marks it so, in one commit. It does nothing if the mark is there."""
        own = f"{CONF}/{group}"
        rulesets = [("filter", path), ("table", path), ("table", CONF), ("table", own), ("table", TABLES)]
        rules, tables, of_conf, of_own, of_tables = self.begin(rulesets)
        if self.marks(CONF).get(group) == mark:
            self.rollback(rulesets)
            return
        filled = file.filled()
        left = [name for name in self.marks(own) if name not in filled]
        # (a table that the file fills has its entries from there alone)
        taken = [name for name in self.marks(TABLES) if path == "-" and name in filled]
        lines = [f"{word} {path} {rules if word == 'add' else tables} {text}" for word, text in file.offers]
        lines += [f"define {path} {tables} {name}" for name in left]
        lines.append(f"define {CONF} {of_conf} {group} {mark.entry()}")
        lines += [f"define {own} {of_own} {name} {mark.entry()}" for name in filled] + [f"define {own} {of_own} {name}" for name in left]
        lines += [f"define {TABLES} {of_tables} {name}" for name in taken]
        self.commit(rulesets, lines)

    # ---- entries

    def change(self, word, name, entries):
        """Sends edits of a main table, in lines as long as may be."""
        for line in packed(f"{word} - {name}", sorted(entries)):
            (reply,) = self.ask(line)
            if not is_applied(reply) and not (word == "tdel" and reply == "err absent"):
                raise Fault(f"pfd refuses entries of <{name}>: {meaning(reply)}")

    def mark(self, name, mark):
        """Marks a main table, whose entries come one by one."""
        (reply,) = self.ask(f"tset {TABLES} {name} {mark.entry()}")
        if not is_applied(reply):
            raise Fault(f"pfd refuses the mark of <{name}>: {meaning(reply)}")

    def fill(self, name, wanted, there):
        """Brings a main table from what is there to what is wanted. What both have is there all the time. Whatever of it is done already,
        doing it again comes to the same."""
        turned = {it for it in there - wanted if turn(it) in wanted}
        self.change("tdel", name, turned)
        self.change("tadd", name, wanted - there)
        self.change("tdel", name, there - wanted - turned)


def turn(entry):
    """The entry with the other sign."""
    return entry[1:] if entry.startswith("!") else f"!{entry}"


def is_applied(reply):
    return reply.startswith(("applied ", "stored "))


def packed(command, entries):
    """Lines of this command, each with as many of the entries as fit."""
    line = command
    for entry in entries:
        if len(line) + 1 + len(entry) > LONGEST:
            yield line
            line = command
        line += f" {entry}"
    if line != command:
        yield line


def meaning(reply):
    """A refusal in words, where it has to do with the server."""
    words = {
        "err full": "its disk is full",
        "err history": "it has made as many changes as its --history says, and has to be started again",
        "err fault": "its disk failed, and it has to be started again",
        "err halted": "its disk failed before, and it has to be started again",
        "err memory": "it was refused memory",
        "err table": "a table has 65,536 entries at most",
        "err tables": "there are 1,024 tables at most",
        "err rulesets": "there are 1,024 rulesets at most",
    }
    return f"{reply} ({words[reply]})" if reply in words else reply
