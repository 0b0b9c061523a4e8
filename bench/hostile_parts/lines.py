"""Lines at random, with fixed seeds: half of them by the grammar of docs/LINES.md, half with words dropped, doubled, swapped, cut or joined, bytes
changed, or very long, and with NUL, CR and bytes above 127; and sessions of such lines.

Each session is played on the program and on the plain model, and each reply has to be the model's: so every line that has one gets an answer,
a line that is refused leaves everything, and nothing is answered wrongly. Some sessions have a small disk or a short history, so that these
are full. Sessions on a file end with its bytes: the plain reading of them has to find what the model keeps, with as many openings.

It sees nothing of several sessions at once, of want of memory, or of a file whose device fails. What both the model and the program have
wrong in the same way it doesn't see either.
"""
import os

from . import reading
from .model import Session
from .program import Result, Server, bytes_of, chance, formatted, new_folder, ran, shortened, spread
from .streams import EXAMPLE, MOST_ON_A_LINE
from .streams import Maker as MessageMaker

MOST_LINE = 4096
PATHS = ["-", "-", "-", "a", "a/b", "a/c", "a/b/d", "web", "z-1.x"]
NAMES = ["t", "u", "v.2", "long_name-with.31.bytes_in.it-aa"[:31]]
INTERFACES = ["em0", "em1", "lo0"]
PROTOCOLS = ["tcp", "udp", "icmp", "icmp6", "ipv6-icmp", "6", "17", "99", "255", "006"]
# Words at a limit and one past it, and other ones that a reader may get wrong.
EDGE_PATHS = ["a" * 63, "a" * 64, "a/" * 15 + "a", "a/" * 16 + "a", "abcdefghijklmno/" * 15 + "abcdefghijklmno", "abcdefghijklmno/" * 16, "..", "--",
              "a//b", "a/..", "a/-", "a..b", "/a", "a/", "b/" * 127 + "b", "a" * 256]
EDGE_NAMES = ["n" * 31, "n" * 32, "-", "..", "a!", "a/b", "A_z.9-"]
EDGE_INTERFACES = ["i" * 15, "i" * 16, "-", "..", "em0:1"]
EDGE_REFERENCES = ["r" * 63, "r" * 64, "r" * 61 + "/*", "r" * 62 + "/*", "r/" * 15 + "r", "r/" * 16 + "r", "*", "/*", '"', '""', '"a', "a/*/b",
                   "-", "..", '"*"', "a*", f'"{"r" * 63}"', f'"{"r" * 64}"']
EDGE_LABELS = ["l" * 63, "l" * 64, f'"{"l" * 63}"', f'"{"l" * 64}"', f'"{"l" * 62}', f'"{"l" * 63}', '"', '""', '"a', 'a"', '"a"b"', "-", "..", "a/b",
               "ab!", "label", "", "x label y", "x keep state", "x y"]
EDGE_PORTS = ["65535", "65536", "00080", "000080", "+5", "1:65536", "1:65535", "000001:2", "1:2:3", ":5", "5:", "1 >< 65536", "= 65536", "=", "==5",
              "><5", "<>5", "1><2", "!5", ">", ">=65535", ">=65536", "=000001"]
EDGE_PROTOCOLS = ["0", "00", "256", "0255", "ipv6", "TCP", "tcp6"]
EDGE_ADDRESSES = ["1.2.3", "1.2.3.4.5", "256.0.0.1", "1.2.3.0004", "010.0.0.1", "::1::2", "1:::2", ":::", "1:2:3:4:5:6:7:8", "1:2:3:4:5:6:7::",
                  "1:2:3:4:5:6:7:8::", "::2:3:4:5:6:7:8", "1.2.3.4::", "::1.2.3", "1:2:3:4:5:6:1.2.3.4", "1:2:3:4:5:6:7:1.2.3.4", "12345::", "::g",
                  "::FFFF:1.2.3.4", "::+1", ":1::", "10/8"]
EDGE_NETWORKS = ["10.0.0.0/33", "::/129", "10/032", "10/0032", "10/", "/8", "10", "10.1", "10.0.0.0.0/8", "10/+8", "1::/128", "::1/0", "!!10/8",
                 "10.0.0.0/8:", "10/8/8"]
EDGE_TICKETS = ["1", "1.", ".1", "1.1.1", "01.0000000001", "1.00000000001", "1.4294967295", "1.4294967296", "4294967296.1", "1.-1"]
EDGE_STATES = ["18446744073709551615 1", "18446744073709551616 1", "000000000000000000001 1", "00000000000000000001 0000000001", "1 4294967295",
               "1 4294967296", "1 00000000001"]
EDGE_TICKS = ["0", "00000000000000000000", "000000000000000000001", "18446744073709551616", "x", "-1", "5 5", "until 5"]
EDGE_HOSTS = ["<>", "<", "<a", "<a>b", "any any", "! any", "!any", "! ! 10/8", f"<{'t' * 31}>", f"<{'t' * 32}>", "< t >"]
STRANGE = [b"\0", b"\r", b"\t", b"\x80", b"\xff", b"\x7f", b"\x1b", b"\v", b"\f", b"\xc3\xa9", *(bytes([byte]) for byte in b' !<>/:.-#"*')]
QUESTIONS = ["sum", "log", "publish", "show states", "show status", "export", *(f"show rules {path}" for path in dict.fromkeys(PATHS)),
             *(f"show tables {path}" for path in dict.fromkeys(PATHS)), *(f"show anchors {path}" for path in dict.fromkeys(PATHS))]


class Maker:
    """Lines of a session. `session` is a model whose tickets are taken, so that some of them are valid."""

    def __init__(self, random, session):
        self.random, self.session, self.messages = random, session, MessageMaker(random, most_records=4)

    def one_of(self, *some):
        return self.random.choice(some)

    def maybe(self, text, of=2):
        return text if self.random.randrange(of) == 0 else ""

    def mostly(self, text, edges):
        """The text, or now and then a word at a limit."""
        return text if self.random.randrange(50) else self.random.choice(edges)

    # Words

    def address(self):
        random = self.random
        last = random.randrange(6)
        text = self.one_of(f"10.0.0.{last}", f"10.0.{last}.1", f"192.168.1.{last}", f"172.16.{last}.5", f"2001:db8::{last}", f"::{last}", "0.0.0.0",
                           f"::ffff:10.0.0.{last}", f"fe80:0:0:0:1:2:3:{last}")
        return self.mostly(text, EDGE_ADDRESSES)

    def network(self):
        random = self.random
        most = 32 if "." in (address := self.address()) and ":" not in address else 128
        text = self.one_of(address, f"{address}/{random.randrange(most + 1)}", "10/8", "10.0/16", "0.0.0.0/0", "::/0", "172.16/12", "2001:db8::/32")
        return self.mostly(text, EDGE_NETWORKS)

    def entry(self):
        return self.maybe("!", 4) + self.network()

    def entries(self, least):
        return " ".join(self.entry() for _ in range(self.random.randrange(least, 5)))

    def port(self):
        random = self.random
        number, other = random.randrange(6), random.randrange(6)
        text = self.one_of(number, f"{number}:{other}", f"{number} >< {other}", f"{number} <> {other}", f"={number}", f"!= {number}", f"<{number}",
                           f"<= {number}", f">{number}", f">= {number}", 65_535)
        return self.mostly(text, EDGE_PORTS)

    def host(self, has_ports):
        what = self.mostly(self.one_of("any", self.network(), self.network(), f"<{self.name()}>"), EDGE_HOSTS)
        inverted = "" if what == "any" else self.maybe(self.one_of("!", "! "), 5)
        return f"{inverted}{what}" + (f" port {self.port()}" if has_ports and self.random.randrange(2) else "")

    def rule(self):
        random = self.random
        effect = self.one_of("pass", "block", "block drop", f"anchor {self.reference()}")
        proto = random.choice(["", "", "tcp", "udp", self.mostly(random.choice(PROTOCOLS), EDGE_PROTOCOLS)])
        has_ports = proto in ("tcp", "udp", "6", "17", "006") or random.randrange(12) == 0
        words = [effect, self.one_of("", "in", "out"), self.maybe("quick", 4), self.maybe(f"on {self.interface()}", 4)]
        words += [self.one_of("", "", "", "inet", "inet6"), f"proto {proto}" if proto else ""]
        words.append(self.one_of("", "all", f"from {self.host(has_ports)}", f"to {self.host(has_ports)}",
                                 f"from {self.host(has_ports)} to {self.host(has_ports)}"))
        if effect == "pass":
            words.append(self.one_of("", "keep state", "no state"))
        if self.random.randrange(5) == 0 and not (effect.startswith("anchor") and self.random.randrange(10)):
            words.append(f"label {self.label()}")
        return " ".join(filter(None, words))

    def label(self):
        text = self.one_of("x", "y", "web", "in", "label", "a-b.c_9")
        return self.mostly(self.one_of(text, f'"{text}"'), EDGE_LABELS)

    def reference(self):
        text = self.one_of("a", "b", "a/b", "b/*", "a/*", "web", "c", "none", "in")
        return self.mostly(self.one_of(text, f'"{text}"'), EDGE_REFERENCES)

    def path(self):
        return self.mostly(self.random.choice(PATHS), EDGE_PATHS)

    def name(self):
        return self.mostly(self.random.choice(NAMES), EDGE_NAMES)

    def interface(self):
        return self.mostly(self.random.choice(INTERFACES), EDGE_INTERFACES)

    def ruleset(self):
        return f"{self.one_of('filter', 'filter', 'table')} {self.path()}"

    def ticketed(self, kind=None):
        """A ruleset and its ticket, which is mostly a valid one: the path and the ticket, or the kind too where none is said."""
        offers = [name for name in self.session.offers if kind in (None, name[0])]
        if offers and self.random.randrange(10):
            name = self.random.choice(offers)
            epoch, count = self.session.offers[name][0]
            path = name[1].decode() or "-"
            return f"{'' if kind else name[0] + ' '}{path} {epoch}.{count}"
        ticket = self.mostly(f"{self.one_of(1, 1, 1, 2, '01', 4294967295)}.{self.random.randrange(self.session.next_ticket + 2)}", EDGE_TICKETS)
        return f"{self.path() if kind else self.ruleset()} {ticket}"

    def protocol_and_ports(self):
        proto = self.mostly(self.random.choice(PROTOCOLS), EDGE_PROTOCOLS)
        is_ported = proto in ("tcp", "udp", "6", "17", "006")
        ports = [self.random.randrange(6) if is_ported else 0 for _ in range(2)]
        return proto, *(self.mostly(port, ["1", "65535", "65536", "00000", "000000", "=5"]) for port in ports)

    def packet(self):
        proto, one, other = self.protocol_and_ports()
        return f"{self.one_of('in', 'out')} {self.interface()} {proto} {self.address()} {one} {self.address()} {other}"

    def state(self):
        return self.mostly(f"{self.random.randrange(8)} {self.random.randrange(1, 3)}", EDGE_STATES)

    def tick(self):
        return self.mostly(str(max(0, self.session.held.tick + self.random.randrange(-1, 5))), EDGE_TICKS)

    def until(self):
        return f" until {self.tick()}" if self.random.randrange(3) == 0 else ""

    def message(self):
        some = self.messages.message() if self.random.randrange(12) else EXAMPLE
        if self.random.randrange(5) == 0:
            some = self.messages.broken(some)
        return some[:MOST_ON_A_LINE].hex()

    # Lines

    def valid(self):
        """A line that the grammar spells, or nearly always so."""
        shape = self.random.choices(SHAPES, WEIGHTS)[0]
        return shape(self)

    def several(self, make, most=3):
        count = self.random.randrange(1, most + 1) if self.random.randrange(60) else self.random.choice((63, 64, 65))
        return " ".join(make() for _ in range(count))

    def silent(self):
        return self.one_of("", " ", "\t\r ", "# frob", "#", " #x")

    def changed(self):
        """A valid line whose words or bytes are changed."""
        line = self.valid().encode()
        for _ in range(self.random.choice((1, 1, 1, 2, 3))):
            line = self.one_of(self.other_words, self.other_words, self.other_bytes, self.other_length)(line)
        return line.replace(b"\n", b"")

    def other_words(self, line):
        words = line.split()
        if not words:
            return line
        place, other = self.random.randrange(len(words)), self.random.randrange(len(words))
        how = self.random.randrange(7)
        if how == 0:
            del words[place]
        elif how == 1:
            words.insert(other, words[place])
        elif how == 2:
            words[place], words[other] = words[other], words[place]
        elif how == 3:
            words[place] = words[place][: self.random.randrange(len(words[place]) + 1)]
        elif how == 4:
            words[place : place + 2] = [b"".join(words[place : place + 2])]
        elif how == 5:
            words[place] *= self.random.choice((2, 3, 20, 64))
        else:
            words.insert(place, self.random.choice(self.valid().encode().split() or [b"x"]))
        return b" ".join(words)

    def other_bytes(self, line):
        place = self.random.randrange(len(line) + 1)
        some = self.random.choice(STRANGE) if self.random.randrange(2) else self.random.randbytes(1)
        return line[:place] + some + line[place + self.random.randrange(2) :]

    def other_length(self, line):
        """Mostly short; else up to about the longest line that there may be, or far past it."""
        how = self.random.randrange(60)
        if how > 2:
            return line[: self.random.randrange(len(line) + 1)] if how % 2 else line + self.one_of(b" ", b" x", b"\r", b" \t ")
        if how == 0:
            return line.ljust(MOST_LINE + self.random.randrange(-1, 3), self.one_of(b" ", b"x", b"\t"))
        if how == 1:
            return (line + b" ") * (MOST_LINE // (len(line) + 1) + self.random.randrange(-1, 2))
        return line.ljust(self.random.randrange(MOST_LINE, 200_000), self.one_of(b" ", b"#", b"\0"))

    def line(self):
        return self.valid().encode() if self.random.randrange(2) else self.changed()


SHAPES_AND_WEIGHTS = [
    (lambda maker: f"begin {maker.several(maker.ruleset)}", 8),
    (lambda maker: f"add {maker.ticketed('filter')} {maker.rule()}", 16),
    (lambda maker: f"define {maker.ticketed('table')} {maker.name()} {maker.entries(0)}", 6),
    (lambda maker: f"extend {maker.ticketed('table')} {maker.name()} {maker.entries(1)}", 5),
    (lambda maker: f"commit {maker.several(maker.ticketed)}", 7),
    (lambda maker: f"rollback {maker.several(maker.ticketed)}", 1),
    (lambda maker: f"tadd {maker.path()} {maker.name()} {maker.entries(1)}", 6),
    (lambda maker: f"tdel {maker.path()} {maker.name()} {maker.entries(1)}", 5),
    (lambda maker: f"tset {maker.path()} {maker.name()} {maker.entries(0)}", 4),
    (lambda maker: f"tkill {maker.path()} {maker.name()}", 2),
    (lambda maker: f"test {maker.path()} {maker.name()} {maker.address()}", 6),
    (lambda maker: f"judge {maker.packet()}", 14),
    (lambda maker: f"track {maker.state()} {maker.packet()}{maker.until()}", 8),
    (lambda maker: f"expire {maker.tick()}", 2),
    (lambda maker: f"kill {maker.state()}", 3),
    (lambda maker: f"peer {maker.message()}", 5),
    (lambda maker: maker.random.choice(QUESTIONS), 5),
    (lambda maker: maker.silent(), 1),
]
SHAPES, WEIGHTS = zip(*SHAPES_AND_WEIGHTS)


def session_of(random, count, session):
    """So many lines and the model's reply to each. At their end all is asked."""
    maker, lines, replies = Maker(random, session), [], []
    for number in range(count + len(QUESTIONS)):
        line = maker.line() if number < count else QUESTIONS[number - count].encode()
        lines.append(line)
        replies.append(session.reply(line))
    return lines, replies


def first_difference(lines, replies, told):
    """The line whose reply differs from the model's, with both."""
    place = 0
    for number, (line, reply) in enumerate(zip(lines, replies)):
        if told[place : place + len(reply)] != reply:
            return f"line {number}, {shortened(line)}: {shortened(reply)} is wanted, and it is {shortened(told[place : place + len(reply)])}"
        place += len(reply)
    return f"behind all replies: {told[place:][:3]}"


def same(held, other):
    return held.rulesets == other.rulesets and held.tables == other.tables and held.states == other.states and held.tick == other.tick


def settings(random):
    """How many bytes the disk has, and how many changes the history may have: mostly enough."""
    return random.choice((1 << 22, 1 << 22, 1 << 16, 4096, 1024, 300)), random.choice((65_536, 65_536, 65_536, 100, 3))


def said_by_server(options, file, size, history, given, random):
    """A session of `pfd serve`, whose bytes come in pieces."""
    places = sorted(random.randrange(len(given)) for _ in range(random.randrange(40)))
    pieces = [given[one:other] for one, other in zip([0, *places], [*places, len(given)])]
    with Server(options.program, file, size, workers=1, history=history) as server:
        return 0, server.told(*pieces), b""


def said(options, number, file, size, history, given, random):
    """The status, the output and the faults: of `pfd run` over memory, over a file, or of a session of `pfd serve`."""
    if number % 4 == 3:
        return said_by_server(options, file, size, history, given, random)
    words = ["--disk", file] if file else ["--size", size]
    return ran(options.program, "run", *words, "--history", history, given=given, seconds=600)


def play_session(job):
    """One session: over memory, on a file, or by a server on a file."""
    options, number, count = job
    random, result = chance(options.seed, "lines", number), Result()
    size, history = settings(random)
    session = Session(size // 2, history)
    lines, replies = session_of(random, count, session)
    given, what = b"\n".join(lines) + random.choice((b"\n", b"")), f"lines, session {number} of {count} lines, size {size}, history {history}"
    with new_folder() as folder:
        file = formatted(options.program, os.path.join(folder, "disk"), size) if number % 2 else None
        status, text, faults = said(options, number, file, size, history, given, random)
        text = text.decode("latin-1")
        if (status, text, faults) == (0, "".join(f"{line}\n" for reply in replies for line in reply), b""):
            result.passed += len(lines)
        else:
            result.wrong.append(f"{what}: status {status}, {faults!r}, {first_difference(lines, replies, text.splitlines())}")
        if file:
            found = reading.read(bytes_of(file)).held
            result.check(f"{what}: the file holds something else than what was answered", same(found, session.held) and found.epoch == 1)
    return result


def play(options):
    """All sessions: 20,000 lines in quick, ten million in the whole."""
    each = options.few(2_000, 5_000)
    jobs = [(options, number, each) for number in range(options.few(30, 2_000))]
    result = spread(play_session, jobs, options.processes)
    result.tell(f"{len(jobs)} sessions of {each:,} lines")
    return result
