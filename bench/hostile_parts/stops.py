"""Scripts of changes at random, stopped at each call of their device, with fixed seeds: each image that a stop may leave is opened.

Each script is rows for the program crates/pf_store_tests, on a device of 300 to 4,096 bytes, formatted or with a bank of version 1 or 2: openings,
transactions, edits of tables, states that are tracked, some until a tick, and killed, ticks, peers' messages, labels, groups. Behind each opening's
lines the row `crashes` stops each call with seven fills of what wasn't synced, of which one is bytes at random, and rows `crash` put other bytes
there, or leave a write cut. Behind the last, `stopped` stops each call of the openings of what a stop left, and each call of the openings of that.
Then a device fails for good. Every sixth script also has the rows `torn` and `faults`: each call of an opening and some lines fails in turn, and a
write leaves other bytes.

What is compared with what: every row's text as the program tells it, with the text that `player` works out by the plain reading, which doesn't
know the program. So both open every image, the program each time that it comes, and the player equal bytes of one script once. The text of a
row has the number of the save behind which what is opened was kept, whole with all rules, tables, states, the checksum of main and the tick; the
epochs that openings give; and how many come to the same. Beside it the player checks that each image of a stop opens as what was kept behind all
changes that had been answered, or behind the next one too; so it isn't enough that both come to the same.

What neither sees: anything kept of other rulesets than main and `web`, on which the scripts' changes are; a device that does otherwise than the
one in memory, for which there is the part `files`; want of memory.
"""
import os
import re
import shutil
import subprocess

from . import lines
from .books import BAR, GROUPED
from .model import entry_text, path_text
from .player import Player
from .program import PATIENCE, Result, chance, new_folder, shortened, spread
from .stored import FOLDER, told_rows
from .streams import NO_RULES
from .streams import Maker as MessageMaker

# Banks of the older versions with nothing in them.
VERSION_1, VERSION_2 = "put 0=a5 1=01 15=01 19=10", "put 0=a5 1=02 15=01 19=10"
LEAST_SIZE, MOST_SIZE = 300, 4096
# How many scripts a run of the program plays, and of how many one has calls that fail.
TOGETHER, FAILING = 4, 6
# What a reply says of a tick, alone or in a group.
EXPIRED = re.compile(r" expired (\d+)")
# So many bytes are put where a crash may leave any.
MOST_PUT = 48


class Maker(lines.Maker):
    """Lines that change something, on what the rows tell of: main and `web`. Most of them are accepted."""

    def __init__(self, random, session):
        super().__init__(random, session)
        self.messages = MessageMaker(random, names=4, most_records=3)

    def mostly(self, text, edges):
        return text if self.random.randrange(500) else self.random.choice(edges)

    def path(self):
        return self.one_of("-", "-", "web")

    def name(self):
        return self.one_of("t", "u")

    def rule(self):
        short = f"{self.one_of('pass', 'pass', 'block')} {self.one_of('', 'in ', 'quick ')}all" + self.maybe(f" label {self.label()}", 3)
        return self.one_of(short, short, super().rule())

    def ruleset(self):
        return f"{self.one_of('filter', 'filter', 'table')} {self.path()}"

    def entries(self, least):
        return " ".join(self.entry() for _ in range(self.random.randrange(least, 4)))

    # Lines

    def transaction(self):
        """The next line of one: rulesets are begun, filled, and mostly committed."""
        how, offers = self.random.randrange(12), self.session.offers.values()
        if not offers or how == 0:
            return f"begin {self.several(self.ruleset)}"
        if how < (5 if any(some for _, some in offers) else 10):
            return self.filling()
        return f"{'rollback' if how == 11 else 'commit'} {self.tickets()}"

    def filling(self):
        kinds = {kind for kind, _ in self.session.offers}
        if "filter" in kinds and ("table" not in kinds or self.random.randrange(3)):
            return f"add {self.ticketed('filter')} {self.rule()}"
        if self.random.randrange(3):
            return f"define {self.ticketed('table')} {self.name()} {self.entries(0)}".rstrip()
        return f"extend {self.ticketed('table')} {self.name()} {self.entries(1)}"

    def tickets(self):
        """Some of those that are valid."""
        some = self.random.sample(sorted(self.session.offers), self.random.randrange(1, len(self.session.offers) + 1))
        offers = [(kind, path, self.session.offers[kind, path][0]) for kind, path in some]
        return " ".join(f"{kind} {path_text(path)} {epoch}.{count}" for kind, path, (epoch, count) in offers)

    def table(self):
        """A table that is there, and an entry of it, or any."""
        tables = self.session.held.tables
        if not tables or self.random.randrange(4) == 0:
            return self.path(), self.name(), self.entry()
        path, name = self.random.choice(sorted(tables))
        row = self.random.choice(sorted(tables[path, name].items()))
        return path_text(path), name.decode(), entry_text(*row)

    def edit(self):
        path, name, entry = self.table()
        return self.one_of(f"tset {self.path()} {self.name()} {self.entries(0)}".rstrip(), f"tset {path} {name} {self.entries(1)}",
                           f"tadd {path} {name} {self.entries(1)}", f"tadd {self.path()} {self.name()} {self.entries(1)}",
                           f"tdel {path} {name} {entry}", f"tdel {path} {name} {self.entry()}", f"tkill {path} {name}")

    def state_change(self):
        states = self.session.held.states
        if states and self.random.randrange(3) == 0:
            return self.one_of("kill {} {}".format(*self.random.choice(sorted(states))), f"expire {self.time()}")
        tracks = [f"track {self.state()} {self.packet()}{self.until()}"] * (4 if b"" in self.session.held.rulesets else 1)
        return self.one_of(*tracks, f"peer {self.message()}", f"expire {self.tick()}")

    def time(self):
        """A tick at which a state expires, or any."""
        return self.random.choice([state.expiry for _, state in sorted(self.session.held.states.items()) if state.expiry] or [self.tick()])

    def until(self):
        later = self.session.held.tick + self.random.randrange(1, 5)
        return f" until {self.one_of(later, later, later, self.tick())}" if self.random.randrange(3) else ""

    def packet(self):
        """Of a few flows."""
        one, other = (self.one_of(f"10.0.0.{self.random.randrange(5)}", "10.1.2.3") for _ in range(2))
        if self.random.randrange(3) == 0:
            one, other = (f"2001:db8::{self.random.randrange(5)}" for _ in range(2))
        return f"{self.one_of('in', 'out')} em0 {self.one_of('tcp', 'udp')} {one} {self.random.randrange(3)} {other} {self.random.randrange(3)}"

    def message(self):
        """What a peer sends that has the same main rules, or others."""
        self.messages.checksums = [NO_RULES, self.session.held.checksum()]
        return self.messages.message().hex()

    def change(self):
        """A line that may be kept with others in a group."""
        some = [self.edit, self.state_change]
        if self.session.offers:
            some.append(lambda: f"commit {self.tickets()}")
        return self.one_of(*some)()

    def next_line(self):
        how = self.random.randrange(10)
        if how < 4:
            return self.transaction()
        if how == 9:
            most = self.random.choice((5, 5, 5, 65))
            return "group " + GROUPED.join(self.change() for _ in range(self.random.randrange(1, most)))
        return self.one_of(self.edit, self.edit, self.state_change)()


class Script:
    """The rows of a script, and what each has to come to."""

    def __init__(self, random, player=None):
        self.random, self.player, self.rows = random, player or Player(), []
        # How many saves began the other bank, how many of these left an older version, and how many states expired.
        self.switches, self.newer, self.expired = 0, 0, 0

    def row(self, row):
        """Plays a row, so that the next one can depend on it. Gives whether it was saved."""
        before, saved = self.place(), self.player.saved
        told = self.player.play(row)
        self.rows.append((row, told))
        is_save = self.player.saved > saved
        if is_save:
            self.count(before, self.place(), told[0])
        return is_save

    def place(self):
        """Of the bank that counts."""
        return self.player.book.place if self.player.book else None

    def count(self, before, after, told):
        self.switches += after.start != before.start
        self.newer += after.version != before.version
        self.expired += sum(int(number) for number in EXPIRED.findall(told))

    def device(self):
        """The rows of a device of any size, with nothing on it but openings."""
        size = self.random.randrange(LEAST_SIZE, self.random.choice((400, 1300, 2000, MOST_SIZE)) + 1) // 2 * 2
        rows = [f"zeros {size}", self.random.choice(("format", VERSION_1, VERSION_2))]
        return rows + [f"openings {self.random.randrange(1, 30)}"] * self.random.randrange(2)

    def lines(self, count, saves=None):
        """So many lines, or fewer where so many of them are saved."""
        maker, some = Maker(self.random, self.player.book), []
        while len(some) < count and saves != 0:
            some.append(maker.next_line())
            is_save = self.row(some[-1])
            saves = saves - is_save if saves else None
        return some

    def stopped(self):
        """Some openings of one device with lines behind each, all of whose calls are stopped."""
        for row in self.device():
            self.row(row)
        for _ in range(self.random.randrange(1, 5)):
            self.row("open")
            if self.random.randrange(2):
                self.keep_states()
            self.lines(self.random.randrange(5, 31))
            self.row("snapshot")
            self.row("crashes")
            for _ in range(4):
                self.crash()
        self.row("stopped")
        self.failing()

    def keep_states(self):
        """A main rule by which packets are tracked, where there is room for it."""
        for line in ("begin filter -", "add - {} pass all", "commit filter - {}"):
            self.row(line.format(f"{self.player.book.held.epoch}.1"))

    def crash(self):
        """A crash in a call, mostly a write, with bytes at random where it may leave any, or with those of before and those of behind it."""
        device = self.player.book.device
        moments = [moment for moment in range(1, len(device.calls) + 1) if device.state(moment).unsynced]
        moment = self.random.choice(moments)
        state = device.state(moment)
        places = [place for start, end in state.unsynced for place in range(start, end)]
        changes = [f"{place}={self.other_byte(state, place):02x}" for place in sorted(self.random.sample(places, min(len(places), MOST_PUT)))]
        self.row(f"crash {moment} {' '.join(changes)}{BAR}sum{BAR}log{BAR}tset - t 10.0.0.0/8{BAR}show tables -")

    def other_byte(self, state, place):
        return self.random.choice((state.kept[place], state.seen[place], self.random.randrange(256)))

    def failing(self):
        """An opening and some lines over a device that fails for good, at any call."""
        maker = Maker(self.random, self.player.book)
        some = [self.random.choice((maker.edit, maker.state_change))() for _ in range(self.random.randrange(1, 6))]
        self.row(f"failing {self.random.randrange(40)}{BAR}{BAR.join(some)}{BAR}log{BAR}show tables -{BAR}show states")

    def torn(self):
        """Each call of an opening and some lines fails in turn. They are played before, so that it is known what is kept behind each."""
        device = self.device()
        for row in [*device, "open"]:
            self.row(row)
        some = self.lines(12, saves=self.random.randrange(1, 3))
        for row in [*some, *device, f"torn {BAR.join(some)}", f"faults {BAR.join(some)}"]:
            self.row(row)


def script(options, number):
    made = Script(chance(options.seed, "stops", number))
    made.stopped()
    if number % FAILING == 0:
        made.torn()
    return made


def told_by(program, text):
    """What the program writes that is given these rows: it plays in a folder of its own, on files of which it expects some."""
    with new_folder() as folder:
        here = os.path.join(folder, "data")
        shutil.copytree(FOLDER, here)
        return subprocess.run([program], cwd=here, input=text, capture_output=True, text=True, timeout=20 * PATIENCE, check=False)


def compare(result, number, wanted, so):
    """One script's rows with what the program told of them."""
    for (row, told), block in zip(wanted, so):
        place = next((place for place, (one, other) in enumerate(zip(told, block)) if one != other), min(len(told), len(block)) - 1)
        difference = f"{shortened(told[place])} is wanted, and it is {shortened(block[place])}"
        result.check(f"script {number}, {shortened(row, 120)}: line {place}: {difference}", told == block)
    result.check(f"script {number}: {len(wanted)} rows are wanted, and there are {len(so)}", len(wanted) == len(so))


def play_scripts(job):
    """Some scripts in one run of the program."""
    options, numbers = job
    result, scripts = Result(), [script(options, number) for number in numbers]
    headings = [f"== Script {number}" for number in numbers]
    text = "\n".join("\n".join([heading, *(row for row, _ in made.rows)]) for heading, made in zip(headings, scripts))
    done = told_by(options.store_tests, text)
    if not result.check(f"scripts {numbers}: status {done.returncode}, {done.stderr[-300:]}", done.returncode == 0):
        return result
    blocks = told_rows(done.stdout, headings[0])
    starts = [place for place, block in enumerate(blocks) if block[0] in headings]
    for number, made, start, end in zip(numbers, scripts, starts, [*starts[1:], len(blocks)]):
        compare(result, number, made.rows, blocks[start + 1 : end])
        count(result, number, made)
    return result


def count(result, number, made):
    player = made.player
    result.wrong += [f"script {number}: {text}" for text in player.wrong]
    result.counts.update(scripts=1, rows=len(made.rows), images=player.images, different=player.different(),
                         saves=player.saved, switches=made.switches, newer=made.newer, expired=made.expired)


def play(options):
    """600 scripts in the whole, and in quick as many as take some 20 seconds on four processors."""
    numbers = range(options.few(60, 600))
    jobs = [(options, numbers[start : start + TOGETHER]) for start in range(0, len(numbers), TOGETHER)]
    result = spread(play_scripts, jobs, options.processes)
    some = result.counts
    result.tell(f"{some['scripts']:,} scripts of {some['rows']:,} rows, with {some['saves']:,} saves, of which {some['switches']:,} switched")
    result.tell(f"{some['newer']:,} of these left a bank of an older version; {some['expired']:,} states expired")
    result.tell(f"{some['images']:,} images were opened by the program; {some['different']:,} of them differ, and the plain reading opened these")
    return result
