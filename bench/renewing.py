"""Clients of all kinds beside a server that renews its history, for as long as is asked; `bench/soak --renew` calls it.

The server has addresses of each kind, TCP and Unix sockets. 64 clients at a time, each a process, for rounds of twenty seconds:

    30  sessions one after the other, of bench/serve's kinds: edits of one table, questions, commits, states that are tracked and killed,
        lines with a peer's messages and streams of them, many lines at once
    10  one session all the while, a line once the one before is answered
     8  one session all the while, many lines at once, which are cut anywhere with pauses between
     2  one session all the while that asks for verdicts without a pause
    13  one session all the while at an address that may only ask; each change is denied
     1  moves the tick, by which tracked states expire, and asks for tickets all the while

Two peers more send streams one after the other. Beside all that, over all rounds, there are silent clients: one with half a line, one with
nothing, and a peer with half a message, which send the rest at the end.

Behind each round every reply is compared with the order of all changes over the openings, which bench/order.py finds in the server's log,
and all that is kept with what these changes leave. Then the server's memory and descriptors are looked at. Behind the last round it is
killed, and what the next one has is compared too.
"""
import multiprocessing
import os
import re
import signal
import subprocess
import time

from hostile_parts.program import Result, formatted, new_folder
from order import (AT_ONCE, DELETE, INSERT, RULES, Client, Log, Order, Peer, Told, World, connected, marked, marking, message_of, record,
                   records, tell_sums)

SIZE, WORKERS, ROUND, PATIENCE = 1 << 18, 64, 20, 60
# Ticks a second, and for how many of them a state is tracked.
TICKS, LASTS = 10, (20, 60)
# Within so many seconds a server has closed what its client has.
CLOSES = 10
# What one that may only ask sends too.
DENIED = ("tkill - t", "begin filter -", "publish", "kill 1 1", "expire 0", "add - 1.1 pass all", "tset - t")
# How much the memory that is held behind the last round may be above that behind a minute.
MOST_GROWTH = 1.1
# What the table has all the time, beside what is asked about.
STAYS = "192.168.0.0/24"


def tick_now():
    """By the clock that all processes share."""
    return int(time.monotonic() * TICKS)


class Sessions(Client):
    """Sessions one after the other at one kind of address, as in bench/serve; the states of each are gone at its end or at a tick."""

    def __init__(self, ways, number, turn, seconds):
        super().__init__(ways.full[number % 2], number, seconds)
        self.peers = ways.peers[number % 2]
        self.random.seed(f"{turn} {number}")
        # states have names of their own in each round
        self.sessions = turn * 100_000

    def play(self):
        end = time.monotonic() + self.seconds
        while time.monotonic() < end:
            self.sessions += 1
            self.turn()
            time.sleep(self.random.random() / 10)
        self.file = None
        return self

    def turn(self):
        if self.random.randrange(8) == 0:
            self.send_messages()
        else:
            self.session()

    def tick(self):
        return "expire", f"expire {tick_now()}"

    def tracked(self):
        """One that is killed, or one that goes at a tick."""
        if self.random.randrange(2):
            return super().tracked()
        name, port = f"{self.sessions} {self.number}", 1024 + self.sessions % 60_000
        out, back = f"out em0 udp 10.1.0.{self.number} {port} 192.0.2.1 53", f"in em0 udp 192.0.2.1 53 10.1.0.{self.number} {port}"
        until = tick_now() + self.random.randrange(*LASTS)
        return [("track", f"track {name} {out} until {until}"), *[(f"state {name}", f"judge {back}")] * 3]

    def states(self):
        """Messages that insert a state, and delete it again."""
        source, name = bytes([10, 2, self.number, self.sessions & 255]), 1 << 32 | self.sessions
        some = record_of(name, self.number, source)
        return [("message 1 0", message_of((INSERT, some))), ("message 0 1", message_of((DELETE, some)))]

    def messages(self):
        return [(kind, f"peer {some.hex()}") for kind, some in self.states()]

    def send_messages(self):
        with connected(self.peers) as stream, stream.makefile("rwb") as self.file:
            some = self.states()
            self.send(marking(self.number) + b"".join(message for _, message in some))
            self.read([marked(self.number), *((kind, records(1)) for kind, _ in some)])


class Alone(Sessions):
    """One session all the while, a line once the one before is answered."""

    def play(self):
        with connected(self.address) as stream, stream.makefile("rwb") as self.file:
            self.mark()
            return super().play()

    def turn(self):
        for one in [self.mixed() for _ in range(8)] + self.tracked():
            self.ask([one])
        self.begin(f"clock{self.number}")
        if self.random.randrange(4) == 0:
            self.commit()


class Together(Alone):
    """One session all the while, many lines at once, cut anywhere with pauses between."""

    def turn(self):
        self.together()

    def send(self, some):
        self.sent = time.monotonic()
        cuts = sorted(self.random.randrange(len(some)) for _ in range(self.random.randrange(3)))
        for start, end in zip([0, *cuts], [*cuts, len(some)]):
            self.file.write(some[start:end])
            self.file.flush()
            time.sleep(self.random.random() / 4 if end < len(some) else 0)


class Judging(Alone):
    """One session all the while that asks for verdicts without a pause."""

    def play(self):
        end = time.monotonic() + self.seconds
        with connected(self.address) as stream, stream.makefile("rwb") as self.file:
            while time.monotonic() < end:
                self.ask([self.line("judge")])
        self.file = None
        return self


class Asking(Alone):
    """One session all the while at an address that may only ask."""

    def __init__(self, ways, number, turn, seconds):
        super().__init__(ways, number, turn, seconds)
        self.address = ways.ask[number % 2]

    def mark(self):
        """It changes nothing, so the log has nothing of it."""

    def turn(self):
        self.ask([self.question() for _ in range(self.random.choice((1, 1, 20)))])

    def question(self):
        kind, line = self.mixed()
        denied = ("tadd", "tdel", "none")
        if self.random.randrange(8) == 0:
            return "err denied", self.random.choice(DENIED)
        return "err denied" if kind in denied else kind, line


class Ticking(Alone):
    """Moves the tick, and asks for tickets all the while."""

    def turn(self):
        self.begin("clock")
        if self.random.randrange(8) == 0:
            self.ask([self.tick()])


class Streams(Peer):
    """A peer: one stream after the other. Each message deletes the state of the one before, also of the stream before."""

    def __init__(self, ways, number, turn, seconds):
        super().__init__(ways.peers[number % 2], number, seconds, 0)
        self.sessions = self.first = turn * 1_000
        self.random.seed(f"{turn} {number}")

    def play(self):
        end, last = time.monotonic() + self.seconds, None
        while time.monotonic() < end:
            self.sessions += 1
            self.messages = self.random.choice((1, 30, 3 * AT_ONCE))
            self.before, last = last, self.messages - 1
            self.stream_messages()
            time.sleep(self.random.random() / 2)
        self.end_last(last)
        self.file = None
        return self

    def state(self, place):
        if place < 0:
            return record_of((self.sessions - 1) << 32 | self.before, self.number, self.source(self.sessions - 1))
        return record_of(self.sessions << 32 | place, self.number, self.source(self.sessions))

    def source(self, stream):
        return bytes([10, 3, self.number, stream & 255])

    def deletes(self, place):
        return int(place > 0 or self.before is not None)

    def end_last(self, last):
        """Deletes the state of the last message."""
        some = message_of((DELETE, self.state(last)))
        with connected(self.address) as stream, stream.makefile("rwb") as self.file:
            self.send(marking(self.number) + some)
            self.read([marked(self.number), ("message 0 1", records(1))])


def record_of(name, creator, source):
    """The record of a state of this name, whose flow no other state of its creator has meanwhile."""
    return record(name, creator, source, 1024 + name % 60_000)


KINDS = (Sessions,) * 30 + (Alone,) * 10 + (Together,) * 8 + (Judging,) * 2 + (Asking,) * 13 + (Ticking,) + (Streams,) * 2


class Ways:
    """A server's addresses, of each kind by TCP and at a path. It is killed behind a `with`."""

    def __init__(self, program, folder, file, renew):
        paths = [os.path.join(folder, f"{kind}.sock") for kind in ("listen", "ask", "peers")]
        words = ["serve", "--disk", file, "--size", SIZE, "--workers", WORKERS, "--renew", renew, "--log"]
        for kind, path in zip(("listen", "ask", "peers"), paths):
            words += [f"--{kind}", "127.0.0.1:0", f"--{kind}", path]
        self.log = open(os.path.join(folder, "log"), "a+", encoding="ascii")
        self.process = subprocess.Popen([program, *map(str, words)], stdout=subprocess.PIPE, stderr=self.log)
        names = [self.process.stdout.readline().decode().removeprefix("listening ").rstrip("\n") for _ in range(6)]
        self.full, self.ask, self.peers = [[address_of(name) for name in names[first : first + 2]] for first in (0, 2, 4)]

    def __enter__(self):
        return self

    def __exit__(self, *_):
        self.process.send_signal(signal.SIGKILL)
        self.process.wait()
        self.process.stdout.close()
        self.log.close()

    def said(self):
        """What it said by `--log` since this was asked, when no client changes anything."""
        self.log.seek(0)
        text = self.log.read()
        self.log.truncate(0)
        return text

    def memory(self):
        """The kilobytes that it holds."""
        with open(f"/proc/{self.process.pid}/status", encoding="ascii") as it:
            return next(int(line.split()[1]) for line in it if line.startswith("VmRSS:"))

    def open_files(self):
        return len(os.listdir(f"/proc/{self.process.pid}/fd"))


def address_of(name):
    host, _, port = name.rpartition(":")
    return name if "/" in name else (host, int(port))


class Setter(Client):
    """Makes what clients ask about, and looks at what is kept when no other client is there."""

    def in_session(self, work):
        with connected(self.address) as stream, stream.makefile("rwb") as self.file:
            work()

    def set_up(self):
        def work():
            self.ask([("tset", f"tset - t {STAYS}")])
            self.commit()

        self.in_session(work)

    def look(self):
        """The opening and the length of its log. What it asks belongs to the round."""
        def work():
            self.begin("clock")
            self.ask([("log", "log")])

        self.in_session(work)
        return int(self.told[-2].reply.removeprefix("ok ").split(".")[0])

    def shown(self, line):
        """The lines of a reply that ends in a count."""
        self.send(f"{line}\n".encode())
        lines = []
        while not re.match("end |err |$", text := self.file.readline().decode().rstrip("\n")):
            lines.append(text)
        return lines

    def kept(self):
        """The table's entries, and the names of all states."""
        found = {}

        def work():
            found["t"] = next((set(line.split()[1:]) for line in self.shown("show tables -") if line.startswith("t ")), set())
            found["states"] = {" ".join(line.split()[:2]) for line in self.shown("show states")}
            found["rules"] = len(self.shown("show rules -"))

        self.in_session(work)
        return found


def should_be_kept(world):
    return {"t": {STAYS, *world.present}, "states": set(world.states), "rules": len(RULES) + world.more}


class Silent:
    """Clients that say half of something at first, and the rest at the end."""

    def __init__(self, ways):
        self.message = message_of((INSERT, record_of(1, 250, bytes([10, 4, 0, 1]))))
        some = ((ways.full[0], b"test - t 192.16"), (ways.full[1], b""), (ways.peers[0], self.message[:70]))
        self.streams = [self.begun(address, first) for address, first in some]

    def begun(self, address, first):
        stream = connected(address)
        stream.settimeout(PATIENCE)
        stream.sendall(first)
        return stream

    def end(self, result, world):
        """`world` is behind all rounds; the peer's message is one change more."""
        rests = (b"8.0.1\n", b"test - t 192.168.0.1\n", self.message[70:])
        kept = f"applied {world.length + 1} new 1 replaced 0 stale 0 clash 0 deleted 0\n"
        replies = (f"match {STAYS}\n", f"match {STAYS}\n", kept)
        for stream, rest, reply in zip(self.streams, rests, replies):
            stream.sendall(rest)
            result.compare(f"a silent one that says {rest[:20]!r} at the end", reply, stream.recv(1 << 12).decode())
            stream.close()
        world.states["1 250"] = 0


def played(ways, turn):
    """What the clients of one round were told, each a process."""
    clients = [kind(ways, number, turn, ROUND) for number, kind in enumerate(KINDS)]
    with multiprocessing.Pool(len(clients)) as pool:
        return pool.map(play_one, clients, chunksize=1)


def play_one(client):
    """What breaks, as by a reply that doesn't come, is told like any other."""
    try:
        return client.play()
    except OSError as error:
        client.file, now = None, time.monotonic()
        client.told.append(Told("it goes on", "", repr(error), now, now))
        return client


class Round:
    """What a round came to: its order of changes, renewals, changes and replies, the longest wait of a line alone, and what the server holds."""

    def __init__(self, program, ways, renew, world, clients, setter):
        setter.look()
        histories = {"the setter": setter.told} | {client.number: client.told for client in clients}
        setter.told = []
        log = Log(ways.said(), world, renew)
        self.renewals = log.opening - world.opening
        self.order = Order(histories, world, log)
        tell_sums(program, self.order)
        for who, told in histories.items():
            self.order.compare(who, told)
        broken = {who: told[-1].reply for who, told in histories.items() if told and told[-1].kind == "it goes on"}
        self.order.wrong[:0] = [f"client {who} broke off: {reply}" for who, reply in broken.items()]
        self.changes, self.replies = len(self.order.places), sum(map(len, histories.values()))
        self.longest = max(client.longest for client in clients if type(client) in (Alone, Judging, Ticking))

    def look_at(self, ways, files):
        """So many descriptors were open before the first round. What clients left is closed within some seconds."""
        end = time.monotonic() + CLOSES
        while ways.open_files() > files and time.monotonic() < end:
            time.sleep(0.1)
        self.memory, self.files = ways.memory(), ways.open_files()

    def __str__(self):
        return (f"{self.renewals} renewals, {self.changes:,} changes, {self.replies:,} replies, {self.memory:,} kB, {self.files} descriptors; "
                f"the longest wait of a line alone {self.longest:.2f} s; {len(self.order.wrong)} wrong")


def play_round(options, result, ways, renew, world, setter, turn, files):
    clients = played(ways, turn + 1000 * options.seed)
    one = Round(options.program, ways, renew, world, clients, setter)
    result.wrong += one.order.wrong
    result.passed += one.replies
    result.compare("what is kept", should_be_kept(world), setter.kept())
    one.look_at(ways, files)
    return one


def look_at_rounds(result, rounds, files):
    """Memory and descriptors don't grow: the kilobytes held behind the last round beside those behind a minute."""
    held = [one.memory for one in rounds]
    usual = held[min(len(held), 60 // ROUND) - 1]
    result.check(f"memory isn't flat: {usual:,} kB behind a minute, and {held[-1]:,} kB at the end", held[-1] <= MOST_GROWTH * usual)
    most = max(one.files for one in rounds)
    result.check(f"{most} descriptors are open behind a round, and {files} were before the first", most <= files)
    result.check("the history was never renewed", any(one.renewals for one in rounds))


def look_behind_a_kill(result, ways, world):
    setter = Setter(ways.full[1], 0, 0)
    result.compare("the opening behind a kill", world.opening + 1, setter.look())
    result.compare("what is kept behind a kill", should_be_kept(world), setter.kept())


def renewing(options, renew, minutes, say=lambda text: None):
    """Rounds for so many minutes, with a renewal behind so many changes, and then a kill."""
    result, world, rounds = Result(), World(), []
    with new_folder() as folder:
        file = formatted(options.program, os.path.join(folder, "disk"), SIZE)
        with Ways(options.program, folder, file, renew) as ways:
            setter, silent = Setter(ways.full[1], 0, 0), Silent(ways)
            setter.set_up()
            time.sleep(0.5)
            files = ways.open_files()
            for turn in range(max(1, round(minutes * 60 / ROUND))):
                rounds.append(play_round(options, result, ways, renew, world, setter, turn, files))
                say(f"round {turn + 1}: {rounds[-1]}")
                if result.wrong:
                    break
            silent.end(result, world)
        with Ways(options.program, folder, file, renew) as ways:
            look_behind_a_kill(result, ways, world)
    look_at_rounds(result, rounds, files)
    renewals, changes, replies = (sum(some) for some in zip(*((one.renewals, one.changes, one.replies) for one in rounds)))
    longest = max(one.longest for one in rounds)
    result.tell(f"{renewals:,} renewals, {changes:,} changes, {replies:,} replies, {rounds[-1].memory:,} kB; the longest wait of a line alone {longest:.2f} s")
    return result
