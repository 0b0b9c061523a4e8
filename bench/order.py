"""What clients of a server were told, and whether it fits one order of all changes: for bench/serve, for bench/kill-server, and for the
renewals of bench/soak.

A server numbers its changes from 1 in each opening. Of which opening one is says its line in the log of `--log`, which is written before
its reply: the lines of a session come in their order, and that of a renewal behind those of all changes before it. So each change gets its
place in the order of all: the changes of one opening by their numbers, and behind them the renewal and the changes of the next one.

Whose a session of the log is tells a text that no other client's changes have, such as a table's name. So each connection begins with a
change that has one.
"""
import bisect
import collections
import heapq
import itertools
import random
import re
import socket
import struct
import subprocess
import sys
import threading
import time
from typing import NamedTuple

# What the rules of all sessions and the clients' questions are about.
ADDRESSES = [f"10.0.0.{last}" for last in range(1, 65)]
RULES = ["block in proto tcp from <t> to any", "pass out proto udp all keep state"]
MORE = "block in proto 99 all"
FEW_SESSIONS = 64
# The most lines that a session sends at once, beside those that have to be in order.
TOGETHER = 190
# Streams of each peer, and how many messages it hands to the system at once.
STREAMS, AT_ONCE = 8, 100
INSERT, DELETE, RECORD = 1, 6, 64
# The first message of a peer's connection has so many records, and as many more as its client's number; others have fewer.
FEW_RECORDS = 3
# No reply may take longer, in seconds.
PATIENCE = 60
# The kinds of lines that may be answered as a change.
CHANGES = {"tadd", "tdel", "tset", "tkill", "commit", "main", "track", "kill", "expire", "message"}


class Told(NamedTuple):
    """A line, or how the log names a message, its reply, and when the one was sent and the other read, by the clock of all processes."""

    kind: str
    line: str
    reply: str
    sent: float
    read: float


def connected(address):
    """A connection by TCP, or to the Unix socket at a path."""
    stream = socket.socket(socket.AF_UNIX if isinstance(address, str) else socket.AF_INET)
    stream.settimeout(PATIENCE)
    stream.connect(address)
    return stream


class Client:
    """One after the other, sessions of mixed lines. What was asked and told is kept."""

    def __init__(self, address, number, seconds):
        self.address, self.number, self.seconds = address, number, seconds
        self.random = random.Random(number)
        self.told, self.sessions, self.longest, self.at_once = [], 0, 0.0, 0

    def play(self):
        end = time.monotonic() + self.seconds
        while time.monotonic() < end or self.sessions < FEW_SESSIONS:
            self.sessions += 1
            if self.random.randrange(8) == 0:
                self.send_messages()
            else:
                self.session()
        # no file goes from process to process
        self.file = None
        return self

    def ask(self, lines):
        """Sends lines at once, and waits for their replies."""
        self.send("".join(f"{line}\n" for _, line in lines).encode())
        self.read(lines)
        return self.told[-1].reply

    def send(self, some):
        self.sent = time.monotonic()
        self.file.write(some)
        self.file.flush()

    def read(self, lines):
        """The replies to lines or messages that were sent at once."""
        for kind, line in lines:
            reply = self.file.readline().decode().rstrip("\n")
            self.told.append(Told(kind, line, reply, self.sent, time.monotonic()))
        self.longest = max(self.longest, self.told[-1].read - self.sent)

    def session(self):
        with connected(self.address) as stream, stream.makefile("rwb") as self.file:
            self.mark()
            for _ in range(2):
                self.ask([self.mixed() for _ in range(self.random.randrange(1, 12))])
            what = self.random.randrange(4)
            if what == 0:
                self.commit()
            if what == 1:
                self.ask(self.tracked())
            if what == 2:
                self.together()
            self.ask([("log", "log"), self.mixed()])

    def mark(self):
        """The log names this client's own table, so it tells whose session this is."""
        self.ask([("tset", f"tset - own{self.number} 10.0.0.1")])

    def edit(self):
        return self.line(self.random.choice(["tadd", "tdel"]))

    def mixed(self):
        return self.line(self.random.choice(["tadd", "tdel", "test", "test", "judge", "judge", "judge", "sum", "log", "none"]))

    def line(self, kind):
        first, second = self.random.sample(ADDRESSES, 2)
        words = {"tadd": f"- t {first} {second}", "tdel": f"- t {first} {second}", "test": f"- t {first}", "judge": f"in em0 tcp {first} 40000 192.0.2.1 80"}
        return kind, f"{kind} {words.get(kind, '')}".strip()

    def begin(self, path):
        return self.ask([("begin", f"begin filter {path}")]).removeprefix("ok ")

    def commit(self):
        """The main rules by the first client, each other one's own ruleset."""
        main, more = self.number == 0, self.random.randrange(2)
        path = "-" if main else f"own{self.number}"
        rules = RULES + [MORE] * more if main else ["pass all"]
        ticket = self.begin(path)
        kind = f"main {more}" if main else "commit"
        self.ask([*(("add", f"add {path} {ticket} {rule}") for rule in rules), (kind, f"commit filter {path} {ticket}")])

    def tracked(self):
        """A state, by which a packet then passes, until it is killed."""
        name, port = f"{self.sessions} {self.number}", 1024 + self.sessions % 60_000
        out, back = f"out em0 udp 10.1.0.{self.number} {port} 192.0.2.1 53", f"in em0 udp 192.0.2.1 53 10.1.0.{self.number} {port}"
        return [("track", f"track {name} {out}"), (f"pass state {name}", f"judge {back}"), ("kill", f"kill {name}"), ("pass default", f"judge {back}")]

    def together(self):
        """Changes of all kinds that are kept together, and between them some questions and what is refused. Most are edits of the one
        table."""
        path, table = f"own{self.number}", f"- own{self.number}"
        ticket = self.begin(path)
        lines = [self.edit() if self.random.randrange(12) else self.mixed() for _ in range(self.random.randrange(TOGETHER))]
        in_order = [[("add", f"add {path} {ticket} pass all"), ("commit", f"commit filter {path} {ticket}")], self.tracked(),
                    [("tset", f"tset {table} 10.0.0.1"), ("tkill", f"tkill {table}")], [self.tick()], self.messages()]
        for some in in_order:
            places = sorted(self.random.randrange(len(lines) + 1) for _ in some)
            for place, line in reversed([*zip(places, some)]):
                lines.insert(place, line)
        self.at_once += len(lines)
        self.ask(lines)

    def tick(self):
        return "expire", "expire 0"

    def messages(self):
        """Lines with messages of a peer."""
        return [("message 1 0", f"peer {self.message(place).hex()}") for place in (8, 9)]

    def message(self, place):
        """A message of this session that inserts a state of its own."""
        source, name = bytes([10, 2, self.number, self.sessions & 255]), 1 << 32 | self.sessions << 8 | place
        return message_of((INSERT, record(name, self.number, source, 1024 + 16 * (self.sessions >> 8) + place)))

    def send_messages(self):
        """A peer's connection: each message inserts a state of its own."""
        with connected(self.address) as stream, stream.makefile("rwb") as self.file:
            messages = [self.message(place) for place in range(self.random.randrange(1, 4))]
            self.send(marking(self.number) + b"".join(messages))
            stream.shutdown(socket.SHUT_WR)
            self.read([marked(self.number), *[("message 1 0", records(1))] * len(messages)])


def record(name, creator, source, port):
    """The record of a state by which UDP packets of this source pass."""
    return struct.pack(">QIIBBBx16s16sHHII", name, creator, 0, 1, 4, 17, source, bytes([192, 0, 2, 1]), port, 53, 0xFFFFFFFF, 0xFFFFFFFF)


def message_of(*groups):
    """A message of groups, of as many records each as there are bytes for."""
    body = b"".join(struct.pack(">BxH", action, len(some) // RECORD) + some for action, some in groups)
    return struct.pack(">BxH16x", 5, 20 + len(body)) + body


def marking(number):
    """The first message of each connection of this client: the log tells how many records it has, so whose it is. It deletes what isn't
    there."""
    return message_of((DELETE, bytes(RECORD * (FEW_RECORDS + number))))


def marked(number):
    """What is expected of that message, and how the log names it."""
    return "message 0 0", records(FEW_RECORDS + number)


def records(count):
    """How the log names a message."""
    return f"peer {count} record{'s' * (count != 1)}"


def deed_of(line):
    """How the log names what a line changes."""
    words = line.split()
    if words[0] in ("tadd", "tdel", "tset"):
        return f"{' '.join(words[:3])} {len(words) - 3} {'entry' if len(words) == 4 else 'entries'}"
    if words[0] == "track":
        return " ".join(words[:3])
    # (a line's message has one record)
    return records(1) if words[0] == "peer" and len(words) == 2 else line


class Peer(Client):
    """One after the other, streams of so many messages each, over so many seconds. `sessions` counts them."""

    def __init__(self, address, number, seconds, messages):
        super().__init__(address, number, seconds)
        self.messages = messages

    def play(self):
        began = time.monotonic()
        for self.sessions in range(1, STREAMS + 1):
            self.stream_messages()
            time.sleep(max(0.0, began + self.seconds * self.sessions / STREAMS - time.monotonic()))
        self.file = None
        return self

    def message(self, place):
        """The message of this place in the stream: it inserts a state, and deletes that of the one before, if there is one."""
        inserted = INSERT, self.state(place)
        return message_of(inserted, (DELETE, self.state(place - 1))) if self.deletes(place) else message_of(inserted)

    def state(self, place):
        return record(self.sessions << 32 | place, self.number, bytes([10, 3, self.number, self.sessions & 255]), 1024 + place % 60_000)

    def deletes(self, place):
        """How many states the message of this place deletes."""
        return min(place, 1)

    def send_all(self, stream, times):
        """Sends the messages of a stream, and tells when each was handed to the system."""
        messages = itertools.chain([marking(self.number)], map(self.message, range(self.messages)))
        try:
            while some := [*itertools.islice(messages, AT_ONCE)]:
                times += [time.monotonic()] * len(some)
                stream.sendall(b"".join(some))
            stream.shutdown(socket.SHUT_WR)
        except OSError:
            # what isn't sent has no reply, which is told
            times += [time.monotonic()] * self.messages

    def stream_messages(self):
        """A stream, of which the replies are read while it is sent. Behind them nothing may come."""
        times, deletes = [], map(self.deletes, range(self.messages))
        kinds = [marked(self.number), *((f"message 1 {count}", records(1 + count)) for count in deletes)]
        with connected(self.address) as stream, stream.makefile("rb") as replies:
            sender = threading.Thread(target=self.send_all, args=(stream, times))
            sender.start()
            for place, (kind, deed) in enumerate(kinds):
                reply = replies.readline().decode().rstrip("\n")
                now = time.monotonic()
                self.told.append(Told(kind, deed, reply, times[place] if place < len(times) else now, now))
            sender.join()
            more = replies.readline().decode().rstrip("\n")
        if more:
            self.told.append(Told("the end of a stream", "", more, now, time.monotonic()))


class World:
    """What stands, as far as clients are told of it: the opening, how many changes and tickets it has, and what was kept."""

    def __init__(self, opening=1):
        self.opening, self.length, self.tickets, self.tick, self.more = opening, 0, 0, 0, 0
        # the addresses of the table, and each state that was tracked, with the tick at which it goes, or 0
        self.present, self.states, self.expiring = set(), {}, []

    def track(self, name, until):
        self.states[name] = until
        if until:
            heapq.heappush(self.expiring, (until, name))

    def expire(self, tick):
        """The states that go at this tick."""
        self.tick, gone = tick, []
        while self.expiring and self.expiring[0][0] <= tick:
            until, name = heapq.heappop(self.expiring)
            if self.states.get(name) == until:
                gone.append(name)
                del self.states[name]
        return gone


class Stretches:
    """The places behind which something was so, for each value that it had: `after[value]` are the first and the last of each stretch."""

    def __init__(self, value):
        self.steps, self.after = [(0, value)], {}

    def value(self):
        return self.steps[-1][1]

    def put(self, place, value):
        self.steps.append((place, value))

    def close(self):
        for (start, value), (end, _) in zip(self.steps, self.steps[1:] + [(1 << 62, None)]):
            if end > start:
                self.after.setdefault(value, []).append((start, end - 1))

    def first(self, value, low, high):
        """The first place in low to high behind which this was the value."""
        some = self.after.get(value, [])
        place = bisect.bisect_left(some, low, key=lambda stretch: stretch[1])
        if place < len(some) and max(some[place][0], low) <= high:
            return max(some[place][0], low)
        return None


NEVER = Stretches(False)
NEVER.close()


class Change(NamedTuple):
    """A change, as its line of the log tells of it."""

    opening: int
    number: int
    deed: str


class Log:
    """What a server said by `--log` since a world stood: of each session its changes, in their order, and in which opening it ended.
    `wrong` says what isn't so of the numbers, or of what clients were told. What else a server said goes to standard error."""

    def __init__(self, text, world, least=0, killed=None):
        """Each opening that ended has at least so many changes. No number is missing, unless the server was killed in that opening."""
        self.first = self.opening = world.opening
        self.killed, self.changes, self.wrong = killed, {}, []
        numbers = {world.opening: [*range(1, world.length + 1)]}
        # a kill may cut a line, whose reply nobody has then
        for line in text.split("\n")[:-1]:
            if found := re.fullmatch(r"pfd: (opened|renewed), epoch (\d+)", line):
                self.opening += found[1] == "renewed"
                numbers.setdefault(self.opening, [])
                self.wrong += [f"{line!r} is said in opening {self.opening}"] * (int(found[2]) != self.opening)
            elif found := re.fullmatch(r"pfd: session (\d+) applied (\d+): (.*)", line):
                numbers[self.opening].append(int(found[2]))
                self.changes.setdefault(int(found[1]), []).append(Change(self.opening, int(found[2]), found[3]))
            elif not re.fullmatch(r"pfd: session \d+ ended: .*", line):
                print(line, file=sys.stderr)
        for opening, some in numbers.items():
            self.look_at_numbers(opening, some, least)

    def look_at_numbers(self, opening, some, least):
        counts, last = collections.Counter(some), max(some, default=0)
        missing = [number for number in range(1, last) if number not in counts]
        twice = [number for number, count in counts.items() if count > 1]
        if twice or missing and opening != self.killed:
            self.wrong.append(f"of opening {opening} the log lacks the changes {missing[:9]}, and has {twice[:9]} twice")
        if opening < (self.killed or self.opening) and last < least:
            self.wrong.append(f"opening {opening} was renewed after change {last}")

    def owners(self, histories):
        """Whose each session is, by the texts that one client alone was told of."""
        tellers, found = {}, {}
        for who, told in histories.items():
            for event in told:
                if number_of(event.reply) is not None:
                    tellers.setdefault(deed_of(event.line), set()).add(who)
        for session, changes in self.changes.items():
            some = {who for change in changes if len(tellers.get(change.deed, ())) == 1 for who in tellers[change.deed]}
            if len(some) == 1:
                found[session] = some.pop()
        return found

    def placed(self, histories, owners):
        """The opening, the number, the client and the place in what it was told of each change, in order. A client's sessions follow each
        other."""
        said = {who: [] for who in histories}
        for session, changes in sorted(self.changes.items()):
            if session in owners:
                said[owners[session]] += changes
            else:
                self.wrong.append(f"whose is session {session}, which made {changes[:3]}?")
        return sorted(it for who, told in histories.items() for it in self.placed_of(who, told, iter(said[who])))

    def placed_of(self, who, told, said):
        """One client's, as far as it was told what the log says. Its changes and its tickets never go back."""
        low = self.first, 0
        for at, event in enumerate(told):
            if found := ticket_of(event):
                if int(found[1]) < low[0]:
                    self.wrong.append(f"client {who} was told {event} in opening {low[0]}")
                low = max(low, (int(found[1]), 0))
            elif (number := number_of(event.reply)) is not None:
                change = next(said, None)
                if not change or change[1:] != (number, deed_of(event.line)) or change[:2] <= low:
                    self.wrong.append(f"client {who} was told {event} behind {low}, and the log says {change}")
                    return
                low = change[:2]
                yield *low, who, at
        left = [*said]
        if left and self.killed is None:
            self.wrong.append(f"client {who} wasn't told of {left[:3]}")


class Order:
    """All changes in their order, and what stood behind each. `world` is what stood before, and then what stands behind the last."""

    def __init__(self, histories, world, log):
        self.histories, self.world = histories, world
        placed = log.placed(histories, log.owners(histories))
        self.wrong, self.places, self.first = log.wrong, {}, world.opening
        self.begin_stretches(world)
        for opening, number, who, at in placed:
            self.renew_until(opening)
            self.places[who, at] = self.length = self.length + 1
            self.number.put(self.length, number)
            self.make(number, who, histories[who][at])
            world.length = number
        self.renew_until(log.opening)
        for stretches in (self.opening, self.number, self.main, self.tick, *self.present.values(), *self.states.values()):
            stretches.close()
        self.by_the_clock()
        self.look_at_tickets()
        self.sums = {}

    def begin_stretches(self, world):
        self.length, self.opening, self.number = 0, Stretches(world.opening), Stretches(world.length)
        self.main, self.tick = Stretches(world.more), Stretches(world.tick)
        self.present = {address: Stretches(address in world.present) for address in ADDRESSES}
        self.states = {name: Stretches(True) for name in world.states}

    def renew_until(self, opening):
        """Each renewal has a place in the order too."""
        while self.world.opening < opening:
            self.length += 1
            self.world.opening, self.world.length = self.world.opening + 1, 0
            self.opening.put(self.length, self.world.opening)
            self.number.put(self.length, 0)

    def by_the_clock(self):
        """The greatest place among the first so many replies that were read, and the least among those sent behind the first so many."""
        events = [(self.histories[who][at], place) for (who, at), place in self.places.items()]
        read, sent = sorted((event.read, place) for event, place in events), sorted((event.sent, place) for event, place in events)
        self.read, self.sent = [time for time, _ in read], [time for time, _ in sent]
        self.greatest = [*itertools.accumulate((place for _, place in read), max, initial=0)]
        self.least = [*itertools.accumulate((place for _, place in reversed(sent)), min, initial=self.length + 1)][::-1]

    def bounds(self, event):
        """The greatest place of a change whose reply anybody had read when this was sent, and the last one before those that were sent once
        its reply was read."""
        known = self.greatest[bisect.bisect_left(self.read, event.sent)]
        return known, self.least[bisect.bisect_right(self.sent, event.read)] - 1

    def look_at_tickets(self):
        """No ticket is given twice, and none to nobody."""
        given, counts = {}, {}
        for who, told in self.histories.items():
            for event in told:
                if found := ticket_of(event):
                    if event.reply in given:
                        self.wrong.append(f"client {who}: {event.line!r}: {event.reply!r}, which client {given[event.reply]} was given")
                    given[event.reply] = who
                    counts.setdefault(int(found[1]), []).append(int(found[2]))
        before = self.world.tickets
        for opening in range(self.first, self.world.opening + 1):
            some = sorted(counts.get(opening, []))
            if some != [*range(before + 1, before + len(some) + 1)]:
                self.wrong.append(f"{len(some)} tickets were given in opening {opening} behind {before} others, the last one {some[-1]}")
            self.world.tickets, before = before + len(some), 0

    def make(self, number, who, event):
        kind, line, reply = event.kind, event.line, event.reply
        wanted = f"applied {number}"
        if kind in ("tadd", "tdel"):
            new = sum(self.put_address(address, kind == "tadd") for address in line.split()[3:])
            wanted += f" added {new} same {2 - new} conflict 0" if kind == "tadd" else f" deleted {new} absent {2 - new}"
        elif kind.startswith("main "):
            self.world.more = int(kind.split()[1])
            self.main.put(self.length, self.world.more)
        elif kind == "track":
            words = line.split()
            self.world.track(" ".join(words[1:3]), int(words[11]) if len(words) > 11 else 0)
            self.states.setdefault(" ".join(words[1:3]), Stretches(False)).put(self.length, True)
            wanted += " pass rule 1"
        elif kind == "kill":
            name = line.removeprefix("kill ")
            self.world.states.pop(name, None)
            self.states.setdefault(name, Stretches(False)).put(self.length, False)
        elif kind == "expire":
            gone = self.world.expire(int(line.split()[1]))
            self.tick.put(self.length, self.world.tick)
            for name in gone:
                self.states[name].put(self.length, False)
            wanted += f" expired {len(gone)}"
        elif kind.startswith("message "):
            wanted += " new {} replaced 0 stale 0 clash 0 deleted {}".format(*kind.split()[1:])
        if reply != wanted or kind.split()[0] not in CHANGES:
            self.wrong.append(f"client {who}: {line!r}: {reply!r} and not {wanted!r}")

    def put_address(self, address, is_there):
        """Whether that changes anything."""
        present = self.present[address]
        if present.value() == is_there:
            return False
        present.put(self.length, is_there)
        (self.world.present.add if is_there else self.world.present.discard)(address)
        return True

    def compare(self, who, told):
        """Each answer must be right behind some change: not one before the last answer or that any client knew of, and none behind the next
        change or that was sent too late."""
        places = [self.places.get((who, at)) for at in range(len(told))]
        nexts, following = [], self.length + 1
        for place in reversed(places):
            nexts.append(following)
            following = place or following
        low = 0
        for event, place, following in zip(told, places, reversed(nexts)):
            known, latest = self.bounds(event)
            low, high = max(low, known), min(following - 1, latest) if place is None else latest
            at = place if place is not None else self.answered(event.kind, event.line, event.reply, low, high)
            if at is None or not low <= at <= high:
                self.wrong.append(f"client {who}: {event.line!r}: {event.reply!r}, not after one of the changes {low} to {high}")
            else:
                low = at

    def answered(self, kind, line, reply, low, high):
        """The first place in low to high behind which this is right."""
        if kind in ("test", "judge"):
            address = line.split()[3 if kind == "test" else 4]
            told = {"test": {f"match {address}": True, "nomatch": False}, "judge": {"block rule 0": True, "pass default": False}}[kind]
            return self.present[address].first(told[reply], low, high) if reply in told else None
        if kind == "log":
            found = re.fullmatch(r"log (\d+) acked \1 shown \1", reply)
            return self.number.first(int(found[1]), low, high) if found else None
        if kind == "sum":
            # each checksum is that of one variant of the main rules
            fits = [more for more in self.main.after if self.sums.get(more, reply) == reply]
            found = [at for more in fits if (at := self.main.first(more, low, high)) is not None]
            return min(found, default=None) if re.fullmatch("[0-9a-f]{32}", reply) else None
        if kind == "begin":
            found = re.fullmatch(r"ok (\d+)\.\d+", reply)
            return self.opening.first(int(found[1]), low, high) if found else None
        if kind == "add" or line.startswith("commit "):
            return self.by_ticket(int(re.search(r" (\d+)\.\d+", line)[1]), kind, reply, low, high)
        if kind.startswith("state "):
            # one that may be gone by a tick meanwhile
            name = kind.removeprefix("state ")
            told = {f"pass state {name}": True, "pass default": False}
            return self.states.get(name, NEVER).first(told[reply], low, high) if reply in told else None
        if reply == "err tick":
            # what comes too late
            tick = int(line.split()[-1]) + (kind == "expire")
            found = [at for it in self.tick.after if tick <= it and (at := self.tick.first(it, low, high)) is not None]
            return min(found, default=None)
        return low if low <= high and reply == {"none": "err word 0"}.get(kind, kind) else None

    def by_ticket(self, opening, kind, reply, low, high):
        """A ticket is valid in its opening, and in none behind it."""
        if kind == "add" and reply == "ok":
            return self.opening.first(opening, low, high)
        later = self.opening.first(opening + 1, 0, self.length)
        return max(low, later) if reply == "busy 0" and later is not None and max(low, later) <= high else None


def ticket_of(event):
    return re.fullmatch(r"ok (\d+)\.(\d+)", event.reply) if event.kind == "begin" else None


def number_of(reply):
    found = re.match(r"applied (\d+)", reply)
    return int(found[1]) if found else None


def tell_sums(program, order):
    """What the checksums of both variants are, by a program of its own in memory."""
    for more in (0, 1):
        rules = "".join(f"add - 1.1 {rule}\n" for rule in RULES + [MORE] * more)
        lines = f"begin filter -\n{rules}commit filter - 1.1\nsum\n"
        order.sums[more] = subprocess.run([program, "run"], input=lines, stdout=subprocess.PIPE, text=True, check=True).stdout.split()[-1]
