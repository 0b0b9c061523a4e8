"""Mixed load for as long as is asked, over a small file that is switched to its other bank every few dozen changes, with restarts.

Some clients play sessions of lines and streams of messages on rules, tables and states of their own; each reply has to be the plain model's.
The server is killed at a random moment, and what the file then holds has to be, of each client, what it was last answered, or that with what it
had sent and not been answered. The next server goes on from there. Memory and file descriptors are told and have to stay flat from one server
to the next; within one its history grows by each change, so a server lasts for so many changes. Then one server renews its history, as the head of
bench/renewing.py says.
"""
import copy
import os
import re
import socket
import threading
import time
from typing import NamedTuple

from renewing import renewing

from . import reading
from .lines import Maker
from .model import Session
from .program import Pulse, Result, Server, bytes_of, chance, formatted, new_folder
from .streams import Maker as MessageMaker
from .streams import message_bytes, read_stream

SIZE, CLIENTS = 1 << 17, 6
# A server is killed behind so many changes; the first ones say what memory is usual.
CHANGES, FIRST = 20_000, 2
MOST_GROWTH = 1.25
# No client may wait longer than this, in seconds, but for a time in which the clients' own process stood still.
MOST_WAIT = 5.0


class OwnMaker(Maker):
    """Lines about one path and its own states."""

    def __init__(self, random, session, number):
        super().__init__(random, session)
        self.number = number

    def path(self):
        return f"own{self.number}"

    def ruleset(self):
        return f"{self.one_of('filter', 'table')} {self.path()}"

    def state(self):
        return f"{self.random.randrange(8)} {self.number + 1}"

    def own_message(self):
        """States of this creator, whose flows no other client has."""
        maker, groups = MessageMaker(self.random, names=8), []
        for action in (1, self.random.choice((1, 6, 0))):
            records = []
            for _ in range(self.random.randrange(3)):
                record = bytearray(maker.record(action))
                record[8:12] = (self.number + 1).to_bytes(4, "big")
                if action == 1:
                    family = record[17]
                    record[20:36] = bytes([10, 9, self.number, 1]).ljust(16, b"\0") if family == 4 else b"\x20\x01" + bytes([self.number]) + bytes(13)
                records.append(bytes(record))
            groups.append((action, records))
        return message_bytes(bytes(16), groups)


SHAPES = [
    (lambda maker: f"begin {maker.ruleset()}", 6),
    (lambda maker: f"add {maker.ticketed('filter')} {maker.rule()}", 8),
    (lambda maker: f"define {maker.ticketed('table')} {maker.name()} {maker.entries(0)}", 4),
    (lambda maker: f"extend {maker.ticketed('table')} {maker.name()} {maker.entries(1)}", 4),
    (lambda maker: f"commit {maker.ticketed()}", 6),
    (lambda maker: f"tadd {maker.path()} {maker.name()} {maker.entries(1)}", 8),
    (lambda maker: f"tdel {maker.path()} {maker.name()} {maker.entries(1)}", 6),
    (lambda maker: f"tset {maker.path()} {maker.name()} {maker.entries(0)}", 5),
    (lambda maker: f"tkill {maker.path()} {maker.name()}", 1),
    (lambda maker: f"test {maker.path()} {maker.name()} {maker.address()}", 8),
    (lambda maker: f"kill {maker.state()}", 2),
    (lambda maker: f"peer {maker.own_message().hex()}", 6),
    (lambda maker: f"show {maker.one_of('rules', 'tables')} {maker.path()}", 1),
    (lambda maker: "frob", 1),
]


def without_number(reply):
    """A reply without its change's number, which other clients' changes move."""
    return [re.sub(r"^applied \d+", "applied", line) for line in reply]


class Player(threading.Thread):
    """A client, its model, and what may stand of its own in the file: `fronts`."""

    def __init__(self, server, number, random, session, end):
        super().__init__()
        self.server, self.number, self.random, self.session, self.end = server, number, random, session, end
        self.maker = OwnMaker(random, session, number)
        self.fronts, self.wrong, self.replies, self.changes, self.longest = [copy.deepcopy(session.held)], [], 0, 0, 0.0

    def run(self):
        try:
            while not self.end.is_set():
                if self.random.randrange(6) == 0:
                    self.stream()
                else:
                    self.lines()
        except (OSError, EOFError):
            pass  # the server was killed

    def lines(self):
        with self.server.session() as client:
            for _ in range(self.random.randrange(1, 40)):
                self.line(client)
                self.longest = max(self.longest, client.longest)

    def line(self, client):
        shapes, weights = zip(*SHAPES)
        line = self.random.choices(shapes, weights)[0](self.maker)
        before = copy.deepcopy(self.session.held)
        should = self.session.reply(line.encode())
        self.fronts = [before, copy.deepcopy(self.session.held)]
        said = client.ask_all(line) if line.startswith("show") else [client.ask(line)]
        if not said[-1]:
            raise EOFError
        self.fronts = self.fronts[1:]
        if line.startswith("begin") and said[0].startswith("ok "):
            self.take_ticket(line, said[0])
            said = should
        self.compare(line, should, said)

    def take_ticket(self, line, said):
        kind, path = line.split()[1:]
        epoch, count = map(int, said.removeprefix("ok ").split("."))
        name = kind, path.encode()
        self.session.offers[name] = (epoch, count), self.session.offers[name][1]

    def stream(self):
        """Some messages at once: what stands is some of them from the front on, until all are answered."""
        some = b"".join(self.maker.own_message() for _ in range(self.random.randrange(1, 70)))
        messages, should, fronts = read_stream(some)[0], [], [copy.deepcopy(self.session.held)]
        for message in messages:
            should += self.session.stream([message])
            fronts.append(copy.deepcopy(self.session.held))
        self.fronts = fronts
        with self.server.connect() as stream:
            stream.sendall(some)
            stream.shutdown(socket.SHUT_WR)
            said = self.read(stream, fronts)
        if len(said) < len(should):
            raise EOFError
        self.compare("a stream", should, said)

    def read(self, stream, fronts):
        said = b""
        while piece := stream.recv(1 << 16):
            said += piece
            self.fronts = fronts[said.count(b"\n") :]
        return said.decode().splitlines()

    def compare(self, line, should, said):
        self.replies += len(said)
        self.changes += sum(reply.startswith("applied ") for reply in said)
        if without_number(said) != without_number(should):
            self.wrong.append(f"client {self.number}: {line} is told {said}, and not {should}")
            self.end.set()


def own(held, number):
    """What a client has of what is held."""
    path = f"own{number}".encode()
    return (held.rulesets.get(path), {name: rows for (at, name), rows in held.tables.items() if at == path},
            {name: state for name, state in held.states.items() if name[1] == number + 1})


def model_of(held, number, epoch):
    """A client's model that begins with what the file has of its own."""
    mine = reading.Held(epoch)
    rules, tables, states = own(held, number)
    path = f"own{number}".encode()
    mine.put_rules(path, rules)
    for name, rows in tables.items():
        mine.put_table((path, name), rows)
    for name, state in states.items():
        mine.put_state(name, state)
    return Session(1 << 29, 1 << 30, mine)


class Round(NamedTuple):
    """What one server came to: its peak in kilobytes, its changes, the generation that it left, the longest wait and its seconds."""

    peak: int
    changes: int
    generation: int
    longest: float
    seconds: float


def players_of(options, server, file, turn, end):
    """A client for each number, whose model begins with what the file has."""
    held = reading.read(bytes_of(file)).held
    return [Player(server, number, chance(options.seed, "soak", turn, number), model_of(held, number, held.epoch), end) for number in range(CLIENTS)]


def play_round(options, result, file, turn, end_of_all):
    """One server to its kill."""
    end, began = threading.Event(), time.monotonic()
    with Server(options.program, file, SIZE, workers=CLIENTS + 1, history=1_048_576) as server:
        files, players = server.open_files(), players_of(options, server, file, turn, end)
        for player in players:
            player.start()
        while time.monotonic() < end_of_all and sum(player.changes for player in players) < CHANGES and not end.is_set():
            time.sleep(0.05)
        is_alive = result.check(f"server {turn} ended by itself with {server.process.poll()}", server.is_alive())
        peak, more = (server.status("VmHWM"), server.open_files()) if is_alive else (0, 0)
    end.set()
    for player in players:
        player.join()
    result.check(f"server {turn}: {more} descriptors, and {files} before", more <= files + CLIENTS + 2)
    generation = compare_file(result, file, turn, players)
    return Round(peak, sum(player.changes for player in players), generation, max(player.longest for player in players), time.monotonic() - began)


def compare_file(result, file, turn, players):
    """What the file holds of each client has to be what it was answered, or what it had sent too. It gives the generation."""
    left = reading.read(bytes_of(file))
    for player in players:
        result.wrong += player.wrong[:3]
        result.passed += player.replies
        stands = any(own(left.held, player.number) == own(front, player.number) for front in player.fronts)
        result.check(f"server {turn}: the file has something else of client {player.number} than it was answered", stands)
    return left.generation


def soak(options, minutes, say=lambda text: None):
    """Servers, one behind the other, for so many minutes."""
    result, rounds = Result(), []
    end = time.monotonic() + 60 * minutes
    with new_folder() as folder, Pulse() as pulse:
        file = formatted(options.program, os.path.join(folder, "disk"), SIZE)
        while time.monotonic() < end and not result.wrong:
            rounds.append(one := play_round(options, result, file, len(rounds), end))
            say(f"server {len(rounds)}: {one.peak:,} kB, {one.changes:,} changes, {one.seconds:.0f} s, the longest wait {one.longest:.2f} s")
    look_at_memory(result, [one.peak for one in rounds if one.changes >= CHANGES])
    result.check("the file was never switched", rounds[-1].generation > 1)
    longest = max(one.longest for one in rounds)
    waited = f"a client waited {longest:.2f} s, and this process stood still for {pulse.longest:.2f} s at most"
    result.check(waited, longest <= MOST_WAIT + pulse.longest)
    peaks, changes = [one.peak for one in rounds], sum(one.changes for one in rounds)
    result.tell(f"{len(rounds)} servers, {changes:,} changes, {result.passed:,} replies, {rounds[-1].generation - 1:,} switches, "
                f"peaks of {min(peaks):,} to {max(peaks):,} kB, the longest wait {longest:.2f} s, of this process {pulse.longest:.2f} s")
    return result


def look_at_memory(result, peaks):
    """The peaks of servers that made as many changes as one may."""
    if len(peaks) > FIRST:
        usual, most = max(peaks[:FIRST]), max(peaks)
        result.check(f"memory isn't flat: {usual} kB at first, and {most} kB later", most <= MOST_GROWTH * usual)


def play(options):
    return soak(options, options.few(1, 5)).add(renewing(options, options.few(200, 1_000), options.few(1 / 3, 3)))
