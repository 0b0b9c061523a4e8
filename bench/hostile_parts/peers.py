"""Peers' streams, sent to a server: the example of docs/PEERS.md after each of its bytes and at every pair of cuts, and streams at random.

A socket write is made for each piece. All that a stream is told has to be what the plain model says: a line for each message that is whole,
and one for the fault behind them. Every few hundred streams the states that are there have to be the model's. The same generator's messages
are also `peer` lines of sessions, many more of them.

How the system cuts what is sent isn't known: pieces that are written one right behind the other may be read as one. Some are sent with a
pause between. Short streams that are written at once are taken to be read at once: where the history or the disk has no room for all their
messages, they are refused together. What groups leave after a crash other parts look at.
"""
import itertools
import os
import socket
import time

from . import reading
from .lines import first_difference, same
from .model import Session
from .program import Result, Server, bytes_of, chance, formatted, new_folder, ran, received, send_all, spread
from .streams import EXAMPLE, MOST_ON_A_LINE, Maker, read_stream

SIZE, HISTORY = 1 << 26, 1_048_576
# A server is started anew before its history is full; a stream has this many messages at most.
MOST_CHANGES = HISTORY - 5_000
PAUSE = 0.002
# A stream of this many bytes at most is taken to be read at once.
MOST_AT_ONCE = 16_000


def wanted(session, some):
    """What a stream is told."""
    messages, fault = read_stream(some)
    said = session.stream(messages) + ([f"err peer {fault}"] if fault else [])
    return "".join(f"{line}\n" for line in said).encode()


def told(server, pieces, pause=0.0):
    with server.connect() as stream:
        for piece in pieces:
            send_all(stream, piece)
            if pause:
                time.sleep(pause)
        try:
            stream.shutdown(socket.SHUT_WR)
        except OSError:
            pass
        return received(stream)


def cut(some, places):
    return [some[one:other] for one, other in zip([0, *places], [*places, len(some)])]


class Streams:
    """A server, and the model that is played beside it."""

    def __init__(self, options, folder):
        self.result = Result()
        file = formatted(options.program, os.path.join(folder, "disk"), SIZE)
        self.server, self.session = Server(options.program, file, SIZE, workers=2, history=HISTORY), Session(SIZE // 2, HISTORY)

    def compare(self, what, pieces, pause=0.0):
        some = b"".join(pieces)
        said, should = told(self.server, pieces, pause), wanted(self.session, some)
        lengths = list(map(len, pieces))[:40]
        told_apart = f"{should[-300:]} is wanted, and it is {said[-300:]}"
        self.result.check(f"{what}, {some.hex()[:4000]} in pieces of {lengths}: {told_apart}", said == should)

    def compare_states(self):
        with self.server.session() as client:
            self.result.compare("the states behind streams", self.session.show("states"), client.ask_all("show states"))


def play_example(job):
    """The example cut off after each of its bytes, and whole in pieces by every pair of cuts that falls to this job."""
    options, number, step = job
    with new_folder() as folder:
        streams = Streams(options, folder)
        with streams.server:
            for count in range(number, len(EXAMPLE) + 1, step):
                streams.compare(f"the example after {count} bytes", [EXAMPLE[:count]] if count else [])
            places = itertools.combinations(range(1, len(EXAMPLE)), 2)
            for turn, pair in enumerate(itertools.islice(places, number, None, step)):
                streams.compare(f"the example cut at {pair}", cut(EXAMPLE, pair), PAUSE if turn % 10 == 0 else 0)
            for one in range(number + 1, len(EXAMPLE), step):
                streams.compare(f"the example twice, cut at {one}", cut(EXAMPLE * 2, [one, len(EXAMPLE) + one]), PAUSE)
            streams.compare_states()
    return streams.result


def some_stream(random, maker):
    """A stream, half of them broken."""
    some = maker.long_message() + maker.message() if random.randrange(200) == 0 else maker.stream()
    return maker.broken(some) if random.randrange(2) else some


def play_streams(job):
    options, number, count = job
    random = chance(options.seed, "streams", number)
    maker = Maker(random, names=200)
    with new_folder() as folder:
        streams = Streams(options, folder)
        with streams.server:
            for turn in range(count):
                some = some_stream(random, maker)
                places = sorted(random.randrange(1, len(some)) for _ in range(random.choice((0, 0, 1, 2, 5)))) if len(some) > 1 else []
                streams.compare(f"stream {turn} of job {number}", cut(some, places), PAUSE if random.randrange(20) == 0 else 0)
                if turn % 250 == 0:
                    streams.compare_states()
                if streams.session.changes > MOST_CHANGES:
                    break
            streams.compare_states()
    return streams.result


def play_groups(job):
    """Streams that are written at once, to servers whose history and disk are soon full; the next server goes on with the file."""
    options, number, count = job
    random, result = chance(options.seed, "groups", number), Result()
    maker = Maker(random, names=random.choice((3, 12, 40)))
    size = random.choice((1024, 2048, 4096, 65_536))
    with new_folder() as folder:
        file = formatted(options.program, os.path.join(folder, "disk"), size)
        for _ in range(count):
            held, history = reading.read(bytes_of(file)).held, random.choice((3, 20, 64, 100))
            held.epoch += 1
            session = Session(size // 2, history, held)
            with Server(options.program, file, size, workers=1, history=history) as server:
                for _ in range(random.randrange(1, 12)):
                    some = b"".join(maker.message() for _ in range(random.choice((1, 2, 3, 10, 30, 64, 65, 70))))[:MOST_AT_ONCE]
                    said, should = told(server, [some]), wanted(session, some)
                    result.compare(f"a group of job {number}, size {size}, history {history}, {some.hex()}", should, said)
            result.check(f"groups of job {number}: the file holds something else", same(reading.read(bytes_of(file)).held, session.held))
    return result


def play_lines(job):
    """Messages as lines of a session."""
    options, number, count = job
    random, session, result = chance(options.seed, "messages", number), Session(SIZE // 2, HISTORY), Result()
    maker, lines, replies = Maker(random, names=200), [], []
    for _ in range(count):
        some = maker.message() if random.randrange(30) else maker.message() + maker.message()
        line = b"peer " + (maker.broken(some) if random.randrange(2) else some)[:MOST_ON_A_LINE].hex().encode()
        lines.append(line)
        replies.append(session.reply(line))
    status, said, faults = ran(options.program, "run", "--size", SIZE, "--history", HISTORY, given=b"\n".join(lines), seconds=600)
    text = said.decode("latin-1")
    if (status, faults, text) == (0, b"", "".join(f"{line}\n" for reply in replies for line in reply)):
        result.passed += count
    else:
        result.wrong.append(f"messages, job {number}: status {status}, {faults!r}, {first_difference(lines, replies, text.splitlines())}")
    return result


def play(options):
    jobs = options.processes
    result = spread(play_example, [(options, number, jobs) for number in range(jobs)], jobs)
    each, rounds = options.few((600, 4), (5_000, 20))
    result.add(spread(play_streams, [(options, number, each) for number in range(rounds)], jobs))
    result.add(spread(play_groups, [(options, number, options.few(4, 20)) for number in range(options.few(8, 60))], jobs))
    lines, sessions = options.few((2_000, 4), (5_000, 200))
    result.add(spread(play_lines, [(options, number, lines) for number in range(sessions)], jobs))
    result.tell(f"the example's 89 fronts and 3,741 pairs of cuts, {each * rounds:,} streams, {lines * sessions:,} messages on lines")
    return result
