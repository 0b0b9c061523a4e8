"""Hostile connections to a server: a thousand at once against 8 workers, some that are reset in each state, half-closed, that send 100 MB without
a newline, a byte a second, tens of thousands of empty ones, streams of zeros, and clients that never read their replies; and silent ones, of a
server that sends these away.

Beside each of these an honest session asks on, whose replies are known: its longest wait is told, and nothing may be answered wrongly. Where
the hostile ones take all workers, it is seen that those that wait are served in the end. The peak of memory is told, and has to stay within
some megabytes of what the server had before. At the end every worker has to be free, and no file descriptor may be left open.

The address space is limited in `memory.py`. What a network does between two machines isn't seen here: all goes over the loopback address.
"""
import os
import selectors
import socket
import struct
import threading
import time

from .program import Pulse, Result, Server, formatted, new_folder, received, send_all
from .streams import EXAMPLE

SIZE, WORKERS = 1 << 24, 8
# How much the peak may grow by one kind of connection, in kilobytes: each worker has a read of a peer's and its buffers.
MOST_GROWTH = 12_288
# How many seconds the honest session may wait, but for a time in which the clients' own process stood still.
MOST_WAIT = 5.0
MEGABYTE = 1 << 20
# A reset instead of an end.
LINGER_NONE = struct.pack("ii", 1, 0)
RULES = 1024
# What has been sent when a connection is reset.
BEGINNINGS = (b"", b"te", b"test - none 10.0.0.1\n", b"show rules many\n" * 50, EXAMPLE[:1], EXAMPLE[:50], EXAMPLE + EXAMPLE[:30], b"\5\1",
              bytes(5000))


class Witness(threading.Thread):
    """An honest session that asks all the while, with its own table; its longest wait, and what was answered wrongly."""

    def __init__(self, server, number=0):
        super().__init__()
        self.server, self.number, self.end = server, number, threading.Event()
        self.wrong, self.asked, self.longest, self.set = [], 0, 0.0, None

    def run(self):
        try:
            with self.server.session(120) as client:
                while not self.end.is_set():
                    self.turn(client)
                    self.longest = client.longest
        except Exception as fault:  # whatever it is, it is told
            self.wrong.append(f"the honest session: {fault!r}")

    def turn(self, client):
        """A change now and then, as the history keeps each; questions all the while."""
        name = f"witness{self.number}"
        if self.asked % 250 == 0:
            self.set = f"198.51.100.{self.asked // 250 % 200}"
            self.compare(client, f"tset - {name} {self.set}", "applied")
        self.compare(client, f"test - {name} {self.set}", f"match {self.set}")
        self.compare(client, f"test - {name} 192.0.2.1", "nomatch")
        self.compare(client, "judge in em0 udp 192.0.2.1 1 192.0.2.2 2", "pass default")
        self.compare(client, "frob", "err word 0")
        self.asked += 5
        time.sleep(0.002)

    def compare(self, client, line, should):
        said = client.ask(line)
        if said != should and not (should == "applied" and said.startswith("applied ")):
            self.wrong.append(f"the honest session: {line} is told {said!r} and not {should}")

    def stop(self):
        self.end.set()
        self.join()


class Place:
    """A server, and what is looked at around each kind of connection."""

    def __init__(self, options, folder):
        file = formatted(options.program, os.path.join(folder, "disk"), SIZE)
        self.options, self.result = options, Result()
        self.server = Server(options.program, file, SIZE, workers=WORKERS, history=1_048_576)
        with self.server.session() as client:
            many_rules(client)
        self.files = self.server.open_files()

    def beside(self, name, work, *words, has_witness=True):
        """Does the work beside an honest session, and looks at the server's memory."""
        self.server.forget_peak()
        before, began = self.server.status("VmHWM"), time.monotonic()
        witness = Witness(self.server) if has_witness else None
        if witness:
            witness.start()
        with Pulse() as pulse:
            extra = self.done(name, work, words)
        if witness:
            witness.stop()
            self.result.wrong += witness.wrong[:5]
            self.result.passed += witness.asked
            waited = f"the honest session waited {witness.longest:.2f} s, and this process stood still for {pulse.longest:.2f} s"
            self.result.check(f"{name}: {waited}", witness.longest <= MOST_WAIT + pulse.longest)
        grown = self.server.status("VmHWM") - before
        self.result.check(f"{name}: the server is gone", self.server.is_alive())
        self.result.check(f"{name}: memory grew by {grown} kB, from {before} kB", grown <= MOST_GROWTH)
        wait = f", the honest session waited {witness.longest * 1000:.0f} ms at most" if witness else ""
        self.result.tell(f"{name}: {extra}{time.monotonic() - began:.1f} s, memory {before:,} + {grown:,} kB{wait}")
        self.all_workers_free(name)

    def done(self, name, work, words):
        """What the work tells of itself. That it breaks is a fault like any other."""
        try:
            return work(self, *words) or ""
        except Exception as fault:  # whatever it is, it is told
            self.result.wrong.append(f"{name} broke: {fault!r}")
            return ""

    def all_workers_free(self, name):
        """As many sessions as there are workers are answered at once, and no descriptor is left open."""
        clients = [self.server.session() for _ in range(WORKERS)]
        said = [client.ask("frob") for client in clients]
        for client in clients:
            client.close()
        self.result.compare(f"{name}: a worker isn't free", ["err word 0"] * WORKERS, said)
        for _ in range(200):
            if self.server.open_files() <= self.files:
                break
            time.sleep(0.02)
        files = self.server.open_files()
        self.result.check(f"{name}: {files} file descriptors are open, and {self.files} were before", files <= self.files)

    def compare(self, what, should, said):
        self.result.compare(what, should, said)


def many_rules(client):
    """So many rules at the path `many` that a question about them has a long reply."""
    ticket = client.ask("begin filter many").removeprefix("ok ")
    for number in range(RULES):
        client.ask(f"add many {ticket} block in proto tcp from 10.0.0.0/8 port {number} to any")
    client.ask(f"commit filter many {ticket}")


def a_reset(stream):
    stream.setsockopt(socket.SOL_SOCKET, socket.SO_LINGER, LINGER_NONE)
    stream.close()


# Kinds of connections


def thousand_at_once(place, count):
    """All are opened before any is served; each has a line and a reply, and those that wait are served in the end."""
    crowd = Crowd(place.server.address)
    for _ in range(count):
        crowd.open(time.monotonic())
    crowd.serve(time.monotonic() + 180)
    place.result.check(f"{count - len(crowd.waits)} of {count} connections at once weren't served", len(crowd.waits) == count)
    place.compare("what connections at once are told", {b"nomatch\n"}, crowd.said)
    return (f"{len(crowd.waits):,} of {count:,} at once were served, the last after {max(crowd.waits, default=0):.1f} s, "
            f"{crowd.again} of them had to connect again, ")


class Crowd:
    """Connections that are all open at once. One whose connection the system resets before it is accepted connects again."""

    def __init__(self, address):
        self.address, self.chooser, self.waits, self.said, self.again = address, selectors.DefaultSelector(), [], set(), 0

    def open(self, began):
        stream = socket.socket()
        stream.setblocking(False)
        stream.connect_ex(self.address)
        self.chooser.register(stream, selectors.EVENT_WRITE, began)

    def serve(self, end):
        while self.chooser.get_map() and time.monotonic() < end:
            for key, _ in self.chooser.select(1):
                self.serve_one(key.fileobj, key)
        for key in list(self.chooser.get_map().values()):
            self.close(key.fileobj)

    def close(self, stream):
        self.chooser.unregister(stream)
        stream.close()

    def serve_one(self, stream, key):
        """One that can be written sends its line; one that can be read has its reply."""
        try:
            if key.events == selectors.EVENT_WRITE:
                stream.send(b"test - none 10.0.0.1\n")
                stream.shutdown(socket.SHUT_WR)
                self.chooser.modify(stream, selectors.EVENT_READ, key.data)
                return
            self.said.add(stream.recv(100))
            self.waits.append(time.monotonic() - key.data)
            self.close(stream)
        except OSError:
            self.again += 1
            self.close(stream)
            self.open(key.data)


def resets(place, count):
    """In each state that a connection may be in: nothing sent, half a line, replies due, all read, half-closed, within a message, behind a fault."""
    for _ in range(count):
        for some in BEGINNINGS:
            for how in range(3):
                stream = place.server.connect()
                send_all(stream, some)
                if how == 1 and some:
                    time.sleep(0.002)
                if how == 2:
                    stream.shutdown(socket.SHUT_WR)
                    time.sleep(0.002)
                a_reset(stream)
    return f"{count * 3 * len(BEGINNINGS):,} resets, "


def half_closed(place, count):
    """A side that has ended gets all its replies; one that takes no more replies ends alone."""
    for _ in range(count):
        place.compare("half-closed, a line without its end", b"nomatch\n", place.server.told(b"test - none 10.0.0.1"))
        place.compare("half-closed, within a message", b"err peer ended\n", place.server.told(EXAMPLE[:40]))
        many = place.server.told(b"show rules many\n" * 20)
        place.compare("half-closed, long replies", 20 * (RULES + 1), many.count(b"\n"))
        with place.server.connect() as stream:
            stream.shutdown(socket.SHUT_RD)
            send_all(stream, b"frob\n" * 100)
    return ""


def without_newline(place, megabytes):
    """One line of so many bytes, and one more line behind it."""
    with place.server.connect() as stream:
        for _ in range(megabytes):
            send_all(stream, b"x" * MEGABYTE)
        send_all(stream, b"\nfrob\n")
        stream.shutdown(socket.SHUT_WR)
        place.compare("a line without an end, and one behind it", b"err line\nerr word 0\n", received(stream))
    return f"{megabytes} MB, "


def zeros(place, megabytes):
    """Zeros behind the first byte of a peer, and zeros alone."""
    for first, should in ((b"\5", b"err peer length\n"), (b"", b"err line\n")):
        with place.server.connect() as stream:
            send_all(stream, first)
            answered = []
            reader = threading.Thread(target=lambda: answered.append(received(stream)))
            reader.start()
            for _ in range(megabytes):
                send_all(stream, bytes(MEGABYTE))
            try:
                stream.shutdown(socket.SHUT_WR)
            except OSError:
                pass
            reader.join()
        # a peer that goes on behind its fault may be reset once it was told of it
        may_be = (should, should + b"(reset)") if first else (should,)
        place.result.check(f"zeros behind {first!r}: {answered[0][:100]!r}", answered[0] in may_be)
    return f"{megabytes} MB each, "


def byte_a_second(place, seconds):
    """Some clients that send a byte a second, as lines and as a message."""

    def slowly(some, told):
        with place.server.connect(seconds + 60) as stream:
            for byte in some[:seconds]:
                stream.send(bytes([byte]))
                time.sleep(1)
            send_all(stream, some[seconds:])
            stream.shutdown(socket.SHUT_WR)
            told.append(received(stream))

    slow = [(b"test - none 10.0.0.1\n" + b"frob", b"nomatch\nerr word 0\n"), (b"\5\0\0\x14" + bytes(16) + b"\5\1", None)]
    told = [[] for _ in slow]
    threads = [threading.Thread(target=slowly, args=(some, said)) for (some, _), said in zip(slow, told)]
    for thread in threads:
        thread.start()
    for thread in threads:
        thread.join()
    place.compare("a byte a second", slow[0][1], told[0][0])
    lines = told[1][0].decode().splitlines()
    place.result.check(f"a message of a byte a second: {lines}", lines[0].startswith("applied ") and lines[1:] == ["err peer version"])
    return ""


def empty_ones(place, count):
    """Connections that end without a byte, some from each of many addresses, as one has only so many ports."""
    for number in range(count):
        source = (f"127.0.{1 + number // 20_000}.{1 + number % 250}", 0)
        stream = socket.create_connection(place.server.address, timeout=60, source_address=source)
        stream.close()
    return f"{count:,}, "


def never_read(place, megabytes):
    """Three clients that each ask for so much and read nothing; then they go. All that they ask has to be taken, so that all of it is due."""
    question, due = b"show rules many\n", len(place.server.told(b"show rules many\n"))
    streams = [place.server.connect(1) for _ in range(3)]
    asked = megabytes * MEGABYTE // due + 1
    sent = []
    for stream in streams:
        some = memoryview(question * asked)
        try:
            while some:
                some = some[stream.send(some) :]
        except TimeoutError:
            pass
        sent.append((len(question) * asked - len(some)) // len(question))
    time.sleep(1 if place.options.is_quick else 5)
    for stream in streams:
        stream.close()
    place.compare("how many questions of three clients that read nothing were taken", [asked] * 3, sent)
    return f"{sum(sent) * due // MEGABYTE:,} MB of replies due to three clients that asked for {3 * megabytes:,} MB, "


def all_workers_deaf(place, seconds):
    """As many clients as workers that never read. One more waits, and is answered once one of them is gone."""
    deaf = [place.server.connect(0.2) for _ in range(WORKERS)]
    for stream in deaf:
        try:
            for _ in range(2000):
                stream.send(b"show rules many\n" * 100)
        except TimeoutError:
            pass
    other, said = place.server.connect(60), []
    send_all(other, b"frob\n")
    began = time.monotonic()
    reader = threading.Thread(target=lambda: said.append(other.recv(100)))
    reader.start()
    time.sleep(seconds)
    place.compare("a client beside as many deaf ones as there are workers", [], said)
    deaf[0].close()
    reader.join()
    waited = time.monotonic() - began - seconds
    place.compare("and behind one of them", [b"err word 0\n"], said)
    for stream in (*deaf[1:], other):
        stream.close()
    return f"answered {waited * 1000:.0f} ms behind the first that went, "


def ended_in(stream, some, seconds):
    """Sends these bytes and no more: what is told until the connection ends, and whether that comes in so many seconds, and not at once."""
    began = time.monotonic()
    send_all(stream, some)
    said = received(stream)
    return said, seconds <= time.monotonic() - began < 3 * seconds


def deaf_one(server):
    """A client that asks for much, has little room for it, and reads nothing."""
    stream = socket.socket()
    stream.setsockopt(socket.SOL_SOCKET, socket.SO_RCVBUF, 4096)
    stream.connect(server.address)
    send_all(stream, b"show rules many\n" * 1000)
    return stream


def goes_on(client, seconds):
    """A session that says a line twice in each of so many seconds."""
    for _ in range(2 * seconds):
        if client.ask("frob") != "err word 0":
            return False
        time.sleep(0.5)
    return True


# Where a client falls silent, and what it is told before that.
SILENCES = ((b"", b""), (b"frob\n", b"err word 0\n"), (b"frob\nte", b"err word 0\n"), (EXAMPLE[:1], b""), (EXAMPLE[:50], b""))


def silent_ones(options, folder):
    """A server that sends away who is silent for a second: each has its replies, and who goes on is kept. More come than there are workers, and
    some that read nothing."""
    result, file = Result(), formatted(options.program, os.path.join(folder, "silent"), SIZE)
    with Server(options.program, file, SIZE, WORKERS, more=["--idle", 1]) as server, server.session() as client:
        many_rules(client)
        ends, kept = [], []
        threads = [threading.Thread(target=lambda some=some: ends.append((some, *ended_in(server.connect(), some, 1)))) for some, _ in SILENCES]
        threads.append(threading.Thread(target=lambda: kept.append(goes_on(client, 4))))
        for thread in threads:
            thread.start()
        for thread in threads:
            thread.join()
        for some, said, is_in_time in ends:
            result.compare(f"silent behind {some!r}", (dict(SILENCES)[some], True), (said, is_in_time))
        result.compare("a session that goes on", [True], kept)
    with Server(options.program, file, SIZE, WORKERS, more=["--idle", 1]) as server:
        deaf = [deaf_one(server) for _ in range(WORKERS)]
        result.compare("a client behind as many that read nothing as there are workers", b"err word 0\n", server.told(b"frob\n"))
        for stream in deaf:
            stream.close()
    return result


def play(options):
    few = options.few
    with new_folder() as folder:
        silent = silent_ones(options, folder)
        place = Place(options, folder)
        with place.server:
            place.beside("connections at once", thousand_at_once, few(1_000, 1_000))
            place.beside("resets in each state", resets, few(4, 40))
            place.beside("half-closed", half_closed, few(3, 30))
            place.beside("no newline", without_newline, few(20, 100))
            place.beside("streams of zeros", zeros, few(5, 50))
            place.beside("a byte a second", byte_a_second, few(4, 15))
            place.beside("empty connections", empty_ones, few(3_000, 100_000))
            place.beside("replies that nobody reads", never_read, few(100, 1_024))
            place.beside("all workers deaf", all_workers_deaf, few(1, 3), has_witness=False)
    return place.result.add(silent)
