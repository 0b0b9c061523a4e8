"""The address space of a server limited while it is used: changes are told `err memory`, or `stored` in place of `applied`, or a connection ends for
want of memory, and it goes on afterwards.

Some clients put more and more entries in tables of their own, beside peers' streams, long lines, resets and clients that read nothing. A line
that is told `err memory` has changed nothing: each client tests that. Then the limit is lifted: every client goes on, all changes have the
numbers 1, 2, 3 and so on, each once, `publish` shows them, and the file holds what was answered. Starts under a limit either serve, or end
with `pfd: memory`.

Which growth is refused is left to chance here, but that some are is looked at; `bench/refuse-allocations` refuses each in turn. The limit comes once all workers have their threads,
as a server that gets fewer has fewer for good.
"""
import os
import re
import resource
import socket
import threading
import time

from . import reading
from .connections import a_reset
from .grammar import network_of
from .program import Result, Server, bytes_of, chance, formatted, new_folder, ran, send_all
from .streams import Maker

SIZE, CLIENTS, KILOBYTE = 1 << 25, 4, 1024
WORKERS = CLIENTS + 4
UNLIMITED = resource.RLIM_INFINITY
# The C library keeps 64 megabytes of address space for each thread, unless it is told to have one arena for all: so all threads meet the limit.
ONE_ARENA = {**os.environ, "MALLOC_ARENA_MAX": "1"}
# What a start may come to.
KINDS = {(0, b"log 0 acked 0 shown 0\n", b""): "served", (1, b"", b"pfd: memory\n"): "pfd: memory", (0, b"err memory\n", b""): "err memory"}


class Loader(threading.Thread):
    """A client that fills a table of its own. What it was answered is kept."""

    def __init__(self, server, number, random):
        super().__init__()
        self.server, self.number, self.random = server, number, random
        self.client = server.session(120)
        self.rows, self.numbers, self.refused, self.stored, self.wrong = {}, [], 0, 0, []
        self.end, self.next = threading.Event(), 0

    def run(self):
        try:
            while not self.end.is_set():
                self.turn()
        except Exception as fault:  # whatever it is, it is told
            self.wrong.append(f"client {self.number}: {fault!r}")

    def line(self):
        """A `tadd` of new entries, as many as a line has room for."""
        words = []
        for _ in range(self.random.choice((1, 20, 200))):
            self.next += 1
            words.append(f"10.{self.number}.{self.next >> 8 & 255}.{self.next & 255}")
        return words

    def turn(self):
        words = self.line()
        said = self.client.ask(f"tadd - own{self.number} {' '.join(words)}")
        found = re.fullmatch(rf"(applied|stored) (\d+) added {len(words)} same 0 conflict 0", said)
        if found:
            self.numbers.append(int(found[2]))
            self.stored += found[1] == "stored"
            self.rows.update((network_of(word), False) for word in words)
        elif said == "err memory":
            self.refused += 1
            self.next -= len(words)
        else:
            self.wrong.append(f"client {self.number}: a tadd is told {said!r}")
            self.end.set()
        self.look(words[-1], bool(found))
        if self.next > 60_000:
            self.end.set()

    def look(self, address, is_there):
        said = self.client.ask(f"test - own{self.number} {address}")
        if said not in ((f"match {address}" if is_there else "nomatch"), "err memory"):
            self.wrong.append(f"client {self.number}: test of {address} is told {said!r}, added: {is_there}")


def disturb(server, random, end, counts):
    """Hostile connections, whatever becomes of them."""
    maker = Maker(random, names=1000, most_records=60)
    while not end.is_set():
        counts["hostile"] += 1
        try:
            with server.connect(5) as stream:
                how = random.randrange(5)
                if how == 0:
                    send_all(stream, b"".join(maker.message() for _ in range(60)))
                    stream.shutdown(socket.SHUT_WR)
                    counts["told"] += len(stream.recv(1 << 16))
                elif how == 1:
                    send_all(stream, b"x" * 100_000 + b"\nexport\nshow states\n")
                    counts["told"] += len(stream.recv(1 << 16))
                elif how == 2:
                    a_reset(stream)
                elif how == 3:
                    send_all(stream, b"show tables -\n" * 20)
                    time.sleep(0.05)
        except OSError:
            counts["ended"] += 1


def limited(server, kilobytes):
    """The server may have so much more address space than it has now."""
    most = (server.status("VmSize") + kilobytes) * KILOBYTE
    resource.prlimit(server.pid, resource.RLIMIT_AS, (most, UNLIMITED))


def all_begun(server):
    """Each worker has a thread once as many sessions as there are workers were answered at once."""
    clients = [server.session() for _ in range(WORKERS)]
    for client in clients:
        client.ask("frob")
    for client in clients:
        client.close()


def wait_for(holds, seconds):
    end = time.monotonic() + seconds
    while not holds() and time.monotonic() < end:
        time.sleep(0.05)


def play_limit(options, kilobytes, seconds):
    """One server whose growth is limited to so much, and lifted again: what it came to, and how often memory was refused."""
    result, name = Result(), f"{kilobytes} kB more"
    counts = {"hostile": 0, "told": 0, "ended": 0}
    with new_folder() as folder:
        file = formatted(options.program, os.path.join(folder, "disk"), SIZE)
        with Server(options.program, file, SIZE, workers=WORKERS, history=1_048_576, env=ONE_ARENA) as server:
            all_begun(server)
            loaders = [Loader(server, number, chance(options.seed, "memory", kilobytes, number)) for number in range(CLIENTS)]
            refused, before = play_loaders(options, server, loaders, kilobytes, seconds, counts)
            finish(result, name, server, loaders, before)
        held = reading.read(bytes_of(file)).held
        for loader in loaders:
            rows = held.tables.get((b"", f"own{loader.number}".encode()), {})
            result.check(f"{name}: the file has other entries of client {loader.number} than were answered", rows == loader.rows)
    stored = sum(loader.stored for loader in loaders)
    hostile = f"{counts['hostile']} other connections of which {counts['ended']} were cut"
    result.tell(f"{name}: err memory {refused} times, stored {stored} times, {hostile}")
    return result, refused


def play_loaders(options, server, loaders, kilobytes, seconds, counts):
    """All clients under the limit, and a second without it. It gives how often memory was refused, and how many changes there were by then."""
    end = threading.Event()
    others = [threading.Thread(target=disturb, args=(server, chance(options.seed, "disturb", number), end, counts)) for number in range(3)]
    limited(server, kilobytes)
    for thread in (*loaders, *others):
        thread.start()
    wait_for(lambda: all(loader.refused >= 5 or loader.end.is_set() for loader in loaders), seconds)
    refused = sum(loader.refused for loader in loaders)
    if server.is_alive():
        resource.prlimit(server.pid, resource.RLIMIT_AS, (UNLIMITED, UNLIMITED))
    before = sum(len(loader.numbers) for loader in loaders)
    time.sleep(1)
    end.set()
    for loader in loaders:
        loader.end.set()
    for thread in (*loaders, *others):
        thread.join()
    return refused, before


def finish(result, name, server, loaders, before):
    """Behind the limit: all goes on, and all changes have a number each."""
    result.check(f"{name}: the server is gone, with {server.process.poll()}", server.is_alive())
    for loader in loaders:
        result.wrong += [f"{name}: {wrong}" for wrong in loader.wrong[:3]]
        result.passed += len(loader.numbers) + loader.refused
    result.check(f"{name}: nothing was changed once the limit was lifted", sum(len(loader.numbers) for loader in loaders) > before or
                 any(loader.next > 60_000 for loader in loaders))
    if not server.is_alive():
        return
    with server.session() as client:
        # what other connections had sent may still be taken
        for _ in range(100):
            count = int(client.ask("publish").removeprefix("shown "))
            said = client.ask("log")
            if said.startswith(f"log {count} "):
                break
            time.sleep(0.05)
        result.compare(f"{name}: the log", f"log {count} acked {count} shown {count}", said)
    numbers = sorted(number for loader in loaders for number in loader.numbers)
    result.check(f"{name}: numbers of changes stand twice", len(set(numbers)) == len(numbers) and (not numbers or numbers[-1] <= count))


def play_starts(options):
    """Starts under a limit on a file of some megabytes, which is read whole into memory."""
    result, counts = Result(), {}
    with new_folder() as folder:
        file = formatted(options.program, os.path.join(folder, "disk"), 8 << 20)
        least = next(megabytes for megabytes in range(2, 200) if start(options.program, megabytes << 20, "--version")[0] == 0)
        for kilobytes in range(least << 10, (least << 10) + 40_000, options.few(2_000, 250)):
            status, said, faults = start(options.program, kilobytes << 10, "run", "--disk", file, given=b"log\n")
            kind = KINDS.get((status, said, faults))
            result.check(f"a start with {kilobytes} kB: status {status}, {said!r}, {faults[:200]!r}", kind is not None)
            counts[kind] = counts.get(kind, 0) + 1
    result.tell(f"starts from {least} MB on: {counts}")
    return result


def start(program, most, *words, given=b""):
    return ran(program, *words, given=given, preexec_fn=lambda: resource.setrlimit(resource.RLIMIT_AS, (most, most)))


def play(options):
    result, all_refused = play_starts(options), 0
    for kilobytes in options.few((1_000, 6_000), (0, 300, 1_000, 2_000, 4_000, 8_000, 16_000, 32_000)):
        of_one, refused = play_limit(options, kilobytes, options.few(10, 30))
        result.add(of_one)
        all_refused += refused
    result.check("no change was told `err memory`", all_refused > 0)
    return result
