"""What the parts share: the program and its words, servers and clients of them, and work that is spread over processes."""
import collections
import multiprocessing
import os
import random
import signal
import socket
import subprocess
import tempfile
import threading
import time
import traceback
from typing import NamedTuple

# No answer may take longer than this, in seconds, where nothing says otherwise.
PATIENCE = 60


class Options(NamedTuple):
    """What `bench/hostile` was asked."""

    program: str
    seed: int
    is_quick: bool
    processes: int
    built: dict[str, str] = {}
    store_tests: str = ""

    def few(self, quick, whole):
        return quick if self.is_quick else whole


class Result:
    """How much was as it has to be, what wasn't, what is worth telling, and numbers of which the sum is."""

    def __init__(self):
        self.passed, self.wrong, self.told, self.counts = 0, [], [], collections.Counter()

    def check(self, what, holds):
        if holds:
            self.passed += 1
        else:
            self.wrong.append(what)
        return holds

    def compare(self, what, wanted, is_so):
        return self.check(f"{what}: {shortened(wanted)} is wanted, and it is {shortened(is_so)}", wanted == is_so)

    def tell(self, text):
        self.told.append(text)

    def add(self, other):
        self.passed += other.passed
        self.wrong += other.wrong
        self.told += other.told
        self.counts.update(other.counts)
        return self


def shortened(what, most=400):
    text = repr(what)
    return text if len(text) <= most else f"{text[: most // 2]} .. {text[-most // 2 :]}"


def chance(*words):
    """Numbers at random that are the same for the same words."""
    return random.Random("/".join(map(str, words)))


def ran(program, *words, given=b"", seconds=PATIENCE, **how):
    """The status, the output and the faults of a start of the program."""
    done = subprocess.run([program, *map(str, words)], input=given, capture_output=True, timeout=seconds, check=False, **how)
    return done.returncode, done.stdout, done.stderr


def bytes_of(file):
    with open(file, "rb") as it:
        return it.read()


def write(file, some):
    with open(file, "wb") as it:
        it.write(some)


def formatted(program, file, size):
    """Makes a file that is a disk of so many bytes."""
    status, *said = ran(program, "format", "--disk", file, "--size", size)
    assert status == 0, said
    return file


def memory_folder():
    """Where a file is in memory, so that syncs cost nothing."""
    return "/dev/shm" if os.access("/dev/shm", os.W_OK) else None


def new_folder():
    return tempfile.TemporaryDirectory(prefix="hostile", dir=memory_folder())


def guarded(work_and_job):
    """What the work comes to. That it breaks, as by an answer that never comes, is a fault like any other."""
    work, job = work_and_job
    try:
        return work(job)
    except Exception:  # whatever it is, it is told
        result = Result()
        result.wrong.append(f"{work.__name__} of {shortened(job[1:])} broke: {traceback.format_exc()[-1500:]}")
        return result


def spread(work, jobs, processes):
    """The sum of what the work comes to for each job."""
    total, pairs = Result(), [(work, job) for job in jobs]
    if processes == 1:
        for pair in pairs:
            total.add(guarded(pair))
        return total
    with multiprocessing.Pool(processes) as pool:
        for result in pool.imap_unordered(guarded, pairs):
            total.add(result)
    return total


class Pulse(threading.Thread):
    """How long this process itself stood still at most, as where the machine was paused: no server is to blame for such a wait."""

    def __init__(self):
        super().__init__(daemon=True)
        self.end, self.longest = threading.Event(), 0.0

    def run(self):
        last = time.monotonic()
        while not self.end.wait(0.01):
            now = time.monotonic()
            last, self.longest = now, max(self.longest, now - last - 0.01)

    def __enter__(self):
        self.start()
        return self

    def __exit__(self, *_):
        self.end.set()
        self.join()


class Server:
    """`pfd serve` on a file. It is killed behind a `with`."""

    def __init__(self, program, file, size, workers=8, history=65_536, more=(), **how):
        """Without a history it renews the one that it has."""
        limit = ["--history", history] if history else []
        words = ["serve", "--listen", "127.0.0.1:0", "--disk", file, "--size", size, "--workers", workers, *limit, *more]
        self.process = subprocess.Popen([program, *map(str, words)], stdout=subprocess.PIPE, stderr=subprocess.PIPE, **how)
        line = self.process.stdout.readline().decode().split()
        if not line:
            faults = self.process.stderr.read().decode()
            self.kill()
            raise ChildProcessError(faults)
        host, _, port = line[1].rpartition(":")
        self.address, self.pid = (host, int(port)), self.process.pid

    def __enter__(self):
        return self

    def __exit__(self, *_):
        self.kill()

    def kill(self):
        self.process.send_signal(signal.SIGKILL)
        self.process.wait()
        self.process.stdout.close()
        self.process.stderr.close()

    def is_alive(self):
        return self.process.poll() is None

    def status(self, field):
        """A number of the process's status in kilobytes, as VmHWM, its peak of memory."""
        with open(f"/proc/{self.pid}/status", encoding="ascii") as it:
            return next(int(line.split()[1]) for line in it if line.startswith(field + ":"))

    def forget_peak(self):
        """The peak is counted from now on."""
        write(f"/proc/{self.pid}/clear_refs", b"5")

    def open_files(self):
        return len(os.listdir(f"/proc/{self.pid}/fd"))

    def connect(self, seconds=PATIENCE, source=None):
        stream = socket.create_connection(self.address, timeout=seconds, source_address=source)
        stream.setsockopt(socket.IPPROTO_TCP, socket.TCP_NODELAY, 1)
        return stream

    def session(self, seconds=PATIENCE):
        return Client(self.connect(seconds))

    def told(self, *pieces, seconds=PATIENCE):
        """All that a connection is told that sends these bytes, a write for each piece, and then nothing more. It reads beside that."""
        with self.connect(seconds) as stream:
            sender = threading.Thread(target=send_pieces, args=(stream, pieces))
            sender.start()
            said = received(stream)
            sender.join()
            return said


def send_all(stream, some):
    """Sends, unless the other side is gone."""
    try:
        stream.sendall(some)
    except (BrokenPipeError, ConnectionResetError):
        pass


def send_pieces(stream, pieces):
    for piece in pieces:
        send_all(stream, piece)
    try:
        stream.shutdown(socket.SHUT_WR)
    except OSError:
        pass


def received(stream):
    """All that comes until the other side ends."""
    some = []
    try:
        while piece := stream.recv(1 << 16):
            some.append(piece)
    except ConnectionResetError:
        some.append(b"(reset)")
    return b"".join(some)


class Client:
    """A session of lines: what it asks and is told, and its longest wait."""

    def __init__(self, stream):
        self.stream, self.file, self.longest = stream, stream.makefile("rwb"), 0.0

    def __enter__(self):
        return self

    def __exit__(self, *_):
        self.close()

    def close(self):
        try:
            self.file.close()
        except OSError:
            pass
        self.stream.close()

    def ask(self, line):
        """The one line of the reply to a line."""
        began = time.monotonic()
        self.file.write(line.encode() + b"\n")
        self.file.flush()
        said = self.file.readline().decode().rstrip("\n")
        self.longest = max(self.longest, time.monotonic() - began)
        return said

    def ask_all(self, line):
        """The lines of a reply that ends in `end COUNT`."""
        lines = [self.ask(line)]
        while not lines[-1].startswith(("end ", "err ")) and lines[-1]:
            lines.append(self.file.readline().decode().rstrip("\n"))
        return lines
