"""Where a server is reached: several addresses at once, Unix sockets and their files, and addresses that let in only some.

At an address that may only ask every kind of line is sent, and each wrong one, beside a session that may change all: the one's changes
are denied and leave nothing, and its questions are answered by what the other did. A peer's stream is sent to each kind of address, and
a line to those of peers. Silent clients at these addresses leave a worker to the others, or are sent away. Of a socket's file it is looked
at who may open it, what becomes of it at each end of the server and where several start at once, and that nothing is ever removed at its
place but the file of a socket at which nobody answers. The examples' lines are told over a socket what `pfd run` tells them.
"""
import glob
import os
import signal
import socket
import stat
import subprocess
import threading
import time

from .program import Client, PATIENCE, Result, bytes_of, formatted, new_folder, ran, received, send_all, write
from .streams import EXAMPLE

SIZE = 1 << 20
EXAMPLES = os.path.join(os.path.dirname(os.path.abspath(__file__)), "..", "..", "examples", "*.txt")
# So many lines of each example.
MOST_LINES = 100
DENIED = "err denied"
# A user who may not open a socket's file.
REFUSED = b"refused"
# Lines that may change something, each with the reply that it gets where that is let in, on a disk that holds nothing.
CHANGES = (
    ("begin filter -", "ok 1.1"), ("add - 1.1 pass all", "ok"), ("commit filter - 1.1", "applied 1"), ("begin table web", "ok 1.2"),
    ("define web 1.2 t 10/8", "ok"), ("extend web 1.2 t 11/8", "ok"), ("rollback table web 1.2", "ok"), ("tset - t 10/8", "applied 2"),
    ("tadd - t 11/8", "applied 3 added 1"), ("tdel - t 11/8", "applied 4 deleted 1"),
    ("track 7 1 in em0 tcp 10.0.0.1 5 10.0.0.2 80", "applied 5 pass rule 0"), (f"peer {EXAMPLE.hex()}", "applied 6 new 1"),
    ("expire 5", "applied 7 expired 0"), ("kill 7 1", "applied 8"), ("tset - u 10/8", "applied 9"), ("tkill - u", "applied 10"),
    ("publish", "shown 10"),
)
WRONG = ("frob", "tadd", "commit filter - x", "track 1", "peer zz", "judged", "LOG", "tset - t 10/8 \x01", "x" * 5000)
QUESTIONS = (
    ("test - t 10.0.0.1", "match 10.0.0.0/8"), ("test - u 10.0.0.1", "nomatch"), ("judge in em0 tcp 10.9.9.1 5 10.0.0.2 80", "pass rule 0"),
    ("log", "log 10 acked 10 shown 10"), ("sum", "886e234b9265e355a4e6de823beba1c2"), ("judge", "err word 1"), ("show", "err word 1"),
    ("test - t", "err word 3"), ("sum x", "err word 1"), ("show status x", "err word 2"), ("show anchors", "err word 2"), ("show anchors web", "end 0"),
    ("show status", f"epoch 1 changes 10 tick 5 rulesets 1 tables 1 states 1 held 444 of {SIZE // 2} sessions 3"), ("log \x01", "err line"), ("judge " + "x" * 5000, "err line"),
)


class Doors:
    """A server with these words beside those of its file. It is killed behind a `with`."""

    def __init__(self, program, file, *words, lines=1):
        words = ["serve", "--disk", file, "--size", SIZE, *words]
        self.process = subprocess.Popen([program, *map(str, words)], stdout=subprocess.PIPE, stderr=subprocess.PIPE)
        self.told = [self.process.stdout.readline().decode().rstrip("\n") for _ in range(lines)]

    def __enter__(self):
        return self

    def __exit__(self, *_):
        self.kill(signal.SIGKILL)

    def kill(self, number):
        self.process.send_signal(number)
        self.process.wait()
        self.process.stdout.close()
        self.process.stderr.close()

    def address(self, number):
        """What to connect to."""
        text = self.told[number].removeprefix("listening ")
        if "/" in text:
            return text
        host, _, port = text.rpartition(":")
        return host, int(port)


def connected(address):
    """A connection by TCP, or to the socket at a path."""
    stream = socket.socket(socket.AF_UNIX if isinstance(address, str) else socket.AF_INET)
    stream.settimeout(PATIENCE)
    stream.connect(address)
    return stream


def told(address, some):
    """All that a connection is told that sends these bytes and then no more."""
    with connected(address) as stream:
        send_all(stream, some)
        stream.shutdown(socket.SHUT_WR)
        return received(stream)


def asked_only(options, folder):
    """A session that may ask beside one that may change all."""
    result, file = Result(), formatted(options.program, os.path.join(folder, "asked"), SIZE)
    path = os.path.join(folder, "asking.sock")
    with Doors(options.program, file, "--listen", "127.0.0.1:0", "--ask", path, "--ask", "127.0.0.1:0", lines=3) as server:
        ways = [server.address(number) for number in range(3)]
        with Client(connected(ways[0])) as full, Client(connected(ways[1])) as one, Client(connected(ways[2])) as other:
            for line, reply in CHANGES:
                for asker in (one, other):
                    result.compare(f"{line} of one that may ask", DENIED, asker.ask(line))
                said = full.ask(line)
                result.check(f"{line} of one that may change all is told {said!r} and not {reply}", said.startswith(reply))
            for asker in (one, other):
                for line in WRONG:
                    result.compare(f"{line[:40]!r} of one that may ask", DENIED, asker.ask(line))
                for line, reply in QUESTIONS:
                    result.compare(f"{line[:40]!r} of one that may ask", reply, asker.ask(line))
                result.compare("the rules", ["@0 pass all keep state", "end 1"], asker.ask_all("show rules -"))
                result.compare("the tables", ["t 10.0.0.0/8", "end 1"], asker.ask_all("show tables -"))
                result.compare("an export", 1, sum(line.startswith("peer ") for line in asker.ask_all("export")))
        for way in ways[1:]:
            result.compare("a stream at an address that may ask", b"err denied\n", told(way, EXAMPLE))
        result.compare("lines at once", b"log 10 acked 10 shown 10\nerr denied\nerr denied\nlog 10 acked 10 shown 10\n",
                       told(ways[1], b"log\ntset - t 1/8\n# tset\n\ntkill - t\nlog"))
    return result


def peers_only(options, folder):
    """Where peers have an address, the others take no stream, and theirs takes nothing else."""
    result, file = Result(), formatted(options.program, os.path.join(folder, "peers"), SIZE)
    path = os.path.join(folder, "peers.sock")
    kept = b"applied 1 new 1 replaced 0 stale 0 clash 0 deleted 0\n"
    with Doors(options.program, file, "--listen", "127.0.0.1:0", "--peers", path, "--ask", "127.0.0.1:0", lines=3) as server:
        for number, what in ((0, "that may change all"), (1, "that may ask")):
            result.compare(f"a stream at an address {what}", b"err denied\n", told(server.address(number), EXAMPLE * 3))
        for some in (b"log\n", b"\4", b"tset - t 10/8\n" * 10_000):
            result.compare(f"{some[:20]!r} at an address for peers", b"err denied\n", told(server.address(2), some))
        result.compare("nothing at an address for peers", b"", told(server.address(2), b""))
        result.compare("a stream at an address for peers", kept, told(server.address(2), EXAMPLE))
        result.compare("a session after all that", b"log 1 acked 1 shown 1\n", told(server.address(0), b"log\n"))
    return result


def many_at_once(options, folder):
    """Sessions at several addresses, each of which is served, and shares one history."""
    result, file = Result(), formatted(options.program, os.path.join(folder, "many"), SIZE)
    paths = [os.path.join(folder, f"{number}.sock") for number in range(3)]
    words = [word for path in paths for word in ("--listen", path)]
    with Doors(options.program, file, *words, "--listen", "127.0.0.1:0", "--listen", "[::1]:0", "--workers", 8, lines=5) as server:
        result.compare("the lines of paths", [f"listening {path}" for path in paths], server.told[:3])
        ways, numbers = [server.address(number) for number in range(4)], []

        def change(way):
            with Client(connected(way)) as client:
                for _ in range(50):
                    numbers.append(int(client.ask("tset - t 10/8").split()[1]))

        threads = [threading.Thread(target=change, args=(way,)) for way in ways]
        for thread in threads:
            thread.start()
        for thread in threads:
            thread.join()
        result.compare("the numbers of all changes", list(range(1, 201)), sorted(numbers))
    return result


def as_nobody(path, some):
    """What another user is told at a socket's path, or that it may not connect. None if this process can't be that user."""
    if os.getuid() != 0:
        return None
    mine, other = os.pipe()
    child = os.fork()
    if child == 0:
        try:
            os.setgroups([])
            os.setgid(65534)
            os.setuid(65534)
            os.write(other, told(path, some))
        except PermissionError:
            os.write(other, REFUSED)
        finally:
            os._exit(0)
    os.close(other)
    with open(mine, "rb") as said:
        os.waitpid(child, 0)
        return said.read()


def socket_files(options, folder):
    """Who may open a socket's file, and what becomes of it."""
    result, file = Result(), formatted(options.program, os.path.join(folder, "files"), SIZE)
    os.chmod(folder, 0o755)
    path = os.path.join(folder, "pfd.sock")
    for words, mode in (((), 0o600), (("--mode", "0660"), 0o660), (("--mode", "666"), 0o666)):
        with Doors(options.program, file, "--listen", path, *words):
            result.compare(f"the mode with {words}", mode, stat.S_IMODE(os.stat(path).st_mode))
            said = b"log 0 acked 0 shown 0\n"
            came = as_nobody(path, b"log\n")
            if came is not None:
                result.compare(f"another user with {words}", said if mode == 0o666 else REFUSED, came)
            result.compare("a session", said, told(path, b"log\n"))
        result.check("a killed server's file stays", stat.S_ISSOCK(os.stat(path).st_mode))
    # the file that is left there is no hindrance; the second server's look at who answers there is a connection, too
    with Doors(options.program, file, "--listen", path, "--sessions", 3) as server:
        other = formatted(options.program, os.path.join(folder, "other"), SIZE)
        again = ran(options.program, "serve", "--disk", other, "--size", SIZE, "--listen", path)
        result.compare("a second server at the same path", (1, b"", b"pfd: input\n"), again)
        result.compare("a session of the first one after that", b"log 0 acked 0 shown 0\n", told(path, b"log\n"))
        told(path, b"")
        server.process.wait()
        result.check("the file is gone once the server has ended", not os.path.exists(path))
    # what lies there in its stead at the end of the server stays
    with Doors(options.program, file, "--listen", path, "--sessions", 1) as server:
        with Client(connected(path)) as session:
            os.remove(path)
            write(path, b"kept")
            result.compare("a session whose socket's file is gone", "log 0 acked 0 shown 0", session.ask("log"))
        server.process.wait()
        result.check("another file stays once the server has ended", os.path.isfile(path))
    return result


def modes_of_kinds(options, folder):
    """Each kind of address has a mode of its own."""
    result, file = Result(), formatted(options.program, os.path.join(folder, "kinds"), SIZE)
    paths = [os.path.join(folder, name) for name in ("all.sock", "ask.sock", "peers.sock")]
    places = ("--listen", paths[0], "--ask", paths[1], "--peers", paths[2])
    for words, modes in (
        ((), (0o600, 0o600, 0o600)),
        (("--mode", "0660"), (0o660, 0o600, 0o600)),
        (("--ask-mode", "0666"), (0o600, 0o666, 0o600)),
        (("--mode", "0", "--ask-mode", "00777", "--peers-mode", "640"), (0, 0o777, 0o640)),
    ):
        with Doors(options.program, file, *places, *words, lines=3):
            result.compare(f"the modes with {words}", modes, tuple(stat.S_IMODE(os.stat(path).st_mode) for path in paths))
    return result


def others_may_ask(options, folder):
    """Another user, who may ask and neither change nor send states."""
    result, file = Result(), formatted(options.program, os.path.join(folder, "others"), SIZE)
    os.chmod(folder, 0o755)
    paths = [os.path.join(folder, name) for name in ("all.sock", "ask.sock", "peers.sock")]
    with Doors(options.program, file, "--listen", paths[0], "--ask", paths[1], "--peers", paths[2], "--ask-mode", "0666", lines=3):
        for path, said in zip(paths, (REFUSED, b"log 0 acked 0 shown 0\nerr denied\n", REFUSED)):
            came = as_nobody(path, b"log\ntset - t 10/8\n")
            if came is not None:
                result.compare(f"another user at {os.path.basename(path)}", said, came)
    return result


def silent_ones(options, folder):
    """Silent clients at each kind of address of a server that sends them away: with half a line, half a message, and nothing."""
    result, file = Result(), formatted(options.program, os.path.join(folder, "silent"), SIZE)
    paths = [os.path.join(folder, name) for name in ("all.sock", "ask.sock", "peers.sock")]
    places = ("--listen", paths[0], "--ask", paths[1], "--peers", paths[2])
    with Doors(options.program, file, *places, "--idle", 2, "--workers", 8, lines=3):
        began, waiting, silent = time.monotonic(), [], b"log 0 acked 0 shown 0\n"
        ones = ((0, b"", b""), (0, b"log\nte", silent), (1, b"log\ntset", silent), (2, b"", b""), (2, EXAMPLE[:50], b""))
        for number, some, said in ones:
            stream = connected(paths[number])
            send_all(stream, some)
            waiting.append((number, some, said, stream))
        for number, some, said, stream in waiting:
            result.compare(f"one that fell silent behind {some[:20]!r} at {places[2 * number]}", said, received(stream))
            stream.close()
        lasted = time.monotonic() - began
        result.check(f"silent ones were sent away after {lasted:.1f} s", 1.5 <= lasted <= 10)
        result.compare("a session after that", silent, told(paths[0], b"log\n"))
    return result


def guests_leave_a_worker(options, folder):
    """As many as want to ask, and peers beside them, can't keep out who may change all; a worker that is alone serves all."""
    result, file = Result(), formatted(options.program, os.path.join(folder, "guests"), SIZE)
    paths = [os.path.join(folder, name) for name in ("all.sock", "ask.sock", "peers.sock")]
    places = ("--listen", paths[0], "--ask", paths[1], "--peers", paths[2])
    with Doors(options.program, file, *places, "--workers", 3, lines=3):
        guests = [connected(paths[1 + number % 2]) for number in range(12)]
        for number in range(1, 21):
            result.compare("a change beside silent guests", b"applied %d\n" % number, told(paths[0], b"tset - t 10/8\n"))
        for guest in guests[:-1]:
            guest.close()
        result.compare("one that asks once others have left", b"log 20 acked 20 shown 20\n", told(paths[1], b"log\n"))
        guests[-1].close()
    with Doors(options.program, file, *places, "--workers", 1, lines=3):
        result.compare("one that asks a worker that is alone", b"log 0 acked 0 shown 0\n", told(paths[1], b"log\n"))
        result.compare("another one after it", b"applied 1\n", told(paths[0], b"tset - t 10/8\n"))
    return result


def raced(options, folder):
    """Servers that start at one moment where a dead one's file lies: one of them has the place, and answers there."""
    result, path = Result(), os.path.join(folder, "raced.sock")
    files = [formatted(options.program, os.path.join(folder, f"disk{number}"), SIZE) for number in range(3)]
    for _ in range(options.few(3, 20)):
        with Doors(options.program, files[0], "--listen", path):
            pass
        servers = [subprocess.Popen([options.program, "serve", "--disk", file, "--size", str(SIZE), "--listen", path],
                                    stdout=subprocess.PIPE, stderr=subprocess.PIPE) for file in files]
        first = [server.stdout.readline() for server in servers]
        result.compare("servers that say they listen", 1, sum(line == f"listening {path}\n".encode() for line in first))
        result.compare("a session of the one that listens", b"log 0 acked 0 shown 0\n", told(path, b"log\n"))
        for server in servers:
            server.kill()
            server.communicate()
    return result


def hindrances(folder):
    """What may lie at a socket's place, by what makes it."""
    target = os.path.join(folder, "target")
    write(target, b"kept")
    return (
        ("a file", lambda path: write(path, b"kept")),
        ("an empty file", lambda path: write(path, b"")),
        ("a folder", os.mkdir),
        ("a FIFO", os.mkfifo),
        ("a link to a file", lambda path: os.symlink(target, path)),
        ("a link to nothing", lambda path: os.symlink(os.path.join(folder, "nothing"), path)),
    )


def never_removed(options, folder):
    """What isn't a socket's file stays, whatever is asked, and so does nothing that was made before."""
    result, file = Result(), formatted(options.program, os.path.join(folder, "kept"), SIZE)
    first, path = os.path.join(folder, "first.sock"), os.path.join(folder, "place")
    serve = ["serve", "--disk", file, "--size", SIZE, "--listen", first, "--listen"]
    for what, make in hindrances(folder):
        make(path)
        before = os.lstat(path)
        result.compare(f"a server at the place of {what}", (1, b"", b"pfd: input\n"), ran(options.program, *serve, path))
        after = os.lstat(path)
        result.compare(f"{what} after that", (before.st_ino, before.st_mode, before.st_size), (after.st_ino, after.st_mode, after.st_size))
        result.check(f"no socket stays beside {what}", not os.path.exists(first))
        (os.rmdir if stat.S_ISDIR(before.st_mode) else os.remove)(path)
    for what, wrong in (("a path that is too long", folder + "/" + "x" * 120), ("a folder that isn't there", folder + "/none/pfd.sock")):
        result.compare(what, (1, b"", b"pfd: input\n"), ran(options.program, *serve, wrong))
        result.check(f"no socket stays beside {what}", not os.path.exists(first))
    with open(file, "rb") as opened:
        before = opened.read()
    for mode in ("8", "1777", "-1", "+600", "", "rw", "0o600"):
        for option in ("mode", "ask-mode", "peers-mode"):
            status, out, told_of = ran(options.program, *serve[:-1], f"--{option}={mode}")
            result.compare(f"--{option}={mode}", (2, b"", True), (status, out, told_of.startswith(b"error: ")))
    with open(file, "rb") as opened:
        result.compare("the disk after that", before, opened.read())
    result.compare("a client at a path where nothing is", (1, b"", b"pfd: input\n"), ran(options.program, "connect", path, given=b"log\n"))
    return result


def connects(options, folder):
    """`pfd connect PATH`."""
    result, file = Result(), formatted(options.program, os.path.join(folder, "connects"), SIZE)
    path = os.path.join(folder, "connect.sock")
    with Doors(options.program, file, "--listen", path):
        lines, replies = b"tset - t 10/8\ntest - t 10.0.0.1\nlog", b"applied 1\nmatch 10.0.0.0/8\nlog 1 acked 1 shown 1\n"
        result.compare("connect to a path", (0, replies, b""), ran(options.program, "connect", path, given=lines))
        # a path needs a slash
        at = ran(options.program, "connect", "./connect.sock", given=b"log\n", cwd=folder)
        result.compare("connect to a path beside", (0, b"log 1 acked 1 shown 1\n", b""), at)
    return result


def examples(options, folder):
    """The first lines of each example over a Unix socket."""
    result, path = Result(), os.path.join(folder, "examples.sock")
    for name in sorted(glob.glob(EXAMPLES)):
        lines = b"".join(bytes_of(name).splitlines(keepends=True)[:MOST_LINES])
        file = formatted(options.program, os.path.join(folder, "examples"), SIZE)
        with Doors(options.program, file, "--listen", path):
            replies = ran(options.program, "run", given=lines)[1]
            result.check(f"{os.path.basename(name)} has replies", replies.count(b"\n") > 5)
            result.compare(f"{os.path.basename(name)} over a socket", replies, told(path, lines))
    return result


def play(options):
    result = Result()
    for work in (examples, asked_only, peers_only, many_at_once, socket_files, modes_of_kinds, others_may_ask, silent_ones, guests_leave_a_worker,
                 raced, never_removed, connects):
        with new_folder() as folder:
            result.add(work(options, folder))
    return result
