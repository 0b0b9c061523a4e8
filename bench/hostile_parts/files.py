"""A real file whose calls fail: the program under a small library (break.c) that breaks the k-th call of a kind, for each k until none is met,
over `pfd run --disk` and `pfd serve`. To a server some lines come together, as many as are kept in one group.

Until the call breaks every reply is that of an undisturbed run. The line that meets it is told `err fault`, and so is each of its group, or
the program ends with `pfd: fault` where it was opening; every change behind it is told `err halted`, and questions are answered by what was
acknowledged. No later call reaches the file. What is left is what was acknowledged, or that with the changes that met the fault, and the next
start holds it, with the bytes that docs/DISK.md says. So it is too where the process is killed within a call, with what it wrote since the last fdatasync all there,
lost, or half lost. A write that is short or interrupted, and a read that is short, change nothing at all.

Where a program begins with closed standard streams, nothing that is for them gets into the file.

What a device under the file loses without a word no library can play, and that an fdatasync does what it says isn't seen here.
"""
import copy
import itertools
import os
import subprocess
import threading

from building import compiled

from . import reading, writing
from .images import compare_run
from .lines import QUESTIONS, same
from .model import Session
from .program import Result, Server, bytes_of, chance, formatted, new_folder, ran, spread, write
from .streams import EXAMPLE, Maker, read_stream

FAILING = ("write", "half", "none", "full", "sync", "lost", "read")
HARMLESS = ("short", "signal", "few")
KILLING = ("die", "cut", "drop", "tear")
SECONDS = 30
# The program takes this long before it is given up, and no script has so many calls.
MOST_CALLS = 400
HALTED = ["tset - t 10.0.0.0/8", "begin filter -", "add - 1.1 pass all", "define - 1.1 t", "extend - 1.1 t ::1", "commit filter - 1.1",
          "rollback filter - 1.1", "kill 1 1", f"peer {EXAMPLE.hex()}", "track 1 1 in em0 tcp 10.0.0.1 1 10.0.0.2 2", "tkill - t", "tadd - t 10.0.0.0/8", "tdel - t 10.0.0.0/8"]
# A small file, which is switched several times, and one with changes of every kind.
SMALL = 300, [line for _ in range(3) for line in ("tset - t 10.0.0.0/8", "tadd - t !10.1.0.0/16", "tdel - t !10.1.0.0/16")]
ALL_KINDS = 2048, [
    "begin filter - table -", "add - 1.1 block in quick from <t> to any", "add - 1.1 pass in proto tcp all",
    "define - 1.2 t 203.0.113.0/24 !203.0.113.7", "commit filter - 1.1 table - 1.2", "tadd - t 10.0.0.0/8 2001:db8::/32",
    "track 7 1 in em0 tcp 198.51.100.7 40000 192.0.2.1 80", f"peer {EXAMPLE.hex()}", "kill 7 1",
    "track 8 1 in em0 tcp 198.51.100.8 40000 192.0.2.1 80 until 9", "expire 8", "expire 9", "tset web v 10.0.0.1", "begin filter web",
    "add web 1.3 block all", "commit filter web 1.3", "tkill - t", "show rules -"]
# A file of the first version, which is switched for the first label, and one of the second, for the first expiry.
OLDER = 2048, [
    "tset - t 10.0.0.0/8", "begin filter - filter web", "add - 1.1 block in all label x", "add web 1.2 pass all no state label \"web-1\"",
    "commit filter - 1.1 filter web 1.2", "tadd - t 10.1.0.0/16", "show rules -", "show rules web"]
EXPIRING = 2048, [
    "tset - t 10.0.0.0/8", "begin filter -", "add - 1.1 pass all label x", "commit filter - 1.1",
    "track 7 1 in em0 tcp 198.51.100.7 40000 192.0.2.1 80 until 9", "expire 8", "show states", "expire 9", "show states"]
# Lines that come together, of each kind that is kept so, and then 50 of which each group switches the file.
TOGETHER = 4096, [
    "begin filter -", "add - 1.1 pass out proto udp all keep state", "commit filter - 1.1", "begin filter web", "add web 1.2 block all",
    ["tset - t 10.0.0.0/8", "tadd - t 10.1.0.0/16", "tdel - t 10.1.0.0/16", "commit filter web 1.2", "tset - u 10.0.0.1", "tkill - u",
     "track 7 1 out em0 udp 198.51.100.7 40000 192.0.2.1 80 until 9", f"peer {EXAMPLE.hex()}", "kill 7 1", "expire 8"],
    *[[f"tset - t 10.{turn}.{place}.0/24" for place in range(50)] for turn in range(3)], "show tables -"]


class Program:
    """`pfd run` or `pfd serve` on a file, with the library loaded before the C library's own."""

    def __init__(self, options, shim, way, file, kind, number):
        size = os.path.getsize(file)
        env = {**os.environ, "LD_PRELOAD": shim, "BREAK": kind, "BREAK_AT": str(number)}
        if way == "run":
            pipes = dict.fromkeys(("stdin", "stdout", "stderr"), subprocess.PIPE)
            self.process = subprocess.Popen([options.program, "run", "--disk", file], env=env, **pipes)
            self.server, self.given, self.told = None, self.process.stdin, self.process.stdout
        else:
            self.server = Server(options.program, file, size, workers=3, env=env)
            self.process, self.client = self.server.process, self.server.session(SECONDS)
            self.given = self.told = self.client.file
        self.watch = threading.Timer(SECONDS, self.process.kill)
        self.watch.start()

    def ask(self, line, count):
        """So many lines of the reply, or fewer where it is a refusal or the program has ended."""
        try:
            self.given.write(line.encode() + b"\n")
            self.given.flush()
            return self.read(self.told, count)
        except OSError:
            return []

    def ask_together(self, lines):
        """The replies to lines of one line each that are sent at once, or fewer where the program has ended."""
        try:
            self.given.write("".join(f"{line}\n" for line in lines).encode())
            self.given.flush()
            said = [self.told.readline().decode().rstrip("\n") for _ in lines]
            return said if said[0] else []
        except OSError:
            return []

    def read(self, told, count):
        lines = []
        while len(lines) < count:
            lines.append(told.readline().decode().rstrip("\n"))
            if not lines[-1] or lines[-1].startswith("err "):
                break
        return lines

    def stream(self, some):
        """What a peer's stream is told."""
        return self.server.told(some, seconds=SECONDS).decode().splitlines()

    def end(self):
        """The status and the faults: the input ends, or the server is killed."""
        if self.server:
            self.client.close()
            self.process.kill()
            said = self.process.stderr.read()
            self.process.stdout.close()
        else:
            try:
                self.process.stdin.close()
            except BrokenPipeError:
                pass
            said = self.process.stderr.read()
        status = self.process.wait()
        self.watch.cancel()
        return status, "".join(line for line in said.decode().splitlines(keepends=True) if not line.startswith("pfd: the disk is "))


class Play:
    """One run with one call that breaks: whether it came to that, and what was wrong."""

    def __init__(self, options, shim, way, script, kind, number, first):
        self.options, self.shim, self.way, self.script, self.kind, self.number, self.first = options, shim, way, script, kind, number, first
        self.name, self.result = f"{way}, {kind} {number}", Result()
        self.fronts = [reading.read(first).held]

    def check(self, what, holds):
        self.result.check(f"{self.name}: {what}", holds)

    def play(self, file):
        write(file, self.first)
        try:
            program = Program(self.options, self.shim, self.way, file, self.kind, self.number)
        except ChildProcessError as fault:
            return self.ended(file, 1, str(fault))
        session = Session(len(self.first) // 2, held=reading.read(writing.opened(self.first)).held)
        is_opened = self.way == "serve" or program.ask("log", 1) == ["log 0 acked 0 shown 0"]
        if not is_opened:
            return self.ended(file, *program.end())
        self.fronts = [copy.deepcopy(session.held)]
        is_broken = self.lines(program, session)
        status, faults = program.end()
        has_met = faults.startswith("broken\n")
        should_fail = has_met and self.kind not in HARMLESS
        self.check(f"it ended with status {status} and {faults!r}, broken: {is_broken}", (is_broken, faults) == (should_fail, "broken\n" * has_met))
        self.check(f"it ended with status {status}", self.way == "serve" or status == (-9 if is_broken and self.kind in KILLING else 0))
        self.left(file)
        return has_met

    def ended(self, file, status, faults):
        """The opening met the fault. What is left is what was there, perhaps with the next epoch."""
        wanted = {**dict.fromkeys(FAILING, "broken\npfd: fault\n"), **dict.fromkeys(KILLING, "broken\n")}.get(self.kind)
        self.check(f"the opening ended with status {status} and {faults!r}", faults == wanted and status in (1, -9))
        after = copy.deepcopy(self.fronts[0])
        after.epoch += 1
        self.fronts.append(after)
        self.left(file)
        return True

    def lines(self, program, session):
        """Plays the script until a line meets the fault. True where one did."""
        for line in self.script:
            before = copy.deepcopy(session)
            if isinstance(line, bytes):
                should = session.stream(read_stream(line)[0])
                said = program.stream(line)
            elif isinstance(line, list):
                should = [reply for one in line for reply in session.reply(one.encode())]
                said = program.ask_together(line)
            else:
                should = session.reply(line.encode())
                said = program.ask(line, len(should))
            if said != should:
                self.fronts = [before.held, copy.deepcopy(session.held)]
                self.met(program, line, should, said, before, session.changes)
                return True
        self.fronts = [session.held]
        return False

    def met(self, program, line, should, said, before, count):
        """A line met the fault, or the process was killed in it."""
        if self.kind in KILLING:
            self.check(f"{line!r}: {said}, and not {should}", said in ([], [""], ["(reset)"]))
            return
        self.check(f"{line!r}: {said}, and not {should}", said == ["err fault"] * (1 if isinstance(line, str) else len(should)))
        self.halted(program, before, count)

    def halted(self, program, before, count):
        """No change any more; questions are answered by what was acknowledged."""
        for line in HALTED:
            self.result.compare(f"{self.name}, behind the fault, {line}", ["err halted"], program.ask(line, 1))
        self.result.compare(f"{self.name}, log", [f"log {count} acked {before.changes} shown {before.changes}"], program.ask("log", 1))
        for line in QUESTIONS:
            if line != "log":
                # (a status counts all changes, as a log does)
                should = [said.replace(f" changes {before.changes} ", f" changes {count} ") for said in before.reply(line.encode())]
                self.result.compare(f"{self.name}, behind the fault, {line}", should, program.ask(line, len(should)))
        if self.way == "serve":
            self.result.compare(f"{self.name}, a peer behind the fault", ["err halted"] * 2, program.stream(EXAMPLE * 2))
            with program.server.session() as other:
                self.result.compare(f"{self.name}, another session", before.reply(b"sum"), [other.ask("sum")])
                self.result.compare(f"{self.name}, another session", "err halted", other.ask("tkill - t"))

    def left(self, file):
        """What stands is one of the fronts, and the next start holds it."""
        image = bytes_of(file)
        shown = reading.shown(image)
        if shown[0].startswith("pfd: "):
            self.check(f"the file is left as {shown}", False)
            return
        held = reading.read(image).held
        stands = any(held.epoch == one.epoch and same(held, one) for one in self.fronts)
        self.check(f"the file holds {reading.told(held)}, which wasn't acknowledged", stands)
        compare_run(self.options, file, image, self.result)


def sweep(job):
    """Each k, until none is met."""
    options, shim, way, name, (size, script), kind = job
    result, met = Result(), 0
    with new_folder() as folder:
        file = os.path.join(folder, "disk")
        first = bytes_of(formatted(options.program, file, size))
        for version, (_, older) in enumerate((OLDER, EXPIRING), 1):
            if script == older:
                first = writing.bank_bytes(1, bytes(16), version).ljust(size, b"\0")
        for number in range(1, MOST_CALLS):
            one = Play(options, shim, way, script, kind, number, first)
            has_met = one.play(file)
            result.add(one.result)
            if not has_met:
                break
            met += 1
        result.check(f"{way}, {kind}: no call was met", met > 0)
    result.tell(f"{way}, {name}: {kind} 1 to {met}")
    return result


def sweep_format(job):
    """`pfd format` of a file that holds something, each call broken: then it holds that, or is no disk, or is formatted."""
    options, shim, kind = job
    result, met = Result(), 0
    with new_folder() as folder:
        file = formatted(options.program, os.path.join(folder, "disk"), SMALL[0])
        ran(options.program, "run", "--disk", file, given="\n".join(SMALL[1]).encode())
        first, new = bytes_of(file), reading.shown(writing.formatted(SMALL[0]))
        allowed = [reading.shown(first), ["pfd: no bank"], new]
        for number in range(1, MOST_CALLS):
            write(file, first)
            env = {**os.environ, "LD_PRELOAD": shim, "BREAK": kind, "BREAK_AT": str(number)}
            status, said, faults = ran(options.program, "format", "--disk", file, "--size", SMALL[0], env=env)
            shown = reading.shown(bytes_of(file))
            if faults.startswith(b"broken\n") and kind not in HARMLESS:
                end = (1, b"broken\npfd: fault\n") if kind in FAILING else (-9, b"broken\n")
                wanted = (status, faults) == end and said == b"" and shown in allowed
            else:
                wanted = (status, said) == (0, b"") and faults in (b"", b"broken\n") and shown == new
            result.check(f"format, {kind} {number}: status {status}, {said!r}, {faults!r}, {shown}", wanted)
            if not faults:
                break
            met += 1
    result.tell(f"format: {kind} 1 to {met}")
    return result


def closed_at_start(job):
    """Starts whose standard streams are closed: those of a file that is nearly full, of which standard error is to be told."""
    options, closed = job
    result, name = Result(), f"closed streams {closed}"
    with new_folder() as folder:
        file = formatted(options.program, os.path.join(folder, "disk"), SMALL[0])
        ran(options.program, "run", "--disk", file, given="\n".join(SMALL[1]).encode())
        opened = writing.opened(bytes_of(file))
        session = Session(SMALL[0] // 2, held=reading.read(opened).held)
        replies = [] if 0 in closed else [reply for line in SMALL[1] for reply in session.reply(line.encode())]
        how = {"preexec_fn": lambda: [os.close(number) for number in closed]}
        status, said, faults = ran(options.program, "run", "--disk", file, given="\n".join(SMALL[1]).encode(), **how)
        told = [] if 2 in closed else ["pfd: the disk is 92 % full", *(["pfd: input"] if 0 in closed else ["pfd: output"] if 1 in closed else [])]
        wanted = int(0 in closed or 1 in closed), [] if 1 in closed else replies, told
        result.compare(name, wanted, (status, said.decode().splitlines(), faults.decode().splitlines()))
        image = bytes_of(file)
        result.check(f"{name}: {reading.shown(image)} is left", same(reading.read(image).held, session.held))
        result.compare(f"{name}, show", int(1 in closed), ran(options.program, "show", "--disk", file, **how)[0])
        if 1 in closed:
            serve = "serve", "--listen", "127.0.0.1:0", "--disk", file, "--size", SMALL[0]
            result.compare(f"{name}, serve", 1, ran(options.program, *serve, **how)[0])
            image = writing.opened(image)
        result.check(f"{name}: what is left then is another", bytes_of(file) == image)
        result.compare(f"{name}, format", 0, ran(options.program, "format", "--disk", file, "--size", SMALL[0], **how)[0])
        result.compare(f"{name}, formatted", reading.shown(writing.formatted(SMALL[0])), reading.shown(bytes_of(file)))
    return result


def with_groups(random):
    """Lines, and streams whose messages come together."""
    maker = Maker(random, names=6)
    streams = [b"".join(maker.message() for _ in range(3)) for _ in range(3)]
    return 8192, ["tset - t 10.0.0.0/8", streams[0], "tadd - t 10.1.0.0/16", streams[1], EXAMPLE * 2, streams[2], "tkill - t"]


def play(options):
    with new_folder() as folder:
        shim = compiled("hostile_parts/break.c", folder)
        scripts = [("run", "a small file", SMALL), ("serve", "groups", with_groups(chance(options.seed, "groups")))]
        scripts += [("run", "a file of version 1", OLDER), ("run", "a file of version 2", EXPIRING), ("serve", "lines together", TOGETHER)]
        if not options.is_quick:
            scripts += [("run", "all kinds", ALL_KINDS), ("serve", "a small file", SMALL), ("serve", "all kinds", ALL_KINDS)]
            scripts += [("serve", "a file of version 1", OLDER), ("serve", "a file of version 2", EXPIRING)]
        jobs = [(options, shim, *script, kind) for script in scripts for kind in FAILING + KILLING + HARMLESS]
        result = spread(sweep, jobs, options.processes)
        result.add(spread(sweep_format, [(options, shim, kind) for kind in FAILING + KILLING + HARMLESS], options.processes))
    some_closed = itertools.chain.from_iterable(itertools.combinations(range(3), count) for count in (1, 2, 3))
    result.add(spread(closed_at_start, [(options, closed) for closed in some_closed], options.processes))
    result.told = [", ".join(sorted(result.told))]
    return result
