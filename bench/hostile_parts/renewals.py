"""A server that renews its history every few changes, stopped at each call of its file, and with each call broken.

A small library (note.c) notes each write and sync of the file and each reply, in their order. Of each call, those within renewals among
them, each image that a crash in it may leave is read by the plain reading: with what was written since the last sync there, lost, and with
other bytes in its place. It has to hold all changes that had been answered, and no more than those that were under way, in the opening of
the last ticket that was given or the one behind it. So the next opening's tickets are others, and each older one is void. The program opens
those of renewals too: some of them in a quick run. It has to find what the plain reading does, and to refuse the last ticket that was
given.

Another one (break.c) breaks the k-th call of a kind, for each k until none is met, as in the part `files`. A fault of an opening that
renews ends the server with status 1 and `pfd: fault`; behind one of a change all changes are told `err halted`, unless it ends so. Where
the process is killed in the call, what is left holds what was answered.
"""
import copy
import os
import re
import struct

from building import compiled

from . import reading, writing
from .devices import PLAIN_FILLS, Device
from .files import FAILING, HARMLESS, KILLING, MOST_CALLS
from .images import compare_run
from .lines import same
from .model import Session
from .program import Result, Server, bytes_of, chance, formatted, new_folder, ran, spread, write
from .soak import without_number
from .streams import EXAMPLE

# A history is renewed behind so many changes, of files of these sizes. On the smallest some openings begin the other bank.
RENEW, SIZES = 3, (1700, 1900, 2500, 4096)
# Changes; one that begins with `rules` is a commit of this rule at a path.
CHANGES = [
    "tset - t 10.0.0.0/8", "tadd - t !10.1.0.0/16", "rules - pass out proto udp all keep state", "tdel - t !10.1.0.0/16", "tset - t 10.0.0.0/8",
    "track 7 1 out em0 udp 198.51.100.7 40000 192.0.2.1 80 until 9", "expire 8", "kill 7 1", "tadd - t 10.9.0.0/16", "rules web block all",
    "track 8 1 out em0 udp 198.51.100.7 40001 192.0.2.1 80 until 9", "expire 9", "tset web v 10.0.0.1", "tkill web v", "rules web pass all",
    f"peer {EXAMPLE.hex()}", "tdel - t 10.9.0.0/16", "tkill - t",
]
# The paths for which tickets were given.
PATHS = ("clock", "-", "web")
SECONDS = 30


class Gone(Exception):
    """The server closed the connection."""


class Player:
    """A client that makes the changes, each once the one before is answered, and waits for the renewal behind each last one of an opening.
    `fronts` is what is held behind each change that was sent, `answered` how many of them were answered, and `refused` the first reply that
    is no other's."""

    def __init__(self, server, held, renew):
        self.client, self.renew = server.session(SECONDS), renew
        self.session = Session(1 << 29, held=held)
        self.fronts, self.answered, self.opening, self.refused, self.wrong = [copy.deepcopy(held)], 0, held.epoch, None, []

    def play(self, lines):
        """False if the server is gone or refuses a change."""
        try:
            return all(self.change(line) for line in lines)
        except (OSError, Gone):
            return False
        finally:
            self.client.close()

    def ask(self, line):
        reply = self.client.ask(line)
        if not reply or reply == "(reset)":
            raise Gone
        return reply

    def change(self, line):
        should = self.model_rules(line) if line.startswith("rules ") else self.session.reply(line.encode())[-1]
        self.fronts.append(copy.deepcopy(self.session.held))
        reply = self.rules(line) if line.startswith("rules ") else self.ask(line)
        if reply.startswith("err "):
            self.refused = reply
            return False
        if without_number([reply]) != without_number([should]):
            self.wrong.append(f"{line} is told {reply}, and not {should}")
            return False
        self.answered += 1
        if int(reply.split()[1]) >= self.renew:
            self.wait()
        return True

    def wait(self):
        """Until there is another opening."""
        before = self.opening
        while self.opening == before:
            self.begin("clock")

    def begin(self, path):
        reply = self.ask(f"begin filter {path}")
        if not re.fullmatch(r"ok \d+\.\d+", reply):
            self.wrong.append(f"begin is told {reply}")
            raise Gone
        self.opening = int(reply[3:].split(".")[0])
        return reply[3:]

    def rules(self, line):
        """The commit of a rule. A renewal may make its ticket void, and then it has another one."""
        _, path, rule = line.split(" ", 2)
        reply = "busy 0"
        while reply == "busy 0":
            ticket = self.begin(path)
            reply = self.ask(f"add {path} {ticket} {rule}")
            reply = self.ask(f"commit filter {path} {ticket}") if reply == "ok" else reply
        return reply

    def model_rules(self, line):
        _, path, rule = line.split(" ", 2)
        ticket = self.session.reply(f"begin filter {path}".encode())[0][3:]
        self.session.reply(f"add {path} {ticket} {rule}".encode())
        return self.session.reply(f"commit filter {path} {ticket}".encode())[0]


def begun(file):
    """What a server on this file begins with."""
    return reading.read(writing.opened(bytes_of(file))).held


class Moment:
    """What was answered before a call: how many changes, the last ticket, and whether a renewal is under way."""

    def __init__(self, answered, ticket, renews):
        self.answered, self.ticket, self.renews = answered, ticket, renews


def noted(notes, image, renew):
    """The device that had these calls, and the moment of each."""
    device, moments, at = Device(image), [], 0
    answered, ticket, renews = 0, "0.0", True
    while at < len(notes):
        kind, place, size = struct.unpack_from("<cQQ", notes, at)
        some = notes[at + 17 : at + 17 + size]
        at += 17 + size
        if kind == b"r":
            for line in some.decode().splitlines():
                if line.startswith("applied "):
                    answered, renews = answered + 1, int(line.split()[1]) >= renew
                elif re.fullmatch(r"ok \d+\.\d+", line):
                    renews = renews and line[3:].split(".")[0] == ticket.split(".")[0]
                    ticket = line[3:]
            continue
        moments.append(Moment(answered, ticket, renews))
        if kind == b"w":
            device.write(place, some)
        else:
            device.sync()
    return device, moments


def compare(options, result, folder, name, device, moments, fronts, most):
    """Each image of each call. Of those of renewals the program opens so many."""
    seen, opened, random = {}, 0, chance(options.seed, "renewals", name)
    fills = (*PLAIN_FILLS, random.randbytes(len(device.first)))
    for number, moment in enumerate(moments, 1):
        for fill in fills:
            image = device.image(number, fill)
            key = image, moment.answered, moment.ticket
            if key in seen:
                continue
            seen[key] = True
            what = f"{name}, call {number} of {len(moments)}, behind {moment.answered} answers"
            stands = look(result, what, image, moment, fronts)
            result.counts.update(images=1, renewing=int(moment.renews))
            if stands and moment.renews and moment.answered and opened < most:
                opened += 1
                by_program(options, result, folder, what, image, moment)
    result.counts.update(calls=len(moments), opened=opened, in_renewals=sum(moment.renews for moment in moments))


def look(result, what, image, moment, fronts):
    """Whether an image holds what was answered, in an opening whose successor makes each older ticket void."""
    try:
        held = reading.read(image).held
    except reading.Refusal as refusal:
        return result.check(f"{what}: {refusal}", False)
    may_be = fronts[moment.answered : moment.answered + 2]
    told = int(moment.ticket.split(".")[0])
    result.check(f"{what}: it holds {reading.told(held)}", any(same(held, one) for one in may_be))
    return result.check(f"{what}: the opening {held.epoch}, and the ticket {moment.ticket} was given", told <= held.epoch)


def by_program(options, result, folder, what, image, moment):
    file = os.path.join(folder, "crashed")
    compare_run(options, file, image, result)
    write(file, image)
    lines = "".join(f"add {path} {moment.ticket} pass all\n" for path in PATHS)
    said = ran(options.program, "run", "--disk", file, given=lines.encode())[1]
    result.compare(f"{what}: a ticket of before", b"busy 0\n" * len(PATHS), said)


def stopped(job):
    """All calls of a server over the changes."""
    options, shim, size = job
    result = Result()
    with new_folder() as folder:
        file, notes = formatted(options.program, os.path.join(folder, "disk"), size), os.path.join(folder, "notes")
        first, held = bytes_of(file), begun(file)
        env = {**os.environ, "LD_PRELOAD": shim, "NOTES": notes}
        with Server(options.program, file, size, workers=3, history=None, more=("--renew", RENEW), env=env) as server:
            player = Player(server, held, RENEW)
            is_whole = player.play(CHANGES * options.few(1, 3))
        result.check(f"{size} bytes: it ended behind {player.answered} changes with {player.refused}, {player.wrong}", is_whole)
        device, moments = noted(bytes_of(notes), first, RENEW)
        result.compare(f"{size} bytes: what the file holds", bytes_of(file), bytes(device.bytes))
        result.counts.update(renewals=player.opening - held.epoch)
        compare(options, result, folder, f"{size} bytes", device, moments, player.fronts, options.few(40, 1 << 30))
    return result


def broken(job):
    """Each k, until none is met."""
    options, shim, kind, size = job
    result, met, ends = Result(), 0, 0
    with new_folder() as folder:
        file = os.path.join(folder, "disk")
        first = bytes_of(formatted(options.program, file, size))
        for number in range(1, MOST_CALLS):
            write(file, first)
            has_met, is_ended = broken_once(options, result, shim, kind, number, file)
            if not has_met:
                break
            met, ends = met + 1, ends + is_ended
        result.check(f"{kind}: no call was met", met > 0)
    result.counts.update(met=met, ended=ends)
    return result


def broken_once(options, result, shim, kind, number, file):
    """Whether it was met, and whether the server ended by it."""
    name, held = f"renewals, {kind} {number}", begun(file)
    env = {**os.environ, "LD_PRELOAD": shim, "BREAK": kind, "BREAK_AT": str(number)}
    try:
        server = Server(options.program, file, os.path.getsize(file), workers=3, history=None, more=("--renew", RENEW), env=env)
    except ChildProcessError:
        return True, False  # the first opening, as the part `files` has it
    with server:
        player = Player(server, held, RENEW)
        is_whole = player.play(CHANGES)
        status, faults = ended(server, is_whole or player.refused)
    has_met = "broken\n" in faults
    faults = [line for line in faults.splitlines() if line not in ("broken", "touched") and not line.startswith("pfd: the disk is ")]
    result.check(f"{name}: {player.wrong}", not player.wrong)
    if not has_met or kind in HARMLESS:
        result.compare(f"{name}: the changes", (True, None, []), (is_whole, status, faults))
    elif kind in KILLING:
        result.compare(f"{name}: the process's end", (-9, []), (status, faults))
    else:
        how = {None: (1, ["pfd: fault"]), "err fault": (None, [])}.get(player.refused)
        result.check(f"{name}: {player.refused}, then status {status} and {faults}", (status, faults) == how)
    left(options, result, name, file, player)
    return has_met, status == 1


def ended(server, is_there):
    """The status of a server that ended by itself, and its faults. One that is still there is killed."""
    if is_there:
        server.process.kill()
    faults = server.process.stderr.read().decode()
    status = server.process.wait()
    return None if is_there else status, faults


def left(options, result, name, file, player):
    """What stands is what was answered, or that with what was under way."""
    image = bytes_of(file)
    try:
        held = reading.read(image).held
    except reading.Refusal as refusal:
        result.check(f"{name}: {refusal} is left", False)
        return
    may_be = player.fronts[player.answered : player.answered + 2]
    result.check(f"{name}: {reading.told(held)} is left", any(same(held, one) for one in may_be) and held.epoch >= player.opening)
    compare_run(options, file, image, result)


def play(options):
    with new_folder() as folder:
        note, shim = compiled("hostile_parts/note.c", folder), compiled("hostile_parts/break.c", folder)
        result = spread(stopped, [(options, note, size) for size in SIZES], options.processes)
        jobs = [(options, shim, kind, size) for kind in FAILING + KILLING + HARMLESS for size in SIZES[: options.few(1, 2)]]
        result.add(spread(broken, jobs, options.processes))
    some = result.counts
    result.tell(f"{some['renewals']:,} renewals, {some['in_renewals']:,} of {some['calls']:,} calls in these; {some['images']:,} images that differ, "
                f"{some['renewing']:,} of them in renewals, of which the program opened {some['opened']:,}")
    result.tell(f"{some['met']:,} broken calls, by {some['ended']:,} of which a server ended")
    return result
