"""Clients of a server that send many lines at once, and whether what they are told is right by the plain model of bench/hostile_parts/model.py.

    begun(address, count)       the tickets of so many clients, each for a ruleset of its own, or None
    Client(number, ticket, edits)
    client.play(address)        sends its lines; `told` has each with its reply, or with None if the connection ended before
    client.wrong(kept)          what is wrong with the replies, or with what is kept of this client's by the replies to `questions`, or None
    client.left                 behind that the lines that were refused for want of memory, or had no reply and changed nothing
    client.again(address)       gives these once more: what is wrong with the replies, or None

A client's lines are of each kind that is kept together, with others between them, and all about its own ruleset, tables and states. So what one is told
depends on its own lines alone, but for the numbers of changes.
"""
import re
import socket
import struct

from hostile_parts.model import Session

SECONDS = 30
# What is on the file before, by which packets are tracked.
BEFORE = ["begin filter -", "add - 1.1 pass in proto tcp all keep state", "commit filter - 1.1"]
REFUSAL = "err memory"


def questions(count):
    return ["show tables -", "show states", *(f"show rules f{number}" for number in range(count))]


def message(number):
    """A peer's message, in hexadecimal digits, that inserts a state of this client's."""
    addresses = bytes([10, 2, 0, number]), bytes([192, 0, 2, 1])
    group = struct.pack(">BxHQIIBBBx4s12x4s12xHHII", 1, 1, 200 + number, 2, 0, 1, 4, 6, *addresses, 1024, 80, 0xFFFFFFFF, 0xFFFFFFFF)
    return (struct.pack(">BxH16x", 5, 20 + len(group)) + group).hex()


def begun(address, count):
    """One refusal is met by one of these at most, so they are asked for again."""
    line = " ".join(["begin", *(f"filter f{number}" for number in range(count))])
    for _ in range(2):
        try:
            with socket.create_connection(address, timeout=SECONDS) as stream, stream.makefile("rb") as replies:
                said = exchange(stream, replies, [line])[0]
        except ConnectionError:
            continue
        if said and said.startswith("ok "):
            return said.split()[1:]
    return None


def exchange(stream, replies, lines):
    """The reply to each of these lines, each of one line, and None for those that have none as the connection ends."""
    said = []
    try:
        stream.sendall("".join(f"{line}\n" for line in lines).encode())
        while len(said) < len(lines):
            line = replies.readline().decode()
            if not line.endswith("\n"):
                break
            said.append(line.rstrip("\n"))
    except ConnectionError:
        pass
    return [*said, *[None] * (len(lines) - len(said))]


def without_number(reply):
    return re.sub(r"^(?:applied|stored) \d+", "applied", reply)


class Client:
    def __init__(self, number, ticket, edits):
        self.number, self.ticket, self.edits = number, ticket, edits
        self.told, self.left, self.model, self.is_late = [], [], Session(), False
        for line in BEFORE:
            self.model.reply(line.encode())
        # (as if this one had been given, in an opening behind that of these lines)
        epoch, count = map(int, ticket.split("."))
        self.model.held.epoch, self.model.next_ticket = epoch, count
        self.model.reply(f"begin filter f{number}".encode())

    def pieces(self):
        """What is sent at once, and then once that is answered."""
        number, ticket, packet = self.number, self.ticket, f"in em0 tcp 10.1.0.{self.number} 1024 192.0.2.1 80"
        mixed = [f"add f{number} {ticket} block in all", f"tset - a{number} 10.0.0.1", f"tadd - a{number} 10.0.0.2 10.0.0.3",
                 f"track {100 + number} 1 {packet}", f"commit filter f{number} {ticket}", f"peer {message(number)}",
                 f"tdel - a{number} 10.0.0.2", f"judge {packet}", f"kill {100 + number} 1", "expire 0", f"tset - b{number} 10.0.0.1",
                 f"tkill - b{number}", "frob", f"tkill - b{number}"]
        return [mixed, [f"tadd - a{number} 10.0.1.{place}" for place in range(self.edits)], [f"tset - c{number} 10.0.0.1"]]

    def play(self, address):
        pieces, has_ended = self.pieces(), False
        try:
            with socket.create_connection(address, timeout=SECONDS) as stream, stream.makefile("rb") as replies:
                for lines in pieces:
                    self.told += zip(lines, [None] * len(lines) if has_ended else exchange(stream, replies, lines))
                    has_ended = self.told[-1][1] is None
        except ConnectionError:
            self.told = [(line, None) for lines in pieces for line in lines]
        except TimeoutError:
            self.is_late = True

    def numbers(self):
        """Those of its changes."""
        found = [re.match(r"(?:applied|stored) (\d+)", said or "") for _, said in self.told]
        return [int(it[1]) for it in found if it]

    def wrong(self, kept):
        if self.is_late:
            return f"client {self.number}: no reply in {SECONDS} seconds"
        ahead, is_stored = [line for line, said in self.told if said is None], False
        for line, said in self.told[: len(self.told) - len(ahead)]:
            is_stored = is_stored or said.startswith("stored ")
            if said == REFUSAL:
                self.left.append(line)
            elif line.startswith("judge ") and is_stored and said == "pass rule 0":
                # it needn't be shown yet that the packet has a state
                continue
            elif wrong := self.compare(line, said):
                return wrong
        should = self.kept()
        while should != self.own(kept) and ahead:
            self.model.reply(ahead.pop(0).encode())
            should = self.kept()
        self.left += ahead
        return None if should == self.own(kept) else f"client {self.number}: {self.own(kept)} is kept, and not {should}"

    def compare(self, line, said):
        """What is wrong with the reply to the next line, or None."""
        should = self.model.reply(line.encode())
        return None if [without_number(said)] == [*map(without_number, should)] else f"client {self.number}: {line}: {said!r}, and not {should}"

    def kept(self):
        """The lines of what is kept of this client's."""
        asked = ["show tables -", "show states", f"show rules f{self.number}"]
        return [line for question in asked for line in self.model.reply(question.encode())[:-1]]

    def own(self, kept):
        """Those of the replies to all questions."""
        tables, states, *rules = re.split(r"^end \d+\n", kept, flags=re.M)
        found = re.findall(rf"^[abc]{self.number} .*|^{100 + self.number} 1 .*|^{200 + self.number} 2 .*", tables + states, re.M)
        return [*found, *rules[self.number].splitlines()]

    def again(self, address):
        with socket.create_connection(address, timeout=SECONDS) as stream, stream.makefile("rb") as replies:
            for line in self.left:
                wrong = self.compare(line, exchange(stream, replies, [line])[0] or "")
                if wrong:
                    return f"given again: {wrong}"
        return None
