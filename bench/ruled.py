"""Rules and packets from a seed, and the same judging in plain Rust (bench/columns.rs) beside which others are measured."""
import os
import random
import shutil
import subprocess

from building import ROOT

INTERFACES = ("em0", "em1", "em2", "veryveryverylo0", "veryveryverylo1")


def compared(where):
    """Compiles the comparison in plain Rust in this folder, where rustc is; its path."""
    if not shutil.which("rustc"):
        return None
    program = os.path.join(where, "columns")
    source = os.path.join(ROOT, "bench", "columns.rs")
    subprocess.run(["rustc", "-O", "--edition", "2024", "-o", program, source], check=True)
    return program


def rows(program, text):
    """What a program tells of each ruleset of these lines: how many rules, packets and verdicts that differ, two times, and the verdicts' sum."""
    told = subprocess.run([program], input=text, stdout=subprocess.PIPE, text=True, check=True).stdout
    return [tuple(map(int, line.split())) for line in told.splitlines()]


class Words:
    """Rules and packets from a seed."""

    def __init__(self, seed):
        self.random = random.Random(seed)

    def network(self, is_v6):
        if is_v6:
            return f"2001:db8:{self.random.randrange(64):x}::/{self.random.choice((36, 40, 44, 48, 128))}"
        return f"10.{self.random.randrange(64)}.{self.random.randrange(256)}.0/{self.random.choice((8, 12, 14, 16, 20, 24))}"

    def host(self, is_v6):
        kind = self.random.random()
        if kind < 0.1:
            return self.random.choice(("<t>", "<t>", "! <t>"))
        if kind < 0.3:
            return "any"
        return ("! " if self.random.random() < 0.1 else "") + self.network(is_v6)

    def port(self):
        kind = self.random.random()
        if kind < 0.5:
            return ""
        if kind < 0.7:
            return f" port {self.random.choice((22, 80, 443))}"
        first, last = sorted(self.random.randrange(65536) for _ in range(2))
        if kind < 0.85:
            return f" port {self.random.choice(('!=', '<', '<=', '>', '>='))} {first}"
        return self.random.choice((f" port {first}:{last}", f" port {first} >< {last}", f" port {first} <> {last}"))

    def rule(self):
        is_v6 = self.random.random() < 0.5
        action = self.random.choice(("pass", "block"))
        way = self.random.choice(("", " in", " out"))
        quick = " quick" if self.random.random() < 0.15 else ""
        interface = f" on {self.random.choice(INTERFACES)}" if self.random.random() < 0.5 else ""
        family = " inet6" if is_v6 else " inet"
        protocol = self.random.choice(("tcp", "udp"))
        ends = f"from {self.host(is_v6)}{self.port()} to {self.host(is_v6)}{self.port()}"
        return f"{action}{way}{quick}{interface}{family} proto {protocol} {ends}{' no state' if action == 'pass' else ''}"

    def packet(self):
        is_v6 = self.random.random() < 0.5

        def end():
            number = self.random.randrange(64)
            address = (
                f"2001:db8:{number:x}:{self.random.randrange(2)}::{self.random.randrange(4)}"
                if is_v6
                else f"10.{number}.{self.random.randrange(256)}.{self.random.randrange(256)}"
            )
            return f"{address} {self.random.choice((0, 22, 79, 80, 81, 443, 65535, self.random.randrange(65536)))}"

        interface = self.random.choice((*INTERFACES, "em3", "veryveryverylo2"))
        return f"{self.random.choice(('in', 'out'))} {interface} {self.random.choice(('tcp', 'udp'))} {end()} {end()}"

    def entries(self):
        """The networks of the table that some rules ask."""
        for number in range(64):
            yield f"10.{number}.{self.random.randrange(16) * 16}.0/20"
            yield f"2001:db8:{number:x}:{self.random.randrange(2)}::/64"
