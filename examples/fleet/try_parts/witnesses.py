"""The files that the trial pushes, and its two witnesses: one asks a pfd all the time, the other reads what its file keeps of every
commit."""
import re
import threading
import time

from firewall import CONF, TABLES, Gone, mark_of

from .journal import Commit, Edit, changes_of
from .processes import GROUP


# The label of rules that somebody else commits.
STRANGER = "stranger"


# ---- files


class Pushed:
    """The file of a number: its text, and what pfd then shows."""

    def __init__(self, number, chance):
        self.number, self.label = number, f'label "push-{number}"'
        ports = [chance.randrange(1, 60000) for _ in range(chance.randrange(1, 6))]
        name = chance.choice(("admins", "admins", "servers"))
        self.tables = {name: {f"10.{number >> 8}.{number & 255}.{it}" for it in range(1, chance.randrange(3, 9))}}
        entries = ", ".join(sorted(self.tables[name]))
        lines = [f"# the file of push {number}", f"table <{name}> persist {{ {entries} }}", f"block in all {self.label}"]
        lines += [f"pass in proto tcp from any to any port {port} {self.label}" for port in ports]
        lines.append(f"block in quick from <banned> to any {self.label}")
        lines += [f"pass in proto tcp from <{name}> to any port 22 {self.label}", 'anchor "local/*" in all', ""]
        self.text = "\n".join(lines)
        self.rules = [f"block in all {self.label}"]
        self.rules += [f"pass in proto tcp from any to any port = {port} keep state {self.label}" for port in ports]
        self.rules += [f"block in quick from <banned> to any {self.label}"]
        self.rules += [f"pass in proto tcp from <{name}> to any port = 22 keep state {self.label}", 'anchor "local/*" in all']
        # whether a host may go back from it, since its push died
        self.is_withdrawn = False


def number_of(rules):
    """The number of the file that these rules are of, by the label of the first."""
    found = re.search(r'label "push-(\d+)"', rules[0]) if rules else None
    return int(found[1]) if found else 0


# ---- the first witness


class Seen:
    """What a pfd shows: its rules, its main tables, the marks, and how it judges a packet that every file blocks."""

    def __init__(self, session):
        marks = session.marks(CONF)
        self.rules = [line.split(" ", 1)[1] for line in session.ask_list("show rules -")]
        self.tables = session.tables("-")
        (self.verdict,) = session.ask("judge in em0 udp 192.0.2.1 1 192.0.2.2 2")
        self.filled, self.entries = session.marks(f"{CONF}/{GROUP}"), session.marks(TABLES)
        self.mark = session.marks(CONF).get(GROUP)
        # (between the two reads of the mark nothing was loaded)
        self.is_of_one_moment = marks.get(GROUP) == self.mark


class Witness(threading.Thread):
    """Asks a pfd all the time."""

    def __init__(self, fleet, host, files, revisions):
        super().__init__(daemon=True)
        self.fleet, self.host, self.files, self.revisions = fleet, host, files, revisions
        self.looks = self.missed = self.newest = 0
        self.wrong, self.is_wanted = [], True

    def run(self):
        while self.is_wanted:
            try:
                with self.fleet.session(self.host) as session:
                    self.heed(Seen(session))
                self.looks += 1
            except Gone:
                self.missed += 1
            except Exception as told:
                self.say(f"the witness failed: {type(told).__name__}: {told}")
            time.sleep(0.1)

    def say(self, text):
        self.wrong.append(f"{self.host}: {text}")

    def heed(self, seen):
        number = number_of(seen.rules)
        if not seen.rules or seen.verdict != "block rule 0":
            self.say(f"{len(seen.rules)} rules are in force, and a packet is judged: {seen.verdict}")
        elif number not in self.files or seen.rules != self.files[number].rules:
            self.say(f"rules that are of no file: {seen.rules}")
        elif number < self.newest and not self.files[self.newest].is_withdrawn:
            self.say(f"file {number} is in force, and file {self.newest} was before")
        elif seen.is_of_one_moment:
            self.heed_whole(seen, number)
        self.newest = number

    def heed_whole(self, seen, number):
        tables = {name: entries for name, entries in seen.tables.items() if name != "banned"}
        if tables != self.files[number].tables:
            self.say(f"file {number} is in force with the tables {tables}")
        if not seen.mark or any(it != seen.mark for it in seen.filled.values()) or set(seen.filled) != set(self.files[number].tables):
            self.say(f"file {number} is in force with the marks {seen.mark} and {seen.filled}")
        elif self.revisions.setdefault(seen.mark.revision, number) != number:
            self.say(f"file {number} is marked as revision {seen.mark.revision}, which file {self.revisions[seen.mark.revision]} has")


# ---- the second witness


def wrong_in_journal(file, files, revisions):
    """What is wrong with the commits that a pfd's file keeps, how many there are, how often it was opened, and how many edits of entries
    changed nothing."""
    changes, openings = changes_of(file)
    wrong, last, is_back, commits, idle, there = [], 0, False, 0, 0, set()
    for change in changes:
        if isinstance(change, Edit):
            there, is_idle = edited(there, change)
            idle += is_idle
        elif isinstance(change, Commit) and "" in change.rules and change.rules[""] != [STRANGER]:
            told, revision = wrong_in_commit(change, last, is_back, files, revisions)
            wrong += [told] if told else []
            commits += 1
            is_back = revisions.get(revision) in files and files[revisions[revision]].is_withdrawn
            last = last if is_back else revision
    return wrong, commits, openings, idle


def edited(there, edit):
    """The entries of `banned` behind an edit, and whether it changed nothing."""
    if edit.path or edit.name != "banned":
        return there, False
    made = there | set(edit.entries) if edit.word == "tadd" else there - set(edit.entries)
    return made, made == there


def wrong_in_commit(commit, last, is_back, files, revisions):
    """What is wrong with a commit behind that of the last revision, and its revision. One that is back from a withdrawn file is the last
    again."""
    labels = commit.rules.get("", [])
    mark = next((mark_of(it) for it in commit.tables.get(CONF, {}).get(GROUP, [])), None)
    number = number_of([f'label "{labels[0]}"']) if labels else 0
    if not labels:
        return f"a commit behind revision {last} has no rules", last
    if not mark:
        return f"a commit of file {number} has no mark", last
    revision = mark.revision
    if number not in files or labels != [f"push-{number}"] * (len(files[number].rules) - 1) + [None]:
        return f"a commit of revision {revision} has rules of no file: {labels}", revision
    filled = {name: set(entries) for name, entries in commit.tables.get("", {}).items() if entries}
    if filled != files[number].tables or {it for it, of in commit.tables.get(f"{CONF}/{GROUP}", {}).items() if of} != set(filled):
        return f"a commit of file {number} has the tables {filled}", revision
    if revision < last or revision == last and not is_back:
        return f"revision {revision} was loaded behind revision {last}", last
    if revisions.setdefault(revision, number) != number:
        return f"file {number} is marked as revision {revision}, which file {revisions[revision]} has", revision
    return None, revision
