"""The agent: it brings a pfd to what etcd says, and tells etcd how far it is.

What is wanted is read whole at the start, and then followed by two watches, each from the revision behind the last one seen. If etcd has
compacted that revision, all is read again. What there is in pfd is read at the start, then every `--every` seconds, and whenever an
answer of pfd's is missing; only the difference is changed. So nothing depends on what the agent remembers. A file is loaded by one commit
with its mark (firewall.py), so that it is loaded once even where an answer was lost.

Threads: the main one alone talks to pfd, each watch has one that puts what it sees into a queue, and one keeps the lease and writes the
report.
"""
import json
import os
import queue
import sys
import threading
import time
import traceback

from etcd import Compacted, Refused, Unreachable, end_of
from firewall import CONF, OF_ENTRIES, OF_FILE, TABLES, Busy, Fault, Gone, Mark, Session, canonical, digest_of, is_name, read_file

# The seconds of a lease, between two attempts, at least between two reports, between two that differ in their entries alone, and at most
# between two writes of one.
LEASE, AGAIN, BETWEEN, ENTRIES, ANEW = 10, 0.3, 0.1, 3, 300
# What is told of a group of which nothing is in force.
NOTHING = {"revision": 0, "version": 0, "since": 0}
# What is watched: from a name up to another. (`first/` has what some hosts take first; a move to `conf/` has to be seen as one.)
WATCHED = (("conf/", end_of("first/")), ("tables/", end_of("tables/")))


def say(text):
    print(f"fleet: {text}", file=sys.stderr, flush=True)


def die(told):
    """A thread that failed ends the agent; a supervisor starts it again, and it reads all."""
    traceback.print_exception(told.exc_value, file=sys.stderr)
    os._exit(1)


class Watch(threading.Thread):
    """Follows some keys, and puts what it sees into a queue: itself, the revision and the keys, or None for the revision if it can't go
    on."""

    def __init__(self, etcd, bounds, revision, seen):
        super().__init__(daemon=True)
        self.etcd, self.bounds, self.next, self.seen, self.is_wanted = etcd, bounds, revision, seen, True

    def run(self):
        while self.is_wanted:
            try:
                for revision, keys in self.etcd.watch(*self.bounds, self.next):
                    self.seen.put((self, revision, keys))
                    self.next = revision + 1
            except Compacted as told:
                say(f"etcd has compacted {told}: all is read")
                self.seen.put((self, None, ()))
                return
            time.sleep(AGAIN)

    def end(self):
        self.is_wanted = False
        self.etcd.end_watch()


class Teller(threading.Thread):
    """Writes the agent's report to `hosts/HOST`, under a lease that it keeps, and to `known/HOST`, which stays. With many hosts and many
    bans most of what etcd writes would be reports, so those that tell of entries alone are fewer, and don't go to `known/`."""

    def __init__(self, etcd, agent):
        super().__init__(daemon=True)
        self.etcd, self.agent, self.lease, self.written, self.kept, self.at = etcd, agent, 0, {}, 0, 0
        self.news = threading.Event()

    def run(self):
        while True:
            self.news.wait(LEASE / 3)
            self.news.clear()
            try:
                self.tell()
            except (Refused, Unreachable) as told:
                self.lease = 0 if isinstance(told, Refused) else self.lease
                self.news.set()
                time.sleep(AGAIN)
            time.sleep(BETWEEN)

    def tell(self):
        if self.lease and time.monotonic() - self.kept > LEASE / 3:
            self.lease = self.lease if self.etcd.keep(self.lease) else 0
            self.kept = time.monotonic()
        if not self.lease:
            self.lease, self.written, self.kept = self.etcd.grant(LEASE), {}, time.monotonic()
        report, newest, silent = self.agent.report, self.agent.newest, time.monotonic() - self.at
        is_news = {**report, "entries": 0} != {**self.written, "entries": 0}
        # (a write whose answer was lost may come late, over a newer one: so each is written again)
        if report and (is_news or report != self.written and silent > ENTRIES or silent > ANEW):
            self.write(report, newest, is_news or silent > ANEW)

    def write(self, report, newest, is_kept):
        host, text = self.agent.host, json.dumps(report)
        kept = [self.etcd.put(f"known/{host}", text)] if is_kept else []
        revision, _, _ = self.etcd.txn([self.etcd.put(f"hosts/{host}", text, self.lease), *kept])
        self.written, self.at = report, time.monotonic()
        if revision < newest:
            say("etcd is at an earlier revision than before: all is read")
            self.agent.seen.put((None, None, ()))


class Agent:
    """A host's agent: `groups` has the path of each group's file, and `new_etcd` makes a client."""

    def __init__(self, new_etcd, host, groups, address, every):
        self.new_etcd, self.host, self.groups, self.address, self.every = new_etcd, host, groups, address, every
        self.etcd, self.seen, self.watches = new_etcd(), queue.Queue(), []
        # what is wanted: the keys of files, and of each table its keys, each with its entry and revision
        self.newest, self.cluster, self.keys, self.entries, self.changed, self.strange = 0, "", {}, {}, {}, {}
        # what there is in pfd, and whether that has to be read
        self.marks, self.claims, self.tables, self.filled, self.is_doubtful = {}, {}, {}, {}, True
        # the files that were read, by their marks, and what is told
        self.files, self.faults, self.forces, self.epoch, self.sum, self.report = {}, {}, {}, 0, "", {}
        self.looked = self.tried = self.forgiven = 0
        self.told = ""
        self.teller = Teller(new_etcd(), self)

    def run(self):
        threading.excepthook = die
        self.remember()
        self.teller.start()
        while True:
            try:
                self.read_all()
                self.follow()
            except (Unreachable, Refused) as told:
                self.wait_for_etcd(told)

    def remember(self):
        """Since when the files are in force, and how many there were before, isn't in the marks: the last report had it."""
        while True:
            try:
                known = self.etcd.get(f"known/{self.host}")
                self.forces = json.loads(known.value)["groups"] if known else {}
                return
            except (Unreachable, Refused) as told:
                self.wait_for_etcd(told)
            except (ValueError, KeyError):
                return

    def wait_for_etcd(self, told):
        """Says once that etcd doesn't answer, and waits a little."""
        if str(told) != self.told:
            say(told)
        self.told = str(told)
        time.sleep(AGAIN)

    # ---- what is wanted

    def read_all(self):
        """Reads all that is wanted, at one revision, and follows it from there on."""
        for watch in self.watches:
            watch.end()
        self.cluster = self.etcd.cluster()
        self.newest, read = self.etcd.read(*(self.etcd.range(*bounds) for bounds in WATCHED))
        self.told = ""
        self.keys, self.entries, self.strange = {}, {}, {}
        self.take(self.newest, [key for keys in read for key in keys])
        self.changed = dict.fromkeys([*self.entries, *self.claims], self.newest)
        self.is_doubtful = True
        self.watches = [Watch(self.new_etcd(), bounds, self.newest + 1, self.seen) for bounds in WATCHED]
        for watch in self.watches:
            watch.start()

    def take(self, revision, keys):
        """Takes over what became of these keys."""
        for key in keys:
            if not key.name.startswith("tables/"):
                self.keys.pop(key.name, None)
                if key.version:
                    self.keys[key.name] = key
                continue
            _, table, text = [*key.name.split("/", 2), ""][:3]
            self.changed[table] = revision
            self.entries.setdefault(table, {}).pop(key.name, None)
            self.strange.pop(key.name, None)
            if key.version:
                self.take_entry(table, text, key)

    def take_entry(self, table, text, key):
        try:
            if not is_name(table):
                raise ValueError(table)
            self.entries[table][key.name] = (canonical(text), key.revision)
        except ValueError:
            self.strange[key.name] = f"{key.name}: no table's name and address"

    def source(self, group):
        """The key that has the group's file for this host, and the file's text; or None."""
        first, conf = self.keys.get(f"first/{group}"), self.keys.get(f"conf/{group}")
        try:
            told = json.loads(first.value) if first else {"hosts": []}
            if self.host in told["hosts"]:
                return first, told["text"]
        except (ValueError, KeyError, TypeError):
            pass
        return (conf, conf.value) if conf else None

    def mark_of(self, key, text):
        return Mark(OF_FILE, digest_of(self.cluster, text), key.revision)

    def wanted(self, table):
        """The entries that a table is to have. Of one that is named with both signs the one without counts."""
        entries = {entry for entry, _ in self.entries.get(table, {}).values()}
        return {it for it in entries if not (it.startswith("!") and it[1:] in entries)}

    # ---- what is done

    def follow(self):
        """Keeps pfd at what is wanted, until all has to be read again."""
        while True:
            if self.is_behind():
                self.settle()
            try:
                items = [self.seen.get(timeout=AGAIN if self.is_doubtful else 1)]
                while not self.seen.empty():
                    items.append(self.seen.get())
            except queue.Empty:
                continue
            for watch, revision, keys in items:
                if watch is None or watch in self.watches:
                    if revision is None:
                        return
                    self.newest = max(self.newest, revision)
                    self.take(revision, keys)

    def is_behind(self):
        """Whether there is something to do at pfd, and it isn't too early to try again."""
        now = time.monotonic()
        if self.is_doubtful:
            return now - self.tried >= AGAIN
        return now - self.looked >= self.every or any(map(self.lacks_file, self.groups)) or any(map(self.lacks_entries, self.names()))

    def lacks_file(self, group):
        source = self.source(group)
        if not source:
            return False
        mark = self.mark_of(*source)
        # (what was refused is tried again when pfd is looked at)
        return self.marks.get(group) != mark and not self.is_refused(group, mark)

    def is_refused(self, group, mark):
        return self.faults.get(f"conf/{group}", (None,))[0] == mark

    def lacks_entries(self, name):
        is_ours = name not in self.filled and f"tables/{name}" not in self.faults
        return is_ours and self.wanted(name) != self.tables.get(name, set())

    def names(self):
        """The tables whose entries come one by one."""
        return sorted({*self.claims, *(name for name, entries in self.entries.items() if entries)})

    def settle(self):
        """Brings pfd to what is wanted, as far as it goes, and has it told."""
        self.tried, fault = time.monotonic(), ""
        self.is_doubtful |= self.tried - self.looked >= self.every
        if self.tried - self.forgiven >= self.every:
            self.forgiven, self.faults = self.tried, {}
        for group in self.groups:
            self.read_source(group)
        try:
            with Session(self.address) as session:
                self.look(session)
                for group in self.groups:
                    self.settle_file(session, group)
                for name in self.names():
                    self.settle_table(session, name)
                self.epoch, (self.sum,) = session.epoch(), session.ask("sum")
            self.is_doubtful = False
        except (Gone, Busy, Fault) as told:
            fault, self.is_doubtful = str(told), True
        self.make_report(fault)

    def read_source(self, group):
        """Reads the group's file, unless it was."""
        source = self.source(group)
        mark = self.mark_of(*source) if source else None
        if not source or mark in self.files or self.is_refused(group, mark):
            return
        wanted = [self.mark_of(*it) for it in map(self.source, self.groups) if it]
        self.files = {it: file for it, file in self.files.items() if it in wanted}
        try:
            self.files[mark] = read_file(source[1], f"conf/{group}", self.groups[group])
        except (Fault, OSError) as told:
            self.refuse(f"conf/{group}", mark, told)

    def refuse(self, name, mark, told):
        if self.faults.get(name, ("", ""))[1] != str(told):
            say(f"{name}: {told}")
        self.faults[name] = (mark, str(told))

    def look(self, session):
        """Reads what there is, if that is in doubt."""
        if not self.is_doubtful:
            return
        self.marks, self.claims, self.tables = session.marks(CONF), session.marks(TABLES), session.tables("-")
        self.filled = {name: group for group, path in self.groups.items() if path == "-" for name in session.marks(f"{CONF}/{group}")}
        self.looked = time.monotonic()
        for name in self.names():
            newest = max((revision for _, revision in self.entries.get(name, {}).values()), default=0)
            mark = self.claims.get(name)
            if mark and mark.revision < newest and not self.lacks_entries(name):
                self.put_mark(session, name)

    def settle_file(self, session, group):
        if not self.lacks_file(group):
            return
        key, text = self.source(group)
        mark = self.mark_of(key, text)
        try:
            session.load(group, self.groups[group], self.files[mark], mark)
        except Fault as told:
            self.refuse(f"conf/{group}", mark, told)
            return
        self.marks[group] = mark
        self.forces[group] = {"revision": mark.revision, "version": version_of(key), "since": int(time.time())}
        say(f"conf/{group}: revision {mark.revision} is in force")
        if self.groups[group] == "-":
            self.filled = {name: it for name, it in self.filled.items() if it != group}
            self.filled |= dict.fromkeys(self.files[mark].filled(), group)
            self.tables, self.claims = session.tables("-"), session.marks(TABLES)

    def settle_table(self, session, name):
        """Fills a table. Its mark is there before its first entry, so that none is left when the last one is gone from etcd."""
        if not self.lacks_entries(name):
            return
        wanted, there = self.wanted(name), self.tables.get(name, set())
        try:
            if name not in self.claims:
                session.mark(name, Mark(OF_ENTRIES, digest_of(self.cluster), 0))
            session.fill(name, wanted, there)
            self.put_mark(session, name)
        except Fault as told:
            self.refuse(f"tables/{name}", None, told)
            return
        self.tables[name] = wanted

    def put_mark(self, session, name):
        mark = Mark(OF_ENTRIES, digest_of(self.cluster), self.changed.get(name, self.newest))
        session.mark(name, mark)
        self.claims[name] = mark

    # ---- what is told

    def make_report(self, fault):
        """What `hosts/HOST` says."""
        groups = {group: self.state_of(group) for group in self.groups}
        told = [*self.strange.values(), *(told for name, (_, told) in self.faults.items() if name.startswith("tables/"))]
        told += [f"tables/{name}: conf/{self.filled[name]} fills this table" for name in self.names() if name in self.filled]
        entries = max((mark.revision for mark in self.claims.values() if mark), default=0)
        report = {"address": self.address, "groups": groups, "entries": entries, "epoch": self.epoch, "sum": self.sum}
        report |= {"fault": fault, "tables": "; ".join(sorted(told))[:1000]}
        if fault and self.report.get("fault") != fault:
            say(fault)
        if report != self.report:
            self.report = report
            self.teller.news.set()

    def state_of(self, group):
        """What is in force of a group, and what isn't and why."""
        mark, path, source = self.marks.get(group), self.groups[group], self.source(group)
        wanted = self.mark_of(*source) if source else None
        force = self.forces.get(group, NOTHING)
        if not mark and self.looked:
            force = NOTHING
        elif mark and force.get("revision") != mark.revision:
            force = {"revision": mark.revision, "version": version_of(source[0]) if mark == wanted else None, "since": int(time.time())}
        self.forces[group] = force = {it: force.get(it) for it in NOTHING}
        refused, told = self.faults.get(f"conf/{group}", (None, ""))
        refused, told = (refused, told) if refused == wanted else (None, "")
        if not source:
            told = f"conf/{group} isn't there"
        elif path == "-" and mark == wanted in self.files and self.files[mark].sum != self.sum and self.sum:
            told = f"the rules in force aren't those of conf/{group}: somebody else changed them"
        return {**force, "path": path, "refused": refused.revision if refused else 0, "fault": told}


def version_of(key):
    """How many files the group has had, if that is known."""
    return key.version if key.name.startswith("conf/") else None
