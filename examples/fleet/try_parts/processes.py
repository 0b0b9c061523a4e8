"""The processes of the trial, what stands between an agent and its pfd, and the commands that are run."""
import collections
import os
import random
import select
import socket
import subprocess
import threading
import time

from etcd import Etcd, Refused, Unreachable
from firewall import Fault, Gone, Session

HOSTS, MEMBERS, GROUP = 8, 3, "edge"
# Of a pfd: its file, so large that it is never switched, and its connections. The most seconds that a fleet may take to be as it should.
SIZE, WORKERS, PATIENCE = 4 << 20, 8, 90
# How many seconds late a line comes; how long a begin waits for a line that is to come before it, and such a line for a begin.
LATE, SHORTLY, LONG = 1.0, 0.1, 8


class Process:
    """One that is killed and started again."""

    def __init__(self, name, words, folder, env=None):
        self.name, self.words, self.env, self.deaths, self.child = name, words, env, 0, None
        self.log = os.path.join(folder, f"{name}.log")

    def start(self):
        with open(self.log, "ab") as log:
            out = {"stdin": subprocess.DEVNULL, "stdout": log, "stderr": log, "start_new_session": True}
            self.child = subprocess.Popen(self.words, env={**os.environ, **(self.env or {})}, **out)

    def is_up(self):
        return self.child is not None and self.child.poll() is None

    def kill(self):
        if self.is_up():
            self.child.kill()
            self.deaths += 1
        if self.child:
            self.child.wait()

    def text(self):
        with open(self.log, encoding="utf-8", errors="replace") as it:
            return it.read()


def free_ports(count, chance):
    """Ports that nobody listens at, below those that the system gives to clients."""
    found = []
    while len(found) < count:
        port = chance.randrange(15000, 30000)
        with socket.socket() as it:
            try:
                it.bind(("127.0.0.1", port))
                found += [port] if port not in found else []
            except OSError:
                pass
    return found


class Way(threading.Thread):
    """The way from an agent to its pfd. `loses` says what is lost next: the connection `before` a line that begins so, the `answer` to
    it, or the connection so that the line comes `late`, some time later, or `between`, right before the agent's next begin."""

    def __init__(self, address, port, chance):
        super().__init__(daemon=True)
        self.address, self.chance, self.loses, self.rate = address, chance, None, 0
        self.lost, self.late, self.held = collections.Counter(), [], None
        self.listener = socket.create_server(("127.0.0.1", port))

    def run(self):
        while True:
            client, _ = self.listener.accept()
            threading.Thread(target=self.carry, args=(client,), daemon=True).start()

    def carry(self, client):
        host, _, port = self.address.rpartition(":")
        try:
            with client, socket.create_connection((host, int(port))) as server:
                while self.carry_some(client, server):
                    pass
        except OSError:
            pass

    def carry_some(self, client, server):
        """Carries what there is; whether there may be more."""
        ready, _, _ = select.select([client, server], [], [])
        data = ready[0].recv(1 << 16)
        if ready[0] is server:
            client.sendall(data)
            return bool(data)
        if data.startswith(b"begin filter") and self.held:
            self.held.set()
            time.sleep(SHORTLY)
        how = self.choose(data)
        if how in ("late", "between"):
            client.close()
            self.wait(how)
        if how != "before" and data:
            server.sendall(data)
        if how in ("late", "between", "answer"):
            self.late.append((how, server.recv(1 << 16).decode().strip()))
        return bool(data) and not how

    def wait(self, how):
        """Holds a line back."""
        if how == "late":
            time.sleep(LATE)
        else:
            self.held = threading.Event()
            self.held.wait(LONG)
            self.held = None

    def choose(self, data):
        """What becomes of lines, which come alone where they change something."""
        word = data.split(b" ", 1)[0].decode()
        how = None
        if self.loses and self.loses[1] == word:
            (how, _), self.loses = self.loses, None
        elif word in ("commit", "tadd", "tdel", "tset") and self.chance.random() * 100 < self.rate:
            how = self.chance.choice(("before", "answer", "late", "between"))
        self.lost[how] += bool(how)
        return how


class Fleet:
    """All processes, and the commands that are run on them."""

    def __init__(self, options, folder):
        self.options, self.folder, self.chance = options, folder, random.Random(options.seed)
        ports = free_ports(2 * MEMBERS + 2 * HOSTS, self.chance)
        clients, peers = ports[:MEMBERS], ports[MEMBERS : 2 * MEMBERS]
        self.endpoints = [f"http://127.0.0.1:{port}" for port in clients]
        self.addresses = {f"fw{at + 1}": f"127.0.0.1:{port}" for at, port in enumerate(ports[2 * MEMBERS : -HOSTS])}
        self.ways = {host: Way(address, port, random.Random(port)) for (host, address), port in zip(self.addresses.items(), ports[-HOSTS:])}
        self.members = [self.member(at, clients[at], peers) for at in range(MEMBERS)]
        self.pfds = [Process(host, self.serve(host), folder) for host in self.addresses]
        self.agents = [Process(f"agent-{host}", self.agent(host), folder) for host in self.addresses]
        self.etcd, self.commands = Etcd(self.endpoints, "/wirdalf/"), []

    def member(self, at, port, peers):
        cluster = ",".join(f"m{it}=http://127.0.0.1:{peer}" for it, peer in enumerate(peers))
        words = {"name": f"m{at}", "data-dir": os.path.join(self.folder, f"m{at}"), "initial-cluster": cluster, "log-level": "error"}
        words |= dict.fromkeys(("listen-client-urls", "advertise-client-urls"), self.endpoints[at])
        words |= dict.fromkeys(("listen-peer-urls", "initial-advertise-peer-urls"), f"http://127.0.0.1:{peers[at]}")
        return Process(f"member{at}", ["etcd", *(f"--{name}={value}" for name, value in words.items())], self.folder)

    def serve(self, host):
        words = ["--listen", self.addresses[host], "--disk", self.file(host), "--size", str(SIZE), "--workers", str(WORKERS)]
        return [self.options.pfd, "serve", *words]

    def file(self, host):
        return os.path.join(self.folder, f"{host}.disk")

    def agent(self, host, port=0):
        address = f"127.0.0.1:{port}" if port else self.addresses[host]
        return self.words("agent", "--host", host, "--group", GROUP, "--pfd", address)

    def go_ways(self):
        """From now on each agent goes by its way."""
        for (host, way), agent in zip(self.ways.items(), self.agents):
            way.start()
            agent.kill()
            agent.words, agent.deaths = self.agent(host, way.listener.getsockname()[1]), 0
            agent.start()

    def words(self, *words):
        return [self.options.fleet, "--endpoints", ",".join(self.endpoints), *words]

    def run(self, *words, given=None):
        """A command's status and what it says."""
        pipes = dict.fromkeys(("stdin", "stdout", "stderr"), subprocess.PIPE)
        with subprocess.Popen(self.words(*words), text=True, **pipes) as command:
            self.commands.append(command)
            said, told = command.communicate(given)
            self.commands.remove(command)
        return command.returncode, said.strip(), told.strip()

    def all(self):
        return [*self.members, *self.pfds, *self.agents]

    def start(self):
        for host in self.addresses:
            subprocess.run([self.options.pfd, "format", "--disk", self.file(host), "--size", str(SIZE)], check=True)
        for process in self.all():
            process.start()

    def end(self):
        for process in reversed(self.all()):
            process.kill()
        for command in list(self.commands):
            command.kill()

    def session(self, host):
        return Session(self.addresses[host])

    def wait_until(self, is_so, seconds=PATIENCE):
        """Whether something is so within this time."""
        ends = time.monotonic() + seconds
        while time.monotonic() < ends:
            try:
                if is_so():
                    return True
            except (Unreachable, Refused, Gone, Fault):
                pass
            time.sleep(0.1)
        return False
