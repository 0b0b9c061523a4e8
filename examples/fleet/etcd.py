"""A client of etcd, by its JSON gateway (`/v3/kv/txn` and the like, etcd 3.4 and later) and Python's standard library.

The gateway and not etcdctl: a watch is one connection that stays open, a transaction is one request whose answer says which half of it
was done, and an agent starts no process for each of them.

Reads are linearizable, which is what the gateway does where nothing else is said: what was answered before is seen. A request goes to one
member after the other until one answers. If none does in time, it may have been done all the same: whoever changes something says by a
comparison what it is to change, so that a change is never made twice.
"""
import base64
import http.client
import json
import socket
import ssl
import typing
import urllib.parse

# The most seconds that a member may take for an answer, and that a watch is silent before it is begun anew by the next member.
ANSWERS, SILENT = 4, 20
# What etcd says where another member, or the same one later, may answer (gRPC's codes): it has no leader, or was too slow.
PASSING, OUT_OF_RANGE = (4, 14), 11


class Unreachable(Exception):
    """No member answers, or none that has a majority behind it."""


class Refused(Exception):
    """etcd answers that it doesn't do this."""


class Compacted(Exception):
    """etcd has thrown away the revision that is asked for."""


class Key(typing.NamedTuple):
    """A key without the prefix, its value, the revision that wrote it last, how often it was written, and its lease or 0."""

    name: str
    value: str
    revision: int
    version: int
    lease: int


def encoded(text):
    return base64.b64encode(text.encode()).decode()


def decoded(text):
    return base64.b64decode(text or "").decode("utf-8", "replace")


class Etcd:
    """The members at these endpoints, and the keys below a prefix: all names are without it."""

    def __init__(self, endpoints, prefix, context=None):
        self.endpoints, self.prefix, self.context, self.at = list(endpoints), prefix, context, 0
        self.watching = None

    def connect(self, seconds):
        """A connection to the present member, not made yet."""
        where = urllib.parse.urlsplit(self.endpoints[self.at])
        if where.scheme == "https":
            context = self.context or ssl.create_default_context()
            return http.client.HTTPSConnection(where.hostname, where.port, timeout=seconds, context=context)
        return http.client.HTTPConnection(where.hostname, where.port, timeout=seconds)

    def turn(self):
        """Goes on with the next member."""
        self.at = (self.at + 1) % len(self.endpoints)

    def call(self, path, body):
        """The answer of the first member that has one."""
        told = ""
        for _ in self.endpoints:
            connection = self.connect(ANSWERS)
            try:
                connection.request("POST", f"/v3/{path}", json.dumps(body))
                answer = json.loads(connection.getresponse().read())
                if "error" not in answer:
                    return answer.get("result", answer)
                heed(answer)
                told = answer["error"]
            except (OSError, http.client.HTTPException, ValueError) as fault:
                told = str(fault) or type(fault).__name__
            finally:
                connection.close()
            self.turn()
        raise Unreachable(f"no member of etcd answers at {' '.join(self.endpoints)}: {told}")

    # ---- requests within a transaction

    def range(self, name, end=None):
        """A read of one key, or of all from this name up to the other."""
        bounds = {"key": encoded(self.prefix + name)}
        return {"request_range": bounds if end is None else {**bounds, "range_end": encoded(self.prefix + end)}}

    def below(self, name):
        """A read of all keys that begin so."""
        return self.range(name, end_of(name))

    def put(self, name, value, lease=0):
        return {"request_put": {"key": encoded(self.prefix + name), "value": encoded(value), "lease": str(lease)}}

    def delete(self, name):
        return {"request_delete_range": {"key": encoded(self.prefix + name)}}

    def is_at(self, name, revision):
        """A comparison: this revision wrote the key last; 0 if it isn't there."""
        return {"key": encoded(self.prefix + name), "target": "MOD", "result": "EQUAL", "mod_revision": str(revision)}

    # ---- what is asked

    def txn(self, done, compared=(), otherwise=()):
        """Does the first requests if all comparisons hold, else the others. The revision, whether they held, and what each read gives."""
        answer = self.call("kv/txn", {"compare": list(compared), "success": list(done), "failure": list(otherwise)})
        read = [self.keys(it["response_range"]) if "response_range" in it else None for it in answer.get("responses", [])]
        return int(answer["header"]["revision"]), answer.get("succeeded", False), read

    def read(self, *requests):
        """The keys of each request, all of one revision, and that revision."""
        revision, _, read = self.txn(requests)
        return revision, read

    def get(self, name):
        """The key, or None."""
        _, (found,) = self.read(self.range(name))
        return found[0] if found else None

    def cluster(self):
        """The cluster's number."""
        return self.call("kv/range", {"key": encoded(self.prefix), "count_only": True})["header"]["cluster_id"]

    def grant(self, seconds):
        """A new lease."""
        return int(self.call("lease/grant", {"TTL": str(seconds)})["ID"])

    def keep(self, lease):
        """Keeps a lease; whether it is still there."""
        return int(self.call("lease/keepalive", {"ID": str(lease)}).get("TTL", 0)) > 0

    def revoke(self, lease):
        self.call("lease/revoke", {"ID": str(lease)})

    def keys(self, answer):
        return [self.key(it) for it in answer.get("kvs", [])]

    def key(self, raw):
        name = decoded(raw["key"]).removeprefix(self.prefix)
        numbers = (int(raw.get(it, 0)) for it in ("mod_revision", "version", "lease"))
        return Key(name, decoded(raw.get("value")), *numbers)

    def watch(self, start, end, revision):
        """What becomes of the keys from one name up to another, from this revision on: for each answer its revision and the keys, whose
        version is 0 where they were deleted. An answer has whole revisions. It ends where the member does, or is silent for long."""
        asked = {"key": encoded(self.prefix + start), "range_end": encoded(self.prefix + end), "start_revision": str(revision)}
        self.watching = self.connect(SILENT)
        try:
            # (a member without a majority ends it at once)
            headers = {"Grpc-Metadata-hasleader": "true"}
            self.watching.request("POST", "/v3/watch", json.dumps({"create_request": asked}), headers)
            answer = self.watching.getresponse()
            while line := answer.readline():
                told = json.loads(line)
                if "error" in told:
                    break
                result = told["result"]
                if int(result.get("compact_revision", 0)):
                    raise Compacted(f"revision {revision}")
                if result.get("canceled"):
                    break
                if result.get("events"):
                    yield int(result["header"]["revision"]), [self.key(it["kv"]) for it in result["events"]]
        except (OSError, http.client.HTTPException, ValueError, AttributeError):
            pass
        finally:
            self.watching.close()
            self.turn()

    def end_watch(self):
        """Ends a watch from another thread."""
        try:
            self.watching.sock.shutdown(socket.SHUT_RDWR)
        except (OSError, AttributeError):
            pass


def end_of(name):
    """The first name behind all that begin so."""
    return name[:-1] + chr(ord(name[-1]) + 1)


def heed(answer):
    """Raises what etcd's refusal means, unless another member may answer."""
    if answer.get("code") == OUT_OF_RANGE and "compacted" in answer["error"]:
        raise Compacted(answer["error"])
    if answer.get("code") not in PASSING:
        raise Refused(answer["error"] if isinstance(answer["error"], str) else json.dumps(answer["error"]))
