"""SQLite, beside which changes that are kept together are measured: so many rows in one transaction, which is synced once.

    base = database(folder)             an empty table of changes, with a write-ahead log and synchronous=FULL
    seconds_of(base, times, rows, size) what so many transactions take, each of so many rows of so many bytes
"""
import os
import sqlite3
import sys
import time


def database(folder):
    """The log has more pages already than it ever needs between two checkpoints, and is begun again."""
    base = sqlite3.connect(os.path.join(folder, "changes.sqlite"), isolation_level=None)
    if base.execute("PRAGMA journal_mode = WAL").fetchone() != ("wal",):
        sys.exit("SQLite has no write-ahead log here")
    base.execute("PRAGMA synchronous = FULL")
    base.execute("CREATE TABLE changes (number INTEGER PRIMARY KEY, change BLOB)")
    base.execute("INSERT INTO changes (change) VALUES (?)", (bytes(8 << 20),))
    base.execute("DELETE FROM changes")
    base.execute("PRAGMA wal_checkpoint(RESTART)")
    return base


def seconds_of(base, times, rows, size):
    some = [(bytes(size),)] * rows
    start = time.monotonic()
    for _ in range(times):
        base.execute("BEGIN")
        base.executemany("INSERT INTO changes (change) VALUES (?)", some)
        base.execute("COMMIT")
    return time.monotonic() - start
