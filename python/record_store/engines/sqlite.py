"""A SQLite file: durable, needs no server, and may be used by several processes of one machine.

**Rule of a commit.** One commit at a time (BEGIN IMMEDIATE takes the file's only write lock), which is refused where a
key of a range that was read has a version above the one that was read. That is tested under the lock: two that tested
first, and took it afterwards, would both pass. A key that is cleared stays as a row without a value, with the version
that cleared it, so that a deletion shows as a write does. Such rows are swept once they are old enough, and a commit
that read a version before the sweep is refused.

The file is in WAL mode with `synchronous=FULL`: a commit that was answered outlives the process, and the machine as far
as its disk keeps what it was told to sync. A commit is Unknown where COMMIT itself fails. A process that forks opens
the file anew in the child.
"""
from __future__ import annotations

import os
import sqlite3
import threading
import time
from collections.abc import Iterator, Sequence
from contextlib import contextmanager, suppress

from ..engine import page_of, read_of
from ..errors import Conflict, TooOld, Unavailable, Unknown
from ..form import ADD, CLEAR, COMPARE_AND_CLEAR, Mutation, Read, Want, added

TABLES = """
create table if not exists pairs(key blob primary key, value blob, version integer not null) without rowid;
create table if not exists clock(one integer primary key check (one = 1), version integer not null,
    swept integer not null);
insert or ignore into clock values (1, 0, 0);
"""
READ = "select key, value from pairs where key >= ? and key < ? and value is not null order by key limit ?"
READ_BACK = "select key, value from pairs where key >= ? and key < ? and value is not null order by key desc limit ?"
NEWER = "select 1 from pairs where key >= ? and key < ? and version > ? limit 1"
PUT = """insert into pairs values (?, ?, ?)
    on conflict (key) do update set value = excluded.value, version = excluded.version"""
CLEARED = "update pairs set value = null, version = ? where key >= ? and key < ? and value is not null"
CLEARED_IF = "update pairs set value = null, version = ? where key = ? and value = ?"
SWEEP_EACH, KEPT = 1000, 10_000


@contextmanager
def answering() -> Iterator[None]:
    """Tells an error of SQLite, before which nothing is committed, as the package's."""
    try:
        yield
    except sqlite3.Error as why:
        raise Unavailable(f"SQLite: {why}") from why


class Sqlite:
    """A database in a SQLite file. A snapshot may be read as long as it is open.

    `timeout` is for how many seconds a commit waits for those of others, before it is Unavailable. Each `sweep_each`
    versions the rows are swept of keys that were cleared more than `kept` versions ago.
    """

    def __init__(self, path: str | os.PathLike[str], timeout: float = 60, sweep_each: int = SWEEP_EACH,
                 kept: int = KEPT) -> None:
        # whole, since later connections may be made from another folder; SQLite's own names are no paths
        self.path = os.fspath(path) if path in ("", ":memory:") else os.path.abspath(path)
        self.timeout, self.sweep_each, self.kept = timeout, sweep_each, kept
        self.lock, self.is_open = threading.Lock(), True
        self.free: list[sqlite3.Connection] = []
        with answering():
            self.free.append(self.prepared(self.connected()))

    def connected(self) -> sqlite3.Connection:
        """A connection of its own for one transaction at a time."""
        connection = sqlite3.connect(self.path, self.timeout, isolation_level=None, check_same_thread=False)
        connection.execute("pragma synchronous=full")
        return connection

    def prepared(self, connection: sqlite3.Connection) -> sqlite3.Connection:
        """Puts the file into WAL mode and makes its tables, where others may be about to do the same."""
        until = time.monotonic() + self.timeout
        while True:
            try:
                mode = connection.execute("pragma journal_mode=wal").fetchone()[0]
                if mode != "wal":
                    raise Unavailable(f"{self.path} is in the journal mode {mode}, and can't be in WAL mode")
                connection.executescript(TABLES)
                return connection
            except sqlite3.OperationalError as why:
                if "locked" not in str(why) or time.monotonic() > until:
                    raise
            time.sleep(0.01)

    def begin(self, wants: Sequence[Want]) -> tuple[SqliteSnapshot, list[Read]]:
        """A snapshot of the newest version, and what it has at once of these ranges."""
        with self.lock:
            connection = self.free.pop() if self.free else None
        with answering():
            snapshot = SqliteSnapshot(self, connection or self.connected())
        try:
            return snapshot, snapshot.read(wants)
        except Unavailable:
            snapshot.close()
            raise

    def give_back(self, connection: sqlite3.Connection) -> None:
        """Takes back a connection that no transaction uses any more."""
        with self.lock:
            if self.is_open:
                self.free.append(connection)
                return
        connection.close()

    def close(self) -> None:
        """Closes the connections that no transaction uses, and each other one when its transaction ends."""
        with self.lock:
            self.is_open = False
            while self.free:
                self.free.pop().close()


class SqliteSnapshot:
    """A version of a SQLite file: a read transaction of SQLite's own."""

    def __init__(self, engine: Sqlite, connection: sqlite3.Connection) -> None:
        self.engine, self.connection, self.is_open = engine, connection, True
        connection.execute("begin")
        self.version = self.newest()

    def newest(self) -> int:
        """The version of the last commit that the connection's transaction sees."""
        return int(self.connection.execute("select version from clock").fetchone()[0])

    def read(self, wants: Sequence[Want]) -> list[Read]:
        """Reads of each range a beginning, in the direction that it asks for."""
        with answering():
            return [self.read_one(want) for want in wants]

    def read_one(self, want: Want) -> Read:
        """A beginning of a range."""
        limit = page_of(want)
        asked = self.connection.execute(READ_BACK if want.reverse else READ, (want.begin, want.end, limit))
        return read_of(want, limit, asked.fetchall())

    def commit(self, reads: Sequence[tuple[bytes, bytes]], mutations: Sequence[Mutation],
               known: dict[bytes, bytes]) -> int:
        """Commits these writes, by the rule, and answers the version."""
        with answering():
            self.connection.execute("rollback")  # ends the reads: the write lock is taken over the newest version
            self.connection.execute("begin immediate")
            self.check(reads)
            version = self.newest() + 1
            self.connection.execute("update clock set version = ?", (version,))
            for mutation in mutations:
                self.apply(mutation, version)
            if version % self.engine.sweep_each == 0:
                self.sweep(version - self.engine.kept)
        try:
            self.connection.execute("commit")
        except sqlite3.Error as why:
            raise Unknown(f"SQLite: {why}") from why
        return version

    def check(self, reads: Sequence[tuple[bytes, bytes]]) -> None:
        """Refuses the commit where something that was read has changed, or may have."""
        if self.connection.execute("select 1 from clock where swept > ?", (self.version,)).fetchone():
            raise TooOld("the version was read too long ago")
        for begin, end in reads:
            if self.connection.execute(NEWER, (begin, end, self.version)).fetchone():
                raise Conflict("another transaction wrote what was read")

    def apply(self, mutation: Mutation, version: int) -> None:
        """Applies a write."""
        kind, first, second = mutation
        if kind == CLEAR:
            self.connection.execute(CLEARED, (version, first, second))
            return
        if kind == COMPARE_AND_CLEAR:
            self.connection.execute(CLEARED_IF, (version, first, second))
            return
        if kind == ADD:
            row = self.connection.execute("select value from pairs where key = ?", (first,)).fetchone()
            second = added(row[0] if row else None, second)
        self.connection.execute(PUT, (first, second, version))

    def sweep(self, version: int) -> None:
        """Removes what was cleared up to a version, before which nobody may have read who commits later."""
        self.connection.execute("delete from pairs where value is null and version <= ?", (version,))
        self.connection.execute("update clock set swept = max(swept, ?)", (version,))

    def close(self) -> None:
        """Ends SQLite's transaction, and gives the connection back, unless that fails."""
        if not self.is_open:
            return
        self.is_open = False
        with suppress(sqlite3.Error):
            if self.connection.in_transaction:
                self.connection.execute("rollback")
            self.engine.give_back(self.connection)
