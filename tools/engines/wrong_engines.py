"""Engines that break the rule of a commit as one easily would, and the rows of `rules` that must find each out."""
from __future__ import annotations

import time
from collections.abc import Iterable, Sequence
from typing import TYPE_CHECKING, Any

import psycopg
from record_store.engine import Engine, page_of, read_of
from record_store.engines.etcd import Etcd, EtcdSnapshot
from record_store.engines.memory import Memory, MemorySnapshot
from record_store.engines.sqlite import Sqlite, SqliteSnapshot
from record_store.errors import Conflict, TooLarge
from record_store.form import ADD, CLEAR, COMPARE_AND_CLEAR, Mutation, Read, Want, added

if TYPE_CHECKING:
    from test import Tests

DELETIONS = {"a key in a range is cleared", "all keys in a range are cleared"}
OVERWRITTEN = {"a key that was there is written", "a key in a range is written"}
READ = "select key, value from plain where key >= %s and key < %s order by key {} limit %s"
PUT = "insert into plain values (%s, %s) on conflict (key) do update set value = excluded.value"


class Forgetful(Memory):
    """What is cleared leaves no version."""

    def begin(self, wants: Sequence[Want]) -> tuple[Any, list[Read]]:
        snapshot = ForgetfulSnapshot(self, self.version)
        return snapshot, snapshot.read(wants)


class ForgetfulSnapshot(MemorySnapshot):
    def commit(self, reads: Sequence[tuple[bytes, bytes]], mutations: Sequence[Mutation],
               known: dict[bytes, bytes]) -> int:
        kept = {key: values for key, values in self.engine.values.items() if values[-1][1] is None}
        for key in kept:
            self.engine.keys.remove(key)
        try:
            return super().commit(reads, mutations, known)
        finally:
            self.engine.keys = sorted({*self.engine.keys, *kept})


class RangesAlone(Etcd):
    """Compares the revisions of the keys in a range, and not that each is there still."""

    def begin(self, wants: Sequence[Want]) -> tuple[Any, list[Read]]:
        snapshot, reads = super().begin(wants)
        return RangesAloneSnapshot(self, snapshot.version), reads


class RangesAloneSnapshot(EtcdSnapshot):
    def compares(self, reads: Iterable[tuple[bytes, bytes]], known: dict[bytes, bytes]) -> list[dict[str, str]]:
        return [it for it in super().compares(reads, known) if it.get("result") != "GREATER"]


class LockedLate(Sqlite):
    """Takes the write lock once it has tested what was read."""

    def begin(self, wants: Sequence[Want]) -> tuple[Any, list[Read]]:
        snapshot, reads = super().begin(wants)
        snapshot.__class__ = LockedLateSnapshot
        return snapshot, reads


class LockedLateSnapshot(SqliteSnapshot):
    def commit(self, reads: Sequence[tuple[bytes, bytes]], mutations: Sequence[Mutation],
               known: dict[bytes, bytes]) -> int:
        self.connection.execute("rollback")
        self.connection.execute("begin")
        self.check(reads)
        time.sleep(0.002)
        return super().commit([], mutations, known)


class Serializable:
    """Has PostgreSQL's SERIALIZABLE decide, which may order a commit before one that was made earlier."""

    def __init__(self, conninfo: str) -> None:
        self.conninfo = conninfo
        with psycopg.connect(conninfo, autocommit=True) as connection:
            connection.execute("create table plain(key bytea primary key, value bytea not null)")

    def begin(self, wants: Sequence[Want]) -> tuple[Any, list[Read]]:
        snapshot = SerializableSnapshot(psycopg.connect(self.conninfo, autocommit=True))
        return snapshot, snapshot.read(wants)

    def close(self) -> None:
        pass


class SerializableSnapshot:
    version = 0

    def __init__(self, connection: psycopg.Connection[Any]) -> None:
        self.connection = connection
        connection.execute("begin isolation level serializable")
        connection.execute("select 1 from plain limit 0")

    def read(self, wants: Sequence[Want]) -> list[Read]:
        return [read_of(it, page_of(it), self.connection.execute(
            READ.format("desc" if it.reverse else "asc"), (it.begin, it.end, page_of(it)), binary=True).fetchall())
            for it in wants]

    def commit(self, reads: Sequence[tuple[bytes, bytes]], mutations: Sequence[Mutation],
               known: dict[bytes, bytes]) -> int:
        try:
            for kind, first, second in mutations:
                self.apply(kind, first, second)
            self.connection.execute("commit")
        except psycopg.errors.SerializationFailure as why:
            raise Conflict(str(why)) from why
        except psycopg.errors.ProgramLimitExceeded as why:
            raise TooLarge(str(why)) from why
        return 0

    def apply(self, kind: int, first: bytes, second: bytes) -> None:
        if kind == CLEAR:
            self.connection.execute("delete from plain where key >= %s and key < %s", (first, second))
            return
        if kind == COMPARE_AND_CLEAR:
            self.connection.execute("delete from plain where key = %s and value = %s", (first, second))
            return
        if kind == ADD:
            row = self.connection.execute("select value from plain where key = %s", (first,), binary=True).fetchone()
            second = added(row[0] if row else None, second)
        self.connection.execute(PUT, (first, second))

    def close(self) -> None:
        self.connection.close()


def all_of(tests: Tests) -> list[tuple[str, Engine, set[str]]]:
    """Each of these engines with its name, and rows that find it out."""
    opened: dict[str, Any] = dict(tests.engines("wrong"))
    etcd = opened["etcd"]()
    return [
        ("deletions that leave no version", Forgetful(), DELETIONS),
        ("SQLite's lock taken after the test", LockedLate(f"{tests.folder}/wrong.db"), {"commits at once"}),
        ("etcd's compares of ranges alone", RangesAlone(etcd.members, etcd.prefix), DELETIONS),
        ("PostgreSQL's SERIALIZABLE", Serializable(opened["postgres"]().conninfo), OVERWRITTEN),
    ]


def leaving_out() -> Engine:
    """The engine for FoundationDB, but that a range which was read isn't among its read conflict ranges."""
    from record_store.engines.foundationdb import FoundationDb, FoundationDbSnapshot

    class LeftOutSnapshot(FoundationDbSnapshot):
        def commit(self, reads: Sequence[tuple[bytes, bytes]], mutations: Sequence[Mutation],
                   known: dict[bytes, bytes]) -> int:
            return super().commit(reads[1:], mutations, known)

    class LeftOut(FoundationDb):
        def begin(self, wants: Sequence[Want]) -> tuple[Any, list[Read]]:
            snapshot, reads = super().begin(wants)
            snapshot.__class__ = LeftOutSnapshot
            return snapshot, reads

    return LeftOut(prefix=b"wrong/")
