"""Stands in for FoundationDB's binding, over memory: what of its documented interface the engine for it calls.

It shows that the engine's calls go together, and nothing of FoundationDB.
"""
from collections.abc import Callable, Iterator
from types import SimpleNamespace
from typing import Any, NamedTuple

from record_store.engines.memory import Memory
from record_store.errors import Conflict
from record_store.form import ADD, CLEAR, COMPARE_AND_CLEAR, SET, Mutation, Want

MANY = 1 << 20
NOT_COMMITTED = 1020


class KeyValue(NamedTuple):
    """A pair."""

    key: bytes
    value: bytes


class FDBError(Exception):
    """An error by its code."""

    def __init__(self, code: int) -> None:
        super().__init__(code)
        self.code, self.description = code, "not_committed"


class Future:
    """What comes of a call, once it is waited for."""

    def __init__(self, call: Callable[[], Any]) -> None:
        self.wait = call


class Transaction:
    """A transaction, whose reads are snapshot reads alone."""

    def __init__(self, memory: Memory) -> None:
        self.under, _ = memory.begin([])
        self.conflicts: list[tuple[bytes, bytes]] = []
        self.mutations: list[Mutation] = []
        self.version = -1
        self.snapshot = SimpleNamespace(get_range=self.get_range)

    def get_read_version(self) -> Future:
        return Future(lambda: self.under.version)

    def get_range(self, begin: bytes, end: bytes, limit: int = 0, reverse: bool = False) -> Iterator[KeyValue]:
        pairs = self.under.read([Want(begin, end, limit or MANY, reverse)])[0].pairs
        return iter([KeyValue(*it) for it in pairs][:limit or None])

    def add_read_conflict_range(self, begin: bytes, end: bytes) -> None:
        self.conflicts.append((begin, end))

    def set(self, key: bytes, value: bytes) -> None:
        self.mutations.append(Mutation(SET, key, value))

    def clear_range(self, begin: bytes, end: bytes) -> None:
        self.mutations.append(Mutation(CLEAR, begin, end))

    def add(self, key: bytes, param: bytes) -> None:
        self.mutations.append(Mutation(ADD, key, param))

    def compare_and_clear(self, key: bytes, param: bytes) -> None:
        self.mutations.append(Mutation(COMPARE_AND_CLEAR, key, param))

    def commit(self) -> Future:
        return Future(self.committed)

    def committed(self) -> None:
        try:
            self.version = self.under.commit(self.conflicts, self.mutations, {})
        except Conflict as why:
            raise FDBError(NOT_COMMITTED) from why

    def get_committed_version(self) -> int:
        return self.version

    def cancel(self) -> None:
        self.under.close()


def module() -> Any:
    """A module that stands in for `fdb`, over a database of its own."""
    memory = Memory()
    database = SimpleNamespace(create_transaction=lambda: Transaction(memory))
    return SimpleNamespace(api_version=lambda version: None, open=lambda cluster_file: database, FDBError=FDBError)
