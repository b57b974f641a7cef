"""A database in the memory of one process, for tests and caches: it ends with the process.

**Rule of a commit.** Under a lock: no key of a range that was read has been written, or cleared, at a version after the
one that was read. A key that was cleared keeps its place with the version, so that a deletion shows as a write does,
until no version is kept any more at which it was there.
"""
from __future__ import annotations

import threading
from bisect import bisect_left, bisect_right, insort
from collections import deque
from collections.abc import Sequence

from ..engine import page_of, read_of
from ..errors import Conflict, TooOld
from ..form import ADD, CLEAR, COMPARE_AND_CLEAR, Mutation, Read, Want, added

WINDOW = 10_000


class Memory:
    """A database in memory. Snapshots of the last `window` versions can be read."""

    def __init__(self, window: int = WINDOW) -> None:
        self.lock, self.version, self.window = threading.Lock(), 0, window
        self.keys: list[bytes] = []
        # for each key its values, None where it was cleared, each with the version that wrote it
        self.values: dict[bytes, list[tuple[int, bytes | None]]] = {}
        # keys that were cleared, each with the version that did it, the oldest first
        self.cleared: deque[tuple[int, bytes]] = deque()

    def begin(self, wants: Sequence[Want]) -> tuple[MemorySnapshot, list[Read]]:
        with self.lock:
            snapshot = MemorySnapshot(self, self.version)
        return snapshot, snapshot.read(wants)

    def close(self) -> None:
        pass

    def keys_in(self, begin: bytes, end: bytes) -> list[bytes]:
        """The keys of a range that have or had a value."""
        return self.keys[bisect_left(self.keys, begin):bisect_left(self.keys, end)]

    def value(self, key: bytes, version: int) -> bytes | None:
        """The value at a key at a version."""
        values = self.values.get(key, [])
        at = bisect_right(values, version, key=lambda it: it[0])
        return values[at - 1][1] if at else None

    def check(self, version: int) -> None:
        """Raises TooOld where a version isn't kept any more."""
        if version < self.version - self.window:
            raise TooOld("the version isn't kept any more")

    def put(self, key: bytes, value: bytes | None) -> None:
        """Writes a value at the newest version."""
        if key not in self.values:
            insort(self.keys, key)
        values = self.values.setdefault(key, [])
        if values and values[-1][0] == self.version:
            values.pop()
        values.append((self.version, value))
        while len(values) > 1 and values[1][0] <= self.version - self.window:
            values.pop(0)
        if value is None:
            self.cleared.append((self.version, key))

    def sweep(self) -> None:
        """Removes the keys that were cleared before all versions that are kept, unless they were put again."""
        while self.cleared and self.cleared[0][0] <= self.version - self.window:
            version, key = self.cleared.popleft()
            if self.values.get(key, [])[-1:] == [(version, None)]:
                del self.values[key], self.keys[bisect_left(self.keys, key)]

    def apply(self, mutation: Mutation) -> None:
        """Applies a write at the newest version."""
        if mutation.kind == CLEAR:
            for key in self.keys_in(mutation.first, mutation.second):
                if self.value(key, self.version) is not None:
                    self.put(key, None)
        elif mutation.kind == ADD:
            self.put(mutation.first, added(self.value(mutation.first, self.version), mutation.second))
        elif mutation.kind == COMPARE_AND_CLEAR:
            if self.value(mutation.first, self.version) == mutation.second:
                self.put(mutation.first, None)
        else:
            self.put(mutation.first, mutation.second)


    def undo(self) -> None:
        """Takes back what was written at the newest version, as where a commit is interrupted."""
        for values in self.values.values():
            if values and values[-1][0] == self.version:
                values.pop()
        self.values = {key: values for key, values in self.values.items() if values}
        self.keys = sorted(self.values)
        self.cleared = deque(it for it in self.cleared if it[0] < self.version)
        self.version -= 1


class MemorySnapshot:
    """A version of a database in memory."""

    def __init__(self, engine: Memory, version: int) -> None:
        self.engine, self.version = engine, version

    def read(self, wants: Sequence[Want]) -> list[Read]:
        with self.engine.lock:
            self.engine.check(self.version)
            return [self.read_one(want) for want in wants]

    def read_one(self, want: Want) -> Read:
        """A beginning of a range."""
        limit = page_of(want)
        pairs: list[tuple[bytes, bytes]] = []
        keys = self.engine.keys_in(want.begin, want.end)
        for key in reversed(keys) if want.reverse else keys:
            if len(pairs) == limit:
                break
            if (value := self.engine.value(key, self.version)) is not None:
                pairs.append((key, value))
        return read_of(want, limit, pairs)

    def commit(self, reads: Sequence[tuple[bytes, bytes]], mutations: Sequence[Mutation],
               known: dict[bytes, bytes]) -> int:
        engine = self.engine
        with engine.lock:
            engine.check(self.version)
            for begin, end in reads:
                if any(engine.values[key][-1][0] > self.version for key in engine.keys_in(begin, end)):
                    raise Conflict("another transaction wrote what was read")
            engine.version += 1
            try:
                for mutation in mutations:
                    engine.apply(mutation)
            except BaseException:
                engine.undo()
                raise
            engine.sweep()
            return engine.version

    def close(self) -> None:
        pass
