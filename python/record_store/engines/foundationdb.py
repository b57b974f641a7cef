"""A FoundationDB cluster, by its Python binding `fdb`. **Written by its documented interface, and never run.**

**Rule of a commit.** FoundationDB's own: a transaction is refused where a range among its read conflict ranges was
written after its read version. Reads are made as snapshot reads, which add no conflict range, and what the record layer
has read is added by hand at the commit: a range that is left out is one that others may write. ADD is FoundationDB's
own atomic operation, so that transactions that add to one total don't conflict. Several commits may share a version:
they are ordered by the version, and within it by their order in the batch. A commit that ends in an error which isn't
known here to say that nothing was committed, as `commit_unknown_result`, is Unknown, and isn't made again.
"""
from __future__ import annotations

from collections.abc import Sequence
from typing import Any

import fdb

from ..engine import page_of, read_of
from ..errors import Conflict, RecordError, TooLarge, TooOld, Unavailable, Unknown
from ..form import ADD, CLEAR, COMPARE_AND_CLEAR, Mutation, Read, Want

API = 710
# codes of FoundationDB's errors, of which each says that nothing was committed
NOT_COMMITTED: dict[int, type[RecordError]] = {
    1007: TooOld, 1009: TooOld, 1020: Conflict, 2101: TooLarge, 2102: TooLarge, 2103: TooLarge,
    # a process that lags, a locked database, proxies without memory, and transactions that are throttled
    1037: Unavailable, 1038: Unavailable, 1042: Unavailable, 1051: Unavailable, 1078: Unavailable, 1213: Unavailable,
}


class FoundationDb:
    """A database below a prefix of a FoundationDB cluster's keys."""

    def __init__(self, cluster_file: str | None = None, prefix: bytes = b"records/") -> None:
        fdb.api_version(API)
        self.database, self.prefix = fdb.open(cluster_file), prefix

    def begin(self, wants: Sequence[Want]) -> tuple[FoundationDbSnapshot, list[Read]]:
        """A snapshot of the newest version, and what it has at once of these ranges."""
        snapshot = FoundationDbSnapshot(self, self.database.create_transaction())
        return snapshot, snapshot.read(wants)

    def close(self) -> None:
        """The binding keeps its own connections as long as the process lives."""


class FoundationDbSnapshot:
    """A version of a FoundationDB cluster: a transaction of its own."""

    def __init__(self, engine: FoundationDb, transaction: Any) -> None:
        self.prefix, self.transaction = engine.prefix, transaction
        try:
            self.version = transaction.get_read_version().wait()
        except fdb.FDBError as why:
            raise error_of(why, Unavailable) from why

    def read(self, wants: Sequence[Want]) -> list[Read]:
        """Reads of each range a beginning, in the direction that it asks for."""
        asked = [self.transaction.snapshot.get_range(self.prefix + want.begin, self.prefix + want.end,
                                                     limit=page_of(want), reverse=want.reverse) for want in wants]
        try:
            return [self.read_of(want, items) for want, items in zip(wants, asked)]
        except fdb.FDBError as why:
            raise error_of(why, Unavailable) from why

    def read_of(self, want: Want, items: Any) -> Read:
        """What came of a read."""
        pairs = [(bytes(it.key)[len(self.prefix):], bytes(it.value)) for it in items]
        return read_of(want, page_of(want), pairs)

    def commit(self, reads: Sequence[tuple[bytes, bytes]], mutations: Sequence[Mutation],
               known: dict[bytes, bytes]) -> int:
        """Commits these writes, by the rule, and answers the version."""
        transaction = self.transaction
        for begin, end in reads:
            transaction.add_read_conflict_range(self.prefix + begin, self.prefix + end)
        for kind, first, second in mutations:
            if kind == CLEAR:
                transaction.clear_range(self.prefix + first, self.prefix + second)
            elif kind == ADD:
                transaction.add(self.prefix + first, second)
            elif kind == COMPARE_AND_CLEAR:
                transaction.compare_and_clear(self.prefix + first, second)
            else:
                transaction.set(self.prefix + first, second)
        try:
            transaction.commit().wait()
        except fdb.FDBError as why:
            raise error_of(why, Unknown) from why
        return int(transaction.get_committed_version())

    def close(self) -> None:
        """Lets go of the transaction."""
        self.transaction.cancel()


def error_of(why: Any, otherwise: type[RecordError]) -> RecordError:
    """What an error of FoundationDB means, and what it does where its code isn't one that is known here."""
    said = f"FoundationDB's error {why.code}: {why.description}"
    return NOT_COMMITTED.get(why.code, otherwise)(said)
