"""What the record layer asks of an engine: reads at one version, and commits of which it decides which may be.

**The rule of a commit.** An engine may commit a request at a version only if what the request read has the same pairs
just before that version as at the version that it read. All that the record layer promises rests on it; an engine that
is only "serializable" may not keep it. Each engine here says how it does.

Errors: reads raise TooOld where the version isn't kept any more, and Unavailable where the database doesn't answer. A
commit raises these and Conflict, TooLarge where nothing was written; where it can't be told, and only there, Unknown.
"""
from __future__ import annotations

from collections.abc import Sequence
from typing import Protocol

from .form import Mutation, Read, Want

# how many pairs are read at once where a read asks for many
PAGE = 256
MANY = 64


class Snapshot(Protocol):
    """A database at one version."""

    version: int

    def read(self, wants: Sequence[Want]) -> list[Read]:
        """Reads of each range a beginning, in the direction that it asks for: all of it, or a pair at least.

        What is answered for a range lies in it, begins where it does, or with `reverse` ends there, and has all pairs
        of the database at the snapshot's version in what it covers, and no others.
        """

    def commit(self, reads: Sequence[tuple[bytes, bytes]], mutations: Sequence[Mutation],
               known: dict[bytes, bytes]) -> int:
        """Commits these writes, in their order, by the rule, and answers the version.

        `known` has all pairs that there are in what was read. It is called once at most, and before `close`.
        """

    def close(self) -> None:
        """Lets go of the snapshot, and raises nothing. It may be called more than once."""


class Engine(Protocol):
    """A database that a record store is kept in. It may be used by several threads, a snapshot by one at a time."""

    def begin(self, wants: Sequence[Want]) -> tuple[Snapshot, list[Read]]:
        """A snapshot of the newest version, with all that is committed by now, and what it has at once of ranges."""

    def close(self) -> None:
        """Lets go of the engine."""


def page_of(want: Want) -> int:
    """How many pairs are to be read for a want: as many as it needs, or a page where it goes through a range."""
    return PAGE if want.limit >= MANY else want.limit


def read_of(want: Want, limit: int, pairs: list[tuple[bytes, bytes]]) -> Read:
    """What was read where up to `limit` pairs of a range were asked for, in the order of its direction."""
    begin, end = want.begin, want.end
    if len(pairs) >= limit:
        begin, end = (pairs[-1][0], end) if want.reverse else (begin, pairs[-1][0] + b"\0")
    return Read(begin, end, pairs)
