"""The bytes in which the record layer is told what was read, and tells what to read next, or to reply and commit."""
from __future__ import annotations

from dataclasses import dataclass
from struct import pack, unpack_from
from typing import NamedTuple

FORM = 1
SET, CLEAR, ADD, COMPARE_AND_CLEAR = range(4)


class Want(NamedTuple):
    """A range to be read: its first pairs, or with `reverse` its last ones, `limit` of them."""

    begin: bytes
    end: bytes
    limit: int
    reverse: bool = False


class Read(NamedTuple):
    """All pairs of a range at the version of a snapshot, in the order of their keys, or from the last one back."""

    begin: bytes
    end: bytes
    pairs: list[tuple[bytes, bytes]]


class Mutation(NamedTuple):
    """A write: SET key value, CLEAR begin end, ADD key operand (least significant byte first), or COMPARE_AND_CLEAR.

    That one has a key and an operand, and takes the key's pair out where its value is just the operand.
    """

    kind: int
    first: bytes
    second: bytes


@dataclass
class Answer:
    """What commands came to: replies, the ranges read, and what was written so far, as bytes."""

    replies: list[str]
    reads: list[tuple[bytes, bytes]]
    written: bytes


NOTHING_WRITTEN = pack("<I", 0)


def packed(*words: bytes) -> bytes:
    """Byte strings, each after its length."""
    return b"".join(pack("<I", len(word)) + word for word in words)


class Given:
    """What was read at a version, as the bytes in which the record layer is told it. It only grows."""

    def __init__(self, version: int) -> None:
        self.version, self.covered, self.pairs = version, bytearray(), bytearray()
        self.ranges: list[tuple[bytes, bytes]] = []
        self.values: dict[bytes, bytes] = {}

    def add(self, read: Read) -> None:
        """Adds what was read."""
        for key, value in read.pairs:
            if key not in self.values:
                self.pairs += packed(key, value)
                self.values[key] = value
        self.covered += packed(read.begin, read.end)  # once all its pairs are there
        self.ranges.append((read.begin, read.end))

    def bytes(self, written: bytes, commands: bytes) -> bytes:
        """The whole, with what was written so far and a script of commands."""
        counts = pack("<I", len(self.ranges)), pack("<I", len(self.values))
        return b"".join((pack("<BQ", FORM, self.version), counts[0], self.covered, counts[1], self.pairs, written,
                         commands))


class Reader:
    """Bytes that are read from their front on."""

    def __init__(self, data: bytes, at: int = 0) -> None:
        self.data, self.at = data, at

    def number(self, form: str, size: int) -> int:
        """The next number."""
        self.at += size
        return int(unpack_from(form, self.data, self.at - size)[0])

    def count(self) -> int:
        """The next number of 32 bits."""
        return self.number("<I", 4)

    def bytes(self) -> bytes:
        """The next byte string."""
        size = self.count()
        self.at += size
        return self.data[self.at - size:self.at]

    def want(self) -> Want:
        """The next range that is wanted."""
        return Want(self.bytes(), self.bytes(), self.number("<Q", 8), bool(self.number("<B", 1)))


def answered(data: bytes) -> list[Want] | Answer:
    """What the record layer tells."""
    reader = Reader(data, 1)
    if data[0] == 0:
        return [reader.want() for _ in range(reader.count())]
    replies = [reader.bytes().decode() for _ in range(reader.count())]
    reads = [(reader.bytes(), reader.bytes()) for _ in range(reader.count())]
    return Answer(replies, reads, data[reader.at:])


def mutations(written: bytes) -> list[Mutation]:
    """The writes of an answer, in order."""
    reader = Reader(written)
    return [Mutation(reader.number("<B", 1), reader.bytes(), reader.bytes()) for _ in range(reader.count())]


def added(value: bytes | None, operand: bytes) -> bytes:
    """What ADD makes of a value: a sum as long as the operand, which wraps, least significant byte first."""
    size = len(operand)
    total = int.from_bytes((value or b"")[:size], "little") + int.from_bytes(operand, "little")
    return (total % (1 << 8 * size)).to_bytes(size, "little")
