"""What a call may raise. Each refusal of the record layer is a class of its own, below `Refused`."""
from __future__ import annotations


class RecordError(Exception):
    """What every error here is."""


class Refused(RecordError):
    """A command is refused; the transaction goes on as if it hadn't been given."""


class Corrupt(RecordError):
    """The pair of this key isn't one that a record store has there."""

    def __init__(self, key: bytes) -> None:
        super().__init__(f"the pair at {key.hex()} isn't a record store's")
        self.key = key

    def __reduce__(self) -> tuple[type[Corrupt], tuple[bytes]]:
        return Corrupt, (self.key,)


class Conflict(RecordError):
    """Another transaction wrote what this one has read. Nothing was written: try it again."""


class TooOld(Conflict):
    """The engine doesn't keep what the transaction reads any more. Nothing was written: try it again."""


class Unknown(RecordError):
    """The engine didn't tell whether the transaction is committed: it may be, or may come to be."""


class TooLarge(RecordError):
    """The engine takes no transaction of so many reads or writes."""


class Unavailable(RecordError):
    """The engine doesn't answer. Nothing was written."""


class OutOfMemory(RecordError, MemoryError):
    """Memory ran out."""


class Closed(RecordError):
    """The transaction or the database has ended, or is another process's: nothing can be asked of it any more."""


class BadCommand(RecordError):
    """A command isn't of its form, or has more than 4,000,000 bytes."""


class OtherStore(RecordError):
    """The store's schema lacks a type or an index that it is said to have, or has another one of its name."""


# the refusals of commands
class BadName(Refused):
    """A name isn't 1 to 32 of a-z A-Z 0-9 _."""


class NameTaken(Refused):
    """A name is given twice, or stands already."""


class UnknownType(Refused):
    """The schema has no type of this name."""


class UnknownIndex(Refused):
    """The schema has no index of this name."""


class UnknownField(Refused):
    """The type has no field of this name."""


class WrongKind(Refused):
    """A value isn't of its field's kind, or there are not as many values as fields."""


class NullKey(Refused):
    """A key field is None."""


class BadSchema(Refused):
    """A type has no key field, or one twice; or an index has the wrong columns."""


class TooMany(Refused):
    """More types, fields, key fields, indexes or columns than there may be."""


class TooDeep(Refused):
    """A filter has more than 32 levels."""


class FilterTooLarge(Refused):
    """A filter has more than 256 nodes, or a query has more than 8 sort fields."""


class SortTwice(Refused):
    """A sort field stands twice."""


class SortNotServed(Refused):
    """Neither the primary key nor a readable VALUE index of the type serves the sort."""


class AlreadyThere(Refused):
    """The store is there already."""


class NoStore(Refused):
    """There is no store."""


class OtherSchema(Refused):
    """The record's or the plan's type isn't that of the store's schema."""


class IndexNotReadable(Refused):
    """An index of the plan isn't there with its definition, or isn't readable."""


class NotAggregate(Refused):
    """The index is a VALUE index, which has no totals."""


class NotReadable(Refused):
    """The index isn't readable."""


class WrongState(Refused):
    """The index isn't write-only."""


class NotBuilt(Refused):
    """Not every position of the index is built."""


class BadLimit(Refused):
    """A step of a builder is to build no record."""


class KeyOutside(Refused):
    """A key lies outside the keys of the database."""


class KeyTooLarge(Refused):
    """A key is too large."""


class ValueTooLarge(Refused):
    """A value is too large."""


class TransactionTooLarge(Refused):
    """The transaction's writes are too large together."""


# what a reply names so has another name here, where `TooLarge` is the engine's
RENAMED = {"TooLarge": FilterTooLarge}
REFUSALS = {it.__name__: it for it in Refused.__subclasses__()} | RENAMED


def refusal(name: str) -> RecordError:
    """The error of a reply `refused NAME`, or `refused Corrupt KEY`."""
    word, _, key = name.partition(" ")
    if word == "Corrupt":
        return Corrupt(bytes.fromhex(key))
    made = REFUSALS.get(word)
    return made(made.__doc__) if made else Refused(name)
