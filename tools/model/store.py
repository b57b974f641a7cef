"""A store as values: its schema, its records by type and key cells, of each index its state and what is built."""
from dataclasses import dataclass, field
from typing import NamedTuple

import keys
from keys import AFTER, Cut, Range, position
from schemas import VALUE, Schema

READABLE, WRITE_ONLY, DISABLED = "readable", "write-only", "disabled"
LONGEST_KEY, LONGEST_VALUE, LARGEST = 10_000, 100_000, 10_000_000


class Write(NamedTuple):
    """A thing that is set or changed, with the length of what is set; or, without one, a range that is cleared."""

    range: Range
    length: int | None = None

    def size(self):
        """What it adds to its transaction's size."""
        begin, end = (len(it.spelled) for it in self.range)
        return begin + (end if self.length is None else self.length)

    def refusal(self, before):
        """The limit that it breaks behind writes of such a size, or None."""
        begin, end = (len(it.spelled) for it in self.range)
        if begin > LONGEST_KEY or (self.length is None and end > LONGEST_KEY + 1):
            return "KeyTooLarge"
        if (self.length or 0) > LONGEST_VALUE:
            return "ValueTooLarge"
        return "TransactionTooLarge" if before + self.size() > LARGEST else None


@dataclass
class Store:
    """What is committed at a version, or what a transaction sees. What is built of an index ends at a position."""

    schema: Schema | None = None
    records: dict = field(default_factory=dict)
    states: dict = field(default_factory=dict)
    built: dict = field(default_factory=dict)
    # the records of a type in order, while none of any type is changed
    sorted: dict = field(default_factory=dict)

    def copy(self):
        return Store(self.schema, dict(self.records), dict(self.states), dict(self.built), dict(self.sorted))

    def put(self, of, cells, record):
        """Puts a record at its key cells; None takes out what is there."""
        self.sorted = {}
        if record is None:
            del self.records[of.number, cells]
        else:
            self.records[of.number, cells] = record

    def widen(self, number):
        """The records of a type have null in one field more."""
        self.sorted = {}
        for (own, cells), record in list(self.records.items()):
            if own == number:
                self.records[own, cells] = record + (None,)

    def record_pairs(self, of):
        """The records of a type with their places, in order."""
        if of.number not in self.sorted:
            self.sorted[of.number] = sorted((keys.record_key(number, cells), record)
                                            for (number, cells), record in self.records.items() if number == of.number)
        return self.sorted[of.number]

    def entry_pairs(self, of, index):
        """The entries that the records define of a VALUE index, in order, each with the key cells that it leads to."""
        return sorted((entry_place(of, index, record), of.key_of(record))
                      for (number, _), record in self.records.items() if number == of.number)

    def total(self, index, group):
        """What the records of a group come to, as a whole number of 64 bits with sign."""
        members = [it for (number, _), it in self.records.items() if number == index.type and index.group(it) == group]
        total = sum(index.share(it) for it in members)
        return (total + (1 << 63)) % (1 << 64) - (1 << 63)

    def is_built(self, number, cells):
        """Whether the position of a record is built of an index."""
        end = self.built.get(number)
        return end is not None and position(cells) < end

    def write_only_totals(self, of):
        """The COUNT and SUM indexes of a type that are being built."""
        return [it for it in self.schema.indexes_of(of.number)
                if it.kind != VALUE and self.states[it.number] == WRITE_ONLY]


def entry_place(of, index, record):
    """The place of a record's entry."""
    return keys.entry_key(index.number, index.group(record), of.number, of.key_of(record))


def record_write(of, record):
    """The write of a record."""
    return Write(keys.point(keys.record_key(of.number, of.key_of(record))), len(keys.elements(record).spelled))


def changes(of, index, old, new):
    """What is written of an index where a record gives way to another, comes or goes; no record is None."""
    if index.kind == VALUE:
        before, after = ([keys.point(entry_place(of, index, it))] if it else [] for it in (old, new))
        return [] if before == after else [*(Write(it) for it in before), *(Write(it, 0) for it in after)]
    shares = [(index.group(it), sign * index.share(it)) for it, sign in ((old, -1), (new, 1)) if it is not None]
    if len(shares) == 2 and shares[0][0] == shares[1][0]:
        shares = [(shares[0][0], shares[0][1] + shares[1][1])]
    return [write for group, share in shares if share for write in total_writes(index, group, share)]


def total_writes(index, group, share):
    """What is written of a total: what is added, and behind what goes from a COUNT cleared at zero a comparison."""
    write = Write(keys.point(keys.total_key(index.number, group)), 8)
    return [write, write] if index.clears and share < 0 else [write]


def kept_changes(view, of, old, new):
    """What is written of all indexes of a type, by their states, in the order of their numbers."""
    cells = of.key_of(new if new is not None else old)
    return [write for it in view.schema.indexes_of(of.number) if is_kept(view, it, cells)
            for write in changes(of, it, old, new)]


def is_kept(view, index, cells):
    """Whether a writer of a record keeps an index: a total that is being built only where the record is built."""
    state = view.states[index.number]
    if state == WRITE_ONLY and index.kind != VALUE:
        return view.is_built(index.number, cells)
    return state != DISABLED


def cleared_index(number):
    """The writes that take out all that is kept of an index, and what is built."""
    return [Write(keys.entries_of(number)), Write(keys.built_of(number))]


def first_gap(view, number):
    """The first range of positions that aren't built, or None."""
    begin = view.built.get(number) or Cut((), b"")
    return None if begin == AFTER else Range(begin, AFTER)
