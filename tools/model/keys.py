"""Places in the order of all that a database has: its stores by number, and of each its schema, records, entries,
totals, states and built positions.

What is read and written is told by places, which are compared as the values that they stand for: a null before bytes,
these before text, this before whole numbers, one thing after another, a beginning first. Beside its order a place has
the bytes by which a reply prints it, and nothing is decided by these but between two that stand at the same place.
Commands tell places within their store; a transaction puts that of the store before them.
"""
from functools import lru_cache
from typing import NamedTuple

NULL, BYTES, TEXT, NUMBER = 0x00, 0x01, 0x02, 0x0C
ZERO = 0x14
# places of a store, by number
SCHEMA_PLACE, RECORDS, ENTRIES, STATE_PLACE, BUILT = 0, 1, 2, 5, 6


class Cut(NamedTuple):
    """A place between things: what is before it and what isn't; of a thing itself, just before it."""

    order: tuple
    spelled: bytes

    def __add__(self, other):
        return Cut(self.order + other.order, self.spelled + other.spelled)


class Range(NamedTuple):
    """What stands from a place on, up to another."""

    begin: Cut
    end: Cut

    def text(self):
        """The range as replies print it."""
        return f"{self.begin.spelled.hex()}..{self.end.spelled.hex()}"

    def has(self, place):
        """Whether a thing stands in it."""
        return self.begin <= place < self.end


# after all that begins so; just after the thing itself; behind nulls; the first place of all
AFTER, JUST_AFTER, BEHIND_NULL = Cut(((0xFF,),), b"\xff"), Cut(((-1,),), b"\0"), Cut(((BYTES,),), b"\x01")
FIRST = Cut((), b"")


def meet(one, other):
    """Whether two ranges have a place for something in common."""
    return max(one.begin, other.begin) < min(one.end, other.end)


def common(one, other):
    """What two ranges have in common, maybe nothing."""
    begin = max(one.begin, other.begin)
    return Range(begin, max(begin, min(one.end, other.end)))


def escaped(raw):
    return raw.replace(b"\0", b"\0\xff")


def spelled_number(number):
    """The spelling of a whole number."""
    size = (abs(number).bit_length() + 7) // 8
    if number < 0:
        return bytes([ZERO - size]) + (number + (1 << 8 * size) - 1).to_bytes(size, "big")
    return bytes([ZERO + size]) + number.to_bytes(size, "big")


def opened(cell):
    """The code and the bytes of a text or of bytes, without their end."""
    return b"\x02" + escaped(cell.encode()) if isinstance(cell, str) else b"\x01" + escaped(cell)


@lru_cache(maxsize=4096)
def element(cell):
    """The place of a cell among all cells."""
    if cell is None:
        return Cut(((NULL,),), b"\0")
    if isinstance(cell, int):
        return Cut(((NUMBER, cell),), spelled_number(cell))
    code = TEXT if isinstance(cell, str) else BYTES
    return Cut(((code, cell),), opened(cell) + b"\0")


def elements(cells):
    """The place of some cells, one after another."""
    parts = [element(it) for it in cells]
    return Cut(tuple(it.order[0] for it in parts), b"".join(it.spelled for it in parts))


def root(number):
    """The place of the store of a number among all stores."""
    return element(number)


def key(*cells):
    """The place within a store of what it has under these cells."""
    return elements(cells)


def before_beginning(text):
    """The place before all cells that begin with a text, or with bytes."""
    return Cut(element(text).order, opened(text))


def behind_beginning(text):
    """The place behind all cells that begin with a text, or with bytes."""
    code = TEXT if isinstance(text, str) else BYTES
    top = "\U0010ffff" if isinstance(text, str) else b"\xff"
    kept = text.rstrip(top)
    if not kept:
        order = (code + 1,)
    elif isinstance(kept, str):
        order = (code, kept[:-1] + chr(ord(kept[-1]) + 1))
    else:
        order = (code, kept[:-1] + bytes([kept[-1] + 1]))
    raw = opened(text).rstrip(b"\xff")
    return Cut((order,), raw[:-1] + bytes([raw[-1] + 1]))


def point(place):
    """The range of one thing alone."""
    return Range(place, place + JUST_AFTER)


def within(place):
    """All that stands below a place, without what stands there itself."""
    return Range(place + JUST_AFTER, place + AFTER)


def whole(place):
    """All that stands at a place or below it."""
    return Range(place, place + AFTER)


SCHEMA = key(SCHEMA_PLACE)
STATES = within(key(STATE_PLACE))


@lru_cache(maxsize=4096)
def records_of(number):
    """All records of a type."""
    return whole(key(RECORDS, number))


@lru_cache(maxsize=16384)
def record_key(number, cells):
    """The place of a record, by its type's number and its key cells."""
    return key(RECORDS, number, *cells)


def position(cells):
    """The position of a record among those of its type."""
    return elements(cells)


def state_key(number):
    return key(STATE_PLACE, number)


def entries_of(number):
    """All that an index has: entries or totals."""
    return whole(key(ENTRIES, number))


@lru_cache(maxsize=16384)
def entry_key(number, columns, type_number, cells):
    """The place of an entry of a VALUE index."""
    return key(ENTRIES, number, *columns, type_number, *cells)


def total_key(number, group):
    return key(ENTRIES, number, *group)


def built_of(number):
    """The built positions of an index."""
    return within(key(BUILT, number))


def built_key(number, begin):
    """The place of the built range of an index that begins at a position."""
    return key(BUILT, number) + Cut(((BYTES, begin.order),), b"\x01" + escaped(begin.spelled) + b"\0")
