"""Types and indexes as values, and why one that is asked for is refused."""
import re
from typing import NamedTuple

from keys import element

NAME = re.compile(r"[a-zA-Z0-9_]{1,32}")
KINDS = {"int": int, "text": str, "bytes": bytes}
MOST_TYPES, MOST_FIELDS, MOST_KEY_FIELDS, MOST_INDEXES, MOST_COLUMNS, LAST_INDEX = 32, 32, 8, 64, 8, 65535
VALUE, COUNT, SUM = "value", "count", "sum"


class Refused(Exception):
    """A step is refused, by this name."""


class Type(NamedTuple):
    """A type: its number, its name, the names and kinds of its fields, the places of its key fields.

    And with how many fields it was added; the others were appended.
    """

    number: int
    name: str
    fields: tuple
    key: tuple
    first: int

    def place(self, name):
        """Where a field stands, or None."""
        return next((at for at, (it, _) in enumerate(self.fields) if it == name), None)

    def kinds(self):
        return [KINDS[kind] for _, kind in self.fields]

    def key_of(self, cells):
        """The key cells of a record."""
        return tuple(cells[at] for at in self.key)


class Index(NamedTuple):
    """An index: its number, its name, its kind, its type's number, the places of columns and of the summed field.

    And whether a total that comes back to 0 is taken out.
    """

    number: int
    name: str
    kind: str
    type: int
    columns: tuple
    summed: int | None
    clears: bool = False

    def group(self, cells):
        """The cells of a record at its columns."""
        return tuple(cells[at] for at in self.columns)

    def share(self, cells):
        """What a record counts for its group."""
        return 1 if self.kind == COUNT else cells[self.summed] or 0


class Schema(NamedTuple):
    """Types in the order of their numbers, indexes too, and the last index number that was given."""

    types: tuple = ()
    indexes: tuple = ()
    last: int = 0

    def type_named(self, name):
        """The type of a name; refused where there is none."""
        return named(self.types, name, "UnknownType")

    def index_named(self, name):
        """The index of a name; refused where there is none."""
        return named(self.indexes, name, "UnknownIndex")

    def indexes_of(self, number):
        """The indexes of a type, in the order of their numbers."""
        return [it for it in self.indexes if it.type == number]


def named(things, name, refusal):
    """The thing of this name; refused where there is none."""
    found = next((it for it in things if it.name == name), None)
    if found is None:
        raise Refused(refusal)
    return found


def refuse_first(reasons):
    """Refuses with the first reason that holds, of pairs of a name and whether it does."""
    found = next((name for name, holds in reasons if holds), None)
    if found:
        raise Refused(found)


def is_twice(things):
    return len(set(things)) < len(things)


def with_type(schema, asked):
    """The schema with one more type, which is asked for as a script does."""
    names = [name for name, _ in asked["fields"]]
    refuse_first([
        ("BadName", not all(NAME.fullmatch(it) for it in [asked["name"], *names])),
        ("NameTaken", asked["name"] in [it.name for it in schema.types] or is_twice(names)),
        ("UnknownField", not set(asked["key"]) <= set(names)),
        ("BadSchema", not asked["key"] or is_twice(asked["key"])),
        ("TooMany", len(names) > MOST_FIELDS or len(asked["key"]) > MOST_KEY_FIELDS
         or len(schema.types) == MOST_TYPES),
    ])
    fields = tuple((name, kind) for name, kind in asked["fields"])
    key = tuple(names.index(it) for it in asked["key"])
    made = Type(len(schema.types) + 1, asked["name"], fields, key, len(fields))
    return schema._replace(types=schema.types + (made,))


def with_field(schema, name, asked):
    """The schema with one more field of a type, behind its other fields."""
    refuse_first([("BadName", not NAME.fullmatch(asked[0]))])
    of = schema.type_named(name)
    refuse_first([("NameTaken", of.place(asked[0]) is not None), ("TooMany", len(of.fields) == MOST_FIELDS)])
    made = of._replace(fields=of.fields + (tuple(asked),))
    return schema._replace(types=tuple(made if it == of else it for it in schema.types))


def with_index(schema, asked):
    """The schema with one more index, which is asked for as a script does."""
    refuse_first([
        ("BadName", not NAME.fullmatch(asked["name"])),
        ("NameTaken", asked["name"] in [it.name for it in schema.indexes]),
    ])
    of = schema.type_named(asked["type"])
    columns, summed = asked["columns"], asked.get("summed")
    places = [of.place(it) for it in columns]
    place = of.place(summed) if summed is not None else None
    is_sum = asked["kind"] == SUM
    refuse_first([
        ("UnknownField", None in places or (is_sum and place is None)),
        ("WrongKind", is_sum and place is not None and of.fields[place][1] != "int"),
        ("BadSchema", is_twice(columns) or (asked["kind"] == VALUE and not columns)),
        ("TooMany", len(columns) > MOST_COLUMNS or len(schema.indexes) == MOST_INDEXES or schema.last == LAST_INDEX),
    ])
    clears = asked.get("clear_when_zero", False)
    made = Index(schema.last + 1, asked["name"], asked["kind"], of.number, tuple(places), place, clears)
    return schema._replace(indexes=schema.indexes + (made,), last=made.number)


def without_index(schema, index):
    """The schema without an index, whose number isn't given again."""
    return schema._replace(indexes=tuple(it for it in schema.indexes if it != index))


def nested(things):
    """The spelling of things as one that others have within them."""
    return b"\x05" + b"".join(spelled_within(it) for it in things) + b"\0"


def spelled_within(thing):
    """The spelling of a part of a nested thing."""
    if isinstance(thing, (tuple, list)):
        return nested(thing)
    if isinstance(thing, bool):
        return b"\x27" if thing else b"\x26"
    return b"\0\xff" if thing is None else element(thing).spelled


def schema_bytes(schema):
    """What a schema is written as: in the second form where the first can't tell it."""
    kinds = [*KINDS]
    types = [(it.number, it.name, [(name, kinds.index(kind) + 1) for name, kind in it.fields], it.key)
             for it in schema.types]
    indexes = [(it.number, it.name, [VALUE, COUNT, SUM].index(it.kind) + 1, it.type, it.columns, it.summed)
               for it in schema.indexes]
    is_second = any(it.first < len(it.fields) for it in schema.types) or any(it.clears for it in schema.indexes)
    if is_second:
        types = [(*it, of.first) for it, of in zip(types, schema.types)]
        indexes = [(*it, index.clears) for it, index in zip(indexes, schema.indexes)]
    parts = (2 if is_second else 1, len(types), schema.last, types, indexes)
    return b"".join(spelled_within(it) for it in parts)


def schema_of(asked):
    """The schema of a request: its types first, then its indexes."""
    schema = Schema()
    for change, parts in ((with_type, asked["types"]), (with_index, asked.get("indexes", []))):
        schema = grown(schema, change, parts)
    return schema


def grown(schema, change, parts):
    """A schema after one change for each part."""
    for it in parts:
        schema = change(schema, it)
    return schema
