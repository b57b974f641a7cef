"""Types of records and indexes over them, and the values of fields as the record layer writes them."""
from __future__ import annotations

import json
from collections.abc import Iterable, Mapping, Sequence
from dataclasses import dataclass
from typing import Any, TypeVar, Union

from .errors import NameTaken, RecordError, UnknownField, UnknownIndex, UnknownType, WrongKind
from .tuples import unpacked

Given = TypeVar("Given")
Cell = Union[None, int, str, bytes]
# what is answered, whose values are as their fields say
Record = dict[str, Any]
KINDS = {int: "int", str: "text", bytes: "bytes"}
KIND_NUMBERS = {1: int, 2: str, 3: bytes}
INDEX_KINDS = {1: "value", 2: "count", 3: "sum"}
FORMS = 1, 2
LEAST, MOST = -(1 << 63), (1 << 63) - 1


def names(given: str | Iterable[str]) -> list[str]:
    """A list of names, of which a single one may be given by itself."""
    return [given] if isinstance(given, str) else list(given)


def several(given: Iterable[Given]) -> Iterable[Given]:
    """A list of records or keys. A single one, whose parts would be taken for them, is a TypeError."""
    if isinstance(given, (str, bytes, Mapping)):
        raise TypeError(f"a list is to be given, and not a {type(given).__name__}")
    return given


def cell_json(cell: Cell) -> Any:
    """A value as the record layer reads it. What no field can have is raised: TypeError, or ValueError by its value."""
    if isinstance(cell, (bytes, bytearray, memoryview)):
        return {"hex": bytes(cell).hex()}
    if isinstance(cell, str):
        cell.encode()  # a lone surrogate is no text
        return cell
    if isinstance(cell, int) and not isinstance(cell, bool):
        if not LEAST <= cell <= MOST:
            raise ValueError(f"an int of a field has 64 bits with sign, and {cell} more")
        return int(cell)
    if cell is None:
        return None
    raise TypeError(f"a field has an int, a str, bytes or None, and not {type(cell).__name__}")


def cell_of(value: Any) -> Cell:
    """A value as the record layer writes it."""
    return bytes.fromhex(value["hex"]) if isinstance(value, dict) else value


@dataclass(frozen=True)
class RecordType:
    """A type of records: its fields by name, each of int, str or bytes, and the fields of its key."""

    name: str
    fields: Mapping[str, type]
    key: str | Sequence[str]

    def json(self) -> dict[str, Any]:
        """The type as the record layer reads it."""
        for name, kind in self.fields.items():
            if kind not in KINDS:
                raise TypeError(f"a field is of int, str or bytes, and {name} of {kind!r}")
        fields = [[name, KINDS[kind]] for name, kind in self.fields.items()]
        return {"name": self.name, "fields": fields, "key": names(self.key)}

    def cells(self, record: Mapping[str, Cell]) -> list[Any]:
        """A record's values in the order of the fields. A field that isn't there is None."""
        if not isinstance(record, Mapping):
            raise TypeError(f"a record is a mapping of names to values, and not a {type(record).__name__}")
        if unknown := record.keys() - self.fields.keys():
            raise UnknownField(f"{self.name} has no field {', '.join(map(repr, unknown))}")
        return [cell_json(record.get(name)) for name in self.fields]

    def key_cells(self, key: Mapping[str, Cell] | Sequence[Cell] | Cell) -> list[Any]:
        """The values of a key, which is given as a mapping, as a sequence, or as the only value.

        A mapping may have other fields too, as a whole record has.
        """
        if isinstance(key, Mapping):
            return [cell_json(key.get(name)) for name in names(self.key)]
        return [cell_json(it) for it in (key if isinstance(key, (list, tuple)) else [key])]

    def record(self, cells: Sequence[Any]) -> Record:
        """The record of these values."""
        return dict(zip(self.fields, map(cell_of, cells)))


@dataclass(frozen=True)
class Index:
    """An index over a type: of the kind value, count or sum, with its columns; of a sum, the summed field.

    Of a count, whether a total that comes back to 0 is taken out.
    """

    name: str
    type: str
    columns: str | Sequence[str]
    kind: str = "value"
    summed: str | None = None
    clear_when_zero: bool = False

    def json(self) -> dict[str, Any]:
        """The index as the record layer reads it."""
        made = {"name": self.name, "kind": self.kind, "type": self.type, "columns": names(self.columns)}
        made |= {"summed": self.summed} if self.summed is not None else {}
        return made | ({"clear_when_zero": True} if self.clear_when_zero else {})

    def group_cells(self, group: Mapping[str, Cell]) -> list[Any]:
        """The values of the columns, each of which is to be given, and no other."""
        columns = names(self.columns)
        if group.keys() != set(columns):
            raise WrongKind(f"the columns of {self.name} are {columns}, and {list(group)} are given")
        return [cell_json(group[name]) for name in columns]


def value_index(name: str, record_type: str, *columns: str) -> Index:
    """An index of the records by these columns."""
    return Index(name, record_type, columns)


def count_index(name: str, record_type: str, *columns: str, clear_when_zero: bool = False) -> Index:
    """How many records there are in each group of records with the same columns, perhaps stored only where some are."""
    return Index(name, record_type, columns, "count", clear_when_zero=clear_when_zero)


def sum_index(name: str, record_type: str, *columns: str, summed: str) -> Index:
    """What a field of the records sums up to, in each group of records with the same columns."""
    return Index(name, record_type, columns, "sum", summed)


Named = TypeVar("Named", RecordType, Index)


def by_name(items: Iterable[Named]) -> dict[str, Named]:
    """Types or indexes by their names, of which none may stand twice."""
    found: dict[str, Named] = {}
    for item in items:
        if item.name in found:
            raise NameTaken(f"{item.name} is given twice")
        found[item.name] = item
    return found


class Schema:
    """Types of records, and indexes over them."""

    def __init__(self, types: Iterable[RecordType], indexes: Iterable[Index] = ()) -> None:
        self.types = by_name(types)
        self.indexes = by_name(indexes)

    def json(self) -> dict[str, Any]:
        """The schema as the record layer reads it."""
        return {"types": [it.json() for it in self.types.values()],
                "indexes": [it.json() for it in self.indexes.values()]}

    def type(self, name: str) -> RecordType:
        """The type of this name."""
        if name not in self.types:
            raise UnknownType(UnknownType.__doc__)
        return self.types[name]

    def index(self, name: str) -> Index:
        """The index of this name."""
        if name not in self.indexes:
            raise UnknownIndex(UnknownIndex.__doc__)
        return self.indexes[name]

    def lacks(self, other: Schema) -> list[str]:
        """The names of another schema's types and indexes that aren't here just as they are there."""
        both: list[tuple[Mapping[str, Any], Mapping[str, Any]]] = [(self.types, other.types),
                                                                   (self.indexes, other.indexes)]
        return [name for mine, theirs in both for name, it in theirs.items()
                if name not in mine or mine[name].json() != it.json()]

    @staticmethod
    def of_bytes(data: bytes) -> Schema:
        """The schema that a store keeps in these bytes, in either form: how types have grown isn't told."""
        form, _, _, types, indexes = unpacked(data)
        if form not in FORMS:
            raise RecordError(f"a schema of the form {form}")
        made = {}
        for number, name, fields, key, *_ in types:
            fields = {field: KIND_NUMBERS[kind] for field, kind in fields}
            made[number] = RecordType(name, fields, [list(fields)[place] for place in key])
        return Schema(made.values(), [index_of(made, *it) for it in indexes])


def index_of(types: Mapping[int, RecordType], _: int, name: str, kind: int, type_number: int,
             columns: Sequence[int], summed: int | None, clear_when_zero: bool = False) -> Index:
    """The index that a schema's bytes tell of."""
    owner = types[type_number]
    fields = list(owner.fields)
    return Index(name, owner.name, [fields[it] for it in columns], INDEX_KINDS[kind],
                 None if summed is None else fields[summed], clear_when_zero)


def compact(value: Any) -> str:
    """A value as JSON without blanks."""
    return json.dumps(value, separators=(",", ":"))
