"""Filters of queries, written as comparisons of fields: `(field("author") == "Austen") & (field("copies") > 2)`."""
from __future__ import annotations

from typing import Any

from .schema import Cell, cell_json


class Filter:
    """What a query's records are to meet: `&`, `|` and `~` put filters together.

    `and`, `or`, `not` and `1 < field < 5` would keep a part of what they are given alone, so they raise TypeError.
    """

    def __init__(self, *parts: Any) -> None:
        self.parts = parts

    def json(self) -> list[Any]:
        """The filter as the record layer reads it."""
        return [it.json() if isinstance(it, Filter) else it for it in self.parts]

    def joined(self, how: str, other: Filter) -> Filter:
        """Both filters under one word, also where one of them is already: a chain of them gets no deeper."""
        if not isinstance(other, Filter):
            raise TypeError(f"a filter is put together with filters, and not with a {type(other).__name__}")
        return Filter(how, *(part for it in (self, other) for part in (it.parts[1:] if it.parts[0] == how else [it])))

    def __and__(self, other: Filter) -> Filter:
        return self.joined("and", other)

    def __or__(self, other: Filter) -> Filter:
        return self.joined("or", other)

    def __invert__(self) -> Filter:
        return Filter("not", self)

    def __bool__(self) -> bool:
        raise TypeError("a filter is neither true nor false: put filters together by &, | and ~")


class Field:
    """A field of a record type. None is equal to nothing, and neither less nor greater: ask `is_none`."""

    __hash__ = object.__hash__

    def __init__(self, name: str) -> None:
        self.name = name

    def compared(self, how: str, value: Cell) -> Filter:
        """The filter of a comparison. One with None would hold of no record, so it raises TypeError."""
        if value is None:
            raise TypeError(f"no record meets {self.name} {how} None: ask is_none")
        return Filter(how, self.name, cell_json(value))

    def __eq__(self, value: Cell) -> Filter:  # type: ignore[override]
        return self.compared("=", value)

    def __ne__(self, value: Cell) -> Filter:  # type: ignore[override]
        return self.compared("!=", value)

    def __lt__(self, value: Cell) -> Filter:
        return self.compared("<", value)

    def __le__(self, value: Cell) -> Filter:
        return self.compared("<=", value)

    def __gt__(self, value: Cell) -> Filter:
        return self.compared(">", value)

    def __ge__(self, value: Cell) -> Filter:
        return self.compared(">=", value)

    def starts_with(self, value: str | bytes) -> Filter:
        """The text or the bytes begin so."""
        return self.compared("starts", value)

    def is_none(self) -> Filter:
        """The field is None."""
        return Filter("null", self.name)


def field(name: str) -> Field:
    """The field of this name."""
    return Field(name)
