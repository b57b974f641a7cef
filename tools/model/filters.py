"""What a query means over records alone: why one is refused, where its filter is true, and which rows it allows."""
from functools import cmp_to_key
from typing import NamedTuple

from replies import cell_given, cell_of
from schemas import KINDS, Refused

MOST_LEVELS, MOST_NODES, MOST_SORTED = 32, 256, 8
TRUE, FALSE, UNKNOWN = True, False, None
COMPARES = {"=": (0,), "!=": (-1, 1), "<": (-1,), "<=": (-1, 0), ">": (1,), ">=": (1, 0)}
JOINS = ("and", "or", "not")


class Query(NamedTuple):
    """A query: a type's name, a filter of names and cells, the fields of the sort, and whether it is turned round."""

    type: str
    filter: tuple
    sort: tuple
    reverse: bool


def query_of(given):
    """The query that an object in JSON stands for."""
    return Query(given["type"], filter_of(given.get("filter", ["and"])), tuple(given.get("sort", ())),
                 given.get("reverse", False))


def filter_of(given):
    """A filter as a script has it, with cells in place of their JSON."""
    kind, *parts = given
    if kind in JOINS:
        return (kind, *(filter_of(it) for it in parts))
    return (kind, parts[0], *(cell_of(it) for it in parts[1:]))


def filter_given(one):
    """A filter in JSON."""
    kind, *parts = one
    if kind in JOINS:
        return [kind, *(filter_given(it) for it in parts)]
    return [kind, parts[0], *(cell_given(it) for it in parts[1:])]


def levels(one):
    """How many levels a filter has; a comparison has one."""
    return 1 + max((levels(it) for it in one[1:]), default=0) if one[0] in JOINS else 1


def nodes(one):
    """All parts of a filter, each before its own."""
    yield one
    if one[0] in JOINS:
        for it in one[1:]:
            yield from nodes(it)


def node_refusal(of, node):
    """Why a part of a filter is refused, or None."""
    if node[0] in JOINS:
        return None
    place = of.place(node[1])
    if place is None:
        return "UnknownField"
    if node[0] == "null":
        return None
    kind = KINDS[of.fields[place][1]]
    is_wrong = not isinstance(node[2], kind) or (node[0] == "starts" and kind is int)
    return "WrongKind" if is_wrong else None


def check(schema, query):
    """The type of a query that may be planned; refused for the first reason that there is."""
    of = schema.type_named(query.type)
    if levels(query.filter) > MOST_LEVELS:
        raise Refused("TooDeep")
    if sum(1 for _ in nodes(query.filter)) > MOST_NODES or len(query.sort) > MOST_SORTED:
        raise Refused("TooLarge")
    reason = next((it for it in (node_refusal(of, node) for node in nodes(query.filter)) if it), None)
    if reason:
        raise Refused(reason)
    if any(of.place(it) is None for it in query.sort):
        raise Refused("UnknownField")
    if len(set(query.sort)) < len(query.sort):
        raise Refused("SortTwice")
    return of


def truth(of, one, cells):
    """Whether a filter is true at a record, false, or unknown."""
    kind, *parts = one
    if kind in JOINS:
        return joined(kind, [truth(of, it, cells) for it in parts])
    cell = cells[of.place(parts[0])]
    if kind == "null":
        return cell is None
    if cell is None:
        return UNKNOWN
    if kind == "starts":
        return cell.startswith(parts[1])
    return (cell > parts[1]) - (cell < parts[1]) in COMPARES[kind]


def joined(kind, found):
    """What parts are together that are true, false or unknown."""
    if kind == "not":
        return UNKNOWN if found[0] is UNKNOWN else not found[0]
    decides = kind == "or"
    if decides in found:
        return decides
    return UNKNOWN if UNKNOWN in found else not decides


def compared(one, other):
    """How two cells of a field compare in a sort: null comes first."""
    if one is None or other is None:
        return (one is not None) - (other is not None)
    return (one > other) - (one < other)


def compare_by(of, query):
    """How two records compare in the sort of a query."""
    places, sign = [of.place(it) for it in query.sort], -1 if query.reverse else 1
    return lambda one, other: sign * next((it for it in (compared(one[at], other[at]) for at in places) if it), 0)


def selected(of, query, records):
    """The records at which the filter of a query is true, in its sort; where this leaves the order open, by key."""
    found = [it for it in records if truth(of, query.filter, it) is TRUE]
    return sorted(found, key=cmp_to_key(compare_by(of, query))) if query.sort else found


def allows(of, query, records, rows):
    """Whether rows are a query's meaning: each selected record once, nothing else, in the sort."""
    wanted, compare = selected(of, query, records), compare_by(of, query)
    is_sorted = not query.sort or all(compare(one, other) <= 0 for one, other in zip(rows, rows[1:]))
    return len(rows) == len(wanted) and set(rows) == set(wanted) and is_sorted
