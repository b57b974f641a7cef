"""Which plan a query gets: by the states of indexes, the match of each path, and the text that a reply prints."""
from typing import NamedTuple

import keys
from filters import Query, filter_given
from keys import AFTER, BEHIND_NULL, FIRST, Cut, Range, before_beginning, behind_beginning, element, elements
from replies import compact
from schemas import VALUE, Index, Refused, Type

READABLE = "readable"
BOUNDS = ("<", "<=", ">", ">=", "starts")


class Path(NamedTuple):
    """A way through the records of a type: along its key or an index; its columns, and those for sorting."""

    number: int
    index: Index | None
    columns: tuple
    sorting: tuple


class Match(NamedTuple):
    """Of a path: the conjuncts that fix its first columns, those that bound the next one, and the range of both."""

    path: Path
    fixed: tuple
    bounds: tuple
    range: Range

    def rank(self):
        """What the longest match has the greatest of."""
        return (len(self.fixed) + bool(self.bounds), len(self.fixed), -self.path.number)

    def used(self):
        """The places of the conjuncts that are used."""
        return {*self.fixed, *self.bounds}

    def fixes_all(self):
        return len(self.fixed) == len(self.path.columns)


class Scan(NamedTuple):
    """The records of a type in a range after its place, or the entries of an index; and whether it is in key order."""

    name: str
    index: Index | None
    range: Range
    reverse: bool
    rises: bool

    def text(self):
        head = "IndexScan" if self.index else "Scan"
        return f"{head}({self.name},{self.range.text()}{',reverse' if self.reverse else ''})"

    def is_full(self):
        """Whether all records of the type are scanned."""
        return self.index is None and self.range == Range(FIRST, AFTER)


class Step(NamedTuple):
    """A step of a plan over its parts: a fetch of scans, a filter of one part, or a union."""

    kind: str
    parts: tuple
    filter: tuple | None = None

    def text(self):
        """The step as a plan is printed."""
        inner = ",".join(it.text() for it in self.parts)
        if self.kind == "Fetch" and len(self.parts) > 1:
            return f"Fetch(Intersection({inner}))"
        if self.kind == "Filter":
            return f"Filter({compact(filter_given(self.filter))},{inner})"
        return f"{self.kind}({inner})"


class Plan(NamedTuple):
    """What a query is answered by: its type and query, the steps, and the indexes that they scan."""

    type: Type
    query: Query
    node: Step | Scan
    indexes: frozenset


def is_full(node):
    """Whether a plan has a scan of all records."""
    return node.is_full() if isinstance(node, Scan) else any(is_full(it) for it in node.parts)


def rises(node):
    """Whether a plan gives records in the order of their primary keys."""
    if isinstance(node, Scan):
        return node.rises
    return node.kind == "Union" or (node.kind in ("Fetch", "Filter") and (len(node.parts) > 1 or rises(node.parts[0])))


def scanned(node):
    """The indexes that a plan scans."""
    if isinstance(node, Scan):
        return frozenset([node.index] if node.index else [])
    return frozenset().union(*(scanned(it) for it in node.parts))


def conjuncts(one):
    """The parts of a filter that must all be true, those of an `and` in an `and` too."""
    return [part for it in one[1:] for part in conjuncts(it)] if one[0] == "and" else [one]


def paths_of(schema, states, of):
    """The paths of a type: its key, and its readable VALUE indexes."""
    indexes = [it for it in schema.indexes_of(of.number) if it.kind == VALUE and states[it.number] == READABLE]
    return [Path(0, None, of.key, of.key), *(Path(it.number, it, it.columns, it.columns + of.key) for it in indexes)]


def fixed_cell(one):
    """The cell that a conjunct says that its field has."""
    return None if one[0] == "null" else one[2]


def first_fixing(parts, name):
    """The place of the first conjunct that fixes a field, or None."""
    return next((at for at, one in parts if one[0] in ("=", "null") and one[1] == name), None)


def match_of(of, path, parts):
    """The match of a path for conjuncts, each with its place."""
    names = [of.fields[it][0] for it in path.columns]
    found = [first_fixing(parts, it) for it in names]
    count = found.index(None) if None in found else len(found)
    fixed, by_place = tuple(found[:count]), dict(parts)
    bounds = [(at, one) for at, one in parts if one[0] in BOUNDS and one[1] == names[count]] if None in found else []
    begin = elements([fixed_cell(by_place[at]) for at in fixed])
    return Match(path, fixed, tuple(at for at, _ in bounds), bounded(begin, [one for _, one in bounds]))


def bounded(begin, bounds):
    """The range behind some cells at which a next cell is within all bounds."""
    found = [bound_range(begin, kind, cell) for kind, _, cell in bounds] or [Range(begin, begin + AFTER)]
    first = max(it.begin for it in found)
    return Range(first, max(first, min(it.end for it in found)))


def bound_range(begin, kind, cell):
    """The range behind some cells at which a next cell is within a bound."""
    if kind == "starts":
        return Range(begin + before_beginning(cell), begin + behind_beginning(cell))
    at = begin + element(cell)
    return {
        ">": lambda: Range(at + AFTER, begin + AFTER),
        ">=": lambda: Range(at, begin + AFTER),
        "<": lambda: Range(begin + BEHIND_NULL, at),
        "<=": lambda: Range(begin + BEHIND_NULL, at + AFTER),
    }[kind]()


def scan_of(of, match, reverse=False):
    """The scan of a path by its match."""
    index = match.path.index
    rising = not reverse and (index is None or match.fixes_all())
    return Scan(index.name if index else of.name, index, match.range, reverse, rising)


def fetched(scans):
    """The step that gives the records of scans."""
    return Step("Fetch", tuple(scans)) if scans[0].index else scans[0]


def with_residual(node, parts, used):
    """A plan with a filter of the conjuncts that no scan uses."""
    left = [one for at, one in parts if at not in used]
    if not left:
        return node
    return Step("Filter", (node,), left[0] if len(left) == 1 else ("and", *left))


def serves(match, sort):
    """Whether a path gives records in a sort, without some of its first fixed columns."""
    columns = match.path.sorting
    return any(columns[it:it + len(sort)] == sort for it in range(len(match.fixed) + 1))


def sorted_plan(of, paths, query):
    """The plan of a query with a sort."""
    parts, sort = list(enumerate(conjuncts(query.filter))), tuple(of.place(it) for it in query.sort)
    serving = [it for it in (match_of(of, path, parts) for path in paths) if serves(it, sort)]
    if not serving:
        raise Refused("SortNotServed")
    longest = max(serving, key=Match.rank)
    return with_residual(fetched([scan_of(of, longest, query.reverse)]), parts, longest.used())


def unsorted_plan(of, paths, one):
    """The plan of a filter, in any order: of an `or` alone a union, where each of its parts has a plan by a path."""
    parts = conjuncts(one)
    if len(parts) == 1 and parts[0][0] == "or" and len(parts[0]) > 2:
        nodes = tuple(unsorted_plan(of, paths, it) for it in parts[0][1:])
        if not any(is_full(it) for it in nodes):
            rising = all(rises(it) for it in nodes)
            return Step("Union", nodes) if rising else Step("Distinct", (Step("UnorderedUnion", nodes),))
    return single_plan(of, paths, list(enumerate(parts)))


def single_plan(of, paths, parts):
    """The plan of conjuncts by the path of the longest match, and by the indexes that join it."""
    longest = max((match_of(of, it, parts) for it in paths), key=Match.rank)
    if longest.rank()[0] == 0:
        longest = match_of(of, paths[0], parts)
    chosen = joined(of, paths, parts, longest) if longest.path.index and longest.fixes_all() else [longest]
    used = set().union(*(it.used() for it in chosen))
    return with_residual(fetched([scan_of(of, it) for it in chosen]), parts, used)


def joined(of, paths, parts, first):
    """The match of an index with those of the others that fix all their columns by conjuncts that are left."""
    chosen, left = [first], [it for it in parts if it[0] not in first.used()]
    for path in paths[1:]:
        match = match_of(of, path, left)
        if path != first.path and match.fixes_all():
            chosen.append(match)
            left = [it for it in left if it[0] not in match.used()]
    return chosen


def plan_of(schema, states, of, query):
    """The plan of a checked query."""
    paths = paths_of(schema, states, of)
    node = sorted_plan(of, paths, query) if query.sort else unsorted_plan(of, paths, query.filter)
    return Plan(of, query, node, scanned(node))


def place_of(plan, scan):
    """The place after which the range of a scan stands."""
    index = scan.index
    return keys.key(keys.ENTRIES, index.number) if index else keys.key(keys.RECORDS, plan.type.number)


def scan_range(plan, scan):
    """The range of a scan among all places of the store."""
    place: Cut = place_of(plan, scan)
    return Range(place + scan.range.begin, place + scan.range.end)
