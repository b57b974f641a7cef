"""The way of a plan: what it reads, in order, and the rows that it gives, in order.

Each step is a generator that reads as far as its next row needs.
"""
from filters import allows, truth
from keys import JUST_AFTER, record_key
from planning import READABLE, Scan, scan_range
from schemas import Refused

BATCH = 64


def accept(view, plan):
    """Refuses a plan whose type or whose indexes the store hasn't as they were."""
    schema, wanted = view.schema, plan.type
    of = next((it for it in schema.types if it.number == wanted.number), None)
    if of is None or (of.name, of.key, of.fields[:len(wanted.fields)]) != (wanted.name, wanted.key, wanted.fields):
        raise Refused("OtherSchema")
    if any(it not in schema.indexes or view.states[it.number] != READABLE for it in plan.indexes):
        raise Refused("IndexNotReadable")


def streamed(tx, pairs, range_, reverse):
    """The pairs of a range one by one, read a batch at a time when the next one is asked for."""
    batch = [None] * BATCH
    while len(batch) == BATCH:
        batch = tx.scan(range_, pairs, BATCH, reverse)
        yield from batch
        range_ = rest_of(range_, batch, reverse)


def rest_of(range_, batch, reverse):
    """What is left of a range behind a batch."""
    if not batch:
        return range_
    last = batch[-1][0]
    return range_._replace(end=last) if reverse else range_._replace(begin=last + JUST_AFTER)


def found_by(tx, plan, scan):
    """What a scan finds, one by one: records, or the key cells of entries."""
    pairs = tx.view.entry_pairs(plan.type, scan.index) if scan.index else tx.view.record_pairs(plan.type)
    return (found for _, found in streamed(tx, pairs, scan_range(plan, scan), scan.reverse))


def common_keys(number, streams):
    """The key cells that all scans have, each of which rises; each scan is read to its end."""
    heads = [next(it, None) for it in streams]
    while any(it is not None for it in heads):
        places = [None if it is None else record_key(number, it) for it in heads]
        lowest = min(it for it in places if it is not None)
        is_common = all(it == lowest for it in places)
        if is_common:
            yield heads[0]
        dropped = range(len(heads)) if is_common else [places.index(lowest)]
        heads = [next(streams[at], None) if at in dropped else it for at, it in enumerate(heads)]


def fetched(tx, plan, node):
    """The records to which the entries of scans lead that have them in common."""
    streams = [found_by(tx, plan, it) for it in node.parts]
    for cells in common_keys(plan.type.number, streams) if len(streams) > 1 else streams[0]:
        tx.read(record_key(plan.type.number, cells))
        yield tx.view.records[plan.type.number, cells]


def merged(of, parts):
    """The records of parts that rise, merged by primary key, each once."""
    heads = [next(it, None) for it in parts]
    while any(it is not None for it in heads):
        places = [None if it is None else record_key(of.number, of.key_of(it)) for it in heads]
        lowest = min(it for it in places if it is not None)
        yield heads[places.index(lowest)]
        heads = [next(part, None) if place == lowest else it for part, place, it in zip(parts, places, heads)]


def first_ones(of, rows):
    """The first record of each primary key."""
    seen = set()
    for row in rows:
        if of.key_of(row) not in seen:
            seen.add(of.key_of(row))
            yield row


def rows_of(tx, plan, node):
    """The records that a step gives, one by one."""
    of = plan.type
    if isinstance(node, Scan):
        return found_by(tx, plan, node)
    if node.kind == "Fetch":
        return fetched(tx, plan, node)
    parts = [rows_of(tx, plan, it) for it in node.parts]
    return {
        "Filter": lambda: (row for row in parts[0] if truth(of, node.filter, row) is True),
        "Union": lambda: merged(of, parts),
        "UnorderedUnion": lambda: (row for part in parts for row in part),
        "Distinct": lambda: first_ones(of, parts[0]),
    }[node.kind]()


def executed(tx, plan):
    """The rows of a plan, which a query's meaning over the records must allow."""
    accept(tx.view, plan)
    rows = list(rows_of(tx, plan, plan.node))
    records = [cells for _, cells in tx.view.record_pairs(plan.type)]
    if not allows(plan.type, plan.query, records, rows):
        raise AssertionError(f"the plan {plan.node.text()} isn't the query's meaning: {rows}")
    return rows
