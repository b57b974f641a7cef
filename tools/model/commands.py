"""What each command of a client replies, reads, writes and changes, in the transaction in which it is performed."""
import keys
from course import executed
from filters import check, query_of
from keys import FIRST, JUST_AFTER, Range
from planning import plan_of
from replies import cells_of, cells_text, rows_text
from schemas import KINDS, VALUE, Refused, schema_bytes, schema_of, with_field, with_index, with_type, without_index
from store import (DISABLED, READABLE, WRITE_ONLY, Write, changes, cleared_index, first_gap, kept_changes,
                   record_write)

def schema_write(schema):
    """The write of a schema."""
    return Write(keys.point(keys.SCHEMA), len(schema_bytes(schema)))


def opened(tx):
    """The view of an open store; each command reads its schema and the states of its indexes first."""
    tx.open()
    if tx.view.schema is None:
        raise Refused("NoStore")
    return tx.view


def cells_for(given, kinds, may_be_null=()):
    """Cells of these kinds; refused where one is of another kind, or null where it may not be."""
    cells = cells_of(given)
    if len(cells) != len(kinds) or any(it is not None and not isinstance(it, kind) for it, kind in zip(cells, kinds)):
        raise Refused("WrongKind")
    return cells


def refuse_null(cells):
    if None in cells:
        raise Refused("NullKey")


def key_for(of, given):
    """The key cells of a type that a script gives."""
    cells = cells_for(given, [KINDS[of.fields[at][1]] for at in of.key])
    refuse_null(cells)
    return cells


def create(tx, asked):
    schema = schema_of(asked)
    tx.open()
    if tx.view.schema is not None:
        raise Refused("AlreadyThere")
    tx.write([schema_write(schema)])
    tx.view.schema = schema
    tx.view.states = {it.number: READABLE for it in schema.indexes}
    return "ok"


def add_type(tx, asked):
    view = opened(tx)
    schema = with_type(view.schema, asked)
    tx.write([schema_write(schema)])
    view.schema = schema
    return "ok"


def add_field(tx, name, asked):
    """No record is written: those that are there have null in the new field."""
    view = opened(tx)
    schema = with_field(view.schema, name, asked)
    tx.write([schema_write(schema)])
    view.schema = schema
    view.widen(schema.type_named(name).number)
    return "ok"


def add_index(tx, asked):
    """A new index is readable where its type has no record; else it is disabled."""
    view = opened(tx)
    schema = with_index(view.schema, asked)
    index = schema.indexes[-1]
    of = schema.types[index.type - 1]
    found = tx.scan(keys.records_of(of.number), view.record_pairs(of), 1, False)
    state = DISABLED if found else READABLE
    tx.write([schema_write(schema)] + [Write(keys.point(keys.state_key(index.number)), 2)] * bool(found))
    view.schema = schema
    view.states[index.number] = state
    return state


def drop(tx, name):
    view = opened(tx)
    index = view.schema.index_named(name)
    schema = without_index(view.schema, index)
    tx.write([schema_write(schema), Write(keys.point(keys.state_key(index.number))), *cleared_index(index.number)])
    view.schema = schema
    del view.states[index.number]
    view.built.pop(index.number, None)
    return "ok"


def marked(tx, name, state):
    """An index is marked in any state: nothing is kept of it any more."""
    view = opened(tx)
    index = view.schema.index_named(name)
    tx.write([Write(keys.point(keys.state_key(index.number)), 2), *cleared_index(index.number)])
    view.states[index.number] = state
    view.built.pop(index.number, None)
    return "ok"


def disable(tx, name):
    return marked(tx, name, DISABLED)


def write_only(tx, name):
    return marked(tx, name, WRITE_ONLY)


def state(tx, name):
    view = opened(tx)
    return view.states[view.schema.index_named(name).number]


def write_only_named(view, name):
    """The index of a name that is being built."""
    index = view.schema.index_named(name)
    if view.states[index.number] != WRITE_ONLY:
        raise Refused("WrongState")
    return index


def readable(tx, name):
    view = opened(tx)
    index = write_only_named(view, name)
    tx.read_range(keys.built_of(index.number))
    if first_gap(view, index.number) is not None:
        raise Refused("NotBuilt")
    tx.write([Write(keys.point(keys.state_key(index.number))), Write(keys.built_of(index.number))])
    view.states[index.number] = READABLE
    view.built.pop(index.number, None)
    return "ok"


def build(tx, name, limit):
    """The first records in the first gap are built, up to a limit, or all of the gap where they are fewer."""
    view = opened(tx)
    index = write_only_named(view, name)
    tx.read_range(keys.built_of(index.number))
    gap = first_gap(view, index.number)
    if gap is None:
        return "finished"
    of = view.schema.types[index.type - 1]
    place = keys.key(keys.RECORDS, of.number)
    found = tx.scan(Range(place + gap.begin, place + gap.end), view.record_pairs(of), limit, False)
    end = gap.end if len(found) < limit else keys.position(of.key_of(found[-1][1])) + JUST_AFTER
    writes = [write for _, record in found for write in changes(of, index, None, record)]
    tx.write([*writes, Write(keys.point(keys.built_key(index.number, FIRST)), len(end.spelled))])
    view.built[index.number] = end
    return f"built {len(found)} {Range(gap.begin, end).text()}"


def aggregate(tx, name, given):
    view = opened(tx)
    index = view.schema.index_named(name)
    if index.kind == VALUE:
        raise Refused("NotAggregate")
    fields = view.schema.types[index.type - 1].fields
    group = cells_for(given, [KINDS[fields[at][1]] for at in index.columns])
    if view.states[index.number] != READABLE:
        raise Refused("NotReadable")
    tx.read(keys.total_key(index.number, group))
    return f"total {view.total(index, group)}"


def read_built(tx, of, cells):
    """Reads, of each total that is being built, the range that begins at a record's position or last before it."""
    for index in tx.view.write_only_totals(of):
        begin = keys.built_key(index.number, FIRST)
        has_one = [(begin, None)] if index.number in tx.view.built else []
        end = keys.built_key(index.number, keys.position(cells)) + JUST_AFTER
        tx.scan(Range(keys.built_of(index.number).begin, end), has_one, 1, True)


def save(tx, name, given):
    view = opened(tx)
    of = view.schema.type_named(name)
    record = cells_for(given, of.kinds())
    cells = of.key_of(record)
    refuse_null(cells)
    tx.read(keys.record_key(of.number, cells))
    old = view.records.get((of.number, cells))
    read_built(tx, of, cells)
    tx.write([record_write(of, record), *kept_changes(view, of, old, record)])
    view.put(of, cells, record)
    return "saved new" if old is None else f"saved over {cells_text(old)}"


def load(tx, name, given):
    view = opened(tx)
    of = view.schema.type_named(name)
    cells = key_for(of, given)
    tx.read(keys.record_key(of.number, cells))
    found = view.records.get((of.number, cells))
    return "none" if found is None else f"found {cells_text(found)}"


def remove(tx, name, given):
    view = opened(tx)
    of = view.schema.type_named(name)
    cells = key_for(of, given)
    place = keys.record_key(of.number, cells)
    tx.read(place)
    old = view.records.get((of.number, cells))
    if old is None:
        return "none"
    read_built(tx, of, cells)
    tx.write([Write(keys.point(place)), *kept_changes(view, of, old, None)])
    view.put(of, cells, None)
    return "removed"


def planned(tx, given):
    """The plan of a query, by the states of indexes that the transaction sees."""
    view, query = opened(tx), query_of(given)
    of = check(view.schema, query)
    return plan_of(view.schema, view.states, of, query)


def plan(tx, given):
    tx.planned = planned(tx, given)
    return f"plan {tx.planned.node.text()}"


def query(tx, given):
    return f"rows {rows_text(executed(tx, planned(tx, given)))}"


def execute(tx, kept):
    opened(tx)
    return f"rows {rows_text(executed(tx, kept))}"


COMMANDS = {
    "create": create, "type": add_type, "field": add_field, "index": add_index, "drop": drop, "disable": disable,
    "write_only": write_only, "readable": readable, "state": state, "build": build, "aggregate": aggregate,
    "save": save, "load": load, "remove": remove, "plan": plan, "query": query, "execute": execute,
}
