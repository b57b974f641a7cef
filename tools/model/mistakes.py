"""Mistakes that are put into the model, one at a time, to see that random scripts find each of them."""
from contextlib import contextmanager
from dataclasses import replace
from typing import NamedTuple

import commands
import course
import database
import filters
import keys
import planning
import schemas
import sessions
import store
import transactions
from commands import COMMANDS
from keys import AFTER, FIRST, JUST_AFTER, Range
from replies import cells_of, cells_text


class Mistake(NamedTuple):
    """A mistake: what is wrong, whose part is changed, its name, and what it is in place of what it was."""

    name: str
    owner: object
    part: str
    wrong: object


@contextmanager
def made(mistake):
    """While a mistake is in the model."""
    parts = mistake.owner if isinstance(mistake.owner, dict) else vars(mistake.owner)
    right = parts[mistake.part]
    put(mistake.owner, mistake.part, mistake.wrong(right))
    try:
        yield
    finally:
        put(mistake.owner, mistake.part, right)


def put(owner, part, value):
    """Changes a part of a module, a class or a table."""
    if isinstance(owner, dict):
        owner[part] = value
    else:
        setattr(owner, part, value)


def with_states(change):
    """A function of a schema and states that is given other states."""
    return lambda right: lambda schema, states, of: right(schema, {it: change(at) for it, at in states.items()}, of)


def forgetful_scan(right):
    """A scan that keeps only what is before the last thing that it found."""
    def scan(tx, range_, pairs, limit, reverse):
        found = right(tx, range_, pairs, limit, reverse)
        if found and not reverse and len(found) < limit:
            part = tx.under(Range(range_.begin, found[-1][0] + JUST_AFTER))
            tx.reads = {part if it == tx.under(range_) else it: None for it in tx.reads}
        return found
    return scan


def silent_load(right):
    """A load that keeps nothing as read where there is no record."""
    def load(tx, name, given):
        reads = dict(tx.reads)
        reply = right(tx, name, given)
        if reply == "none":
            tx.reads = {it: None for it in list(tx.reads)[:max(len(reads), 2)]}
        return reply
    return load


def merged_twice(right):
    """A union that gives a record as often as its parts have it."""
    return lambda of, parts: iter(sorted((row for part in parts for row in part), key=lambda it: str(of.key_of(it))))


def greedy_build(right):
    """A step that counts all of the gap as built, whatever its limit."""
    def build(tx, name, limit):
        reply = right(tx, name, limit)
        if reply != "finished":
            number = tx.view.schema.index_named(name).number
            tx.view.built[number] = AFTER
        return reply
    return build


def newest_view(right):
    """A read that sees what is committed by now."""
    def command(session, client, kind, parts):
        tx = session.open[client]
        if not tx.writes:
            tx.view = session.database.view(tx.number)
        return right(session, client, kind, parts)
    return command


def unordered_cause(right):
    """A resolver that takes the ranges in the order of places and not in that of reading."""
    def cause(self, resolver, at):
        request = self.requests[at]
        reads, request.reads = request.reads, sorted(request.reads)
        found = right(self, resolver, at)
        request.reads = reads
        return found
    return cause


def oldest_seen(right):
    """A resolver that tells the first version after the read version, and not the newest one that wrote."""
    def cause(self, resolver, at):
        found = right(self, resolver, at)
        return found and (self.requests[at].version + 1, found[1])
    return cause


def trusting_cause(right):
    """A resolver that counts requests to which it agreed only where all agreed."""
    def cause(self, resolver, at):
        requests = list(self.requests)
        silent = [it for it in range(at) if not requests[it].is_committed()]
        self.requests = [replace(it, writes=[]) if number in silent else it for number, it in enumerate(requests)]
        found = right(self, resolver, at)
        self.requests = requests
        return found
    return cause


def renumbered(right):
    """A schema that gives a dropped index's number again."""
    return lambda schema, index: right(schema, index)._replace(
        last=max((it.number for it in schema.indexes if it != index), default=0))


def plan_lost_at_end(right):
    """A client that forgets its plan when its transaction ends."""
    def commit(session, client):
        session.plans.pop(client, None)
        return right(session, client)
    return commit


def plan_lost_by_refusal(right):
    """A client that forgets its plan when it asks for one that is refused."""
    def command(session, client, kind, parts):
        reply = right(session, client, kind, parts)
        if kind == "plan" and reply.startswith("refused"):
            session.plans.pop(client, None)
        return reply
    return command


def zero_added(right):
    """A SUM whose share of 0 is written too."""
    def changes(of, index, old, new):
        if index.kind != schemas.SUM:
            return right(of, index, old, new)
        groups = {index.group(it) for it in (old, new) if it is not None}
        return [store.Write(store.keys.point(store.keys.total_key(index.number, it)), 8) for it in groups]
    return changes


def readable_at_once(right):
    """An index that is readable although its type has records."""
    def add_index(tx, asked):
        right(tx, asked)
        tx.view.states[tx.view.schema.last] = store.READABLE
        return store.READABLE
    return add_index


def told_early(right):
    """A total of an index that is being built."""
    def aggregate(tx, name, given):
        states = tx.view.states
        tx.view.states = {it: state.replace(store.WRITE_ONLY, store.READABLE) for it, state in states.items()}
        try:
            return right(tx, name, given)
        finally:
            tx.view.states = states
    return aggregate


def unlimited(right):
    """A total without a bound."""
    def total(view, index, group):
        members = [it for (number, _), it in view.records.items() if number == index.type]
        return sum(index.share(it) for it in members if index.group(it) == group)
    return total


def short_passed_over(right):
    """A field that is appended, behind which records that lack it aren't found."""
    def add_field(tx, name, asked):
        reply = right(tx, name, asked)
        number = tx.view.schema.type_named(name).number
        tx.view.records = {key: record for key, record in tx.view.records.items() if key[0] != number}
        return reply
    return add_field


def exact_type(right):
    """A kept plan that wants the fields with which it was made, and no more."""
    def accept(view, plan):
        of = next((it for it in view.schema.types if it.number == plan.type.number), None)
        if of is not None and len(of.fields) != len(plan.type.fields):
            raise schemas.Refused("OtherSchema")
        return right(view, plan)
    return accept


def null_last(right):
    """A sort in which null comes last."""
    def compared(one, other):
        return -right(one, other) if one is None or other is None else right(one, other)
    return compared


def two_valued(right):
    """A `not` that is true of what is unknown."""
    return lambda kind, found: found[0] is not True if kind == "not" else right(kind, found)


def null_below(right):
    """A bound from below that takes nulls in."""
    def bound_range(begin, kind, cell):
        found = right(begin, kind, cell)
        return found._replace(begin=begin) if kind in ("<", "<=") else found
    return bound_range


def reader_of_first(right):
    """A writer that reads the built range that begins first, up to the begin of all positions alone."""
    def read_built(tx, of, cells):
        for index in tx.view.write_only_totals(of):
            tx.keep(store.keys.point(store.keys.built_key(index.number, FIRST)))
    return read_built


def early_window(right):
    """A window that is a version shorter."""
    def read_refusal(self, known, version):
        return right(self, known, version) or ("TooOld" if known - version == self.window else None)
    return read_refusal


def lost_commit(right):
    """A report to nobody that drops what was committed."""
    def lost(session):
        before = session.database.stores[-1]
        reply = right(session)
        if reply != "nothing":
            session.database.stores[-1] = before
        return reply
    return lost


def unchanged_save(right):
    """A save that writes nothing where the record is the same."""
    def save(tx, name, given):
        writes = list(tx.writes)
        reply = right(tx, name, given)
        if reply == f"saved over {cells_text(cells_of(given))}":
            tx.writes[:] = writes
        return reply
    return save


def plan_of_store(right):
    """A client that keeps a plan of each store, and not just its last one."""
    def command(session, client, kind, parts):
        kept, number = session.__dict__.setdefault("of_stores", {}), session.open[client].number
        session.plans.pop(client, None)
        if (client, number) in kept:
            session.plans[client] = kept[client, number]
        reply = right(session, client, kind, parts)
        if client in session.plans:
            kept[client, number] = session.plans[client]
        return reply
    return command


def busy_first(right):
    """A beginning whose client is looked at before its store."""
    def begin(session, client, number=1):
        if client in session.open:
            raise schemas.Refused("Busy")
        return right(session, client, number)
    return begin


def begun_again(right):
    """A client that stays in the store in which it began first."""
    def begin(session, client, number=1):
        firsts = session.__dict__.setdefault("firsts", {})
        reply = right(session, client, firsts.get(client, number))
        firsts.setdefault(client, number)
        return reply
    return begin


MISTAKES = [
    Mistake("a write-only index is read", planning, "paths_of",
            with_states(lambda it: "readable" if it == "write-only" else it)),
    Mistake("a disabled index is read", planning, "paths_of",
            with_states(lambda it: "readable" if it == "disabled" else it)),
    Mistake("a record that comes into a scanned range is no conflict", transactions.Transaction, "scan",
            forgetful_scan),
    Mistake("a record that isn't there isn't read", COMMANDS, "load", silent_load),
    Mistake("a union gives a row twice", course, "merged", merged_twice),
    Mistake("a step counts all of the gap as built", COMMANDS, "build", greedy_build),
    Mistake("an index is readable that isn't built", commands, "first_gap", lambda right: lambda view, number: None),
    Mistake("an index over records is readable at once", COMMANDS, "index", readable_at_once),
    Mistake("a total is told that is being built", COMMANDS, "aggregate", told_early),
    Mistake("a total isn't cut to 64 bits", store.Store, "total", unlimited),
    Mistake("records that lack an appended field aren't found", COMMANDS, "field", short_passed_over),
    Mistake("a kept plan is refused where a field was appended", course, "accept", exact_type),
    Mistake("a batch has a pair fewer", course, "BATCH", lambda right: 63),
    Mistake("a cleared range's end isn't in the size", store.Write, "size",
            lambda right: lambda write: len(write.range.begin.spelled) + (write.length or 0)),
    Mistake("an intersection leaves a conjunct out", planning, "with_residual",
            lambda right: lambda node, parts, used: right(node, parts[:2], used)),
    Mistake("a writer reads another built range than its own", commands, "read_built", reader_of_first),
    Mistake("a writer reads no built range", commands, "read_built", lambda right: lambda tx, of, cells: None),
    Mistake("a read sees what is committed by now", sessions.Session, "command", newest_view),
    Mistake("only the lowest resolver decides", database.Request, "is_committed",
            lambda right: lambda self: not self.causes[0]),
    Mistake("resolvers learn what others refuse", database.Database, "cause", trusting_cause),
    Mistake("the cause is the first range by place", database.Database, "cause", unordered_cause),
    Mistake("the first newer version is told as the cause", database.Database, "cause", oldest_seen),
    Mistake("the window is a version shorter", database.Database, "read_refusal", early_window),
    Mistake("a server tells versions that it hasn't pulled", database.Database, "read_refusal",
            lambda right: lambda self, known, version: None if version > known else right(self, known, version)),
    Mistake("a lost report drops the commit", sessions.Session, "lost", lost_commit),
    Mistake("all stores are store 1", database.Database, "view", lambda right: lambda self, number: right(self, 1)),
    Mistake("the places of all stores are those of store 1", keys, "root", lambda right: lambda number: right(1)),
    Mistake("the place of a store is that of the next number", keys, "root",
            lambda right: lambda number: right(number + 1)),
    Mistake("a client stays in its first store", sessions.Session, "begin", begun_again),
    Mistake("a client keeps a plan of each store", sessions.Session, "command", plan_of_store),
    Mistake("there is a store 0", sessions, "STORES", lambda right: range(65_536)),
    Mistake("there is no store 65,535", sessions, "STORES", lambda right: range(1, 65_535)),
    Mistake("an open transaction comes before a number of no store", sessions.Session, "begin", busy_first),
    Mistake("a dropped index's number is given again", commands, "without_index", renumbered),
    Mistake("a plan is forgotten with its transaction", sessions.Session, "commit", plan_lost_at_end),
    Mistake("a plan is forgotten by a refused one", sessions.Session, "command", plan_lost_by_refusal),
    Mistake("a share of 0 is written", store, "changes", zero_added),
    Mistake("null comes last in a sort", filters, "compared", null_last),
    Mistake("a filter has two truth values", filters, "joined", two_valued),
    Mistake("less than a value takes null in", planning, "bound_range", null_below),
    Mistake("a save of the same record writes nothing", COMMANDS, "save", unchanged_save),
]
