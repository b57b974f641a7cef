"""A transaction: its store, what it sees, what it has read and written, and the commands that it has done."""
from itertools import accumulate

import keys
from commands import COMMANDS
from keys import JUST_AFTER, Range
from schemas import Refused


class Transaction:
    """What a client does in a store at a read version; `ask` refuses a range that its servers can't tell."""

    def __init__(self, number, version, view, ask):
        self.number, self.version, self.view, self.ask = number, version, view, ask
        # the ranges read in order, each once
        self.reads = {}
        self.writes, self.size, self.done, self.planned = [], 0, [], None

    def under(self, range_):
        """A range of the store among all places of the database."""
        root = keys.root(self.number)
        return Range(root + range_.begin, root + range_.end)

    def keep(self, range_):
        """Notes a range as read, once."""
        self.reads.setdefault(self.under(range_))

    def read_range(self, range_):
        """Reads all of a range."""
        self.ask(self.under(range_), self.version)
        self.keep(range_)

    def read(self, place):
        """Reads one thing."""
        self.read_range(keys.point(place))

    def open(self):
        """Reads the schema and the states of indexes."""
        self.read(keys.SCHEMA)
        self.read_range(keys.STATES)

    def scan(self, range_, pairs, limit, reverse):
        """The first pairs of a range, or the last ones; what decides them is the range through the last of these."""
        self.ask(self.under(range_), self.version)
        found = [it for it in pairs if range_.has(it[0])]
        found = found[::-1][:limit] if reverse else found[:limit]
        self.keep(range_ if len(found) < limit else through(range_, found[-1][0], reverse))
        return found

    def write(self, writes):
        """Notes what is written; refused with the first limit that is broken."""
        writes = [it._replace(range=self.under(it.range)) for it in writes]
        ends = list(accumulate((it.size() for it in writes), initial=self.size))
        refusal = next((it for it in (write.refusal(before) for write, before in zip(writes, ends)) if it), None)
        if refusal:
            raise Refused(refusal)
        self.writes += writes
        self.size = ends[-1]

    def perform(self, kind, *parts):
        """The reply to a command, which is done where it isn't refused."""
        try:
            reply = COMMANDS[kind](self, *parts)
        except Refused as why:
            return f"refused {why}"
        self.done.append((kind, parts, reply))
        return reply


def through(range_, last, reverse):
    """The part of a range up to the last thing that was found in it."""
    return Range(last, range_.end) if reverse else Range(range_.begin, last + JUST_AFTER)


def applied(number, store, done):
    """The store of a number after a transaction's commands, each of which must have the same reply there."""
    tx = Transaction(number, None, store.copy(), lambda range_, version: None)
    for kind, parts, reply in done:
        again = tx.perform(kind, *parts)
        if again != reply:
            raise AssertionError(f"{kind} {parts} replied {reply}, and {again} just before its own version")
    return tx.view
