"""Transactions on a record store."""
from __future__ import annotations

import json
import os
from collections.abc import Iterable, Iterator, Mapping, Sequence
from typing import Any, NamedTuple

from .engine import Snapshot
from .errors import Closed, Corrupt, NoStore, RecordError, refusal
from .filters import Filter
from .form import NOTHING_WRITTEN, Answer, Given, Read, Want, answered, mutations
from .library import drive
from .schema import KINDS, Cell, Index, Record, RecordType, Schema, compact, names, several

# where a store keeps its schema, and the states of its indexes: each command reads both
SCHEMA_KEY = bytes.fromhex("150114")
STATES = bytes.fromhex("1501150500"), bytes.fromhex("15011505ff")
# a script has 4,000,000 bytes at most, of which some stand around its steps
LONGEST_SCRIPT = 3_999_900
SCHEMA_COMMANDS = {"create", "type", "field", "index", "drop"}
OPENING = (Want(SCHEMA_KEY, SCHEMA_KEY + b"\0", 1), Want(*STATES, 64))


class Built(NamedTuple):
    """How many records a step of a builder built, and whether all are built now."""

    records: int
    finished: bool


class Transaction:
    """A transaction on a record store, whose reads see its own writes.

    It is made by `Database.transact`, which commits it, or by `Database.begin`, and is used by one thread at a time. It
    holds all that it has read, until it is dropped itself. Once it is committed or closed each call raises Closed.
    """

    def __init__(self, snapshot: Snapshot, reads: Iterable[Read]) -> None:
        self.snapshot, self.given, self.written = snapshot, Given(snapshot.version), NOTHING_WRITTEN
        self.conflicts: dict[tuple[bytes, bytes], None] = {}
        self.changes_schema, self.is_open, self.process = False, True, os.getpid()
        self.rounds, self.calls, self.decoded = 0, 0, (b"", Schema([]))
        for read in reads:
            self.given.add(read)

    @property
    def version(self) -> int:
        """The version that the transaction reads."""
        return self.snapshot.version

    def perform(self, *commands: Sequence[Any]) -> list[str]:
        """Performs commands as scripts have them, without a client, and answers the text of each reply.

        Where an error is raised, as by a read, none of them is performed; an interrupt ends the transaction.
        """
        self.check_open()
        before, replies = self.written, list[str]()
        self.changes_schema |= any(command[0] in SCHEMA_COMMANDS for command in commands)
        try:
            for script in scripts([name, 0, *parts] for name, *parts in commands):
                replies += self.replies_to(script)
        except BaseException as why:
            self.written = before
            if not isinstance(why, (RecordError, TypeError, ValueError)):
                self.close()  # what was read may be noted in part
            raise
        return replies

    def replies_to(self, script: bytes) -> list[str]:
        """Performs the commands of a script, and answers the text of each reply."""
        wanted: list[Want] = []
        while True:
            self.calls += 1
            answer = answered(drive(self.given.bytes(self.written, script)))
            if isinstance(answer, Answer):
                break
            if answer == wanted:
                raise RecordError(f"the engine reads nothing of what is wanted: {wanted}")
            self.rounds += 1
            wanted = answer
            for read in self.snapshot.read(wanted):
                self.given.add(read)
        self.conflicts.update(dict.fromkeys(answer.reads))
        self.written = answer.written
        return answer.replies

    def check_open(self) -> None:
        """Raises Closed where the transaction has ended, or is another process's."""
        if not self.is_open or self.process != os.getpid():
            raise Closed(Closed.__doc__)

    def ask(self, *command: Any) -> str:
        """Performs a command, and answers the text of its reply. A refusal is raised."""
        return accepted(self.perform(command)[0])

    @property
    def schema(self) -> Schema:
        """The schema of the store, as the transaction sees it."""
        data = self.given.values.get(SCHEMA_KEY)
        for mutation in mutations(self.written) if self.changes_schema else ():
            if mutation.first == SCHEMA_KEY:
                data = mutation.second
        if data is None:
            raise NoStore(NoStore.__doc__)
        if self.decoded[0] != data:
            try:
                self.decoded = data, Schema.of_bytes(data)
            except (ValueError, LookupError, TypeError, RecursionError, RecordError) as why:
                raise Corrupt(SCHEMA_KEY) from why
        return self.decoded[1]

    def create(self, schema: Schema) -> None:
        """Makes the store, where there is none."""
        self.ask("create", schema.json())

    def save(self, record_type: str, record: Mapping[str, Cell]) -> Record | None:
        """Puts a record in the place of the one with its key, and answers that one, if there was one."""
        return self.save_each(record_type, [record])[0]

    def save_each(self, record_type: str, records: Iterable[Mapping[str, Cell]]) -> list[Record | None]:
        """Saves records, in as few rounds of reads as one takes.

        Where some are refused the others are saved all the same, and the first refusal is raised.
        """
        kind = self.schema.type(record_type)
        replies = self.perform(*(("save", record_type, kind.cells(record)) for record in several(records)))
        return [saved_over(kind, accepted(reply)) for reply in replies]

    def load(self, record_type: str, key: Mapping[str, Cell] | Sequence[Cell] | Cell) -> Record | None:
        """The record of a key, or None. A key of several fields is a tuple or a mapping."""
        return self.load_each(record_type, [key])[0]

    def load_each(self, record_type: str, keys: Iterable[Any]) -> list[Record | None]:
        """The records of keys, in as few rounds of reads as one takes."""
        kind = self.schema.type(record_type)
        replies = self.perform(*(("load", record_type, kind.key_cells(key)) for key in several(keys)))
        return [found(kind, accepted(reply)) for reply in replies]

    def remove(self, record_type: str, key: Mapping[str, Cell] | Sequence[Cell] | Cell) -> bool:
        """Takes out the record of a key, and tells whether there was one."""
        return self.ask("remove", record_type, self.schema.type(record_type).key_cells(key)) == "removed"

    def query(self, record_type: str, where: Filter | list[Any] | None = None, sort: str | Iterable[str] = (),
              reverse: bool = False) -> Iterator[Record]:
        """The records of a type that meet a filter, in the order of the fields of a sort, if there are any.

        The query is asked at once, and answered as a text that has all rows; each record is made when it is taken, also
        after the transaction has ended. There are no pages: what a query reads is held as long as the transaction is.
        """
        kind = self.schema.type(record_type)
        return rows(kind, self.ask("query", query_json(record_type, where, sort, reverse)).removeprefix("rows "))

    def explain(self, record_type: str, where: Filter | list[Any] | None = None,
                sort: str | Iterable[str] = (), reverse: bool = False) -> str:
        """The plan of a query."""
        return self.ask("plan", query_json(record_type, where, sort, reverse)).removeprefix("plan ")

    def aggregate(self, index: str, /, **group: Cell) -> int:
        """The total of a COUNT or SUM index for the group of records with these columns, each of which is given."""
        cells = self.schema.index(index).group_cells(group)
        return int(self.ask("aggregate", index, cells).removeprefix("total "))

    def add_type(self, record_type: RecordType) -> None:
        """Adds a type of records to the store."""
        self.ask("type", record_type.json())

    def add_field(self, record_type: str, name: str, kind: type) -> None:
        """Appends a field to a type. Records that are there have None in it."""
        if kind not in KINDS:
            raise TypeError(f"a field is of int, str or bytes, and {name} of {kind!r}")
        self.ask("field", record_type, [name, KINDS[kind]])

    def add_index(self, index: Index) -> str:
        """Adds an index, and answers its state: readable, or disabled where there are records of its type."""
        return self.ask("index", index.json())

    def drop_index(self, index: str) -> None:
        """Drops an index."""
        self.ask("drop", index)

    def disable_index(self, index: str) -> None:
        """Disables an index."""
        self.ask("disable", index)

    def make_write_only(self, index: str) -> None:
        """Marks an index write-only, without a built position: `build_step` builds it."""
        self.ask("write_only", index)

    def make_readable(self, index: str) -> None:
        """Marks a write-only index readable, once every position of it is built."""
        self.ask("readable", index)

    def build_step(self, index: str, limit: int = 100) -> Built:
        """Builds a part of a write-only index, of at most so many records, fewer than 2**32."""
        words = self.ask("build", index, limit).split(" ")
        return Built(0, True) if words[0] == "finished" else Built(int(words[1]), False)

    def state(self, index: str) -> str:
        """The state of an index: readable, write-only or disabled."""
        return self.ask("state", index)

    def commit(self) -> int | None:
        """Commits what was written, and answers the version, or None where nothing was written. It ends either way."""
        self.check_open()
        writes = mutations(self.written)
        try:
            return self.snapshot.commit(list(self.conflicts), writes, self.given.values) if writes else None
        finally:
            self.close()

    def close(self) -> None:
        """Ends the transaction, if it is open and this process's. What isn't committed is dropped."""
        self.is_open = False
        if self.process == os.getpid():
            self.snapshot.close()

    def __enter__(self) -> Transaction:
        return self

    def __exit__(self, *_: object) -> None:
        self.close()


def scripts(steps: Iterable[Sequence[Any]]) -> Iterator[bytes]:
    """Scripts of these steps, each no longer than one may be, unless a step is by itself."""
    part: list[str] = []
    size = 0
    for step in map(compact, steps):
        if part and size + len(step) > LONGEST_SCRIPT:
            yield script_of(part)
            part, size = [], 0
        part.append(step)
        size += len(step) + 1
    yield script_of(part)


def script_of(steps: Sequence[str]) -> bytes:
    """The script of these steps, each of which is JSON."""
    return f'{{"steps":[{",".join(steps)}]}}'.encode()


def accepted(reply: str) -> str:
    """A reply that is no refusal."""
    if reply.startswith("refused "):
        raise refusal(reply.removeprefix("refused "))
    return reply


def saved_over(kind: RecordType, reply: str) -> Record | None:
    """The record in whose place one was saved."""
    return kind.record(json.loads(reply.removeprefix("saved over "))) if reply.startswith("saved over ") else None


def found(kind: RecordType, reply: str) -> Record | None:
    """The record that was found."""
    return kind.record(json.loads(reply.removeprefix("found "))) if reply.startswith("found ") else None


def rows(kind: RecordType, text: str) -> Iterator[Record]:
    """The records of a list of rows in JSON without blanks, each made when it is taken."""
    decode, at = json.JSONDecoder().raw_decode, 1
    while text[at] != "]":
        cells, at = decode(text, at)
        at += text[at] == ","
        yield kind.record(cells)


def query_json(record_type: str, where: Filter | list[Any] | None, sort: str | Iterable[str],
               reverse: bool) -> dict[str, Any]:
    """A query as the record layer reads it."""
    query: dict[str, Any] = {"type": record_type}
    if where is not None:
        query["filter"] = where.json() if isinstance(where, Filter) else list(where)
    if sort := names(sort):
        query["sort"] = sort
    return query | ({"reverse": True} if reverse else {})
