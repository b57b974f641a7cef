"""A record store in an engine: transactions that are tried again."""
from __future__ import annotations

import os
import random
import time
from collections.abc import Callable
from typing import TypeVar

from .engine import Engine
from .errors import AlreadyThere, Closed, Conflict, NameTaken, OtherStore, Unknown
from .schema import Index, Schema
from .transaction import OPENING, Transaction

T = TypeVar("T")
ATTEMPTS = 100
FIRST_WAIT, LONGEST_WAIT = 0.001, 0.25


class Database:
    """A record store in an engine. It may be used by several threads, and not by a process that was forked since.

    With a schema the store is made where there is none. A store that is there must have each of its types and indexes
    just so, and may have others: else OtherStore is raised. Without a schema it is taken as it is.
    """

    def __init__(self, engine: Engine, schema: Schema | None = None) -> None:
        self.engine, self.process, self.is_open = engine, os.getpid(), True
        if schema is not None and not self.make(schema):
            wanted = schema
            if lacking := self.transact(lambda tx: tx.schema.lacks(wanted)):
                raise OtherStore(f"the store's schema lacks {', '.join(lacking)}, or has it otherwise")

    def begin(self) -> Transaction:
        """A transaction over the newest version. It is to be committed or closed: `with` closes it at its end."""
        if not self.is_open or self.process != os.getpid():
            raise Closed(Closed.__doc__)
        return Transaction(*self.engine.begin(OPENING))

    def transact(self, body: Callable[[Transaction], T], attempts: int = ATTEMPTS, repeatable: bool = False) -> T:
        """Runs a function in a transaction and commits it. After a conflict it is run again in a new one.

        So the function may run several times, and should change nothing but by the transaction. Where it raises an
        error nothing is committed; it may also commit or close the transaction itself. The last conflict is raised
        where there were as many as `attempts`. `Unknown` is raised at once, since the transaction may be committed,
        unless it is said to be `repeatable`: that it may be made twice.
        """
        for attempt in range(1, attempts + 1):
            try:
                with self.begin() as tx:
                    result = body(tx)
                    if tx.is_open:
                        tx.commit()
                    return result
            except (Conflict, Unknown) as why:
                if attempt == attempts or isinstance(why, Unknown) and not repeatable:
                    raise
            time.sleep(random.uniform(0, min(LONGEST_WAIT, FIRST_WAIT * 2 ** min(attempt, 16))))
        raise ValueError("a transaction takes one attempt at least")

    def make(self, schema: Schema) -> bool:
        """Makes the store, and tells whether it did: where there is one it is left as it is."""
        try:
            self.transact(lambda tx: tx.create(schema))
        except AlreadyThere:
            return False
        return True

    def build(self, index: Index | str, limit: int = 100) -> None:
        """Builds an index in steps, each a transaction, while others write; then it is readable.

        An index that is given whole is added first, unless it is there. One that was being built is built further.
        """
        name = index if isinstance(index, str) else index.name
        self.transact(lambda tx: begin_building(tx, index, name), repeatable=True)
        while not self.transact(lambda tx: is_built(tx, name, limit), repeatable=True):
            pass

    def close(self) -> None:
        """Lets go of the engine, once; in a process that was forked it is left to the other one."""
        if self.is_open and self.process == os.getpid():
            self.engine.close()
        self.is_open = False

    def __enter__(self) -> Database:
        return self

    def __exit__(self, *_: object) -> None:
        self.close()


def begin_building(tx: Transaction, index: Index | str, name: str) -> None:
    """Adds an index, unless it is there, and marks one that is disabled write-only."""
    there = tx.schema.indexes.get(name)
    if not isinstance(index, str):
        if there is None:
            tx.add_index(index)
        elif there.json() != index.json():
            raise NameTaken(f"there is another index {name}: {there.json()}")
    if tx.state(name) == "disabled":
        tx.make_write_only(name)


def is_built(tx: Transaction, index: str, limit: int) -> bool:
    """Builds a part of an index, or makes it readable where there is none left; whether it is readable now."""
    if tx.state(index) == "readable":
        return True
    if not tx.build_step(index, limit).finished:
        return False
    tx.make_readable(index)
    return True
