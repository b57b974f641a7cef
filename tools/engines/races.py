"""Clients and a builder on threads, over one engine: what must hold whatever they did."""
import threading
from collections.abc import Callable
from contextlib import suppress

from record_store import Database, Unavailable
from record_store.engine import Engine
from store import LATER, SCHEMA, Told, run_client, wrong_of

CLIENTS, BOOKS_A_STEP = 4, 1
# how many transactions a client makes, by the engine
EACH = {"memory": 300, "sqlite": 150, "etcd": 40, "postgres": 150}


def opened_at_last(open_engine: Callable[[], Engine]) -> Engine:
    """The engine, once it can be opened."""
    while True:
        with suppress(Unavailable):
            return open_engine()


def raced(open_engine: Callable[[], Engine], between: Callable[[], object] | None = None,
          each: int = 25) -> tuple[list[str], list[Told], dict[str, str]]:
    """Four clients and a builder race; what doesn't hold then, what was told, and how far the builder came.

    Each opens the engine for itself. `between` is called while they run.
    """
    Database(open_engine(), SCHEMA).close()
    told, failures = list[Told](), list[str]()

    def guarded(body: Callable[[Database], None]) -> None:
        engine = opened_at_last(open_engine)
        try:
            body(Database(engine))
        except Exception as why:
            failures.append(repr(why))
        finally:
            engine.close()

    def build(database: Database) -> None:
        for index in LATER:
            while True:
                with suppress(Unavailable):
                    database.build(index, BOOKS_A_STEP)
                    break

    bodies = [build, *(lambda it, name=f"c{number}": run_client(it, name, each, told) for number in range(CLIENTS))]
    threads = [threading.Thread(target=guarded, args=(it,)) for it in bodies]
    for thread in threads:
        thread.start()
    if between:
        between()
    for thread in threads:
        thread.join()
    engine = open_engine()
    try:
        return [*failures, *wrong_of(Database(engine), told)], told, states(Database(engine))
    finally:
        engine.close()


def states(database: Database) -> dict[str, str]:
    """The states of all indexes."""
    return database.transact(lambda tx: {name: tx.state(name) for name in tx.schema.indexes})
