"""Measures the record layer over each engine beside the bare engine, and prints tables of what it finds.

    python3 tools/engines/figures.py

It installs and starts what tools/engines/test.py does. Times are medians, of one client. A round trip is a call of the
engine that a server would answer: the begin of a transaction with what a store always reads, each round of reads, and
the commit.
"""
from __future__ import annotations

import argparse
import statistics
import sys
import threading
import time
from collections.abc import Callable
from functools import partial
from typing import TYPE_CHECKING, Any

from test import Tests, main

if TYPE_CHECKING:
    from record_store import Database, Transaction
    from record_store.engine import Engine

TRIES, ROWS = 60, 100
# hosts, how many keys each chooses among, and how many saves it makes
HOSTS, KEYS, EACH = (2, 4, 8), (1, 10, 100, 1000), 100
# how many saves a transaction has
SAVES = (100, 400, 1600)


def median(body: Callable[[int], object]) -> float:
    """The median time of a call, in milliseconds."""
    times = []
    for number in range(TRIES):
        since = time.perf_counter()
        body(number)
        times.append(1000 * (time.perf_counter() - since))
    return statistics.median(times)


def trips(database: Database, body: Callable[[Transaction], object]) -> int:
    """How many round trips a transaction takes; of etcd how often it is called."""
    calls, engine = list[object](), vars(database.engine)
    post = getattr(database.engine, "post", None)
    if post:
        engine["post"] = lambda call: calls.append(call) or post(call)  # type: ignore[func-returns-value]
    tx = database.begin()
    body(tx)
    committed = tx.commit() is not None
    engine.pop("post", None)
    return len(calls) or 1 + tx.rounds + committed


def rows_of() -> dict[str, Callable[[Transaction, int], object]]:
    """The commands that are measured: what each is, and a function of a transaction and a number."""
    from record_store import field
    record: dict[str, Any] = {"title": "x", "author": "Austen", "copies": 1}
    return {
        "a load": lambda tx, n: tx.load("book", f"r{n % ROWS:03}"),
        "a save under a VALUE and a SUM index": lambda tx, n: tx.save("book", record | {"title": f"s{n}"}),
        "a save over a record": lambda tx, n: tx.save("book", record | {"title": "r000", "copies": n}),
        f"a query of {ROWS} rows by an index": lambda tx, n: list(tx.query("book", field("author") == "Eliot")),
        f"{ROWS} saves in one transaction and one call": lambda tx, n: tx.save_each(
            "book", [record | {"title": f"m{n}-{it}"} for it in range(ROWS)]),
    }


def bare_of(engine: Engine) -> dict[str, Callable[[int], None]]:
    """The bare engine: a point that is read, and a pair that is committed with it."""
    from record_store.form import SET, Mutation, Want

    def read(_: int) -> None:
        snapshot, _reads = engine.begin([Want(b"x", b"x\0", 1)])
        snapshot.close()

    def write(number: int) -> None:
        snapshot, (found,) = engine.begin([Want(b"x", b"x\0", 1)])
        snapshot.commit([(b"x", b"x\0")], [Mutation(SET, b"x", str(number).encode())], dict(found.pairs))
        snapshot.close()

    return {"the bare engine: a key is read": read, "the bare engine: a key is read and written": write}


def transacted(database: Database, body: Callable[[Transaction, int], object], number: int) -> None:
    """Runs a command in a transaction of its own."""
    database.transact(lambda tx: body(tx, number))


def measured(opened: Callable[[], Engine]) -> dict[str, tuple[int, float]]:
    """For each row its round trips and its time over an engine."""
    from record_store import Database
    from store import SCHEMA
    engine = opened()
    database = Database(engine, SCHEMA)
    rows: list[dict[str, Any]] = [{"title": f"r{it:03}", "author": "Eliot", "copies": it} for it in range(ROWS)]
    database.transact(lambda tx: tx.save_each("book", rows))
    found = {}
    for name, body in rows_of().items():
        count = trips(database, lambda tx, body=body: body(tx, TRIES))  # type: ignore[misc]
        found[name] = count, median(partial(transacted, database, body))
    for name, bare in bare_of(engine).items():
        found[name] = (2 if "written" in name else 1), median(bare)
    return found


def conflicts(hosts: int, keys: int) -> float:
    """How many of the attempts are refused where hosts save records among so many keys, in one SUM group."""
    from record_store import Database
    from record_store.engines.memory import Memory
    from store import SCHEMA
    database, attempts = Database(Memory(), SCHEMA), [0] * hosts

    def body(tx: Transaction, host: int, number: int) -> None:
        attempts[host] += 1
        title = f"t{hash((host, number)) % keys}"
        book = tx.load("book", title)
        time.sleep(0.001)  # what a network would take
        tx.save("book", {"title": title, "author": "Austen", "copies": (book["copies"] if book else 0) + 1})

    def host_body(host: int) -> None:
        for number in range(EACH):
            database.transact(lambda tx: body(tx, host, number), 10_000)

    threads = [threading.Thread(target=host_body, args=(host,)) for host in range(hosts)]
    for thread in threads:
        thread.start()
    for thread in threads:
        thread.join()
    return 1 - hosts * EACH / sum(attempts)


def a_save(count: int, together: int) -> float:
    """How many milliseconds one of so many saves of a transaction takes over memory, so many in each call."""
    from record_store import Database
    from record_store.engines.memory import Memory
    from store import SCHEMA
    rows: list[dict[str, Any]] = [{"title": f"r{it}", "author": "Eliot", "copies": it} for it in range(count)]
    with Database(Memory(), SCHEMA).begin() as tx:
        since = time.perf_counter()
        for at in range(0, count, together):
            tx.save_each("book", rows[at:at + together])
        return 1000 * (time.perf_counter() - since) / count


def print_table(head: list[str], rows: list[list[str]]) -> None:
    """Prints a table as documents have it."""
    print("\n".join(f"| {' | '.join(it)} |" for it in [head, ["---"] * len(head), *rows]) + "\n", flush=True)


def figures(folder: str, _: object) -> int:
    """Prints the tables."""
    tests = Tests(folder, argparse.Namespace(only="", program=None))
    try:
        found = {name: measured(opened) for name, opened in tests.engines("figures").items()}
    finally:
        tests.stop()
    print_table(["What: trips, ms", *found],
                [[row, *(f"{it[row][0]}, {it[row][1]:.2f}" for it in found.values())] for row in found["memory"]])
    print_table(["Hosts", *(f"{it:,} key{'s' * (it > 1)}" for it in KEYS)],
                [[str(hosts), *(f"{100 * conflicts(hosts, it):.0f}%" for it in KEYS)] for hosts in HOSTS])
    print_table(["Saves in a transaction", "one at a time: ms a save", "in one call"],
                [[str(count), f"{a_save(count, 1):.2f}", f"{a_save(count, count):.3f}"] for count in SAVES])
    return 0


if __name__ == "__main__":
    sys.exit(main(argparse.ArgumentParser(description=__doc__, formatter_class=argparse.RawDescriptionHelpFormatter),
                  figures))
