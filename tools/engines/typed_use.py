"""What a checker of types says of programs that use the package: it is never run, and checked by types_checked.

Where a line has a comment to ignore an error, the checker must find that error there.
"""
from __future__ import annotations

from collections.abc import Iterator
from typing import Any

from record_store import Built, Database, Filter, Index, RecordType, Schema, Transaction, field, value_index
from record_store.engine import Engine
from record_store.engines.etcd import Etcd
from record_store.engines.memory import Memory
from record_store.engines.postgres import Postgres
from record_store.engines.sqlite import Sqlite


def right(engine: Engine) -> None:
    """Lines that are right."""
    book = RecordType("book", {"title": str, "copies": int, "cover": bytes}, key="title")
    index: Index = value_index("by_copies", "book", "copies")
    with Database(engine, Schema([book], [index])) as db:
        before: dict[str, Any] | None = db.transact(lambda tx: tx.save("book", {"title": "Emma", "copies": None}))
        copies: list[int] = db.transact(lambda tx: [it["copies"] + 1 for it in tx.query("book", field("copies") > 2)])
        gone: bool = db.transact(lambda tx: tx.remove("book", ("Emma",)), attempts=3, repeatable=True)
        print(before, copies, gone)
    with db.begin() as tx:
        total: int = tx.aggregate("copies_of", author=None)
        rows: Iterator[dict[str, Any]] = tx.query("book", ~field("title").starts_with(b"x"), sort=["title"])
        built: Built = tx.build_step("by_copies", limit=7)
        version: int | None = tx.commit()
        print(total, next(rows)["title"], built.records, version)


ENGINES: list[Engine] = [Sqlite("a.db"), Memory(), Postgres("dbname=a"), Etcd(["127.0.0.1:2379"], prefix=b"a/")]


def wrong(db: Database, tx: Transaction) -> None:
    """Lines of which each has an error."""
    Sqlite(7)  # type: ignore[arg-type]
    Etcd(["127.0.0.1:2379"], prefix="a/")  # type: ignore[arg-type]
    Database("a.db")  # type: ignore[arg-type]
    db.transact(lambda: 1)  # type: ignore[arg-type, misc]
    db.transact(lambda tx: tx.load("book", 1.5))  # type: ignore[arg-type]
    tx.load("book", "Emma")["copies"]  # type: ignore[index]
    tx.save("book", {"copies": 1.5})  # type: ignore[dict-item]
    tx.save("book", ["Emma"])  # type: ignore[arg-type]
    tx.query("book", where="title")  # type: ignore[arg-type]
    tx.aggregate("copies_of", "Austen")  # type: ignore[call-arg]
    both: Filter = (field("a") == 1) & True  # type: ignore[operator]
    field("a") < 1.5  # type: ignore[operator]
    RecordType("book", ["title"], key="title")  # type: ignore[arg-type]
    print(both)
