"""A store of books for tests: what clients do in it, and what must hold of it whatever they did."""
import random
import time
from collections import Counter
from collections.abc import Iterator, Sequence
from functools import partial
from typing import Any

from record_store import Database, Index, RecordType, Schema, Transaction, Unavailable, Unknown
from record_store import count_index, field, sum_index, value_index
from record_store.form import Want

AUTHORS = ("Austen", "Eliot", "Melville")
TITLES = [f"t{number}" for number in range(8)]
BOOK = RecordType("book", {"title": str, "author": str, "copies": int}, "title")
# a mark for each transaction that is acknowledged, so that one that is lost is missed
MARK = RecordType("mark", {"client": str, "number": int}, ("client", "number"))
SCHEMA = Schema([BOOK, MARK], [value_index("by_author", "book", "author"),
                               sum_index("copies_of", "book", "author", summed="copies")])
# what a builder builds while clients write
LATER = (count_index("books_of", "book", "author"), value_index("by_copies", "book", "copies"),
         sum_index("all_copies", "book", summed="copies"))
# where the entries of an index of a number stand
ENTRIES = bytes.fromhex("15011502")
MANY = 4096
# a transaction by its client and number, and what was told of it
Told = tuple[str, int, str]


def work(tx: Transaction, client: str, number: int, chance: random.Random) -> None:
    """Saves, moves or removes a book, and marks that it did."""
    title = chance.choice(TITLES)
    book = tx.load("book", title)
    if book is not None and chance.random() < 0.2:
        tx.remove("book", title)
    else:
        tx.save("book", {"title": title, "author": chance.choice(AUTHORS),
                         "copies": (book["copies"] if book else 0) + chance.randrange(1, 4)})
    tx.save("mark", {"client": client, "number": number})


def run_client(database: Database, client: str, count: int, told: list[Told]) -> None:
    """Runs transactions, and adds the number of each, with what is told of it."""
    chance = random.Random(client)
    for number in range(count):
        try:
            database.transact(partial(work, client=client, number=number, chance=chance), 1000)
            told.append((client, number, "committed"))
        except Unknown:
            told.append((client, number, "unknown"))
        except Unavailable:
            told.append((client, number, "unavailable"))
            time.sleep(0.05)


def wrong_of(database: Database, told: Sequence[Told] = ()) -> Iterator[str]:
    """What doesn't hold of the store: indexes and totals as its records have them, and each acknowledged mark."""
    with_all = Database(database.engine)
    tx = with_all.begin()
    try:
        yield from wrong_of_records(tx)
        marks = {(it["client"], it["number"]) for it in tx.query("mark")}
    finally:
        tx.close()
    by_outcome: dict[str, set[tuple[str, int]]] = {"committed": set(), "unknown": set(), "unavailable": set()}
    for client, number, what in told:
        by_outcome[what].add((client, number))
    if lost := by_outcome["committed"] - marks:
        yield f"acknowledged and lost: {sorted(lost)}"
    if made := by_outcome["unavailable"] & marks:
        yield f"told as not written, and there: {sorted(made)}"
    if told and marks - {(client, number) for client, number, _ in told}:
        yield "marks that nobody made"


def wrong_of_records(tx: Transaction) -> Iterator[str]:
    """What of the indexes isn't as all records have it, which are read by a scan."""
    books: list[dict[str, Any]] = list(tx.query("book"))
    for index in tx.schema.indexes.values():
        if tx.state(index.name) != "readable":
            continue
        groups: Counter[tuple[Any, ...]] = Counter()
        for book in books:
            groups[tuple(book[it] for it in index.columns)] += book["copies"] if index.kind == "sum" else 1
        if index.kind == "value":
            yield from wrong_entries(tx, index, books, groups)
            continue
        for group in {*groups, *(((it,) for it in AUTHORS) if index.columns else [()])}:
            total = tx.aggregate(index.name, **dict(zip(index.columns, group)))
            if total != groups[group]:
                yield f"{index.name} of {group} is {total}, and by the records {groups[group]}"


def wrong_entries(tx: Transaction, index: Index, books: list[dict[str, Any]],
                  groups: Counter[tuple[Any, ...]]) -> Iterator[str]:
    """What of a VALUE index isn't as the records have it: what queries find by it, and how many entries it has."""
    column = index.columns[0]
    for (key,) in groups:
        plan = tx.explain("book", field(column) == key)
        if f"IndexScan({index.name}" not in plan:
            yield f"the plan isn't by {index.name}: {plan}"
        rows = sorted(tx.query("book", field(column) == key), key=lambda it: str(it["title"]))
        if rows != [it for it in books if it[column] == key]:
            yield f"by {index.name} {key} are {rows}"
    place = list(tx.schema.indexes).index(index.name) + 1
    begin = ENTRIES + bytes((0x15, place))
    entries = tx.snapshot.read([Want(begin, begin + b"\xff", MANY)])[0]
    if len(entries.pairs) != len(books):
        yield f"{index.name} has {len(entries.pairs)} entries of {len(books)} records"
