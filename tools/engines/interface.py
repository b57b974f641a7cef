"""The calls of the Python package, in one transaction after another: each row a call, and what it answers or raises."""
from collections.abc import Callable, Iterator
from contextlib import suppress
from functools import partial
from typing import Any

from record_store import BadCommand, Closed, Corrupt, Database, RecordError, RecordType, Refused, Schema, Transaction
from record_store import count_index, errors, field, sum_index, value_index
from record_store.engine import Engine
from record_store.form import SET, Mutation
from record_store.library import drive
from record_store.transaction import SCHEMA_KEY

BOOK = RecordType("book", {"title": str, "author": str, "copies": int, "cover": bytes}, "title")
LOAN = RecordType("loan", {"title": str, "day": int, "who": str}, ("title", "day"))
TAG, MARK = RecordType("tag", {"word": str}, "word"), RecordType("mark", {"word": str}, "word")
BOOKS = Schema([BOOK, LOAN], [value_index("by_author", "book", "author"), count_index("books", "book"),
                              sum_index("copies_of", "book", "author", summed="copies")])
EMMA: dict[str, Any] = {"title": "Emma", "author": "Austen", "copies": 3, "cover": b"\x00\xff"}
PERSUASION: dict[str, Any] = {"title": "Persuasion", "author": "Austen", "copies": -1, "cover": None}
ROMOLA = {"title": "Romola \u2603", "author": None, "copies": 2**63 - 1, "cover": b""}
LENT: dict[str, Any] = {"title": "Emma", "day": 7, "who": "x"}
AUSTEN, COPIES = field("author") == "Austen", field("copies")


def titles(tx: Transaction, *query: Any, **how: Any) -> list[Any]:
    return [it["title"] for it in tx.query("book", *query, **how)]


# a call in a transaction of its own, and what it answers, or the error that it raises
ROWS: list[tuple[Callable[[Any], Any], Any]] = [
    (lambda tx: tx.save("book", EMMA), None),
    (lambda tx: tx.save_each("book", [PERSUASION, ROMOLA, EMMA | {"copies": 4}]), [None, None, EMMA]),
    (lambda tx: tx.save("book", {"title": "Silas Marner", "author": "Eliot"}), None),
    (lambda tx: tx.load("book", "Silas Marner"), {"title": "Silas Marner", "author": "Eliot", "copies": None,
                                                  "cover": None}),
    (lambda tx: tx.load_each("book", ["Persuasion", "gone", ("Romola \u2603",), {"title": "Emma"}]),
     [PERSUASION, None, ROMOLA, EMMA | {"copies": 4}]),
    (lambda tx: [tx.save("loan", LENT), tx.load("loan", ("Emma", 7)), tx.load("loan", {"day": 8, "title": "Emma"})],
     [None, LENT, None]),
    (lambda tx: titles(tx, AUSTEN), ["Emma", "Persuasion"]),
    (lambda tx: titles(tx, AUSTEN & (COPIES > 0)), ["Emma"]),
    (lambda tx: titles(tx, (COPIES >= 4) & (COPIES <= 4) | ~(field("author") != "Eliot") & (field("author") < "F")),
     ["Emma", "Silas Marner"]),
    (lambda tx: titles(tx, field("title").starts_with("R") | (COPIES < 0)), ["Persuasion", "Romola \u2603"]),
    (lambda tx: titles(tx, field("author").is_none()), ["Romola \u2603"]),
    (lambda tx: titles(tx, field("cover") == b"\x00\xff"), ["Emma"]),
    (lambda tx: titles(tx, ["=", "author", "Eliot"]), ["Silas Marner"]),
    (lambda tx: titles(tx, sort="title", reverse=True), ["Silas Marner", "Romola \u2603", "Persuasion", "Emma"]),
    (lambda tx: tx.explain("book", AUSTEN).split("(")[:2], ["Fetch", "IndexScan"]),
    (lambda tx: [tx.aggregate("copies_of", author=it) for it in ("Austen", None, "nobody")], [3, 2**63 - 1, 0]),
    (lambda tx: tx.aggregate("books"), 4),
    (lambda tx: [tx.remove("book", "Persuasion"), tx.remove("book", "Persuasion"), tx.aggregate("books")],
     [True, False, 3]),
    (lambda tx: tx.add_index(value_index("by_copies", "book", "copies")), "disabled"),
    (lambda tx: [tx.make_write_only("by_copies"), tx.state("by_copies")], [None, "write-only"]),
    (lambda tx: tx.make_readable("by_copies"), errors.NotBuilt),
    (lambda tx: tx.build_step("by_copies", 2), (2, False)),
    (lambda tx: [tx.build_step("by_copies").records, tx.build_step("by_copies"), tx.make_readable("by_copies")],
     [1, (0, True), None]),
    (lambda tx: [tx.disable_index("by_copies"), tx.state("by_copies"), tx.drop_index("by_copies")],
     [None, "disabled", None]),
    (lambda tx: tx.state("by_copies"), errors.UnknownIndex),
    (lambda tx: [tx.add_type(TAG), tx.save("tag", {"word": "new"}), tx.load("tag", "new"), sorted(tx.schema.types)],
     [None, None, {"word": "new"}, ["book", "loan", "tag"]]),
    (lambda tx: [tx.add_type(MARK), tx.save("mark", {"word": "new"})], [None, None]),
    (lambda tx: [tx.add_field("mark", "uses", int), tx.load("mark", "new"), list(tx.schema.type("mark").fields)],
     [None, {"word": "new", "uses": None}, ["word", "uses"]]),
    (lambda tx: tx.save("mark", {"word": "new", "uses": 2}), {"word": "new", "uses": None}),
    (lambda tx: tx.add_field("mark", "uses", str), errors.NameTaken),
    (lambda tx: tx.add_field("mark", "share", float), TypeError),
    (lambda tx: [tx.add_index(count_index("marks", "mark", "uses", clear_when_zero=True)),
                 tx.schema.index("marks").clear_when_zero, tx.drop_index("marks")], ["disabled", True, None]),
    (lambda tx: tx.create(BOOKS), errors.AlreadyThere),
    (lambda tx: tx.save("film", {}), errors.UnknownType),
    (lambda tx: tx.save("book", {"title": None}), errors.NullKey),
    (lambda tx: tx.save("book", {"title": 7}), errors.WrongKind),
    (lambda tx: tx.save("book", {"titel": "x"}), errors.UnknownField),
    (lambda tx: tx.save("book", {"title": 1.5}), TypeError),
    (lambda tx: tx.save("book", {"title": True}), TypeError),
    (lambda tx: tx.save("book", {"title": "x", "copies": 2**63}), ValueError),
    (lambda tx: tx.save("book", {"title": "\ud800"}), UnicodeEncodeError),
    (lambda tx: tx.load("loan", {"title": "Emma"}), errors.NullKey),
    (lambda tx: tx.load("loan", ("Emma",)), errors.WrongKind),
    (lambda tx: tx.load("loan", LENT | {"who": "nobody"}), LENT),
    (lambda tx: tx.ask("save", 0, "book"), BadCommand),
    (lambda tx: tx.save("book", {"title": "x" * 4_000_000}), BadCommand),
    (lambda tx: tx.aggregate("copies_of"), errors.WrongKind),
    (lambda tx: tx.aggregate("copies_of", author="Austen", title="Emma"), errors.WrongKind),
    (lambda tx: titles(tx, AUSTEN and COPIES > 0), TypeError),
    (lambda tx: titles(tx, COPIES == None), TypeError),  # noqa: E711
    (lambda tx: Schema([BOOK, BOOK]), errors.NameTaken),
    (lambda tx: Schema([RecordType("real", {"a": float}, "a")]).json(), TypeError),
    (lambda tx: [tx.close(), tx.load("book", "Emma")], Closed),
    (lambda tx: [tx.commit(), tx.commit()], Closed),
    (lambda tx: [tx.save("book", EMMA), tx.close()][1:], [None]),
    (lambda tx: [tx.save("book", EMMA | {"copies": 5}), tx.commit()][:1], [EMMA | {"copies": 4}]),
    (lambda tx: [tx.load("book", "Emma")["copies"], tx.save("book", EMMA | {"copies": 4})["copies"]], [5, 5]),
    (lambda tx: [tx.save_each("book", []), tx.load_each("book", [])], [[], []]),
    (lambda tx: [next(it) for it in [tx.query("book", AUSTEN)]][0]["title"], "Emma"),
    (lambda tx: list(tx.query("loan", field("day") > 7)), []),
    (lambda tx: titles(tx, sort="copies"), errors.SortNotServed),
    (lambda tx: titles(tx, sort=["title", "title"]), errors.SortTwice),
    (lambda tx: titles(tx, field("gone") == 1), errors.UnknownField),
    (lambda tx: tx.aggregate("by_author", author="x"), errors.NotAggregate),
    (lambda tx: tx.save("book", EMMA | {"cover": bytes(100_001)}), errors.ValueTooLarge),
    (lambda tx: tx.save("book", EMMA | {"title": "x" * 10_001}), errors.KeyTooLarge),
    (lambda tx: tx.build_step("books", 0), errors.BadLimit),
    (lambda tx: titles(tx), ["Emma", "Romola \u2603", "Silas Marner"]),
]


# calls of a database, and what they answer or raise
CALLS: list[tuple[Callable[[Any], Any], Any]] = [
    (lambda db: db.make(BOOKS), False),
    (lambda db: db.make(Schema([TAG])), False),
    (lambda db: Database(db.engine, Schema([LOAN])).transact(lambda tx: tx.load("loan", ("Emma", 7))), LENT),
    (lambda db: Database(db.engine, Schema([RecordType("film", {"title": str}, "title")])), errors.OtherStore),
    (lambda db: Database(db.engine, Schema([RecordType("book", {"title": str}, "title")])), errors.OtherStore),
    (lambda db: Database(db.engine, Schema([BOOK], [count_index("by_author", "book", "author")])), errors.OtherStore),
    (lambda db: db.build(value_index("by_author", "book", "copies")), errors.NameTaken),
    (lambda db: db.build("gone"), errors.UnknownIndex),
    (lambda db: [db.build(value_index("by_author", "book", "author")), db.build("books")], [None, None]),
    (lambda db: db.transact(lambda tx: 1, attempts=0), ValueError),
    (lambda db: [it["title"] for it in db.transact(lambda tx: tx.query("book", sort="title"))],
     ["Emma", "Romola \u2603", "Silas Marner"]),
    (lambda db: unsaved(db), ["Emma", "Romola \u2603", "Silas Marner"]),
    (lambda db: found_again(db), 30),
    (lambda db: db.transact(half_refused), [BadCommand, None]),
    (lambda db: db.transact(titles), ["Emma", "Romola \u2603", "Silas Marner"]),
]


# records of which one script takes no more than 22
LARGE: list[dict[str, Any]] = [EMMA | {"title": f"m{it:02}", "cover": bytes([it + 1]) * 90_000} for it in range(30)]


def found_again(database: Database) -> int:
    """How many records are found as they were saved, more than one script takes; then they are gone."""
    keys = [it["title"] for it in LARGE]
    database.transact(lambda tx: tx.save_each("book", LARGE))
    found = database.transact(lambda tx: tx.load_each("book", keys))
    database.transact(lambda tx: [tx.remove("book", it) for it in keys])
    return sum(it == wanted for it, wanted in zip(found, LARGE, strict=True))


def half_refused(tx: Transaction) -> list[Any]:
    """What commands of two scripts come to, of which the last isn't of its form, and what the first one saved."""
    saves = [("save", "book", BOOK.cells(it)) for it in LARGE]
    return [told(partial(tx.perform, *saves, ("save", "book"))), tx.load("book", LARGE[0]["title"])]


def unsaved(database: Database) -> list[Any]:
    """The titles where a transaction ended in an error, and another one by `with`, without a commit."""
    leaves: list[Callable[[], object]] = [partial(next, iter(())), lambda: None]
    for leave in leaves:
        with suppress(StopIteration), database.begin() as tx:
            tx.save("book", {"title": "never"})
            leave()
    return database.transact(titles)


def told(call: Callable[[], Any]) -> Any:
    """What a call answers, or the type of what it raises."""
    try:
        return call()
    except Exception as why:
        return type(why)


def outcome(database: Database, body: Callable[[Transaction], Any]) -> Any:
    """What a call in a transaction answers, or the type of what it raises."""
    return told(lambda: database.transact(body))


def different(cases: list[tuple[Callable[[], Any], Any]]) -> Iterator[str]:
    """Of calls with what is wanted of each those that answer something else."""
    for number, (call, wanted) in enumerate(cases, 1):
        found = told(call)
        if found != wanted:
            yield f"row {number}: {found}, and not {wanted}"


def retried(database: Database) -> Any:
    """How often a body is run where another transaction writes what it reads, at its first two attempts."""
    runs: list[Any] = []

    def body(tx: Transaction) -> None:
        runs.append((tx.load("book", "Emma") or EMMA)["copies"])
        if len(runs) < 3:
            database.transact(lambda other: other.save("book", EMMA | {"copies": 10 * len(runs)}))
        tx.save("book", EMMA | {"copies": runs[-1] + 1})

    database.transact(body)
    return runs, (database.transact(lambda tx: tx.load("book", "Emma")) or EMMA)["copies"]


def wrong_calls(engine: Engine) -> Iterator[str]:
    """What of the package's calls isn't as it is said to be."""
    if outcome(Database(engine), lambda tx: tx.state("any")) is not errors.NoStore:
        yield "there is a store before one is made"
    database = Database(engine, BOOKS)
    if database.make(BOOKS) or sorted(database.transact(lambda tx: tx.schema).types) != ["book", "loan"]:
        yield "the store isn't that of the schema"
    yield from different([(partial(database.transact, body), wanted) for body, wanted in ROWS])
    yield from different([(partial(call, database), wanted) for call, wanted in CALLS])
    if retried(database) != ([4, 10, 20], 21):
        yield "a body that conflicts isn't run again as it should be"
    if not all(issubclass(it, Refused) and it.__doc__ for it in errors.REFUSALS.values()):
        yield "a refusal has no words"
    snapshot, _ = engine.begin([])
    snapshot.commit([], [Mutation(SET, SCHEMA_KEY, b"\x15\x02")], {})
    snapshot.close()
    if outcome(database, lambda tx: tx.perform(("state", "any"))) != [f"refused Corrupt {SCHEMA_KEY.hex()}"]:
        yield "damage isn't told"
    if outcome(database, lambda tx: tx.ask("state", "any")) is not Corrupt:
        yield "damage isn't raised"
    if outcome(database, lambda tx: tx.load("book", "Emma")) is not Corrupt:
        yield "damage of the schema isn't raised"
    if outcome(database, lambda tx: drive(b"\x02")) is not RecordError:
        yield "bytes of another form are taken"
