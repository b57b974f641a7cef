"""What a program may do to a database that it shouldn't, or hardly does: each row a call, and what comes of it.

Interrupts, forks, threads that share one database, transactions within one another, values at their edges, and an
outcome that isn't known.
"""
import os
import pickle
import random
import signal
import threading
from collections.abc import Callable, Iterator, Sequence
from contextlib import closing, suppress
from decimal import Decimal
from enum import IntEnum
from functools import partial, reduce
from itertools import islice
from operator import or_
from typing import Any

from interface import told
from record_store import BadCommand, Closed, Corrupt, Database, RecordError, RecordType, Schema, Transaction, Unknown
from record_store import count_index, errors, field, sum_index, value_index
from record_store.engine import Engine, Snapshot
from record_store.engines.etcd import Etcd
from record_store.form import CLEAR, SET, Mutation, Read, Want

# texts in the order of their code points, which is that of their bytes in UTF-8
TEXTS = ["", "\0", "\0\0", "\0\x01", "a", "a\0", "a\0b", "e\u0301", "z", "\x7f", "\x80", "\u00e9", "\u2028", "\ud7ff",
         "\ue000", "\uffff", "\U00010000", "\U0001f600", "\U0010ffff"]
BYTES = [b"", b"\0", b"\0\xff", b"\x7f", b"\xff", b"\xff\0", b"\xff\xff"]
INTS = [-2**63, -2**63 + 1, -2**32, -256, -255, -1, 0, 1, 255, 256, 2**31, 2**53 + 1, 2**63 - 1]
KEYS: list[tuple[str, type]] = [("text", str), ("blob", bytes), ("int", int)]
ROW = RecordType("row", {"key": int, "group": str, "n": int}, "key")
SCHEMA = Schema([*(RecordType(name, {"key": kind}, "key") for name, kind in KEYS),
                 ROW],
                [value_index("by_n", "row", "n"), count_index("rows", "row"), sum_index("sum", "row", summed="n")])
THREADS, TURNS, INTERRUPTS = 6, 15, 60
Row = tuple[str, Callable[[Any], Any], Any]


class Level(IntEnum):
    """An int by another name."""

    HIGH = 7


def in_order(database: Database, name: str, values: Sequence[Any]) -> list[Any]:
    """Saves records of these keys in a random order, and answers the keys that are found, by a scan and one by one."""
    mixed = random.Random(7).sample(values, len(values))
    database.transact(lambda tx: tx.save_each(name, [{"key": it} for it in mixed]))
    scanned = database.transact(lambda tx: [it["key"] for it in tx.query(name, sort="key")])
    loaded = database.transact(lambda tx: tx.load_each(name, scanned))
    return scanned if loaded == [{"key": it} for it in scanned] else loaded


def saving(**cells: Any) -> Callable[[Database], Any]:
    """A call that saves a row and loads it again."""
    def body(tx: Transaction) -> Any:
        tx.save("row", {"key": 9, **cells})
        return tx.load("row", 9)
    return lambda database: database.transact(body)


def nested(database: Database) -> list[Any]:
    """A transaction within another one, which reads what the first one wrote before, and conflicts with it once."""
    seen: list[Any] = []

    def body(tx: Transaction) -> None:
        seen.append(tx.aggregate("rows"))
        if len(seen) == 1:
            database.transact(lambda other: other.save("row", {"key": 1, "n": 5}))
        tx.save("row", {"key": 2, "n": len(seen)})

    database.transact(body)
    return [*seen, database.transact(lambda tx: tx.aggregate("sum"))]


def shared(database: Database) -> int:
    """How far threads that share one database count one record up."""
    def body(tx: Transaction) -> None:
        row = tx.load("row", 1) or {"n": 0}
        tx.save("row", {"key": 1, "n": row["n"] + 1})

    def turns() -> None:
        for _ in range(TURNS):
            database.transact(body, 1000)

    threads = [threading.Thread(target=turns) for _ in range(THREADS)]
    for thread in threads:
        thread.start()
    for thread in threads:
        thread.join()
    return database.transact(lambda tx: tx.aggregate("sum"))


def interrupted(database: Database) -> bool:
    """Whether a count is at least what was acknowledged, and at most that and what was interrupted, by a signal."""
    def interrupt(*_: object) -> None:
        raise KeyboardInterrupt

    done, cut, chance = 0, 0, random.Random(7)
    before = signal.signal(signal.SIGALRM, interrupt)
    try:
        for number in range(INTERRUPTS):
            try:
                signal.setitimer(signal.ITIMER_REAL, chance.uniform(0.0002, 0.012))
                database.transact(partial(Transaction.save, record_type="row", record={"key": number, "n": 1}))
                signal.setitimer(signal.ITIMER_REAL, 0)
                done += 1
            except KeyboardInterrupt:
                cut += 1
    finally:
        signal.setitimer(signal.ITIMER_REAL, 0)
        signal.signal(signal.SIGALRM, before)
    found, count, total = database.transact(
        lambda tx: (len(list(tx.query("row"))), tx.aggregate("rows"), tx.aggregate("sum")))
    return found == count == total and done <= found <= done + cut


def cut_off(database: Database) -> list[Any]:
    """What a transaction is after an interrupt while it read, and what it then commits."""
    with database.begin() as tx:
        tx.save("row", {"key": 3, "n": 1})
        plain = tx.given.add

        def add(read: Read) -> None:
            plain(read)
            raise KeyboardInterrupt

        vars(tx.given)["add"] = add
        with suppress(KeyboardInterrupt):
            tx.load("row", 4)
        return [told(lambda: tx.load("row", 4)), told(tx.commit), database.transact(lambda other: other.load("row", 3))]


def cut_commit(database: Database) -> list[Any]:
    """What is there of a commit that is interrupted after its first write, over a key that is written before."""
    engine, key = database.engine, Want(b"zz", b"zz\xff", 9)

    def writes() -> Iterator[Mutation]:
        yield Mutation(SET, b"zz1", b"new")
        yield Mutation(CLEAR, b"zz2", b"zz3")
        raise KeyboardInterrupt

    def commit(mutations: Any) -> list[tuple[bytes, bytes]]:
        snapshot, _ = engine.begin([])
        with closing(snapshot), suppress(KeyboardInterrupt):
            snapshot.commit([], mutations, {})
        other, (read,) = engine.begin([key])
        other.close()
        return read.pairs

    return [commit([Mutation(SET, b"zz2", b"old")]), commit(writes()), commit([Mutation(CLEAR, b"zz", b"zz\xff")])]


def forked(database: Database) -> list[Any]:
    """What a process that forks within a transaction is told, and what its parent's transaction comes to."""
    with database.begin() as tx:
        tx.save("row", {"key": 5, "n": 1})
        child = os.fork()
        if not child:
            try:
                found = [told(lambda: tx.load("row", 5)), told(tx.commit), told(database.begin), told(tx.close),
                         told(database.close)]
                os._exit(0 if found == [Closed, Closed, Closed, None, None] else 1)
            finally:
                os._exit(2)
        status = os.waitstatus_to_exitcode(os.waitpid(child, 0)[1])
        return [status, tx.load("row", 5), tx.commit() is not None]


def closed(database: Database) -> list[Any]:
    """What is told of a transaction and a database that are closed twice, the database under an open transaction."""
    other: Any = Database(Untold(database.engine))
    tx = other.begin()
    return [other.close(), other.close(), told(other.begin), tx.save("row", {"key": 6, "n": 1}), tx.close(), tx.close(),
            told(tx.commit), told(lambda: tx.query("row"))]


class Untold:
    """An engine that commits, and doesn't tell so the first time. It leaves the engine below it open."""

    def __init__(self, under: Engine) -> None:
        self.under, self.commits = under, 0

    def begin(self, wants: Sequence[Want]) -> tuple[Snapshot, list[Read]]:
        snapshot, reads = self.under.begin(wants)
        return UntoldSnapshot(self, snapshot), reads

    def close(self) -> None:
        pass


class UntoldSnapshot:
    """A snapshot of such an engine."""

    def __init__(self, engine: Untold, under: Snapshot) -> None:
        self.engine, self.under, self.version = engine, under, under.version

    def read(self, wants: Sequence[Want]) -> list[Read]:
        return self.under.read(wants)

    def commit(self, reads: Sequence[tuple[bytes, bytes]], mutations: Sequence[Mutation],
               known: dict[bytes, bytes]) -> int:
        version = self.under.commit(reads, mutations, known)
        self.engine.commits += 1
        if self.engine.commits == 1:
            raise Unknown("nothing is told")
        return version

    def close(self) -> None:
        self.under.close()


def untold(database: Database, repeatable: bool) -> list[Any]:
    """What is told of a commit whose outcome isn't known, how often it is made, and how many rows there are more."""
    engine, before = Untold(database.engine), database.transact(lambda tx: tx.aggregate("rows"))

    def body(tx: Transaction) -> None:
        tx.save("row", {"key": 100 + tx.aggregate("rows"), "n": 1})

    what = told(lambda: Database(engine).transact(body, repeatable=repeatable))
    return [what, engine.commits, database.transact(lambda tx: tx.aggregate("rows")) - before]


class Stuck(UntoldSnapshot):
    """A snapshot that reads nothing."""

    def read(self, wants: Sequence[Want]) -> list[Read]:
        return [Read(it.begin, it.begin, []) for it in wants]


def stuck(database: Database) -> Any:
    """What is told where an engine reads nothing of what is wanted."""
    snapshot, reads = database.engine.begin([])
    with Transaction(Stuck(Untold(database.engine), snapshot), reads) as tx:
        return told(lambda: tx.perform(("state", "sum")))


def half_read(database: Database) -> list[Any]:
    """Queries that are read in part, side by side, and after the end of their transaction."""
    def body(tx: Transaction) -> list[Any]:
        queries = [tx.query("int", sort="key", reverse=it) for it in (False, True)]
        seen = [[it["key"] for it in islice(query, 2)] for query in queries * 2]
        tx.save("int", {"key": 3})
        return [seen, queries[0]]

    seen, rest = database.transact(body)
    return [*seen, [it["key"] for it in rest]]


def pickled() -> list[Any]:
    """The errors that aren't what they were once they are put into bytes and back, as other processes get them."""
    kinds = [it for it in vars(errors).values() if isinstance(it, type) and issubclass(it, RecordError)]
    made = [Corrupt(b"\x15") if it is Corrupt else it("why") for it in kinds]
    return [it for it in made if repr(pickle.loads(pickle.dumps(it))) != repr(it) or not str(it)]


FIELD: Any = field("n")
MEMBERS: list[Any] = ["127.0.0.1:2379", [], ["localhost"], ["http://127.0.0.1:2379"], ["127.0.0.1:2379", ""]]
CELLS: list[dict[str, Any]] = [{"n": "1"}, {"n": b"1"}, {"group": 1}, {"group": b"x"}]


def etcd(members: Any, _: Database) -> Etcd:
    """The engine for etcd over these members, which aren't asked for anything."""
    return Etcd(members)


FULL = {"key": 9, "group": None, "n": None}
ROWS: list[Row] = [
    ("texts at their edges", lambda db: in_order(db, "text", TEXTS), TEXTS),
    ("bytes at their edges", lambda db: in_order(db, "blob", BYTES), BYTES),
    ("numbers at their edges", lambda db: in_order(db, "int", INTS), INTS),
    ("a number by another name", saving(n=Level.HIGH), FULL | {"n": 7}),
    *((f"a number that is too large: {it}", saving(n=it), ValueError) for it in (2**63, -2**63 - 1, 2**64, 10**30)),
    *((f"no number: {it!r}", saving(n=it), TypeError)
      for it in (1.0, float("nan"), float("inf"), True, Decimal(1), 1j, [1], {1}, object())),
    *((f"of another kind: {it!r}", saving(**it), errors.WrongKind)
      for it in CELLS),
    ("a lone surrogate", saving(group="a\ud800"), UnicodeEncodeError),
    ("a lone surrogate in a filter", lambda db: FIELD == "\udfff", UnicodeEncodeError),
    ("a number that is too large in a filter", lambda db: FIELD < 2**63, ValueError),
    ("a float in a filter", lambda db: FIELD < 0.5, TypeError),
    ("a field for a value", lambda db: FIELD == field("key"), TypeError),
    ("a filter and something else", lambda db: (FIELD == 1) & True, TypeError),
    ("a float in a list for a filter", lambda db: db.transact(lambda tx: list(tx.query("row", ["<", "n", 0.5]))),
     BadCommand),
    ("not a number in a list", lambda db: db.transact(lambda tx: list(tx.query("row", ["<", "n", float("nan")]))),
     BadCommand),
    ("bytes of other kinds", lambda db: db.transact(lambda tx: [
        tx.save("blob", {"key": memoryview(b"view")}), tx.load("blob", bytearray(b"view"))]),
     [None, {"key": b"view"}]),
    ("a filter of 200 alternatives", lambda db: db.transact(lambda tx: [it["key"] for it in tx.query(
        "int", reduce(or_, (field("key") == it for it in range(200))), sort="key")]), [0, 1]),
    ("a filter of 400 alternatives", lambda db: db.transact(lambda tx: list(tx.query(
        "int", reduce(or_, (field("key") == it for it in range(400)))))), errors.FilterTooLarge),
    ("a filter of 40 levels", lambda db: db.transact(lambda tx: list(tx.query(
        "int", reduce(lambda it, _: ~it, range(40), field("key") == 1)))), errors.TooDeep),
    ("one key for many", lambda db: db.transact(lambda tx: tx.load_each("text", "ab")), TypeError),
    ("one record for many", lambda db: db.transact(lambda tx: tx.save_each("text", {"key": "a"})),
     TypeError),
    ("a list for a record", lambda db: db.transact(lambda tx: tx.save("text", ["a"])), TypeError),
    ("no commands", lambda db: db.transact(lambda tx: tx.perform()), []),
    ("a transaction that does nothing", lambda db: db.transact(lambda tx: tx.commit()), None),
    ("queries that are read in part", half_read,
     [INTS[:2], INTS[:-3:-1], INTS[2:4], INTS[-3:-5:-1], INTS[4:]]),
    ("a transaction within another", lambda db: [db.transact(emptied), *nested(db)], [None, 0, 1, 7]),
    ("threads that share a database", lambda db: [db.transact(emptied), shared(db)], [None, THREADS * TURNS]),
    ("interrupts", lambda db: [db.transact(emptied), interrupted(db)], [None, True]),
    ("an interrupt within a read", lambda db: [db.transact(emptied), *cut_off(db)], [None, Closed, Closed, None]),
    ("an interrupt within a commit", cut_commit, [[(b"zz2", b"old")], [(b"zz2", b"old")], []]),
    ("a fork within a transaction", forked, [0, {"key": 5, "group": None, "n": 1}, True]),
    ("what is closed twice", closed, [None, None, Closed, None, None, None, Closed, Closed]),
    ("an outcome that isn't told", lambda db: untold(db, False), [Unknown, 1, 1]),
    ("an outcome that isn't told, repeatable", lambda db: untold(db, True), [None, 2, 2]),
    ("an engine that reads nothing", stuck, RecordError),
    *((f"members of etcd as {it!r}", partial(etcd, it), ValueError) for it in MEMBERS),
    ("errors in bytes", lambda db: pickled(), []),
]


def emptied(tx: Transaction) -> None:
    """Removes all rows."""
    for row in list(tx.query("row")):
        tx.remove("row", row["key"])


def different(engine: Engine) -> Iterator[str]:
    """The rows that come to something else over an engine."""
    database = Database(engine, SCHEMA)
    for shows, call, wanted in ROWS:
        found = told(partial(call, database))
        if found != wanted:
            yield f"{shows}: {found}, and not {wanted}"
