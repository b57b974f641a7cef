"""The rule of a commit, tried on an engine: where others wrote what was read, the commit is refused.

Each row has the pairs that there are, what a transaction reads, what another one commits after that, and whether the
first one may commit then. The ones that an engine is likely to get wrong: a deletion in a range that was read, a new
key in one where nothing was found, two transactions of which each writes what the other reads, and one that overwrites
what the other read and commits first.
"""
import random
import threading
from collections.abc import Iterator, Sequence
from contextlib import closing, suppress

from record_store.engine import Engine
from record_store.errors import Conflict, TooLarge
from record_store.form import ADD, CLEAR, COMPARE_AND_CLEAR, SET, Mutation, Want

Pairs = Sequence[tuple[bytes, bytes]]

MANY = 1 << 20
# so many threads write one key at once, so many times
AT_ONCE, TURNS = 4, 10
NOUGHT, ONE, TWO = bytes(8), (1).to_bytes(8, "little"), (2).to_bytes(8, "little")
LESS = (2**64 - 1).to_bytes(8, "little")
AA, AB, AC, B, C, Z = b"aa", b"ab", b"ac", b"b", b"c", b"z"
THREE = [(AA, b"1"), (AB, b"2"), (AC, b"3")]
# keys that differ in zero bytes alone, and bytes that can't be compressed
ZEROS = [(b"a", b"1"), (b"a\0", b""), (b"a\0\0", b"\0"), (b"a\0\xff", b"4")]
LARGE = random.Random(7).randbytes(100_000)


def point(key: bytes) -> Want:
    return Want(key, key + b"\0", 1)


def put(key: bytes, value: bytes = b"new") -> Mutation:
    return Mutation(SET, key, value)


def clear(begin: bytes, end: bytes) -> Mutation:
    return Mutation(CLEAR, begin, end)


def add(key: bytes, operand: bytes = ONE) -> Mutation:
    return Mutation(ADD, key, operand)


def compare(key: bytes, operand: bytes = NOUGHT) -> Mutation:
    return Mutation(COMPARE_AND_CLEAR, key, operand)


ALL = Want(b"a", b"b", MANY)
# what a row shows, the pairs before, the read, what another one commits, and whether the reader may commit after that
ROWS: list[tuple[str, Pairs, Want, list[Mutation], bool]] = [
    ("a key that was there is written", THREE, point(AB), [put(AB)], False),
    ("a key that was there is written anew with its value", THREE, point(AB), [put(AB, b"2")], False),
    ("a key that was there is cleared", THREE, point(AB), [clear(AB, AB + b"\0")], False),
    ("a key that was there is cleared and put again", THREE, point(AB), [clear(AB, AC), put(AB, b"2")], False),
    ("a key that wasn't there is written", [], point(AB), [put(AB)], False),
    ("a key that was there is added to", [(AB, ONE)], point(AB), [add(AB)], False),
    ("a key that wasn't there is added to", [], point(AB), [add(AB)], False),
    ("a key that was there is compared, and cleared", [(AB, ONE)], point(AB), [compare(AB, ONE)], False),
    ("a key that was there is added to, compared and cleared", [(AB, ONE)], point(AB), [add(AB, LESS), compare(AB)],
     False),
    ("a key in a range is compared, and cleared", THREE, ALL, [compare(AB, b"2")], False),
    ("a key in a range is written", THREE, ALL, [put(AB)], False),
    ("a key in a range is cleared", THREE, ALL, [clear(AB, AC)], False),
    ("all keys in a range are cleared", THREE, ALL, [clear(b"a", b"b")], False),
    ("a key comes into a range", THREE, ALL, [put(b"abc")], False),
    ("a key comes into a range that was empty", [], ALL, [put(b"abc")], False),
    ("the first key of a range is written", THREE, Want(AA, AC, MANY), [put(AA)], False),
    ("the end of a range is written", THREE, Want(AA, AC, MANY), [put(AC)], True),
    ("a key before a range is written", THREE, Want(AB, AC, MANY), [put(AA)], True),
    ("keys outside a range are cleared", THREE, Want(AB, AC, MANY), [clear(AA, AB), clear(AC, B)], True),
    ("a clear that finds nothing in a range", THREE, Want(B, Z, MANY), [clear(b"a", Z)], True),
    ("a key next to one that was read is written", THREE, point(AB), [put(AB + b"\0"), put(AC)], True),
    ("nothing that was read", THREE, point(C), [put(AA), add(B)], True),
    ("a key that ends in zero bytes is written", ZEROS, point(b"a\0\0"), [put(b"a\0\0")], False),
    ("a key that ends in zero bytes is cleared", ZEROS, point(b"a\0"), [clear(b"a\0", b"a\0\0")], False),
    ("keys with more zero bytes are written", ZEROS, point(b"a"), [put(b"a\0"), put(b"a\0\0\0")], True),
    ("a range that ends in zero bytes", ZEROS, Want(b"a\0", b"a\0\0", MANY), [put(b"a"), put(b"a\0\0")], True),
    ("one of many keys in a range is cleared", [(b"a%d" % it, b"") for it in range(100)], ALL, [clear(b"a7", b"a70")],
     False),
]
# pairs that are to stand as they were put
KEPT: list[tuple[str, Pairs]] = [
    ("keys that differ in zero bytes alone", ZEROS),
    ("a value of 100,000 bytes, and an empty one", [(AA, LARGE), (AB, b"")]),
    ("keys of 2,500 bytes", [(b"a" + LARGE[it:it + 2499], LARGE[it:it + 9]) for it in range(0, 50_000, 2499)]),
]
# what a row shows, the value before, what two transactions write to one key that neither has read, and what stands then
SUMS: list[tuple[str, bytes | None, list[Mutation], list[Mutation], bytes | None]] = [
    ("two add where nothing is", None, [add(C)], [add(C)], TWO),
    ("two add", ONE, [add(C)], [add(C, LESS)], ONE),
    ("one puts, one adds", ONE, [put(C, TWO)], [add(C)], (3).to_bytes(8, "little")),
    ("one adds, one clears and adds", TWO, [add(C)], [clear(B, Z), add(C)], ONE),
    ("one adds, one adds, puts and adds", TWO, [add(C)], [add(C), put(C, ONE), add(C)], TWO),
    ("a sum wraps", ONE, [add(C, LESS)], [add(C, LESS)], LESS),
    ("a sum is as long as what is added", b"\xff\xff\xff", [add(C, b"\x01\x00")], [], b"\x00\x00"),
    ("a short value is longer then", b"\xff", [add(C, b"\x01\x00")], [], b"\x00\x01"),
    ("two take one each, and the last one clears", TWO, [add(C, LESS), compare(C)], [add(C, LESS), compare(C)], None),
    ("one takes the last one, one adds", ONE, [add(C, LESS), compare(C)], [add(C)], ONE),
    ("one adds, one takes one", ONE, [add(C)], [add(C, LESS), compare(C)], ONE),
    ("another value is compared", ONE, [compare(C)], [compare(C, TWO)], ONE),
    ("fewer zero bytes are compared", NOUGHT, [compare(C, bytes(7))], [compare(C, bytes(9))], NOUGHT),
    ("nothing is compared", None, [compare(C)], [compare(C, b"")], None),
    ("an empty value is compared", b"", [compare(C, b"")], [], None),
    ("what was put is compared, and put again", ONE, [put(C, NOUGHT), compare(C), compare(C)], [add(C, TWO)], TWO),
    ("what is cleared is compared", NOUGHT, [clear(B, Z), compare(C), add(C)], [compare(C, ONE), add(C)], ONE),
    ("what is compared is added to", NOUGHT, [compare(C), add(C)], [compare(C), add(C)], TWO),
]


def committed(engine: Engine, mutations: Sequence[Mutation], reads: Sequence[Want] = ()) -> int:
    """Commits writes in a transaction of their own."""
    snapshot, found = engine.begin(reads)
    known = {key: value for read in found for key, value in read.pairs}
    try:
        return snapshot.commit([(it.begin, it.end) for it in reads], mutations, known)
    finally:
        snapshot.close()


def fill(engine: Engine, pairs: Pairs) -> None:
    """Leaves just these pairs."""
    committed(engine, [clear(b"a", Z), *(put(*it) for it in pairs)])


def value(engine: Engine, key: bytes) -> bytes | None:
    """What stands at a key."""
    snapshot, (read,) = engine.begin([point(key)])
    snapshot.close()
    return dict(read.pairs).get(key)


def may_commit(engine: Engine, want: Want, others: Sequence[Mutation]) -> bool:
    """Whether a transaction that has read this may commit after another one has."""
    snapshot, (read,) = engine.begin([want])
    try:
        committed(engine, others)
        again = snapshot.read([want])
        if again != [read]:
            raise AssertionError(f"a snapshot changed from {read} to {again}")
        snapshot.commit([(want.begin, want.end)], [put(Z + b"z")], dict(read.pairs))
        return True
    except Conflict:
        return False
    finally:
        snapshot.close()


def summed(engine: Engine, first: Sequence[Mutation], second: Sequence[Mutation]) -> bytes | str | None:
    """What stands at a key to which two write that haven't read it, or why the second one may not."""
    older, _ = engine.begin([])
    try:
        committed(engine, first)
        older.commit([], second, {})
    except Conflict as why:
        return repr(why)
    finally:
        older.close()
    return value(engine, C)


def stands(engine: Engine, pairs: Pairs) -> bool:
    """Whether just these pairs are there."""
    snapshot, (read,) = engine.begin([Want(b"a", Z, MANY)])
    snapshot.close()
    return read.pairs == sorted(pairs)


def kept(engine: Engine, pairs: Pairs) -> bool:
    """Whether just these pairs are there once they are put."""
    fill(engine, pairs)
    return stands(engine, pairs)


def longest(engine: Engine) -> bool:
    """Whether a key of 10,000 bytes is kept, or refused as too large with nothing written."""
    fill(engine, THREE)
    pairs = [*THREE, (b"a" + LARGE[:9999], b"long")]
    try:
        return kept(engine, pairs)
    except TooLarge:
        return stands(engine, THREE)


def skew(engine: Engine) -> list[bool]:
    """Whether of two transactions that each write what the other reads just the first one commits."""
    fill(engine, THREE)
    pairs = [engine.begin([point(it)]) for it in (AA, AB)]
    told = []
    for (snapshot, (read,)), other in zip(pairs, (AB, AA)):
        try:
            snapshot.commit([(read.begin, read.end)], [put(other)], dict(read.pairs))
            told.append(True)
        except Conflict:
            told.append(False)
        finally:
            snapshot.close()
    return told


def ordered(engine: Engine) -> list[tuple[object, ...]]:
    """What reads give of a range from either end, with a limit: the part that they cover, and the pairs in it."""
    fill(engine, THREE)
    wants = [Want(b"a", b"b", 2), Want(b"a", b"b", 2, True), Want(b"a", b"b", 9), Want(b"d", b"e", 1)]
    snapshot, found = engine.begin(wants)
    snapshot.close()
    return [tuple(it) for it in found]


def winners(engine: Engine) -> list[int]:
    """Of transactions that read one key and write it at once how many commit, time after time."""
    fill(engine, THREE)
    together, told = threading.Barrier(AT_ONCE), list[int]()

    def write(turn: int) -> None:
        snapshot, (read,) = engine.begin([point(AB)])
        together.wait(60)
        with closing(snapshot), suppress(Exception):  # whatever else is raised, it counts as no commit
            snapshot.commit([(read.begin, read.end)], [put(AB)], dict(read.pairs))
            told.append(turn)
        together.wait(60)

    def turns() -> None:
        for turn in range(TURNS):
            write(turn)

    threads = [threading.Thread(target=turns) for _ in range(AT_ONCE)]
    for thread in threads:
        thread.start()
    for thread in threads:
        thread.join()
    return [told.count(turn) for turn in range(TURNS)]


ORDERED: list[tuple[object, ...]] = [
    (b"a", b"ab\0", THREE[:2]), (b"ab", b"b", [THREE[2], THREE[1]]), (b"a", b"b", THREE), (b"d", b"e", []),
]


def broken(engine: Engine) -> Iterator[str]:
    """What of the rule an engine breaks."""
    for shows, pairs, want, others, may in ROWS:
        fill(engine, pairs)
        if may_commit(engine, want, others) != may:
            yield f"{shows}: the commit is {'refused' if may else 'made'}"
    for shows, before, first, second, wanted in SUMS:
        fill(engine, [] if before is None else [(C, before)])
        if (total := summed(engine, first, second)) != wanted:
            yield f"{shows}: {total!r}, and not {wanted!r}"
    for shows, pairs in KEPT:
        if not kept(engine, pairs):
            yield f"{shows}: they aren't read as they were put"
    if not longest(engine):
        yield "a key of 10,000 bytes is lost"
    if (found := winners(engine)) != [1] * TURNS:
        yield f"commits at once: so many of {AT_ONCE} are made: {found}"
    if skew(engine) != [True, False]:
        yield "two that write what the other reads"
    if ordered(engine) != ORDERED:
        yield f"reads of a beginning: {ordered(engine)}"
