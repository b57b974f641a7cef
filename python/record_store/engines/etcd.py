"""An etcd cluster, by the JSON gateway of its clients' port: replicated, and small (a few gigabytes at most).

**Rule of a commit.** One transaction of etcd, which compares what was read. For each range: no key of it was written
after the revision that was read. That alone misses deletions, since a key that is gone has no revision to compare: so
for each pair that was found in a range, its key is there. For the range of one key where nothing was found: it isn't
there.

etcd has neither ADD nor COMPARE_AND_CLEAR. So where something is added to a key, or compared with what stands there,
that is read now, and what comes of it written with a compare that it stands there still; where that alone fails it is
done again. So two transactions that add to one total don't conflict, but take turns.

A commit that was sent and isn't answered is Unknown, and is sent to no other member; reads are.

etcd refuses a transaction of more operations than `--max-txn-ops` (128 where it isn't given): reads and writes of many
records in one transaction need it higher. A read of a compacted revision is refused as too old. Plain HTTP alone is
spoken, without TLS, users or passwords.
"""
from __future__ import annotations

import base64
import http.client
import json
import re
import threading
import time
from collections.abc import Iterable, Sequence
from typing import Any

from ..engine import page_of, read_of
from ..errors import Conflict, RecordError, TooLarge, TooOld, Unavailable, Unknown
from ..form import ADD, CLEAR, COMPARE_AND_CLEAR, Mutation, Read, Want, added

ADD_ROUNDS = 200
# the writes that look at what stands at their key
LOOKING = ADD, COMPARE_AND_CLEAR
# so many reads are asked for at once, in seconds how long it is waited before a read is asked of the next member
READS, WAIT = 100, 0.05
# codes of the gateway's errors: what isn't well formed, and what there is no room for, neither of which is made
INVALID, EXHAUSTED = 3, 8
TOO_MANY = "too many operations", "too large", "larger than max"
MEMBER = re.compile(r"[^/\s]+:\d+")
NO_ANSWER = OSError, http.client.HTTPException, ValueError
Range = tuple[bytes, bytes]


def text(data: bytes) -> str:
    """Bytes as the gateway reads them."""
    return base64.b64encode(data).decode()


def refusal(reply: dict[str, Any]) -> RecordError:
    """What an error of the gateway means: Unknown, unless it says that the transaction isn't made."""
    said, code = f"etcd: {reply['error']}", reply.get("code")
    if "compacted" in said or "future revision" in said:
        return TooOld(said)
    if code in (INVALID, EXHAUSTED) and any(it in said for it in TOO_MANY):
        return TooLarge(said)
    return RecordError(said) if code == INVALID else Unavailable(said) if code == EXHAUSTED else Unknown(said)


class Etcd:
    """A database below a prefix of an etcd cluster's keys, by the addresses of its members, each `host:port`.

    `timeout` is for how many seconds an answer is waited for; `patience`, for how many a read is asked of one member
    after another, before it is Unavailable.
    """

    def __init__(self, members: Sequence[str], prefix: bytes = b"records/", timeout: float = 5,
                 patience: float = 30) -> None:
        self.members, self.prefix, self.timeout, self.patience = list(members), prefix, timeout, patience
        if wrong := [it for it in self.members or [""] if not MEMBER.fullmatch(it)]:
            raise ValueError(f"members are given as a list of host:port, and not as {wrong[0]!r}")
        self.own = threading.local()

    def begin(self, wants: Sequence[Want]) -> tuple[EtcdSnapshot, list[Read]]:
        """A snapshot of the newest revision, and what it has at once of these ranges."""
        revision, reads = self.ranges(wants, None)
        return EtcdSnapshot(self, revision), reads

    def close(self) -> None:
        """Closes the thread's connection; those of other threads end with them."""
        self.drop()

    def drop(self) -> None:
        """Closes the thread's connection; the next call takes the next member."""
        connection = getattr(self.own, "connection", None)
        if connection is not None:
            connection.close()
        self.own.connection = None
        self.own.place = getattr(self.own, "place", -1) + 1

    def connection(self) -> http.client.HTTPConnection:
        """The thread's connection to a member, to the next one that takes one where there is none."""
        made: http.client.HTTPConnection | None = getattr(self.own, "connection", None)
        place, said = getattr(self.own, "place", 0), "no member is given"
        for turn in range(len(self.members)):
            if made is not None:
                break
            member = self.members[(place + turn) % len(self.members)]
            try:
                made = http.client.HTTPConnection(member, timeout=self.timeout)
                made.connect()
                self.own.place = place + turn
            except OSError as why:
                made, said = None, f"{member}: {why}"
        if made is None:
            raise Unavailable(f"etcd: {said}")
        self.own.connection = made
        return made

    def post(self, body: dict[str, Any]) -> dict[str, Any]:
        """Has one member carry out a transaction. Unavailable is raised where it was sent to none."""
        connection = self.connection()
        try:
            connection.request("POST", "/v3/kv/txn", json.dumps(body))
            reply = json.loads(connection.getresponse().read())
            if not isinstance(reply, dict):
                raise ValueError(f"etcd answers {reply}")
            return reply
        except BaseException:
            self.drop()  # what comes of the call might be taken for the next one's answer
            raise

    def read_txn(self, body: dict[str, Any]) -> dict[str, Any]:
        """The same of reads alone, which are asked of one member after another."""
        until = time.monotonic() + self.patience
        while True:
            try:
                reply = self.post(body)
                if "error" not in reply:
                    return reply
                said = refusal(reply)
                if not isinstance(said, (Unavailable, Unknown)):
                    raise said
                self.drop()
            except (*NO_ANSWER, Unavailable) as why:
                said = Unavailable(f"etcd: {why}")
            if time.monotonic() > until:
                raise Unavailable(str(said))
            time.sleep(WAIT)

    def at(self, begin: bytes, end: bytes) -> dict[str, str]:
        """A range of keys below the prefix."""
        return {"key": text(self.prefix + begin), "range_end": text(self.prefix + end)}

    def ranges(self, wants: Sequence[Want], revision: int | None) -> tuple[int, list[Read]]:
        """A beginning of each range, all at one revision: this one, or the newest, which is answered."""
        reads: list[Read] = []
        for first in range(0, max(len(wants), 1), READS):
            part = wants[first:first + READS]
            reply = self.read_txn({"success": [{"requestRange": self.range_request(it, revision)} for it in part]})
            revision = revision or int(reply["header"]["revision"])
            for want, response in zip(part, reply.get("responses", [])):
                pairs = [self.pair_of(it) for it in response["response_range"].get("kvs", [])]
                reads.append(read_of(want, page_of(want), pairs))
        return revision or 0, reads

    def range_request(self, want: Want, revision: int | None) -> dict[str, Any]:
        """A read of a beginning of a range."""
        order = {"sort_order": "DESCEND", "sort_target": "KEY"} if want.reverse else {}
        at = {"revision": str(revision)} if revision else {}
        return self.at(want.begin, want.end) | {"limit": str(page_of(want))} | order | at

    def pair_of(self, item: dict[str, str]) -> tuple[bytes, bytes]:
        """A pair below the prefix, as the gateway writes it."""
        key = base64.b64decode(item["key"])[len(self.prefix):]
        return key, base64.b64decode(item.get("value", ""))


class Writes:
    """Writes in their order, as what they come to: etcd takes no two writes of one key."""

    def __init__(self, mutations: Sequence[Mutation]) -> None:
        self.mutations, self.looked_at = mutations, list[bytes]()
        own: set[bytes] = set()
        clears: list[Range] = []
        for kind, first, second in mutations:
            if kind == CLEAR:
                clears.append((first, second))
            elif kind in LOOKING and first not in own and not any(begin <= first < end for begin, end in clears):
                self.looked_at.append(first)
            if kind != CLEAR:
                own.add(first)

    def made(self, stored: dict[bytes, bytes | None]) -> tuple[dict[bytes, bytes], list[Range]]:
        """The pairs that are put and the ranges that are cleared, where this stands at the keys that are looked at."""
        puts: dict[bytes, bytes] = {}
        cleared: list[Range] = []
        for kind, first, second in self.mutations:
            gone = any(begin <= first < end for begin, end in cleared)
            there = puts.get(first, None if gone else stored.get(first))
            if kind == CLEAR:
                puts = {key: value for key, value in puts.items() if not first <= key < second}
                cleared.append((first, second))
            elif kind == ADD:
                puts[first] = added(there, second)
            elif kind == COMPARE_AND_CLEAR:
                if there == second:
                    puts.pop(first, None)
                    cleared.append((first, first + b"\0"))
            else:
                puts[first] = second
        return puts, cleared


class EtcdSnapshot:
    """A revision of an etcd cluster."""

    def __init__(self, engine: Etcd, version: int) -> None:
        self.engine, self.version = engine, version

    def read(self, wants: Sequence[Want]) -> list[Read]:
        """Reads of each range a beginning, in the direction that it asks for."""
        return self.engine.ranges(wants, self.version)[1]

    def commit(self, reads: Sequence[Range], mutations: Sequence[Mutation], known: dict[bytes, bytes]) -> int:
        """Commits these writes, by the rule, and answers the revision."""
        compares = self.compares(reads, known)
        writes = Writes(mutations)
        for _ in range(ADD_ROUNDS):
            stored = self.stored(compares, writes.looked_at) if writes.looked_at else {}
            more = [{"key": self.key(key), "target": "MOD", "result": "EQUAL", "mod_revision": revision}
                    for key, (revision, _) in stored.items()]
            puts, clears = writes.made({key: value for key, (_, value) in stored.items()})
            reply = self.send({"compare": compares + more, "success": self.operations(puts, clears)})
            if reply.get("succeeded"):
                return int(reply["header"]["revision"])
            if not more:
                raise Conflict("another transaction wrote what was read")
        raise Conflict(f"others came before this transaction's ADDs, {ADD_ROUNDS} times")

    def send(self, body: dict[str, Any]) -> dict[str, Any]:
        """Has a transaction of etcd carried out once."""
        try:
            reply = self.engine.post(body)
        except NO_ANSWER as why:
            raise Unknown(f"etcd didn't answer the commit: {why}") from why
        if "error" in reply:
            raise refusal(reply)
        return reply

    def stored(self, compares: list[dict[str, str]], keys: Sequence[bytes]) -> dict[bytes, tuple[str, bytes | None]]:
        """What stands now at keys that are looked at, each with its revision, while what was read stands."""
        asked = [{"requestRange": {"key": self.key(key)}} for key in keys]
        reply = self.engine.read_txn({"compare": compares, "success": asked})
        if not reply.get("succeeded"):
            raise Conflict("another transaction wrote what was read")
        found: dict[bytes, tuple[str, bytes | None]] = {}
        for key, response in zip(keys, reply["responses"]):
            items = response["response_range"].get("kvs", [])
            found[key] = (items[0]["mod_revision"], self.engine.pair_of(items[0])[1]) if items else ("0", None)
        return found

    def key(self, key: bytes) -> str:
        """A key below the prefix."""
        return text(self.engine.prefix + key)

    def compares(self, reads: Iterable[Range], known: dict[bytes, bytes]) -> list[dict[str, str]]:
        """What is compared: that what was read stands just as it was read."""
        compares = []
        for begin, end in reads:
            if begin >= end:
                continue
            if end == begin + b"\0" and begin not in known:
                compares.append({"key": self.key(begin), "target": "CREATE", "result": "EQUAL", "create_revision": "0"})
                continue
            found = [begin] if end == begin + b"\0" else [key for key in known if begin <= key < end]
            compares.append(self.engine.at(begin, end) | {"target": "MOD", "result": "LESS",
                                                          "mod_revision": str(self.version + 1)})
            compares += [{"key": self.key(key), "target": "CREATE", "result": "GREATER", "create_revision": "0"}
                         for key in found]
        return compares

    def operations(self, puts: dict[bytes, bytes], clears: Sequence[Range]) -> list[dict[str, Any]]:
        """What is written. No key may stand in two operations, so ranges are cleared around the keys that are put."""
        gaps: list[Range] = []
        for begin, end in merged(clears):
            for key in sorted(key for key in puts if begin <= key < end):
                gaps.append((begin, key))
                begin = key + b"\0"
            gaps.append((begin, end))
        made: list[dict[str, Any]] = [{"requestDeleteRange": self.engine.at(*it)} for it in gaps if it[0] < it[1]]
        return made + [{"requestPut": {"key": self.key(key), "value": text(value)}} for key, value in puts.items()]

    def close(self) -> None:
        """There is nothing to let go of."""


def merged(ranges: Iterable[Range]) -> list[Range]:
    """The same keys in ranges of which no two touch."""
    made: list[Range] = []
    for begin, end in sorted(ranges):
        if made and begin <= made[-1][1]:
            made[-1] = made[-1][0], max(made[-1][1], end)
        else:
            made.append((begin, end))
    return made
