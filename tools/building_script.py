#!/usr/bin/env python3
"""Prints cases/scripts/building.json, or with --lines what `recordctl run` must print of it, by a model of its own.

Three clients write records while a fourth one builds a VALUE, a COUNT and a SUM index over 2,000 of them, a hundred
records of each index in a transaction. All four begin together, commit in turn, and are settled together; who conflicts
does the same again in the next round. The model keeps records as values, of each index where what is built ends, since
it is one range from the first position on, and of each transaction the ranges of keys that it read and wrote: it has no
map, no roles and no entries, and totals are counted at the end.
"""

import json
import sys
from dataclasses import dataclass, field

RECORDS, STEP, SHOPS = 2000, 100, ["Delft", "Gouda", "Leiden", "Utrecht"]
TYPE = {"name": "sale", "fields": [["id", "int"], ["shop", "text"], ["amount", "int"]], "key": ["id"]}
INDEXES = [
    {"name": "by_shop", "kind": "value", "type": "sale", "columns": ["shop"]},
    {"name": "sales", "kind": "count", "type": "sale", "columns": ["shop"]},
    {"name": "turnover", "kind": "sum", "type": "sale", "columns": ["shop"], "summed": "amount"},
]
NUMBERS = {index["name"]: number for number, index in enumerate(INDEXES, 1)}
TOTALS = [index["name"] for index in INDEXES if index["kind"] != "value"]
BUILDER = 3


def pack(number):
    """The pack of a tuple of one number that isn't negative."""
    size = (number.bit_length() + 7) // 8
    return bytes([0x14 + size]) + number.to_bytes(size, "big")


STORE = pack(1)
SCHEMA, STATES = STORE + pack(0), STORE + pack(5)
ROWS = STORE + pack(1) + pack(1)


def built_place(name):
    return STORE + pack(6) + pack(NUMBERS[name])


def built_key(name, begin):
    return built_place(name) + b"\x01" + begin.replace(b"\0", b"\0\xff") + b"\0"


def point(key):
    return key, key + b"\0"


def meets(one, other):
    return max(one[0], other[0]) < min(one[1], other[1])


def text_of(keys):
    return f"{keys[0].hex()}..{keys[1].hex()}"


@dataclass
class Transaction:
    """The version that it reads at, what it sees, what it read and wrote, and its steps."""

    version: int
    records: dict
    built: dict
    reads: list = field(default_factory=list)
    writes: list = field(default_factory=list)
    effects: list = field(default_factory=list)

    def read(self, keys):
        if keys not in self.reads:
            self.reads.append(keys)


@dataclass
class Model:
    """The committed records, where what is built ends, and of each committed version what it wrote."""

    records: dict = field(default_factory=dict)
    built: dict = field(default_factory=lambda: {name: b"" for name in NUMBERS})
    upkeep: bool = False
    version: int = 0
    written: list = field(default_factory=list)
    transactions: dict = field(default_factory=dict)
    submitted: list = field(default_factory=list)
    lines: list = field(default_factory=list)

    def take(self, step, reply):
        self.lines.append((step, reply))

    def begin(self, client):
        self.transactions[client] = Transaction(self.version, dict(self.records), dict(self.built))
        self.take(["begin", client], f"begun {self.version}")

    def opened(self, client):
        transaction = self.transactions[client]
        transaction.read(point(SCHEMA))
        transaction.read((STATES + b"\0", STATES + b"\xff"))
        return transaction

    def define(self, client, step, reply, wrote):
        self.opened(client).writes.extend(wrote)
        self.take(step, reply)

    def change(self, client, number, new):
        """Puts the record of this number, or where there is none takes it out; answers the old one."""
        transaction, position = self.opened(client), pack(number)
        transaction.read(point(ROWS + position))
        old = transaction.records.pop(number, None)
        if new:
            transaction.records[number] = new
        for name in TOTALS if self.upkeep and (old or new) else []:
            begin = built_key(name, b"") if transaction.built[name] else built_place(name) + b"\0"
            transaction.read((begin, built_key(name, position) + b"\0"))
        if old or new:
            transaction.writes.append(point(ROWS + position))
            transaction.effects.append((number, new))
        return old

    def save(self, client, number, shop, amount):
        old = self.change(client, number, [number, shop, amount])
        reply = f"saved over {json.dumps(old, separators=(',', ':'))}" if old else "saved new"
        self.take(["save", client, "sale", [number, shop, amount]], reply)

    def remove(self, client, number):
        old = self.change(client, number, None)
        self.take(["remove", client, "sale", [number]], "removed" if old else "none")

    def build(self, client, name):
        """A step of a builder; answers whether it was the last one."""
        transaction = self.opened(client)
        transaction.read((built_place(name) + b"\0", built_place(name) + b"\xff"))
        begin, step = transaction.built[name], ["build", client, name, STEP]
        if begin == b"\xff":
            self.take(step, "finished")
            return True
        found = sorted(it for it in map(pack, transaction.records) if begin <= it)[:STEP]
        end = found[-1] + b"\0" if len(found) == STEP else b"\xff"
        transaction.read((ROWS + begin, ROWS + end))
        transaction.built[name] = end
        transaction.writes.append(point(built_key(name, b"")))
        transaction.effects.append((name, end))
        self.take(step, f"built {len(found)} {text_of((begin, end))}")
        return False

    def readable(self, client, name):
        place = built_place(name)
        self.opened(client).read((place + b"\0", place + b"\xff"))
        key = STATES + pack(NUMBERS[name])
        self.define(client, ["readable", client, name], "ok", [point(key), (place + b"\0", place + b"\xff")])

    def commit(self, client):
        self.submitted.append((client, self.transactions.pop(client)))
        self.take(["commit", client], f"submitted {self.version + len(self.submitted)}")

    def settle(self):
        """Tells what becomes of the submitted ones; answers those who conflict."""
        told, refused = [], []
        for version, (client, transaction) in enumerate(self.submitted, self.version + 1):
            newer = [it for it in self.written if it[0] > transaction.version]
            causes = ((keys, [at for at, wrote in newer if any(meets(keys, it) for it in wrote)])
                      for keys in transaction.reads)
            cause = next(((keys, at) for keys, at in causes if at), None)
            if cause:
                told.append(f"client {client} conflict {max(cause[1])} {text_of(cause[0])}")
                refused.append(client)
                continue
            told.append(f"client {client} committed {version}")
            self.written.append((version, transaction.writes))
            for what, effect in transaction.effects:
                if what in NUMBERS:
                    self.built[what] = effect
                elif effect:
                    self.records[what] = effect
                else:
                    self.records.pop(what)
        self.version, self.submitted = self.version + len(self.submitted), []
        self.take(["settle"], ", ".join(told))
        return refused


def filled(model):
    """A store with its records, in four transactions, and three indexes to be built."""
    model.begin(0)
    model.define(0, ["create", 0, {"types": [TYPE]}], "ok", [point(SCHEMA)])
    for part in range(4):
        if part:
            model.begin(0)
        for number in range(part * RECORDS // 4 + 1, (part + 1) * RECORDS // 4 + 1):
            model.save(0, 2 * number, SHOPS[number % 4], number % 9 - 3)
        model.commit(0)
        model.settle()
    model.begin(BUILDER)
    for index in INDEXES:
        key = point(STATES + pack(NUMBERS[index["name"]]))
        model.define(BUILDER, ["index", BUILDER, index], "disabled", [point(SCHEMA), key])
    for name in NUMBERS:
        model.define(BUILDER, ["write_only", BUILDER, name], "ok", [])
    model.commit(BUILDER)
    model.settle()
    model.upkeep = True


def write(model, client, turn):
    """A writer's transaction: a new record, one in the place of another, and one taken out."""
    place = (turn * 61 + client * 700) % RECORDS + 1
    model.save(client, 2 * place + 1, SHOPS[turn % 4], turn + client)
    model.save(client, 2 * ((place + 300) % RECORDS + 1), SHOPS[(turn + client) % 4], -turn)
    model.remove(client, 2 * ((place + 900) % RECORDS + 1))


def built(model):
    """Rounds in which all four work, until every index is built and readable."""
    turns, number, is_done = [0, 0, 0], 0, False
    while not is_done:
        clients = [0, 1, 2, BUILDER]
        for client in clients:
            model.begin(client)
        for client in clients[:BUILDER]:
            write(model, client, turns[client])
        ended = [model.build(BUILDER, name) for name in NUMBERS]
        if all(ended):
            for name in NUMBERS:
                model.readable(BUILDER, name)
        for client in clients[number % 4:] + clients[:number % 4]:
            model.commit(client)
        refused = model.settle()
        is_done = all(ended) and BUILDER not in refused
        turns = [turn + (client not in refused) for client, turn in enumerate(turns)]
        number += 1


def answered(model):
    """What the indexes have of each shop, beside the records."""
    model.begin(0)
    for shop in SHOPS:
        rows = [row for _, row in sorted(model.records.items()) if row[1] == shop]
        model.take(["aggregate", 0, "sales", [shop]], f"total {len(rows)}")
        model.take(["aggregate", 0, "turnover", [shop]], f"total {sum(row[2] for row in rows)}")
        query = {"type": "sale", "filter": ["=", "shop", shop]}
        keys = f"02{shop.encode().hex()}00"
        model.take(["plan", 0, query], f"plan Fetch(IndexScan(by_shop,{keys}..{keys}ff))")
        model.take(["query", 0, query], f"rows {json.dumps(rows, separators=(',', ':'))}")


def main():
    model = Model()
    filled(model)
    built(model)
    answered(model)
    if "--lines" in sys.argv[1:]:
        for number, (_, reply) in enumerate(model.lines, 1):
            print(number, reply)
    else:
        steps = ",\n".join(json.dumps(step, separators=(",", ":")) for step, _ in model.lines)
        print('{"steps":[\n%s\n]}' % steps)


if __name__ == "__main__":
    main()
