#!/usr/bin/env python3
"""Prints a script for `recordctl run` that saves many records, loads them and queries them: clients in turn, each
transaction settled before the next begins.

By default 10,000 saves in transactions of 100 records by 4 clients, and no loads, queries and indexes. A script has
4,000,000 bytes at most. More loads than saves begin again at the first record. --others adds indexes over a type
without records, which --disabled disables: each opening of the store reads their states. With --together the clients
begin together, save and commit in turn, and are settled together. With --build an index of this kind is built over the
saved records in the end, --records of them in a transaction. With --sql the same work is printed for the shell of
SQLite (`sqlite3 :memory: < FILE`), one transaction after another, with --bound as what
tools/compare_sqlite/prepared.c reads, and with --called the steps of the script as what `bench calls` reads.
"""

import argparse
import json

FIELDS = [["k", "int"], ["a", "int"], ["b", "text"]]


INDEXES = [
    {"name": "by_a", "kind": "value", "type": "t", "columns": ["a"]},
    {"name": "by_b", "kind": "value", "type": "t", "columns": ["b", "a"]},
]


BUILT = {
    "value": INDEXES[0],
    "count": {"name": "count", "kind": "count", "type": "t", "columns": ["a"]},
    "sum": {"name": "sum", "kind": "sum", "type": "t", "columns": ["a"], "summed": "k"},
}

SQL_KINDS = {"int": "INTEGER", "text": "TEXT"}

# the words of lines that aren't the first letters of steps
CALLED = {"create": "t", "settle": "e"}

# a prime, with which places are taken here and there
STRIDE = 7919


def fields(options):
    """The fields of the type, each with its kind."""
    return [*FIELDS[:2], ["b", "int"]] if options.numbers else FIELDS


def cells(options, number):
    """The record of a number."""
    return [number, number % options.values, number * 3 if options.numbers else "record %d" % number]


def earlier(options, number):
    """A number, not above this one, whose record the same transaction saves."""
    place = number % options.records
    return number - place + place * STRIDE % (place + 1)


def asked(options, number):
    """The value for which the query of a number asks."""
    return number * STRIDE % options.values


def save(options, client, number):
    yield ["save", client, "t", cells(options, number)]
    if options.loaded:
        yield from load(options, client, earlier(options, number))


def load(options, client, number):
    yield ["load", client, "t", [number % max(1, options.saves)]]


def query(options, client, number):
    yield ["query", client, {"type": "t", "filter": ["=", "a", asked(options, number)]}]


def whole_query(_, client, __):
    yield ["query", client, {"type": "t"}]


def transactions(work, count, options):
    """The steps of a work for each number, in transactions of clients in turn, the last of which may have fewer."""
    for turn, first in enumerate(range(0, count, options.records)):
        client = turn % options.clients
        yield ["begin", client]
        for number in range(first, min(first + options.records, count)):
            yield from work(options, client, number)
        yield from (["commit", client], ["settle"])


def rounds(work, count, options):
    """The same in rounds of all clients, whose transactions are open beside one another."""
    records, clients = options.records, options.clients
    for first in range(0, count, records * clients):
        parts = [(client, range(first + client * records, min(first + (client + 1) * records, count)))
                 for client in range(clients)]
        yield from (["begin", client] for client, _ in parts)
        for place in range(records):
            for client, numbers in parts:
                if place < len(numbers):
                    yield from work(options, client, numbers[place])
        yield from (["commit", client] for client, _ in parts)
        yield ["settle"]


def build(index, count, records):
    """The steps that build an index over so many records, so many of them in a transaction, and make it readable."""
    name = index["name"]
    yield from (["begin", 0], ["index", 0, index], ["write_only", 0, name], ["commit", 0], ["settle"])
    for _ in range(count // records + 1):
        yield from (["begin", 0], ["build", 0, name, records], ["commit", 0], ["settle"])
    yield from (["begin", 0], ["readable", 0, name], ["commit", 0], ["settle"])


def others(options):
    """The indexes over a type that has no records."""
    return [{"name": f"other_{it}", "kind": "value", "type": "other", "columns": ["k"]} for it in range(options.others)]


def steps(options):
    """The steps: a store with some indexes, the saves, the loads of these, the queries, then an index built."""
    kinds = [{"name": name, "fields": fields(options), "key": ["k"]} for name in ("t", "other")]
    schema = {"types": kinds[:2 if options.others else 1], "indexes": INDEXES[:options.indexes] + others(options)}
    yield from (["begin", 0], ["create", 0, schema])
    if options.disabled:
        yield from (["disable", 0, it["name"]] for it in others(options))
    yield from (["commit", 0], ["settle"])
    turns = rounds if options.together else transactions
    yield from turns(save, options.saves, options)
    yield from turns(load, options.loads, options)
    yield from turns(query, options.queries, options)
    yield from turns(whole_query, options.whole, options)
    if options.build:
        yield from build(BUILT[options.build], options.saves, options.records)


def insert_sql(options, number):
    yield "INSERT INTO t VALUES (?, ?, ?)", cells(options, number)
    if options.loaded:
        yield from load_sql(options, earlier(options, number))


def load_sql(options, number):
    yield "SELECT * FROM t WHERE k = ?", [number % max(1, options.saves)]


def query_sql(options, number):
    yield "SELECT * FROM t WHERE a = ?", [asked(options, number)]


def whole_query_sql(_, __):
    yield "SELECT * FROM t", []


def statements(options):
    """The same work in SQL, one transaction after another: statements, each with the values of its parameters."""
    columns = [f"{name} {SQL_KINDS[kind]}" for name, kind in fields(options)]
    columns[0] += " PRIMARY KEY"
    yield f"CREATE TABLE t ({', '.join(columns)})", []
    for index in INDEXES[:options.indexes]:
        yield f"CREATE INDEX {index['name']} ON t ({', '.join(index['columns'])})", []
    works = ((insert_sql, options.saves), (load_sql, options.loads),
             (query_sql, options.queries), (whole_query_sql, options.whole))
    for work, count in works:
        for first in range(0, count, options.records):
            yield "BEGIN", []
            for number in range(first, min(first + options.records, count)):
                yield from work(options, number)
            yield "COMMIT", []


def sql_lines(options):
    """The statements with their values in place of the parameters."""
    for statement, values in statements(options):
        shown = [f"'{it}'" if isinstance(it, str) else it for it in values]
        yield statement.replace("?", "{}").format(*shown) + ";"


def bound_lines(options):
    """A statement where it first comes, and a line for each time: its number, and the values that are bound to it."""
    numbers = {}
    for statement, values in statements(options):
        if statement not in numbers:
            numbers[statement] = len(numbers)
            yield f"+{statement}"
        shown = [f"'{it}" if isinstance(it, str) else str(it) for it in values]
        yield "\t".join([str(numbers[statement]), *shown])


def valued(value):
    """A value as a line has it."""
    return f"'{value}" if isinstance(value, str) else str(value)


def called_line(options, step):
    """The line of a step: a word, and what it takes."""
    word, *client = step[:2]
    match word:
        case "create":
            values = [options.indexes, valued(cells(options, 0)[-1])]
        case "save" | "load":
            values = [valued(it) for it in step[3]]
        case "query" if "filter" in step[2]:
            values = [step[2]["filter"][2]]
        case _:
            values = []
    return "\t".join(str(it) for it in [CALLED.get(word, word[0]), *client, *values])


def called_lines(options):
    """A line for each step of the script."""
    for step in steps(options):
        whole = step[0] == "query" and "filter" not in step[2]
        yield called_line(options, ["whole", *step[1:]] if whole else step)


def main():
    parser = argparse.ArgumentParser(description=__doc__, formatter_class=argparse.RawDescriptionHelpFormatter)
    parser.add_argument("--saves", type=int, default=10_000)
    parser.add_argument("--loads", type=int, default=0)
    parser.add_argument("--queries", type=int, default=0, help="queries of the records with one value of the field a")
    parser.add_argument("--whole", type=int, default=0, help="queries of all records")
    parser.add_argument("--indexes", type=int, default=0, choices=range(3), metavar="0..2")
    parser.add_argument("--others", type=int, default=0, help="indexes over another type")
    parser.add_argument("--disabled", action="store_true", help="these are disabled")
    parser.add_argument("--records", type=int, default=100, help="records, loads or queries of one transaction")
    parser.add_argument("--clients", type=int, default=4, choices=range(1, 17), metavar="1..16")
    parser.add_argument("--together", action="store_true", help="the clients' transactions are open together")
    parser.add_argument("--loaded", action="store_true", help="after each save a load of what its transaction saved")
    parser.add_argument("--values", type=int, default=7, help="how many values the field a takes")
    parser.add_argument("--numbers", action="store_true", help="the field b is a whole number in place of a text")
    parser.add_argument("--build", choices=BUILT, help="the kind of an index that is built in the end")
    form = parser.add_mutually_exclusive_group()
    form.add_argument("--sql", action="store_true", help="print SQL in place of a script")
    form.add_argument("--bound", action="store_true", help="print statements, and values to bind, in its place")
    form.add_argument("--called", action="store_true", help="print the steps as lines of words and values in its place")
    options = parser.parse_args()
    if options.sql or options.bound:
        print(*(sql_lines if options.sql else bound_lines)(options), sep="\n")
    elif options.called:
        print(*called_lines(options), sep="\n")
    else:
        print(json.dumps({"steps": list(steps(options))}, separators=(",", ":")))


if __name__ == "__main__":
    main()
