"""Examples with replies that were worked out by hand, each a script's configuration, its steps and their replies."""

T = {"name": "t", "fields": [["k", "int"], ["a", "int"], ["b", "int"]], "key": ["k"]}
U = {"name": "u", "fields": [["k", "int"], ["s", "text"], ["y", "bytes"]], "key": ["k"]}


def over(of, *indexes):
    """A schema of a type with indexes, each a name, a kind and columns."""
    return {"types": [of], "indexes": [indexed(of, *it) for it in indexes]}


def indexed(of, name, kind, *columns, **more):
    return {"name": name, "kind": kind, "type": of["name"], "columns": list(columns), **more}


def setup(schema, *records):
    """Client 0 makes a store with records; what is replied is left out."""
    name = schema["types"][0]["name"]
    return [(["begin", 0], None), (["create", 0, schema], "ok"), *((["save", 0, name, it], None) for it in records)]


def committed(client, version):
    """A commit that is settled alone."""
    return [(["commit", client], f"submitted {version}"), (["settle"], f"client {client} committed {version}")]


S, SA = over(T), over(T, ("by_a", "value", "a"))
SAB = over(T, ("by_a", "value", "a"), ("by_b", "value", "b"))
SU = over(U, ("by_s", "value", "s"), ("by_y", "value", "y"))
COUNT, ALL = indexed(T, "cnt", "count", "a"), indexed(T, "cnt", "count")
TOTAL = {"types": [T], "indexes": [indexed(T, "tot", "sum", summed="b")]}
BUILDING = [(["index", 0, COUNT], "disabled"), (["write_only", 0, "cnt"], "ok"), *committed(0, 1)]
BUILT_COUNT = [*setup(S, [1, 7, 0], [2, 7, 0]), *BUILDING]


def plans(schema, records, *asked):
    """Queries of a store, each a filter, the text of its plan, and the rows."""
    name = schema["types"][0]["name"]
    asking = [(kind, {"type": name, "filter": it[0]}, reply) for it in asked
              for kind, reply in (("plan", f"plan {it[1]}"), ("query", f"rows {it[2]}"))]
    return [*setup(schema, *records), *(([kind, 0, query], reply) for kind, query, reply in asking)]


EXAMPLES = {
    "a transaction sees what was committed as it began, and its own writes": ({}, [
        *setup(S), *committed(0, 1), (["begin", 1], "begun 1"), (["begin", 0], "begun 1"),
        (["query", 0, {"type": "t"}], "rows []"), (["save", 0, "t", [1, 5, None]], "saved new"),
        (["query", 0, {"type": "t"}], "rows [[1,5,null]]"), *committed(0, 2),
        (["query", 1, {"type": "t"}], "rows []"), (["commit", 1], "read only")]),
    "nulls are in no comparison, and what isn't known isn't selected": ({}, plans(
        SA, [[1, None, 0], [2, 4, 0], [3, 5, 0], [4, 6, 0]],
        (["<", "a", 5], "Fetch(IndexScan(by_a,01..1505))", "[[2,4,0]]"),
        (["not", ["=", "a", 5]], 'Filter(["not",["=","a",5]],Scan(t,..ff))', "[[2,4,0],[4,6,0]]"),
        (["null", "a"], "Fetch(IndexScan(by_a,00..00ff))", "[[1,null,0]]"))),
    "texts and bytes that begin so": ({}, plans(
        SU, [[1, "a", {"hex": ""}], [2, "a\0", {"hex": "ff"}], [3, "a\0b", {"hex": "ff00"}],
             [4, "a\x01", {"hex": "fe"}]],
        (["starts", "s", "a\0"], "Fetch(IndexScan(by_s,026100ff..026101))",
         '[[2,"a\\u0000",{"hex":"ff"}],[3,"a\\u0000b",{"hex":"ff00"}]]'),
        (["starts", "y", {"hex": "ff"}], "Fetch(IndexScan(by_y,01ff..02))",
         '[[2,"a\\u0000",{"hex":"ff"}],[3,"a\\u0000b",{"hex":"ff00"}]]'))),
    "several indexes give a row once": ({}, plans(
        SAB, [[1, 1, 2], [2, 1, 3], [3, 9, 2]],
        (["or", ["=", "a", 1], ["=", "b", 2]],
         "Union(Fetch(IndexScan(by_a,1501..1501ff)),Fetch(IndexScan(by_b,1502..1502ff)))",
         "[[1,1,2],[2,1,3],[3,9,2]]"),
        (["and", ["=", "a", 1], ["=", "b", 2]],
         "Fetch(Intersection(IndexScan(by_a,1501..1501ff),IndexScan(by_b,1502..1502ff)))", "[[1,1,2]]"),
        (["or", ["<", "a", 3], ["=", "b", 2]],
         "Distinct(UnorderedUnion(Fetch(IndexScan(by_a,01..1503)),Fetch(IndexScan(by_b,1502..1502ff))))",
         "[[1,1,2],[2,1,3],[3,9,2]]"))),
    "bounds, and what no range says": ({}, plans(
        SAB, [],
        (["and", [">", "a", 3], ["<=", "a", 9], ["!=", "a", 5]],
         'Filter(["!=","a",5],Fetch(IndexScan(by_a,1503ff..1509ff)))', "[]"),
        (["and", [">", "a", 9], ["<", "a", 3]], "Fetch(IndexScan(by_a,1509ff..1509ff))", "[]"),
        (["=", "k", 1], "Scan(t,1501..1501ff)", "[]"))),
    "two who add to a total don't conflict": ({}, [
        *setup(over(T, ("cnt", "count", "a"))), *committed(0, 1), (["begin", 0], "begun 1"), (["begin", 1], "begun 1"),
        (["save", 0, "t", [1, 7, 0]], "saved new"), (["save", 1, "t", [2, 7, 0]], "saved new"),
        (["commit", 0], "submitted 2"), (["commit", 1], "submitted 3"),
        (["settle"], "client 0 committed 2, client 1 committed 3"), (["begin", 0], "begun 3"),
        (["aggregate", 0, "cnt", [7]], "total 2")]),
    "a writer meets the step that builds its position": ({}, [
        *BUILT_COUNT, (["begin", 1], "begun 1"), (["begin", 2], "begun 1"), (["save", 1, "t", [3, 7, 0]], "saved new"),
        (["build", 2, "cnt", 5], "built 2 ..ff"), (["commit", 2], "submitted 2"), (["commit", 1], "submitted 3"),
        (["settle"], "client 2 committed 2, client 1 conflict 2 15011506150100..1501150615010115030000"),
        (["begin", 1], "begun 3"), (["save", 1, "t", [3, 7, 0]], "saved new"), *committed(1, 4),
        (["begin", 0], "begun 4"), (["readable", 0, "cnt"], "ok"), (["aggregate", 0, "cnt", [7]], "total 3")]),
    "an index serves a sort once it is readable": ({}, [
        *setup(S, [1, 2, 0], [2, 1, 0]), (["index", 0, indexed(T, "by_a", "value", "a")], "disabled"),
        (["query", 0, {"type": "t", "sort": ["a"]}], "refused SortNotServed"), (["write_only", 0, "by_a"], "ok"),
        (["state", 0, "by_a"], "write-only"), (["query", 0, {"type": "t", "sort": ["a"]}], "refused SortNotServed"),
        (["build", 0, "by_a", 5], "built 2 ..ff"), (["build", 0, "by_a", 5], "finished"),
        (["readable", 0, "by_a"], "ok"), (["query", 0, {"type": "t", "sort": ["a"]}], "rows [[2,1,0],[1,2,0]]"),
        (["query", 0, {"type": "t", "sort": ["a"], "reverse": True}], "rows [[1,2,0],[2,1,0]]"),
        (["plan", 0, {"type": "t", "sort": ["a"]}], "plan Fetch(IndexScan(by_a,..ff))"),
        (["disable", 0, "by_a"], "ok"), (["execute", 0], "refused IndexNotReadable"), (["drop", 0, "by_a"], "ok"),
        (["state", 0, "by_a"], "refused UnknownIndex")]),
    "each of two resolvers refuses one request": ({"resolver_splits": ["1501150115011502"]}, [
        *setup(S, [1, 0, 0], [2, 0, 0]), *committed(0, 1), *((["begin", it], "begun 1") for it in range(3)),
        (["save", 0, "t", [1, 1, 0]], "saved over [1,0,0]"), (["load", 1, "t", [1]], "found [1,0,0]"),
        (["save", 1, "t", [2, 1, 0]], "saved over [2,0,0]"), (["load", 2, "t", [2]], "found [2,0,0]"),
        (["save", 2, "t", [3, 0, 0]], "saved new"), *((["commit", it], f"submitted {it + 2}") for it in range(3)),
        (["settle"], "client 0 committed 2, client 1 conflict 2 1501150115011501..150115011501150100, "
                     "client 2 conflict 3 1501150115011502..150115011501150200")]),
    "a read ahead of its server, and one behind the window": ({"window": 1}, [
        *setup(S), (["commit", 0], "submitted 1"), (["resolve", 0], "ok"), (["log", 0], "ok"),
        (["report"], "client 0 committed 1"), (["begin", 0], "begun 1"),
        (["query", 0, {"type": "t"}], "refused FutureVersion"), (["pull", 0], "ok"),
        (["query", 0, {"type": "t"}], "rows []"), (["pull", 0], "nothing"), (["begin", 2], "begun 1"),
        (["save", 2, "t", [3, 0, 0]], "saved new"), (["begin", 1], "begun 1"),
        (["save", 1, "t", [1, 0, 0]], "saved new"), *committed(1, 2), (["query", 0, {"type": "t"}], "rows []"),
        (["begin", 1], "begun 2"), (["save", 1, "t", [2, 0, 0]], "saved new"), *committed(1, 3),
        (["query", 0, {"type": "t"}], "refused TooOld"), (["commit", 0], "read only"),
        (["commit", 2], "refused TooOld")]),
    "a sum wraps": ({}, [
        *setup(TOTAL, [1, 0, 2**63 - 1], [2, 0, 1]), (["aggregate", 0, "tot", []], f"total {-2**63}"),
        (["remove", 0, "t", [1]], "removed"), (["remove", 0, "t", [2]], "removed"), (["remove", 0, "t", [1]], "none"),
        (["aggregate", 0, "tot", []], "total 0")]),
    "a builder that isn't told of its commit": ({}, [
        *BUILT_COUNT, (["begin", 1], "begun 1"), (["build", 1, "cnt", 5], "built 2 ..ff"),
        (["commit", 1], "submitted 2"), (["resolve", 0], "ok"), (["log", 0], "ok"), (["lost"], "client 1 unknown"),
        (["pull", 0], "ok"), (["begin", 1], "begun 2"), (["build", 1, "cnt", 5], "finished"),
        (["readable", 1, "cnt"], "ok"), (["aggregate", 1, "cnt", [7]], "total 2")]),
    "the last version is given once": ({"start": 2**64 - 2}, [
        *setup(S), *committed(0, 2**64 - 1), (["begin", 0], None), (["save", 0, "t", [1, 0, 0]], "saved new"),
        (["commit", 0], "refused VersionsExhausted")]),
    "refusals": ({}, [
        (["commit", 0], "refused NoTransaction"), (["begin", 16, 0], "refused NoSuchClient"), (["begin", 0], "begun 0"),
        (["begin", 0], "refused Busy"), (["begin", 0, 0], "refused NoSuchStore"),
        (["begin", 1, 65_536], "refused NoSuchStore"), (["begin", 1, 65_535], "begun 0"),
        (["save", 0, "t", [1, 1, 1]], "refused NoStore"), (["create", 0, SA], "ok"),
        (["create", 0, SA], "refused AlreadyThere"), (["save", 0, "z", []], "refused UnknownType"),
        (["save", 0, "t", [1, "x", 1]], "refused WrongKind"), (["save", 0, "t", [None, 1, 1]], "refused NullKey"),
        (["aggregate", 0, "by_a", []], "refused NotAggregate"), (["execute", 0], "refused NoPlan"),
        (["build", 0, "by_a", 0], "refused BadLimit"), (["build", 0, "by_a", 1], "refused WrongState"),
        (["type", 0, T], "refused NameTaken"), (["resolve", 9], "refused NoSuchRole"), (["report"], "nothing"),
        (["abandon", 0], "ok")]),
    "a key that is too long": ({}, [
        *setup(SU), (["save", 0, "u", [1, "x" * 9988, None]], "saved new"), (["remove", 0, "u", [1]], "removed"),
        (["save", 0, "u", [1, "x" * 9989, None]], "refused KeyTooLarge"), (["begin", 1, 256], "begun 0"),
        (["create", 1, SU], "ok"), (["save", 1, "u", [1, "x" * 9987, None]], "saved new"),
        (["save", 1, "u", [2, "x" * 9988, None]], "refused KeyTooLarge")]),
    "two stores of the same names": ({}, [
        (["begin", 0], "begun 0"), (["begin", 1, 2], "begun 0"), (["create", 0, SA], "ok"), (["create", 1, S], "ok"),
        (["save", 0, "t", [1, 1, 1]], "saved new"), (["save", 1, "t", [1, 2, 2]], "saved new"),
        (["commit", 0], "submitted 1"), (["commit", 1], "submitted 2"),
        (["settle"], "client 0 committed 1, client 1 committed 2"),
        (["begin", 0, 2], "begun 2"), (["query", 0, {"type": "t"}], "rows [[1,2,2]]"), (["begin", 1], "begun 2"),
        (["query", 1, {"type": "t"}], "rows [[1,1,1]]"), (["plan", 0, {"type": "t"}], "plan Scan(t,..ff)"),
        (["commit", 0], "read only"), (["begin", 0, 1], "begun 2"), (["execute", 0], "rows [[1,1,1]]"),
        (["plan", 0, {"type": "t", "sort": ["a"]}], "plan Fetch(IndexScan(by_a,..ff))"),
        (["abandon", 0], "ok"), (["begin", 0, 2], "begun 2"), (["execute", 0], "refused IndexNotReadable"),
        (["abandon", 0], "ok"), (["begin", 0, 3], "begun 2"), (["execute", 0], "refused NoStore")]),
    "who reads all of a store meets no writer of another": ({}, [
        *setup(S), *committed(0, 1), (["begin", 0, 2], "begun 1"), (["create", 0, S], "ok"), *committed(0, 2),
        *((["begin", client, number], "begun 2") for client, number in enumerate([1, 2, 2, 1])),
        *((["query", client, {"type": "t"}], "rows []") for client in (0, 1)),
        *((["save", client, "t", [client, 0, 0]], "saved new") for client in range(4)),
        *((["commit", client], f"submitted {it}") for it, client in enumerate([2, 0, 3, 1], 3)),
        (["settle"], "client 2 committed 3, client 0 committed 4, client 3 committed 5, "
                     "client 1 conflict 3 150215011501..150215011501ff")]),
}
