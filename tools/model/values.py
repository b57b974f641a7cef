"""Random cells, types, indexes, filters and queries, a few of them wrong."""
import random

from replies import cell_given
from schemas import COUNT, KINDS, SUM, VALUE

NUMBERS = [0, 1, 2, 3, 4, 5, 6, 7, -1, -2, 127, 255, 256, -255, -256, 65535, 65536, 2**62, 2**63 - 1, -2**63]
TEXTS = ["", "a", "a\0", "a\0b", "a\x01", "ab", "b", "\x7f", "é", "日本", "\uffff", "\U0001f600", "zz\"\\\n", "\x1f\b",
         "\u2028"]
STRINGS = [b"", b"\0", b"\0\xff", b"\xff", b"\xff\xff", b"\xff\0", b"a", b"a\0", b"ab", b"\x01\x02"]
POOLS = {"int": NUMBERS, "text": TEXTS, "bytes": STRINGS}
FIELDS = ["k", "a", "b", "s", "y", "z"]
COMPARES = ["=", "=", "=", "=", "!=", "<", "<=", ">", ">="]
WRONG_NAMES = ["", "a b", "é", "x" * 33, "x-y"]


class Values:
    """Random values of a script, from a small pool for each kind."""

    def __init__(self, seed):
        self.chance = random.Random(seed)
        self.pools = {kind: self.chance.sample(all_, self.chance.randint(2, 5)) for kind, all_ in POOLS.items()}

    def likely(self, share):
        return self.chance.random() < share

    def pick(self, things):
        return self.chance.choice(things)

    def cell(self, kind, null=0.0, wrong=0.0):
        """A cell of a kind in JSON, or with some chance null, or one of another kind."""
        if self.likely(null):
            return None
        if self.likely(wrong):
            kind = self.pick([it for it in KINDS if it != kind])
        pool = self.pools[kind] if self.likely(0.95) else POOLS[kind]
        return cell_given(self.pick(pool))

    def cells(self, of, wrong=0.01):
        """The cells of a record of a type."""
        cells = [self.cell(kind, 0.003 if name in of["key"] else 0.15, wrong / 4) for name, kind in of["fields"]]
        return cells[:-1] if self.likely(wrong / 2) else cells

    def key_cells(self, of, wrong=0.01):
        """The key cells of a type."""
        kinds = dict(of["fields"])
        cells = [self.cell(kinds[name], wrong / 2, wrong / 2) for name in of["key"]]
        return cells + [0] if self.likely(wrong) else cells

    def type(self, name):
        """A type of this name."""
        names = self.chance.sample(FIELDS, self.chance.randint(1, 5))
        kinds = [self.pick(["int", "int", "int", "text", "bytes"]) for _ in names]
        key = self.chance.sample(names, min(len(names), self.pick([1, 1, 1, 2, 3])))
        return {"name": name, "fields": [list(it) for it in zip(names, kinds)], "key": key}

    def index(self, name, of):
        """An index of this name over a type."""
        names = [it for it, _ in of["fields"]]
        whole = [it for it, kind in of["fields"] if kind == "int"]
        kind = self.pick([VALUE, VALUE, VALUE, COUNT, SUM] if whole else [VALUE, VALUE, COUNT])
        least = 1 if kind == VALUE else 0
        columns = self.chance.sample(names, self.chance.randint(least, min(len(names), 3)))
        index = {"name": name, "kind": kind, "type": of["name"], "columns": columns}
        if kind == COUNT and self.likely(0.6):
            index["clear_when_zero"] = self.likely(0.8)
        return {**index, "summed": self.pick(whole)} if kind == SUM else index

    def field(self, of):
        """A field that is appended to a type, which has one of this name or none."""
        return [self.pick([*FIELDS, "c", "d", "e", self.pick(WRONG_NAMES)]), self.pick(["int", "int", "text", "bytes"])]

    def large_schema(self):
        """A type of many records, with indexes that have many entries for a value."""
        of = {"name": "t", "fields": [["k", "int"], ["a", "int"], ["b", self.pick(list(KINDS))]], "key": ["k"]}
        columns = [["a"], ["b"], self.pick([["a", "b"], ["b", "a"], ["a", "k"]])]
        indexes = [{"name": f"i{at}", "kind": VALUE, "type": "t", "columns": it} for at, it in enumerate(columns)]
        return {"types": [of], "indexes": indexes[:self.chance.randint(1, 3)] + [self.index("i3", of)]}

    def many(self):
        """As many types and indexes as there may be, or nearly."""
        types = [self.type(f"t{it}") for it in range(self.pick([31, 32, 33]))]
        of = {"name": "t", "fields": [["k", "int"], ["a", "int"]], "key": ["k"]}
        indexes = [self.index(f"m{it}", of) for it in range(self.pick([62, 63, 64, 65]))]
        return self.pick([{"types": types, "indexes": []}, {"types": [of], "indexes": indexes}])

    def heavy_schema(self):
        """A type with a text that stands in many indexes."""
        of = {"name": "t", "fields": [["k", "int"], ["s", "text"], ["a", "int"]], "key": ["k"]}
        columns = [self.pick([["s"], ["s", "a"], ["a", "s"]]) for _ in range(self.chance.randint(9, 12))]
        return {"types": [of], "indexes": [{"name": f"h{at}", "kind": VALUE, "type": "t", "columns": it}
                                           for at, it in enumerate(columns)]}

    def schema(self):
        """Some types, and indexes over them."""
        if self.likely(0.01):
            return self.many()
        types = [self.type(name) for name in self.pick([["t"], ["t"], ["t", "u"]])]
        count = self.pick([0, 1, 2, 3, 5])
        return {"types": types, "indexes": [self.index(f"i{it}", self.pick(types)) for it in range(count)]}

    def wrong_type(self, known):
        """A type that is refused for one reason or for two."""
        made = self.type("v")
        return self.spoilt(made, [
            ("name", self.pick(WRONG_NAMES)),
            ("name", known["name"]),
            ("fields", made["fields"] + [["x y", "int"]]),
            ("fields", made["fields"] + made["fields"][:1]),
            ("fields", made["fields"] + [[f"f{it}", "int"] for it in range(32)]),
            ("key", []), ("key", made["key"] * 2), ("key", made["key"] + ["none"]),
        ])

    def wrong_index(self, of, taken):
        """An index that is refused for one reason or for two."""
        made = self.index("w", of)
        others = [it for it, kind in of["fields"] if kind != "int"] or ["none"]
        return self.spoilt(made, [
            ("name", self.pick(WRONG_NAMES)), ("name", taken), ("type", "none"),
            ("columns", made["columns"] + ["none"]), ("columns", made["columns"] * 2), ("columns", []),
            ("columns", [f"f{it}" for it in range(9)]), ("summed", self.pick(others)),
        ])

    def spoilt(self, made, faults):
        """What was made with one or two faults."""
        for key, value in self.chance.sample(faults, self.pick([1, 1, 2])):
            if key != "summed" or made.get("kind") == SUM:
                made = {**made, key: value}
        return made

    def comparison(self, of, wrong=0.0):
        """A comparison of a field, or a test of it."""
        name, kind = self.pick(of["fields"])
        if self.likely(wrong):
            name = "none"
        if self.likely(0.1):
            return ["null", name]
        if kind != "int" and self.likely(0.25) or self.likely(wrong / 2):
            return ["starts", name, self.cell(kind, wrong, wrong)]
        return [self.pick(COMPARES), name, self.cell(kind, wrong, wrong)]

    def filter(self, of, depth, wrong=0.0):
        """A filter of some levels."""
        kind = self.pick(["and", "and", "or", "not", "", "", ""]) if depth else ""
        if kind == "not":
            return [kind, self.filter(of, depth - 1, wrong)]
        if kind:
            return [kind, *(self.filter(of, depth - 1, wrong) for _ in range(self.pick([0, 1, 2, 2, 2, 3, 3])))]
        return self.comparison(of, wrong)

    def along(self, of, columns):
        """A filter that fixes the first of some columns, and perhaps bounds the next ones."""
        kinds, parts = dict(of["fields"]), []
        for name in columns[:self.chance.randint(1, len(columns))]:
            kind = self.pick(["=", "=", "=", "null", "<", ">=", "starts"])
            known = kind if kind != "starts" or kinds[name] != "int" else ">"
            parts.append(["null", name] if kind == "null" else [known, name, self.cell(kinds[name])])
        return ["and", *parts] if len(parts) > 1 or self.likely(0.2) else parts[0]

    def served(self, of, indexes):
        """A filter for the columns of an index, or of the key; of several, or one alone."""
        columns = [it["columns"] for it in indexes if it["columns"]] + [of["key"]]
        parts = [self.along(of, self.pick(columns)) for _ in range(self.pick([1, 1, 1, 2, 2, 3]))]
        more = [self.filter(of, 1)] if self.likely(0.2) else []
        return parts[0] if len(parts + more) == 1 else [self.pick(["and", "or"]), *parts, *more]

    def sort(self, of, indexes, wrong):
        """The fields of a sort, mostly one that a path serves."""
        names = [it for it, _ in of["fields"]]
        if self.likely(wrong):
            return self.pick([["none"], names[:1] * 2, names * 3, ["none", "none"]])
        if self.likely(0.2):
            return self.chance.sample(names, self.chance.randint(1, len(names)))
        columns = self.pick([it["columns"] for it in indexes] + [of["key"]])
        sorting = list(dict.fromkeys(columns + of["key"]))
        first = self.chance.randint(0, 1)
        return sorting[first:first + self.chance.randint(1, 3)] or of["key"]

    def query(self, of, indexes, wrong=0.01):
        """A query of a type."""
        query = {"type": "none" if self.likely(wrong) else of["name"]}
        if self.likely(0.85):
            query["filter"] = self.served(of, indexes) if self.likely(0.6) else self.filter(of, self.pick([0, 1, 2, 3]),
                                                                                          wrong)
        if self.likely(0.4):
            query["sort"] = self.sort(of, indexes, wrong)
        if self.likely(0.3):
            query["reverse"] = self.likely(0.8)
        return query
