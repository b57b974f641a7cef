"""Random scripts: an engine is to reply what a program prints of them, however few pairs it reads at once."""
import json
import random
from collections.abc import Callable, Iterable, Iterator
from typing import Any

from record_store import engine as engines
from record_store.engines import memory

STEPS, CLIENTS = 150, 3
FIELDS = [["k", "int"], ["s", "text"], ["a", "int"], ["b", "bytes"]]
TYPES = [{"name": "t", "fields": FIELDS, "key": ["k", "s"]}, {"name": "u", "fields": FIELDS, "key": ["s"]}]
INDEXES: list[dict[str, Any]] = [
    {"name": "by_a", "kind": "value", "type": "t", "columns": ["a"]},
    {"name": "by_ab", "kind": "value", "type": "t", "columns": ["a", "b"]},
    {"name": "n", "kind": "count", "type": "t", "columns": ["a"]},
    {"name": "kept", "kind": "count", "type": "t", "columns": ["a"], "clear_when_zero": True},
    {"name": "sum", "kind": "sum", "type": "t", "columns": [], "summed": "k"},
    {"name": "by_s", "kind": "value", "type": "u", "columns": ["a", "k"]},
]
SCHEMA = {"types": TYPES, "indexes": INDEXES}
NAMES = [*(it["name"] for it in INDEXES), "late", "gone"]
LATE = {"name": "late", "kind": "sum", "type": "u", "columns": ["b"], "summed": "a"}
# how many pairs are read at once: all, and few enough that each read takes several rounds
PAGES = (engines.PAGE, 1, 2, 5)


class Writer:
    """Writes a script by a seed."""

    def __init__(self, seed: int) -> None:
        self.chance, self.open = random.Random(seed), set[int]()

    def pick(self, items: list[Any]) -> Any:
        """One of some items."""
        return self.chance.choice(items)

    def cells(self) -> list[Any]:
        """The cells of a record."""
        pick = self.pick
        return [pick([0, 1, -1, 7, 300, 2**62]), pick(["", "x", "x\0", "yé", "z" * 40]), pick([None, 0, 1, 1, 2, 9]),
                pick([None, {"hex": ""}, {"hex": "00ff"}, {"hex": "ff"}])]

    def filter(self, depth: int = 2) -> list[Any]:
        """A filter."""
        pick, (k, s, a, b) = self.pick, self.cells()
        kind = pick(["and", "or", "not", "=", "=", "<", ">=", "!=", "null", "starts"]) if depth else pick(["=", "<="])
        if kind in ("and", "or"):
            return [kind, *(self.filter(depth - 1) for _ in range(pick([1, 2, 3])))]
        if kind == "not":
            return [kind, self.filter(depth - 1)]
        field, value = pick([("k", k), ("s", s), ("a", a or 1), ("b", b or {"hex": "00"})])
        if kind == "null":
            return [kind, field]
        return [kind, *(("s", s) if kind == "starts" else (field, value))]

    def query(self, client: int) -> list[Any]:
        """A query."""
        pick = self.pick
        query = {"type": pick(["t", "t", "u"])}
        if pick([0, 1, 1]):
            query["filter"] = self.filter()
        if pick([0, 1]):
            query["sort"] = pick([["k"], ["k", "s"], ["a"], ["a", "b"], ["s"], ["b"]])
            query["reverse"] = pick([False, True])
        return ["query", client, query]

    def command(self, client: int) -> list[Any]:
        """A command."""
        pick, cells = self.pick, self.cells()
        own = pick(["t", "t", "t", "u"])
        key = cells[:2] if own == "t" else cells[1:2]
        kind = pick(["save"] * 8 + ["query"] * 5 + ["load", "load", "remove", "remove", "aggregate", "total", "index"])
        if kind == "query":
            return self.query(client)
        if kind == "save":
            return ["save", client, own, cells]
        if kind in ("load", "remove"):
            return [kind, client, own, key]
        if kind == "total":
            return ["aggregate", client, "sum", []]
        if kind == "aggregate":
            return [kind, client, pick(["n", "kept", "late"]), pick([cells[2:3], cells[3:]])]
        name = pick(NAMES)
        made = [["state", client, name], ["build", client, name, pick([1, 2, 50])], ["index", client, LATE],
                ["write_only", client, name], ["readable", client, name], ["disable", client, name],
                ["build", client, name, 3], ["build", client, name, 100], ["readable", client, name],
                ["plan", client, self.query(client)[2]], ["field", client, own, pick([["c", "int"], ["d", "text"]])]]
        return self.chance.choice(made)

    def steps(self) -> list[list[Any]]:
        """The steps of a script."""
        steps: list[list[Any]] = [["begin", 0], ["create", 0, SCHEMA], ["commit", 0], ["settle"]]
        for _ in range(STEPS):
            client = self.chance.randrange(CLIENTS)
            if client not in self.open:
                self.open.add(client)
                steps.append(["begin", client])
            elif self.chance.random() < 0.15:
                self.open.discard(client)
                steps.append([self.chance.choice(["commit"] * 5 + ["abandon"]), client])
                if self.chance.random() < 0.7:
                    steps.append(["settle"])
            else:
                steps.append(self.command(client))
        return steps + [["settle"], ["begin", 9], ["query", 9, {"type": "t"}], ["query", 9, {"type": "u"}]]


def differing(program: str, seeds: Iterable[int], differences: Callable[..., Iterator[object]],
              program_output: Callable[[str, bytes], str]) -> tuple[int, list[str]]:
    """How many steps there are, and what differs over memory, by pages of several sizes, from what is printed."""
    count, faults = 0, list[str]()
    for seed in seeds:
        steps = Writer(seed).steps()
        wanted = program_output(program, json.dumps({"steps": steps}).encode())
        engines.PAGE = PAGES[seed % len(PAGES)]
        engines.MANY = 1 if engines.PAGE < 10 else 64
        try:
            faults += [f"seed {seed}: {it}" for it in differences(memory.Memory(), steps, wanted)]
        finally:
            engines.PAGE, engines.MANY = PAGES[0], 64
        count += len(steps)
    return count, faults
