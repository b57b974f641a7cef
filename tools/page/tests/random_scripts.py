"""Scripts made at random: types, indexes of each kind, and steps of clients, builders and roles, in any order."""
import json
import random

KINDS = ("int", "text", "bytes")
TEXTS = ("", "a", "ab", "b", "B\u00e4r", "\u20ac", "\U0001f41f", "a\x00b", 'say "so"', "z" * 40)
NUMBERS = (0, 1, 2, -1, 255, 256, -300, 2**53 + 1, 2**63 - 1, -(2**63))
COMPARED = ("=", "!=", "<", "<=", ">", ">=")
SPLITS = ("15011501", "15011502", "150115021501", "1501150215020203", "15011506", "1502", "16")
# what stands behind a beginning: nothing, or the number of a store, or of none
STORES = ((), (), (), (1,), (2,), (2,), (65535,), (0,), (65536,))
# of each kind of step how often it is made, beside the others
WEIGHTS = {"begin": 8, "save": 14, "load": 4, "remove": 3, "query": 5, "plan": 4, "execute": 4, "commit": 8,
           "abandon": 1, "settle": 5, "resolve": 3, "log": 3, "report": 3, "pull": 3, "lost": 1, "index": 2,
           "write_only": 2, "build": 4, "readable": 2, "state": 2, "aggregate": 3, "disable": 1, "drop": 1, "type": 1,
           "field": 1}
ROLES = ("resolve", "log", "pull")
ALONE = ("begin", "execute", "commit", "abandon")


class Maker:
    """A maker of one script."""

    def __init__(self, seed):
        self.dice, self.types, self.indexes, self.open = random.Random(seed), [], [], set()

    def cell(self, kind):
        if self.dice.random() < 0.08:
            return None
        if self.dice.random() < 0.01:
            kind = self.dice.choice(KINDS)
        if kind == "int":
            return self.dice.choice(NUMBERS) if self.dice.random() < 0.2 else self.dice.randrange(6)
        if kind == "text":
            return self.dice.choice(TEXTS)
        return {"hex": self.dice.randbytes(self.dice.randrange(4)).hex()}

    def new_type(self):
        count = self.dice.randint(1, 4)
        fields = [[f"f{it}", self.dice.choice(KINDS)] for it in range(count)]
        key = self.dice.sample([name for name, _ in fields], self.dice.randint(1, min(2, count)))
        made = {"name": f"t{len(self.types)}", "fields": fields, "key": key}
        self.types.append(dict(made))
        return made

    def new_field(self, owner):
        """A field that is appended to the type, mostly one that isn't there yet."""
        made = [f"f{len(owner['fields']) - (self.dice.random() < 0.1)}", self.dice.choice(KINDS)]
        if made[0] not in dict(owner["fields"]):
            owner["fields"] = [*owner["fields"], made]
        return made

    def new_index(self):
        owner, kind = self.dice.choice(self.types), self.dice.choice(("value", "count", "sum"))
        names = [name for name, _ in owner["fields"]]
        made = {"name": f"i{len(self.indexes)}", "kind": kind, "type": owner["name"],
                "columns": self.dice.sample(names, self.dice.randint(kind == "value", min(2, len(names))))}
        numbers = [name for name, kind in owner["fields"] if kind == "int"]
        if kind == "sum" and numbers:
            made["summed"] = self.dice.choice(numbers)
        elif kind == "sum":
            made["kind"] = "count"
        if made["kind"] == "count" and self.dice.random() < 0.5:
            made["clear_when_zero"] = True
        self.indexes.append(made)
        return made

    def type_of(self, index):
        return next(it for it in self.types if it["name"] == index["type"])

    def filter(self, owner, levels=2):
        name, kind = self.dice.choice(owner["fields"])
        chance = self.dice.random()
        if levels and chance < 0.3:
            parts = [self.filter(owner, levels - 1) for _ in range(self.dice.randint(1, 3))]
            return [self.dice.choice(("and", "or")), *parts]
        if levels and chance < 0.35:
            return ["not", self.filter(owner, levels - 1)]
        if chance < 0.42:
            return ["null", name]
        if chance < 0.5 and kind != "int":
            return ["starts", name, "a" if kind == "text" else {"hex": "01"}]
        value = self.cell(kind)
        return [self.dice.choice(COMPARED), name, 1 if value is None and kind == "int" else value]

    def query(self):
        owner = self.dice.choice(self.types)
        made = {"type": owner["name"]}
        if self.dice.random() < 0.8:
            made["filter"] = self.filter(owner)
        if self.dice.random() < 0.3:
            made["sort"] = [self.dice.choice(owner["fields"])[0]]
        if self.dice.random() < 0.2:
            made["reverse"] = True
        return made

    def command(self, name, client):
        """A command that has parts behind its client."""
        owner = self.dice.choice(self.types)
        if name in ("query", "plan"):
            return [name, client, self.query()]
        if name == "save":
            return [name, client, owner["name"], [self.cell(kind) for _, kind in owner["fields"]]]
        if name in ("load", "remove"):
            kinds = dict(owner["fields"])
            return [name, client, owner["name"], [self.cell(kinds[it]) for it in owner["key"]]]
        if name == "type":
            return [name, client, self.new_type()]
        if name == "field":
            return [name, client, owner["name"], self.new_field(owner)]
        if name == "index" or not self.indexes:
            return ["index", client, self.new_index()]
        index = self.dice.choice(self.indexes)
        if name == "build":
            return [name, client, index["name"], self.dice.randint(0, 4)]
        if name == "aggregate":
            kinds = dict(self.type_of(index)["fields"])
            return [name, client, index["name"], [self.cell(kinds[it]) for it in index["columns"]]]
        return [name, client, index["name"]]

    def step(self):
        name = self.dice.choices(list(WEIGHTS), WEIGHTS.values())[0]
        if not self.open and self.dice.random() < 0.8:
            name = "begin"
        client = self.client(name == "begin")
        if name in ("settle", "report", "lost"):
            return [name]
        if name in ROLES:
            return [name, self.dice.randrange(3)]
        if name == "begin":
            self.open.add(client)
        elif name in ("commit", "abandon"):
            self.open.discard(client)
        if name == "begin":
            return [name, client, *self.dice.choice(STORES)]
        return [name, client] if name in ALONE else self.command(name, client)

    def client(self, is_new):
        """A client that has begun or, where it is to begin, mostly one that hasn't."""
        fitting = [it for it in range(4) if (it in self.open) != is_new]
        return self.dice.choice(fitting) if fitting and self.dice.random() < 0.97 else self.dice.randrange(4)

    def config(self):
        splits = sorted(self.dice.sample(SPLITS, self.dice.randint(0, 2)))
        made = {"logs": self.dice.randint(1, 3), "resolver_splits": splits}
        if self.dice.random() < 0.5:
            made["storage_splits"] = sorted(self.dice.sample(SPLITS, self.dice.randint(0, 2)))
        if self.dice.random() < 0.2:
            made["window"] = self.dice.randint(1, 20)
        if self.dice.random() < 0.2:
            made["start"] = self.dice.choice((1, 7, 2**53, 2**64 - 40))
        return made

    def script(self, steps):
        """The text of a script of so many steps, and a few to begin with."""
        schema = {"types": [self.new_type(), self.new_type()]}
        schema["indexes"] = [self.new_index() for _ in range(self.dice.randint(0, 3))]
        made = [["begin", 0], ["create", 0, schema], ["commit", 0], ["settle"]]
        made += [["begin", 1, 2], ["create", 1, schema], ["commit", 1], ["settle"]]
        made += [self.step() for _ in range(steps)]
        script = {"steps": [*made, ["settle"]]}
        if self.dice.random() < 0.7:
            script["config"] = self.config()
        if self.dice.random() < 0.05:
            # a step that isn't one
            script["steps"].insert(self.dice.randrange(len(made)), self.dice.choice((["begin"], ["save", 0], 7, [])))
        return json.dumps(script, ensure_ascii=self.dice.random() < 0.5)


def random_scripts(count, steps=120):
    """So many scripts, the same ones each time."""
    return [Maker(seed).script(steps) for seed in range(count)]
