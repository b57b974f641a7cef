"""Random scripts: clients that write and read beside each other in stores, builders, marks of indexes, and roles.

A maker knows what it asked for, and never what is replied. So it guesses which indexes are being built, and which
clients have a transaction in which store: most steps are such as do something, and some are refused.
"""
import keys
from asked import MORE_STORES, ONE_STORE, OTHER_STORES, asked_first
from replies import cells_of
from values import WRONG_NAMES, Values

# how often a command of a kind is made in a scene
SCENES = {
    "writers": {"save": 10, "load": 3, "remove": 4, "query": 4, "aggregate": 3, "plan": 1, "execute": 2},
    "readers": {"save": 4, "remove": 1, "query": 12, "plan": 4, "execute": 5, "state": 1, "mark": 1, "aggregate": 2},
    "builders": {"save": 9, "remove": 4, "build": 9, "readable": 4, "write_only": 1, "index": 1, "aggregate": 3,
                 "query": 3, "load": 1, "state": 1, "plan": 1, "execute": 1, "field": 1},
    "definitions": {"type": 3, "field": 4, "wrong_type": 3, "index": 4, "wrong_index": 4, "create": 1, "drop": 3,
                    "mark": 3, "save": 5, "query": 3, "plan": 3, "execute": 6, "state": 2, "aggregate": 2, "remove": 1,
                    "load": 1, "renew": 2},
    "mixed": {"save": 8, "load": 2, "remove": 3, "query": 5, "plan": 2, "execute": 3, "aggregate": 3, "build": 4,
              "readable": 2, "write_only": 1, "disable": 1, "index": 1, "drop": 1, "state": 1, "type": 1, "field": 2,
              "renew": 1},
}
SHARES = {"writers": 5, "readers": 5, "builders": 7, "definitions": 3, "mixed": 5}
ROLES = ("resolve", "log", "pull")
MARKS = {"write_only": "write-only", "disable": "disabled", "readable": "readable"}
LONG_TEXTS = [9_900, 9_980, 9_987, 9_988, 9_989, 10_010, 99_990, 99_996, 99_997, 100_010]


class Maker(Values):
    """Makes one script."""

    def __init__(self, seed):
        super().__init__(seed)
        self.scene = self.chance.choices(list(SHARES), list(SHARES.values()))[0]
        self.kinds = SCENES[self.scene]
        self.has_roles, self.is_large = self.likely(0.25), self.likely(0.03)
        self.long_share = self.pick([0, 0, 0, 0.02])
        self.is_long = self.likely(0.01)
        self.clients = list(range(16)) if self.is_long else self.pick([[0, 1], [0, 1, 2], [0, 1, 2], [0, 1, 2, 15]])
        # the store of each client that has a transaction, and the clients that keep a plan
        self.steps, self.open, self.planned = [], {}, set()
        self.stores = self.some_stores()
        # that of the client whose step is made
        self.here = next(iter(self.stores.values()))
        self.config = self.configuration()

    def some_stores(self):
        """The stores of the script by number, often of the same definitions."""
        first = self.large_schema() if self.is_large else self.schema()
        numbers = self.pick(MORE_STORES if self.likely(0.35) else ONE_STORE)
        others = {it: asked_first(first if self.likely(0.6) else self.schema()) for it in numbers[1:]}
        return {numbers[0]: asked_first(first), **others}

    def configuration(self):
        """The configuration of the script."""
        config = {"window": self.pick([1, 2, 3, 5])} if self.likely(0.12) else {}
        if self.likely(0.1):
            config["start"] = self.pick([7, 7, 2**63, 2**64 - 4, 2**64 - 6, 2**64 - 8, 2**64 - 1])
        if self.likely(0.3):
            config["resolver_splits"] = self.splits()
        if self.has_roles and self.likely(0.6):
            config["storage_splits"] = self.splits()
        if self.likely(0.2):
            config["logs"] = self.pick([1, 2, 3, 16])
        return config

    def splits(self):
        """Places at which the next role begins, of a store's parts and within them, and of stores."""
        number = self.pick(list(self.stores))
        of, root = self.pick(self.stores[number].types), keys.root(number)
        cells = cells_of(self.cells(of, 0))
        places = [keys.key(1), keys.key(1, 1), keys.key(1, 2), keys.key(1, 1, cells[0]), keys.key(2),
                  keys.key(2, 1), keys.key(2, 2), keys.key(2, 1, cells[-1]), keys.key(5), keys.key(5, 1),
                  keys.key(5, 2), keys.key(6), keys.key(6, 2)]
        texts = [(root + it).spelled.hex() for it in places]
        texts += ["15", "1501", "1502", "16", "160100", "02", "150115", root.spelled.hex()]
        return sorted(self.chance.sample(sorted(set(texts)), self.pick([1, 1, 2, 3, 5])))

    def script(self):
        """The script."""
        for client, number in enumerate(self.stores):
            self.here = self.stores[number]
            self.begin_store(client, number)
        turn = self.pick([self.round, self.round, self.turns])
        for _ in range(self.pick([15, 30]) if self.is_long else self.pick([2, 4, 5])):
            turn()
        self.end()
        return {"config": self.config, "steps": self.steps} if self.config else {"steps": self.steps}

    def heavy_script(self):
        """A transaction that writes as much as it may, or more."""
        store = self.pick([[], [1], [65_535]])
        self.add("begin", 0, *store)
        self.add("create", 0, self.heavy_schema())
        for longest in [9_950] * 45 + [990] * 12 + [90] * 12 + [9] * 12:
            length = self.chance.randint(longest * 9 // 10, longest)
            self.add("save", 0, "t", [self.pick([1, 2]), self.pick("xyz") * length, self.chance.randrange(300)])
        self.add(self.pick(["drop", "disable"]), 0, "h0")
        self.add("remove", 0, "t", [1])
        self.add("commit", 0)
        return {"steps": self.steps + [["settle"], ["begin", 9, *store], ["query", 9, {"type": "t"}]]}

    def add(self, *step):
        self.steps.append(list(step))

    def begin(self, client):
        """A client begins in one of the stores, sometimes after a number of none."""
        if self.likely(0.01):
            self.add("begin", client, self.pick(OTHER_STORES[:3]))
        self.begin_in(client, self.pick(list(self.stores)))

    def begin_in(self, client, number):
        """A client begins in the store of a number."""
        self.open[client] = number
        self.add("begin", client, *[number] * (number != 1 or self.likely(0.3)))

    def begin_store(self, client, number):
        """A client makes a store with some records, mostly in a transaction of its own, and indexes to be built."""
        if self.likely(0.02):
            return
        if self.likely(0.06):
            self.abandoned(client, number)
        self.begin_in(client, number)
        self.add("create", client, self.here.schema)
        for _ in range(self.pick([80, 140]) if self.is_large else self.pick([0, 2, 4, 8])):
            self.save(client)
        if self.scene == "builders" or self.likely(0.1):
            self.indexes_to_build(client)
        if self.likely(0.95):
            self.open.pop(client)
            self.add("commit" if self.likely(0.99) else "abandon", client)
            if self.likely(0.98):
                self.add("settle")

    def abandoned(self, client, number):
        """Plans are kept of a store that comes to nothing, with the same types, others or more indexes."""
        types = [self.type("t") if self.likely(0.4) else it for it in self.here.types]
        indexes = [it for it in self.here.indexes if self.likely(0.7) and types == self.here.types]
        self.begin_in(client, number)
        self.add("create", client, {"types": types, "indexes": indexes + [self.index("w", types[0])]})
        self.add("plan", client, self.query(types[0], [it for it in indexes if it["type"] == "t"], 0))
        self.add("abandon", client)
        self.open.pop(client)
        self.planned.add(client)

    def indexes_to_build(self, client):
        """Some new indexes over records, which are to be built."""
        for _ in range(self.pick([1, 1, 2, 3])):
            self.new_index(client)
            self.marked("write_only", client, self.here.indexes[-1]["name"])

    def round(self):
        """Clients begin together, work in turns, commit one after another, and all is settled."""
        busy = [it for it in self.clients if self.likely(0.85)]
        self.each(self.begin, [it for it in busy if it not in self.open])
        self.each(self.command, self.chance.choices(busy, k=len(busy) * self.pick([1, 2, 3, 4])) if busy else [])
        ending = [it for it in self.chance.sample(busy, len(busy)) if self.likely(0.85)]
        self.each(lambda it: self.finish(it, 0.1), ending)
        self.settle()

    def each(self, make, clients):
        """Steps of each of some clients in turn."""
        for client in clients:
            make(client)

    def settle(self):
        """All roles work, all at once or step by step."""
        if self.has_roles and self.likely(0.6):
            for _ in range(self.pick([1, 1, 2, 4])):
                self.roles()
        else:
            self.add("settle")

    def counts(self):
        """How many roles there are of each kind."""
        return {"resolve": len(self.config.get("resolver_splits", [])) + 1, "log": self.config.get("logs", 1),
                "pull": len(self.config.get("storage_splits", [])) + 1}

    def roles(self):
        """Most of the roles take a step, in their order, and somebody is told of it or nobody."""
        steps = [(kind, number) for kind, count in self.counts().items() for number in range(count)]
        for step in [*steps[:-self.counts()["pull"]], (self.pick(["report", "report", "report", "lost"]),),
                     *steps[-self.counts()["pull"]:]]:
            if self.likely(0.93):
                self.add(*step)

    def turns(self):
        """Steps of clients and roles in any order."""
        for _ in range(self.pick([4, 8, 12])):
            self.turn()

    def turn(self):
        """A step of a client, or of a role."""
        client = self.pick(self.clients) if self.likely(0.998) else 16
        if self.has_roles and self.likely(0.35):
            self.role()
        elif client not in self.open and self.likely(0.97):
            self.begin(client)
        elif self.likely(0.2):
            self.finish(client, 0.15 if self.has_roles else 0.4)
        else:
            self.command(client)

    def role(self):
        """A step of a role."""
        kind = self.pick([*ROLES, *ROLES, "report", "report", self.pick(["report", "lost"]), "settle"])
        if kind in self.counts():
            self.add(kind, self.chance.randrange(self.counts()[kind] + self.likely(0.03)))
        else:
            self.add(kind)

    def finish(self, client, settled):
        """A transaction ends, and its commit may be settled at once; the client may begin again before that."""
        self.open.pop(client, None)
        self.add("commit" if self.likely(0.93) else "abandon", client)
        if self.likely(0.07):
            self.begin(client)
        if self.likely(settled):
            self.add("settle")

    def command(self, client):
        """A command of a client."""
        self.here = self.stores[self.open.get(client) or next(iter(self.stores))]
        kind = self.chance.choices(list(self.kinds), list(self.kinds.values()))[0]
        if self.likely(0.01):
            kind = self.pick(["save", "execute", "create", "begin", "build", "type"])
        if kind == "execute" and client not in self.planned and self.likely(0.95):
            kind = "plan"
        makers = {"mark": self.mark, "save": self.save, "index": self.new_index, "type": self.new_type,
                  "build": self.build, "aggregate": self.aggregate, "create": self.create, "renew": self.renew,
                  "field": self.new_field}
        if kind in makers:
            makers[kind](client)
        elif kind in ("query", "plan"):
            self.ask(client, kind)
        elif kind in ("load", "remove"):
            self.by_key(client, kind)
        elif kind in ("wrong_type", "wrong_index"):
            self.refused(client, kind)
        elif kind == "begin":
            self.add(kind, client, *self.pick([[], [], [self.pick(OTHER_STORES)], [self.pick(list(self.stores))]]))
        elif kind == "execute":
            self.add(kind, client)
        else:
            self.marked(kind, client, self.index_name("write-only" if kind == "readable" else None))

    def mark(self, client):
        self.marked(self.pick(["disable", "write_only", "readable", "write_only"]), client, self.index_name())

    def marked(self, kind, client, name):
        """A step that marks an index, or another one of an index alone."""
        self.here.guesses[name] = MARKS.get(kind, self.here.guesses.get(name))
        self.add(kind, client, name)

    def index_name(self, state=None):
        """The name of an index that was asked for, mostly of one in a state."""
        known = [it["name"] for it in self.here.indexes]
        fitting = [it for it in known if self.here.guesses.get(it) == state]
        if fitting and self.likely(0.8):
            return self.pick(fitting)
        return self.pick(known) if known and self.likely(0.97) else "none"

    def save(self, client):
        """A record is saved."""
        of = self.pick(self.here.types)
        cells = self.cells(of)
        kinds = [kind for (_, kind), _ in zip(of["fields"], cells)]
        if "text" in kinds and self.likely(self.long_share):
            cells[kinds.index("text")] = "x" * self.pick(LONG_TEXTS)
        if self.is_large and kinds[:1] == ["int"]:
            cells[0] = self.chance.randrange(200)
        self.add("save", client, of["name"] if self.likely(0.99) else "none", cells)

    def by_key(self, client, kind):
        of = self.pick(self.here.types)
        self.add(kind, client, of["name"] if self.likely(0.99) else "none", self.key_cells(of))

    def ask(self, client, kind):
        """A query, or a plan of one."""
        of = self.pick(self.here.types)
        query = self.query(of, [it for it in self.here.indexes if it["type"] == of["name"]])
        if self.likely(0.003):
            query["filter"] = self.pick([["and", *[["null", "none"]] * 256], deep(33), deep(32)])
        if kind == "plan":
            self.planned.add(client)
        self.add(kind, client, query)

    def new_index(self, client):
        """A new index, sometimes under a name that is known."""
        name = f"i{self.chance.randrange(7)}"
        here = self.here
        made = self.index(name, self.pick(here.types))
        here.indexes = [it for it in here.indexes if it["name"] != name or self.likely(0.3)] + [made]
        here.guesses[name] = "disabled"
        self.add("index", client, made)
        if self.likely(0.5):
            self.marked("write_only", client, name)

    def renew(self, client):
        """An index is dropped and made anew as it was, between a plan and its execution."""
        if not self.here.indexes:
            return
        made = self.pick(self.here.indexes)
        self.planned.add(client)
        self.add("plan", client, {"type": made["type"], "sort": made["columns"]})
        self.add("drop", client, made["name"])
        self.add("index", client, made)
        self.add("execute", client)

    def new_type(self, client):
        made = self.type(self.pick(["t", "u", "v", "w"]))
        if made["name"] not in [it["name"] for it in self.here.types]:
            self.here.types.append(made)
        self.add("type", client, made)

    def new_field(self, client):
        """A field is appended to a type; records and indexes that are asked for later have it."""
        types = self.here.types
        of = self.pick(types)
        made = self.field(of)
        if made[0] not in [*WRONG_NAMES, *(name for name, _ in of["fields"])]:
            types[types.index(of)] = {**of, "fields": [*of["fields"], made]}
        self.add("field", client, of["name"] if self.likely(0.98) else "none", made)

    def create(self, client):
        """The store is asked for again, with other definitions or with wrong ones."""
        schema = self.pick([self.here.schema, {"types": [self.type("t")]}])
        if self.likely(0.3):
            schema = {"types": [*schema["types"], self.wrong_type(self.here.types[0])]}
        self.add("create", client, schema)

    def refused(self, client, kind):
        """A type or an index that is refused."""
        of = self.pick(self.here.types)
        made = self.wrong_type(of) if kind == "wrong_type" else self.wrong_index(of, self.index_name())
        self.add(kind.removeprefix("wrong_"), client, made)

    def build(self, client):
        """A step of a builder, perhaps the last one."""
        name = self.index_name("write-only")
        self.add("build", client, name, self.pick([0, *[1, 2, 2, 3, 70, 100] * 4]))
        if self.likely(0.25):
            self.marked("readable", client, name)

    def aggregate(self, client):
        """The total of a group, mostly of a COUNT or a SUM."""
        totals = [it for it in self.here.indexes if it["kind"] != "value"]
        if not totals or self.likely(0.03):
            self.add("aggregate", client, self.index_name(), [])
        else:
            self.total(client, self.pick(totals), 0.02)

    def total(self, client, index, wrong):
        """The total of a group of an index."""
        kinds = {name: kind for of in self.here.types if of["name"] == index["type"] for name, kind in of["fields"]}
        cells = [self.cell(kinds.get(it, "int"), 0.15, wrong) for it in index["columns"]]
        self.add("aggregate", client, index["name"], cells + [None] if self.likely(wrong) else cells)

    def end(self):
        """All is settled, and a client for each store asks for all that there is."""
        self.add("settle")
        for client, (number, self.here) in enumerate(self.stores.items(), 9):
            self.begin_in(client, number)
            self.steps += [["query", client, {"type": it["name"]}] for it in self.here.types]
            for index in self.here.indexes:
                self.asked_of(client, index)

    def asked_of(self, client, index):
        """What an index has, asked for by a sort or by groups."""
        if index["kind"] == "value":
            self.add("query", client, {"type": index["type"], "sort": index["columns"]})
            return
        self.add("state", client, index["name"])
        for _ in index["columns"][:2] * 2 or [None]:
            self.total(client, index, 0)


def deep(levels):
    """A filter of so many levels."""
    return ["not", deep(levels - 1)] if levels > 1 else ["null", "none"]


def script_of(seed, number):
    """The script of a number."""
    maker = Maker(f"{seed} {number}")
    return maker.heavy_script() if number % 500 == 250 else maker.script()
