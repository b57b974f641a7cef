"""The replies to the steps of a script: its clients, each with a kept plan and a transaction in a store, and roles."""
from database import Database
from schemas import Refused, schema_of
from transactions import Transaction

CLIENTS = 16
STORES = range(1, 65_536)


class Session:
    """A script that runs over an empty database."""

    def __init__(self, config):
        self.database = Database(config)
        self.open, self.plans = {}, {}
        self.roles = {"resolve": (self.database.resolve, len(self.database.resolvers)),
                      "log": (self.database.log, len(self.database.logged)),
                      "pull": (self.database.pull, len(self.database.servers))}

    def reply(self, step):
        """The reply to a step."""
        kind, *parts = step
        try:
            if kind in self.roles:
                return self.role_step(*self.roles[kind], *parts)
            if kind in ("report", "lost", "settle"):
                return getattr(self, kind)()
            return self.client_step(kind, *parts)
        except Refused as why:
            return f"refused {why}"

    def role_step(self, step, count, number):
        if number >= count:
            raise Refused("NoSuchRole")
        return "ok" if step(number) else "nothing"

    def report(self):
        told = self.database.report()
        return f"client {told[0]} {told[1]}" if told else "nothing"

    def lost(self):
        told = self.database.report()
        return f"client {told[0]} unknown" if told else "nothing"

    def settle(self):
        """Rounds of all roles, until a round has nothing to do."""
        told = []
        while self.round(told):
            pass
        return ", ".join(told) or "nothing"

    def round(self, told):
        """A step of each role, with what is told to a client; whether there was something to do."""
        database = self.database
        done = [*map(database.resolve, range(len(database.resolvers))), *map(database.log, range(len(database.logged)))]
        reply = self.report()
        told += [reply] * (reply != "nothing")
        done += [reply != "nothing", *map(database.pull, range(len(database.servers)))]
        return any(done)

    def client_step(self, kind, client, *parts):
        """The reply to a step of a client."""
        if client >= CLIENTS:
            raise Refused("NoSuchClient")
        if kind == "begin":
            return self.begin(client, *parts)
        if client not in self.open:
            raise Refused("NoTransaction")
        if kind == "abandon":
            del self.open[client]
            return "ok"
        if kind == "commit":
            return self.commit(client)
        return self.command(client, kind, parts)

    def begin(self, client, number=1):
        if number not in STORES:
            raise Refused("NoSuchStore")
        if client in self.open:
            raise Refused("Busy")
        database = self.database
        self.open[client] = Transaction(number, database.read_version(), database.view(number), database.ask)
        return f"begun {database.read_version()}"

    def commit(self, client):
        """The transaction ends, whatever is replied."""
        tx = self.open.pop(client)
        return f"submitted {self.database.submit(client, tx)}" if tx.writes else "read only"

    def command(self, client, kind, parts):
        """The reply to a command; what needs no store is refused before it is opened."""
        if kind == "execute" and client not in self.plans:
            raise Refused("NoPlan")
        if kind == "build" and parts[1] == 0:
            raise Refused("BadLimit")
        if kind == "create":
            schema_of(parts[0])
        tx = self.open[client]
        reply = tx.perform(kind, *([self.plans[client]] if kind == "execute" else parts))
        if kind == "plan" and not reply.startswith("refused"):
            self.plans[client] = tx.planned
        return reply


def replies(script):
    """The replies to the steps of a script."""
    session = Session(script.get("config", {}))
    return [session.reply(it) for it in script["steps"]]
