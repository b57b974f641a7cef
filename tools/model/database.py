"""The database's roles: which version a request gets, whether it is committed, and which versions can be read."""
from bisect import bisect_left
from dataclasses import dataclass, field

from keys import Range, common, meet, point
from schemas import Refused
from splits import owned
from store import Store
from transactions import applied

LAST_VERSION = 2**64 - 1


@dataclass
class Request:
    """What a transaction submits: its client, store and read version, what it read and wrote, and its commands."""

    client: int
    store: int
    version: int
    reads: list
    writes: list
    done: list
    # for each resolver that has answered the cause of its refusal, or None
    causes: dict = field(default_factory=dict)

    def __post_init__(self):
        self.points = sorted(it.begin for it in self.writes if it == point(it.begin))
        self.wide = [it for it in self.writes if it != point(it.begin)]

    def wrote_in(self, range_):
        """Whether it wrote something in a range."""
        at = bisect_left(self.points, range_.begin)
        is_hit = at < len(self.points) and self.points[at] < range_.end
        return is_hit or any(meet(range_, it) for it in self.wide)

    def is_committed(self):
        return not any(self.causes.values())

    def cause(self):
        """The cause that the lowest resolver has which refuses."""
        return next(it for _, it in sorted(self.causes.items()) if it)


class Database:
    """Requests in the order of their versions, how far each role is, and the committed stores at each version."""

    def __init__(self, config):
        self.start, self.window = config.get("start", 0), config.get("window", 1000)
        self.resolvers = [Range(*it) for it in owned(config.get("resolver_splits", []))]
        self.servers = [Range(*it) for it in owned(config.get("storage_splits", []))]
        # of each version the stores by number, but those in which nothing was committed
        self.requests, self.stores = [], [{}]
        self.resolved = [0] * len(self.resolvers)
        self.logged = [0] * config.get("logs", 1)
        self.pulled = [0] * len(self.servers)

    def reported(self):
        """How many requests are reported."""
        return len(self.stores) - 1

    def read_version(self):
        return self.start + self.reported()

    def view(self, number):
        """A copy of what is committed in the store of a number at the read version."""
        return self.stores[-1].get(number, Store()).copy()

    def ask(self, range_, version):
        """Refuses a read of a range where a server that has a place of it can't tell the version."""
        known = [self.start + pulled for owner, pulled in zip(self.servers, self.pulled) if meet(owner, range_)]
        refusals = [self.read_refusal(it, version) for it in known]
        refusal = next((it for it in refusals if it), None)
        if refusal:
            raise Refused(refusal)

    def read_refusal(self, known, version):
        """Why a server that knows the versions up to one refuses another, or None."""
        if version > known:
            return "FutureVersion"
        return "TooOld" if known - version > self.window else None

    def submit(self, client, tx):
        """The version of a transaction's request."""
        last = self.start + len(self.requests)
        if last == LAST_VERSION:
            raise Refused("VersionsExhausted")
        if last - tx.version > self.window:
            raise Refused("TooOld")
        writes = [it.range for it in tx.writes]
        self.requests.append(Request(client, tx.number, tx.version, list(tx.reads), writes, tx.done))
        return last + 1

    def resolve(self, resolver):
        """A resolver answers for the next version; whether there was one."""
        at = self.resolved[resolver]
        if at == len(self.requests):
            return False
        self.requests[at].causes[resolver] = self.cause(resolver, at)
        self.resolved[resolver] += 1
        return True

    def cause(self, resolver, at):
        """The first range that a request read in which a newer one wrote, to which the resolver agreed, and when."""
        own, request = self.resolvers[resolver], self.requests[at]
        newer = [it for it in range(request.version - self.start, at) if self.requests[it].causes[resolver] is None]
        for range_ in request.reads:
            part = common(range_, own)
            meeting = [it for it in newer if self.requests[it].wrote_in(part)]
            if any(self.requests[it].store != request.store for it in meeting):
                raise AssertionError(f"{range_.text()} of store {request.store} was written in another one")
            if meeting:
                return self.start + meeting[-1] + 1, range_
        return None

    def log(self, log):
        """A log notes the next version that all resolvers have answered for; whether there was one."""
        is_next = self.logged[log] < min(self.resolved)
        self.logged[log] += is_next
        return is_next

    def report(self):
        """What became of the next request that all logs have; None where there is none."""
        at = self.reported()
        if at == min(self.logged):
            return None
        request = self.requests[at]
        is_committed = request.is_committed()
        self.stores.append(self.after(request) if is_committed else self.stores[-1])
        if is_committed:
            return request.client, f"committed {self.start + at + 1}"
        seen, range_ = request.cause()
        return request.client, f"conflict {seen} {range_.text()}"

    def after(self, request):
        """The stores after a committed request, which changes its own alone."""
        changed = applied(request.store, self.view(request.store), request.done)
        return {**self.stores[-1], request.store: changed}

    def pull(self, server):
        """A server takes the next version of its log; whether there was one."""
        is_next = self.pulled[server] < self.logged[server % len(self.logged)]
        self.pulled[server] += is_next
        return is_next
