"""Connections that are dropped, and a file that is locked: what a transaction is told, and what became of it.

A proxy stands between the engine and its servers. It drops a connection when the commit comes, or when its answer does;
or it drops all before the transaction begins, before it reads on, or before it commits.
"""
from __future__ import annotations

import os
import random
import socket
import sqlite3
import threading
from collections.abc import Callable, Iterator, Sequence
from contextlib import closing, suppress
from functools import partial
from typing import TYPE_CHECKING, Any

from record_store import RecordError
from record_store.engine import Engine, Snapshot
from record_store.engines.etcd import Etcd
from record_store.engines.postgres import Postgres
from record_store.engines.sqlite import Sqlite
from record_store.form import SET, Mutation, Want
from servers import wait_until

if TYPE_CHECKING:
    from test import Tests
    from servers import PostgresServer

Row = tuple[str, Callable[[], Any], Any]
# when connections are dropped, what the transaction is told, and whether its write is there then
ROWS: list[tuple[str | None, str, bool]] = [
    (None, "committed", True),
    ("begin", "committed", True),
    ("commit", "Unknown", False),
    ("request", "Unknown", False),
    ("answer", "Unknown", True),
    (None, "committed", True),
]
# so of a read within the transaction: PostgreSQL's snapshot is the connection's, and etcd's any connection's
READS = {"postgres": ("read", "Unavailable", False), "etcd": ("read", "committed", True)}


class Proxy:
    """Stands between clients and a server, by its address, which is a path or a host and a port."""

    def __init__(self, server: str | tuple[str, int]) -> None:
        self.server = server
        self.drops: str | None = None
        self.pairs: list[tuple[socket.socket, socket.socket]] = []
        self.listener = socket.create_server(("127.0.0.1", 0))
        self.port = self.listener.getsockname()[1]
        threading.Thread(target=self.accept, daemon=True).start()

    def accept(self) -> None:
        """Takes connections until the listener is closed."""
        with suppress(OSError):
            while True:
                client, _ = self.listener.accept()
                server = socket.socket(socket.AF_UNIX if isinstance(self.server, str) else socket.AF_INET)
                server.connect(self.server)
                self.pairs.append((client, server))
                threading.Thread(target=self.pump, args=(client, server, "request"), daemon=True).start()
                threading.Thread(target=self.pump, args=(server, client, "answer"), daemon=True).start()

    def pump(self, source: socket.socket, target: socket.socket, what: str) -> None:
        """Passes on what comes, until it is to be dropped."""
        with suppress(OSError):
            while (data := source.recv(1 << 16)) and self.drops != what:
                target.sendall(data)
        self.end(source, target)

    def end(self, *sockets: socket.socket) -> None:
        """Ends connections, whoever waits for them."""
        for one in sockets:
            with suppress(OSError):
                one.shutdown(socket.SHUT_RDWR)

    def drop(self) -> None:
        """Drops all connections."""
        for pair in self.pairs:
            self.end(*pair)

    def close(self) -> None:
        """Ends the proxy."""
        self.end(self.listener)
        self.listener.close()
        self.drop()


class Dropping:
    """An engine through proxies, and by itself."""

    def __init__(self, servers: Sequence[str | tuple[str, int]], through: Callable[[list[int]], Engine],
                 direct: Engine) -> None:
        self.proxies = [Proxy(it) for it in servers]
        self.engine, self.direct = through([it.port for it in self.proxies]), direct

    def drop(self, when: str | None, now: str) -> None:
        """Drops all connections, if this is when they are to be dropped."""
        for proxy in self.proxies if when == now else ():
            proxy.drop()

    def committed(self, snapshot: Snapshot, want: Want, when: str | None) -> str:
        """Reads on and commits, where what is dropped is told by `when`."""
        self.drop(when, "read")
        snapshot.read([want])
        self.drop(when, "commit")
        for proxy in self.proxies:
            proxy.drops = when
        snapshot.commit([(want.begin, want.end)], [Mutation(SET, want.begin, b"there")], {})
        return "committed"

    def told(self, when: str | None) -> tuple[str, bool]:
        """What a transaction is told, and whether its write is there then."""
        key = b"k%x" % random.getrandbits(64)
        want = Want(key, key + b"\0", 1)
        self.engine.begin([])[0].close()
        self.drop(when, "begin")
        snapshot, _ = self.engine.begin([want])
        try:
            what = self.committed(snapshot, want, when)
        except RecordError as why:
            what = type(why).__name__
        finally:
            for proxy in self.proxies:
                proxy.drops = None
            snapshot.close()
        other, (read,) = self.direct.begin([want])
        other.close()
        return what, bool(read.pairs)


def rows_of(dropping: Dropping, name: str) -> list[Row]:
    """Each row of an engine, as a call and what it should be told."""
    return [(f"dropped at {when}", partial(dropping.told, when), (what, is_there))
            for when, what, is_there in [*ROWS, READS[name]]]


def stopped(engine: Postgres, server: PostgresServer, how: str) -> tuple[str, bool, bool]:
    """What a commit is told whose backend is stopped while it waits for another commit; whether its write is there
    then; and whether the next one is made."""
    want, told = Want(b"k" + how.encode(), b"k" + how.encode() + b"\0", 1), list[str]()
    snapshot, _ = engine.begin([want])

    def commit(over: Snapshot) -> None:
        try:
            over.commit([(want.begin, want.end)], [Mutation(SET, want.begin, b"there")], {})
            told.append("committed")
        except RecordError as why:
            told.append(type(why).__name__)
        finally:
            over.close()

    with server.connected("dropped") as other:
        other.execute("begin")
        other.execute("select 1 from record_clock for update")
        thread = threading.Thread(target=commit, args=(snapshot,))
        thread.start()
        waiting = "select pid from pg_stat_activity where datname = 'dropped' and wait_event_type = 'Lock'"
        wait_until(lambda: other.execute(f"select {how}(pid) from ({waiting}) as it").fetchall() != [], "a commit")
        thread.join()
        other.execute("rollback")
    again, (read,) = engine.begin([want])
    commit(again)
    return told[0], bool(read.pairs), told[1:] == ["committed"]


def stopped_rows(engine: Postgres, server: PostgresServer) -> list[Row]:
    """The rows of backends that are stopped in a commit."""
    return [(f"{how} in a commit", partial(stopped, engine, server, how), ("Unknown", False, True))
            for how in ("pg_terminate_backend", "pg_cancel_backend")]


def locked(path: str) -> list[Any]:
    """What a commit is told of a file that another program has locked, and whether one is made after that."""
    engine, other = Sqlite(path, timeout=0.05), sqlite3.connect(path, isolation_level=None)
    told: list[Any] = []
    for lock in ("begin immediate", "rollback"):
        other.execute(lock)
        snapshot, _ = engine.begin([])
        try:
            told.append(snapshot.commit([], [Mutation(SET, b"k", b"v")], {}))
        except RecordError as why:
            told.append(type(why).__name__)
        finally:
            snapshot.close()
    other.close()
    engine.close()
    return told


def moved(folder: str) -> list[Any]:
    """What a commit answers where the process works in another folder than when it opened a file by a short path, and
    what is in that folder then."""
    before = os.getcwd()
    try:
        os.chdir(folder)
        engine = Sqlite("moved.db")
        os.mkdir("elsewhere")
        os.chdir("elsewhere")
        with closing(engine), closing(engine.begin([])[0]), closing(engine.begin([])[0]) as snapshot:
            return [snapshot.commit([], [Mutation(SET, b"k", b"v")], {}), os.listdir()]
    finally:
        os.chdir(before)


def engines(tests: Tests) -> list[tuple[str, list[Row]]]:
    """For each engine its rows: what is shown, a call, and what it should be told."""
    opened = tests.engines("dropped")
    postgres, etcd = tests.postgres, Etcd(tests.etcd.clients, b"dropped/")
    nodes = [(host, int(port)) for host, port in (it.split(":") for it in tests.etcd.clients)]
    conninfo = "host=127.0.0.1 user=records dbname=dropped sslmode=disable gssencmode=disable"
    over_postgres = Dropping([f"{postgres.folder}/.s.PGSQL.{postgres.port}"],
                             lambda ports: Postgres(f"{conninfo} port={ports[0]}"), opened["postgres"]())
    over_etcd = Dropping(nodes, lambda ports: Etcd([f"127.0.0.1:{it}" for it in ports], etcd.prefix), etcd)
    path = f"{tests.folder}/locked.db"
    tests.stops += [it.close for it in over_postgres.proxies + over_etcd.proxies]
    return [
        ("postgres", [*rows_of(over_postgres, "postgres"), *stopped_rows(Postgres(postgres.of("dropped")), postgres)]),
        ("etcd", rows_of(over_etcd, "etcd")),
        ("sqlite", [("a locked file", lambda: locked(path), ["Unavailable", 1]),
                    ("a folder", lambda: Sqlite(tests.folder), "Unavailable"),
                    ("another folder", lambda: moved(tests.folder), [1, []]),
                    ("no file", lambda: Sqlite(":memory:"), "Unavailable")]),
    ]


def different(rows: Sequence[Row]) -> Iterator[str]:
    """What is told otherwise than it should be."""
    for shows, call, wanted in rows:
        try:
            found = call()
        except RecordError as why:
            found = type(why).__name__
        if found != wanted:
            yield f"{shows}: {found}, and not {wanted}"
