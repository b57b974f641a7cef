"""Tests the record layer over real engines: memory, a SQLite file, three nodes of etcd, and PostgreSQL.

    python3 tools/engines/test.py [--only WORD] [--program RECORDCTL]

It installs etcd, PostgreSQL and psycopg from Debian where they aren't there (with apt-get, as root), and a package of
Python in a folder of its own, by `pip install`. Servers listen on loopback alone, in a folder that is removed at the
end, and all is over in 15 minutes at most. The record layer comes from the static library that python/build_wheel_here
finds: proved, or not. With a program the scripts' output is also held against what that one prints, and random scripts
are tried.

A line is printed for each test. The last one is 'N passed, M failed'; the status is 0 where M is 0.
"""
from __future__ import annotations

import argparse
import logging
import os
import shutil
import signal
import subprocess
import sys
import tempfile
import time
from collections import Counter
from collections.abc import Callable
from functools import cached_property
from typing import TYPE_CHECKING

if TYPE_CHECKING:
    from record_store.engine import Engine
    from servers import EtcdNodes, PostgresServer

HERE = os.path.dirname(os.path.abspath(__file__))
ROOT = os.path.dirname(os.path.dirname(HERE))
PYTHON, PACKAGES = "/usr/bin/python3", ["etcd-server", "postgresql", "python3-psycopg", "python3-pip", "mypy"]
SECONDS = 900
SEEDS = range(200)
NAMES = ("scripts", "random", "interface", "misuse", "types", "rules", "binding", "dropped", "documents",
         "races", "kills", "calls")


def prepare(folder: str) -> subprocess.Popen[bytes]:
    """Installs what isn't there, and goes on in Debian's Python with the package installed in a folder."""
    there = subprocess.run(["dpkg-query", "-W", "-f", "${Status}\n", *PACKAGES], capture_output=True, text=True,
                           check=False).stdout.count("install ok installed")
    if there < len(PACKAGES):
        for words in (["update"], ["install", "-y", "--no-install-recommends", *PACKAGES]):
            subprocess.run(["apt-get", "-q", *words], check=True, stdin=subprocess.DEVNULL,
                           env={**os.environ, "DEBIAN_FRONTEND": "noninteractive"})
    subprocess.run([PYTHON, "-m", "pip", "install", "-q", "--no-deps", "--target", f"{folder}/site",
                    os.path.join(ROOT, "python")], check=True)
    environment = {**os.environ, "PYTHONPATH": f"{folder}/site", "ENGINES_FOLDER": folder}
    return subprocess.Popen([PYTHON, *sys.argv], env=environment)


class Tests:
    """The tests, the servers that they use, and what came of them."""

    def __init__(self, folder: str, options: argparse.Namespace) -> None:
        self.folder, self.options = folder, options
        self.stops: list[Callable[[], object]] = []
        self.counts: Counter[str] = Counter()

    @cached_property
    def etcd(self) -> EtcdNodes:
        """Three nodes of etcd, which are started where a test asks for them first."""
        import servers
        os.makedirs(f"{self.folder}/etcd")
        nodes = servers.EtcdNodes(f"{self.folder}/etcd")
        self.stops.append(nodes.stop)
        return nodes

    @cached_property
    def postgres(self) -> PostgresServer:
        """A server of PostgreSQL, which is started where a test asks for it first."""
        import servers
        server = servers.PostgresServer(f"{self.folder}/postgres")
        self.stops.append(server.stop)
        return server

    def stop(self) -> None:
        """Stops the servers."""
        for stop in self.stops:
            stop()

    def engines(self, name: str) -> dict[str, Callable[[], Engine]]:
        """For each engine how it is opened, over a database of this name that is empty at first."""
        import psycopg.sql
        from record_store.engines.etcd import Etcd
        from record_store.engines.memory import Memory
        from record_store.engines.postgres import Postgres
        from record_store.engines.sqlite import Sqlite
        with self.postgres.connected() as connection:
            connection.execute(psycopg.sql.SQL("create database {}").format(psycopg.sql.Identifier(name)))
        memory = Memory()
        return {
            "memory": lambda: memory,
            "sqlite": lambda: Sqlite(f"{self.folder}/{name}.db"),
            "etcd": lambda: Etcd(self.etcd.clients, name.encode() + b"/"),
            "postgres": lambda: Postgres(self.postgres.of(name)),
        }

    def note(self, name: str, faults: list[str], what: str) -> None:
        """Prints what came of a test."""
        for fault in faults[:10]:
            print(f"{name}: {fault}")
        self.counts["failed" if faults else "passed"] += 1
        print(f"{'FAILED' if faults else 'passed'}: {name}: {what}", flush=True)

    def test_scripts(self) -> None:
        """Scripts give the replies of `recordctl run` over each engine."""
        import scripts
        suited = scripts.suited()
        tried: dict[str, Counter[str]] = {it: Counter() for it in ("memory", "sqlite", "etcd", "postgres")}
        faults: dict[str, list[str]] = {it: [] for it in tried}
        for number, (shows, steps, text, wanted) in enumerate(suited):
            if self.options.program and scripts.program_output(self.options.program, text) != wanted:
                faults["memory"].append(f"{shows}: the program prints something else")
            for name, opened in self.engines(f"s{number}").items():
                if name != "memory" and len(steps) > scripts.LONG:
                    continue
                engine = opened()
                faults[name] += [f"{shows}: {it}" for it in scripts.differences(engine, steps, wanted)]
                engine.close()
                tried[name].update(scripts=1, steps=len(steps))
        for name, counts in tried.items():
            self.note(f"scripts over {name}", faults[name], f"{counts['scripts']} scripts of {counts['steps']} steps")

    def test_random(self) -> None:
        """Random scripts give the replies of a program over memory, also where few pairs are read at once."""
        import random_scripts
        import scripts
        if not self.options.program:
            print("without a recordctl no random scripts are tried")
            return
        count, faults = random_scripts.differing(self.options.program, SEEDS, scripts.differences,
                                                 scripts.program_output)
        self.note("random scripts over memory", faults, f"{len(SEEDS)} scripts of {count} steps")

    def test_interface(self) -> None:
        """The calls of the package answer and raise what they are said to."""
        import interface
        for name, opened in self.engines("interface").items():
            self.note(f"the calls of the package over {name}", list(interface.wrong_calls(opened())),
                      f"{len(interface.ROWS) + len(interface.CALLS)} rows")

    def test_misuse(self) -> None:
        """What a program may do to a database that it shouldn't comes to what is said of it."""
        import misuse
        for name, opened in self.engines("misuse").items():
            self.note(f"misuse over {name}", list(misuse.different(opened())), f"{len(misuse.ROWS)} rows")

    def test_types(self) -> None:
        """The package and these tests pass a checker of types."""
        import types_checked
        if not types_checked.is_there() and not self.options.only:
            print("without mypy no types are checked")
            return
        self.note("types, by mypy", types_checked.faults(), "the package and its tests, strict")

    def test_rules(self) -> None:
        """Each engine keeps the rule of a commit, and engines that don't are found out."""
        import rules
        import wrong_engines
        for name, opened in self.engines("rules").items():
            self.note(f"the rule of a commit over {name}", list(rules.broken(opened())),
                      f"{len(rules.ROWS) + len(rules.SUMS) + len(rules.KEPT) + 4} rows")
        for name, engine, wanted in wrong_engines.all_of(self):
            found = list(rules.broken(engine))
            self.note(f"a wrong rule is found: {name}", [] if wanted <= {it.split(": ")[0] for it in found} else found,
                      f"{len(found)} rows break")

    def test_binding(self) -> None:
        """The engine for FoundationDB over what stands in for its binding, which isn't FoundationDB."""
        import fake_fdb
        import interface
        import rules
        import wrong_engines
        sys.modules["fdb"] = fake_fdb.module()
        from record_store.engines.foundationdb import FoundationDb
        faults = [*rules.broken(FoundationDb()), *interface.wrong_calls(FoundationDb(prefix=b"other/"))]
        self.note("the engine for FoundationDB over a stand-in, not FoundationDB", faults, "the rule, and the calls")
        found = list(rules.broken(wrong_engines.leaving_out()))
        self.note("a wrong rule is found: a range left out, over the stand-in", [] if found else ["nothing breaks"],
                  f"{len(found)} rows break")

    def test_dropped(self) -> None:
        """Connections that are dropped, and files that are locked, are told as what they may have come to."""
        import dropped
        for name, rows in dropped.engines(self):
            self.note(f"what isn't answered over {name}", list(dropped.different(rows)), f"{len(rows)} rows")

    def test_documents(self) -> None:
        """The lines of Python in documents do what is said there, also a second time."""
        import documents
        self.note("lines of documents", list(documents.different(self.folder)), f"{len(documents.BLOCKS)} documents")

    def test_races(self) -> None:
        """Clients and a builder race over each engine."""
        import races
        for name, opened in self.engines("races").items():
            faults, told, states = races.raced(opened, each=races.EACH[name])
            if set(states.values()) != {"readable"}:
                faults.append(f"indexes are {states}")
            self.note(f"four clients and a builder over {name}", faults, f"{len(told)} transactions, all told")

    def test_kills(self) -> None:
        """Nothing that was acknowledged is lost where a process, etcd's leader or PostgreSQL's backends are killed."""
        import kills
        import races
        told, faults = kills.rounds(f"{self.folder}/killed.db")
        self.note("processes killed over sqlite", faults, f"{len(told)} acknowledged, {kills.ROUNDS} kills")

        def kill_leader() -> None:
            time.sleep(1)
            node = self.etcd.kill_leader()
            time.sleep(2)
            self.etcd.start_again(node)

        def kill_backends() -> None:
            for _ in range(kills.ROUNDS):
                time.sleep(0.1)
                self.postgres.stop_clients("killed")
            self.postgres.kill_client("killed")

        opened = self.engines("killed")
        for name, shows, between in (("etcd", "the leader killed over etcd", kill_leader),
                                     ("postgres", "backends killed over postgres", kill_backends)):
            faults, outcomes, _ = races.raced(opened[name], between, 2 * races.EACH[name])
            counts = Counter(what for _, _, what in outcomes)
            self.note(shows, faults, ", ".join(f"{n} {it}" for it, n in sorted(counts.items())))

    def test_calls(self) -> None:
        """The record layer called from C: threads, little room, failing allocations, bytes that are cut off."""
        import calls
        status, lines = calls.called(self.folder)
        faults = lines[:-1] + ([] if status == 0 else [f"status {status}"])
        self.note("calls from C", faults, lines[-1] if lines else "nothing is printed")

    def run(self) -> int:
        """Runs the tests, and answers the status."""
        try:
            for name in NAMES:
                if not self.options.only or self.options.only in name:
                    getattr(self, f"test_{name}")()
        finally:
            self.stop()
        print(f"{self.counts['passed']} passed, {self.counts['failed']} failed")
        return 0 if self.counts["passed"] and not self.counts["failed"] else 1


def run_over(folder: str, options: argparse.Namespace) -> int:
    """Runs the tests."""
    return Tests(folder, options).run()


def main(parser: argparse.ArgumentParser, body: Callable[[str, argparse.Namespace], int]) -> int:
    """Runs a body with a folder and options: in Debian's Python, with the package installed in a folder of its own."""
    options = parser.parse_args()
    signal.signal(signal.SIGTERM, lambda *_: sys.exit(1))  # which stops the servers
    if folder := os.environ.get("ENGINES_FOLDER"):
        sys.path.insert(0, HERE)
        logging.getLogger("psycopg").setLevel(logging.ERROR)  # connections are lost on purpose
        return body(folder, options)
    folder = tempfile.mkdtemp(prefix="engines-")
    os.chmod(folder, 0o755)
    try:
        process = prepare(folder)
        try:
            return process.wait(SECONDS)
        except BaseException:
            process.terminate()
            process.wait()
            raise
    finally:
        shutil.rmtree(folder, ignore_errors=True)


if __name__ == "__main__":
    PARSER = argparse.ArgumentParser(description=__doc__, formatter_class=argparse.RawDescriptionHelpFormatter)
    PARSER.add_argument("--only", default="", help=f"a part of the names of the tests: {' '.join(NAMES)}")
    BUILT = [os.path.join(ROOT, it, "recordctl") for it in ("crates/recordctl/out", "out/quick")]
    PARSER.add_argument("--program", default=next((it for it in BUILT if os.path.exists(it)), None),
                        help="a recordctl whose output is compared too; else one that is built here")
    sys.exit(main(PARSER, run_over))
