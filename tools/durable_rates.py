#!/usr/bin/env python3
"""Compares how many commits a second a database in a folder takes with SQLite's shell over a file, each awaited.

    durable_rates.py PROGRAM [--kept PROGRAM] [--commits N] [--rounds N] [--folder FOLDER]

Both are shells that are given a transaction of one save at a time, through a pipe, and the next one once its answer is
read, so that what counts is what comes before the answer: SQLite's has `journal_mode=WAL` and `synchronous=FULL`, so a
commit is on the disk then too. They run in turn, in rounds over new databases in the same folder, and the median
counts, as the time of a sync changes from minute to minute; the quotient is the median of those of the rounds. Before
each round so many syncs of 300 appended bytes are timed. Prints a table in Markdown. SQLite's shell is `sqlite3`.

With a built `bench_threads` the commits of clients on threads of one process are compared too, by 1 and by 8 of them,
together, where those that come together share a sync, and one at a time. SQLite's clients are threads of Python, each
with a connection of its own, that wait for one another in SQLite, or for a lock around each transaction: the faster of
both counts, beside the program's commits together.
"""
import argparse
import contextlib
import os
import re
import shutil
import sqlite3
import statistics
import subprocess
import sys
import tempfile
import threading
import time

MADE = b"begin\ncreate\ntype t k int, v int key k\ncommit\n"
SAVED = b"begin\nsave t %d 7\ncommit\n"
SQL_MADE = b"pragma journal_mode=wal; pragma synchronous=full; create table t (k integer primary key, v integer);\n"
SQL_SAVED = b"begin; insert or replace into t values (%d, 7); commit; select 'committed';\n"
BYTES = bytes(300)
CLIENTS = (1, 8)
TOLD = re.compile(r"(\d+) commits in (\d+) us")
PREPARED = "insert or replace into t values (?, 7)"


def begun(words, given, told):
    """A shell that has done what it is given first, until it tells so."""
    shell = subprocess.Popen(words, stdin=subprocess.PIPE, stdout=subprocess.PIPE)
    done(shell, given, told)
    return shell


def done(shell, given, told):
    """Gives a shell lines, and waits until one tells that they are done."""
    shell.stdin.write(given)
    shell.stdin.flush()
    while told not in shell.stdout.readline():
        if shell.poll() is not None:
            raise RuntimeError(f"the shell has ended: {shell.args}")


def rate(shell, form, commits):
    """Commits a second."""
    begin = time.perf_counter()
    for number in range(commits):
        done(shell, form % number, b"committed")
    spent = time.perf_counter() - begin
    shell.stdin.close()
    shell.wait()
    return commits / spent


def own_rate(program, folder, commits):
    data = os.path.join(folder, "own")
    return rate(begun([program, "shell", "--data", data], MADE, b"committed"), SAVED, commits)


def sqlite_rate(folder, commits):
    path = os.path.join(folder, "sqlite.db")
    return rate(begun(["sqlite3", path], SQL_MADE + b"select 'made';\n", b"made"), SQL_SAVED, commits)


def sync_rate(folder, commits):
    """Syncs a second of a file to which bytes are appended."""
    with open(os.path.join(folder, "bytes"), "wb", buffering=0) as file:
        begin = time.perf_counter()
        for _ in range(commits):
            file.write(BYTES)
            os.fdatasync(file.fileno())
        return commits / (time.perf_counter() - begin)


def round_of(program, folder, commits):
    """The rates of a round: of syncs, of the program, and of SQLite, over new files."""
    with tempfile.TemporaryDirectory(prefix="durable-", dir=folder) as room:
        return sync_rate(room, commits), own_rate(program, room, commits), sqlite_rate(room, commits)


def kept_rate(program, way, folder, clients, commits):
    """Commits a second of clients on threads, by what `bench_threads kept` prints."""
    file = os.path.join(folder, "kept")
    with contextlib.suppress(FileNotFoundError):
        os.remove(file)
    words = [program, "kept", way, file, str(clients), str(commits)]
    said = TOLD.search(subprocess.run(words, stdout=subprocess.PIPE, text=True, check=True).stdout)
    return int(said[1]) / int(said[2]) * 1_000_000


def save_each(path, first, count, turn):
    """The transactions of one client of SQLite, each in its turn."""
    one = sqlite3.connect(path, isolation_level=None, timeout=600)
    one.execute("pragma synchronous=full")
    for number in range(first, first + count):
        with turn:
            one.execute("begin immediate")
            one.execute(PREPARED, (number,))
            one.execute("commit")
    one.close()


def connected_rate(folder, clients, commits, turn):
    """Commits a second of clients of SQLite on threads, over a new file."""
    with tempfile.TemporaryDirectory(dir=folder) as room:
        path = os.path.join(room, "sqlite.db")
        with contextlib.closing(sqlite3.connect(path)) as made:
            made.executescript(SQL_MADE.decode())
        each = commits // clients
        threads = [threading.Thread(target=save_each, args=(path, it * each, each, turn)) for it in range(clients)]
        begin = time.perf_counter()
        for it in threads:
            it.start()
        for it in threads:
            it.join()
        return each * clients / (time.perf_counter() - begin)


def threads_round(program, folder, clients, commits):
    """The rates of a round of so many clients on threads: together, one at a time, and SQLite's."""
    with tempfile.TemporaryDirectory(prefix="durable-", dir=folder) as room:
        own = [kept_rate(program, way, room, clients, commits) for way in ("together", "alone")]
        turns = contextlib.nullcontext(), threading.Lock()
        return *own, max(connected_rate(room, clients, commits, it) for it in turns)


def row(work, own, sqlite, *others):
    """A row of a table: the medians of what was measured round by round, and the quotients of the rounds."""
    quotients = [one / two for one, two in zip(own, sqlite)]
    medians = " | ".join(f"{statistics.median(it):,.0f}" for it in (own, sqlite))
    print(f"| {work} | {medians} | {statistics.median(quotients):.2f} | {min(quotients):.2f}, {max(quotients):.2f} "
          f"| {' | '.join(f'{statistics.median(it):,.0f}' for it in others)} |")


def options_given():
    parser = argparse.ArgumentParser(description=__doc__, formatter_class=argparse.RawDescriptionHelpFormatter)
    parser.add_argument("program", help="a built recordctl")
    parser.add_argument("--kept", help="a built bench_threads, for commits on threads")
    parser.add_argument("--commits", type=int, default=500, help="how many in a round")
    parser.add_argument("--rounds", type=int, default=9)
    parser.add_argument("--folder", default=".", help="on whose disk the databases are made; else this one")
    options = parser.parse_args()
    options.program = os.path.abspath(options.program)
    options.kept = options.kept and os.path.abspath(options.kept)
    for command in options.program, "sqlite3", options.kept:
        if command and not shutil.which(command):
            parser.error(f"{command} can't be run")
    return options


def main():
    options = options_given()
    rounds = [round_of(options.program, options.folder, options.commits) for _ in range(options.rounds)]
    syncs, own, sqlite = zip(*rounds)
    print("| Work | Commits a second | SQLite, WAL and FULL | Quotient | Lowest and highest | Syncs a second |")
    print("|---|---|---|---|---|---|")
    row("commits of one save by 1 client, each awaited", own, sqlite, syncs)
    if options.kept:
        print("\n| Work | Together | SQLite, WAL and FULL | Quotient | Lowest and highest | One at a time |")
        print("|---|---|---|---|---|---|")
    for clients in CLIENTS if options.kept else ():
        rounds = [threads_round(options.kept, options.folder, clients, options.commits) for _ in range(options.rounds)]
        together, alone, sqlite = zip(*rounds)
        row(f"commits of one save by clients on threads, {clients}", together, sqlite, alone)
    print(f"\nThe medians of {options.rounds} rounds of {options.commits} commits.")
    return 0


if __name__ == "__main__":
    sys.exit(main())
