"""Processes that are killed with signal 9 while they commit: nothing that was acknowledged may be lost.

Run by itself, `kills.py FILE NAME FIRST` is such a process: it commits to a SQLite file until it is killed, and prints
the number of each transaction that was acknowledged.
"""
import os
import random
import signal
import subprocess
import sys
import time
from functools import partial

HERE = os.path.dirname(os.path.abspath(__file__))
sys.path.append(os.path.join(os.path.dirname(os.path.dirname(HERE)), "python"))
from record_store import Database
from record_store.engines.sqlite import Sqlite
from store import SCHEMA, Told, work, wrong_of

ROUNDS, WRITERS = 12, 2


def write(path: str, name: str, first: int) -> None:
    """Commits one transaction after another."""
    database, chance = Database(Sqlite(path)), random.Random(f"{name} {first}")
    for number in range(first, first + 1_000_000):
        database.transact(partial(work, client=name, number=number, chance=chance), 1000)
        print(number, flush=True)


def killed(path: str, chance: random.Random, turn: int) -> list[Told]:
    """Has writers write for a while and kills them; what was acknowledged."""
    first = turn * 1_000_000
    words = [[sys.executable, os.path.abspath(__file__), path, f"w{it}", str(first)] for it in range(WRITERS)]
    writers = [subprocess.Popen(it, stdout=subprocess.PIPE, text=True) for it in words]
    for writer in writers:
        assert writer.stdout
        writer.stdout.readline()
    time.sleep(chance.uniform(0.05, 0.4))
    for writer in writers:
        writer.send_signal(signal.SIGKILL)
    told: list[Told] = []
    for name, writer in enumerate(writers):
        # the last line may be a part of one; the first one was read above
        lines = writer.communicate()[0].split("\n")[:-1]
        told += [(f"w{name}", number, "committed") for number in [first, *map(int, lines)]]
    return told


def rounds(path: str) -> tuple[list[Told], list[str]]:
    """Kills writers again and again: what was acknowledged, and for each time what doesn't hold of the file."""
    Database(Sqlite(path), SCHEMA).close()
    chance, told, wrong = random.Random(7), list[Told](), list[str]()
    for turn in range(ROUNDS):
        told += killed(path, chance, turn)
        database = Database(Sqlite(path))
        # a transaction may be committed whose line wasn't printed any more
        wrong += [it for it in wrong_of(database, told) if it != "marks that nobody made"]
        extra = sum(1 for _ in database.begin().query("mark")) - len(told)
        if not 0 <= extra <= WRITERS * (turn + 1):
            wrong.append(f"{extra} marks more than were acknowledged, after {turn + 1} kills")
        database.close()
    return told, wrong


if __name__ == "__main__":
    write(sys.argv[1], sys.argv[2], int(sys.argv[3]))
