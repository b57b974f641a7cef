#!/usr/bin/env python3
"""Tests databases in folders that the built example_threads opens, as a service does, and at which recordctl looks.

    folder_tests.py PROGRAM..

The programs are built example_threads, and one recordctl or more after them. Each example is run in new folders, and
what it prints, and what each recordctl finds there, is compared with what its README says: a book with 100 copies, of
which each run sells 20, each by a transaction of its own. The last line is 'N passed, M failed', and the status is 0
where M is 0.
"""
import os
import random
import subprocess
import sys
import tempfile

COPIES, SOLD = 100, 20
SHELLED = 'begin\nload book "Emma"\nsave book "Emma" 50\ncommit\nsettle\n'


def ran(*words, said=""):
    """What a program prints, and its status."""
    done = subprocess.run(words, input=said, capture_output=True, text=True, timeout=120, check=False)
    return done.stdout + done.stderr, done.returncode


def day(copies):
    """What a run prints that finds so many copies."""
    return f"Emma: {copies} copies\ntwo clerks sold 10 and 10 of them\n{copies - SOLD} are left\n", 0


def tear(folder):
    """Cuts the log within its last entry, as a crash does that tears a write."""
    path = os.path.join(folder, "log")
    with open(path, "rb") as file:
        written = file.read().rstrip(b"\0")
    with open(path, "wb") as file:
        file.write(written[:-3])


def goes_on(shop, _recordctl, folder):
    """A run finds what the one before has left."""
    return [(ran(shop, folder), day(COPIES - turn * SOLD)) for turn in range(3)]


def is_torn(shop, _recordctl, folder):
    """An entry that isn't whole is none: the last sale is undone, and all others are there."""
    first = ran(shop, folder)
    tear(folder)
    return [(first, day(COPIES)), (ran(shop, folder), day(COPIES - SOLD + 1))]


def is_listed(shop, recordctl, folder):
    """The log has the making of the store and each sale, and nothing else."""
    first = ran(shop, folder)
    told, status = ran(recordctl, "log", folder)
    saves = sum("save" in line for line in told.splitlines())
    return [(first, day(COPIES)), ((saves, status), (SOLD + 1, 0))]


def is_shelled(shop, recordctl, folder):
    """The shell finds the book, and what it saves the next run sells."""
    first = ran(shop, folder)
    told, status = ran(recordctl, "shell", "--data", folder, said=SHELLED)
    return [(first, day(COPIES)), (("80" in told, status), (True, 0)), (ran(shop, folder), day(50))]


def is_in_use(shop, recordctl, folder):
    """A folder that another process has open is refused, and is as it was afterwards."""
    first = ran(shop, folder)
    with subprocess.Popen([recordctl, "shell", "--data", folder], stdin=subprocess.PIPE, stdout=subprocess.PIPE,
                          stderr=subprocess.STDOUT, text=True) as other:
        other.stdin.write('load book "Emma"\n')
        other.stdin.flush()
        other.stdout.readline()
        told, status = ran(shop, folder)
        other.communicate(timeout=120)
    refused = ("another process has this database open" in told, status)
    return [(first, day(COPIES)), (refused, (True, 1)), (ran(shop, folder), day(COPIES - SOLD))]


def is_unmade(shop, _recordctl, folder):
    """A folder that can't be made is told in plain words."""
    path = os.path.join(folder, "file")
    with open(path, "w", encoding="ascii"):
        pass
    told, status = ran(shop, os.path.join(path, "shop"))
    return [(("the folder can't be made: a file stands in its place" in told, status), (True, 1))]


def gates_of(log):
    """Where each block of a log begins, and where the last one ends."""
    gates = [0]
    while log[gates[-1]] == 1:
        begin = gates[-1]
        gates.append(begin + 65 + int.from_bytes(log[begin + 1:begin + 9], "big"))
    return gates


def with_other_bytes(log):
    """The log with another byte in a block behind which others stand, and that block's place: of each such block two
    bytes are tried, one of them of its counts, and no gate that is zero, which ends a log."""
    chosen, gates = random.Random(11), gates_of(log)
    for begin, end in zip(gates, gates[1:-1]):
        for at in chosen.randrange(begin, begin + 33), chosen.randrange(begin, end):
            others = [it for it in range(256) if it != log[at] and (at > begin or it > 0)]
            yield log[:at] + bytes([chosen.choice(others)]) + log[at + 1:], begin


def is_damaged(shop, recordctl, folder):
    """A log with another byte before its last entry is refused, by its path and the place, and stays as it is."""
    found, path = [(ran(shop, folder), day(COPIES))], os.path.join(folder, "log")
    with open(path, "rb") as file:
        written = file.read()
    for damaged, begin in with_other_bytes(written):
        with open(path, "wb") as file:
            file.write(damaged)
        wanted = f"{path}: the log is damaged from byte {begin} on\n"
        found += [(ran(shop, folder), (wanted, 1))]
        told, status = ran(recordctl, "shell", "--data", folder)
        with open(path, "rb") as file:
            is_same = file.read() == damaged
        found += [((wanted in told, status != 0, is_same), (True, True, True))]
    return found


TESTS = (goes_on, is_torn, is_listed, is_shelled, is_in_use, is_unmade, is_damaged)


def main():
    programs = [os.path.abspath(it) for it in sys.argv[1:]]
    shops = [it for it in programs if os.path.basename(it).startswith("example_threads")]
    others = [it for it in programs if it not in shops]
    passed = failed = 0
    for test, shop, recordctl in ((a, b, c) for a in TESTS for b in shops for c in others):
        with tempfile.TemporaryDirectory(prefix="folder-tests-") as folder:
            for found, wanted in test(shop, recordctl, folder):
                passed, failed = (passed + 1, failed) if found == wanted else (passed, failed + 1)
                if found != wanted:
                    print(f"{test.__name__}, {shop}, {recordctl}: {found!r}, and not {wanted!r}")
    print(f"{passed} passed, {failed} failed")
    return 0 if passed and not failed else 1


if __name__ == "__main__":
    sys.exit(main())
