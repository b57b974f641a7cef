"""Runs the programs over a work: what each has taken, and its instructions."""
import math
import os
import re
import shlex
import subprocess
import sys
from works import SCRIPT_BYTES

HERE = os.path.dirname(os.path.abspath(__file__))
GENERATOR = os.path.join(os.path.dirname(HERE), "benchmark_script.py")
SPENT = ["sh", "-c", f'"$@"; exec {shlex.join([sys.executable, os.path.join(HERE, "spent.py")])} $?', "sh"]
CALLGRIND = ["valgrind", "--tool=callgrind", "--callgrind-out-file=/dev/null"]
COLLECTED = re.compile(r"Collected : (\d+)")


class Fault(Exception):
    """What went wrong with a work."""


class Program:
    """A command that is given works in its form, which the generator prints for some more words, and its title.

    The place is that of the quotient which a work wants beside this program, among its goals.
    """

    def __init__(self, folder, title, command, form, place=0):
        self.folder, self.title, self.command, self.form, self.place = folder, title, command, form, place

    def given(self, words):
        """The file of the work of these words, which is written where it isn't there."""
        path = os.path.join(self.folder, "".join([*words.split(), *self.form]))
        if not os.path.exists(path):
            with open(path, "wb") as file:
                subprocess.run([sys.executable, GENERATOR, *words.split(), *self.form], stdout=file, check=True)
        return path

    def run(self, front, words, output):
        """The errors of a run, which is begun by another command and prints to this file."""
        with open(self.given(words), "rb") as given, open(output, "wb") as printed:
            done = subprocess.run([*front, *self.command], stdin=given, stdout=printed,
                                  stderr=subprocess.PIPE, text=True, errors="replace", check=False)
        if done.returncode:
            raise Fault(f"{self.command[0]}: status {done.returncode}: {done.stderr[:200]!r}")
        return done.stderr

    def spent(self, words, output=os.devnull):
        """The seconds of the processor that a run has taken, and the bytes at its peak."""
        *errors, told = self.run(SPENT, words, output).splitlines()
        if errors:
            raise Fault(f"{self.command[0]}: {errors[0]}")
        seconds, peak = told.split()
        return float(seconds), int(peak)

    def seconds(self, words):
        return self.spent(words)[0]

    def peak(self, words):
        return self.spent(words)[1]

    def instructions(self, words):
        """The instructions of a run, as valgrind counts them."""
        return int(COLLECTED.search(self.run(CALLGRIND, words, os.devnull))[1])

    def lines(self, words):
        """What a run prints, line by line."""
        output = os.path.join(self.folder, "printed" + "".join(self.form))
        self.spent(words, output)
        with open(output, encoding="utf-8") as printed:
            yield from (line.removesuffix("\n") for line in printed)


class Programs:
    """A program `recordctl`, or `bench calls`, and those beside it, each of which runs so many times.

    They are the shell of SQLite, if it isn't `bench calls`, and where its path is given the program that
    `prepared.built` compiles.
    """

    def __init__(self, folder, program, prepared, rounds, is_called=False):
        self.is_called, self.rounds = is_called, rounds
        if is_called:
            self.store = Program(folder, "`bench calls`", [program, "calls"], ["--called"])
            self.others = []
        else:
            self.store = Program(folder, "`recordctl`", [program, "run"], [])
            self.others = [Program(folder, "SQLite", ["sqlite3", ":memory:"], ["--sql"])]
        if prepared:
            self.others.append(Program(folder, "SQLite in C", [prepared], ["--bound"], 1))

    def fitting(self, work, size):
        """The size, or where its script is too long a smaller one, in thousands, whose script isn't."""
        while (length := os.path.getsize(self.store.given(work.words_compared(size)))) > SCRIPT_BYTES:
            size = size * SCRIPT_BYTES // length // 1000 * 1000
        return size

    def spent(self, work, size):
        """Of each program what a work takes: seconds, or bytes where its peak is asked for."""
        return self.least(work.scripts(size), Program.peak if work.is_memory else Program.seconds, self.rounds)

    def instructions(self, work, size):
        """Of each program the instructions of a work."""
        return self.least(work.scripts(size), Program.instructions, 1)

    def least(self, scripts, measure, rounds):
        """Of each program the least that it took over the first script, less that over the others; they run in turn."""
        found, programs = {}, (self.store, *self.others)
        for turn in [(it, words) for _ in range(rounds) for words in scripts for it in programs]:
            found[turn] = min(found.get(turn, math.inf), measure(*turn))
        return [found[it, scripts[0]] - sum(found[it, words] for words in scripts[1:]) for it in programs]
