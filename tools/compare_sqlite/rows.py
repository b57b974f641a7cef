"""Compares the rows that the programs show, each as the shell of SQLite prints it."""
import itertools
import json
import re
from runs import Fault

LOST = re.compile(" (conflict|unknown)")


def shown(cells):
    """A record as a row."""
    return "|".join("" if it is None else str(it) for it in cells)


def rows_in(replies):
    """The rows that the lines of a script's replies show. No step may be refused, and no client lose what it did."""
    for reply in replies:
        _, kind, told = [*reply.split(" ", 2), ""][:3]
        if kind == "found":
            yield shown(json.loads(told))
        elif kind == "rows":
            yield from map(shown, json.loads(told))
        elif kind == "refused" or kind == "client" and LOST.search(told):
            raise Fault(f"a step's reply is '{reply[:200]}'")


def compare(programs, words):
    """A fault where the programs don't show the same rows, in the same order, or where they show none."""
    number, lines, own = 0, [it.lines(words) for it in programs.others], programs.store.lines(words)
    rows = own if programs.is_called else rows_in(own)
    for number, (row, *others) in enumerate(itertools.zip_longest(rows, *lines), 1):
        for program, other in zip(programs.others, others):
            if other != row:
                raise Fault(f"the rows differ: row {number} is {row}, and that of {program.title} is {other}")
    if not number:
        raise Fault("no row is shown that could be compared")
