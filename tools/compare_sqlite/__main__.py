"""Compares a built program `recordctl` with SQLite over the same works, and prints a table in Markdown.

    compare_sqlite PROGRAM [--sizes SIZE..] [--works WORK..] [--instructions] [--prepared] [--calls]

SQLite is the shell, `sqlite3 :memory:`, and SQLite in C: prepared.c beside this file, which does the same by prepared
statements, and is compiled with `cc` and Debian's libsqlite3-dev. Where it can't be, that is told on standard error,
and the shell is alone; with --prepared that ends the tool, with the status 2. With --calls the program is a built
`bench`, and `bench calls`, which does a work by calls that it makes of short lines, is beside SQLite in C alone.

A work is what tools/benchmark_script.py prints: a script for `recordctl run`, SQL for the shell, and statements with
values to bind for SQLite in C. First each program runs it with a query of all records in the end, and the rows that
they show must be the same, in the same order; where they aren't, that is told on standard error and the status is 1.
Then they run in turn, three times each, and the least time of the processor counts, user and system. From that of loads
and queries the time is taken off that a script of the saves before them takes.

Growth is the exponent with which the figure grows from that of a smaller size. There are as many queries at each size,
so theirs is that of the table below them. With --instructions valgrind counts instructions too, at small sizes. A work
whose script would be too long is measured at a smaller size, which is told.
"""
import argparse
import os
import shutil
import sys
import tempfile
from prepared import built
from runs import Fault, Programs
from table import INSTRUCTED, Table
from works import WORKS


def options_given():
    """What the command line says."""
    parser = argparse.ArgumentParser(description=__doc__, formatter_class=argparse.RawDescriptionHelpFormatter)
    parser.add_argument("program", help="a built recordctl")
    parser.add_argument("--sizes", type=int, nargs="+", default=[16_000, 64_000], help="how many records are saved")
    parser.add_argument("--works", nargs="+", choices=WORKS, default=list(WORKS), metavar="WORK",
                        help=f"some of these, in this order: {', '.join(WORKS)}")
    parser.add_argument("--beginning", type=int, default=4_000, help="the size from which growth is told")
    parser.add_argument("--rounds", type=int, default=3, help="how often each program runs each script")
    parser.add_argument("--instructions", action="store_true", help=f"count them, up to {INSTRUCTED:,} records")
    parser.add_argument("--prepared", action="store_true", help="don't go on without SQLite in C")
    parser.add_argument("--calls", action="store_true", help="the program is a built bench, beside SQLite in C alone")
    options = parser.parse_args()
    options.is_bound = options.prepared or options.calls
    options.program = os.path.abspath(options.program)
    for command in (options.program, "sqlite3", *(["valgrind"] if options.instructions else [])):
        if not shutil.which(command):
            parser.error(f"{command} can't be run")
    return options


def main():
    options, loads = options_given(), [os.getloadavg()[0]]
    with tempfile.TemporaryDirectory(prefix="compare-sqlite-") as folder:
        prepared = None
        try:
            prepared = built(folder)
        except Fault as fault:
            print(f"{fault}{'' if options.is_bound else '; the shell is alone'}", file=sys.stderr, flush=True)
            if options.is_bound:
                return 2
        programs = Programs(folder, options.program, prepared, options.rounds, options.calls)
        table = Table(programs, options.beginning, options.instructions)
        table.print_head()
        for name in options.works:
            table.print_work(WORKS[name], options.sizes)
            loads.append(os.getloadavg()[0])
    print(f"\nThe least of {options.rounds} runs, at a load of {min(loads):.1f} to {max(loads):.1f} "
          f"on {os.cpu_count()} processors.")
    return 1 if table.faults else 0


if __name__ == "__main__":
    sys.exit(main())
