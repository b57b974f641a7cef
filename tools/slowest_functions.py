#!/usr/bin/env python3
"""Prints which functions of crates take longest to prove: `tools/slowest_functions.py NAME..`, at the top.

Each crate is proved from nothing, alone and by one job, in a copy, over the libraries below it as `rt ci` or `rt lib`
has built them in this checkout. A line is printed for the crate and for each of its ten slowest functions, with the
seconds of a processor that the prover took until it had ended with it, since it had ended with the one before. So what
the prover does between functions counts for the next one: a function that is the first one to call into a library has
the modules of it that are loaded then. The first one of all, before which most are, is told apart. What runs beside
makes them some tenth more.
"""
import os
import re
import subprocess
import sys
import tempfile

sys.path.append(os.path.join(os.path.dirname(os.path.abspath(__file__)), "wrong_bodies"))
from toolchain import proof_from_nothing
from trials import Workshop

CHECKED, MOST = re.compile(r"checked (\S+), \d+ of \d+"), 10

# Of a line of /proc/N/stat, the fields behind the name in which the ticks of a process and of those that it waited for
# are.
TICKS = slice(11, 15)


def seconds_of(process, before):
    """The seconds of a processor that a process has taken, or those of before, where it has ended."""
    try:
        with open(f"/proc/{process.pid}/stat", encoding="utf-8", errors="replace") as stat:
            fields = stat.read().rpartition(")")[2].split()
    except OSError:
        return before
    return sum(int(it) for it in fields[TICKS]) / os.sysconf("SC_CLK_TCK")


def spans_of(home, name):
    """The functions of a crate in a repository, with the seconds that each took, the first one first, those of all, and
    whether all are proved."""
    process = subprocess.Popen(
        proof_from_nothing(home, name), cwd=os.path.join(home, "crates", name), stdin=subprocess.DEVNULL,
        stdout=subprocess.PIPE, stderr=subprocess.STDOUT, text=True, errors="replace")
    spans, since, now = {}, 0, 0
    with process.stdout:
        for line in process.stdout:
            found, now = CHECKED.match(line), seconds_of(process, now)
            if found:
                spans[found[1]], since = now - since, now
    return spans, now, process.wait() == 0


def main():
    if not sys.argv[1:]:
        print("usage: tools/slowest_functions.py CRATE..", file=sys.stderr)
        return 2
    failed = False
    for name in sys.argv[1:]:
        with tempfile.TemporaryDirectory(prefix="slowest-") as room:
            workshop, home = Workshop(os.getcwd(), room, over_ci=True), os.path.join(room, "home")
            workshop.furnish(home, name, os.path.join(os.getcwd(), "crates", name), [])
            spans, taken, is_proved = spans_of(home, name)
        failed = failed or not is_proved
        print(f"{name}: {'' if is_proved else 'NOT '}proved in {taken:.0f} s", flush=True)
        if not spans:
            continue
        first, *others = spans.items()
        print(f"  {first[1]:5.1f} until the first one, {first[0]}", flush=True)
        for function, span in sorted(others, key=lambda it: -it[1])[:MOST]:
            print(f"  {span:5.1f} {function}", flush=True)
    return 1 if failed else 0


if __name__ == "__main__":
    sys.exit(main())
