"""Tests a built program `recordctl`: the cases of cases/, the examples beside their output, and the program's edge.

    program_tests PROGRAM..

Prints a line for each case that fails. The last line is 'N passed, M failed', and the status is 0 where M is 0.
"""
import os
import re
import resource
import subprocess
import sys
import tempfile
from agreement import agreement_faults
from cases import cases_in, example_cases
from drawings import drawing_faults
from edges import MANY_STEPS, MEMORY_LIMITS, SETTLE, byte_cases, command_line_cases, echo_cases, long_cases, long_line
from folders import folder_faults
from kills import kill_faults
from manuals import manual_faults
from shells import shell_cases
from terminals import terminal_faults

SECONDS = 60
# how often each race is run again
RACES = 20
# the source that tells the commit of an archive
VERSION = "crates/command_line/src/version.rt"


def first_difference(wanted, found):
    """The number of the first line in which two texts differ, and what each has there."""
    pairs = zip(wanted.split(b"\n") + [b""], found.split(b"\n") + [b""])
    number, (one, other) = next((it for it in enumerate(pairs, 1) if it[1][0] != it[1][1]), (0, (wanted, found)))
    return f"line {number}: {other[:200]!r}, wanted {one[:200]!r}"


def fault_of(program, case):
    """What is wrong with what the program does for a case, or None."""
    try:
        done = subprocess.run(
            [program, *case.words], input=case.given, capture_output=True, timeout=SECONDS, check=False)
    except subprocess.TimeoutExpired:
        return f"no end after {SECONDS} seconds"
    if done.stdout != case.output:
        return "output: " + first_difference(case.output, done.stdout)
    if case.errors is None and not done.stderr:
        return "nothing on standard error"
    if case.errors is not None and done.stderr != case.errors:
        return "errors: " + first_difference(case.errors, done.stderr)
    return None if done.returncode == case.status else f"status {done.returncode}, wanted {case.status}"


def closed_output_fault(program, words, given):
    """What is wrong where the output can't be written: status 1 is wanted, and nothing on standard error."""
    with open("/dev/full", "wb") as full:
        done = subprocess.run(
            [program, *words], input=given, stdout=full, stderr=subprocess.PIPE, timeout=SECONDS, check=False)
    return None if (done.returncode, done.stderr) == (1, b"") else f"status {done.returncode}: {done.stderr[:200]!r}"


def memory_fault(program, script, lines, is_begun):
    """What is wrong where memory is wanting: all is printed, or 'out of memory' is told behind the first lines at most.

    Either happens, and where a line takes more memory than its script, the first lines alone are printed too.
    """
    kinds = set()
    for megabytes in MEMORY_LIMITS:
        done = subprocess.run(
            [program, "run"], input=script, capture_output=True, timeout=SECONDS, check=False,
            preexec_fn=lambda it=megabytes << 20: resource.setrlimit(resource.RLIMIT_AS, (it, it)))
        if (done.returncode, done.stdout, done.stderr) == (0, lines, b""):
            kinds.add("all")
        elif (done.returncode, done.stderr) == (1, b"out of memory\n") and lines.startswith(done.stdout):
            kinds.add("a beginning" if done.stdout else "nothing")
        else:
            return f"{megabytes} MB: status {done.returncode}: {done.stderr[:200]!r}"
    wanted = {"all", "nothing", "a beginning"} if is_begun else {"all", "nothing"}
    return None if kinds == wanted else f"only {sorted(kinds)} were printed"


def race_fault(program, case, runs):
    """What is wrong in one of so many runs of a race, each of which must print the same."""
    return next((it for it in (fault_of(program, case) for _ in range(runs)) if it), None)


def archive_fault():
    """What is wrong with the commit that git writes into an archive of the sources, where a checkout has none.

    Nothing is where git tells no commit, as in such an archive.
    """
    told = subprocess.run(["git", "rev-parse", "HEAD"], capture_output=True, text=True, check=False)
    if told.returncode:
        return None
    done = subprocess.run(["git", "archive", "HEAD", VERSION], capture_output=True, check=False)
    found = re.search(rb'COMMIT: &str = "([0-9a-f]{7,40})";', done.stdout)
    is_it = found and told.stdout.startswith(found[1].decode())
    return None if is_it else f"{told.stdout!r} isn't told: {done.stderr[:200]!r}"


def faults(program, folder):
    """What each case shows, and what is wrong with it, or None."""
    cases = [*cases_in("cases"), *example_cases("examples"), *long_cases(), *byte_cases(), *echo_cases(),
             *shell_cases(folder), *command_line_cases(folder)]
    for case in cases:
        yield case.shows, fault_of(program, case)
    for case in cases:
        if "race" in case.words[:1] and case.status == 0:
            yield f"{RACES} runs: {case.shows}", race_fault(program, case, RACES)
    yield from agreement_faults(program, cases)
    yield from drawing_faults(program, cases)
    yield from terminal_faults(program, folder)
    yield from folder_faults(program, folder, cases)
    yield from kill_faults(program, folder)
    yield from manual_faults(program)
    race = next(case for case in cases if "race" in case.words[:1] and case.status == 0)
    kept = os.path.join(folder, "talk")
    for words, given in ([["run"], SETTLE.encode()], [["pack", "[1]"], b""], [["unpack", "14"], b""],
                         [["race"], race.given], [["shell"], b"settle\n"], [["log", kept], b""],
                         [["shell", "--data", kept], b"settle\n"], [["run", "--data", kept], SETTLE.encode()]):
        yield f"output that can't be written: {words[0]} {len(words)}", closed_output_fault(program, words, given)
    yield "an archive tells its commit", archive_fault()
    yield "want of memory for a script", memory_fault(program, *MANY_STEPS, False)
    yield "want of memory for a line", memory_fault(program, *long_line(), True)


def main(programs):
    passed = failed = 0
    for program in programs:
        with tempfile.TemporaryDirectory(prefix="program-tests-") as folder:
            for shows, fault in faults(os.path.abspath(program), folder):
                passed, failed = passed + (fault is None), failed + (fault is not None)
                if fault:
                    print(f"{program}: {shows}: {fault}")
    print(f"{passed} passed, {failed} failed")
    return 1 if failed or not passed else 0


if __name__ == "__main__":
    sys.exit(main(sys.argv[1:]))
