#!/usr/bin/env python3
"""Proves, builds and tests everything: the test command of the repository. It is run at the top of the repository.

1. `rt ci`: every proof from nothing, the tests, the programs as two compilers build them, and the edits of must-fail/.
2. Beside it, with what processors are left: the wrong bodies, which the prover must refuse (tools/wrong_bodies), each
   once `rt ci` has proved the crates below its own. One isn't tried again where the record has that it was refused over
   the same texts, nor where nothing near it has changed, but for a tenth of these, as far as they are begun in time;
   with --whole all are. The lines that the record takes are printed as they come, so that a run that is cut short has
   told them.
3. Beside it too: the tools' own tests, and the house's rules over the files as they stand (tools/house_rules).
4. The cases of cases/, the examples and the program's edge, against both built programs (tools/program_tests),
   databases in folders that a service on threads opens (tools/folder_tests.py), the programs whose allocations fail in
   turn (tools/refused_growths), and random scripts of which a model tells what both programs must reply (tools/model).

The last line is 'N passed, M failed', and the status is 0 where M is 0.
"""
import argparse
import contextlib
import os
import re
import resource
import subprocess
import sys
import threading
import time

PROGRAMS = ["crates/recordctl/out/recordctl", "crates/recordctl/out/recordctl.by-rattle"]
FAILING = [f"crates/{it}/out/{it}{end}" for it in ("test_memory", "test_commits")
           for end in ("", ".by-rattle")]
TESTED_TOOLS = ("wrong_bodies", "house_rules", "quick_build", "model")
FOLDERS = [f"crates/example_threads/out/example_threads{end}" for end in ("", ".by-rattle")] + PROGRAMS
PROGRAM_TESTS = (("the program", "program_tests", PROGRAMS), ("folders", "folder_tests.py", FOLDERS),
                 ("want of memory", "refused_growths", FAILING + PROGRAMS), ("the model", "model", PROGRAMS))
# the minutes after which no aged edit is begun: on a slow machine the proofs alone take most of the gate's time
AGED_MINUTES = "60"
# the most gigabytes that the proof of a crate has taken
PROOF_MEMORY = 4
COUNTED = re.compile(r"(\d+) (?:passed|refused), (\d+) (?:failed|not)")
# what the wrong bodies' tool says of each of its checks
CHECKED = re.compile(r"\w+: (?:proved without edits|a round of \d+, \d+ told|\w+ alone): .*\n")
# what it says for the record
ROW = re.compile(r"\w+/\w+: refused, by the sum ")
TESTED = re.compile(r"Ran (\d+) tests?.*?(?:FAILED \((.*)\)|OK)", re.S)


def counts(text):
    """How many passed and failed by the last line of a command, (0, 1) where it ended without one."""
    last = (text.rstrip("\n").split("\n") or [""])[-1]
    found = COUNTED.fullmatch(last)
    return (int(found[1]), int(found[2])) if found else (0, 1)


def tool_counts(text):
    """How many tests of a tool passed and failed, by what unittest prints."""
    found = TESTED.search(text)
    failed = sum(map(int, re.findall(r"=(\d+)", found[2] or ""))) if found else 1
    return (int(found[1]) - failed, failed) if found else (0, 1)


class Command:
    """A command that has begun, and what it prints; lines for the record are printed as they come.

    What it prints is handed on, line by line, to another command that has begun, where there is one to read it.
    """

    def __init__(self, *words, reads=False, reader=None, **environment):
        self.lines, self.reader, self.process = [], reader, subprocess.Popen(
            words, stdin=subprocess.PIPE if reads else subprocess.DEVNULL, stdout=subprocess.PIPE,
            stderr=subprocess.STDOUT, text=True, errors="replace", env={**os.environ, **environment})
        self.reading = threading.Thread(target=self.read)
        self.reading.start()

    def hand_on(self, text=None):
        """Hands a text to the command that reads it, or its end; who has ended reads no more."""
        with contextlib.suppress(OSError, ValueError):
            if self.reader and text is None:
                self.reader.process.stdin.close()
            elif self.reader:
                self.reader.process.stdin.write(text)
                self.reader.process.stdin.flush()

    def read(self):
        with self.process.stdout:
            for line in self.process.stdout:
                self.hand_on(line)
                if ROW.match(line):
                    print(line, end="", flush=True)
                elif not CHECKED.match(line):
                    self.lines.append(line)
        self.hand_on()

    def ended(self, title, count):
        """Waits for its end, prints what it prints, and answers its counts."""
        print(f"== {title}", flush=True)
        self.reading.join()
        text, status = "".join(self.lines), self.process.wait()
        print(text, end="", flush=True)
        passed, failed = count(text)
        return passed, failed or (1 if status else 0)


def spent(since):
    """What the run has taken since then, in words."""
    used = resource.getrusage(resource.RUSAGE_CHILDREN)
    minutes, processors = (time.monotonic() - since) / 60, (used.ru_utime + used.ru_stime) / 60
    most = used.ru_maxrss / 1e6
    return f"took {minutes:.0f} minutes, {processors:.0f} of processors; the largest process {most:.1f} GB"


def proofs_at_once():
    """How many crates `rt ci` proves side by side: one a processor, where each has the memory that one takes at most.

    By itself it reckons with up to twice of that, and leaves processors without work.
    """
    with open("/proc/meminfo", encoding="ascii") as told:
        free = int(re.search(r"MemAvailable:\s+(\d+)", told.read())[1]) / 1e6
    return max(1, min(len(os.sched_getaffinity(0)), int(free / PROOF_MEMORY)))


def main():
    parser = argparse.ArgumentParser(description=__doc__, formatter_class=argparse.RawDescriptionHelpFormatter)
    parser.add_argument("--whole", action="store_true", help="try all wrong bodies")
    recorded = [] if parser.parse_args().whole else ["--recorded", "--minutes", AGED_MINUTES]
    python, since = sys.executable, time.monotonic()
    jobs = str(max(1, len(os.sched_getaffinity(0)) // 4))
    wrong = Command("nice", "-n", "19", python, "tools/wrong_bodies", "--over-ci", "--from-nothing", "--jobs", jobs,
                    *recorded, reads=True)
    proofs = Command("rt", "ci", reader=wrong, RT_JOBS=str(proofs_at_once()))
    tools = [Command("nice", "-n", "19", python, f"tools/{it}/tests.py") for it in TESTED_TOOLS]
    rules = Command(python, "tools/house_rules")
    tests = [proofs.ended("rt ci", counts)]
    for title, tool, programs in PROGRAM_TESTS:
        there = filter(os.path.isfile, programs)
        tests.append(Command(python, f"tools/{tool}", *there).ended(title, counts))
    tests += [it.ended("the tools", tool_counts) for it in tools]
    tests.append(rules.ended("the house's rules", counts))
    tests.append(wrong.ended("wrong bodies", counts))
    passed, failed = (sum(them) for them in zip(*tests))
    print(spent(since))
    print(f"{passed} passed, {failed} failed")
    return 1 if failed else 0


if __name__ == "__main__":
    sys.exit(main())
