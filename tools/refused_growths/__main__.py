#!/usr/bin/env python3
"""Runs programs with each of their allocations failing in turn: python3 tools/refused_growths PROGRAM..

Each line of test_memory and of test_commits but the last tells of something for which memory must run out at some
of them: it is done again then, 'again ' stands before the line, and all else is as it is when none fails. Where an
allocation fails elsewhere the program may stop. A program 'recordctl' runs the scripts of cases/memory.steps, and has
a session of its shell, in memory and over a new folder, and prints the log of one: it must print what it prints when
none fails, or the first lines of that, or none, and 'out of memory'. 'test_commits replies'
is run with one allocation in so many failing, and must print that the sum is exact; in one run at least it must tell
that replies were lost. The last line is 'N passed, M failed', where each allocation counts, and each run of
'test_commits replies'; where there is no C compiler ('cc') one failure is counted.
"""
import os
import subprocess
import sys
import tempfile
from concurrent.futures import ThreadPoolExecutor
from dataclasses import dataclass, replace

HERE = os.path.dirname(os.path.realpath(__file__))
sys.path.insert(0, os.path.join(os.path.dirname(HERE), "program_tests"))
from cases import script_cases  # noqa: E402  (found by the line above)
from crashes import FIRST, SECOND, THIRD  # noqa: E402

AGAIN = "again "
OUT_OF_MEMORY = "out of memory\n"
SCRIPTS = "memory.steps"
SECONDS = 60
COUNT_BYTES = 8
# one allocation in so many fails, after the first tenth of all, in which the database is opened
PERIODS = (601, 701, 769, 853, 997, 1123, 1291, 1543, 1777, 2029, 2503, 3079, 3547, 4099, 5003, 6007)
LOST = "replies were lost\n"
REPLIES, EXACT = ("replies",), "the sum is exact\n"


@dataclass
class Trial:
    """A program with what it is given; the lines that it must print when nothing fails, if they are known."""

    program: str
    words: tuple = ()
    given: str = ""
    wanted: str | None = None
    shows: str = ""
    is_kept: bool = False

    def __str__(self):
        return f"{self.program}: {self.shows}" if self.shows else self.program


@dataclass
class Run:
    """What a run printed, its status, and how many allocations it made: 0 where they weren't counted."""

    status: int
    output: str
    errors: str
    count: int


def built(folder):
    """The allocator that fails, as a library, or None where it isn't compiled."""
    library = f"{folder}/failing.so"
    words = [os.environ.get("CC", "cc"), "-O2", "-shared", "-fPIC", "-o", library, f"{HERE}/failing.c", "-ldl"]
    try:
        done = subprocess.run(words, stdin=subprocess.DEVNULL)
    except OSError:
        return None
    return library if done.returncode == 0 else None


def run(trial, library, number, period=0):
    """A run whose allocation of this number fails, and each one in so many after it; none of number 0 or period 0."""
    with tempfile.NamedTemporaryFile(dir=os.path.dirname(library)) as file:
        file.write(bytes(COUNT_BYTES))
        file.flush()
        words = {**os.environ, "LD_PRELOAD": library, "FAILS": str(number), "EVERY": str(period), "COUNT": file.name}
        folder = ["--data", f"{file.name}.kept"] if trial.is_kept else []
        done = subprocess.run([trial.program, *trial.words, *folder], input=trial.given, capture_output=True, env=words,
                              text=True, timeout=SECONDS)
        file.seek(0)
        count = int.from_bytes(file.read(COUNT_BYTES), sys.byteorder)
    return Run(done.returncode, done.stdout, done.stderr, count)


def judged_script(wanted, found):
    """0 where memory ran out for a script, and what is wrong with a run of it, if something is."""
    if (found.status, found.output, found.errors) == (0, wanted, ""):
        return None, None
    lines = found.output.splitlines(True)
    told = (found.status, found.errors) == (1, OUT_OF_MEMORY) and wanted.splitlines(True)[: len(lines)] == lines
    return 0, None if told else f"status {found.status}, {lines} and {found.errors!r}"


def judged(wanted, found):
    """Which line was done again, if one was, and what is wrong with a run, if something is."""
    lines, whole = found.output.splitlines(), wanted.splitlines()
    again = [at for at, line in enumerate(lines) if line.startswith(AGAIN)]
    if not again:
        told = whole[: len(lines)] == lines and (found.status == 0) == (lines == whole)
        return None, None if told else f"status {found.status} and {lines}"
    lines[again[0]] = lines[again[0]].removeprefix(AGAIN)
    right = found.status == 0 and len(again) == 1 and lines == whole
    return again[0], None if right else f"status {found.status} and {lines}, of which {again} were done again"


def judged_each(trial, library, count):
    """For which line memory ran out, if for one, and what is wrong, of each run in which an allocation fails."""
    def judge(number):
        return (judged_script if trial.words else judged)(trial.wanted, run(trial, library, number))

    with ThreadPoolExecutor(len(os.sched_getaffinity(0))) as pool:
        return list(pool.map(judge, range(1, count + 1)))


def missed(trial, told):
    """The lines for which memory never ran out; of a script it must for one of all."""
    met = {line for line, _ in told}
    lines = ["all lines"] if trial.words else trial.wanted.splitlines()[:-1]
    return [text for at, text in enumerate(lines) if at not in met]


def tried(trial, library):
    """How many runs passed and failed."""
    first = run(trial, library, 0)
    trial.wanted = first.output if trial.wanted is None else trial.wanted
    if (first.status, first.output) != (0, trial.wanted) or not first.count:
        print(f"{trial}: status {first.status} and {first.count} allocations where none fails")
        return 0, 1
    told = judged_each(trial, library, first.count)
    faults = [f"allocation {number}: {wrong}" for number, (_, wrong) in enumerate(told, 1) if wrong]
    lacks = [f"memory never runs out for '{text}'" for text in missed(trial, told)]
    met = sum(line is not None for line, _ in told)
    print("\n".join(f"{trial}: {it}" for it in [*faults, *lacks, f"{first.count} allocations, {met} told as failed"]))
    return first.count - len(faults), len(faults) + len(lacks)


def lost(trial, library):
    """How many runs passed and failed in which replies are lost."""
    first = run(trial, library, 0)
    if (first.status, first.output) != (0, trial.wanted) or not first.count:
        print(f"{trial}: status {first.status} and {first.count} allocations where none fails")
        return 0, 1
    runs = [run(trial, library, first.count // 10, period) for period in PERIODS]
    wrong = [(period, it) for period, it in zip(PERIODS, runs) if (it.status, it.output) != (0, trial.wanted)]
    for period, it in wrong:
        print(f"{trial}: one allocation in {period}: status {it.status}, {it.output!r} and {it.errors!r}")
    told = sum(it.errors == LOST for it in runs)
    print(f"{trial}: replies were lost in {told} of {len(runs)} runs")
    return len(runs) - len(wrong), len(wrong) + (told == 0)


def trials_of(program, folder):
    """What a program is given, one after another."""
    program = os.path.abspath(program)
    if os.path.basename(program).startswith("test_commits"):
        return [Trial(program), Trial(program, REPLIES, wanted=EXACT, shows="lost replies")]
    if not os.path.basename(program).startswith("recordctl"):
        return [Trial(program)]
    with open(os.path.join("cases", SCRIPTS), encoding="utf-8") as file:
        cases = script_cases(SCRIPTS, file.read(), ["run"])
    typed, kept = (FIRST + SECOND + THIRD).decode(), os.path.join(folder, "kept")
    subprocess.run([program, "shell", "--data", kept], input=typed, capture_output=True, text=True, timeout=SECONDS)
    trials = [Trial(program, tuple(it.words), it.given.decode(), it.output.decode(), it.shows) for it in cases]
    trials.append(Trial(program, ("shell",), typed, shows="a session of the shell"))
    over = [replace(it, shows=f"{it.shows}, over a folder", is_kept=True) for it in trials]
    return [*trials, *over, Trial(program, ("log", kept), shows="the log of a database")]


def judge_of(trial):
    """Which runs of a program are judged."""
    return lost if trial.words == REPLIES else tried


def main():
    with tempfile.TemporaryDirectory() as folder:
        library = built(folder)
        if not library:
            print("no C compiler: the allocator that fails isn't built")
            counts = [(0, 1)]
        else:
            trials = [trial for it in sys.argv[1:] for trial in trials_of(it, folder)]
            counts = [judge_of(it)(it, library) for it in trials] or [(0, 1)]
    passed, failed = (sum(them) for them in zip(*counts))
    print(f"{passed} passed, {failed} failed")
    return 1 if failed else 0


if __name__ == "__main__":
    sys.exit(main())
