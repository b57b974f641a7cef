"""The order of work: which crates are proved and which edits tried, side by side."""
import os
import threading
import time
from concurrent.futures import FIRST_COMPLETED, ThreadPoolExecutor, wait
import records
from edits import BadEdit, dealt, texts_of
from records import Grade
from trials import Workshop, below
from verdicts import Verdict

PROCESSORS = len(os.sched_getaffinity(0))


def spent(checks):
    """What checks took, in words."""
    seconds, memory = sum(it.seconds for it in checks), max(it.memory for it in checks)
    return f"{seconds:.0f} s of a processor, {memory} MB"


class Task:
    """A piece of work: what it does, its crate, the crates whose proof it waits for, and its weight, the heaviest
    first: proofs, then what is left to do of a crate that is begun, then other crates, those last whose edits are all
    aged."""

    def __init__(self, weight, name, waits, work):
        self.weight, self.name, self.waits, self.work = weight, name, waits, work


class Crew:
    """Those who try the edits of a repository's crates."""

    def __init__(self, root, folder, options, told=None):
        """`told` are the crates that `rt ci` has proved so far, where the edits are tried over its libraries."""
        self.workshop = Workshop(root, folder, options.from_nothing, told is not None)
        self.options, self.told, self.since = options, told, time.monotonic()
        self.printing, self.proved, self.tasks = threading.Lock(), set(), []
        # edits by crate and name: those that are refused, the ones of them that were tried, and those that aren't
        self.refused, self.tried, self.others = set(), set(), set()
        # those of the aged ones that are to be tried, and those that were left for want of time
        self.drawn, self.late = set(), set()
        chosen = options.crates or list(self.workshop.crates)
        self.edits = {name: edits for name in chosen if (edits := self.edits_of(name))}
        self.sums, every = records.Sums(root, self.workshop.crates), self.edits.items()
        self.made = {(name, it.name): self.sums.of(name, it) for name, edits in every for it in edits}
        if options.recorded or options.aged:
            self.pass_over(records.recorded(root))

    def say(self, text):
        with self.printing:
            print(text, flush=True)

    def judge(self, name, edit, verdict, line):
        """Counts an edit by its verdict, and says so."""
        is_refused = verdict is Verdict.REFUSED
        with self.printing:
            (self.refused if is_refused else self.others).add((name, edit))
            if is_refused:
                self.tried.add((name, edit))
        shown = f": {line[:400]}" if line and (self.options.verbose or not is_refused) else ""
        said = records.row(name, edit, self.made[name, edit]) if is_refused else f"{name}/{edit}: {verdict.value}"
        self.say(said + shown)

    def pass_over(self, recorded):
        """Counts edits as refused of which the record says so, and says how many are of which grade.

        Those that are fresh aren't tried, and of the aged ones a tenth, or those of the crates that are asked for.
        """
        grades = {it: made.grade(recorded.get(it)) for it, made in self.made.items()}
        aged = {it for it, grade in grades.items() if grade is Grade.AGED}
        drawn = aged if self.options.aged else records.tenth(self.sums.tree(), aged) if aged else set()
        passed = {it for it, grade in grades.items() if grade is not Grade.CHANGED} - drawn
        self.refused, self.drawn = self.refused | passed, drawn
        for name, edits in list(self.edits.items()):
            self.edits[name] = [it for it in edits if (name, it.name) not in passed]
            if not self.edits[name]:
                del self.edits[name]
        counts = ", ".join(f"{sum(it is grade for it in grades.values())} {grade.value}" for grade in Grade)
        self.say(f"{len(grades)} edits: {counts}; {len(grades) - len(passed)} are tried, {len(drawn)} of them aged")

    def in_time(self, name, edits):
        """Those of a crate's edits that are tried: after the minutes that are given the aged ones are left."""
        if self.options.minutes is None or time.monotonic() - self.since < 60 * self.options.minutes:
            return edits
        late = {(name, it.name) for it in edits} & self.drawn
        with self.printing:
            self.late, self.refused = self.late | late, self.refused | late
        return [it for it in edits if (name, it.name) not in late]

    def rows(self):
        """The sums of the edits that were tried and refused."""
        return {it: self.made[it] for it in self.tried}

    def work(self):
        """Tries all edits, and answers how many are refused and how many aren't."""
        crates = self.workshop.crates
        needed = {it for name in self.edits for it in below(crates, name)} if self.told is None else set()
        for name in needed:
            above = sum(name in below(crates, it) for it in needed)
            self.tasks.append(Task(1_000_000 * (1 + above), name, crates[name], lambda it=name: self.prove(it)))
        for name in self.edits:
            waits = [name] if name in needed else below(crates, name)
            is_aged = all((name, it.name) in self.drawn for it in self.edits[name])
            self.tasks.append(Task(0 if is_aged else 1, name, waits, lambda it=name: self.begin(it)))
        self.run()
        return len(self.refused), len(self.others)

    def run(self):
        """Does the tasks, as many at a time as there are to be checks, each once what it waits for is proved."""
        running = set()
        with ThreadPoolExecutor(max(self.options.jobs, PROCESSORS)) as pool:
            while self.tasks or running:
                is_all_told = self.told is None or self.told.is_all()
                proved = self.proved | (self.told.crates() if self.told else set())
                ready = [it for it in self.tasks if proved.issuperset(it.waits)]
                for task in sorted(ready, key=lambda it: -it.weight)[:max(0, self.places() - len(running))]:
                    self.tasks.remove(task)
                    running.add(pool.submit(task.work))
                if not running and not ready and is_all_told:
                    break
                done, running = wait(running, timeout=1, return_when=FIRST_COMPLETED) if running else self.pause()
                for it in done:
                    self.tasks += it.result()
                if done and self.options.record:
                    records.record(self.workshop.root, self.rows())
        for task in self.tasks:
            for edit in self.edits.get(task.name, []):
                self.judge(task.name, edit.name, Verdict.UNTRIED, "")
        if self.late:
            self.say(f"{len(self.late)} aged edits have no verdict in time: left for another run")

    def places(self):
        """How many checks are made at a time: as many as are asked for, or one a processor once `rt ci` has ended."""
        is_alone = self.told is not None and self.told.is_all()
        return max(self.options.jobs, PROCESSORS) if is_alone else self.options.jobs

    def pause(self):
        """Waits for word of further crates that are proved."""
        self.told.wait()
        return set(), set()

    def edits_of(self, name):
        """The edits of a crate that are asked for; what is written as one and is none counts as not refused."""
        edits, bad = records.all_edits(self.workshop.root, name)
        for edit, why in bad:
            if self.is_asked(edit):
                self.judge(name, edit, Verdict.UNREAD, why)
        return [it for it in edits if self.is_asked(it.name)]

    def is_asked(self, edit):
        """Whether the edit of this name is asked for."""
        return any(part in edit for part in self.options.only.split(","))

    def prove(self, name):
        """Proves a library, for the crates above it and for its own edits."""
        self.say(f"{name}: proved without edits: {spent([self.workshop.prove(name)])}")
        self.proved.add(name)
        return []

    def begin(self, name):
        """The tasks that try the edits of a crate; its functions are checked as they stand first, where no proof was.

        Over the libraries of `rt ci`, which proves the crate itself too, that is left out where there is one round.
        """
        texts = texts_of(os.path.join(self.workshop.root, "crates", name))
        bodies, alone = {}, []
        self.edits[name] = self.in_time(name, self.edits[name])
        for edit in self.edits[name]:
            try:
                edit.applied(texts)
            except BadEdit as why:
                self.judge(name, edit.name, Verdict.UNREAD, str(why))
                continue
            changed = edit.bodies(texts)
            if changed is None:
                alone.append(edit)
            else:
                bodies[edit] = changed
        rounds = dealt(list(bodies), bodies)
        if not rounds and not alone:
            return []
        is_proved = name in self.workshop.bases or self.told is not None and len(rounds) + len(alone) < 2
        if not is_proved and not self.seed(name, frozenset() if alone else frozenset().union(*bodies.values())):
            return []
        shared = Rounds(self, name, bodies, len(rounds))
        return [*[shared.task(it) for it in rounds], *[self.lone(name, it, frozenset()) for it in alone]]

    def seed(self, name, bodies):
        """Checks functions of a crate as they stand, and says whether they are proved; else its edits aren't tried."""
        check = self.workshop.seed(name, bodies)
        self.say(f"{name}: proved without edits: {spent([check])}")
        if check.status:
            for edit in self.edits[name]:
                self.judge(name, edit.name, Verdict.UNTRIED, check.lines[-1])
        return not check.status

    def lone(self, name, edit, bodies):
        """The task that tries one edit by itself, without answers of its proof where these alone refuse it."""
        def work():
            if not self.in_time(name, [edit]):
                return []
            tried, checks = edit, []
            while True:
                (verdict, line, answers), check = self.workshop.try_alone(name, tried, bodies)
                checks.append(check)
                if verdict is not Verdict.UNFIT or answers <= tried.aside:
                    break
                tried = tried.without(answers)
            self.say(f"{name}: {edit.name} alone: {spent(checks)}")
            self.judge(name, edit.name, verdict, line)
            return []
        return Task(2, name, [], work)


class Rounds:
    """The rounds in which a crate's edits are tried, and the edits that they said nothing of."""

    def __init__(self, crew, name, bodies, left):
        self.crew, self.name, self.bodies = crew, name, bodies
        self.left, self.untold, self.is_last = left, [], False

    def task(self, edits):
        return Task(2 + len(edits), self.name, [], lambda: self.work(edits))

    def work(self, edits):
        """Tries a round, and answers the tasks for what it and those before it said nothing of, once all are done.

        Where answers of a proof are all that refuses an edit, it is tried again without them.
        """
        untold, edits = [], self.crew.in_time(self.name, edits)
        verdicts, checks = self.crew.workshop.try_round(self.name, edits, self.bodies) if edits else ({}, [])
        for edit, (verdict, line, answers) in verdicts.items():
            if verdict is Verdict.UNTOLD:
                untold.append(edit)
            elif verdict is Verdict.UNFIT and not answers <= edit.aside:
                untold.append(edit.without(answers))
                self.bodies[untold[-1]] = self.bodies[edit]
            else:
                self.crew.judge(self.name, edit.name, verdict, line)
        if checks:
            self.crew.say(f"{self.name}: a round of {len(edits)}, {len(edits) - len(untold)} told: {spent(checks)}")
        if untold and self.crew.options.verbose:
            self.crew.say(f"{self.name}: not told: {' '.join(it.name for it in untold)}")
        with self.crew.printing:
            self.left, self.untold = self.left - 1, self.untold + untold
            if self.left:
                return []
            untold, self.untold = self.untold, []
        return self.further(untold)

    def further(self, untold):
        """The tasks for edits that the first rounds said nothing of: further rounds, and then each alone."""
        if self.is_last or len(untold) < 2:
            return [self.crew.lone(self.name, it, self.bodies[it]) for it in untold]
        rounds = dealt(untold, self.bodies)
        self.left, self.is_last = len(rounds), True
        return [self.task(it) for it in rounds]
