"""Scripts of `recordctl run`, carried out over an engine: each step's reply must be the program's.

Versions are the engine's own, so they are left out of what is compared, and of a conflict the range. A commit is made
where the script settles, in the order in which it was asked for. Scripts that go through the roles of the cluster step
by step, that split its keys or have a small window tell of that cluster alone, and are left out, as are those of more
stores, since a host's database has one; so is what `execute` replies, which is a plan that the program keeps.
"""
import json
import os
import re
import subprocess
import sys
from collections.abc import Iterator
from typing import Any

HERE = os.path.dirname(os.path.abspath(__file__))
ROOT = os.path.dirname(os.path.dirname(HERE))
sys.path += [os.path.join(ROOT, "tools", "program_tests"), os.path.join(ROOT, "python")]
from cases import cases_in, example_cases
from record_store.engine import Engine
from record_store.errors import Conflict
from record_store.form import NOTHING_WRITTEN
from record_store.transaction import OPENING, Transaction

Step = list[Any]
ROLES = {"resolve", "log", "pull", "report", "lost"}
CLIENTS = 16
VERSIONS = re.compile(r"\b(begun|submitted|committed|conflict) \d+(?: [0-9a-f]*\.\.[0-9a-f]*)?")
# more steps than this take minutes over a server
LONG = 5000


def compared(reply: str) -> str:
    """What of a reply is compared."""
    return VERSIONS.sub(r"\1", reply)


def is_outside(step: Step) -> bool:
    """Whether no engine can do a step: it is one of a role, or names a store."""
    return step[0] in ROLES or (step[0] == "begin" and len(step) > 2)


def suited() -> list[tuple[str, list[Step], bytes, str]]:
    """The scripts that tell of no cluster of their own: what each shows, its steps, and the output that it wants."""
    found = []
    for case in [*cases_in(os.path.join(ROOT, "cases")), *example_cases(os.path.join(ROOT, "examples"))]:
        if case.words[0] != "run" or case.status:
            continue
        text = case.given
        if not text:
            with open(case.words[1], "rb") as file:
                text = file.read()
        script = json.loads(text)
        if not script.get("config") and not any(map(is_outside, script["steps"])):
            found.append((case.shows, script["steps"], text, case.output.decode()))
    return found


class Clients:
    """The clients of a script, over an engine."""

    def __init__(self, engine: Engine) -> None:
        self.engine = engine
        self.open: dict[int, Transaction] = {}
        self.submitted: list[tuple[int, Transaction]] = []

    def reply(self, step: Step) -> str | None:
        """What a step replies, or None where that isn't compared."""
        name, client, *parts = [*step, None][:2] + step[2:]
        if name == "settle":
            return self.settle()
        if client >= CLIENTS:
            return "refused NoSuchClient"
        if name == "begin":
            return self.begin(client)
        if client not in self.open:
            return "refused NoTransaction"
        if name == "execute":
            return None
        if name in ("commit", "abandon"):
            return self.end(name, client)
        return self.open[client].perform((name, *parts))[0]

    def begin(self, client: int) -> str:
        """Begins a transaction."""
        if client in self.open:
            return "refused Busy"
        self.open[client] = Transaction(*self.engine.begin(OPENING))
        return "begun"

    def end(self, name: str, client: int) -> str:
        """Submits a transaction, or drops it."""
        tx = self.open.pop(client)
        if name == "commit" and len(tx.written) > len(NOTHING_WRITTEN):
            self.submitted.append((client, tx))
            return "submitted"
        tx.close()
        return "read only" if name == "commit" else "ok"

    def settle(self) -> str:
        """Commits what was submitted."""
        told = []
        for client, tx in self.submitted:
            try:
                tx.commit()
                told.append(f"client {client} committed")
            except Conflict:
                told.append(f"client {client} conflict")
        self.submitted = []
        return ", ".join(told) or "nothing"

    def close(self) -> None:
        """Ends all transactions."""
        for tx in [*self.open.values(), *(tx for _, tx in self.submitted)]:
            tx.close()


def differences(engine: Engine, steps: list[Step], wanted: str) -> Iterator[tuple[int, Step, str, str]]:
    """The steps whose replies differ from a program's output, each with both."""
    clients = Clients(engine)
    try:
        for number, (step, line) in enumerate(zip(steps, wanted.splitlines(), strict=True), 1):
            told = clients.reply(step)
            if told is not None and compared(told) != compared(line.partition(" ")[2]):
                yield number, step, told, line
    finally:
        clients.close()


def program_output(program: str, text: bytes) -> str:
    """What the program prints of a script."""
    return subprocess.run([program, "run"], input=text, capture_output=True, check=True).stdout.decode()
