"""What the help of `recordctl` tells of its commands."""
import re
import subprocess
from dataclasses import dataclass, field

SECONDS = 20
# a line of what a command takes: the words, two blanks at least, and what they are for
ROW = re.compile(r"  +(?:-\w, )?(\S.*?)  +(\S.*)")


@dataclass
class Command:
    """A command: its name, what it does, its form, what it takes, and its options, each with what it is for."""

    name: str
    about: str
    form: str
    takes: list = field(default_factory=list)
    options: list = field(default_factory=list)


def told(program, *words):
    """What help tells, which goes to standard error with status 2."""
    done = subprocess.run([program, *words, "--help"], capture_output=True, text=True, timeout=SECONDS, check=False)
    return done.stderr.rstrip("\n").split("\n")


def rows(lines, head):
    """The rows below a head."""
    if head not in lines:
        return []
    found = []
    for line in lines[lines.index(head) + 1:]:
        row = ROW.fullmatch(line)
        if not row:
            break
        found.append((row[1], row[2]))
    return found


def command_of(name, lines):
    """A command from the lines of its help."""
    form = next(it.removeprefix("Usage: ") for it in lines if it.startswith("Usage: "))
    # behind the name by which the program was called
    _, _, form = form.partition(" ")
    return Command(name, lines[0], form, rows(lines, "Arguments:"), rows(lines, "Options:"))


def helped(program):
    """The program as a whole, and each of its commands in their order."""
    whole = command_of("recordctl", told(program))
    names = [it for it, _ in rows(told(program), "Commands:") if it != "help"]
    return whole, [command_of(it, told(program, it)) for it in names]
