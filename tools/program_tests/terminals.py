"""What is told on a terminal: the shell asks for each line and draws tables, a plan is a tree, long work is watched.

A file examples/NAME.talk has a talk as a terminal shows it: after '> ' what is typed, and then what is told.
"""
import os
import pty
import re
import select
import subprocess
import termios
import time

SECONDS = 20
PROMPT = "> "
GREETING = "The database is empty, and ends with the shell. help tells what can be typed.\n"
KEPT_GREETING = "What is committed stays in the folder. help tells what can be typed.\n"
EXAMPLES, TALKS = "examples", ".talk"
# what is typed, and what is told before the next prompt
TALK = [
    ("begin", "begun 0\n"),
    ("create", "ok\n"),
    ("type book title text, author text, copies int key title", "ok\n"),
    ("commit", "submitted 1\nclient 0 committed 1\n"),
    ("", ""),
    ("begin", "begun 1\n"),
    ('save book "Emma" "Austen" 3', "saved new\n"),
    ('save book "\u00c9mile \u4e66" "Rousseau" null', "saved new\n"),
    ("query book", 'title       author      copies\n"Emma"      "Austen"    3\n'
                   '"\u00c9mile \u4e66"  "Rousseau"  null\n2 rows\n'),
    ("commit", "submitted 2\nclient 0 committed 2\n"),
    ("begin", "begun 2\n"),
    ('query book where copies > 2 and author starts "A" order by title',
     'title   author    copies\n"Emma"  "Austen"  3\n1 row\n'),
    ("query book where copies > 3", "0 rows\n"),
    ("sav", "column 1: no line begins with sav; did you mean save?\n"),
    ('save book "\u4e66" x',
     'column 15: a cell (a number, a text in quotes, {"hex":".."} or null) is wanted here, not x\n'),
]


class Terminal:
    """A program that a person talks to."""

    def __init__(self, words):
        self.ours, theirs = pty.openpty()
        modes = termios.tcgetattr(theirs)
        modes[3] &= ~termios.ECHO
        termios.tcsetattr(theirs, termios.TCSANOW, modes)
        self.process = subprocess.Popen(words, stdin=theirs, stdout=theirs, stderr=theirs)
        os.close(theirs)

    def told(self):
        """What the program tells up to its next prompt, or as much as it tells in the time."""
        text, end = b"", time.monotonic() + SECONDS
        while not text.endswith(PROMPT.encode()) and time.monotonic() < end:
            if select.select([self.ours], [], [], 0.1)[0]:
                try:
                    text += os.read(self.ours, 65536)
                except OSError:
                    break
        return text.decode().replace("\r\n", "\n")

    def say(self, line):
        os.write(self.ours, line.encode() + b"\n")

    def ended(self):
        """The status of the program, which is to end by itself."""
        try:
            return self.process.wait(SECONDS)
        except subprocess.TimeoutExpired:
            self.process.kill()
            return None
        finally:
            os.close(self.ours)


def talk_of(path):
    """What is typed in the talk of a file, and what is told of each line."""
    with open(path, encoding="utf-8") as file:
        parts = ("\n" + file.read().rstrip("\n")).split("\n" + PROMPT)[1:]
    lines = (it.partition("\n") for it in parts)
    return [(typed, f"{told}\n" if told else "") for typed, _, told in lines]


def talk_fault(program, talk, words=(), greeting=GREETING):
    """What is wrong with a talk, or None."""
    terminal = Terminal([program, "shell", *words])
    faults = []
    if (told := terminal.told()) != greeting + PROMPT:
        faults.append(f"at first {told!r} is told")
    for line, wanted in talk:
        terminal.say(line)
        if not faults and (told := terminal.told()) != wanted + PROMPT:
            faults.append(f"of {line!r} {told!r} is told, wanted {wanted!r}")
    terminal.say(".quit")
    if (status := terminal.ended()) != 0:
        faults.append(f"status {status}")
    return faults[0] if faults else None


PLAN = '{"schema":{"types":[{"name":"t","fields":[["k","int"]],"key":["k"]}]},"query":{"type":"t"}}\n'
# how many steps, lines or records are told at first, and how many there are
FIRST, MANY = 4096, 5000


def shown(words, given, is_output):
    """What a command shows on a terminal, its standard error and perhaps its output; and what it prints elsewhere."""
    ours, theirs = pty.openpty()
    with subprocess.Popen(words, stdin=subprocess.PIPE, stdout=theirs if is_output else subprocess.PIPE,
                          stderr=theirs) as process:
        os.close(theirs)
        printed, _ = process.communicate(given, SECONDS)
    text = b""
    while select.select([ours], [], [], 0.5)[0]:
        try:
            text += os.read(ours, 65536)
        except OSError:
            break
    os.close(ours)
    return text.decode().replace("\r\n", "\n"), printed


# in the help of a word, a line that may be typed; field would have the record that follows need a cell more
EXAMPLE = re.compile(r"\bas: (.+?)(?=\. |\.$|$)")
NOT_PLAYED = ("field",)


def typed(program, lines):
    """What the shell tells of some lines."""
    done = subprocess.run([program, "shell"], input="".join(f"{it}\n" for it in lines), capture_output=True, text=True,
                          timeout=SECONDS, check=False)
    return done.stdout.split("\n")[:-1]


def help_faults(program):
    """Of each word that `help` lists whether it tells more of it, and whether its examples can be typed, or None."""
    forms = [it.strip() for it in typed(program, ["help"]) if it.startswith("  ")]
    lines = ["begin", "create"]
    for form in forms:
        word = form.split(" ")[0]
        told = typed(program, [f"help {word}"])
        yield f"help {word}", told_fault((told[0], len(told) > 1), (form, True))
        lines += EXAMPLE.findall(" ".join(told[1:])) if word not in NOT_PLAYED else []
    refused = [it for it in typed(program, lines) if it.startswith(("column", "refused"))]
    yield f"{len(lines)} examples of help", told_fault((refused, len(lines) > 8), ([], True))


def told_fault(found, wanted):
    return None if found == wanted else f"{found!r}, wanted {wanted!r}"


def watched(what):
    """What is shown of long work, and taken away."""
    cleared = "\r\x1b[K"
    return f"{cleared}{FIRST} {what}{cleared}"


def watched_faults(program, folder):
    """What is shown of long work, and what is wrong with it, or None."""
    script, lines, records = (os.path.join(folder, name) for name in ("long.json", "long.lines", "long.jsonl"))
    with open(script, "w", encoding="utf-8") as file:
        file.write('{"steps":[' + ",".join(['["settle"]'] * MANY) + "]}")
    with open(lines, "w", encoding="utf-8") as file:
        file.write("settle\n" * MANY)
    with open(records, "w", encoding="utf-8") as file:
        file.write("".join(f"[{it}]\n" for it in range(MANY)))
    replies = "".join(f"{it} nothing\n" for it in range(1, MANY + 1)).encode()
    found, printed = shown([program, "run", script], b"", False)
    yield "a long run is watched", told_fault(found, watched("steps"))
    yield "its replies", told_fault(printed == replies, True)
    found, _ = shown([program, "run"], b'{"steps":[' + b",".join([b'["settle"]'] * MANY) + b"]}", False)
    yield "a long run of standard input isn't", told_fault(found, "")
    found, printed = shown([program, "shell"], f".read {lines}\n".encode(), False)
    yield "a long file is watched", told_fault(found, watched("lines"))
    yield "its lines", told_fault(printed, b"nothing\n" * MANY)
    typed = f"begin\ncreate\ntype t k int key k\ncommit\n.import {records} t\n"
    found, printed = shown([program, "shell"], typed.encode(), False)
    yield "a long import is watched", told_fault(found, watched("records"))
    yield "its end", told_fault(printed.endswith(f"\n{MANY} records are saved\n".encode()), True)


def terminal_faults(program, folder):
    """What is told on a terminal, and what is wrong with it, or None."""
    yield "the shell over a terminal", talk_fault(program, TALK)
    kept = ["--data", os.path.join(folder, "talk")]
    yield "the shell over a terminal and a folder", talk_fault(program, TALK, kept, KEPT_GREETING)
    for name in sorted(filter(lambda it: it.endswith(TALKS), os.listdir(EXAMPLES))):
        yield name, talk_fault(program, talk_of(os.path.join(EXAMPLES, name)))
    for words, wanted in ((["explain"], "Scan t: all [..ff]\n"), (["explain", "--line"], "Scan(t,..ff)\n")):
        yield f"{words} on a terminal", told_fault(shown([program, *words], PLAN.encode(), True)[0], wanted)
    yield from help_faults(program)
    yield from watched_faults(program, folder)
