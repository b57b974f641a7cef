"""Whether `check` and the commands agree: of a text it says nothing exactly where the command of its form takes it.

Each text of the cases is tried as it is, and with one change of one place, which a generator makes from a seed.
"""
import json
import random
import subprocess

SECONDS = 60
# longer texts are tried as they are alone, and how many changed ones are made of each other text
LONGEST = 20_000
CHANGES = 2
# what is put in the place of another byte, or between two
PIECES = [b",", b":", b'"', b"[", b"]", b"{", b"}", b"0", b"-1", b"1.5", b"null", b"true", b"\n", b"x", b"[]", b"{}",
          b"18446744073709551616", b'"x"', b',"x":1', b"'", b"\xff"]
COMMANDS = {"steps": "run", "clients": "race", "query": "explain", "schema": "explain"}


def command_of(text):
    """The command that takes a text such as this, by its keys; None where it is no JSON."""
    try:
        value = json.loads(text)
    except (ValueError, RecursionError):
        return None
    keys = value if isinstance(value, dict) else {}
    return next((command for key, command in COMMANDS.items() if key in keys), "run")


def changed(generator, text):
    """A text with one change: bytes left out, put in or put in the place of others, or two parts turned round."""
    place = generator.randrange(len(text) + 1)
    end = min(len(text), place + generator.choice([1, 1, 1, 2, 5]))
    kind = generator.randrange(4)
    if kind == 0:
        return text[:place] + text[end:]
    if kind == 1:
        return text[:place] + generator.choice(PIECES) + text[place:]
    if kind == 2:
        return text[:place] + generator.choice(PIECES) + text[end:]
    return text[:place] + text[end:2 * end - place] + text[place:end] + text[2 * end - place:]


def ended(program, words, text):
    """The status of the program, and what it writes."""
    done = subprocess.run([program, *words], input=text, capture_output=True, timeout=SECONDS, check=False)
    return done.returncode, done.stdout, done.stderr


def is_taken(program, command, text):
    """Whether a command takes a text, by the line of its fault."""
    status, _, errors = ended(program, [command], text)
    if command == "explain":
        return status == 0
    return not errors.startswith((b"bad script", b"bad config"))


def disagreement(program, text):
    """What `check` and the command of a text's form say differently of it, or None."""
    status, lines, errors = ended(program, ["check"], text)
    if status == 0 and (lines or errors):
        return "status 0, and something is printed"
    if status != 0 and (status != 1 or errors or not all(it.startswith(b"stdin:") for it in lines.splitlines())
                        or not lines):
        return f"status {status}: {lines[:200]!r} {errors[:200]!r}"
    command = command_of(text)
    taken = command is not None and is_taken(program, command, text)
    return None if taken == (status == 0) else f"check's status {status}, {command} takes it: {taken}: {text[:2000]!r}"


def texts_of(cases):
    """The texts of cases that are given to a command that `check` knows, each once, in their order."""
    given = (it.given for it in cases if it.words[:1] in (["run"], ["race"], ["explain"]))
    return list(dict.fromkeys(filter(None, given)))


def agreement_faults(program, cases, seed="one change each"):
    """What each text shows, and what is wrong with it, or None."""
    generator = random.Random(seed)
    for number, text in enumerate(texts_of(cases)):
        yield f"check of text {number}", disagreement(program, text)
        for _ in range(CHANGES if len(text) <= LONGEST else 0):
            yield f"check of text {number}, changed", disagreement(program, changed(generator, text))
