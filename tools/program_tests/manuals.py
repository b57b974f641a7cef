"""Whether docs/manual is what tools/manual makes of the program, and bash completes by it."""
import os
import subprocess
import sys

sys.path.append(os.path.join(os.path.dirname(os.path.dirname(os.path.abspath(__file__))), "manual"))
from helped import helped
from written import completion, page

FOLDER = os.path.join("docs", "manual")
SECONDS = 20
# words of a command line, the last of which isn't whole, and what it may become
COMPLETED = [
    (["recordctl", "ex"], "explain"),
    (["recordctl", "s"], "simulate shell"),
    (["recordctl", "explain", "--s"], "--svg"),
    (["recordctl", "run", "--"], "--echo --names --svg --data --help"),
    (["recordctl", "unpack", "--t"], ""),
    (["recordctl", "run", "exampl"], "examples"),
]


def written_fault(name, text):
    """What is wrong with a file of this name, or None."""
    path = os.path.join(FOLDER, name)
    with open(path, encoding="utf-8") as file:
        is_it = file.read() == text
    return None if is_it else f"{path} isn't what the program's help tells: run tools/manual"


def completion_fault(words, wanted):
    """What is wrong where bash completes the last of these words, or None."""
    given = " ".join(f"'{it}'" for it in words)
    commands = (f". {FOLDER}/recordctl.bash; COMP_WORDS=({given}); COMP_CWORD={len(words) - 1}; _recordctl; "
                'echo "${COMPREPLY[@]}"')
    done = subprocess.run(
        ["bash", "--norc", "-c", commands], capture_output=True, text=True, timeout=SECONDS, check=False)
    return None if done.stdout == wanted + "\n" else f"{words} become {done.stdout!r}, wanted {wanted!r}"


def manual_faults(program):
    """What each file and each completion shows, and what is wrong with it, or None."""
    whole, commands = helped(program)
    yield "the manual page", written_fault("recordctl.1", page(whole, commands))
    yield "the completion for bash", written_fault("recordctl.bash", completion(commands))
    for words, wanted in COMPLETED:
        yield f"completion of {words}", completion_fault(words, wanted)
