"""Compiles prepared.c, which does the works over SQLite by prepared statements."""
import os
import subprocess
from runs import HERE, Fault

SOURCE = os.path.join(HERE, "prepared.c")


def built(folder):
    """The path of the program, which is put into this folder; a fault where what it takes isn't there."""
    program = os.path.join(folder, "prepared")
    words = [os.environ.get("CC", "cc"), "-O2", "-o", program, SOURCE, "-lsqlite3"]
    try:
        done = subprocess.run(words, stdin=subprocess.DEVNULL, capture_output=True, text=True, errors="replace",
                              check=False)
    except OSError as why:
        raise fault(str(why)) from why
    if done.returncode:
        raise fault(done.stderr.strip().partition("\n")[0] or f"{words[0]} fails")
    return program


def fault(why):
    return Fault(f"SQLite in C isn't compiled, which takes cc and Debian's libsqlite3-dev: {why}")
