"""What the tools ask of the toolchain: its name, and that libraries which `rt ci` has proved count as built."""
import functools
import importlib.machinery
import importlib.util
import os
import re
import shutil
import subprocess
import sys


@functools.cache
def logic():
    """The name of the toolchain's logic, which kits that prove the same share; else the toolchain's line."""
    said = subprocess.run(["rt", "version"], stdin=subprocess.DEVNULL, stdout=subprocess.PIPE, check=True).stdout
    named = re.search(rb"logic \S+", said)
    return (named[0] if named else said).decode()


@functools.cache
def rtlib():
    """The toolchain's own library for `rt`, which stands beside it."""
    file = os.path.join(os.path.dirname(os.path.realpath(shutil.which("rt"))), "rtlib.py")
    loader = importlib.machinery.SourceFileLoader("rtlib", file)
    made = importlib.util.module_from_spec(importlib.util.spec_from_loader("rtlib", loader))
    # the toolchain's folder stays as it is
    sys.modules["rtlib"], sys.dont_write_bytecode = made, True
    loader.exec_module(made)
    return made


def stamp_libraries(home):
    """Has the libraries that stand in a repository count as built of its texts, as they do after `rt lib`.

    `rt ci` proves a library and writes no stamp. Who calls this knows that it proved them from these texts.
    """
    for crate in rtlib().crates_below(home):
        if os.path.isdir(crate.rlib):
            with open(os.path.join(crate.folder, "out", "rlib", "stamp"), "w", encoding="utf-8") as stamp:
                stamp.write(crate.stamp())


def proof_from_nothing(home, name):
    """The words that prove a crate of a repository by one job, over its built libraries, with nothing that was kept.

    A line is printed as the prover ends with each function. Of a crate with tests they are proved too.
    """
    crate = next(it for it in rtlib().crates_below(home) if it.name == name)
    words = crate.words(["--jobs", "1"], tests=crate.has_tests(), keeps=False)
    return [rtlib().RATTLE, "check", *words, "--progress"]
