"""Builds a program, or a static library, in two minutes or three, as fast to run as the proved one. It proves nothing.

    quick_build [PROGRAM] [--to FOLDER]

It is run at the top of the repository, with the toolchain's `rt` on the path.

`rt try`, which proves nothing either, runs a program that is compiled with checks, and leaves none. Here what it gives
the compiler is kept, the checks are taken out, the sources' hints on inlining put in, and the rest is compiled as a
proved program is. So where `rt try` stops, as at a bad index or an overflow, what is built here does anything. A static
library is built by way of a program that calls its functions; its archive has the heap that they take memory from too.

The last line is the path of what is built. The status is 0 where it is built, 1 where it isn't, as where the sources
don't compile, and 2 where there is no such program, or no toolchain.
"""
import argparse
import os
import signal
import sys
import tempfile
from archive import Archive, is_archive
from building import Build, built
from kit import Fault, kit_folder

sys.path.append(os.path.dirname(os.path.dirname(os.path.abspath(__file__))))
from crate_tree import CRATES, used_by


def maker_of(root, name):
    """What makes the program, or the static library, of this name; ends where the repository has none."""
    if not os.path.exists(os.path.join(root, CRATES)):
        raise Fault(f"{CRATES} isn't here: run this at the top of the repository")
    with open(os.path.join(root, CRATES), encoding="utf-8") as file:
        text = file.read()
    crates = used_by(text)
    if is_archive(text, name):
        return Archive
    programs = [it for it in crates if os.path.exists(os.path.join(root, "crates", it, "src", "main.rt"))]
    if name not in programs:
        what = "is a library" if name in crates else f"isn't a crate of {CRATES}"
        raise Fault(f"{name} {what}; the programs are {', '.join(programs)}")
    return Build


def options_given(root):
    """What the command line says, and the folder of the kit."""
    parser = argparse.ArgumentParser(description=__doc__, formatter_class=argparse.RawDescriptionHelpFormatter)
    parser.add_argument("program", nargs="?", default="recordctl",
                        help="a program or a static library of crates.txt; else recordctl")
    parser.add_argument("--to", metavar="FOLDER", default=os.path.join("out", "quick"),
                        help="where the program is put; else out/quick, which is never committed")
    options = parser.parse_args()
    try:
        options.maker = maker_of(root, options.program)
        options.kit = kit_folder()
    except Fault as why:
        parser.error(str(why))
    return options


def main():
    root = os.getcwd()
    options = options_given(root)
    # so that the folder is removed
    signal.signal(signal.SIGTERM, lambda *_: sys.exit(1))
    print(f"{options.program} is built without a proof: nothing is proved by this", flush=True)
    with tempfile.TemporaryDirectory(prefix="quick-build-") as room:
        try:
            print(built(options.maker(options.kit, root, options.program, room), options.to))
        except Fault as why:
            print(why, file=sys.stderr)
            return 1
    return 0


if __name__ == "__main__":
    sys.exit(main())
