"""Builds a page that shows the store in a browser, as a folder of static files, and serves it.

    page [--to FOLDER] [--port N] [--keep-module] [--no-serve]

It is run at the top of the repository, with the toolchain's `rt` on the path, and `wasm-opt` of Debian's `binaryen`.

The page isn't proved. What is proved is the library, for the machine that it is proved for. Here the module of LLVM
that `rt try` makes is kept, as quick_build keeps it, retargeted to WebAssembly with memories of 64 bits, linked with a
heap of C and with what stands in for the C library, and lowered to memories of 32 bits, which all browsers have. None
of these steps is proved. So the page is tested: tests/ beside this file compares it with the program.

The page's program is no crate of the repository. It is put into a copy, beside the crates that it uses, and so are
`windows/`: calls that only read what a crate keeps to itself, as the clocks, or what an open transaction has read, and
a session that does one step of a schedule after another. The program as it is would run all steps so far anew at each
click, which takes 0.1 s behind 10,000 saves, and would not tell what a transaction has read. A session's program never
ends: where it reads the next call it is left, and is entered again there, by what binaryen calls asyncify; just the
functions on the way to that read are made so.

The status is 0 where the page is built (and served, until it is told to end), 1 where it isn't, and 2 where the command
line isn't taken.
"""
import argparse
import os
import shutil
import signal
import sys
import tempfile
from joining import joined
from making import Fault, Module, made
from kit import kit_folder
from serving import serve

MODULE, PAGE = "store.wasm", "index.html"


def options_given():
    parser = argparse.ArgumentParser(description=__doc__, formatter_class=argparse.RawDescriptionHelpFormatter)
    parser.add_argument("--to", metavar="FOLDER", default=os.path.join("out", "page"),
                        help="where the page is put; else out/page, which is never committed")
    parser.add_argument("--port", type=int, default=8310, help="where it is served on this machine; else 8310")
    parser.add_argument("--keep-module", action="store_true", help="take the module that stands in the folder")
    parser.add_argument("--no-serve", action="store_true", help="build it, and end")
    options = parser.parse_args()
    if not os.path.exists("crates.txt"):
        parser.error("crates.txt isn't here: run this at the top of the repository")
    if options.keep_module and not os.path.exists(os.path.join(options.to, MODULE)):
        parser.error(f"there is no {MODULE} in {options.to}")
    return options


def build(options):
    """Builds the page."""
    path = os.path.join(options.to, MODULE)
    if not options.keep_module:
        if not shutil.which("wasm-opt"):
            raise Fault("no wasm-opt is on the path: it is of Debian's binaryen")
        print("the page is built without a proof: nothing is proved by this", flush=True)
        with tempfile.TemporaryDirectory(prefix="page-build-") as room:
            made(Module(kit_folder(), os.getcwd(), room), path)
    with open(os.path.join(options.to, PAGE), "w", encoding="utf-8") as file:
        file.write(joined())


def main():
    options = options_given()
    signal.signal(signal.SIGTERM, lambda *_: sys.exit(0))
    try:
        build(options)
        if not options.no_serve:
            serve(options.to, options.port)
    except (Fault, OSError) as why:
        print(why, file=sys.stderr)
        return 1
    except KeyboardInterrupt:
        pass
    return 0


if __name__ == "__main__":
    sys.exit(main())
