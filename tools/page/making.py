"""A module of WebAssembly of the page's program: its module of LLVM, for another machine, and linked with a host."""
import os
import re
import shutil
import subprocess
import sys
import time

HERE = os.path.dirname(os.path.abspath(__file__))
TOOLS = os.path.dirname(HERE)
sys.path += [TOOLS, os.path.join(TOOLS, "quick_build")]
from building import Build
from crate_tree import CRATES
from kit import Fault

# the name of the page's program in the copy, and the crates that it uses
PROGRAM = "page_program"
USES = ("explain script json_forms planner query schedule metadata txn cluster_core kv_core tuple_codec serde_json hex"
        " thiserror")
# what of a crate isn't copied
NOT_COPIED = shutil.ignore_patterns("out", "wrong-bodies", "must-fail", "__pycache__")

TARGET = "--target=wasm64-unknown-unknown"
LAYOUT = "e-m:e-p:64:64-p10:8:8-p20:8:8-i64:64-i128:128-n32:64-S128-ni:1:10:20"
# what a module for the proof's machine has, and what one for WebAssembly has in its place
INSTEAD = [(re.compile(old), new) for old, new in (
    (r'^target datalayout = .*', f'target datalayout = "{LAYOUT}"'),
    (r'^target triple = .*', 'target triple = "wasm64-unknown-unknown"'),
    (r' "(?:probe-stack|stack-probe-size|target-cpu|target-features)"="[^"]*"', ''),
    (r'^(define [^@]*@)main\(', r'\1page_program('))]
# which of the instructions that came after the first version all browsers have had for years
FEATURES = ("bulk-memory", "sign-ext", "mutable-globals")
STACK_BYTES = 4 << 20
# the program waits for a call in this function of the page; what calls it is made so that it can be left and entered
# again, and as no call by a table leads there those needn't be
WAIT = ("--asyncify", "--pass-arg=asyncify-imports@page.wait", "--pass-arg=asyncify-ignore-indirect")


def texts_in(folder):
    """The names and the texts of the sources in a folder beside this file. None of them ends in `.rt` here, as the
    toolchain's `rt ci` takes no such file that no check reads."""
    for name in sorted(os.listdir(os.path.join(HERE, folder))):
        with open(os.path.join(HERE, folder, name), encoding="utf-8") as file:
            yield name.removesuffix(".txt"), file.read()


def retargeted(lines):
    """The lines of a module for the machine of WebAssembly, whose `main` has another name."""
    for line in lines:
        if line.startswith(("target ", "attributes ", "define ")):
            for old, new in INSTEAD:
                line = old.sub(new, line)
        yield line


def with_narrow_table(module):
    """A module whose table of functions is one for 32 bits, as its memory will be."""
    made, at = bytearray(module), 8
    while at < len(made):
        kind, size, begin = made[at], *leb(made, at + 1)
        if kind == 4:
            _, first = leb(made, begin)
            # the flags of the table's limits stand after its kind
            made[first + 1] &= ~4
        at = begin + size
    return bytes(made)


def leb(data, at):
    """The number that is written at a place in groups of seven bits, and the place after it."""
    number = shift = 0
    while True:
        byte = data[at]
        number |= (byte & 127) << shift
        shift, at = shift + 7, at + 1
        if byte < 128:
            return number, at


class Module(Build):
    """The making of the page's module, in an empty folder of its own, of a copy of a repository."""

    def __init__(self, kit, root, room):
        self.origin = root
        super().__init__(kit, os.path.join(room, "copy"), PROGRAM, room)

    def copy(self):
        """Copies the repository's crates, opens windows into them, and puts the page's program beside them."""
        os.makedirs(self.root)
        for name in (CRATES, "HANDLES"):
            shutil.copy(os.path.join(self.origin, name), self.root)
        shutil.copytree(os.path.join(self.origin, "crates"), os.path.join(self.root, "crates"), ignore=NOT_COPIED)
        for name, text in texts_in("program"):
            self.add(os.path.join("crates", PROGRAM, "src", name), text)
        for name, text in texts_in("windows"):
            crate, _, source = name.partition(".")
            self.add(os.path.join("crates", crate, "src", source), text)
        self.add(CRATES, f"{PROGRAM}: {USES}\n")

    def add(self, name, text):
        """Adds a text to a file of the copy, which may be new."""
        path = os.path.join(self.root, name)
        os.makedirs(os.path.dirname(path), exist_ok=True)
        with open(path, "a", encoding="utf-8") as file:
            file.write(text)

    def retarget(self):
        """Puts the module for WebAssembly in the place of that for the machine of the proof."""
        with open(self.module, encoding="utf-8") as text, open(f"{self.module}.wide", "w", encoding="utf-8") as file:
            file.writelines(retargeted(text))

    def compile(self):
        """Compiles the module and the host, and links them."""
        words = [self.compiler, TARGET, "-mcpu=mvp", "-mbulk-memory", "-msign-ext", "-Wno-override-module", "-c"]
        objects = [f"{self.module}.o"]
        self.run(*words, "-x", "ir", f"{self.module}.wide", "-O2", "-o", objects[0])
        for name in ("heap", "words", "calls"):
            objects.append(os.path.join(self.room, f"{name}.o"))
            source = os.path.join(HERE, "host", f"{name}.c")
            self.run(*words, "-ffreestanding", "-fno-builtin", "-O2", source, "-o", objects[-1])
        # the kit's compiler is its linker too, by the name with which it is called
        linker = ["wasm-ld", "-mwasm64", "--no-entry", "--gc-sections", "-z", f"stack-size={STACK_BYTES}", *objects,
                  "-o", f"{self.module}.wasm64"]
        ran = subprocess.run(linker, executable=self.compiler, capture_output=True, text=True, check=False)
        if ran.returncode:
            raise Fault(f"{ran.stderr}wasm-ld ended with status {ran.returncode}")

    def lower(self):
        """Makes of the module with a memory of 64 bits one of 32, which waits for calls."""
        wide, narrow = f"{self.module}.wasm64", f"{self.module}.wasm"
        with open(wide, "rb") as file:
            module = with_narrow_table(file.read())
        with open(wide, "wb") as file:
            file.write(module)
        features = [f"--enable-{it}" for it in FEATURES]
        self.run("wasm-opt", *features, "--enable-memory64", "--memory64-lowering", wide, "-o", f"{self.module}.low")
        self.run("wasm-opt", *features, *WAIT, "-O2", "--strip-debug", "--strip-producers", f"{self.module}.low", "-o",
                 narrow)
        return narrow


def made(module, path):
    """Makes a module, telling how long each step took, and puts it at a path."""
    steps = {"the sources were copied": module.copy, "rt try made a module": module.keep_module,
             "its checks were taken out": module.take_out_checks, "it was retargeted": module.retarget,
             "it was compiled": module.compile, "it was lowered": module.lower}
    for what, step in steps.items():
        since = time.monotonic()
        step()
        print(f"{what}: {time.monotonic() - since:.0f} s", flush=True)
    os.makedirs(os.path.dirname(path), exist_ok=True)
    shutil.copy(f"{module.module}.wasm", path)
