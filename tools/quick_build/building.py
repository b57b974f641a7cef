"""A program built in steps: its module kept from `rt try`, its checks taken out, compiled, linked and put in place."""
import glob
import os
import shutil
import subprocess
import sys
import time
from hints import Hints
from kit import WITH_CHECKS, Fault, stand_in
from unchecked import unchecked

# words by which the compiler is told to make a program with checks, and what in their place tells it to make a fast one
INSTEAD = {"-O0": ["-O3"], WITH_CHECKS: [], "-trap-unreachable": ["-trap-unreachable=false"]}


def ended(words, **how):
    """What a command prints, and its status. It is told to end where this program is told so."""
    with subprocess.Popen(words, stdin=subprocess.DEVNULL, stdout=subprocess.PIPE, stderr=subprocess.STDOUT, text=True,
                          errors="replace", **how) as process:
        try:
            return process.communicate()[0], process.returncode
        except BaseException:
            process.terminate()
            raise


def fast(words):
    """Words for the compiler, with those of a fast program in place of those of one with checks."""
    return [it for word in words for it in INSTEAD.get(word, [word])]


class Build:
    """The making of a program of a repository, in an empty folder of its own."""

    def __init__(self, kit, root, program, room):
        self.kit, self.root, self.program, self.room, self.words = kit, root, program, room, []
        # the compiler runs in this folder with the words that are kept, so the file has the name that they give it
        self.module = os.path.join(room, "module.bc")
        self.compiler = os.path.join(kit, "toolchain", "bin", "clang")

    def run(self, *words):
        """Runs a command of the kit, and ends the build where it fails."""
        said, status = ended(words, cwd=self.room)
        if status:
            raise Fault(f"{said}{os.path.basename(words[0])} ended with status {status}")

    def keep_module(self):
        """Has `rt try` make the program's module, which the compiler that stands in keeps with its words."""
        words = os.path.join(self.room, "words")
        rt = stand_in(self.kit, os.path.join(self.room, "kit"), self.module, words)
        said, _ = ended([sys.executable, rt, "try", "--steps", "1"], env={**os.environ, "TMPDIR": self.room},
                        cwd=os.path.join(self.root, "crates", self.program))
        if not os.path.exists(words):
            raise Fault(f"{said}rt try made nothing of {self.program} that can be compiled")
        with open(words, encoding="utf-8") as file:
            self.words = file.read().splitlines()

    def take_out_checks(self):
        """Puts in the module's place its text without checks, and with the hints of the sources."""
        text, target = f"{self.module}.ll", [it for it in self.words if it.startswith("--target=")]
        as_it_is = ["-S", "-emit-llvm", "-O0", "-Xclang", "-disable-llvm-passes"]
        self.run(self.compiler, *target, *as_it_is, "-x", "ir", self.module, "-o", text)
        hints = Hints(os.path.join(self.root, "crates"), os.path.join(self.kit, "rattle"))
        with open(text, encoding="utf-8") as whole, open(self.module, "w", encoding="utf-8") as file:
            file.writelines(unchecked(whole, hints.of))
        os.remove(text)

    def compile(self):
        self.run(self.compiler, *fast(self.words))

    def link(self):
        """Links the program, and answers its path."""
        program = os.path.join(self.room, self.program)
        target = next(it.partition("=")[2] for it in self.words if it.startswith("--target="))
        made = os.path.join(self.room, self.words[self.words.index("-o") + 1])
        self.run(os.path.join(self.kit, "bin", "rattle-link"), "--target", target,
                 "--toolchain", os.path.join(self.kit, "toolchain"), "-o", program, made,
                 *glob.glob(os.path.join(self.kit, "c", "lib*.a")))
        return program


def put(program, folder):
    """Puts a program into a folder, in place of one that may be running there, and answers its path."""
    path = os.path.join(folder, os.path.basename(program))
    os.makedirs(folder, exist_ok=True)
    shutil.copy(program, f"{path}.part")
    os.replace(f"{path}.part", path)
    return path


def built(build, folder):
    """Builds a program into a folder, telling how long each step took, and answers its path."""
    steps = {"rt try made a module": build.keep_module, "its checks were taken out": build.take_out_checks,
             "it was compiled": build.compile}
    for what, step in steps.items():
        since = time.monotonic()
        step()
        print(f"{what}: {time.monotonic() - since:.0f} s", flush=True)
    return put(build.link(), folder)
