"""A static library, built from a program that has its functions: `rt try` makes a module of programs alone."""
import glob
import os
import re
import shutil
import sys
from building import Build, fast
from kit import Fault

sys.path.append(os.path.dirname(os.path.dirname(os.path.abspath(__file__))))
from crate_tree import CRATES, used_by

# the line of a static library in crates.txt, and a function that one exports
STATIC = r"^({})\s+staticlib\b"
EXPORT = re.compile(r'#\[unsafe\(no_mangle\)\]\s*pub extern "C" fn (\w+)\(([^)]*)\)')
# what the program calls an exported function with, by the types of its parameters
ARGUMENTS = {"Global": "rt.alloc()", "&[u8]": "&[]", "&mut [u8]": "&mut []", "&mut usize": "&mut 0"}
MAIN = """
fn main(rt: HostRuntime) -> std::io::Result<()> {{
{}    Ok(())
}}
"""
# where the program begins, which nothing calls in a library
START = "define i32 @main()"


def is_archive(text, name):
    """Whether a text such as crates.txt has this crate as a static library."""
    return re.search(STATIC.format(name), text, re.M) is not None


def exports(source):
    """The functions that a source exports, each with what a program calls it with."""
    found = {}
    for name, parameters in EXPORT.findall(source):
        types = [it.partition(":")[2].strip() for it in parameters.split(",") if it.strip()]
        unknown = [it for it in types if it not in ARGUMENTS]
        if unknown:
            raise Fault(f"{name} takes {', '.join(unknown)}, which isn't known here")
        found[name] = [ARGUMENTS[it] for it in types]
    return found


def program_of(source):
    """A program that calls each function that a source exports, so that none is left out."""
    calls = (f"    let _ = {name}({', '.join(given)});\n" for name, given in exports(source).items())
    return source + MAIN.format("".join(calls))


def needed(uses, name):
    """The crates that one is made of."""
    found, rest = set(), [name]
    while rest:
        one = rest.pop()
        if one not in found:
            found.add(one)
            rest += uses[one]
    return found


def copied(root, name, to):
    """Makes a repository of the crates that a static library is made of, where it is a program."""
    with open(os.path.join(root, CRATES), encoding="utf-8") as file:
        text = file.read()
    crates = needed(used_by(text), name)
    lines = [re.sub(STATIC.format(name), r"\1", it) for it in text.splitlines()
             if it.partition(":")[0].split()[:1] and it.split(":")[0].split()[0] in crates]
    for crate in crates:
        for part in glob.glob(os.path.join(root, "crates", crate, "s[rp]*")):
            shutil.copytree(part, os.path.join(to, "crates", crate, os.path.basename(part)))
    shutil.copy(os.path.join(root, "HANDLES"), to)
    with open(os.path.join(to, CRATES), "w", encoding="utf-8") as file:
        file.write("\n".join(lines) + "\n")
    sources = os.path.join(to, "crates", name, "src")
    with open(os.path.join(sources, "lib.rt"), encoding="utf-8") as file:
        source = file.read()
    os.remove(os.path.join(sources, "lib.rt"))
    with open(os.path.join(sources, "main.rt"), "w", encoding="utf-8") as file:
        file.write(program_of(source))
    return list(exports(source))


def exported(lines, crate, names):
    """The lines of a module, whose functions of these names can be called from outside, and whose start can't."""
    inner = {f'@"{crate}::{name}"(': f"@{name}(" for name in names}
    for line in lines:
        if line.startswith(START):
            line = line.replace(START, 'define internal i32 @"a start"()')
        if f'@"{crate}::' in line:
            for old, new in inner.items():
                if line.startswith("define internal ") and old in line:
                    line = line.replace("define internal ", "define ", 1)
                line = line.replace(old, new)
        yield line


class Archive(Build):
    """The making of a static library of a repository, in an empty folder of its own."""

    def __init__(self, kit, root, name, room):
        repository = os.path.join(room, "repository")
        os.mkdir(repository)
        self.names = copied(root, name, repository)
        super().__init__(kit, repository, name, room)

    def take_out_checks(self):
        super().take_out_checks()
        with open(self.module, encoding="utf-8") as whole:
            lines = list(exported(whole, self.program, self.names))
        with open(self.module, "w", encoding="utf-8") as file:
            file.writelines(lines)

    def compile(self):
        self.run(self.compiler, *("-fPIC" if it == "-fPIE" else it for it in fast(self.words)))

    def link(self):
        """Puts the module beside the heap, and answers the path of the archive."""
        archive = os.path.join(self.room, f"lib{self.program}.a")
        shutil.copy(os.path.join(self.kit, "c", "liblibc_c.a"), archive)
        made = os.path.join(self.room, self.words[self.words.index("-o") + 1])
        self.run(os.path.join(self.kit, "toolchain", "bin", "llvm-ar"), "r", archive, made)
        return archive
