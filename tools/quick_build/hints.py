"""The hints on inlining that sources give, by the names that a module of LLVM has for their functions."""
import glob
import os
import re
import sys

TOOLS = os.path.dirname(os.path.dirname(os.path.abspath(__file__)))
sys.path.append(os.path.join(TOOLS, "wrong_bodies"))
from bodies import blanked, block_name

# a hint, the head of a block with the functions of a type or a trait, a function, and braces
TOKEN = re.compile(
    r"#\[(?:inline(?:\((?P<how>\w+)\))?|(?P<cold>cold))\]"
    r"|\b(?P<kind>impl|trait)\b(?P<head>(?:[^{};]|\[[^\]]*\])*)\{|\bfn\s+(?P<name>\w+)|[{}]")
WORDS = {None: "inlinehint", "always": "alwaysinline", "never": "noinline"}


def functions_in(text):
    """The functions of a source: the name of each, of the block that it stands in or '', and its hint or ''."""
    blocks, hint, depth = [], [], 0
    for token in TOKEN.finditer(blanked(text)):
        if token[0].startswith("#"):
            hint.append("cold" if token["cold"] else WORDS[token["how"]])
        elif token["name"]:
            yield token["name"], blocks[-1][1] if blocks else "", " ".join(hint)
            hint = []
        elif token[0] == "}":
            depth -= 1
            blocks = [it for it in blocks if it[0] <= depth]
        else:
            depth += 1
            if token["kind"]:
                blocks.append((depth, block_name(token["kind"], token["head"])))


def module_of(crate, path):
    """The path of the module in a file of a crate's sources."""
    parts = path.removesuffix(".rt").split("/")
    return "::".join([crate, *(parts[:-1] if parts[-1] in ("lib", "main", "mod") else parts)])


class Hints:
    """The hints of crates whose sources stand at NAME/src below some folders; each crate is read when it is asked for.

    A module names a function by its crate, its module, its block and itself, as `kv_core::bytes::BytesClone::clone`,
    and then by its types after `::<`. A block's module is that of its type, which may be another file's, and its name
    may go on with its trait's types.
    """

    def __init__(self, *folders):
        self.folders, self.crates = folders, {}

    def functions_of(self, crate):
        """For each name of a crate's functions the module, the block and the hint of those that have it."""
        if crate not in self.crates:
            found = self.crates[crate] = {}
            for sources in (os.path.join(it, crate, "src") for it in self.folders):
                for path in glob.glob("**/*.rt", root_dir=sources, recursive=True):
                    with open(os.path.join(sources, path), encoding="utf-8") as file:
                        for name, block, hint in functions_in(file.read()):
                            found.setdefault(name, []).append((module_of(crate, path), block, hint))
        return self.crates[crate]

    def of(self, name):
        """The hint of the function of this name, or '' where it has none, or it can't be told which one it is."""
        *scope, function = name.split("::<")[0].split("::")
        if not scope:
            return ""
        whole, above, fitting = "::".join(scope), "::".join(scope[:-1]), []
        for module, block, hint in self.functions_of(scope[0]).get(function, []):
            if scope[-1].startswith(block) if block else module == whole:
                fitting.append(((len(block), module == above), hint))
        hints = {hint for rank, hint in fitting if rank == max(fitting)[0]}
        return hints.pop() if len(hints) == 1 else ""
