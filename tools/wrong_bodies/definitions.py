"""The definitions that texts name, and those that these name in turn."""
import functools
import os
import re
from items import words_in

# an import of definitions: its crate, its module, and the words or its other name
IMPORT = re.compile(r"\buse Rattle\.(\w+)\.specs\.([\w.]*\w)(?:\.\{([^}]*)\}| as (\w+))?")
# what stands before the name that a line defines
KEYWORDS = {"pub", "abbrev", "unfoldable", "record", "data"}
# lines that bring several definitions together, so that a file with one is taken whole
TOGETHER = re.compile(r"^(?:abbrev )?(?:mutual|module|infix|open|package|ruleset)\b", re.M)


def is_named(name, words):
    """Whether this name is among a text's words; a name with an operator in it counts as one of them."""
    return name in words or not re.fullmatch(r"[\w'-]+", name)


@functools.cache
def file_of(root, crate, path):
    """The file of definitions that an import of a crate's module leads to, or None."""
    words = path.split(".")
    files = ["/".join(["specs", *words[:size]]) + ".antt" for size in range(len(words), 0, -1)]
    return next((it for it in files if os.path.isfile(os.path.join(root, "crates", crate, it))), None)


def imports_in(root, crates, text):
    """What a text imports of definitions: crate, file, the name there (None for all of them) and its name here."""
    for crate, path, names, alias in IMPORT.findall(text):
        file = file_of(root, crate, path) if crate in crates else None
        if not file:
            continue
        if not names:
            yield crate, file, None, alias or path.split(".")[-1]
            continue
        for name in filter(None, (it.strip() for it in names.split(","))):
            there, _, here = name.partition(" as ")
            yield crate, file, there.strip(), (here or there).strip()


def types_in(text, words):
    """The types of sources that a text imports as these words, by their crates and names."""
    found = set()
    for crate, path, names, alias in IMPORT.findall(text):
        if path.startswith("declared."):
            for it in [f"{path.split('.')[-1]} as {alias}"] if alias else filter(None, names.split(",")):
                there, _, here = it.strip().partition(" as ")
                found |= {(crate, there.strip())} if is_named((here or there).strip(), words) else set()
    return found


def parts_in(text):
    """The text of each definition of a file by its name, without comments and imports; None where it is one part."""
    if TOGETHER.search(text):
        return None
    parts, name = {}, None
    for line in text.split("\n"):
        if line.startswith(("--", "use ", "pub mod ")):
            name = None if line.startswith("use ") else name
            continue
        words = line.split()
        if words and not line[0].isspace() and line[0] != "}":
            name = next((it for it in words if it not in KEYWORDS), None)
        if name:
            parts[name] = parts.get(name, "") + line.rstrip() + "\n"
    return parts


class Definitions:
    """The definitions of the crates of a repository."""

    def __init__(self, root, crates):
        self.root, self.crates = root, crates
        self.read = functools.cache(self.read_anew)

    def read_anew(self, crate, file):
        """A file of definitions: its parts, its text, and what it imports."""
        with open(os.path.join(self.root, "crates", crate, file), encoding="utf-8") as source:
            text = "".join(line for line in source if not line.lstrip().startswith("--"))
        return parts_in(text), text, list(imports_in(self.root, self.crates, text))

    def part(self, crate, file, name):
        """A definition's text and what else it leads to; the file's whole text, where it is no definition there."""
        parts, text, imports = self.read(crate, file)
        if parts is None or name not in parts:
            return None, text, [it[:3] for it in imports]
        words = words_in(parts[name])
        own = [(crate, file, it) for it in parts if it != name and is_named(it, words)]
        return name, parts[name], own + [it[:3] for it in imports if is_named(it[3], words)]

    def named(self, crate, file, name):
        """The place and the text of a definition that an import names, which its file may pass on from another one."""
        parts, text, imports = self.read(crate, file)
        if parts is not None and name in parts:
            return "definition", crate, file, name, parts[name]
        passed = [it for it in imports if it[3] == name and it[2]]
        if name and passed and passed[0][:2] != (crate, file):
            return self.named(*passed[0][:3])
        return "definition", crate, file, name or "", text
