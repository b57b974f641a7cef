"""What the crates of a repository promise: the definitions to which the contracts lead that they hand out."""
import re
from items import items_in
from sources import files, read
from specifications import Specifications
from trials import crates_of

# what the root of a library hands out
HANDED = re.compile(r"^pub use ([\w:]+)(?:::\{([^}]*)\})?(?: as \w+)?;", re.M)
TYPES = ("struct", "enum", "trait")
# what a model says of a type to all, and of one whose fields are public
SEEN = ("ghost Value", "ghost view")
SEEN_IF_OPEN = (*SEEN, "ghost invariant")


def handed_out(text):
    """The items that the root of a library hands out, by their files and names."""
    found = set()
    for path, names in HANDED.findall(text):
        module, names = (path, names) if names else path.rsplit("::", 1)
        file = "src/" + module.replace("::", "/") + ".rt"
        found |= {(file, it.split(" as ")[0].strip()) for it in names.split(",")}
    return found


def seen_of_model(it, is_open):
    """What a model says to all: what a type's values are seen as."""
    parts = re.split(r"^(?=ghost )", f"{it.text}\n{it.inside}", flags=re.M)
    return "".join(part for part in parts if part.startswith(SEEN_IF_OPEN if is_open else SEEN))


class Items:
    """The items of a repository's crates, and which of them are handed out.

    A program hands out `main` and what is public, a library what its root says. What stands in a trait or an `impl` is
    handed out where the trait and the type are; those of other repositories count as handed out.
    """

    def __init__(self, root, crates):
        self.items, self.handed = {}, {}
        for crate in crates:
            home = f"crates/{crate}/"
            texts = {it.removeprefix(home): read(root, it) for it in files(root, f"{home}src/**/*.rt")}
            self.items[crate] = [(it, text) for file, text in texts.items() for it in items_in(file, text)]
            self.handed[crate] = None if "src/main.rt" in texts else handed_out(texts.get("src/lib.rt", ""))
        self.hidden_traits = {name for crate in crates for kind, name in self.hidden(crate) if kind == "trait"}

    def is_handed(self, crate, it):
        """Whether an item that stands in no block is handed out."""
        handed, is_public = self.handed[crate], it.is_public
        if it.name == "main" and it.file == "src/main.rt":
            return True
        if it.kind == "trait":
            is_public = re.search(r"^pub (?:unsafe )?trait\b", it.text, re.M) is not None
        return is_public and (handed is None or it.file == "src/lib.rt" or (it.file, it.name) in handed)

    def hidden(self, crate):
        """The types and traits that a crate doesn't hand out: the kind and the name of each."""
        return {(it.kind, it.name) for it, _ in self.items[crate] if it.kind in TYPES and not self.is_handed(crate, it)}

    def promises(self, crate):
        """The contracts that a crate hands out, each with the text of its file."""
        hidden = {name for _, name in self.hidden(crate)}
        opened = {it.name for it, _ in self.items[crate] if it.kind in TYPES and not it.inside}
        for it, text in self.items[crate]:
            if it.kind not in ("impl", "method"):
                if self.is_handed(crate, it):
                    yield it.text, text
            elif it.is_public and not {it.name, it.owner} & hidden and it.trait not in self.hidden_traits:
                yield seen_of_model(it, it.name in opened) if it.trait == "Model" else it.text, text


class Promises:
    """The specifications of a repository, and the places of the definitions that serve promises."""

    def __init__(self, root, paths):
        crates = crates_of(root)
        self.specifications = Specifications(root, crates, {path: read(root, path) for path in paths})
        items, named = Items(root, crates), set()
        for crate in crates:
            for told, text in items.promises(crate):
                named |= self.specifications.named(told, self.specifications.imports(text))
        self.reached = self.specifications.reached(named)

    def said(self, path):
        """The definitions of a file, each with whether it serves a promise, and whether it is said to be private."""
        place = self.specifications.place(path)
        there = self.specifications.files[place]
        for number, it in enumerate(there.definitions):
            yield it, (*place, number) in self.reached, there.is_told_private or it.is_told_private
