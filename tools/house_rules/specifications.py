"""The specifications of a repository, and the definitions to which definitions lead."""
import functools
import re
from dataclasses import dataclass
from defined import PRIVATE, definitions_in
from definitions import imports_in, is_named
from items import words_in


@dataclass
class Specification:
    """A file of definitions: its text without comments, these, which of them has a name, what it imports, and whether
    it says of all of them that they are private."""

    text: str
    definitions: list
    at: dict
    imports: list
    is_told_private: bool


class Specifications:
    """The specifications of a repository. The place of a definition is its crate, its file, and its number there."""

    def __init__(self, root, crates, texts):
        self.imports = functools.cache(lambda text: list(imports_in(root, crates, text)))
        self.files = {self.place(path): self.specification(text) for path, text in texts.items()}

    @staticmethod
    def place(path):
        """The crate and the file of a specification."""
        return tuple(path.split("/", 2)[1:])

    def specification(self, text):
        """A specification with this text."""
        found = definitions_in(text)
        told = "".join(line for line in text.splitlines(True) if not line.lstrip().startswith("--"))
        at = {name: number for number, it in enumerate(found) for name in it.names}
        return Specification(told, found, at, self.imports(told), text.startswith(PRIVATE))

    def definition(self, place):
        """The definition at a place."""
        return self.files[place[:2]].definitions[place[2]]

    def find(self, crate, file, name):
        """The places of what has a name in a file, which may hand on what it imports."""
        there = self.files.get((crate, file))
        if there is None or name in there.at:
            return {(crate, file, there.at[name])} if there else set()
        return {place for it in there.imports if it[2] and it[3] == name for place in self.find(*it[:3])}

    def named(self, text, imports):
        """The places of the definitions that a text names of those that are imported."""
        words, found = words_in(text), set()
        for crate, file, there, here in imports:
            if there is None and here in words:
                for name in re.findall(rf"(?<![\w.]){re.escape(here)}\.([\w'-]+)", text):
                    found |= self.find(crate, file, name)
            elif there and is_named(here, words):
                found |= self.find(crate, file, there)
        return found

    def reached(self, places):
        """These places, and those of the definitions that are named there in turn."""
        found, new = set(), set(places)
        while new:
            crate, file, number = place = new.pop()
            found.add(place)
            there = self.files[crate, file]
            text = there.definitions[number].text
            words = words_in(text)
            own = {(crate, file, at) for name, at in there.at.items() if is_named(name, words)}
            new |= (own | self.named(text, there.imports)) - found
        return found
