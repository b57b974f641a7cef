"""The types of sources of which definitions speak, and the definitions that say what their values are seen as."""
import re
from definitions import IMPORT, is_named
from items import words_in
from promises import Items, seen_of_model
from sources import read
from specifications import Specifications
from trials import crates_of

# an import of a source: its path, and its names or its other name
USED = re.compile(r"^ *(?:pub )?use ([\w:]+?)(?:::\{([^}]*)\})?(?: as (\w+))?;", re.M)
# what may stand after a type in the path of what is declared of it
PARTS_OF_TYPES = ("TheVariants", "TheOpen")


def declared_in(text, words):
    """The types of sources that a text imports as these words, whole or in part: the crate and the name of each."""
    found = set()
    for crate, path, names, alias in IMPORT.findall(text):
        first, *parts = (it for it in path.split(".") if it not in PARTS_OF_TYPES)
        heres = [it.split(" as ")[-1].strip() for it in names.split(",")] if names else [alias or path.split(".")[-1]]
        if first == "declared" and parts and any(it and is_named(it, words) for it in heres):
            found.add((crate, parts[-1]))
    return found


def used_in(crate, text):
    """What a source of a crate imports, by its name here: its crate and its name there."""
    found = {}
    for path, names, alias in USED.findall(text):
        first, *parts = path.split("::")
        home = crate if first == "crate" else first
        found |= {} if names or not parts else {alias or parts[-1]: (home, parts[-1])}
        for it in filter(None, (it.strip() for it in names.split(","))):
            there, _, here = it.partition(" as ")
            found[here or there] = home, there
    return found


class Types:
    """The types of a repository's sources, by their crates and names: what each is, and its model if it has one."""

    def __init__(self, items):
        self.types, self.models = {}, {}
        for crate, them in items.items():
            for it, text in them:
                if it.kind in ("struct", "enum"):
                    self.types[crate, it.name] = it, text
                elif it.kind == "impl" and it.trait == "Model":
                    self.models[crate, it.name] = it, text

    def led(self, crate, name, specifications):
        """The places of the definitions, and the types, that say what a type's values are seen as: those named by what
        its model says to all, and by its fields where these are public or it has no model."""
        it, source = self.types.get((crate, name), (None, ""))
        model, text = self.models.get((crate, name), (None, ""))
        places, types = set(), set()
        if it and model:
            told = seen_of_model(model, not it.inside)
            places, types = specifications.named(told, specifications.imports(text)), declared_in(text, words_in(told))
        if it and not (model and it.inside):
            words, used = words_in(it.text + it.inside), used_in(crate, source)
            types |= {used.get(word, (crate, word)) for word in words} & self.types.keys()
        return places, types


class Needs:
    """The definitions of a repository, and those that have to be read to read some of them."""

    def __init__(self, root, paths):
        crates = crates_of(root)
        self.specifications = Specifications(root, crates, {path: read(root, path) for path in paths})
        self.types = Types(Items(root, crates).items)

    def types_at(self, place):
        """The types of sources of which the definition at a place speaks."""
        text = self.specifications.files[place[:2]].text
        return declared_in(text, words_in(self.specifications.definition(place).text))

    def of(self, starts):
        """The places of the definitions to which those lead that have these crates, files and names, also by what the
        types are seen as of which they speak."""
        found, met = set(), set()
        places = {place for start in starts for place in self.specifications.find(*start)}
        while places:
            new = self.specifications.reached(places) - found
            found, places = found | new, set()
            types = {it for place in new for it in self.types_at(place)}
            while types - met:
                it = (types - met).pop()
                met.add(it)
                there, further = self.types.led(*it, self.specifications)
                places, types = places | there, types | further
            places -= found
        return found
