"""What texts of a crate lead to: items of its sources and of those of the crates below, and definitions."""
import functools
import os
import re
from dataclasses import dataclass
from definitions import Definitions, imports_in, is_named, types_in
from items import items_in, words_in
from trials import below

# items that code alone can name, and those of them that are code themselves; bodies aren't a part of what is told
CODE = ("macro_rules!", "const", "static")
NAMED_BY_CODE = ("fn", *CODE)
# how code names a method
METHOD = re.compile(r"\.\s*(\w+)\s*(?:::<[^>]*>)?\(|(?<!\w)(\w+)(?:<[^<>]*>)?\s*::\s*(\w+)")
# traits that do nothing where no word has their name in it
NAMED_TRAITS = ("Hash", "Display", "Error", "Default", "FromStr")
ALIAS = re.compile(r"\b(\w+) as (\w+)")


@dataclass(frozen=True, eq=False)
class Told:
    """What an item tells those who can name it: where it stands and its text, the words that it says, a method's block
    and trait or an `impl`'s trait where that has to be named too, and the definitions and types that it imports."""

    crate: str
    kind: str
    name: str
    place: tuple
    words: frozenset
    owner: str
    trait: str
    starts: tuple
    types: frozenset


def methods_in(code):
    """The names by which code may call methods, each with what stands before it where that is a path."""
    return {(it[1] or it[3], it[2] or "") for it in METHOD.finditer(code)}


class Reach:
    """The sources and definitions of a repository's crates."""

    def __init__(self, root, crates):
        self.root, self.crates, self.definitions = root, crates, Definitions(root, crates)
        self.told, self.names = functools.cache(self.told_anew), functools.cache(self.names_anew)
        self.led, self.items = functools.cache(self.led_anew), functools.cache(self.items_anew)

    def items_anew(self, crate):
        """The items of a crate, each with the text of its file."""
        home, found = os.path.join(self.root, "crates", crate), []
        for at, _, names in os.walk(os.path.join(home, "src")):
            for name in names:
                with open(os.path.join(at, name), encoding="utf-8") as source:
                    text = source.read()
                found += [(it, text) for it in items_in(os.path.relpath(os.path.join(at, name), home), text)]
        return found

    def imported(self, source, words):
        """What these words of a file import: definitions, types by their crates and names; and the words with those
        for which they stand."""
        found = [it[:3] for it in imports_in(self.root, self.crates, source) if is_named(it[3], words)]
        there = {there for there, here in ALIAS.findall(source) if here in words}
        types = frozenset(it for it in types_in(source, words) if it[0] in self.crates)
        return tuple(found), types, words | there

    def told_anew(self, crate, is_own):
        """What the items of a crate tell the crate itself, or those above it.

        Where no field of a type with a model is public, only its own crate opens its values: the others see the
        model's value, and neither its fields nor how the model sees them nor what is true of them. The functions of
        this repository's traits are told where they are called, those of std's with their `impl`.
        """
        items, found = self.items(crate), []
        modelled = {it.name for it, _ in items if it.kind == "impl" and it.inside}
        own_traits = {it.name for low in self.crates for it, _ in self.items(low) if it.kind == "trait"}
        blocks = {}
        for it, _ in items:
            if it.kind == "method":
                blocks.setdefault((it.file, it.block), []).append(it.text)
        for it, source in items:
            is_hidden = not is_own and it.name in modelled
            text = it.text if is_hidden else f"{it.text}\n{it.inside}".strip()
            if it.kind == "impl" and it.trait and it.trait not in own_traits:
                text = "\n".join([text, *blocks.get((it.file, it.block), ())])
            if it.kind == "impl" and not re.search(r"\b(?:ghost|ensures|requires)\b", text):
                continue
            if it.kind != "method" or not it.trait or it.trait in own_traits:
                place = (crate, it.file, it.kind, it.name, text)
                starts, types, words = self.imported(source, words_in(text))
                is_called = it.kind == "method" or it.trait in NAMED_TRAITS or it.trait in own_traits
                trait = it.trait if is_called else ""
                told = Told(crate, it.kind, it.name, place, words, it.owner, trait, starts, types)
                found.append((it.is_public, told))
        return found

    def names_anew(self, crate, is_own):
        """What texts of a crate can name: methods, what code alone names, and others, each by name.

        The crate's own texts see all of it and what is public below; those above see what its texts tell them.
        """
        methods, by_code, others = {}, {}, {}
        seen = [it for _, it in self.told(crate, is_own)]
        for low in below(self.crates, crate):
            seen += [it for is_public, it in self.told(low, False) if is_public]
        for it in seen:
            into = methods if it.kind == "method" else by_code if it.kind in NAMED_BY_CODE else others
            into.setdefault(it.name, []).append(it)
        return methods, by_code, others

    def led_anew(self, start):
        """Where a definition stands and its text, what it leads to, and the types that it names."""
        crate, file, asked = start
        name, text, further = self.definitions.part(crate, file, asked)
        source = self.definitions.read(crate, file)[1]
        types = {it for it in types_in(source, words_in(text)) if it[0] in self.crates}
        return (crate, file, "definition", name or "", text), further, types

    def reached(self, crate, code, starts):
        """The places and texts of all to which code of a crate leads, and these definitions."""
        return Walk(self, crate).from_code(code, starts)


class Walk:
    """What is reached so far from code of a crate."""

    def __init__(self, reach, crate):
        self.reach, self.crate = reach, crate
        self.items, self.new, self.words, self.waiting = set(), [], set(), []

    def says(self, trait):
        """Whether a word that is reached has this trait's name in it."""
        return any(trait in word for word in self.words)

    def meet(self, found):
        """Notes items that are named."""
        for it in found:
            if it not in self.items and it.kind == "impl" and it.trait and not self.says(it.trait):
                self.waiting.append(it)
            elif it not in self.items:
                self.items.add(it)
                self.new.append(it)

    def name(self, crate, words, code=None):
        """Notes what words of a crate name, and the methods that its code calls."""
        methods, by_code, others = self.reach.names(crate, crate == self.crate)
        self.words |= words
        for word in words:
            self.meet(others.get(word, ()))
            if code is not None:
                self.meet(by_code.get(word, ()))
        for method, before in methods_in(code or ""):
            there = methods.get(method, ())
            if len(before) > 1 and before != "Self":
                # a path names the type itself, or by another word that an import gives it
                is_other = before not in others
                there = [it for it in there if before in (it.owner, it.trait) or is_other and it.owner in words]
            self.meet(there)

    def from_code(self, code, imports):
        """The places and texts of all to which code and what it imports lead."""
        definitions, texts = [], {}
        for text, (starts, types, words) in zip(code, imports):
            definitions += starts
            self.name(self.crate, words, text)
            for crate, name in types:
                self.name(crate, {name})
        while self.new or definitions:
            if self.new:
                it = self.new.pop()
                definitions += it.starts
                self.name(it.crate, it.words, it.place[-1] if it.kind in CODE else None)
                types = it.types
            else:
                start, types = definitions.pop(), ()
                if start not in texts:
                    texts[start], further, types = self.reach.led(start)
                    definitions += further
            for crate, name in types:
                self.name(crate, {name})
            if not self.new and not definitions:
                waiting, self.waiting = self.waiting, []
                self.meet(waiting)
        return {it.place for it in self.items} | set(texts.values())
