"""The definitions of a specification: the names, the text and the comment of each."""
import re
from dataclasses import dataclass

# what may stand before the name that a line defines
KEYWORDS = {"pub", "abbrev", "unfoldable", "mutual", "record", "data"}
# lines that define nothing
OTHERS = re.compile(r"(?:pub )?(?:use|mod)\b|infix|module\b")
PRIVATE = "-- Private: "


@dataclass
class Definition:
    """A definition, or several that name each other: its line (from 1), the names that it defines, its text with what
    is given to its module, the comment straight above it, or above the first of several, and how many lines it has
    with all comments, without empty ones."""

    line: int
    names: list
    text: str
    comment: list
    size: int = 0

    @property
    def is_told_private(self):
        """Whether its comment says that it serves private clauses alone."""
        return bool(self.comment) and self.comment[0].startswith(PRIVATE)


def indentation(line):
    """How many blanks a line begins with."""
    return len(line) - len(line.lstrip())


def begins(words):
    """Whether a line of these words begins a definition, where definitions may."""
    return words[0] in KEYWORDS or words[1:2] == [":"]


def defined_by(words):
    """The name that a line of these words defines."""
    return next((it for it in words if it not in KEYWORDS), None)


def definitions_in(text):
    """The definitions of a specification, in order; a module's with what is given to it."""
    found, comment, given, is_given, at = [], [], "", False, 0
    for number, line in enumerate(text.split("\n"), 1):
        words = line.split()
        if words and words[0].startswith("--"):
            comment.append(line.strip())
        elif words and not is_given and OTHERS.match(line):
            given, at = (line + "\n", 2) if words[0] == "module" else (given, at)
            is_given, comment = words[0] == "module" and words[-1] != "where", []
        elif words and is_given:
            given, is_given = given + line + "\n", words[-1] != "where"
        elif words:
            given, at = (given, at) if line.startswith(" " * at) else ("", 0)
            if indentation(line) == at and begins(words):
                found.append(Definition(number, [], given, comment))
            if found:
                note(found[-1], line, at, comment)
            comment = []
        else:
            comment = []
    return found


def note(definition, line, at, comment):
    """Adds a line to the definition that it belongs to, with the comment above it, and the names that it defines."""
    words, text = line.split(), definition.text
    definition.text += line + "\n"
    definition.size += 1 + len(comment)
    depth = indentation(line) - at
    if depth and words[0] != "pub" and words[1:2] != [":"]:
        return
    # several definitions stand two blanks further in, and the cases of data two more than their data
    is_several = re.search(r"^ *(?:abbrev )?mutual$", text, re.M)
    cases = re.findall(r"^( *)(?:pub )?data\b", text, re.M)
    is_case = cases and indentation(line) == len(cases[-1]) + 2
    if is_several and depth == 2 and not definition.names:
        definition.comment = definition.comment or comment
    if (depth == 0 and begins(words)) or (is_several and depth == 2 and begins(words)) or is_case:
        definition.names += [it for it in [defined_by(words)] if it and it not in definition.names]
