"""What is counted of the files of a repository: words with two homes, repeats, and wide lines of clauses."""
import re
from collections import defaultdict
from itertools import combinations
from sources import blanked, closing, lines_of

REPEATED_LINES, CLAUSE_COLUMNS = 6, 100
# a definition of a specification, at the begin of a line or in a module with parameters; fields of records are none
DEFINITION = re.compile(r"^(?:abbrev pub|pub|unfoldable pub| +abbrev pub)(?: (?:record|data))? ([^\s:({]+)", re.M)
NO_DEFINITIONS = {"mod", "use"}
# what a line of an import, a module or a comment begins with
UNCOUNTED = re.compile(r"//|--|(?:pub(?:\([a-z]+\))? )?(?:ghost )?(?:use|mod)\b|#!?\[")
CLAUSE = re.compile(r"\b(?:requires|ensures\*?|ghost)\b[^{}();=]*=? *\{")


def definitions(text):
    """The names that a specification defines."""
    return {it for it in DEFINITION.findall(text) if it not in NO_DEFINITIONS}


def words_with_two_homes(specs):
    """The words that specifications of several crates define, each with its crates; `specs` gives (crate, text)."""
    homes = defaultdict(set)
    for crate, text in specs:
        for word in definitions(text):
            homes[word].add(crate)
    return {word: sorted(crates) for word, crates in homes.items() if len(crates) > 1}


def counted_lines(text):
    """The lines of a text that may repeat others, stripped, without comments, imports and empty ones."""
    stripped = (line.strip() for line in lines_of(text))
    return [line for line in stripped if line and not UNCOUNTED.match(line)]


def repeats(texts):
    """How many stretches of lines two files share, by their names: each of six lines or more, and as long as can be."""
    lines = {name: counted_lines(text) for name, text in texts.items()}
    places = defaultdict(list)
    for name, them in lines.items():
        for at in range(len(them) - REPEATED_LINES + 1):
            places[tuple(them[at:at + REPEATED_LINES])].append((name, at))
    found = defaultdict(int)
    for alike in places.values():
        for (one, here), (other, there) in combinations(alike, 2):
            begins = here == 0 or there == 0 or lines[one][here - 1] != lines[other][there - 1]
            found[tuple(sorted((one, other)))] += begins
    return {pair: count for pair, count in found.items() if count}


def clause_spans(text):
    """Where the clauses of a text of Rattle stand, from their word to their closing brace."""
    plain = blanked(text)
    return [(it.start(), closing(plain, it.end() - 1)) for it in CLAUSE.finditer(plain)]


def wide_clause_lines(text):
    """How many lines of clauses and of doc comments have more columns than a clause should."""
    spans, at, count = clause_spans(text), 0, 0
    for line in lines_of(text):
        is_told = line.lstrip().startswith(("///", "//!"))
        inside = is_told or any(begin < at + len(line) and at < end for begin, end in spans)
        count += inside and len(line) > CLAUSE_COLUMNS
        at += len(line) + 1
    return count
