"""Facts that one document tells, and the others link to: how each is told, and where."""
import re
from documents import LINKED, without_blocks

LIMITS, MEANINGS = "docs/guide/OPERATING.md", "docs/guide/OPERATING.md"
# a fact, what tells it, with a blank for each stretch of white space, and the document that does
FACTS = (
    ("how much a batch of a scan has", r"\b64 pairs\b", "docs/design/EXECUTION.md"),
    ("the most bytes of a text", r"\b4,000,000\b", LIMITS),
    ("the last number of an index", r"\b65,535\b", LIMITS),
    ("the most bytes of a transaction", r"\b10,000,000\b", LIMITS),
    ("what a name is", r"\b1 to 32 of\b", LIMITS),
    ("the size of a filter", r"levels of a filter \| 32|\b32 levels\b|\bat most 256 nodes\b", LIMITS),
    ("how often a reader tries", r"\b1,000 attempts\b", LIMITS),
    ("the most entries of a commit log", r"2\^60", LIMITS),
    ("what `SortNotServed` means", r"neither the primary key nor", MEANINGS),
    ("what `NotBuilt` means", r"not every position of the index|`NotBuilt`[^|]{0,9} where", MEANINGS),
)


def plain(text):
    """A document without its blocks of code and its links, with a blank for each stretch of white space."""
    return re.sub(r"\s+", " ", LINKED.sub(" ", without_blocks(text)))


def told_twice(documents):
    """The facts that a document tells though it isn't theirs, or that no document tells: the document, and which."""
    texts = {path: plain(text) for path, text in documents.items()}
    for what, told, home in FACTS:
        here = {path for path, text in texts.items() if re.search(told, text)}
        yield from ((path, f"{what} is told in {home}: link to it") for path in sorted(here - {home}))
        if home in texts and home not in here:
            yield home, f"{what} isn't told here any more"
