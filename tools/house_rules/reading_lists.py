"""The lists of what to read that documents have, and what these lack or have too much.

A list stands under a heading, in a table, and lacks what the lists of its document before it have. A row begins with
its number, and then has files of definitions by their crates: `CRATE`: `FILE` LINES, of `FILE` LINES; .. and so on. A
file has `of` where only a part of its definitions is needed. Its lines are those of the ones that are needed, with
their comments, without empty lines. A file may stand in several rows, each with a part of it.
"""
import re
from collections import Counter
from dataclasses import dataclass
from seen import Needs
from sources import files, read

ROW = re.compile(r"^\| \d+ \| ([^|]*) \|", re.M)
CRATE, FILE = re.compile(r"`(\w+)`"), re.compile(r"(of )?`([\w/]+)` (\d+)")
# what is said of a list as a whole
WHOLE = re.compile(r"these\s(\d+)\sfiles,\sabout\s([\d,]+)\slines")
# to what numbers of lines are rounded: that of a file, and that of a list
FILE_STEP, LIST_STEP = 5, 100
# the document that names what each file defines
NAMES = "docs/proof/DEFINITIONS.md"


@dataclass
class ReadingList:
    """A list: its document, the heading under which it stands, and the definitions from which a reader goes on, by
    their crates, files and names."""

    document: str
    heading: str
    starts: list


HEADLINE = "docs/proof/HEADLINE.md"
LISTS = [
    ReadingList(HEADLINE, "To believe the headline, read", [("schedule", "specs/Headline.antt", "IsHeadline")]),
    ReadingList(HEADLINE, "To believe what is right, read", [("schedule", "specs/Right.antt", "IsRightRun")]),
    ReadingList(HEADLINE, "To believe what is exact, read", [("schedule", "specs/Exact.antt", "IsExactRun")]),
]


def text_of(root, path):
    """The text of a document, empty where it isn't there."""
    return "".join(read(root, it) for it in files(root, path))


def under(text, heading):
    """What stands under a heading of a document, up to the next one."""
    found = re.search(rf"^#+ {re.escape(heading)}\n(.*?)(?=^#|\Z)", text, re.M | re.S)
    return found[1] if found else ""


def listed_in(text):
    """What a list has: the file as `CRATE/FILE`, whether a part is needed, and the lines of each; and what is none."""
    listed, others = [], []
    for part in (it for row in ROW.findall(text) for it in row.split("; ")):
        crate, _, names = part.partition(": ")
        for name in names.split(", "):
            home, found = CRATE.fullmatch(crate), FILE.fullmatch(name)
            if home and found:
                listed.append((f"{home[1]}/{found[2]}", bool(found[1]), int(found[3])))
            else:
                others.append(f"{crate}: {name}")
    return listed, others


def is_about(told, counted, step):
    """Whether a number of lines is rounded to a step, and right to within that step or a tenth."""
    return told % step == 0 and abs(told - counted) <= max(step, counted / 10)


def sizes_of(specifications, places):
    """The files in which these places are, as `CRATE/FILE`: how many lines are needed of each, and whether it has
    others."""
    lines, found = Counter(), {}
    for place in places:
        lines[place[:2]] += specifications.definition(place).size
    for (crate, file), count in lines.items():
        all_lines = sum(it.size for it in specifications.files[crate, file].definitions)
        found[f"{crate}/{file.removeprefix('specs/').removesuffix('.antt')}"] = count, count < all_lines
    return found


def faults_of(text, sizes):
    """What is wrong with a list that should have files of these sizes."""
    listed, others = listed_in(text)
    faults, lines = [f"'{it}' isn't of the form" for it in others], Counter()
    for name, is_part, told in listed:
        lines[name] += told
        if name not in sizes:
            faults.append(f"has `{name}`, of which nothing is needed")
        elif is_part != sizes[name][1]:
            faults.append(f"has {'a part' if is_part else 'all'} of `{name}`, but {'all' if is_part else 'a part'} of "
                          "it is needed")
    for name, (counted, _) in sizes.items():
        if name not in lines:
            faults.append(f"lacks `{name}`, which is needed")
        elif not is_about(lines[name], counted, FILE_STEP):
            faults.append(f"has {lines[name]} lines of `{name}`, of which {counted} are needed")
    said, counted = WHOLE.search(text), sum(it for it, _ in sizes.values())
    if not said or int(said[1]) != len(sizes) or not is_about(int(said[2].replace(",", "")), counted, LIST_STEP):
        faults.append(f"doesn't say 'these {len(sizes)} files, about {counted} lines', rounded to {LIST_STEP}")
    return faults


def faults_in(root, paths):
    """How many files the lists of a repository should have, and the document and the kind of each fault."""
    needs, names, seen, faults, before = Needs(root, paths), text_of(root, NAMES), 0, [], {}
    for it in LISTS:
        text = under(text_of(root, it.document), it.heading)
        places, known = needs.of(it.starts), before.get(it.document, set())
        before[it.document] = known | places
        sizes = sizes_of(needs.specifications, places - known)
        seen += len(sizes)
        if text or sizes:
            faults += [(it.document, fault) for fault in sorted(faults_of(text, sizes))]
        faults += [(NAMES, f"doesn't name `{name}`, which a list has") for name in sizes if f"`{name}`" not in names]
    return seen, faults
