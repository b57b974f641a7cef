"""What stands in a document: its blocks of code, its wide lines, its headings and its links."""
import os
import re
from collections import Counter
from sources import files, line_at, lines_of, read, wide_lines

FENCE = re.compile(r"\s*(`{3,}|~{3,})")
# an item of a list, up to where its text begins
ITEM = re.compile(r" *(?:[-*+]|\d+[.)]) +")
# code within a line or a paragraph
SPAN = re.compile(r"(?<!`)(`+)(?!`)(?:(?!\n\s*\n).)+?(?<!`)\1(?!`)", re.S)
HEADING = re.compile(r" {0,3}#{1,6} +(.*?)(?: +#+)? *")
# a link, and the place to which it leads: [..](PLACE), or [..]: PLACE on a line of its own
LINKED = re.compile(r"!?\[([^]]*)\]\([^)]*\)")
PLACE = re.compile(r"\]\(\s*([^\s()]*)[^()]*\)|^ {0,3}\[[^]\n]+\]:[ \t]*(\S+)", re.M)
ONE_LINK = re.compile(rf"\s*(?:{ITEM.pattern})?{LINKED.pattern}[^\w\s]*")
# what begins a link that leads out of the repository
SCHEME = re.compile(r"[A-Za-z][A-Za-z0-9+.-]*:")


def code_lines(text):
    """The numbers of the lines of a document that are a block of code: fenced, or indented after an empty line."""
    found, fence, room, may_begin = set(), "", 0, True
    for number, line in enumerate(lines_of(text), 1):
        indent, mark = len(line) - len(line.lstrip()), FENCE.match(line)
        if fence or mark:
            found.add(number)
            is_end = fence and mark and mark[1].startswith(fence) and line.strip() == mark[1]
            fence, may_begin = "" if is_end else fence or mark[1], True
        elif line.strip() and may_begin and indent >= room + 4:
            found.add(number)
        elif line.strip():
            # what is indented by as much as the text of an item belongs to the item
            item = ITEM.match(line)
            room = item.end() if item else room if indent >= room else 0
            may_begin = line.startswith("#")
        else:
            may_begin = True
    return found


def without_blocks(text):
    """A document with an empty line for each of its blocks of code."""
    coded = code_lines(text)
    return "\n".join("" if number in coded else line for number, line in enumerate(lines_of(text), 1))


def wide_text(text, columns):
    """The numbers of the lines with more columns that aren't code, a row of a table, or just one link."""
    coded, lines = code_lines(text), lines_of(text)
    return [number for number in wide_lines(text, columns)
            if number not in coded and not lines[number - 1].lstrip().startswith("|")
            and not ONE_LINK.fullmatch(lines[number - 1])]


def anchors(text):
    """The anchors of a document's headings, as GitHub makes them: of headings with the same words, the later ones get
    a number."""
    found, heard = set(), Counter()
    for heading in filter(None, map(HEADING.fullmatch, lines_of(without_blocks(text)))):
        words = re.sub(r"[^\w\- ]", "", LINKED.sub(r"\1", heading[1]).lower()).replace(" ", "-")
        found.add(f"{words}-{heard[words]}" if heard[words] else words)
        heard[words] += 1
    return found


def links(text):
    """The relative links of a document: the line of each, and the place to which it leads."""
    plain = SPAN.sub(lambda found: re.sub(r"[^\n]", " ", found[0]), without_blocks(text))
    places = [(line_at(plain, it.end()), it[1] if it[2] is None else it[2]) for it in PLACE.finditer(plain)]
    return [(line, place) for line, place in places if not SCHEME.match(place)]


def wrong_of_link(root, path, place):
    """What is wrong with a link of a document to this place, or None."""
    name, mark, anchor = place.partition("#")
    there = os.path.normpath(os.path.join(os.path.dirname(path), name)) if name else path
    if not place or there.startswith(("..", "/")) or not files(root, there, f"{there}/*"):
        return f"the link to '{place}' leads to no file"
    if mark and (not there.endswith(".md") or anchor not in anchors(read(root, there))):
        return f"the link to '{place}' leads to no heading of {there}"
    return None
