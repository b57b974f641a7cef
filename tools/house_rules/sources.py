"""The files of a repository, and what stands in a file of Rattle: bodies, texts, tables, public items and comments."""
import glob
import os
import re

FUNCTION = re.compile(r"\bfn\s+([A-Za-z_][A-Za-z0-9_]*)")
OPENED = re.compile(r"[{;]")
CLAUSE = re.compile(r"\b(requires|ensures|ghost)\b[^{}]*$")
TEXT = r"b?r(#*)\".*?\"\1|b?\"(?:\\.|[^\"\\])*\""
UNREAD = re.compile(rf"//[^\n]*|/\*.*?\*/|{TEXT}|b?'(?:\\[^\n]*?'|[^'\\\n]')", re.S)
TABLE = re.compile(r"^[ \t]*(?:pub(?:\([a-z]+\))? )?static [A-Za-z_][A-Za-z0-9_]*:[^=]*=", re.M)
TRAIT_IMPL = re.compile(r"\bimpl\b[^{};]*\bfor\b[^{};]*\{")
ITEM = re.compile(
    r"^[ \t]*pub (?:unsafe |const |async )*(fn|struct|enum|trait|const) ([A-Za-z_][A-Za-z0-9_]*)", re.M
)
COMMENTS = {
    ".rt": re.compile(r"//[^\n]*"),
    ".antt": re.compile(r"--[^\n]*|\{-.*?-\}", re.S),
    ".py": re.compile(r"#[^\n]*|\"\"\".*?\"\"\"", re.S),
    ".md": re.compile(r".+", re.S),
}


def files(root, *patterns):
    """The files of a repository that fit one of these patterns, as paths from its top, without what was built."""
    found = {path for it in patterns for path in glob.glob(it, root_dir=root, recursive=True)}
    return sorted(it for it in found if os.path.isfile(os.path.join(root, it)) and "out" not in it.split("/"))


def read(root, path):
    """The text of a file."""
    with open(os.path.join(root, path), encoding="utf-8") as file:
        return file.read()


def lines_of(text):
    """The lines of a text, of which the last may want its end."""
    return text.removesuffix("\n").split("\n") if text else []


def line_at(text, at):
    """The number, from 1, of the line on which this place of a text stands."""
    return 1 + text.count("\n", 0, at)


def blanked(text):
    """A text of Rattle with comments, texts and characters as blanks, so that its braces can be counted."""
    return UNREAD.sub(lambda found: re.sub(r"[^\n]", " ", found[0]), text)


def closing(plain, begin):
    """The offset behind the brace that closes the one at begin, or the text's end."""
    depth = 0
    for brace in re.finditer(r"[{}]", plain[begin:]):
        depth += 1 if brace[0] == "{" else -1
        if depth == 0:
            return begin + brace.end()
    return len(plain)


def body_behind(plain, at):
    """The begin and end of the body of a function whose name ends at this place, or None where it has none."""
    since = at
    while (brace := OPENED.search(plain, at)) and brace[0] == "{":
        at = closing(plain, brace.start())
        # braces behind such a word are a clause's, not the body's
        if not CLAUSE.search(plain[since:brace.start()]):
            return brace.start(), at
        since = at
    return None


def bodies(text):
    """The bodies of the functions of a text of Rattle: the name, the first line and the number of lines of each."""
    plain = blanked(text)
    for name in FUNCTION.finditer(plain):
        span = body_behind(plain, name.end())
        if span:
            yield name[1], line_at(text, name.start()), 1 + text.count("\n", *span)


def data(text):
    """Where data stands in a text of Rattle: its texts, and the tables of its statics."""
    plain = blanked(text)
    tables = [(it.start(), plain.find(";", it.end())) for it in TABLE.finditer(plain)]
    texts = [it.span() for it in UNREAD.finditer(text) if re.match(r"b?r?#*\"", it[0])]
    return [(begin, end if end >= 0 else len(text)) for begin, end in tables + texts]


def wide_lines(text, columns, spans=()):
    """The numbers of the lines with more columns, whose first character too many stands in none of the spans."""
    at = 0
    for number, line in enumerate(lines_of(text), 1):
        over = at + columns
        if len(line) > columns and not any(begin <= over < end for begin, end in spans):
            yield number
        at += len(line) + 1


def public_items(text):
    """The public items of a text of Rattle: the kind, name and line of each, and whether a doc comment stands above.

    What stands in an `impl` of a trait is documented at the trait.
    """
    plain, lines = blanked(text), lines_of(text)
    inside = [(it.end() - 1, closing(plain, it.end() - 1)) for it in TRAIT_IMPL.finditer(plain)]
    for item in ITEM.finditer(plain):
        if not any(begin < item.start() < end for begin, end in inside):
            number = line_at(text, item.start(1))
            yield item[1], item[2], number, is_documented(lines, number - 1)


def is_documented(lines, number):
    """Whether a doc comment stands above the line of this number (from 0), with nothing but attributes between."""
    while number and lines[number - 1].lstrip().startswith("#["):
        number -= 1
    return number > 0 and lines[number - 1].lstrip().startswith("///")


def comments(path, text):
    """The comments of a file, and all of a document: the begin and the text of each."""
    kind = COMMENTS.get(os.path.splitext(path)[1])
    return [(it.start(), it[0]) for it in kind.finditer(text)] if kind else []
