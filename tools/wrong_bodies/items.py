"""The items of a crate's sources, each with what it tells of itself: its text without comments, hints and bodies."""
import functools
import re
from dataclasses import dataclass
from bodies import UNREAD, blanked, body_after, matching_brace, plain_name

# what begins an item: hints and derivations, who may name it, its kind and its name
HEAD = re.compile(
    r"(?:#!?\[[^\]]*\]\s*)*(pub(?:\([a-z]+\))? )?(?:unsafe )?(?:extern\s+(?:\"[^\"]*\"\s+)?)?"
    r"(ghost use|ghost|struct|enum|trait|impl|fn|const|static|type|use|mod|macro_rules!)\s*(\w+)?")
# hints to the prover, and the tests' mark
HINT = re.compile(r"#!?\[(?:tactic|cycle|cfg)\b[^\]]*\]")
# derivations that say nothing of a value: without them a text isn't Rattle, but no more is proved
UNSEEN = re.compile(r"\b(?:Drop|Debug)\b,? ?")
# what is left of a list of derivations without them
LEFT_OPEN, LEFT_EMPTY = re.compile(r",\s*\)\]"), re.compile(r"#\[derive\(\)\]\n?")
# how a model sees fields, and what is true of them
INSIDE = ("view", "invariant")


@dataclass(frozen=True, eq=False)
class Item:
    """An item: the file it stands in, its kind, its name and its text, whether a crate above may name it, the trait of
    an `impl` and of its functions, and fields of a type or what a model says of them, which its own crate alone sees.

    The name of an `impl` is its type's, or that of a trait that it gives to each type. The functions in such blocks
    are items of their own, of the kind 'method', with the block's head.
    """

    file: str
    kind: str
    name: str
    text: str
    is_public: bool
    trait: str = ""
    inside: str = ""
    block: int = 0
    owner: str = ""


def words_in(text):
    """The words of a text, with what the prover's language allows in a name."""
    return frozenset(re.findall(r"[\w'-]+", text)) | frozenset(re.findall(r"\w+", text))


def spoken(text, cuts=()):
    """A text without these parts, its comments, and hints to the prover, a line a line."""
    marks = UNREAD.finditer(text)
    spans = [it.span() for it in marks if it[0].startswith("/")] + [it.span() for it in HINT.finditer(blanked(text))]
    kept, at = [], 0
    for begin, end in sorted([*spans, *cuts]):
        kept.append(text[at:max(at, begin)])
        at = max(at, end)
    lines = "".join([*kept, text[at:]]).split("\n")
    return "\n".join(line.strip() for line in lines if line.strip())


def without_unseen(text):
    """A type's text without the derivations that say nothing of a value."""
    return LEFT_EMPTY.sub("", LEFT_OPEN.sub(")]", UNSEEN.sub("", text)))


def end_of_statement(plain, at):
    """The offset behind the next semicolon that stands in no bracket."""
    depth = 0
    while at < len(plain) and (plain[at] != ";" or depth):
        depth += (plain[at] in "([{") - (plain[at] in ")]}")
        at += 1
    return min(at + 1, len(plain))


def span_of(plain, head):
    """The offsets at which the braces of an item open, or it ends without them, and behind its end."""
    kind = head[2]
    if kind == "fn":
        body = body_after(plain, head.end())
        return body or (end_of_statement(plain, head.end()),) * 2
    opening = re.compile(r"[{;]").search(plain, head.end())
    if kind in ("struct", "enum", "trait", "impl", "mod", "macro_rules!") and opening and opening[0] == "{":
        return opening.start(), matching_brace(plain, opening.start())
    return (end_of_statement(plain, head.end()),) * 2


def pieces_in(plain, begin, end):
    """The items between two offsets, each as its head, the offset of its braces, and its end."""
    while begin < end:
        head = HEAD.search(plain, begin, end)
        if not head:
            return
        opens, begin = span_of(plain, head)
        yield head, opens, begin


def owner_of(head):
    """The name under which an `impl` with this head stands, and its trait's."""
    parameters = re.match(r"impl\s*<(.*?)>\s", head)
    trait, is_traits, owner = re.sub(r"^impl\s*(?:<.*?>)?\s", "", head).partition(" for ")
    name, trait = plain_name((owner if is_traits else trait).split(" where ")[0]), plain_name(trait)
    is_any = is_traits and parameters and name in re.findall(r"\w+", parameters[1])
    return trait if is_any else name, trait if is_traits else ""


def block_items(file, text, plain, head, opens, end):
    """The items of a trait or an `impl`: its functions, and itself without them."""
    begin, own_head = head.start(), " ".join(plain[head.start(2):opens].split())
    name, trait = (head[3], head[3]) if head[2] == "trait" else owner_of(own_head)
    title, cuts, inside = spoken(text[begin:opens]), [], []
    for it, at, behind in pieces_in(plain, opens + 1, end - 1):
        if it[2] == "fn":
            told = f"{title}\n{spoken(text[it.start():at])}"
            yield Item(file, "method", it[3], told, bool(trait) or it[1] == "pub ", trait, "", begin, name)
        if it[2] == "ghost" and it[3] in INSIDE:
            inside.append(spoken(text[it.start():behind]))
        elif it[2] not in ("fn", "use", "ghost use"):
            continue
        cuts.append((it.start() - begin, behind - begin))
    yield Item(file, head[2], name, spoken(text[begin:end], cuts), True, trait, "\n".join(inside), begin)


def items_in(file, text):
    """The items of a source file."""
    plain, found = blanked(text), []
    for head, opens, end in pieces_in(plain, 0, len(plain)):
        kind, begin, is_public = head[2], head.start(), head[1] == "pub "
        if kind in ("trait", "impl"):
            found += block_items(file, text, plain, head, opens, end)
        elif kind == "fn":
            found.append(Item(file, kind, head[3], spoken(text[begin:opens]), is_public))
        elif kind in ("struct", "enum"):
            fields = spoken(text[opens:end])
            is_open = kind == "enum" or opens == end or bool(re.search(r"^pub ", fields, re.M))
            told = without_unseen(spoken(text[begin:end if is_open else opens]))
            found.append(Item(file, kind, head[3], told, is_public, "", "" if is_open else fields))
        elif kind not in ("use", "ghost use", "mod"):
            found.append(Item(file, kind, head[3] or "", spoken(text[begin:end]), is_public))
    return found
