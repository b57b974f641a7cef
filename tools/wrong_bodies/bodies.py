"""Where the bodies of functions stand in a file of Rattle."""
import re
from dataclasses import dataclass

FUNCTION = re.compile(r"\bfn\s+([A-Za-z_][A-Za-z0-9_]*)")
BLOCK = re.compile(r"\b(impl|trait)\b([^{};]*)\{")
CLAUSE = re.compile(r"\b(requires|ensures|ghost)\b[^{}]*$")
UNREAD = re.compile(
    r"//[^\n]*|/\*.*?\*/|b?r(#*)\".*?\"\1|b?\"(?:\\.|[^\"\\])*\"|b?'(?:\\[^\n]*?'|[^'\\\n]')", re.S
)


@dataclass(frozen=True)
class Body:
    """The body of a function: its file, the block it stands in, its name, first and last line (from 1), and the offsets
    at which its name, its body and what follows begin; and whether it is a trait's function.

    The block is named as a check names it: `Map` in `impl Map`, `MapClone` in `impl Clone for Map`, empty outside.
    """

    file: str
    block: str
    name: str
    first: int
    last: int
    head: int
    begin: int
    end: int
    of_trait: bool


def blanked(text):
    """The text with comments, texts and characters as blanks, so that its braces can be counted."""
    return UNREAD.sub(lambda found: re.sub(r"[^\n]", " ", found[0]), text)


def matching_brace(plain, begin):
    """The offset behind the brace that closes the one at begin, or the text's end."""
    depth = 0
    for at in range(begin, len(plain)):
        depth += (plain[at] == "{") - (plain[at] == "}")
        if depth == 0:
            return at + 1
    return len(plain)


def body_after(plain, at):
    """The begin and end of the body of a function whose name ends at this offset, or None where it has none."""
    since = at
    while at < len(plain) and plain[at] != ";":
        if plain[at] != "{":
            at += 1
            continue
        end = matching_brace(plain, at)
        # braces behind such a word are a clause's, not the body's
        if not CLAUSE.search(plain[since:at]):
            return at, end
        since = at = end
    return None


def plain_name(path):
    """The last word of a type's path, without its arguments: `Map` of `&mut maps::Map<K>`."""
    words = re.findall(r"[A-Za-z_][A-Za-z0-9_]*", re.sub(r"<.*", "", path.replace("mut ", ""), flags=re.S))
    return words[-1] if words else ""


def block_name(kind, head):
    """The name of an `impl` or `trait` block by what stands behind that word."""
    head = re.split(r"\bwhere\b", head)[0].strip()
    if kind == "trait":
        return plain_name(head.split(":")[0])
    while head.startswith("<"):
        depth = at = 0
        for at, letter in enumerate(head):
            depth += (letter == "<") - (letter == ">" and head[at - 1] != "-")
            if depth == 0:
                break
        head = head[at + 1:].strip()
    trait, made, owner = head.partition(" for ")
    return plain_name(owner) + plain_name(trait) if made else plain_name(head)


def blocks_in(plain):
    """The `impl` and `trait` blocks of a text: begin, end and name of each, and whether it is a trait or one's."""
    found = []
    for block in BLOCK.finditer(plain):
        begin = block.end() - 1
        of_trait = block[1] == "trait" or re.search(r"\bfor\b(?!<)", block[2]) is not None
        found.append((begin, matching_brace(plain, begin), block_name(block[1], block[2]), of_trait))
    return found


def bodies_in(file, text):
    """The bodies of the functions in a text, in the order of their names."""
    plain, found = blanked(text), []
    blocks = blocks_in(plain)
    for name in FUNCTION.finditer(plain):
        span = body_after(plain, name.end())
        if span:
            first, last = (1 + text.count("\n", 0, at) for at in (name.start(), span[1]))
            block = next((it[2:] for it in blocks if it[0] < span[0] and span[1] <= it[1]), ("", False))
            found.append(Body(file, block[0], name[1], first, last, name.start(), *span, block[1]))
    return found


def innermost(bodies, begin, end):
    """The innermost of the bodies that has all from begin to end, or None."""
    around = [it for it in bodies if it.begin <= begin and end <= it.end]
    return max(around, key=lambda it: it.begin, default=None)


def innermost_function(bodies, at):
    """The body of the innermost function whose head or body has this place, or None."""
    around = [it for it in bodies if it.head < at < it.end]
    return max(around, key=lambda it: it.head, default=None)


def module_of(body):
    """The module of a function's file, as the folders of proofs have it."""
    return [it for it in body.file.removeprefix("src/").removesuffix(".rt").split("/") if it not in ("lib", "main")]


def is_proof_of(body, folder):
    """Whether the proof of a function stands in this folder below proofs/."""
    *above, name = folder.split("/")
    # a method's proof stands below the module of its type, which may be another file's
    is_at_home = above[-1:] == [body.block] if body.block else above == module_of(body)
    if name.startswith("+"):
        # the functions of a cycle of calls have one proof, in a folder of such a name
        return is_at_home or above == module_of(body)
    return is_at_home and name == body.name


def is_goal_of(body, folder, goal):
    """Whether a goal of the proof in this folder is this function's.

    In the proof of a cycle of several functions the name of each goal begins with that of its function.
    """
    name = folder.split("/")[-1]
    if not name.startswith("+") or name == "+" + body.name:
        return True
    return goal == body.name or goal.startswith(body.name + "-")
