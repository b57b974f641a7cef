"""Edits of a crate: how they are written, what they change, and which can be tried at once."""
import os
import re
from bodies import bodies_in, innermost, innermost_function, is_proof_of

PARTS = ("src", "specs", "proofs")
# the folders of a crate that hold edits
FOLDERS = ("wrong-bodies", "must-fail")
# what begins the line of an edit that names the error with which the compiler must refuse it
ERROR = "error: "
# why the second edit of a name is none
TWICE = "another edit of this crate has its name"
# where an answer to a goal of a function begins in its file of answers
ANSWER = re.compile(r"(?:pub |abbrev |unfolding |unfoldable )*([^\s:]+) :")
# what a file of answers imports of the branches of a goal
BRANCHES = re.compile(r"(use \S+\.Goals\.)\{([^}]*)\}$")


class BadEdit(Exception):
    """Why an edit can't be read or applied."""


class Edit:
    """A change of a crate's text: pairs of a text that stands once in a file and the text in its place.

    Beside its pairs it has answers that are set aside: files of answers, each with the goals whose answers go. Where it
    names an error, the compiler must refuse it with that, before any proof.
    """

    def __init__(self, name, pairs, aside=frozenset(), error=None):
        self.name, self.pairs, self.aside, self.error = name, pairs, aside, error

    def without(self, answers):
        """The same edit with these answers set aside too."""
        return Edit(self.name, self.pairs, self.aside | answers, self.error)

    def written(self):
        """What the edit is, as a text: its pairs, and the error that it names, if it does."""
        return repr((self.error, self.pairs) if self.error else self.pairs)

    def applied(self, texts):
        """The texts of a crate, by file, after the edit."""
        after = dict(texts)
        for file, old, new in self.pairs:
            found = after.get(file, "").count(old)
            if found != 1:
                raise BadEdit(f"an 'old:' text stands in {file} {found} times, and not once")
            after[file] = after[file].replace(old, new)
        return set_aside(self.aside, after)

    def bodies(self, texts):
        """The bodies that the edit changes, or None where it changes anything else than these and their own proofs.

        It is None too for one that the compiler must refuse, which is tried alone so.
        What only adds a text changes the function into which it is put, as where a clause that ends a function's head
        gets a body behind it, and the right body another head.
        """
        changed, proofs = set(), set()
        if self.error:
            return None
        for file, old, new in self.pairs:
            if file.startswith("proofs/"):
                proofs.add(os.path.dirname(file).removeprefix("proofs/"))
                continue
            begin, found = texts[file].find(old), bodies_in(file, texts[file])
            end = begin + len(old)
            inside = innermost_function(found, end) if new.startswith(old) else innermost(found, begin, end)
            if texts[file].count(old) != 1 or inside is None:
                return None
            changed.add(inside)
        is_own = all(any(is_proof_of(body, folder) for body in changed) for folder in proofs)
        return frozenset(changed) if changed and is_own else None


def pairs_in(lines, file=None):
    """The pairs of an edit that these lines write, which begin in this file."""
    pairs, old = [], None
    for line in lines:
        if line.startswith("file: "):
            file = line[len("file: "):].strip()
        elif line.startswith("old: "):
            old = line[len("old: "):]
        elif line.startswith("new:"):
            if file is None or old is None:
                raise BadEdit("a line 'new:' stands before its lines 'file:' and 'old:'")
            pairs.append((file, old, line[len("new:"):].removeprefix(" ")))
            old = None
        elif line.strip() and not line.startswith(("bug: ", ERROR)):
            raise BadEdit(f"it has a line that is none of 'bug:', 'error:', 'file:', 'old:' and 'new:': {line[:60]}")
    if not pairs or old is not None:
        raise BadEdit("it has no pair of lines 'old:' and 'new:', or half of one")
    return pairs


def error_in(lines):
    """The error that these lines of an edit name, if they do."""
    return next((line.removeprefix(ERROR).strip() for line in lines if line.startswith(ERROR)), None)


def written_in(path):
    """The edits that a file writes, each as its name and its lines, and the source that they change unless they say so.

    A file NAME.edit is one edit. In SOURCE.edits each begins with a line 'name: NAME', and changes src/SOURCE.rt.
    """
    stem, kind = os.path.splitext(os.path.basename(path))
    with open(path, encoding="utf-8") as source:
        lines = source.read().split("\n")
    if kind == ".edit":
        return [(stem, lines)], None
    starts = [at for at, line in enumerate(lines) if line.startswith("name: ")]
    found = [(lines[at].removeprefix("name: ").strip(), lines[at + 1:end])
             for at, end in zip(starts, [*starts[1:], len(lines)])]
    if any(line.strip() for line in lines[:starts[0] if starts else len(lines)]):
        found.insert(0, (stem, lines[:1]))
    return found, f"src/{stem}.rt"


def edits_in(folder):
    """The edits of a folder by name, and why what else its files write is none."""
    edits, bad = {}, []
    for file in sorted(os.listdir(folder)) if os.path.isdir(folder) else []:
        try:
            written, source = written_in(os.path.join(folder, file))
        except UnicodeDecodeError as why:
            bad.append((file, str(why)))
            continue
        for name, lines in written:
            try:
                pairs = pairs_in(lines, source)
                if name in edits:
                    raise BadEdit(TWICE)
                edits[name] = Edit(name, pairs, error=error_in(lines))
            except BadEdit as why:
                bad.append((name, str(why)))
    return list(edits.values()), bad


def texts_of(folder):
    """The texts of a crate's sources, specifications and proofs, by their paths in its folder."""
    texts = {}
    for part in PARTS:
        for at, _, files in os.walk(os.path.join(folder, part)):
            for name in files:
                path = os.path.join(at, name)
                with open(path, encoding="utf-8") as source:
                    texts[os.path.relpath(path, folder)] = source.read()
    return texts


def without_branches(lines):
    """The lines of a file of answers, of which none imports a branch of a goal that no other line names."""
    plain = "\n".join(it for it in lines if not BRANCHES.match(it))
    for line in lines:
        found = BRANCHES.match(line)
        named = [it for it in found[2].split(", ") if it in plain] if found else []
        if not found or named:
            yield f"{found[1]}{{{', '.join(named)}}}" if found else line


def set_aside(answers, texts):
    """The texts of a crate without these answers, each a file and a goal that is answered there."""
    after = dict(texts)
    for file in {file for file, _ in answers}:
        goals, is_kept, kept = {goal for it, goal in answers if it == file}, True, []
        for line in after[file].split("\n"):
            begun = ANSWER.match(line)
            is_kept = begun[1] not in goals if begun else is_kept
            if is_kept:
                kept.append(line)
        after[file] = "\n".join(without_branches(kept))
    return after


def all_applied(edits, texts):
    """The texts of a crate after edits of different bodies, of which none sees what another one wrote."""
    places = {}
    for file, old, new in (pair for edit in edits for pair in edit.pairs):
        places.setdefault(file, []).append((texts[file].index(old), old, new))
    after = dict(texts)
    for file, changes in places.items():
        for begin, old, new in sorted(changes, reverse=True):
            after[file] = after[file][:begin] + new + after[file][begin + len(old):]
    return set_aside(frozenset().union(*(it.aside for it in edits)), after)


def dealt(edits, bodies):
    """The edits in rounds, so that no function has two edits in one round: `bodies` gives what each edit changes."""
    rounds = []
    for edit in edits:
        room = next((it for it in rounds if not it[1] & bodies[edit]), None)
        if room is None:
            room = ([], set())
            rounds.append(room)
        room[0].append(edit)
        room[1].update(bodies[edit])
    return [them for them, _ in rounds]
