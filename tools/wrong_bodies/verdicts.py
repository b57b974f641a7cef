"""What the lines of a check say of the functions that edits changed."""
import os
import re
from enum import Enum
from bodies import is_goal_of, is_proof_of

# a proof file that names what the edit took away
STALE = re.compile(r"has no field|\(nearest: |is not in scope|has no `|was not admitted|were not checked")
# how such a line names what isn't there
MISSING = re.compile(r"`([^`]+)` is not in scope")
NOTE = re.compile(r"note: (?:\./)?(\S+?):(\d+):\d+: (?:it is not proved|`search` found no proof)")
# how such a note names its goal
GOAL = re.compile(r"\(`([^`]+)`\)")
# a function without a file of answers: the goals that a search left open, also one that gave up at its limits
OPEN = re.compile(r"fn \S+: no proof: expected answers in (?:\./)?proofs/(\S+)/[^/\s]+\.antt; "
                  r"`search` did not prove (.*)")
ANSWER = re.compile(r"(?:\./)?(proofs/(\S+)/[^/\s]+\.antt):\d+:\d+: error(?:: `((?:decreases-|invariant-)?)([^`]+)`)?")
ERROR = re.compile(r"\S+:\d+:\d+: error")


class Verdict(Enum):
    """What a check says of an edit."""

    # a goal of the function is open: its contract refuses the body; or the compiler refuses it with the error named
    REFUSED = "refused"
    # only answers in the function's proof don't fit any more, which may be the answer's fault: it is tried without them
    UNFIT = "refused by a term of a proof alone, which says nothing of the contract"
    # refused only because a proof file names what the edit took away, which says little of the contract
    WEAK = "refused only because a proof file names what it took away: change a value, and keep the names"
    # nothing is said of the function, or only that it calls one that isn't proved; alone this is 'still proved'
    UNTOLD = "NOT REFUSED: the crate is still proved"
    # the check of the edit alone says nothing of the contract: it ended too early, or fails without a word on the edit
    SILENT = "NOT REFUSED: its check ended without a verdict"
    # the edit must be refused before any proof, and isn't
    COMPILED = "NOT REFUSED: it compiles"
    # the edit can't be read or applied, or the edited text doesn't reach the prover
    UNREAD = "BAD EDIT"
    # its crate isn't proved without any edit, or one below it
    UNTRIED = "NOT TRIED: its crate isn't proved as it stands, or one below it"


def joined(lines):
    """The lines of a check, each with those that go on with what it says, which begin with two blanks."""
    found = []
    for line in lines:
        if line.startswith("  ") and found:
            found[-1] += " " + line.strip()
        else:
            found.append(line)
    return found


def answers_in(lines):
    """The answers of which these lines say that they don't fit: the file of each, and the goal that it answers."""
    found = (it for it in map(ANSWER.match, lines) if it and it[4])
    return frozenset((it[1], it[3] + it[4]) for it in found if os.path.basename(it[1]) == "Answers.antt")


def goals_in(line):
    """The open goals that a line names."""
    left, one = OPEN.match(line), GOAL.search(line)
    return re.findall(r"`([^`]+)`", left[2]) if left else [one[1]] if one else []


def speaks_of(body, line):
    """Whether a line says that this function isn't proved, for a reason of its own."""
    note, left = NOTE.match(line), OPEN.match(line)
    if note:
        return note[1] == body.file and body.first <= int(note[2]) <= body.last
    if left:
        return is_proof_of(body, left[1]) and any(is_goal_of(body, left[1], goal) for goal in goals_in(line))
    answer = ANSWER.match(line)
    return bool(answer) and is_proof_of(body, answer[2]) and is_goal_of(body, answer[2], answer[4] or "")


def is_stale(line, aside):
    """Whether a line says that a proof file names what the edit took away, and not an answer that is set aside."""
    missing = MISSING.search(line)
    return bool(STALE.search(line)) and not (missing and missing[1] in {goal for _, goal in aside})


def verdict_of_lines(told, aside):
    """What lines on an edited function say of the edit, and the goals that are open, or else the line that says it.

    Only an open goal says something of the contract. An answer that doesn't fit says that this term proves it no more;
    so it is with an answer that uses one of those that are set aside.
    """
    open_goals = [line for line in told if NOTE.match(line) or OPEN.match(line)]
    if open_goals:
        return Verdict.REFUSED, ", ".join(dict.fromkeys(goal for line in open_goals for goal in goals_in(line)))
    unfit = next((line for line in told if not is_stale(line, aside)), None)
    if unfit:
        return Verdict.UNFIT, unfit
    return (Verdict.WEAK, told[0]) if told else (Verdict.UNTOLD, "")


def verdict_of(bodies, lines, aside=frozenset()):
    """What the lines of a check say of an edit that changed these bodies, and the lines that say so.

    Aside are the answers that were set aside for the check, each by its file and its goal.
    """
    told = [line for line in joined(lines) if any(speaks_of(body, line) for body in bodies)]
    return *verdict_of_lines(told, aside), answers_in(told)


def reached_prover(lines):
    """Whether a check got as far as the proofs."""
    return any(re.match(r"logic=|only=\d+ proved=|rattle: no verdict", line) for line in lines)


def verdict_of_error(error, lines):
    """What a check says of an edit that the compiler must refuse with this error, and the line that says so."""
    told = next((line for line in lines if f"error[{error}]" in line), None)
    if told:
        return Verdict.REFUSED, told, frozenset()
    if reached_prover(lines):
        return Verdict.COMPILED, "", frozenset()
    return Verdict.UNREAD, next((line for line in lines if "error" in line), ""), frozenset()


def verdict_alone(status, lines, aside=frozenset()):
    """What a check of a crate with one edit says of it, the line that says so, and the answers that don't fit."""
    if status == 0:
        return Verdict.UNTOLD, "", frozenset()
    if not any(re.match(r"logic=not-proved|only=\d+ proved=", line) for line in lines):
        return Verdict.SILENT, next((line for line in reversed(lines) if line), f"status {status}"), frozenset()
    told = [line for line in joined(lines) if NOTE.match(line) or OPEN.match(line) or ERROR.match(line)]
    if not told:
        return Verdict.SILENT, next((line for line in lines if "error" in line), f"status {status}"), frozenset()
    return *verdict_of_lines(told, aside), answers_in(told)
