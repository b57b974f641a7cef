"""Tests of house_rules: small repositories, over which each rule passes and fails."""
import os
import re
import subprocess
import sys
import tempfile
import unittest
from defined import definitions_in
from rules import DRAWING, RULES, SPECS, drawing, used_by
from reading_lists import NAMES as NAMING, is_about
from samples import write
from seen import Needs
from sources import files
from tests_of_documents import Documents
from tests_of_sources import Reading

__all__ = ["Command", "Documents", "Drawing", "Lists", "Promises", "Reading", "Rules"]

HERE = os.path.dirname(os.path.abspath(__file__))
SOURCE, SPEC, PROOF = "crates/low/src/lib.rt", "crates/low/specs/Low.antt", "crates/low/proofs/Low.antt"
SHOWN, EDITED = "crates/low/src/shown.rt", "crates/low/src/edited.rt"
LOW, GUIDE, EXAMPLES = "crates/low/README.md", "docs/guide/GUIDE.md", "examples/README.md"
HIGH, SERVING = "crates/high/specs/High.antt", "definitions say whom they serve"
LAYOUT = "sources are laid out"
CONTRACT, HEADLINE = "crates/schedule/specs/Headline.antt", "docs/proof/HEADLINE.md"
RIGHTLY, EXACTLY = "crates/schedule/specs/Right.antt", "crates/schedule/specs/Exact.antt"
# in two parts, so that these tests break no rule themselves
PUBLISHED, LABEL = "pa" + "per", "D" + "12"
CRATES = "# each crate\nlow:\n"
EDIT, KNOWN = "crates/low/wrong-bodies/edited.edits", "tools/house_rules/known.txt"
SIX = "".join(f"    n{it};\n" for it in range(6))
RUN = "-- Private: a run\npub IsHeadline : ℕ → Type 0\nIsHeadline n = n ≡ n\n"
# a run that rests on the headline's definition too, which its list doesn't repeat
RIGHT_RUN = """use Rattle.schedule.specs.Headline.{IsHeadline}

-- Private: a run
pub IsRightRun : ℕ → Type 0
IsRightRun n = IsHeadline n
"""
EXACT_RUN = "-- Private: a run\npub IsExactRun : ℕ → Type 0\nIsExactRun n = n ≡ n\n"
LISTED = """# The promise

### To believe the headline, read

It rests on the definitions in these 1 files, about 100 lines in all.

| | Files | What they say |
|---|---|---|
| 1 | `schedule`: `Headline` 5 | what a run is |

### To believe what is right, read

Besides, these 1 files, about 100 lines.

| 1 | `schedule`: `Right` 5 | what a run is |

### To believe what is exact, read

Besides, these 1 files, about 100 lines.

| 1 | `schedule`: `Exact` 5 | what a run is |

## More

| 2 | `low`: `Low` 5 | the next number |
"""

RIGHT = {
    "README.md": "# A store\n\nIt is small.\n\n```rust\n    n + 1\n```\n",
    "crates.txt": CRATES,
    DRAWING: drawing(CRATES),
    LOW: "# low\n\n[Its crates](../../crates.txt), and [itself](#low).\n",
    SOURCE: "/// The next number.\npub fn next(n: u64) -> u64\n    ensures { result ≡ n + 1 }\n{\n    n + 1\n}\n",
    SHOWN: "// Shown.\nfn shown(n: u64) -> u64\n    ensures { result ≡ n + 1 }\n{\n    n + 1\n}\n",
    SPEC: "-- Private: the next number\nabbrev pub next : ℕ → ℕ\nnext n = n + 1\n",
    CONTRACT: RUN,
    RIGHTLY: RIGHT_RUN,
    EXACTLY: EXACT_RUN,
    HEADLINE: LISTED,
    NAMING: "| run | what a run is | `schedule/Headline`, `schedule/Right`, `schedule/Exact` |\n",
    PROOF: f"-- {'a wide line of a proof, ' * 10}as it is\n",
    "tools/one.py": '"""A tool."""\n',
    EDITED: "// Edited.\nfn edited(n: u64) -> u64 {\n    n + 3\n}\n",
    EDIT: "name: one\nold: n + 3\nnew: n\n",
}


def lines(count, word="a"):
    """So many lines of which none repeats another."""
    return "".join(f"        {word}({it});\n" for it in range(count))


# For each rule, texts that break it, by the file that has them in the place of the right ones; None is no file.
WRONG = {
    "README.md is short": [("README.md", "line\n" * 81), ("README.md", "a" * 101 + "\n")],
    "the code of documents stands": [
        ("README.md", "```rust\nn + 1\n```\n"), ("README.md", "```rust\n    n + 1\n\n    n + 2\n```\n"),
        *[("docs/guide/TOUR.md", f"```{kind}\nn + 1\n```\n") for kind in ("rust", "antt", "json", "text")],
    ],
    "files are short": [(path, "\n" * 401) for path in (SOURCE, SPEC, PROOF, "tools/one.py")],
    "bodies are short": [(SOURCE, f"fn long()\n    ensures {{ a }}\n{{\n{lines(39)}}}\n")],
    "lines are narrow": [
        (SOURCE, f"// {'é' * 118}\n"), (SPEC, f"-- {'é' * 118}\n"), ("tools/one.py", f'"""{"a" * 118}"""\n'),
        (SOURCE, f'static TABLE: [u8; 2] = [1, 2];\nfn say() {{ print("{"a" * 60}"); print({"a" * 60}, "b") }}\n'),
    ],
    "public items are documented": [
        (SOURCE, "#[derive(Clone)]\npub struct Low;\n"), (SOURCE, "/// A type.\npub struct Low {\n}\npub fn a() {}\n"),
        (SOURCE, "// A trait.\npub trait Low {}\n"), (SOURCE, "/// Of low.\nimpl Low {\n    pub const fn a() {}\n}\n"),
    ],
    "crates have a README.md": [(LOW, None)],
    "crates are drawn": [
        (DRAWING, None), (DRAWING, "<svg/>\n"), (DRAWING, drawing("high:\n")),
    ],
    "files are introduced": [("crates/low/src/two.rt", "fn two() {}\n"), ("crates/low/src/two.rt", "")],
    "wrong bodies apply": [
        (EDIT, "name: one\nold: n + 2\nnew: n\n"), (EDIT, "name: one\nold: n\nnew: m\n"),
        (EDIT, "name: one\nold: n + 3\n"), (EDIT, "name: one\nfile: src/two.rt\nold: n\nnew: m\n"),
        (EDIT, "old: n + 3\nnew: n\n"), (EDIT, 2 * "name: one\nold: n + 3\nnew: n\n"),
        ("crates/low/must-fail/one.edit", "file: src/edited.rt\nold: n + 3\nnew: n\n"),
    ],
    "nothing surprises": [
        (KNOWN, "# what stands\nhome next high low\n"), (HIGH, "-- Private: one\npub next : ℕ\n"),
        (HIGH, "-- Private: one\nmodule _ (n : ℕ) where\n  abbrev pub next : ℕ\n  next = n\n"),
        (SPEC, SIX + "-- between\n" + SIX), (PROOF, f"{SIX}mod Other\n{SIX}"),
        (SHOWN, "// Shown.\nfn shown()\n    ensures { " + "a" * 90 + " }\n{}\n"),
        (SHOWN, "// Shown.\n/// " + "a" * 97 + "\nfn shown() {}\n"),
    ],
    "nothing is cited": [
        ("README.md", f"As the {PUBLISHED} has it.\n"), (SOURCE, f"// as in {LABEL}\n"), (PROOF, f"-- {LABEL}\n"),
        ("crates/low/must-fail/other.edit", f"file: src/edited.rt\nold: {{\nnew: {{ // the {PUBLISHED}\n"),
    ],
    SERVING: [
        (SPEC, "-- the next number\nabbrev pub next : ℕ → ℕ\nnext n = n + 1\n"), (SPEC, "pub next : ℕ\n"),
        (SPEC, "-- Low.\n\n-- Private: one\n\npub one : ℕ\n"),
        (SPEC, "-- Low.\n\n-- Private: one\npub one : ℕ\n\n-- two\n-- Private: too\npub two : ℕ\n"),
        (SOURCE, "ghost use Rattle.low.specs.Low.{next};\n/// A.\npub fn a() -> u64\n    ensures { next 0 }\n{ 1 }\n"),
    ],
    "lists have what is needed": [
        *[(HEADLINE, LISTED.replace(old, new)) for old, new in (
            ("believe the", "know the"), ("| 1 |", "| |"), ("| `sch", "| of `sch"), ("`Headline` 5", "of `Headline` 5"),
            ("`Headline` 5", "`Headline` 10"), ("`Headline` 5", "`Headline` 4"), ("`Headline` 5", "`Headline`"),
            ("`Headline` 5", "`Headline` 5, `Other` 5"), ("`Headline` 5", "`Headline` 5; `low`: `Low` 5"),
            ("`Right` 5", "`Right` 5, `Headline` 5"), ("`Right` 5", "`Headline` 5"), ("`Exact` 5", "`Exact` 10"),
            ("1 files", "2 files"), ("100 lines", "200 lines"), ("100 lines", "50 lines"), ("these ", ""))],
        (HEADLINE, None), (NAMING, None), (CONTRACT, None), (CONTRACT, RUN + "\n-- Private: more\npub more : ℕ\n"),
        (CONTRACT, RUN.replace("Head", "Foot")),
        (CONTRACT, RUN + "".join(f"IsHeadline {it} = 0 ≡ {it}\n" for it in range(8))),
        (CONTRACT, "use Rattle.low.specs.Low.{next}\n\n" + RUN.replace("≡ n", "≡ next n")),
    ],
    "documents are narrow": [
        (LOW, "a" * 101 + "\n"), (GUIDE, f"- {'é' * 99}\n"), (EXAMPLES, f"```\n```\na\n    {'a' * 97}\n"),
        (GUIDE, f"# {'a ' * 50}\n\n- a\n\n    {'a' * 97}\n"), (GUIDE, f"[a](#a)\nand [{'a' * 91}](#a)\n# A\n"),
    ],
    "links lead somewhere": [
        ("README.md", "[a](docs)\n[b](b.md)\n"), (LOW, "[low](../low/README.md#lower)\n# low\n"),
        (GUIDE, "[`low`](../crates/low/README.md)\n"), (EXAMPLES, "# a\n\n[a\n](#A)\n"), (GUIDE, "[low]: low.md\n"),
    ],
    "facts are told once": [
        (GUIDE, "It reads 64\npairs at once.\n"), ("docs/guide/OPERATING.md", "# Limits\n"),
        (EXAMPLES, "`4,000,000` bytes\n"), ("docs/design/EXECUTION.md", "Batches.\n"),
    ],
    LAYOUT: [
        (SHOWN, "// Shown.\nfn shown( ) {}\n"), (SHOWN, "// Shown.\nfn shown( {\n"), (PROOF, "-- low \n"),
        (SPEC, "-- Private: the next number\nabbrev pub next : ℕ  → ℕ\nnext n = n + 1\n"),
    ],
}

# Texts that break none, in the same manner.
ALSO_RIGHT = [
    ("README.md", "a" * 100 + "\n" + "line\n" * 79),
    ("README.md", "```rust\n{\n    n + 1\n}\n\n    ensures { result ≡ n + 1 }\n```\n\n    n + 2\n"),
    ("docs/guide/TOUR.md", "```antt\nnext n = n + 1\n```\n\n```python\nn + 1\n```\n"),
    (SOURCE, "\n" * 400),
    (SOURCE, f"fn short()\n    ensures {{\n{lines(50)}    }}\n{{\n{lines(38, 'b')}}}\n"),
    (SOURCE, f'// {"é" * 117}\nfn say() {{ print("{"a" * 120}") }}\n'),
    (SOURCE, f'static TABLE: [(u8, &str); 1] = [\n    (1, "a", {"1 + " * 40} 1),\n];\n'),
    (SOURCE, "/// A type.\n#[derive(Clone)]\npub struct Low;\nimpl Next for Low {\n    pub fn next() {}\n}\n"),
    (SOURCE, "/// A type.\npub struct Low;\nimpl Low {\n    pub(crate) fn a() {}\n}\npub use low::a;\n"),
    (SHOWN, "// Shown.\nfn shown()\n    ensures { " + "a" * 84 + " }\n{\n    f(" + "a" * 100 + ")\n}\n"),
    (SPEC, SIX + "-- between\n" + SIX.replace("3", "9")),
    (KNOWN, "# nothing\n"),
    (HIGH, "-- Private: one\npub record High : Type 0 where\n  pub next : ℕ\n"),
    (SPEC, "-- Low.\nuse Rattle.std.specs.Prelude.{ℕ}\n\n-- Private: one that\n-- is next\npub one : ℕ\n"),
    (SPEC, "-- Private: these.\nuse Rattle.std.specs.Prelude.{ℕ}\n\npub one : ℕ\n\n-- two\npub two : ℕ\n"),
    (EDIT, "name: one\nbug: it is n\nold: n + 3\nnew: n + 2\nfile: src/edited.rt\nold: n + 2\nnew: n\n"),
    (SOURCE, f"const {LABEL}: u64 = 1;\n// a wallpa" + "pers' T\n"),
    (CONTRACT, RUN + "IsHeadline m =\n    -- none\n\n    m ≡ 0\n"), (CONTRACT, RUN.replace("pub", "\npub")),
    (HEADLINE, LISTED.replace("these 1 files, about", "these\n1 files, about")),
    (LOW, "é" * 100 + f"\n\n| {'a' * 100} |\n\n    {'a' * 97}\n- a\n\n  ```\n  {'a' * 99}\n  ```\n"),
    (GUIDE, f"# A\n\n[{'a ' * 50}](#a)\n- [`{'a' * 90}`](../../crates/low/README.md).\n"),
    ("docs/design/EXECUTION.md", "64 pairs\n"), (LOW, "64 pairs\n"),
    (GUIDE, "```\n64 pairs\n```\n[64 pairs](GUIDE.md)\n"),
    (EXAMPLES, "[a](../docs/proof), `[b](c)`\n\n    [d](e)\n\n[f](https://f), [g](../tools/one.py)\n"),
]


# the texts that break a rule, or just don't, aren't laid out
OF_TEXT = [it for it in RULES if it != LAYOUT]


def introduced(path, text):
    """A text with a comment at its begin, where it is one of Rattle that has other lines than comments."""
    if path != SOURCE or text is None or text.startswith("//"):
        return text
    return f"//{text}" if text.startswith("\n") else f"// Low.\n{text}"


def broken(changes=(), rules=tuple(RULES)):
    """Which of these rules a repository breaks that has these texts in the place of the right ones."""
    changes = [(path, introduced(path, text)) for path, text in changes]
    with tempfile.TemporaryDirectory() as root:
        for path, text in {**RIGHT, **dict(changes)}.items():
            if text is not None:
                write(root, path, text)
        return [name for name in rules if RULES[name](root)[1]]


class Rules(unittest.TestCase):
    def test_each_passes(self):
        self.assertEqual(broken(), [])
        for change in ALSO_RIGHT:
            self.assertEqual(broken([change], OF_TEXT), [], change)

    def test_each_fails(self):
        self.assertEqual(list(WRONG), list(RULES))
        for name, changes in WRONG.items():
            for change in changes:
                self.assertEqual(broken([change], RULES if name == LAYOUT else OF_TEXT), [name], change)

    def test_what_is_built_is_left_out(self):
        self.assertEqual(broken([("crates/low/src/out/all.rt", "\n" * 401)], OF_TEXT), [])


# a definition for each kind of clause that names one
NAMES = "shown own bare seen shape kept opened coded law rule apart of_type again above called".split()
NAMED = "".join(f"-- it\npub {it} : ℕ\n\n" for it in NAMES)
SAID = """// Said.
ghost use Rattle.low.specs.Low.{shown, own, bare, seen, shape, kept, opened, coded, law, rule, apart, of_type, again};
ghost use Rattle.low.specs.Low.{called};
pub fn shown() ensures { shown } { own() }
fn own() requires { own } {}
pub fn bare() ensures { bare } {}
pub extern "C" fn called() ensures { called } {}
pub struct Low { a: u64 }
pub struct Open {
    pub a: u64,
}
struct Inner { a: u64 }
impl Model for Low {
    ghost Value = { seen };
    ghost coded = { coded };
    ghost view = { shape };
    ghost invariant = { kept };
}
impl Model for Open {
    ghost view = { λ a. a };
    ghost invariant = { opened };
}
impl Eq for Low { ghost law = { law }; }
pub trait Rule { fn one() ensures { rule }; }
trait Apart { fn one() ensures { apart }; }
impl Rule for Inner { ghost law = { of_type }; }
impl Low {
    pub fn again() ensures { again } {}
    fn own() ensures { own } {}
}
"""


class Promises(unittest.TestCase):
    def private(self, changes):
        """The names of the definitions to which no promise leads, where none is said to be private."""
        with tempfile.TemporaryDirectory() as root:
            for path, text in changes.items():
                write(root, path, text)
            return re.findall(r"`(\S+)` serves none", " ".join(what for _, what in RULES[SERVING](root)[1]))

    def test_what_is_handed_out(self):
        files = {"crates.txt": CRATES, SPEC: NAMED, SHOWN: SAID}
        self.assertEqual(self.private({**files, SOURCE: "// None.\n"}), NAMES)
        files[SOURCE] = "pub use shown::{\n    Low, Open, Rule as R,\n};\npub use shown::shown as told;\n"
        self.assertEqual(self.private(files), ["own", "bare", "kept", "coded", "apart", "of_type", "above", "called"])
        # a program hands out all that is public; a crate above names a definition by that of its file
        files["crates/low/src/main.rt"] = "// Main.\nfn main() {}\n"
        self.assertEqual(self.private(files), ["own", "kept", "coded", "apart", "of_type", "above"])
        named = "// Main.\nghost use Rattle.low.specs.Low as low;\nfn main() ensures { low.above (own low) } {}\n"
        files |= {"crates.txt": "low:\nhigh: low\n", "crates/high/src/main.rt": named}
        self.assertEqual(self.private(files), ["own", "kept", "coded", "apart", "of_type"])

    def test_what_definitions_name(self):
        said = "ghost use Rattle.low.specs.Low.{NAME};\npub fn a() ensures { NAME } {}\n"
        spec = "use Rattle.low.specs.Other.{far}\n\n-- it\npub near : ℕ\nnear = far 1\n\n-- it\npub alone : ℕ\n"
        other = "-- it\npub far : ℕ → ℕ\n\n-- it\npub farther : ℕ\n"
        files = {"crates.txt": CRATES, SPEC: spec, SPEC.replace("Low.", "Other."): other}
        for name, private in (("near", ["alone", "farther"]), ("alone", ["near", "far", "farther"]),
                              ("far", ["near", "alone", "farther"])):
            self.assertEqual(self.private({**files, SOURCE: said.replace("NAME", name)}), private, name)

    def test_definitions(self):
        text = "-- file\nuse A.{b}\n\n-- one\n-- more\nabbrev pub one : ℕ → ℕ\none 0 = 1\none n =\n    n\n\n"
        text += "two : ℕ\ntwo = 2\n\n-- pair\npub record Pair : Type 0 where\n  pub left : ℕ\n\n"
        text += "mutual\n  -- trees\n  pub data Tree : Type 0 where\n    leaf : Tree\n    fork : Trees → Tree\n\n"
        text += "  pub data Trees : Type 0 where\n    none : Trees\n\nmodule _ (n : ℕ)\n    (m : ℕ) where\n  -- in\n"
        text += "  abbrev mutual\n    pub odd : ℕ → Bool\n    odd k = even n\n\n    pub even : ℕ → Bool\n\n"
        text += "infixl 10 ◌+◌\n-- sum\npub ◌+◌ : ℕ\n(a) + b = c\n"
        found = definitions_in(text)
        self.assertEqual([(it.line, it.names, it.comment) for it in found], [
            (6, ["one"], ["-- one", "-- more"]), (11, ["two"], []), (15, ["Pair"], ["-- pair"]),
            (18, ["Tree", "leaf", "fork", "Trees", "none"], ["-- trees"]), (30, ["odd", "even"], ["-- in"]),
            (38, ["◌+◌"], ["-- sum"])])
        self.assertEqual([it.size for it in found], [6, 2, 3, 7, 5, 3])
        self.assertEqual(found[0].text, "abbrev pub one : ℕ → ℕ\none 0 = 1\none n =\n    n\n")
        self.assertTrue(found[4].text.startswith("module _ (n : ℕ)\n    (m : ℕ) where\n  abbrev mutual\n"))
        self.assertEqual(found[5].text, "pub ◌+◌ : ℕ\n(a) + b = c\n")


class Lists(unittest.TestCase):
    def test_what_is_needed(self):
        far = "use low::{Low, Open as Wide};\nuse low::Ghost as G;\npub enum Far { One(Wide), Two { g: G } }\n"
        run = "use Rattle.LINE\n\npub IsRightRun : NAMED → Type 0\n"
        texts = {
            "crates.txt": "low:\nschedule: low\n", SPEC: NAMED, SHOWN: SAID, "crates/schedule/src/lib.rt": far,
            "crates/low/src/any.rt": "use crate::shown::Low;\nstruct Any { low: Vec<Low> }\n",
        }
        for line, named, wanted in (
            ("low.specs.Low.{above}", "above", ["above"]), ("low.specs.Low as low", "low.above", ["above"]),
            # what a model says to all of a type whose fields aren't public
            ("low.specs.declared.shown.Low.{Low}", "Low", ["seen", "shape"]),
            ("low.specs.declared.shown.Low.{Low as Deep}", "Deep", ["seen", "shape"]),
            ("low.specs.declared.shown.Low.TheVariants as low", "low.One", ["seen", "shape"]),
            ("low.specs.declared.shown.Low.{Low}", "ℕ", []), ("low.specs.declared.shown.TheConstants.{ONE}", "ONE", []),
            ("low.specs.declared.shown.Open.{Open}", "Open", ["opened"]),
            # fields of a type without a model, public or not; another crate's type by another name
            ("low.specs.declared.any.Any.{Any}", "Any", ["seen", "shape"]),
            ("schedule.specs.declared.Far.{Far}", "Far", ["opened"]),
        ):
            with tempfile.TemporaryDirectory() as root:
                for path, text in {**texts, CONTRACT: run.replace("LINE", line).replace("NAMED", named)}.items():
                    write(root, path, text)
                needs = Needs(root, files(root, SPECS))
                found = needs.of([("schedule", "specs/Headline.antt", "IsRightRun")])
            names = [needs.specifications.definition(it).names[0] for it in sorted(found)]
            self.assertEqual(names, [*wanted, "IsRightRun"], (line, named))

    def test_numbers_of_lines(self):
        for told, counted, step, wanted in (
            (5, 1, 5, True), (10, 5, 5, True), (10, 4, 5, False), (12, 12, 5, False), (100, 91, 5, True),
            (100, 90, 5, False), (100, 112, 5, False), (3600, 3582, 100, True), (3600, 4001, 100, False),
        ):
            self.assertEqual(is_about(told, counted, step), wanted, (told, counted))


class Command(unittest.TestCase):
    def ran(self, root, *words):
        done = subprocess.run(
            [sys.executable, HERE, *words], cwd=root, capture_output=True, text=True, check=False)
        return done.returncode, done.stdout.rstrip("\n").split("\n")

    def test_what_is_printed(self):
        with tempfile.TemporaryDirectory() as root:
            for path, text in RIGHT.items():
                write(root, path, text)
            self.assertEqual(self.ran(root)[0], 0)
            self.assertEqual(self.ran(root)[1][-1], f"{len(RULES)} passed, 0 failed")
            write(root, "crates.txt", "low:\nhigh:\n")
            status, lines = self.ran(root, "--only", "README")
            self.assertEqual((status, lines), (1, [
                "crates/high/README.md: isn't there", "passed: README.md is short: 0 of 1",
                "FAILED: crates have a README.md: 1 of 2", "1 passed, 1 failed"]))

    def test_nothing_to_look_at(self):
        with tempfile.TemporaryDirectory() as root:
            write(root, "crates.txt", "")
            status, lines = self.ran(root)
            # crates.txt itself is a file that may cite
            self.assertEqual((status, lines[-1]), (1, f"1 passed, {len(RULES) - 1} failed"))


class Drawing(unittest.TestCase):
    def test_what_is_drawn(self):
        text = "# lowest first\nlow: kit\nmiddle: low\nhigh: middle low kit\nalone:\n"
        self.assertEqual(used_by(text), {"low": [], "middle": ["low"], "high": ["middle", "low"], "alone": []})
        drawn = drawing(text)
        names = ("low", "middle", "high", "alone", "kit")
        self.assertEqual([drawn.count(f">{name}<") for name in names], [1, 1, 1, 1, 0])
        # the line from high to low is told by way of middle
        self.assertEqual(drawn.count("<path"), 2)
        self.assertEqual(drawing("low:\nhigh: low\n").count("<path"), 1)

    def test_long_lines_turn(self):
        drawn = drawing("low:\nother:\nmiddle: low\nhigh: middle\ntop: high other\nbeside: middle other\n")
        self.assertIn("v28", drawn)
        self.assertEqual(drawing(""), drawing("# nothing\n"))


if __name__ == "__main__":
    unittest.main()
