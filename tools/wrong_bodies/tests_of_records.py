"""Tests of wrong_bodies: the record of edits that were refused, and on what it rests."""
import os
import tempfile
import unittest
from records import Grade, Sum, Sums, all_edits, record, recorded, row, rows_in
from samples import EDITS, ERRORS, LOW, NAMED, TOLD, TYPES, WORDS, crew_of, repository, write

# A further source of high, whose function names types of low.
NAMING = """use low::{Modelled as Other, Seen};

pub fn third(number: u64, seen: &Seen, other: &Other) -> u64
    ensures { result ≡ number + 3 }
{
    low::second(number) + 1
}
"""

CRATES = {"low": [], "high": ["low"]}


def sums_of(root):
    """The sums of the edits of both crates, by their names."""
    sums = Sums(root, CRATES)
    return {it.name: sums.of(crate, it) for crate in CRATES for it in all_edits(root, crate)[0]}


class Recording(unittest.TestCase):
    def test_what_a_record_rests_on(self):
        files = {
            "crates/low/src/lib.rt": f"{LOW}\npub use types::{{Modelled, Seen}};\n",
            "crates/low/src/told.rt": TOLD,
            "crates/low/src/types.rt": TYPES,
            "crates/low/specs/Words.antt": WORDS,
            "crates/low/specs/Deep.antt": "abbrev pub deep : ℕ\ndeep = 1\n\nabbrev pub flat : ℕ\nflat = 2\n",
            "crates/low/specs/Whole.antt": "module _ (n : ℕ) where\n  abbrev pub whole : ℕ\n  whole = n\n",
            "crates/low/specs/Others.antt": "",
            "crates/low/proofs/Lib.antt": "",
            "crates/low/proofs/next/Answers.antt": "",
            "crates/low/wrong-bodies/lib.edits": NAMED,
            "crates/high/src/lib.rt": NAMING,
        }
        # an edit of each function, and one of a constant, which rests on all of its crate
        first, second, third, whole_crate = "next_is_same", "second_is_first", "third_is_fourth", "step_of_two"
        low, told, open_to_high = {whole_crate}, {whole_crate, second, third}, {whole_crate, third}
        lib, told_file, types, words, deep, whole_file, others, proofs, answers, edit, high = files
        near = {
            (lib, "number < 2 ^ 32"): {first, whole_crate}, (lib, "number < 2 ^ 31"): {second, whole_crate},
            (answers, ""): {first, whole_crate}, (edit, "- 1"): {first}, (high, "third"): {third},
            (high, "Modelled as Other"): {third}, (high, "seen: &Seen"): {third},
        }
        with tempfile.TemporaryDirectory() as root:
            repository(root)
            for file, text in files.items():
                write(f"{root}/{file}", text)
            before = sums_of(root)
            for file, old, new, changed in [
                (lib, "number < 2 ^ 32", "number < 2 ^ 30", low | {first, second}),
                (lib, "number < 2 ^ 31", "number < 2 ^ 30", told),
                (lib, "const STEP: u64 = 1", "const STEP: u64 = 3", low | {first}),
                (lib, "\npub use", "\n// handed out\npub use", set()),
                (told_file, "    2\n", "    1 + 1\n", low),
                (told_file, "word result", "word result × word 2", told),
                (told_file, "other result", "other result × other 1", low),
                (told_file, "two numbers", "three", set()),
                (told_file, "    2\n", "\n    // two\n    2\n", set()),
                (told_file, "tactic(auto)", "cycle(first)", set()),
                (told_file, "pub fn second", "fn second", told),
                (told_file, "pub fn", "pub fn sixth() {}\n\npub fn", low),
                (told_file, "result ≡ self.now", "result ≡ 2", low),
                (told_file, "impl", "pub const TWO: u64 = 2;\n\nimpl", low),
                (types, "pub number: u64", "pub number: u32", open_to_high),
                (types, "#[derive(Drop)]\npub struct Seen", "#[derive(Debug, Drop)]\npub struct Seen", low),
                (types, "#[derive(Drop)]\npub struct Seen", "pub struct Seen", low),
                (types, "    count: u64", "    count: u32", low),
                (types, "    count: u64", "    pub count: u64", open_to_high),
                (types, "m.count }", "m.count + 1 }", low),
                (types, "m.count ≤ 8", "m.count ≤ 9", low),
                (types, "Value = { ℕ }", "Value = { ℤ }", open_to_high),
                (types, "inner: Inner", "inner: u64", low),
                (types, "-> u64 {\n        2", "-> u32 {\n        2", low),
                (types, "Inner(u64)", "Inner(u32)", low),
                (types, "number: u64,", "number: u64,\n    pub inner: Inner,", open_to_high),
                (types, "impl Hidden", "impl Hash for Seen { ghost same = { 1 }; }\n\nimpl Hidden", low),
                (types, "impl Hidden", "impl Clone for Seen { ghost same = { 1 }; }\n\nimpl Hidden", open_to_high),
                (words, "= deep", "= flat", told),
                (words, "inner : ℕ", "inner : ℤ", told),
                (words, "spare n = n", "spare n = 2", low),
                (words, "a word", "the word", set()),
                (deep, "= 1", "= 2", told),
                (deep, "= 2", "= 1", low),
                (whole_file, "= n", "= 1", told),
                (others, "", "-- told\n", set()),
                (others, "", "told\n", low),
                (proofs, "", "-- told\n", set()),
                (proofs, "", "mod Told\n", low),
                (answers, "", "mod Told\n", low | {first}),
                (edit, "- 1", "- 0", {first}),
                (high, "third", "fourth", {third}),
                (high, "Modelled as Other", "Seen as Other", {third}),
                (high, "seen: &Seen", "seen: &Other", {third}),
            ]:
                write(f"{root}/{file}", files[file].replace(old, new, 1))
                after = sums_of(root)
                asked = (first, second, third, whole_crate)
                found = {it for it in asked if after[it].whole != before[it].whole}
                self.assertEqual(found, changed, f"{file}: {old}")
                # where only that is near which changes a whole crate's own text, such edits alone are tried for it
                found = {it for it in asked if after[it].near != before[it].near}
                self.assertEqual(found, near.get((file, old), changed & low), f"near {file}: {old}")
                write(f"{root}/{file}", files[file])

    def test_what_is_near(self):
        """Near a function are the definitions that its contract names, wherever they stand, but not what these name."""
        changes = ("crates/low/specs/Words.antt", "= deep", "= flat"), ("crates/low/specs/Deep.antt", "1", "3")
        lib = LOW.replace("ensures { result ≡ number + 2 }", "ensures { word result }").replace(
            "ghost use", "ghost use Rattle.low.specs.Passed.{word};\nghost use", 1)
        with tempfile.TemporaryDirectory() as root:
            repository(root)
            for file, text in {
                "src/lib.rt": lib, "specs/Words.antt": WORDS,
                "specs/Passed.antt": "pub use Rattle.low.specs.Words.{word}\n",
                "specs/Deep.antt": "abbrev pub deep : ℕ\ndeep = 1\n\nabbrev pub flat : ℕ\nflat = 2\n",
            }.items():
                write(f"{root}/crates/low/{file}", text)
            before, found = sums_of(root)["second_is_first"], []
            for file, old, new in changes:
                with open(f"{root}/{file}", encoding="utf-8") as source:
                    text = source.read()
                write(f"{root}/{file}", text.replace(old, new, 1))
                found.append(sums_of(root)["second_is_first"].grade(before))
                write(f"{root}/{file}", text)
        self.assertEqual(found, [Grade.CHANGED, Grade.AGED])
        self.assertEqual([Sum("a", "b").grade(it) for it in (None, Sum("a", "b"), Sum("c", "b"), Sum("c", "d"))],
                         [Grade.CHANGED, Grade.FRESH, Grade.AGED, Grade.CHANGED])

    def test_the_record(self):
        with tempfile.TemporaryDirectory() as root:
            repository(root)
            os.makedirs(f"{root}/tools/wrong_bodies")
            sums, other = sums_of(root), Sum("0" * 32, "1" * 32)
            record(root, {("low", "next_is_same"): sums["next_is_same"], ("low", "gone"): other})
            record(root, {("high", "third_is_fourth"): sums["third_is_fourth"], ("low", "next_is_later"): other})
            self.assertEqual(sorted(recorded(root)), [
                ("high", "third_is_fourth"), ("low", "next_is_later"), ("low", "next_is_same")])
            crew = crew_of(root, recorded=True)
            # one of low's is recorded over other texts
            self.assertEqual((sorted(crew.edits), len(crew.edits["low"])), (["low"], len(EDITS) + len(ERRORS) - 1))
            self.assertEqual(crew.refused, {("low", "next_is_same"), ("high", "third_is_fourth")})
            # what was passed over isn't recorded again
            self.assertEqual(crew.rows(), {})
            line = row("high", "third_is_fourth", sums["third_is_fourth"])
            self.assertEqual(rows_in(f"low: a round of 2, 2 told\n> {line}: note: src/lib.rt\nlow/it: BAD EDIT\n"),
                             {("high", "third_is_fourth"): sums["third_is_fourth"].whole})
