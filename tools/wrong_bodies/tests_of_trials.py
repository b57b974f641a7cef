"""Tests of wrong_bodies: what is tried of two small crates that the prover checks, and what is said of it."""
import os
import subprocess
import tempfile
import unittest
from records import Sums, all_edits, record, tenth
from samples import AGING, EDITS, ERRORS, RESTING, WEAKER, crew_of, ran, repository, write


class ByTheProver(unittest.TestCase):
    def test_verdicts(self):
        with tempfile.TemporaryDirectory() as root:
            repository(root)
            status, lines, said = ran(root, "--verbose")
        for name, (*_, verdict) in [*EDITS.items(), *ERRORS.items()]:
            self.assertTrue(said.get(f"low/{name}", "").startswith(f"low/{name}: {verdict}"), lines)
        self.assertIn("BAD EDIT", said["low/no_edit"])
        self.assertIn("refused", said["high/third_is_fourth"])
        self.assertEqual((status, lines[-1]), (1, "6 refused, 8 not"))
        # three edits of each of two functions make three rounds; then come those that are right, and one that an
        # answer alone refuses, in further rounds
        self.assertEqual(sum(line.startswith("low: a round of 2,") for line in lines), 4, lines)
        self.assertTrue(any(line.startswith("low: step_of_two alone:") for line in lines), lines)

    def test_an_aged_edit_that_passes(self):
        """It is found where all edits are tried, where the aged ones are, and where it is in the tenth that is."""
        with tempfile.TemporaryDirectory() as root:
            os.makedirs(f"{root}/tools/wrong_bodies")
            for file, text in {
                "crates.txt": "low:\n", "HANDLES": "Handles allowed: none.\n", "crates/low/src/lib.rt": AGING,
                "crates/low/specs/Lib.antt": "pub mod Words\n", "crates/low/specs/Words.antt": RESTING,
                "crates/low/wrong-bodies/lib.edits": "name: next_is_later\nold: number + 1\nnew: number + 2\n",
            }.items():
                write(f"{root}/{file}", text)
            found = [ran(root, "--record"), ran(root, "--recorded")]
            write(f"{root}/crates/low/specs/Words.antt", RESTING.replace(*WEAKER))
            found += [ran(root, *words) for words in ([], ["--aged"], ["--recorded"])]
            left = ran(root, "--recorded", "--minutes", "0")
        self.assertEqual([(status, lines[-1]) for status, lines, _ in found],
                         2 * [(0, "1 refused, 0 not")] + 3 * [(1, "0 refused, 1 not")])
        self.assertEqual([lines[0] for _, lines, _ in found if lines[0].startswith("1 edits")], [
            "1 edits: 1 fresh, 0 aged, 0 changed; 0 are tried, 0 of them aged",
            *2 * ["1 edits: 0 fresh, 1 aged, 0 changed; 1 are tried, 1 of them aged"]])
        # where there is no time for it, it is left, and said to be
        self.assertEqual((left[0], left[1][1:]), (0, ["1 aged edits have no verdict in time: left for another run",
                                                      "1 refused, 0 not"]))

    def test_over_what_rt_ci_proves(self):
        with tempfile.TemporaryDirectory() as root:
            repository(root)
            said = "rt: low proved\nrt: high NOT PROVED\n"
            _, before, _ = ran(root, "high", "--over-ci", said="rt: low NOT PROVED\n")
            subprocess.run(["git", "init", "-q"], cwd=root, check=True)
            subprocess.run(["rt", "ci"], cwd=root, stdout=subprocess.DEVNULL, check=False)
            status, lines, found = ran(root, "high", "--over-ci", said=said)
        self.assertEqual(before[-1], "0 refused, 1 not")
        self.assertIn("NOT TRIED", before[-2])
        self.assertEqual((status, lines[-1]), (0, "1 refused, 0 not"), lines)
        self.assertNotIn("low", found)


class Choosing(unittest.TestCase):
    def test_by_name_and_crate(self):
        with tempfile.TemporaryDirectory() as root:
            repository(root)
            for crates, only, wanted in [
                ([], "third", {"high": ["third_is_fourth"]}),
                (["low"], "is_", {"low": ["next_is_same", "next_is_later", "second_is_first"]}),
                (["high"], "next", {}),
                ([], "third,second_is", {"low": ["second_is_first"], "high": ["third_is_fourth"]}),
            ]:
                crew = crew_of(root, crates=crates, only=only)
                found = {name: [it.name for it in edits] for name, edits in crew.edits.items()}
                self.assertEqual((found, crew.others), (wanted, set()))

    def test_a_tenth(self):
        every = {(crate, str(number)) for crate in ("low", "high", "side") for number in range(40)}
        drawn = [tenth(str(tree), every) for tree in range(200)]
        # all of one crate, which has enough
        self.assertEqual({(len(it), len({crate for crate, _ in it})) for it in drawn}, {(12, 1)})
        # another one for another tree, so that in the end each has its turn
        self.assertEqual(frozenset().union(*drawn), every)
        self.assertEqual((drawn[0] == tenth("0", every), drawn[0] == drawn[1]), (True, False))
        # and of as many as it takes
        few = {(str(crate), str(number)) for crate in range(40) for number in range(2)}
        self.assertEqual({len({crate for crate, _ in tenth(str(tree), few)}) for tree in range(20)}, {4})
        self.assertEqual((tenth("", set()), tenth("", {("low", "1")})), (set(), {("low", "1")}))

    def test_which_aged_ones(self):
        """Of twelve aged edits the tenth, or all; never one whose contract changed for one of them."""
        named = "".join(f"name: next_{it}\nold: number + 1\nnew: number + {it}\n" for it in range(2, 14))
        with tempfile.TemporaryDirectory() as root:
            os.makedirs(f"{root}/tools/wrong_bodies")
            for file, text in {"crates.txt": "low:\n", "crates/low/src/lib.rt": AGING,
                               "crates/low/specs/Words.antt": RESTING,
                               "crates/low/wrong-bodies/lib.edits": named}.items():
                write(f"{root}/{file}", text)
            record(root, {("low", it.name): Sums(root, {"low": []}).of("low", it) for it in all_edits(root, "low")[0]})
            tried = []
            for file, old, new in [
                ("specs/Words.antt", *WEAKER), ("specs/Words.antt", "IsAbove m n\n", "IsAbove n m\n"),
                ("src/lib.rt", "number < 2 ^ 32", "number < 2 ^ 31"),
            ]:
                with open(f"{root}/crates/low/{file}", encoding="utf-8") as source:
                    text = source.read()
                write(f"{root}/crates/low/{file}", text.replace(old, new))
                for words in ({"recorded": True}, {"aged": True}):
                    tried.append(len(crew_of(root, **words).edits["low"]))
        self.assertEqual(tried, [2, 12, 12, 12, 12, 12])
