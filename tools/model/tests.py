"""Tests of the model: examples that were worked out by hand, the repository's own cases, and mistakes put into it."""
import functools
import itertools
import json
import os
import sys
import unittest

from comparing import Difference, difference, model_replies, shrunk
from examples import EXAMPLES, S
from filters import truth
from keys import AFTER, FIRST, JUST_AFTER, Cut, before_beginning, behind_beginning, element, elements, key, root
from mistakes import MISTAKES, made
from schemas import Type, schema_bytes, schema_of, with_field
from scripts import script_of
from splits import cut_of
from values import NUMBERS, STRINGS, TEXTS

HERE = os.path.dirname(os.path.abspath(__file__))
TOOLS, ROOT = os.path.dirname(HERE), os.path.dirname(os.path.dirname(HERE))
COUNT = 2000
# longer scripts of the repository take the model too long
LONGEST = 300_000
CELLS = [None, *STRINGS, *TEXTS, *NUMBERS]
# of a null, of 4 and of 5: whether a filter is true, false (0) or unknown (None)
TRUTHS = [
    (["=", "a", 5], (None, 0, 1)), (["!=", "a", 5], (None, 1, 0)), (["<", "a", 5], (None, 1, 0)),
    (["<=", "a", 5], (None, 1, 1)), ([">", "a", 4], (None, 0, 1)), ([">=", "a", 4], (None, 1, 1)),
    (["null", "a"], (1, 0, 0)), (["not", ["=", "a", 5]], (None, 1, 0)), (["not", ["null", "a"]], (0, 1, 1)),
    (["and"], (1, 1, 1)), (["or"], (0, 0, 0)), (["and", ["=", "a", 5], ["null", "a"]], (None, 0, 0)),
    (["or", ["=", "a", 5], ["null", "a"]], (1, 0, 1)), (["or", ["=", "a", 5], ["=", "a", 4]], (None, 1, 1)),
    (["and", ["=", "a", 5], ["or"]], (0, 0, 0)), (["not", ["and", ["=", "a", 4], ["=", "a", 4]]], (None, 0, 1)),
]
# what the schema S is written as
WRITTEN = "1501150114050515010274000505026b0015010005026100150100050262001501000005140000000500"
# and with a field c of whole numbers appended
WIDENED = ("1502150114050515010274000505026b00150100050261001501000502620015010005026300150100000514001503000005"
           "00")


def first(*cells):
    """The place of what store 1 has under these cells."""
    return root(1) + key(*cells)


# splits that spell no whole place, and between which places they stand
SPLITS = [
    ("15", None, first(0)), ("1501", None, first(0)), ("1501150500", first(5), first(5, 1)),
    ("15011501150116", first(1, 1, 255), first(1, 1, 256)), ("1501150115010261", first(1, 1, "Z"), first(1, 1, "a")),
    ("150115011501ff", first(1, 1, 2**63), first(1, 2)), ("15011501150112", first(1, 1, "z"), first(1, 1, -65535)),
    ("1501150115010b", first(1, 1, "z"), first(1, 1, -1)), ("02", None, first(0)), ("ff", root(65535) + AFTER, None),
    ("1501ff", first(6, 99, "z"), root(2)), ("1502", first(6, 99, "z"), root(2)), ("16", root(255) + AFTER, root(256)),
    ("1601", root(255) + AFTER, root(256)), ("16ff", root(65279) + AFTER, root(65280)),
]


class Places(unittest.TestCase):
    """Places and their bytes."""

    def test_places_are_in_the_order_of_their_bytes(self):
        ends = [FIRST, AFTER, JUST_AFTER]
        cuts = [key(2, 1, one, 1, other) + end for one, other in itertools.product(CELLS, [-256, 3]) for end in ends]
        cuts += [key(2, 1) + cut(it) for it in TEXTS + STRINGS for cut in (before_beginning, behind_beginning)]
        told = single(cuts)
        self.assertEqual(sorted(told, key=lambda it: it.order), sorted(told, key=lambda it: it.spelled))

    def test_a_split_is_read_as_the_place_that_it_spells(self):
        for cells in itertools.product(CELLS, [it for it in CELLS if it is not None]):
            for number in (1, 255, 256, 65535):
                place = root(number) + key(1, 1, *cells)
                self.assertEqual(cut_of(place.spelled).order, place.order)

    def test_splits_that_spell_no_whole_place(self):
        for raw, below, above in SPLITS:
            cut = cut_of(bytes.fromhex(raw)).order
            self.assertTrue((below is None or below.order < cut) and (above is None or cut <= above.order), raw)

    def test_spellings(self):
        for cell, wanted in [(None, "00"), (0, "14"), (-1, "13fe"), (255, "15ff"), (256, "160100"), (-255, "1300"),
                             (-256, "12feff"), (-5551212, "11ab4b93"), ("FÔO\0bar", "0246c3944f00ff62617200"),
                             (b"foo\0bar", "01666f6f00ff62617200"), (65535, "16ffff")]:
            self.assertEqual(element(cell).spelled.hex(), wanted)
        self.assertEqual(elements(()), Cut((), b""))
        self.assertEqual(schema_bytes(schema_of(S)).hex(), WRITTEN)
        self.assertEqual(schema_bytes(with_field(schema_of(S), "t", ["c", "int"])).hex(), WIDENED)


def single(cuts):
    """Places without those that stand at the same bytes as another: behind a text, and before those that it begins."""
    orders = {it.spelled: it.order for it in cuts}
    twice = {it.spelled for it in cuts if orders[it.spelled] != it.order}
    return list({it for it in cuts if it.spelled not in twice})


class Meaning(unittest.TestCase):
    """What is replied."""

    def test_truth(self):
        of = Type(1, "t", (("k", "int"), ("a", "int")), (0,), 2)
        for one, wanted in TRUTHS:
            self.assertEqual([truth(of, one, (1, it)) for it in (None, 4, 5)], list(wanted), one)

    def test_examples(self):
        for name, (config, pairs) in EXAMPLES.items():
            found = model_replies({"config": config, "steps": [step for step, _ in pairs]})
            told = [(step, wanted, reply) for (step, wanted), reply in zip(pairs, found) if wanted not in (None, reply)]
            self.assertEqual((told, len(found)), ([], len(pairs)), name)

    def test_cases_of_the_repository(self):
        sys.path.append(os.path.join(TOOLS, "program_tests"))
        from cases import cases_in, example_cases
        cases = cases_in(os.path.join(ROOT, "cases")) + example_cases(os.path.join(ROOT, "examples"))
        # (with an option `run` prints more than the replies)
        plain = [it for it in cases if it.words[0] == "run" and not any(word.startswith("--") for word in it.words)]
        scripts = [(it, it.given or text_in(it.words[1])) for it in plain if it.status == 0]
        for case, text in [it for it in scripts if len(it[1]) < LONGEST]:
            lines = [f"{number} {reply}" for number, reply in enumerate(model_replies(json.loads(text)), 1)]
            self.assertEqual(lines, case.output.decode().splitlines(), case.shows)


def text_in(path):
    with open(path, "rb") as file:
        return file.read()


def mistaken_replies(mistake, number):
    """The replies to a script of a model with a mistake."""
    script = script_of(1, number)
    with made(mistake):
        return model_replies(script)


class Comparing(unittest.TestCase):
    """How differences are found."""

    def test_differences(self):
        for one, other, wanted in [(["ok"], ["ok"], None), (["ok", "none"], ["ok", "x"], Difference(2, "none", "x")),
                                   (["ok"], ["ok", "x"], Difference(2, "", "x")), ([], ["x"], Difference(1, "", "x"))]:
            self.assertEqual(difference(one, other), wanted)

    def test_scripts_are_made_short(self):
        for steps, needed in [(9, {2}), (50, {0, 31, 49}), (1, {0}), (4, set())]:
            script = {"config": {}, "steps": list(range(steps))}
            found = shrunk(lambda it, needed=needed: needed <= set(it["steps"]), script)
            self.assertEqual(found, {"steps": sorted(needed)})

    def test_mistakes_are_found(self):
        right = functools.cache(lambda number: model_replies(script_of(1, number)))
        for mistake in MISTAKES:
            is_found = any(difference(right(it), mistaken_replies(mistake, it)) for it in range(COUNT))
            self.assertTrue(is_found, mistake.name)

    def test_the_model_keeps_its_own_laws(self):
        for number in range(200):
            self.assertFalse(any("law" in it for it in model_replies(script_of("laws", number))), number)


if __name__ == "__main__":
    unittest.main()
