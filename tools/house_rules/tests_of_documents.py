"""Tests of house_rules: how documents are read."""
import tempfile
import unittest
from documents import anchors, code_lines, links, wide_text, wrong_of_link
from samples import write


class Documents(unittest.TestCase):
    def test_code(self):
        for text, coded in (
            ("a\n\n    b\n    c\n\n    d\ne\n", [3, 4, 6]), ("a\n    b\n", []), ("# a\n    b\n", [2]),
            ("```\na\n~~~\n``` b\n````\nc\n", [1, 2, 3, 4, 5]), ("~~~ a\nb\n", [1, 2]),
            # what goes on with an item of a list, and a block of code in it
            ("- a\n\n    b\n\n      c\nd\n\n    e\n", [5, 8]), ("1. a\n  - b\n\n       c\n\n        d\n", [6]),
        ):
            self.assertEqual(sorted(code_lines(text)), coded, text)

    def test_wide_text(self):
        for text in ("aaa bbb", "aa `bb` cc", "    aaaa", "- [a](b) c", "[a](b) [c](d)", "# aaaa", "aa | b", "é é é é"):
            self.assertEqual(wide_text(f"a\n{text}\n", 5), [2], text)
        for text in ("a b c", "| aaa | bbb |", "    a\n\n    aaaa", "[a](bcd)", "- [a `b`](c).", "2. ![a](b)", "ééééé"):
            self.assertEqual(wide_text(f"{text}\n", 5), [], text)

    def test_anchors(self):
        for text, found in (
            ("# One\n\nText\n### `two` of_it, (3) - it's\n", ["one", "two-of_it-3---its"]),
            ("# A [b c](d.md#e) ##\n", ["a-b-c"]), ("#a\n    # b\n```\n# c\n```\nd # e\n", []),
            ("# A\n## a\n# A!\n", ["a", "a-1", "a-2"]), ("# Größe\n", ["größe"]),
        ):
            self.assertEqual(sorted(anchors(text)), found, text)

    def test_links(self):
        for text, found in (
            ("[a](b.md), [c\nd](e.md#f)\n\n![g](h.svg)\n", [(1, "b.md"), (2, "e.md#f"), (4, "h.svg")]),
            ('[`a`](b "c")\n[d]: e.md\n[f]()\n', [(1, "b"), (2, "e.md"), (3, "")]),
            ("[a](https://b) [c](mailto:d@e)\n", []), ("`[a](b)` ``c`[d](e)``\n\n    [f](g)\n", []),
            ("`a [b](c)\n\n[d](e) f`\n", [(1, "c"), (3, "e")]),
        ):
            self.assertEqual(links(text), found, text)

    def test_where_links_lead(self):
        with tempfile.TemporaryDirectory() as root:
            for path, text in (("a.md", "# A\n"), ("b/c.md", "# C\n## D e\n"), ("b/out/f.md", ""), ("b/g.rt", "# G\n")):
                write(root, path, text)
            for place in ("../a.md", "../a.md#a", "c.md#d-e", "#d-e", "../b", "../b/c.md", "g.rt", ".."):
                self.assertIsNone(wrong_of_link(root, "b/c.md", place), place)
            for place in ("a.md", "../A.md", "", "../../a.md", f"{root}/a.md", "out/f.md", "../c"):
                self.assertIn("leads to no file", wrong_of_link(root, "b/c.md", place), place)
            for place in ("../a.md#d-e", "#a", "#D-e", "#", "g.rt#g", "../b#c"):
                self.assertIn("leads to no heading", wrong_of_link(root, "b/c.md", place), place)
