"""Tests of house_rules: how sources are read."""
import unittest
from sources import bodies, data, is_documented, public_items, wide_lines


class Reading(unittest.TestCase):
    def test_bodies(self):
        text = 'fn one() { say("}"); }\ntrait Of {\n    fn none(&self);\n'
        text += "    fn two()\n        where A: B\n    {\n    }\n}\n"
        text += "fn three()\n    requires { a } ensures b { c {\n} };\nfn four()\n    ensures { a }\n{ '{' }\n"
        self.assertEqual(list(bodies(text)), [("one", 1, 1), ("two", 4, 2), ("four", 12, 1)])

    def test_data(self):
        text = 'static ROWS: [u8; 2] = [\n    1,\n];\nlet x = r#"a;"b"#; // "c"\n'
        self.assertEqual([text[begin:end] for begin, end in data(text)],
                         ["static ROWS: [u8; 2] = [\n    1,\n]", 'r#"a;"b"#'])
        self.assertEqual(list(wide_lines("aa\naaa\naaaa", 2)), [2, 3])
        self.assertEqual(list(wide_lines("aa\naaa\naaaa", 2, [(5, 6)])), [3])

    def test_items(self):
        text = "/// One.\npub enum One {}\n// pub fn no() {}\nimpl A for B {\n    pub fn of() {}\n}\npub use a::b;\n"
        self.assertEqual(list(public_items(text)), [("enum", "One", 2, True)])
        self.assertFalse(is_documented(["/// One.", "", "#[derive(Clone)]", ""], 3))
        self.assertTrue(is_documented(["/// One.", "#[derive(Clone)]", "#[other]", ""], 3))
