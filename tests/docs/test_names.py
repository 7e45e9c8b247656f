#!/usr/bin/env python3
"""The tests of names.py: a small tree in which every name stands for something passes, and each edit of it that puts in a name of
nothing is reported, by one line."""
import sys
import tempfile
import unittest
from pathlib import Path

sys.dont_write_bytecode = True
import names

TREE = {
    "README.md": "# Small\n\nSee [rules](docs/RULES.md#frames), `low::count_ones`, `low/src`, `proofs/*.antt`, `crates/low/out/run` and `target/low`.\n",
    "docs/RULES.md": "# Rules\n\n## Frames\n\n1. One.\n2. Two.\n\n## Own table, wishes\n\n1. One ([here](../README.md)).\n",
    "docs/NOTES.md": "`low/one_more` is refused; `Cells.start` and those in `_elsewhere`; \"wishes: not minimal\"; RULES, Frames 2.\n",
    "crates/low/src/lib.rt": "// `count_ones` counts (RULES, Own table, wishes 1).\npub fn count_ones(run: &[u8]) -> usize {\n    0\n}\n",
    "crates/low/specs/Cells.antt": "-- Of `Cells`.\npub record Cells : Type 0 where\n  pub start : Unit\n  pub reset_elsewhere : Unit\n",
    "crates/low/proofs/Laws.antt": "-- A law of `Cells.start`.\nlaw : Unit\n",
    "crates/low/must-fail/one_more.edit": "# One more.\n",
    "tests/independent/src/lib.rs": 'const FAMILY: &str = "wishes: not minimal";\n',
    "bench/run": "# `low` is built.\ncc target/low crates/low/out/run\n",
    "docs/PORT.md": "`count_bits` was `count_ones`'s name, `specs/Tables.antt` was [rules](RULES.md#frames)'s.\n",
    "crates/low/out/made.antt": "-- `Made` by a check.\nmade : Unit\n",
}


def reported(edits):
    """What is reported of the tree with these edits: of a file, of what, by what."""
    with tempfile.TemporaryDirectory() as folder:
        for path, text in TREE.items():
            for file, old, new in edits:
                if file == path:
                    assert old in text, (file, old)
                    text = text.replace(old, new)
            (Path(folder) / path).parent.mkdir(parents=True, exist_ok=True)
            (Path(folder) / path).write_text(text)
        return names.Tree(Path(folder).resolve()).look()


class Names(unittest.TestCase):
    def refused(self, file, old, new, words):
        breaches = reported([(file, old, new)])
        self.assertEqual(len(breaches), 1, breaches)
        self.assertTrue(breaches[0].startswith(file + ":"), breaches)
        self.assertIn(words, breaches[0])

    def test_a_tree_in_which_all_names_stand_for_something(self):
        self.assertEqual(reported([]), [])

    def test_links(self):
        self.refused("README.md", "docs/RULES.md", "docs/RULE.md", "leads nowhere")
        self.refused("README.md", "#frames", "#flags", "leads nowhere")

    def test_paths(self):
        self.refused("README.md", "low/src", "high/src", "`high/src` is no path")
        self.refused("README.md", "proofs/*.antt", "proofs/*.rt", "is no path")
        self.refused("docs/NOTES.md", "low/one_more", "low/one_less", "`low/one_less` is no path")

    def test_a_page_of_names_that_were(self):
        self.refused("docs/PORT.md", "#frames", "#flags", "leads nowhere")
        self.refused("docs/NOTES.md", "Frames 2.", "Frames 2, `made`.", "made")

    def test_what_a_crate_declares(self):
        self.refused("README.md", "low::count_ones", "low::run", "is not in low")
        self.refused("docs/NOTES.md", "Cells.start", "Cells.law", "is no line of Cells")
        self.refused("crates/low/proofs/Laws.antt", "Cells.start", "Cells.law", "is no line of Cells")

    def test_words_of_the_code(self):
        self.refused("crates/low/src/lib.rt", "`count_ones`", "`count_bits`", "count_bits")
        self.refused("crates/low/specs/Cells.antt", "`Cells`", "`Rows`", "Rows")
        self.refused("bench/run", "`low`", "`high`", "high")
        self.refused("docs/NOTES.md", "_elsewhere", "_nowhere", "_nowhere")

    def test_a_comment_is_no_code(self):
        self.refused("crates/low/src/lib.rt", "`count_ones` counts", "`counts` counts", "counts")

    def test_rules(self):
        self.refused("docs/NOTES.md", "Frames 2", "Frames 3", "no rule: RULES, Frames 3")
        self.refused("crates/low/src/lib.rt", "Own table, wishes 1", "Wishes 1", "no heading")

    def test_families(self):
        self.refused("docs/NOTES.md", "not minimal", "not small", "no family of requests")


if __name__ == "__main__":
    unittest.main()
