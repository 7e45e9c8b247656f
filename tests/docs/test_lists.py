#!/usr/bin/env python3
"""The tests of lists.py: a small tree whose lists are right passes, and each edit of it is reported, by that line and no other."""
import sys
import tempfile
import unittest
from pathlib import Path

sys.dont_write_bytecode = True
import lists

TREE = {
    "crates.txt": "# Bottom up.\nlow:\nhigh: low io\nmeasure staticlib: high\nexample: high io\n",
    "crates/low/src/lib.rt": "// high::up is no call of it.\npub fn tell(run: &[u8]) -> u8 {\n    0\n}\n\nfn inner() {\n}\n",
    "crates/low/specs/Words.antt": "-- To be believed.\n\nword = 1\n",
    "crates/low/must-fail/other.edit": "# Another.\n",
    "crates/high/src/lib.rt": "ghost use Rattle.measure.{x};\nuse low::tell;\n\npub extern \"C\" fn up() {\n    tell(b\"\");\n}\n",
    "crates/high/proofs/Laws.antt": "law = 1\n",
    "crates/high/proofs/inside/up/Answers.antt": "answer\n\n",
    "crates/high/proofs/down/Invariants.antt": "invariant\n",
    "crates/measure/src/lib.rt": "pub fn measured() {\n    high::up();\n}\n",
    "crates/example/src/main.rt": "fn main() {\n    high::up();\n}\n",
    "crates/example/stdout": "up\ndown\n",
    "include/kamvezhor.h": "#define KAMVEZHOR_VERSION \"1.2.3\"\n",
    "README.md": """# Test

The header, version 1.2.3, and what is printed:

    up
    down

| you are | begin with |
|---|---|
| new | here |

```rust
fn main() {
    high::up();
}
```

| crate | layer | what it holds | called by |
|---|---|---|---|
| `low` | 1 | words | `high` |
| `high` | 2 | more | `measure`, `example` |
| `measure` | 3 | for bench | - |
| `example` | 3 | a program | - |
""",
    "docs/OPERATIONS.md": "| operation | in |\n|---|---|\n| `low::tell` | a run |\n\n| operation | in |\n|---|---|\n| `high::up` | - |\n",
    "docs/CHECK.md": """| crate | check | code | definitions | laws | function proofs | must-fail edits |
|---|---|---|---|---|---|---|
| `low` | 1 s | 6 | 2 | 0 | 0 | 1 |
| `high` | 2 s | 5 | 0 | 1 | 2 | 0 |
| `measure` | 3 s | 3 | 0 | 0 | 0 | 0 |
| `example` | 4 s | 3 | 0 | 0 | 0 | 0 |
| all | | 17 | 2 | 1 | 2 | 1 |
""",
}

# The file, what is replaced in it and by what, and the lines that are due.
EDITS = [
    ("crates/low/src/lib.rt", "fn inner", "pub fn outer", ["docs/OPERATIONS.md lacks low::outer"]),
    ("crates/low/src/lib.rt", "fn inner() {\n}\n", "pub enum Kind {}\nimpl Kind {\n    pub fn number(self) {}\n    fn inner(self) {}\n}\nimpl From<u8> for Kind {\n    fn from(_: u8) {}\n}\n",
     ["docs/OPERATIONS.md lacks low::Kind::from", "docs/OPERATIONS.md lacks low::Kind::number",
      "docs/CHECK.md has `low` | 6 | 2 | 0 | 0 | 1", "docs/CHECK.md has all | 17 | 2 | 1 | 2 | 1",
      "docs/CHECK.md lacks `low` | 12 | 2 | 0 | 0 | 1", "docs/CHECK.md lacks all | 23 | 2 | 1 | 2 | 1"]),
    ("docs/OPERATIONS.md", "`high::up`", "`high::down`", ["docs/OPERATIONS.md has high::down", "docs/OPERATIONS.md lacks high::up"]),
    ("README.md", "| 2 | more", "| 3 | more",
     ["README.md has `high` | 3 | `measure`, `example`", "README.md lacks `high` | 2 | `measure`, `example`"]),
    ("README.md", "words | `high`", "words | -", ["README.md has `low` | 1 | -", "README.md lacks `low` | 1 | `high`"]),
    ("README.md", "| `measure` | 3 | for bench | - |\n", "", ["README.md lacks `measure` | 3 | -"]),
    ("README.md", "    high::up();", "    low::tell();", ["README.md shows what does not stand in crates/example: fn main() {"]),
    ("crates/example/stdout", "down\n", "down\nover\n", ["README.md does not show what the example prints"]),
    ("README.md", "    up\n", "    over\n    up\n", ["README.md does not show what the example prints"]),
    ("include/kamvezhor.h", "1.2.3", "2.0.0", ["README.md does not tell version 2.0.0 of the C header"]),
    ("README.md", "```rust", "```", ["README.md shows nothing of crates/example"]),
    ("docs/CHECK.md", "| 2 s | 5 |", "| 2 s | 6 |",
     ["docs/CHECK.md has `high` | 6 | 0 | 1 | 2 | 0", "docs/CHECK.md lacks `high` | 5 | 0 | 1 | 2 | 0"]),
    ("crates/high/must-fail/new.edit", "", "# New.\n",
     ["docs/CHECK.md has `high` | 5 | 0 | 1 | 2 | 0", "docs/CHECK.md has all | 17 | 2 | 1 | 2 | 1",
      "docs/CHECK.md lacks `high` | 5 | 0 | 1 | 2 | 1", "docs/CHECK.md lacks all | 17 | 2 | 1 | 2 | 2"]),
    ("crates/example/src/main.rt", "    high::up();\n", "    high::up();\n    low::tell();\n",
     ["README.md has `low` | 1 | `high`", "README.md lacks `low` | 1 | `high`, `example`",
      "docs/CHECK.md has `example` | 3 | 0 | 0 | 0 | 0", "docs/CHECK.md has all | 17 | 2 | 1 | 2 | 1",
      "docs/CHECK.md lacks `example` | 4 | 0 | 0 | 0 | 0", "docs/CHECK.md lacks all | 18 | 2 | 1 | 2 | 1",
      "README.md shows what does not stand in crates/example: fn main() {"]),
    ("README.md", "| `measure` | 3 | for bench | - |\n| `example` | 3 | a program | - |",
     "| `example` | 3 | a program | - |\n| `measure` | 3 | for bench | - |", ["README.md: not in the order of crates.txt"]),
]


def reported(tree):
    with tempfile.TemporaryDirectory() as room:
        root = Path(room) / "a tree"
        for name, text in tree.items():
            path = root / name
            path.parent.mkdir(parents=True, exist_ok=True)
            path.write_text(text)
        return lists.breaches(root)


class Lists(unittest.TestCase):
    def test_right(self):
        self.assertEqual([], reported(TREE))

    def test_edits(self):
        for name, old, new, due in EDITS:
            with self.subTest(file=name, new=new):
                text = TREE.get(name, "")
                self.assertEqual(1, text.count(old) if old else 1)
                self.assertEqual(due, reported({**TREE, name: text.replace(old, new) if old else new}))


if __name__ == "__main__":
    unittest.main()
