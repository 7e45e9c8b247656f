#!/usr/bin/env python3
"""The walk's own tests: a small tree that holds passes, and each edit of it that breaks a rule is reported, by that line and no other."""
import contextlib
import io
import sys
import tempfile
import unittest
from pathlib import Path

sys.dont_write_bytecode = True
import walk

NAMES = ("DemandTwo", "DemandThree", "SameOctets", "PositionsProved")

DEMAND = """-- To be believed: {0}, of the test.
-- Assumes nothing.
use Rattle.std.specs.Prelude.{{◌≡◌}}
use Rattle.low.specs.Words.{{word}}

pub record {0} : Type 0 where
  pub one : word 1 ≡ word 1
"""

TREE = {
    "crates.txt": "# Bottom up: all.\nlow:\nhigh: low\nhigh_c staticlib: high\nmeasure staticlib: low\ntool: low\ndemands: high low\n",
    "docs/RULES.md": "# Rules\n\n1. A word ([`word`](../crates/low/specs/Words.antt)), and a type ([`Sign`](../crates/low/src/lib.rt)).\n",
    "docs/BELIEVED.md": "# Believed\n\n<!-- list -->\n<!-- end of list -->\n\nThe end.\n",
    "crates/low/src/lib.rt": """// A comment with pub fn in it.
ghost use Rattle.std.specs.Prelude.{◌≡◌, []};
ghost use Rattle.low.specs.Words.{Tells, word};
ghost use Rattle.low.specs.Inside.{Step};

pub enum Sign {
    Plus(Size),
    Minus,
}

pub struct Size {
    pub size: usize,
}

fn step(x: usize) -> usize
    requires { x ≡ 1 }
    ensures { Step x result }
{
    x
}

// pub fn in a comment
pub fn tell<'a>(run: &'a [u8], word: usize, out: &mut [u8]) -> Sign
    ensures { Tells run.now word result [] out.new }
{
    if 0 < word {
        return Sign::Minus;
    }
    Sign::Minus
}
""",
    "crates/low/specs/Lib.antt": "pub mod Words\npub mod Inside\n",
    "crates/low/specs/Words.antt": """-- To be believed: what the words of the test
-- are. There is more to say.
-- Assumes nothing.
use Rattle.std.specs.Prelude.{ℕ, suc, ◌+◌, List, [], ◌∷◌, ◌≡◌}
use Rattle.low.specs.declared.Sign.{Sign}
use Rattle.low.specs.declared.Sign.TheVariants.{
  Plus,
  Minus,
}

-- this one is cited by patterns and expressions alone
pub data Kind : Type 0 where
  short : Kind
  long : ℕ
      → Kind

abbrev pub size : Kind → ℕ
size short = 0
size (long n) = n + 1

unfoldable pub word : ℕ → ℕ
word x = size (long x)

abbrev pub ◌⊕◌ : ℕ → ℕ → ℕ
a ⊕ suc b = a + b

abbrev pub signed : Sign → ℕ
signed (Plus n) = n ⊕ 1
signed Minus = 0

pub record Tells (run : List ℕ) (at : ℕ) (
  r : Sign
) (more out : List ℕ) : Type 0 where
  pub reply : signed r ≡ word at
  -- a comment
  pub output : (i : ℕ) → let j = suc i in
      (λ (k : ℕ). k ∷ out) j ≡ run
""",
    "crates/low/specs/Inside.antt": """-- Inner: what the code of the test rests on.
-- Assumes nothing.
use Rattle.std.specs.Prelude.{ℕ, ◌≡◌}

pub Step : ℕ → ℕ → Type 0
Step x r = x ≡ r
""",
    "crates/high/src/lib.rt": """ghost use Rattle.high.specs.High as high;
use low::Sign;

pub fn high_tell(
    sign: Sign,
) -> usize
    ensures { high.Signs sign result }
{
    0
}
""",
    "crates/high/specs/High.antt": """-- To be believed: what is told above.
-- Assumes nothing.
use Rattle.std.specs.Prelude.{ℕ, ◌≡◌}
use Rattle.low.specs.Words as words
use Rattle.low.specs.declared.Sign.{Sign}

module _ (s : Sign) where
  abbrev pub Signs : ℕ → Type 0
  Signs n = words.signed s ≡ n
""",
    "crates/high_c/src/lib.rt": """ghost use Rattle.high.specs.High as high;
ghost use Rattle.std.specs.Prelude.{◌≡◌};
use low::{Sign, tell};

#[unsafe(no_mangle)]
pub extern "C" fn high_tell(
    sign: Sign,
) -> usize
    ensures { high.Signs sign result }
{
    high::high_tell(sign)
}
""",
    "crates/measure/src/lib.rt": "pub fn measured(x: usize) -> usize {\n    x\n}\n",
    "crates/tool/src/main.rt": "pub fn printed(x: usize) {\n}\n",
    "crates/demands/src/lib.rt": "// There is no operation here.\n",
    "crates/demands/specs/DemandOne.antt": """-- To be believed: demand 1.
-- Assumes nothing.
use Rattle.low.specs.Words.{Tells}
use Rattle.high.specs.High.{Signs}

abbrev pub OneReply : {A : Type 0} → (A → Type 0) → Type 0
OneReply {A} Fits = (r : A) → Fits r → Fits r

pub record DemandOne : Type 1 where
  pub tell : OneReply Tells
  pub high_tell : OneReply Signs
""",
    "crates/demands/proofs/Demands.antt": "".join(f"pub the_{name} : {name}\nthe_{name} = given\n\n" for name in (*NAMES, "DemandOne")),
    **{f"crates/demands/specs/{name}.antt": DEMAND.format(name) for name in NAMES},
}

LISTED = """### The demands

- [demands/specs/DemandOne.antt](../crates/demands/specs/DemandOne.antt): demand 1.
- [demands/specs/DemandTwo.antt](../crates/demands/specs/DemandTwo.antt): DemandTwo, of the test.
- [demands/specs/DemandThree.antt](../crates/demands/specs/DemandThree.antt): DemandThree, of the test.
- [demands/specs/SameOctets.antt](../crates/demands/specs/SameOctets.antt): SameOctets, of the test.
- [demands/specs/PositionsProved.antt](../crates/demands/specs/PositionsProved.antt): PositionsProved, of the test.

### low

- [low/specs/Words.antt](../crates/low/specs/Words.antt): what the words of the test are.
- [low/src/lib.rt](../crates/low/src/lib.rt): types Sign, Size

### high

- [high/specs/High.antt](../crates/high/specs/High.antt): what is told above.
"""

LOW, HIGH, HIGH_C = "crates/low/src/lib.rt", "crates/high/src/lib.rt", "crates/high_c/src/lib.rt"
WORDS, INSIDE, ONE = "crates/low/specs/Words.antt", "crates/low/specs/Inside.antt", "crates/demands/specs/DemandOne.antt"
FORM = "does not ensure one contract by its name, and that without a requires"
EXPORT = f"{HIGH_C}: high_tell does not ensure what the function of its name in high ensures"


class Walk(unittest.TestCase):
    def setUp(self):
        folder = tempfile.TemporaryDirectory()
        self.addCleanup(folder.cleanup)
        self.root = Path(folder.name)
        for path, text in TREE.items():
            self.put(path, text)
        self.walk("--write")

    def put(self, path, text):
        (self.root / path).parent.mkdir(parents=True, exist_ok=True)
        (self.root / path).write_text(text)

    def edit(self, path, old, new):
        text = (self.root / path).read_text()
        self.assertEqual(text.count(old), 1, old)
        self.put(path, text.replace(old, new))

    def move(self, path, new):
        self.put(new, (self.root / path).read_text())
        (self.root / path).unlink()

    def walk(self, *options):
        """What the walk prints, and its status."""
        with contextlib.redirect_stdout(io.StringIO()) as said:
            status = walk.main([*options, str(self.root)])
        return said.getvalue(), status

    def breaches(self, *lines):
        """The walk reports these lines and no others; what docs/BELIEVED.md says is passed over where it only follows from them."""
        said, status = self.walk()
        said = [line for line in said.splitlines() if lines[0].startswith("docs/") or not line.startswith("docs/")]
        self.assertEqual((said, status), (list(lines), 1))

    def test_what_holds_passes(self):
        self.assertEqual(self.walk(), ("", 0))
        self.assertEqual(self.walk("--list"), (LISTED, 0))
        self.assertIn("\nThe end.\n", (self.root / "docs/BELIEVED.md").read_text())

    def test_reached(self):
        said = self.walk("--reached")[0].splitlines()
        self.assertEqual([line for line in said if line.startswith("crates/low")],
                         [f"{WORDS}: {name}" for name in ("Kind", "Tells", "signed", "size", "word", "◌⊕◌")] + [f"{LOW}: {name}" for name in ("Sign", "Size")])

    # 1. Nothing that is reached stands in proofs/.

    def test_definition_in_proofs(self):
        self.edit(WORDS, "abbrev pub size : Kind → ℕ\nsize short = 0\nsize (long n) = n + 1\n", "")
        self.edit(WORDS, "use Rattle.std", "use Rattle.low.proofs.Sizes as sizes\nuse Rattle.std")
        self.edit(WORDS, "word x = size (long x)", "word x = sizes.size (long x)")
        self.put("crates/low/proofs/Sizes.antt", "use Rattle.low.specs.Words.{Kind, short, long}\n\nabbrev pub size : Kind → Kind\nsize short = short\nsize (long n) = long n\n")
        self.breaches("crates/low/proofs/Sizes.antt: size stands in proofs/, reached from word")

    def test_demand_in_proofs(self):
        self.move("crates/demands/specs/DemandTwo.antt", "crates/demands/proofs/DemandTwo.antt")
        self.breaches("crates/demands/proofs/DemandTwo.antt: DemandTwo stands in proofs/, reached from the demands")

    def test_demand_missing(self):
        (self.root / "crates/demands/specs/PositionsProved.antt").unlink()
        self.breaches("crates/demands/specs: no record PositionsProved")

    def test_further_demand(self):
        self.put("crates/demands/proofs/DemandFour.antt", DEMAND.format("DemandFour"))
        self.breaches("crates/demands/proofs/DemandFour.antt: DemandFour has no proof in crates/demands/proofs",
                      "crates/demands/proofs/DemandFour.antt: DemandFour stands in proofs/, reached from the demands")

    def test_demand_not_proved(self):
        for instead in ("pub the_PositionsProved : DemandTwo → PositionsProved", "module _ (c : PositionsProved) where\n  pub the_PositionsProved : PositionsProved\n"):
            with self.subTest(instead):
                self.setUp()
                self.edit("crates/demands/proofs/Demands.antt", "pub the_PositionsProved : PositionsProved\nthe_PositionsProved = given", instead)
                self.breaches("crates/demands/specs/PositionsProved.antt: PositionsProved has no proof in crates/demands/proofs")

    # 2. Each file of specs/ is marked.

    def test_unmarked(self):
        self.edit(INSIDE, "-- Inner: what", "-- What")
        self.breaches(f"{INSIDE} is not marked '-- To be believed: ..' or '-- Inner: ..' (0 of 1 definitions reached)")

    def test_definition_in_lib(self):
        self.edit("crates/low/specs/Lib.antt", "pub mod Inside", "pub mod Inside\n\npub one : one\none = one")
        self.breaches("crates/low/specs/Lib.antt is not marked '-- To be believed: ..' or '-- Inner: ..' (0 of 1 definitions reached)")

    # 3. In a file to be believed all is reached, in an inner one nothing.

    def test_unreached(self):
        self.edit(WORDS, "abbrev pub size", "abbrev pub spare : ℕ\nspare = size short\n\nabbrev pub size")
        self.breaches(f"{WORDS}: spare is reached by nothing")

    def test_bound_names_cite_nothing(self):
        for binder in ("reply : (spare : ℕ) → signed r ≡ spare", "reply : (λ spare. spare) (signed r) ≡ word at", "spare : signed r ≡ word at",
                       "reply : (let spare = r in signed spare) ≡ at.spare", "reply : record { spare = r } ≡ word at"):
            with self.subTest(binder):
                self.setUp()
                self.edit(WORDS, "reply : signed r ≡ word at", binder)
                self.edit(WORDS, "abbrev pub size", "abbrev pub spare : ℕ\nspare = size short\n\nabbrev pub size")
                self.breaches(f"{WORDS}: spare is reached by nothing")
        self.setUp()
        self.edit(WORDS, "word x = size (long x)\n", "word spare = size (long spare)\n\nabbrev pub spare : ℕ\nspare = word 0\n")
        self.breaches(f"{WORDS}: spare is reached by nothing")

    def test_bound_names_end(self):
        for binder in ("reply : ((λ x. x) at, x) ≡ word at", "reply : (λ x. at, x) ≡ word at", "reply : ((x : ℕ) → at ≡ x) → word x ≡ at"):
            with self.subTest(binder):
                self.setUp()
                self.edit(WORDS, "reply : signed r ≡ word at", binder)
                self.edit(WORDS, "abbrev pub size", "abbrev pub x : ℕ\nx = signed Minus\n\nabbrev pub size")
                self.assertEqual(self.walk(), ("", 0))

    def test_inner_reached(self):
        self.edit(WORDS, "use Rattle.std", "use Rattle.low.specs.Inside.{Step}\nuse Rattle.std")
        self.edit(WORDS, "signed r ≡ word at", "Step (signed r) (word at)")
        self.breaches(f"{INSIDE}: Step is reached from Tells, and its file is marked inner")

    def test_inner_cited_by_patterns(self):
        self.edit(INSIDE, "pub Step", "pub data Way : Type 0 where\n  left : Way\n\npub Step")
        self.edit(WORDS, "use Rattle.std", "use Rattle.low.specs.Inside.{left}\nuse Rattle.std")
        self.edit(WORDS, "size short = 0", "size left = 0\nsize short = 0")
        self.breaches(f"{INSIDE}: Way is reached from size, and its file is marked inner")

    def test_private_function_cites_what_is_inner(self):
        self.edit(LOW, "fn step(x", "pub fn step(x")
        self.breaches(f"{LOW}: step {FORM}", f"{INSIDE}: Step is reached from step, and its file is marked inner")

    def test_name_not_found(self):
        self.edit(WORDS, "signed r ≡ word at", "signed r ≡ wort at")
        self.breaches(f"{WORDS}: Tells cites wort, which is not to be found")

    def test_item_not_understood(self):
        self.edit(WORDS, "abbrev pub size", "postulate more : size\n\nabbrev pub size")
        self.breaches(f"{WORDS}: postulate is not understood")

    def test_name_not_in_module(self):
        self.edit(HIGH, "high.Signs sign", "high.Sings sign")
        self.breaches(f"{HIGH}: Rattle.high.specs.High has no Sings", f"{HIGH}: high_tell {FORM}", EXPORT)

    # 4. Each public function ensures one contract by its name.

    def test_contract_is_an_equation(self):
        for ensured in ("result ≡ word at", "(result ≡ word) × (Tells run word result [] run)", "Tells run.now word result [] out.new × Tells",
                        "¬ Tells run.now word result [] out.new", "(Tells run.now word result [] out.new)", "word"):
            with self.subTest(ensured):
                self.setUp()
                self.edit(LOW, "Tells run.now word result [] out.new", ensured)
                self.assertIn(f"{LOW}: tell {FORM}\n", self.walk()[0])

    def test_methods_and_conversions(self):
        method = "\nimpl Size {\n    pub fn told(self, out: &mut [u8]) -> Sign\n        ensures { Tells self.size 0 result [] out.new }\n    {\n        Sign::Minus\n    }\n\n    fn inner(self) {\n    }\n}\n"
        conversion = "\nimpl From<usize> for Size {\n    ghost from_gives = { Sizes };\n\n    fn from(size: usize) -> Size {\n        Size { size }\n    }\n}\n"
        self.put(LOW, (self.root / LOW).read_text() + method)
        self.assertEqual(self.walk(), ("", 0))
        self.put(LOW, (self.root / LOW).read_text().replace("Tells self.size 0 result [] out.new", "word self.size ≡ 0"))
        self.breaches(f"{LOW}: Size::told {FORM}")
        self.setUp()
        self.put(LOW, (self.root / LOW).read_text() + conversion)
        self.breaches(f"{LOW}: Size::from cites Sizes, which is not to be found", f"{LOW}: Size::from {FORM}")
        self.edit(WORDS, "abbrev pub size", "abbrev pub Sizes : ℕ → Size → Type 0\nSizes n s = s.size ≡ n\n\nabbrev pub size")
        self.edit(WORDS, "use Rattle.low.specs.declared.Sign.{Sign}", "use Rattle.low.specs.declared.Size.{Size}\nuse Rattle.low.specs.declared.Sign.{Sign}")
        self.edit(LOW, "{Tells, word}", "{Tells, word, Sizes}")
        self.breaches(f"{LOW}: Size::from: its contract Sizes is not cited in DemandOne")

    def test_ghost_members_are_walked(self):
        for member in ("    pub size: usize,\n    ghost fits: { Step size 1 },\n}", "    pub size: usize,\n}\n\nimpl Model for Size {\n    ghost view = { λ s. Step s 1 };\n}"):
            with self.subTest(member):
                self.setUp()
                self.edit(LOW, "    pub size: usize,\n}", member)
                self.breaches(f"{INSIDE}: Step is reached from Size, and its file is marked inner")

    def test_no_contract(self):
        self.edit(LOW, "    ensures { Tells run.now word result [] out.new }\n{", "{")
        self.breaches(f"{LOW}: tell {FORM}")

    def test_requires(self):
        self.edit(LOW, "-> Sign\n", "-> Sign\n    requires { word ≡ 1 }\n")
        self.breaches(f"{LOW}: tell {FORM}")

    def test_contract_of_another_crate(self):
        self.edit(HIGH, "high.Signs sign result", "words.Tells sign result")
        self.edit(HIGH, "use low::Sign;", "ghost use Rattle.low.specs.Words as words;\nuse low::Sign;")
        self.breaches(f"{HIGH}: high_tell: its contract Tells does not stand in crates/high/specs", EXPORT)

    def test_contract_not_in_demand_one(self):
        self.edit(ONE, "  pub high_tell : OneReply Signs\n", "")
        self.breaches(f"{HIGH}: high_tell: its contract Signs is not cited in DemandOne")

    def test_export(self):
        for old, new in (("high.Signs sign", "high.Signs size"), ("fn high_tell", "fn high_tells"), ("sign: Sign", "sign: Sign,\n    size: usize"),
                         ("ensures { high.Signs sign result }", "requires { sign ≡ sign }\n    ensures { high.Signs sign result }")):
            with self.subTest(new):
                self.setUp()
                self.edit(HIGH_C, old, new)
                said = self.walk()[0].splitlines()
                self.assertTrue(any(line.startswith(f"{HIGH_C}: high_tell") and "does not ensure" in line for line in said), said)

    def test_export_of_no_contract(self):
        self.edit(HIGH_C, "    ensures { high.Signs sign result }\n", "")
        self.breaches(f"{HIGH_C}: high_tell {FORM}")

    def test_export_promises_otherwise(self):
        self.edit(HIGH_C, "fn high_tell", "fn high_told")
        self.breaches(f"{HIGH_C}: high_told does not ensure what the function of its name in high ensures")

    # 5. docs/BELIEVED.md lists what is reached.

    def test_list_lacks_a_file(self):
        line = "- [high/specs/High.antt](../crates/high/specs/High.antt): what is told above."
        self.edit("docs/BELIEVED.md", line, "")
        self.breaches(f"docs/BELIEVED.md lacks {line}")

    def test_list_has_a_file_too_many(self):
        line = "- [low/specs/Inside.antt](../crates/low/specs/Inside.antt): inside."
        self.edit("docs/BELIEVED.md", "### high", f"{line}\n\n### high")
        self.breaches(f"docs/BELIEVED.md should not have {line}")

    def test_no_list(self):
        (self.root / "docs/BELIEVED.md").unlink()
        self.breaches(*(f"docs/BELIEVED.md lacks {line}" for line in dict.fromkeys(LISTED.splitlines()) if line))

    # 6. docs/RULES.md leads to definitions.

    def test_rule_without_definition(self):
        self.edit("docs/RULES.md", "[`word`]", "[`wor`]")
        self.breaches("docs/RULES.md: no wor in crates/low/specs/Words.antt")

    def test_rule_without_file(self):
        self.edit("docs/RULES.md", "specs/Words.antt", "specs/Word.antt")
        self.breaches("docs/RULES.md: no word in crates/low/specs/Word.antt")

    def test_no_rules(self):
        (self.root / "docs/RULES.md").unlink()
        self.breaches("docs/RULES.md is missing")


if __name__ == "__main__":
    unittest.main()
