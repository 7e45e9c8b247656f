#!/usr/bin/env python3
"""The tests of ceilings.py: test_ceilings.py HEADER LIBRARY [PREFIX]

The library passes under its own header; each ceiling set too low, each row left out or made up is told, by that line and no other.
Made-up functions have the stack that was worked out by hand, and what cannot be followed is refused.
"""
import contextlib
import io
import re
import sys
import tempfile
import unittest
from pathlib import Path

sys.dont_write_bytecode = True
import ceilings

HEADER, LIBRARY, PREFIX = "", "", ""


def told(header):
    """What ceilings.py complains of under such a header, with its exit status."""
    with tempfile.TemporaryDirectory() as work:
        path = Path(work) / "kamvezhor.h"
        path.write_text(header)
        errors = io.StringIO()
        with contextlib.redirect_stdout(io.StringIO()), contextlib.redirect_stderr(errors):
            status = ceilings.main(path, LIBRARY, PREFIX)
        return status, errors.getvalue().splitlines()


class Table(unittest.TestCase):
    def setUp(self):
        self.header = Path(HEADER).read_text()
        self.rows = ceilings.ceilings_of(self.header)

    def with_row(self, name, numbers):
        return re.sub(rf"( \*\s+{name})\s+\d.*", rf"\1 {' '.join(map(str, numbers))}", self.header, count=1)

    def test_own_header(self):
        self.assertEqual(told(self.header), (0, []))

    def test_too_low(self):
        binutils = ceilings.Binutils(PREFIX)
        for name, row in self.rows.items():
            with tempfile.TemporaryDirectory() as work:
                exact = dict(row, **ceilings.figures(binutils, LIBRARY, name, Path(work)))
            self.assertEqual(told(self.with_row(name, exact.values())), (0, []))
            for column in ("ROM", "stack", "lent"):
                lower = exact[column] - 1
                status, lines = told(self.with_row(name, dict(exact, **{column: lower}).values()))
                self.assertEqual((status, lines), (1, [f"ceilings: {name}: {column} is {lower + 1}, above {lower}"]))

    def test_more_lent_than_needed(self):
        name, row = next(iter(self.rows.items()))
        status, lines = told(self.with_row(name, dict(row, lent=row["lent"] + 1).values()))
        self.assertEqual((status, len(lines)), (1, 1), lines)

    def test_row_left_out(self):
        for name in self.rows:
            header = re.sub(rf" \*\s+{name}\s+\d.*\n", "", self.header, count=1)
            self.assertEqual(told(header), (1, [f"ceilings: {name}: not in the table"]))

    def test_row_made_up(self):
        name = next(iter(self.rows))
        header = re.sub(rf"( \*\s+{name}\s+\d.*\n)", r"\1 *   kamvezhor_other 1 1 1 1\n", self.header, count=1)
        self.assertEqual(told(header), (1, ["ceilings: kamvezhor_other: in the table and not in the library"]))

    def test_no_table(self):
        status, lines = told(self.header.replace("red zone  lent", "lent"))
        self.assertEqual((status, len(lines)), (1, 1), lines)


class Assembled(unittest.TestCase):
    def stack(self, *functions):
        """Stack and red zone of the first of some functions, each a name and its instructions."""
        text = "".join(f'.section .text.{name},"ax",@progbits\n.globl {name}\n{name}:\n{body}\n' for name, body in functions)
        with tempfile.TemporaryDirectory() as work:
            source, made = Path(work) / "made.s", Path(work) / "made.o"
            source.write_text(text.replace("; ", "\n"))
            binutils = ceilings.Binutils(PREFIX)
            binutils.run("as", "-o", made, source)
            seen = ceilings.figures(binutils, made, functions[0][0], Path(work))
            return seen["stack"], seen["red zone"]

    def refused(self, *functions):
        with self.assertRaises(ceilings.Refused) as caught:
            self.stack(*functions)
        return str(caught.exception)

    def test_leaf(self):
        self.assertEqual(self.stack(("f", "ret")), (8, 0))

    def test_frame(self):
        self.assertEqual(self.stack(("f", "push %rbx; sub $0x28,%rsp; add $0x28,%rsp; pop %rbx; ret")), (56, 0))
        self.assertEqual(self.stack(("f", "add $-128,%rsp; sub $-128,%rsp; ret")), (136, 0))

    def test_early_return(self):
        self.assertEqual(self.stack(("f", "je 1f; push %rbx; je 2f; push %rbp; pop %rbp; 2:; pop %rbx; 1:; ret")), (24, 0))

    def test_loop_to_the_entry(self):
        self.assertEqual(self.stack(("f", "push %rbx; pop %rbx; jne f; ret")), (16, 0))

    def test_red_zone(self):
        self.assertEqual(self.stack(("f", "push %rbx; mov %rax,-0x18(%rsp); pop %rbx; ret")), (40, 24))
        self.assertEqual(self.stack(("f", "call g; ret"), ("g", "mov %rax,-0x10(%rsp); ret")), (32, 16))
        self.assertEqual(self.stack(("f", "mov %eax,-0x14(%rsp); ret")), (32, 20))

    def test_calls(self):
        self.assertEqual(self.stack(("f", "push %rbx; call g; pop %rbx; ret"), ("g", "push %rbx; pop %rbx; ret")), (32, 0))
        self.assertEqual(self.stack(("f", "push %rbx; pop %rbx; jmp g"), ("g", "sub $0x10,%rsp; add $0x10,%rsp; ret")), (24, 0))
        self.assertEqual(self.stack(("f", "sub $8,%rsp; call memcpy@PLT; add $8,%rsp; ret")), (24, 0))
        self.assertEqual(self.stack(("f", "call *memset@GOTPCREL(%rip); ret")), (16, 0))

    def test_recursion(self):
        self.assertIn("recursion", self.refused(("f", "call f; ret")))
        self.assertIn("recursion", self.refused(("f", "call g; ret"), ("g", "push %rbx; call f; pop %rbx; ret")))

    def test_indirect(self):
        self.assertIn("indirect", self.refused(("f", "call *%rax; ret")))
        self.assertIn("indirect", self.refused(("f", "call *memcpy(%rip); ret")))
        self.assertIn("indirect", self.refused(("f", "notrack jmp *%rax")))

    def test_jump_tables(self):
        jump = "{} lea {}(%rip),%rcx; movslq (%rcx,%rax,4),%rax; add %rcx,%rax; jmp *%rax; "
        arms = "1:; sub $0x18,%rsp; add $0x18,%rsp; 2:; pop %rbx; ret; 3:; pop %rbx; mov %rax,-0x30(%rsp); ret; "
        first, second = jump.format("push %rbx;", "4f"), jump.format("", "5f")
        tables = ".section .rodata.f; 4:; .long 1b-4b, 2b-4b; 5:; .long 2b-5b, 6b-5b, 3b-5b"
        self.assertEqual(self.stack(("f", first + "6:; " + second + arms + tables)), (56, 48))

    def test_unknown(self):
        self.assertIn("malloc is called", self.refused(("f", "call malloc@PLT; ret")))

    def test_stack_pointer(self):
        for moved in ("sub %rax,%rsp", "and $-16,%rsp", "mov %rbp,%rsp", "leave", "pop %rsp"):
            self.assertIn("not moved by a constant", self.refused(("f", f"{moved}; ret")))

    def test_uneven(self):
        self.assertIn("octets left", self.refused(("f", "push %rbx; ret")))
        self.assertIn("two depths", self.refused(("f", "je 1f; push %rbx; 1:; jmp 1b")))
        self.assertIn("leads out", self.refused(("f", "push %rbx")))


if __name__ == "__main__":
    if len(sys.argv) not in (3, 4):
        sys.exit("usage: test_ceilings.py HEADER LIBRARY [PREFIX]")
    HEADER, LIBRARY, PREFIX = (sys.argv[1:] + [""])[:3]
    unittest.main(argv=sys.argv[:1])
