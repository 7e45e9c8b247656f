#!/usr/bin/env python3
"""The names that V.8 bis prints, for the codes s.t.n of the listing program.

    names.py [TABLES]    prints docs/NAMES.md, made from TABLES (crates/names/specs/Tables.antt where none is given)

Nothing is guessed: where TABLES is not in the form that is read here, or an entry and the name beside it disagree, one line says
what is wrong, nothing else is printed, and the status is 1.
"""
import re
import sys
from pathlib import Path

TABLES = Path(__file__).resolve().parent.parent / "crates/names/specs/Tables.antt"
DECLARED = re.compile(r"^abbrev pub table(\S+) : List Printed$", re.M)
TABLE = re.compile(r"^table(\S+) =\n((?: .*\n)*)", re.M)
ROW = re.compile(r"    (named|non_standard|reserved) ∷  -- (\S.*)")
BLOCKS = r"^%s =\n((?: .*\n)*)"
BLOCK = re.compile(r"    (?:∷ )?printed_block \(code_of ([12]) (\d+) (\d+) 0\) (table\S+|\((?:table\S+ \+\+ )+table\S+\))")

# The rows of a printed octet: bit 8 ends a block, and so does bit 7 below level 1.
TOP_ROWS, LOW_ROWS = 7, 6

HEAD = """\
# The names of codes

A program prints this page, from the rows of [Tables.antt](../crates/names/specs/Tables.antt): \
`python3 tools/names.py > docs/NAMES.md`.

What V.8 bis (11/2000) prints for each code `s.t.n` that the listing program has behind `i=` and `s=`: the names of the parameters \
that it stands under, then its own, and the table that prints it. A code that is not here is reserved, or V.8 bis does not know it. \
How to read a listing: [LISTING.md](LISTING.md).
"""
FIELDS = {1: "I, the identification field", 2: "S, the standard information field"}


class Bad(Exception):
    """What is wrong with the tables."""


def hold(condition, complaint):
    if not condition:
        raise Bad(complaint)


def name_of_row(table, line):
    """The name of a row, or None of a reserved one. The entry has to agree with the name beside it."""
    row = ROW.fullmatch(line)
    hold(row, f"table{table}: '{line.strip()}' is no row 'ENTRY ∷  -- NAME'")
    entry, name = row.groups()
    due = "reserved" if name == "Reserved" else "non_standard" if name.startswith("Non-standard ") else "named"
    hold(entry == due, f"table{table}: '{name}' stands beside {entry}")
    hold("|" not in name and name == name.strip(), f"table{table}: '{name}' cannot stand in a cell")
    return None if entry == "reserved" else name


def read_tables(text):
    """From the number of each table to the names of its rows."""
    tables = {}
    for table, body in TABLE.findall(text):
        *rows, end = body.splitlines() or [""]
        hold(end == "    []", f"table{table}: its rows do not end with a line '[]'")
        hold(table not in tables, f"table{table} stands twice")
        tables[table] = [name_of_row(table, line) for line in rows]
    declared = DECLARED.findall(text)
    hold(declared and declared == list(tables), "not every table that is declared has its rows, one to a line")
    return tables


def read_blocks(text, kind):
    """From what a block stands under, as (f, s, t), to the numbers of its tables, an octet each."""
    found = re.search(BLOCKS % kind, text, re.M)
    *lines, end = (found[1].splitlines() if found else []) or [""]
    hold(end == "    ∷ []", f"{kind} does not end with a line '∷ []'")
    blocks = {}
    for line in lines:
        block = BLOCK.fullmatch(line)
        hold(block, f"{kind}: '{line.strip()}' is no line 'printed_block (code_of F S T 0) TABLES'")
        under = tuple(map(int, block.groups()[:3]))
        hold(under not in blocks, f"{kind} has two blocks under {under}")
        blocks[under] = re.findall(r"table([^\s)]+)", block[4])
    return blocks


def printed_in(blocks, tables, under):
    """Position, name and table of each row that is not reserved, of the block that stands under a code."""
    width = LOW_ROWS if under[1] else TOP_ROWS
    for octet, table in enumerate(blocks[under]):
        hold(table in tables, f"there is no table{table}")
        hold(len(tables[table]) == width, f"table{table} has {len(tables[table])} rows where {width} are due")
        for bit, name in enumerate(tables[table], 1):
            if name:
                yield width * octet + bit, name, table


def read_codes(text):
    """From each code, as (f, s, t, n), to its path of names and its table."""
    tables, npars, spars = read_tables(text), read_blocks(text, "npar_blocks"), read_blocks(text, "spar_blocks")
    used = {table for blocks in (npars, spars) for group in blocks.values() for table in group}
    hold(used >= set(tables), f"no block has {sorted(set(tables) - used)}")
    paths = {(f, 0, 0): [] for f in FIELDS}
    codes = {}
    for under in sorted(spars):
        f, s, t = under
        hold(under in paths and t == 0, f"spar_blocks: {under} is no parameter that has a name and may have an SPar block")
        for position, name, table in printed_in(spars, tables, under):
            code = (f, s, position) if s else (f, position, 0)
            paths[code] = paths[under] + [name]
            codes[code + (0,)] = ", ".join(paths[code]), table
    for under in npars:
        hold(under in paths, f"npar_blocks: {under} is no parameter that has a name")
        for position, name, table in printed_in(npars, tables, under):
            codes[under + (position,)] = ", ".join(paths[under] + [name]), table
    return codes


def page(codes):
    lines = [HEAD]
    for f, field in FIELDS.items():
        lines += [f"## {field}", "", "| code | name | table |", "|---|---|---|"]
        lines += [f"| {s}.{t}.{n} | {name} | {table.replace('_', '-')} |" for (g, s, t, n), (name, table) in sorted(codes.items()) if g == f]
        lines.append("")
    return "\n".join(lines[:-1]) + "\n"


def main(arguments):
    try:
        text = Path(arguments[0] if arguments else TABLES).read_text(encoding="utf-8")
        printed = page(read_codes(text))
    except (Bad, OSError, UnicodeDecodeError) as problem:
        sys.exit(f"names.py: {problem}")
    sys.stdout.buffer.write(printed.encode())


if __name__ == "__main__":
    main(sys.argv[1:])
