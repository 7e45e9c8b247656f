#!/usr/bin/env python3
"""The lists that the documents keep, held to the tree: the crates of README.md, what it shows of the example and the version that it
tells, the operations of docs/OPERATIONS.md, the lines and must-fail edits of docs/CHECK.md.

    lists.py [ROOT]           one line for each difference, and status 1 if there is any
    lists.py --sizes [ROOT]   the table of docs/CHECK.md as it should be, with the times that stand there
"""
import re
import sys
from pathlib import Path
from textwrap import indent

# For bench/ and for the probe alone: no operations of the product.
WITHOUT_OPERATIONS = ["measure", "wire", "trials", "inner_trials"]
PUBLIC = re.compile(r"^pub (?:extern \"C\" )?fn (\w+)", re.M)
IMPL = re.compile(r"^impl(?:<[^>]*>)? (?:(\w+)(?:<[^{]*?>)? for )?(\w+)(?:<[^{]*?>)? \{\n(.*?)^\}", re.M | re.S)
# What a conversion or an iterator of a public type does is an operation too; what is derived, printed or seen by proofs alone is none.
CALLED = ["From", "TryFrom", "Iterator"]


def crates_of(root):
    """Each crate of crates.txt, in its order, with what it uses."""
    lines = (root / "crates.txt").read_text().splitlines()
    parts = [line.split(":") for line in lines if line and not line.startswith("#")]
    return {head.split()[0]: uses.split() for head, uses in parts}


def code_of(root, crate):
    """Its sources, without comments and without what is named for definitions alone."""
    texts = [path.read_text() for path in sorted((root / "crates" / crate / "src").rglob("*.rt"))]
    lines = "\n".join(texts).splitlines()
    return "\n".join(line.split("//")[0] for line in lines if not line.startswith("ghost "))


def callers_of(root, crates):
    """For each crate those whose code names it."""
    words = {crate: set(re.findall(r"\b(\w+)::", code_of(root, crate))) for crate in crates}
    return {crate: [other for other in crates if other != crate and crate in words[other]] for crate in crates}


def layers_of(crates):
    """A crate stands one above the highest that it uses; what comes with the kit is no layer."""
    layers = {}
    for crate, uses in crates.items():
        layers[crate] = 1 + max((layers[used] for used in uses if used in layers), default=0)
    return layers


def rows_of(path, heading):
    """The cells of the table whose first column has this heading."""
    rows, inside = [], False
    for line in path.read_text().splitlines():
        cells = [cell.strip() for cell in line.strip().strip("|").split("|")] if line.startswith("|") else None
        if cells is None:
            inside = False
        elif cells[0] == heading:
            inside = True
        elif inside and not set(cells[0]) <= set("-"):
            rows.append(cells)
    return rows


def quoted(names):
    return ", ".join(f"`{name}`" for name in names)


def readme_crates(root):
    """README's crates: name, layer, what it holds, who calls it."""
    crates = crates_of(root)
    layers, callers = layers_of(crates), callers_of(root, crates)
    due = [[f"`{crate}`", str(layers[crate]), quoted(callers[crate]) or "-"] for crate in crates]
    found = [[row[0], row[1], row[-1]] for row in rows_of(root / "README.md", "crate")]
    yield from differences("README.md", due, found)


def public_in(code):
    """The public functions of a text: those at the margin, and those of its public types, by the type's name."""
    yield from PUBLIC.findall(code)
    public = re.findall(r"^pub (?:enum|struct) (\w+)", code, re.M)
    for of, name, body in IMPL.findall(code):
        if name in public and (not of or of in CALLED):
            yield from (f"{name}::{each}" for each in re.findall(r"^    fn (\w+)" if of else r"^    pub fn (\w+)", body, re.M))


def operations(root):
    """docs/OPERATIONS.md names each public function once, and nothing else."""
    due = []
    for crate in crates_of(root):
        if crate not in WITHOUT_OPERATIONS:
            due += [[f"{crate}::{name}"] for name in public_in(code_of(root, crate))]
    page = root / "docs" / "OPERATIONS.md"
    found = [[name] for row in rows_of(page, "operation") for name in re.findall(r"`(\w+(?:::\w+)+)`", row[0])]
    yield from differences("docs/OPERATIONS.md", sorted(due), sorted(found))


def lines_in(paths):
    """Lines that are not empty."""
    return sum(1 for path in paths for line in path.read_text().splitlines() if line.strip())


def sizes_of(root, crate):
    home = root / "crates" / crate
    functions = list(home.glob("proofs/*/**/*.antt"))
    laws = [path for path in home.glob("proofs/*.antt")]
    return [lines_in(home.glob("src/**/*.rt")), lines_in(home.glob("specs/**/*.antt")), lines_in(laws), lines_in(functions),
            len(list(home.glob("must-fail/*.edit")))]


def sizes(root):
    """The rows of docs/CHECK.md, without the times."""
    rows = [[f"`{crate}`", *sizes_of(root, crate)] for crate in crates_of(root)]
    total = ["all", *(sum(column) for column in list(zip(*rows))[1:])]
    return [[str(cell) for cell in row] for row in [*rows, total]]


def sizes_as_told(root):
    found = [[row[0], *row[2:]] for row in rows_of(root / "docs" / "CHECK.md", "crate")]
    yield from differences("docs/CHECK.md", sizes(root), found)


def differences(where, due, found):
    for row in found:
        if row not in due:
            yield f"{where} has {' | '.join(row)}"
    for row in due:
        if row not in found:
            yield f"{where} lacks {' | '.join(row)}"
    if sorted(due) == sorted(found) and due != found:
        yield f"{where}: not in the order of crates.txt"


def example_shown(root):
    """What README shows of a Rattle program stands so in the example, and what that prints stands in README."""
    home, readme = root / "crates" / "example", (root / "README.md").read_text()
    source = "\n".join(path.read_text() for path in sorted((home / "src").rglob("*.rt")))
    if "\n\n" + indent((home / "stdout").read_text(), "    ") + "\n" not in readme:
        yield "README.md does not show what the example prints"
    pieces = re.findall(r"^```rust\n(.*?)^```$", readme, re.M | re.S)
    if not pieces:
        yield "README.md shows nothing of crates/example"
    for piece in pieces:
        if piece not in source:
            yield "README.md shows what does not stand in crates/example: " + piece.splitlines()[0]


def version_told(root):
    """README tells the version of the C header."""
    version = re.search(r'^#define KAMVEZHOR_VERSION "(.*)"$', (root / "include" / "kamvezhor.h").read_text(), re.M)[1]
    if f"version {version}," not in (root / "README.md").read_text():
        yield f"README.md does not tell version {version} of the C header"


def breaches(root):
    return [*readme_crates(root), *operations(root), *sizes_as_told(root), *example_shown(root), *version_told(root)]


def print_sizes(root):
    times = {row[0]: row[1] for row in rows_of(root / "docs" / "CHECK.md", "crate")}
    for row in sizes(root):
        print("| " + " | ".join([row[0], times.get(row[0], ""), *row[1:]]) + " |")


def main(arguments):
    roots = [word for word in arguments if not word.startswith("--")]
    root = Path(roots[0]) if roots else Path(__file__).resolve().parents[2]
    if "--sizes" in arguments:
        print_sizes(root)
        return 0
    found = breaches(root)
    for breach in found:
        print(breach)
    return 1 if found else 0


if __name__ == "__main__":
    sys.exit(main(sys.argv[1:]))
