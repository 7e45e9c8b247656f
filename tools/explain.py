#!/usr/bin/env python3
"""Puts names beside the codes of a listing.

    crates/listing/out/listing < message | python3 tools/explain.py

Each line of standard input is printed as it is. Under i= and s= stands a line for each code, with its name in docs/NAMES.md; under
a refusal, what docs/LISTING.md says of it and what to ask for. Any input will do: what is no such line has nothing under it. The
status is 0, or 1 where a page cannot be read.
"""
import re
import signal
import sys
from pathlib import Path

DOCS = Path(__file__).resolve().parent.parent / "docs"
NAME = re.compile(r"^\| (\d+\.\d+\.\d+) \| (.+) \| \S+ \|$", re.M)
REFUSAL = re.compile(r"^\| `refusal=(\d+)` \| (.+) \| (.+) \|$", re.M)
UNNAMED = "reserved or unknown to this table"
NO_REFUSAL = "no refusal of the listing program"


def read_page(name):
    try:
        return (DOCS / name).read_text(encoding="utf-8")
    except (OSError, UnicodeDecodeError) as problem:
        sys.exit(f"explain.py: {problem}")


def read_names():
    """From the key of a line, i or s, to the names of its codes."""
    sections = re.split(r"^## ", read_page("NAMES.md"), flags=re.M)[1:]
    return {section[0].lower(): dict(NAME.findall(section)) for section in sections}


def read_refusals():
    """From the number of a refusal to what it means, and what to ask for."""
    return {number: lines for number, *lines in REFUSAL.findall(read_page("LISTING.md"))}


def beside(codes, names):
    """A line for each code, the names under each other."""
    width = max(map(len, codes))
    return [f"{code:{width}}  {names.get(code, UNNAMED)}" for code in codes]


def under(line, names, refusals):
    """What is said under a line of a listing."""
    key, _, value = line.partition("=")
    if key in names and value:
        return beside(value.split(","), names[key])
    if key == "refusal":
        return refusals.get(value, [NO_REFUSAL])
    return []


def main():
    signal.signal(signal.SIGPIPE, signal.SIG_DFL)  # a reader that has gone ends this program without a word
    names, refusals = read_names(), read_refusals()
    if set(names) != {"i", "s"} or not all(names.values()) or not refusals:
        sys.exit("explain.py: docs/NAMES.md or docs/LISTING.md has lost its tables")
    for line in sys.stdin.buffer if sys.stdin else []:
        line = line.removesuffix(b"\n")
        sys.stdout.buffer.write(line + b"\n")
        for said in under(line.decode("ascii", "replace"), names, refusals):
            sys.stdout.buffer.write(f"  {said}\n".encode())


if __name__ == "__main__":
    main()
