#!/usr/bin/env python3
"""Brings the repository's own definitions, fields and lemmas to today's spelling: words in snake case, a dash only where it joins two names.

usage: python3 tools/respell.py [--dry]     at the top of the repository, once, after the kit's port.py

It reads the names that crates/*/specs and crates/*/proofs declare, and rewrites them there, in the clauses of crates/*/src and in
crates/*/must-fail. Types, constructors, Rust's names and strings stay. It also moves specs/Contracts.antt to specs/Promises.antt, since
Rattle makes a module `contracts` beside it.
"""
import collections
import pathlib
import re
import subprocess
import sys

NAME = r"[^\s(){}\[\];,.:`\"]+"
DECLARED = re.compile(r"^\s*(?:unfoldable |abbrev )?(?:pub )?(?:abbrev |unfoldable )?((?:%s)(?: %s)*) : " % (NAME, NAME))
WORDS = {"pub", "let", "use", "where", "record", "data", "abbrev", "unfoldable", "λ", "module", "elim", "in", "open"}
# Words after which, or before which, a dash stays: they are names of std.
JOINED = {"append", "take", "drop", "set", "cons", "nil", "map", "replicate", "length", "get_or", "refl", "min", "max", "true", "false", "cond", "eqb", "ltb", "leb", "zero", "suc"}
# Names that would fall together with another, and what they are called.
OVERRIDES = {n: n.replace("-", "_") + "_lem" for n in ("read_told", "write-told", "told_back", "step_back", "form_in", "field_codes", "codes-in", "offer-codes", "standard-names", "has-parent", "tables-by", "code-of")} | {"getD-lowBits": "get_or-low_bits"}


def files(root):
    for p in sorted((root / "crates").rglob("*")):
        if p.is_file() and "out" not in p.relative_to(root).parts:
            if p.suffix in (".antt", ".rt", ".edit"):
                yield p


def declared(root):
    names = collections.OrderedDict()
    for p in files(root):
        if p.suffix != ".antt":
            continue
        for line in p.read_text(encoding="utf-8").split("\n"):
            m = DECLARED.match(line)
            if m:
                for n in m.group(1).split():
                    if n not in WORDS:
                        names.setdefault(n, (p, line[:1] != " "))
    return names


def imported(root):
    """Names that a file takes from elsewhere: these are not the repository's."""
    own = {line.split(":")[0].split()[0] for line in (root / "crates.txt").read_text().split("\n") if line.strip() and line[0] != "#"}
    for p in files(root):
        for module, items in re.findall(r"(?m)^\s*(?:ghost )?use ([^\s{}]+)\.\{([^}]*)\}", p.read_text(encoding="utf-8")):
            path = module.split(".")
            if not (path[0] == "Rattle" and path[1] in own):
                yield from (item.strip() for item in items.split(","))


def lemmas(root):
    for p in files(root):
        if p.suffix == ".antt" and not (p.name == "DemandOne.antt" and p.parent.name == "specs"):
            yield p.read_text(encoding="utf-8")


def snake(word):
    word = re.sub(r"([A-Z])([A-Z][a-z])", r"\1_\2", re.sub(r"([a-z0-9₀-₉])([A-Z])", r"\1_\2", word))
    return word.lower() if not word[0].isupper() else word


def turned(name, known):
    if name in OVERRIDES:
        return OVERRIDES[name]
    parts = name.split("-")
    if name[0].isupper():
        return name
    out = snake(parts[0])
    left = parts[0]
    for part in parts[1:]:
        joins = left in known and (part in known or part in JOINED)
        out += ("-" if joins else "_") + (snake(part) if not part[:1].isupper() else part)
        left = part
    return out


def mapping(root):
    names = declared(root)
    known = {n for n, (p, outer) in names.items() if "-" not in n and len(n) > 2 and outer and p.parent.name == "specs"}
    out = {}
    for n in names:
        if re.search(r"[a-z][A-Z]", n) or "-" in n:
            if n.startswith("-") or n.endswith("-"):
                continue
            t = turned(n, known if names[n][0].parent.name == "proofs" else set())
            if t != n:
                out[n] = t
    # A lemma or a field that would have a definition's name says that it is one. The lines of DemandOne are called as their functions.
    lines = {o for o in out if not re.search(r"(?m)^\s*(pub )?%s : " % re.escape(o), "\n".join(lemmas(root)))}
    defined = {t for o, t in out.items() if "-" not in o} | {n for n, (p, outer) in names.items() if outer and n not in out}
    for o, t in list(out.items()):
        if "-" in o and t in defined and o not in OVERRIDES and o not in lines:
            out[o] = t + "_lem"
    return names, out


def together(root, names, turns):
    """Old names that would meet another name in a file that has both."""
    said = []
    by_new = collections.defaultdict(set)
    for o, n in turns.items():
        by_new[n].add(o)
    for n, olds in by_new.items():
        if len(olds) > 1 or n in names:
            said.append((n, sorted(olds), n in names))
    tokens = {p: set(re.findall(NAME, p.read_text(encoding="utf-8"))) for p in files(root) if p.suffix == ".antt"}
    here = []
    for p, have in tokens.items():
        for o, n in turns.items():
            if o in have and n in have:
                here.append((o, n, str(p.relative_to(root))))
        seen = collections.defaultdict(list)
        for o in have:
            if o in turns:
                seen[turns[o]].append(o)
        for n, olds in seen.items():
            if len(olds) > 1:
                here.append((" ".join(olds), n, str(p.relative_to(root))))
    return said, here


def turn_line(line, turns, comment, steps=False):
    if comment:
        return re.sub(r"`([^`]*)`", lambda m: "`" + turn_line(m.group(1), turns, False) + "`", line)
    def one(m):
        turn = turns.get(m.group(0), m.group(0))
        # Behind a dot, in the proof of a function, a lemma's name is that of a step of the code.
        if steps and turn.endswith("_lem") and m.start() and line[m.start() - 1] == ".":
            return m.group(0).replace("-", "_")
        return turn

    return re.sub(NAME, one, line)


def turn_antt(text, turns, steps):
    out = []
    for line in text.split("\n"):
        at = line.find("-- ") if line.lstrip().startswith("-- ") else line.find(" -- ")
        if at >= 0:
            out.append(turn_line(line[:at], turns, False, steps) + turn_line(line[at:], turns, True))
        else:
            out.append(turn_line(line, turns, False, steps))
    return "\n".join(out)


def turn_rt(text, turns):
    """Names of clauses have no like in Rust's text, since a Rust name has no small letter before a great one and no dash."""
    return "\n".join(turn_line(line, turns, line.lstrip().startswith("//")) for line in text.split("\n"))


def main(argv):
    root = pathlib.Path(".").resolve()
    names, turns = mapping(root)
    for kept in imported(root):
        turns.pop(kept, None)
    said, here = together(root, names, turns)
    if "--dry" in argv:
        print(len(turns), "turns;", len(said), "fall together;", len(here), "in one file")
        for s in said:
            print("TOGETHER", *s)
        for h in here:
            print("HERE", *h)
        if "--all" in argv:
            for o, n in turns.items():
                print(o, n)
        return
    camel = {o: n for o, n in turns.items() if "-" not in o}
    for p in list(files(root)):
        text = p.read_text(encoding="utf-8")
        if p.suffix == ".antt":
            new = turn_antt(text, turns, p.parent.name not in ("specs", "proofs"))
        elif p.suffix == ".rt":
            new = turn_rt(text, camel)
        elif re.search(r"(?m)^file: (specs|proofs)/", text):
            new = "\n".join(turn_line(l, turns, l.startswith("#")) for l in text.split("\n"))
        else:
            new = turn_rt(text, camel)
        new = new.replace("specs.Contracts", "specs.Promises")
        new = re.sub(r"(?m)^(pub mod|mod) Contracts$", r"\1 Promises", new)
        new = new.replace("file: specs/Contracts.antt", "file: specs/Promises.antt")
        if new != text:
            p.write_text(new, encoding="utf-8")
    for p in sorted((root / "crates").glob("*/specs/Contracts.antt")):
        subprocess.run(["git", "mv", str(p), str(p.with_name("Promises.antt"))], check=True)


if __name__ == "__main__":
    main(sys.argv[1:])
