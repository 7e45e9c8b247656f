#!/usr/bin/env python3
"""Places of crates/*/src that docs/DESIGN-PASS.md counts, by what can be read off the text.

    places.py WHAT [COMMIT]    one line for each place, and their number; of the working tree where no commit is named

WHAT is one of
    shapes    enums with one variant that carries values and others that carry none, enums of names alone of which one tells success, and
              structs with a flag beside values
    none      functions whose comment tells of 0, or of a place too far, for what there is not; numbers that stand for kinds or refusals
    twins     pairs of functions whose text differs in names and numbers alone, or in little else
    loops     `while` loops, and of them those that count
    hand      functions that only compare, convert or print a value of one type
    facts     conditions that stand in the clauses of three or more functions of a crate
    together  parameters that three or more functions of a crate have together
    buffers   functions that are lent octets to be written with a place or a count beside them
    steps     functions that choose among other functions by a value
"""
import difflib
import itertools
import re
import subprocess
import sys
from collections import Counter, defaultdict

COMMENT = re.compile(r"//.*")
FUNCTION = re.compile(
    r"((?:^[ \t]*//.*\n)*)^([ \t]*)((?:pub(?:\([a-z]+\))? )?(?:extern \"C\" )?fn (\w+)[^({]*\(([^{]*?)\)\s*(?:->[^{]*?)?)((?:\s+(?:requires|ensures)\*?(?: \w+)? \{(?:[^{}]|\{[^{}]*\})*\})*)\s*\{\n((?:.*\n)*?)^\2\}",
    re.M)
TYPE = re.compile(r"^(?:pub(?:\([a-z]+\))? )?(enum|struct) (\w+)(?:<[^>]*>)? \{\n((?:.*\n)*?)^\}", re.M)


def sources(commit):
    """Path and text of each file of crates/*/src."""
    if commit:
        names = subprocess.run(["git", "ls-tree", "-r", "--name-only", commit], capture_output=True, text=True, check=True).stdout.split()
        read = lambda name: subprocess.run(["git", "show", f"{commit}:{name}"], capture_output=True, text=True, check=True).stdout
    else:
        names = subprocess.run(["git", "ls-files"], capture_output=True, text=True, check=True).stdout.split()
        read = lambda name: open(name).read()
    return {name: read(name) for name in names if re.fullmatch(r"crates/\w+/src/\S+\.rt", name)}


class Function:
    def __init__(self, path, match):
        self.comment, _, self.head, self.name, parameters, self.clauses, self.body = match.groups()
        self.crate = path.split("/")[1]
        self.place = f"{path.removeprefix('crates/')}: {self.name}"
        self.parameters = [re.sub(r"\s+", " ", each).strip() for each in re.split(r",(?![^<(\[]*[>)\]])", parameters) if each.strip()]

    def conditions(self):
        for clause in re.findall(r"requires\*?(?: \w+)? \{((?:[^{}]|\{[^{}]*\})*)\}", self.clauses):
            depth, start = 0, 0
            text = clause.strip()
            parts = []
            for i, sign in enumerate(text):
                depth += (sign in "([{") - (sign in ")]}")
                if sign == "×" and depth == 0:
                    parts.append(text[start:i])
                    start = i + 1
            parts.append(text[start:])
            for part in parts:
                part = part.strip()
                yield part[1:-1] if part.startswith("(") and part.endswith(")") and "(" not in part[1:] else part


def functions(files):
    return [Function(path, match) for path, text in files.items() for match in FUNCTION.finditer(text)]


def types(files):
    for path, text in files.items():
        for kind, name, body in TYPE.findall(COMMENT.sub("", text)):
            yield path, kind, name, [line.strip().rstrip(",") for line in re.split(r",\n", body) if line.strip()]


def shapes(files):
    good = re.compile(r"^(Good|Done|Fine|Accepted|Open|Ok)\b")
    for path, kind, name, members in types(files):
        where = f"{path.removeprefix('crates/')}: {kind} {name} ({', '.join(members)})"
        if kind == "enum":
            carrying = [member for member in members if "(" in member or "{" in member]
            if len(carrying) == 1 and len(members) > 1 or any(good.match(member) for member in members):
                yield re.sub(r"\s+", " ", where)
        elif any(re.search(r": bool$", member) for member in members) and len(members) > 1:
            yield re.sub(r"\s+", " ", where)


def none(files):
    for each in functions(files):
        if re.search(r"\b(or 0|0 where|0 for|0 if|or none where|none where|too many)\b", each.comment):
            yield each.place
        elif re.search(r"\b(no|number): u\d+", each.head) or re.search(r"-> u\d+\b", each.head) and re.search(r"=> (\d+|REFUSED)\b", each.body):
            yield each.place
    for path, text in files.items():
        for name in re.findall(r"^(?:pub )?const (MS|CL|CLR|ACK_\d|NAK_\d|U\d+|CUT|TOO_MANY): ", text, re.M):
            yield f"{path.removeprefix('crates/')}: const {name}"


def tokens(each):
    return re.findall(r"\w+|[^\w\s]", COMMENT.sub("", each.head[each.head.index("("):] + each.body))


def twins(files):
    found = [(each, tokens(each)) for each in functions(files)]
    for (one, left), (other, right) in itertools.combinations(found, 2):
        if min(len(left), len(right)) < 25 or one.name == other.name and one.crate == other.crate:
            continue
        ratio = 2 * sum((Counter(left) & Counter(right)).values()) / (len(left) + len(right))
        if ratio > 0.78 and difflib.SequenceMatcher(None, left, right, autojunk=False).ratio() > 0.78:
            yield f"{one.place} and {other.place}"


def loops(files):
    for each in functions(files):
        for line in re.findall(r"^(\s*while .*)$", each.body, re.M):
            counted = any(re.search(rf"\b{re.escape(name)} [+-]= ", each.body) for name in re.findall(r"[a-z_.]+", line))
            yield f"{each.place}: {line.strip()} {'(counts)' if counted else '(does not count)'}"


def hand(files):
    for each in functions(files):
        body = COMMENT.sub("", each.body).strip()
        arms = re.fullmatch(r"match \w+ \{((?:.*\n)*).*\}", body)
        if arms and len(each.parameters) <= 2 and all(re.match(r"\s*\S.*=> [^{]*,?$", line) for line in arms[1].splitlines() if line.strip()):
            yield each.place
        elif re.fullmatch(r"\w+\(\w+\) == \w+\([\w:]+\)", body.splitlines()[-1].strip() if body else "") or re.match(r"print|digit|lowest_octet|octet_in", each.name):
            yield each.place


def facts(files):
    seen = defaultdict(set)
    for each in functions(files):
        for condition in each.conditions():
            seen[each.crate, re.sub(r"\.(now|old)\b", "", condition)].add(each.name)
    for (crate, condition), names in sorted(seen.items(), key=lambda item: (item[0][0], -len(item[1]))):
        if len(names) > 2:
            yield f"{crate}: {condition} ({len(names)}: {', '.join(sorted(names))})"


def together(files):
    seen = defaultdict(set)
    for each in functions(files):
        for pair in itertools.combinations(each.parameters, 2):
            seen[each.crate, pair].add(each.name)
    for (crate, pair), names in sorted(seen.items(), key=lambda item: (item[0][0], -len(item[1]))):
        if len(names) > 2:
            yield f"{crate}: {', '.join(pair)} ({len(names)})"


def buffers(files):
    for each in functions(files):
        if any(re.search(r": &mut \[", one) for one in each.parameters) and any(re.search(r"\b(at|to|n|start|end|count|i)\b: usize|\b\w+: (Tally|Spot|Quill|Pen|Kept|Hand|Mark)\b", one) for one in each.parameters):
            yield each.place
    for path, kind, name, members in types(files):
        if kind == "struct" and any(re.search(r": \[", member) for member in members) and any(re.search(r"(length|size|count|at): usize", member) for member in members):
            yield f"{path.removeprefix('crates/')}: struct {name}"


def steps(files):
    for each in functions(files):
        arms = re.findall(r"=> (?:\w+::)?([a-z_]\w*)\(", each.body)
        if len(arms) > 2:
            yield f"{each.place} ({len(arms)})"


def main(arguments):
    if not arguments or arguments[0] not in ("shapes", "none", "twins", "loops", "hand", "facts", "together", "buffers", "steps"):
        sys.exit(__doc__)
    places = list(globals()[arguments[0]](sources(arguments[1] if len(arguments) > 1 else None)))
    print("".join(place + "\n" for place in places) + str(len(places)))


if __name__ == "__main__":
    main(sys.argv[1:])
