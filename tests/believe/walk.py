#!/usr/bin/env python3
"""What has to be believed: a walk from the public contracts and the demand records through every definition that they cite.

    walk.py [ROOT]            one line for each breach, and status 1 if there is any
    walk.py --list [ROOT]     the list of files as docs/BELIEVED.md keeps it (--write puts it there)
    walk.py --reached [ROOT]  each definition reached

It holds that (1) what is reached stands in specs/, or is a type declared in src/; (2) each file of specs/ says on its first line whether
it is to be believed or inner; (3) in a file to be believed every definition is reached, in an inner one none; (4) each public function,
each conversion to a public type and the next of a public iterator ensures one contract, by its name, which stands in its crate's specs/ and
is cited in DemandOne, and one of a static library has the clauses of the function of its name that it exports; (5) docs/BELIEVED.md lists what is reached; (6) each definition to which docs/RULES.md
leads stands where it says.
"""
import difflib
import re
import sys
from pathlib import Path
from textwrap import dedent

# The records that state the demands. Each has to be there, and proved; so has any other of crates/demands whose name begins with Demand.
DEMANDS = ["DemandOne", "DemandTwo", "DemandThree", "SameOctets", "PositionsProved"]
# For bench/ and for the probe alone: their functions pass on to those of the other crates, and promise nothing.
WITHOUT_CONTRACTS = ["measure", "wire", "trials", "inner_trials"]
# The words of the language itself, and the kit's libraries, where the walk ends.
LANGUAGE = set(": = → × ⊥ _ result record let in Type Unit tt".split())
OF_KIT = ["std"]

BELIEVED, INNER = "-- To be believed: ", "-- Inner: "
BEGIN, END = "<!-- list -->", "<!-- end of list -->"
TOKEN = re.compile(r"[(){};,]|[^\s(){};,]+")
BLOCK = r"\s+(requires|ensures)\*?(?: \w+)? \{((?:[^{}]|\{[^{}]*\})*)\}"
TYPE = re.compile(r"^(pub )?(?:enum|struct) (\w+)([^\n]*(?:\n(?:[ \t].*)?)*)", re.M)
IMPL = re.compile(r"^impl(?:<[^>]*>)? (?:(\w+)(?:<[^{]*?>)? for )?(\w+)(?:<[^{]*?>)? \{\n(.*?)^\}", re.M | re.S)
GHOST = re.compile(r"\bghost (\w+)(?: =|:) \{((?:[^{}]|\{[^{}]*\})*)\}")
# What an impl of one of these does for a public type is promised by this member of it.
PROMISED = {"From": "from_gives", "TryFrom": "try_from_gives", "Iterator": "next_gives"}
CRATE = re.compile(r"^(\w+)( staticlib)?[^:\n]*:(.*)", re.M)


def items(text):
    """The items of a text: each a line at the margin, with the indented lines behind it, and those that only close what it opened."""
    return re.findall(r"^[^\s)}].*(?:\n(?:[ \t)}].*)?$)*", text, re.M)


def spellings(name):
    """An operator ◌≡◌ is written ≡ between its arguments."""
    return {name, *filter(None, name.split("◌"))}


def head_of(token):
    """The name that a token begins with: of a field, as r.count, what it is a field of."""
    return token.strip("«»").split(".")[0] if token[0] != "." else token


def outside(tokens):
    """The places of the tokens outside of all parentheses."""
    depth = 0
    for i, token in enumerate(tokens):
        depth += token in "({"
        if depth == 0:
            yield i
        depth -= token in ")}"


def scan(tokens, bound):
    """The names that an expression cites. Those bound in it, as by (x : A) and by λ x., are not; at its outermost level bound gets them."""
    names, scopes, groups, lambdas, i = [], [bound], [], [], 0
    while i < len(tokens):
        token, i = tokens[i], i + 1
        if token in "({":
            end = next((j for j in range(i, len(tokens)) if tokens[j] in "(){};,:="), i)
            typed = tokens[end:end + 1] == [":"]
            groups.append(tokens[i:end] if typed else [])
            scopes.append(set())
            i = end if typed else i
        elif token in ")}":
            scopes.pop()
            scopes[-1].update(groups.pop())
        elif token in ",;":
            scopes[-1].clear()
        elif token == "λ":
            lambdas.append(len(scopes))
        elif lambdas and lambdas[-1] == len(scopes):
            scopes[-1].add(token.rstrip("."))
            if token.endswith("."):
                lambdas.pop()
        elif token == "let":
            scopes[-1].add(tokens[i])
        elif token[0] != "." and tokens[i:i + 1] != ["="] and not any(head_of(token) in scope for scope in scopes):
            names.append(token)
    return names


class Definition:
    """A definition in its pieces: parameters and fields, which bind for all that follows, clauses, and plain expressions."""

    def __init__(self, file, name, pieces):
        self.file, self.name, self.pieces = file, name, pieces

    def __str__(self):
        return f"{self.file.path}: {self.name}"

    def names(self):
        """The names that it cites, without those that are bound where they stand."""
        outer = set()
        for kind, tokens in self.pieces:
            bound = set(outer)
            if kind == "field":
                outer.add(tokens[0])
                tokens = tokens[1:]
            if kind == "clause":  # left of = a constructor is cited, and any other name bound
                at = next((i for i in outside(tokens) if tokens[i] == "="), len(tokens))
                bound.update(token for token in tokens[:at] if not self.file.is_constructor(token))
                yield from (token for token in tokens[:at] if token not in bound)
                tokens = tokens[at:]
            yield from scan(tokens, bound)
            if kind == "parameters":
                outer = bound

    def cited(self):
        """The definitions that it cites. Of a contract or a file of specs/ no name is passed over: one that is not to be found is a breach."""
        found = {name: self.file.find(name) for name in self.names()}
        known = LANGUAGE | set(self.file.imports) | set(self.file.modules)
        for name in found if self.file.part == "specs" or self in self.file.functions else ():
            if not found[name] and head_of(name) not in known and not name[0].isdigit():
                self.file.tree.breach(f"{self} cites {name}, which is not to be found")
        return list(dict.fromkeys(filter(None, found.values())))


class File:
    def __init__(self, tree, path):
        self.tree, self.path = tree, path
        self.crate, self.part = path.split("/")[1:3]
        self.text = (tree.root / path).read_text()
        self.own, self.constructors, self.imports, self.modules, self.functions, self.public = {}, {}, {}, {}, [], []
        if self.part == "src":
            self.read_rt(re.sub(r"//.*", "", self.text))
        else:
            self.read_antt(re.sub(r"(^|\s)--.*", r"\1", self.text), [])
        self.definitions = list(dict.fromkeys(self.own.values()))

    def use(self, words):
        module, listed, alias = re.match(r"use ([^\s{]+?)(?:\.\{(.*)\}| as (\S+))?$", " ".join(words.split())).groups()
        if alias:
            self.modules[alias] = module
        for name in filter(None, re.split(r"\s*,\s*", (listed or "").strip())):
            name, _, other = name.partition(" as ")
            self.imports.update((key, (module, name)) for key in spellings(other or name))

    def define(self, name, pieces):
        definition = Definition(self, name, pieces)
        self.own.update(dict.fromkeys(spellings(name), definition))
        return definition

    def read_antt(self, text, outer):
        last = None
        for item in items(text):
            item = re.sub(r"^((pub|abbrev|unfoldable)\s+)*", "", item)
            tokens, (head, *body) = TOKEN.findall(item), re.split(r"\swhere\s*\n", item, maxsplit=1)
            parameters = outer + [("parameters", TOKEN.findall(head)[2:])]
            if tokens[0] == "use":
                self.use(item)
            elif tokens[0] == "module":
                self.read_antt(dedent(body[0]), parameters)
            elif tokens[0] in ("record", "data"):
                lines = [TOKEN.findall(line.removeprefix("pub ")) for line in items(dedent("".join(body)))]
                if tokens[0] == "record":
                    self.define(tokens[1], parameters + [("field", line) for line in lines])
                else:
                    data = self.define(tokens[1], parameters + [("constructor", line[1:]) for line in lines])
                    self.constructors.update((key, data) for line in lines for key in spellings(line[0]))
            elif tokens[1:2] == [":"]:
                last = self.define(tokens[0], outer + [("type", tokens[1:])])
            elif tokens[0] in self.own or last and "=" in tokens:
                last = self.own.get(tokens[0], last)
                last.pieces.append(("clause", tokens))
            elif tokens[0] not in ("unfolding", "mod"):
                self.tree.breach(f"{self.path}: {tokens[0]} is not understood")

    def read_rt(self, text):
        for words in re.findall(r"^\s*ghost (use [^;]*);", text, re.M):
            self.use(words)
        for crate, listed in re.findall(r"^use (\w+)::(\w+|\{[^{}]*\});", text, re.M):
            crate = self.crate if crate in ("crate", "self", "super") else crate
            for name in re.findall(r"\b[A-Z]\w*", listed):
                self.imports[name] = (f"Rattle.{crate}.specs.declared.{name}", name)
        self.public = []
        for seen, name, body in TYPE.findall(text):
            self.public += [name] if seen else []
            self.define(name, [("declared", re.findall(r"\w+", GHOST.sub("", body))), *self.members(body)])
        self.read_functions(text, "", False)
        for of, name, body in IMPL.findall(text):
            if name in self.own:
                self.own[name].pieces += self.members(body) if of not in PROMISED else []
            if not of:
                self.read_functions(body, name + "::", True)
            elif of in PROMISED and name in self.public:
                promised = [("ensures", TOKEN.findall(block)) for member, block in GHOST.findall(body) if member == PROMISED[of]]
                self.functions.append(Definition(self, f"{name}::{PROMISED[of].removesuffix('_gives')}", promised))

    def members(self, body):
        """What is said of a type for proofs: its ghost fields, and how it is seen."""
        return [("ghost", TOKEN.findall(block)) for _, block in GHOST.findall(body)]

    def read_functions(self, text, prefix, inside):
        indent = r"[ \t]+" if inside else ""
        for match in re.finditer(rf'^{indent}pub (?:extern "C" )?fn (\w+)([^{{]*?)((?:{BLOCK})*)\s*\{{', text, re.M):
            arguments = [("field", [name]) for name in re.findall(r"(\w+):", match[2]) + ["self"] * inside]
            blocks = [(word, TOKEN.findall(block)) for word, block in re.findall(BLOCK, match[3])]
            self.functions.append(Definition(self, prefix + match[1], arguments + blocks))

    def find(self, name):
        """What a name stands for, of the file's own and then of its imports. None if it is bound, or of the kit's library."""
        name = name.strip("«».")
        head, _, rest = name.partition(".")
        if name in self.own or name in self.constructors:
            return self.own.get(name) or self.constructors[name]
        if name in self.imports:
            return self.tree.member(self, *self.imports[name])
        if rest and head in self.modules:
            return self.tree.member(self, self.modules[head], rest)
        return self.find(head) if rest else None

    def is_constructor(self, name):
        found = self.find(name)
        return found is not None and found.name != name.split(".")[-1]


class Tree:
    def __init__(self, root):
        self.root, self.files, self.breaches, self.reached = root, {}, {}, {}
        self.crates = CRATE.findall((root / "crates.txt").read_text())
        # A static library only exports what the crates below it have.
        self.exports = {crate: uses.split() for crate, kind, uses in self.crates if kind}

    def breach(self, line):
        self.breaches[line] = True

    def glob(self, pattern):
        paths = [path.relative_to(self.root).as_posix() for path in sorted(self.root.glob(pattern))]
        for path in paths:
            if path not in self.files:
                self.files[path] = File(self, path)
        return [self.files[path] for path in paths]

    def member(self, user, module, name):
        """A name of a module. None if it is of the kit's library, where the walk ends."""
        match = re.fullmatch(r"Rattle\.(\w+)\.(specs|proofs)\.(declared\.(?:[a-z]\w*\.)*)?([^.]+).*", module)
        if not match or match[1] in OF_KIT:
            return None
        crate, part, declared, file = match.groups()
        name = file if declared else name.split(".")[0]
        for of in self.glob(f"crates/{crate}/src/*.rt" if declared else f"crates/{crate}/{part}/{file}.antt"):
            if name in of.own or name in of.constructors:
                return of.find(name)
        self.breach(f"{user.path}: {module} has no {name}")
        return None

    def walk(self, definitions, by):
        todo = [(definition, by) for definition in definitions]
        while todo:
            definition, by = todo.pop()
            if definition in self.reached:
                continue
            self.reached[definition] = by
            todo += [(other, definition.name) for other in definition.cited()]
            if definition.file.part == "proofs":
                self.breach(f"{definition} stands in proofs/, reached from {by}")


def check_contract(function, unique):
    """A public function has one ensures and no requires: NAME .., where no operator stands outside of parentheses."""
    breach, file = function.file.tree.breach, function.file
    blocks = [piece for piece in function.pieces if piece[0] != "field"]
    tokens = blocks[0][1] if [kind for kind, _ in blocks] == ["ensures"] else []
    flat = [tokens[i] for i in outside(tokens)]
    applied = flat and tokens[0] == flat[0] and all(re.match(r"[\w.«]|\[\]$", token) for token in flat)
    contract = file.find(flat[0]) if applied else None
    if contract not in function.cited():
        breach(f"{function} does not ensure one contract by its name, and that without a requires")
        return
    below = file.tree.exports.get(file.crate)
    if below is not None:
        others = [other for crate in below for of in file.tree.glob(f"crates/{crate}/src/*.rt") for other in of.functions]
        if not any(other.name == function.name and other.pieces == function.pieces and contract in other.cited() for other in others):
            breach(f"{function} does not ensure what the function of its name in {' or '.join(below)} ensures")
        return
    if (contract.file.crate, contract.file.part) != (file.crate, "specs"):
        breach(f"{function}: its contract {contract.name} does not stand in crates/{file.crate}/specs")
    if contract not in unique:
        breach(f"{function}: its contract {contract.name} is not cited in DemandOne")


def check_rules(tree):
    """Each link of docs/RULES.md from a name to a file of crates/ leads to what has that name."""
    page = tree.root / "docs/RULES.md"
    if not page.is_file():
        return tree.breach("docs/RULES.md is missing")
    for name, path in dict.fromkeys(re.findall(r"\[`([^`]+)`\]\(\.\./(crates/[^)#]+)\)", page.read_text())):
        file = tree.root / path
        head = rf"^\s*(?:(?:abbrev|unfoldable|pub|record|data|fn|struct|enum) )*{re.escape(name)}(?![\w-])"
        if not file.is_file() or not re.search(head, file.read_text(), re.M):
            tree.breach(f"docs/RULES.md: no {name} in {path}")


def listed(tree, records):
    """The files reached, crate by crate from the bottom, those of the demand records first."""
    def line(file):
        head = re.match(r"(?:--.*\n)*", file.text)[0].split("\n-- Assumes")[0].replace("\n--", "").removeprefix(BELIEVED)
        types = ", ".join(definition.name for definition in file.definitions if definition in tree.reached)
        return f"- [{file.path.removeprefix('crates/')}](../{file.path}): " + (f"types {types}" if file.part == "src" else re.split(r"(?<=\.) ", head)[0])

    first = list(dict.fromkeys(record.file for record in records))
    lines = ["### The demands", "", *map(line, first)]
    for crate, _, _ in tree.crates:
        order = re.findall(r"^pub mod (\S+)", "".join(file.text for file in tree.glob(f"crates/{crate}/specs/Lib.antt")), re.M)
        files = {definition.file for definition in tree.reached if definition.file.crate == crate} - set(first)
        ordered = sorted(files, key=lambda file: ((order + [Path(file.path).stem]).index(Path(file.path).stem), file.path))
        lines += ["", f"### {crate}", "", *map(line, ordered)] if files else []
    return "\n".join(lines)


def main(arguments):
    root = [argument for argument in arguments if not argument.startswith("--")] or [Path(__file__).resolve().parents[2]]
    tree = Tree(Path(root[0]).resolve())

    found = {name: file.own[name] for part in ("proofs", "specs") for file in tree.glob(f"crates/demands/{part}/*.antt")
             for name in re.findall(r"^pub record (\S+)", file.text, re.M) if name in DEMANDS or name.startswith("Demand")}
    for name in DEMANDS:
        if name not in found:
            tree.breach(f"crates/demands/specs: no record {name}")
    records = [found[name] for name in dict.fromkeys(DEMANDS + list(found)) if name in found]
    types = [definition.pieces[0][1] for file in tree.glob("crates/demands/proofs/*.antt") for definition in file.definitions]
    for record in records:
        if [":", record.name] not in types:
            tree.breach(f"{record} has no proof in crates/demands/proofs")
    tree.walk(records, "the demands")
    unique = found["DemandOne"].cited() if "DemandOne" in found else []
    for file in tree.glob("crates/*/src/*.rt"):
        if tree.glob(f"crates/{file.crate}/src/lib.rt") and file.crate not in WITHOUT_CONTRACTS:
            # Whoever uses a public type believes how its values are seen.
            for name in file.public:
                tree.walk([file.own[name]] if any(kind == "ghost" for kind, _ in file.own[name].pieces) else [], name)
            for function in file.functions:
                tree.walk(function.cited(), function.name)
                check_contract(function, unique)

    for file in tree.glob("crates/*/specs/**/*.antt"):
        reached = [definition for definition in file.definitions if definition in tree.reached]
        if file.text.startswith(BELIEVED):
            for definition in file.definitions:
                if definition not in reached:
                    tree.breach(f"{definition} is reached by nothing")
        elif file.text.startswith(INNER):
            for definition in reached:
                tree.breach(f"{definition} is reached from {tree.reached[definition]}, and its file is marked inner")
        elif file.definitions or not file.path.endswith("/Lib.antt"):
            tree.breach(f"{file.path} is not marked '{BELIEVED}..' or '{INNER}..' ({len(reached)} of {len(file.definitions)} definitions reached)")

    check_rules(tree)
    made, page = listed(tree, records), tree.root / "docs/BELIEVED.md"
    before, _, rest = (page.read_text() if page.is_file() else "").partition(BEGIN)
    kept, _, after = rest.partition(END)
    if "--list" in arguments:
        print(made)
    elif "--write" in arguments:
        page.write_text(f"{before}{BEGIN}\n\n{made}\n\n{END}{after}")
    elif "--reached" in arguments:
        print("\n".join(sorted(map(str, tree.reached))))
    else:
        for line in difflib.ndiff(kept.split("\n"), made.split("\n")):
            if line[0] in "+-" and line[2:]:
                tree.breach(f"docs/BELIEVED.md {'lacks' if line[0] == '+' else 'should not have'} {line[2:]}")
        print("".join(line + "\n" for line in tree.breaches), end="")
        return 1 if tree.breaches else 0
    return 0


if __name__ == "__main__":
    sys.exit(main(sys.argv[1:]))
