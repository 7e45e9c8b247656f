#!/usr/bin/env python3
"""Names in README.md, in docs/ and in comments that name nothing.

    names.py [ROOT]    one line for each, and status 1 if there is any

It holds that (1) a link of a document leads to a file, and to a heading of it; (2) a path between backticks is one of the tree's, or a
must-fail edit; (3) `crate::name` is declared in that crate's src/, and `Record.line` is a line of that record; (4) every word between
backticks is a word of the code, or of a file's name; (5) "RULES, Frames 3" is a rule; (6) a family of requests that a document quotes,
as "wishes: not minimal", is one of tests/independent. Of a path of what is built only the words are looked up, of an error quoted with
gaps (..) nothing. docs/PORT.md and docs/DESIGN-PASS.md set names that were beside those that are: of them only the links are looked up.
"""
import fnmatch
import re
import sys
from pathlib import Path

SLASHES = r"//.*|/\*[\s\S]*?\*/"
COMMENTS = {".rt": SLASHES, ".rs": SLASHES, ".c": SLASHES, ".h": SLASHES, ".antt": r"(?<!\S)--(?!\S).*"}
HASH = r"(?<!\S)#(?!\S).*"
WAS = [Path("docs/PORT.md"), Path("docs/DESIGN-PASS.md")]
SEPARATORS = r"[\s(){}\[\];,:.\"'`|&<>=*!/+#@%?\\^~$]+"


def words(text):
    return set(re.split(SEPARATORS, text)) | set(re.findall(r"\w+", text))


class Tree:
    def __init__(self, root):
        self.root, self.breaches = root, []
        inside = [path.relative_to(root) for path in sorted(root.rglob("*"))]
        self.paths = [path for path in inside if not {"target", "out", ".git", "__pycache__"} & set(path.parts)]
        self.ends = {"/".join(path.parts[i:]) for path in self.paths for i in range(len(path.parts))}
        self.code, self.comments, self.documents, self.files, self.faults = set(), {}, {}, {}, {}
        for path in self.paths:
            self.code |= words(path.name) | {path.stem}
            if (root / path).is_file():
                self.read(path, (root / path).read_text(errors="replace"))
        self.requests = "\n".join(self.texts("tests/independent/src", ".rs"))
        self.rules = self.numbered("docs/RULES.md")
        self.heads = "|".join(re.escape(head) for head in sorted(self.rules, key=len, reverse=True))

    def read(self, path, text):
        if path.suffix == ".md":
            self.documents[path] = text
            return
        comment = re.compile(COMMENTS.get(path.suffix, HASH))
        self.files[path] = comment.sub("", text)
        self.code |= words(self.files[path])
        # Each comment stands in the line in which it begins.
        self.comments[path] = [(text.count("\n", 0, found.start()) + 1, found[0]) for found in comment.finditer(text)]

    def texts(self, folder, suffix):
        """The code of the files with this suffix below the folder."""
        return [text for path, text in self.files.items() if path.suffix == suffix and str(path).startswith(folder + "/")]

    def numbered(self, path):
        """The rules of a document: under each heading the numbers."""
        rules, head = {}, None
        for line in self.documents.get(Path(path), "").splitlines():
            if line.startswith("## "):
                head = rules.setdefault(line[3:], set())
            elif head is not None and re.match(r"\d+\. ", line):
                head.add(int(line.split(".")[0]))
        return rules

    def is_path(self, name):
        """A path or the end of one, with or without stars, or a must-fail edit, as table/fifth_event."""
        edit = re.sub(r"^(\w+)/(\w+)$", r"crates/\1/must-fail/\2.edit", name)
        return {edit, name.rstrip("/")} & self.ends or "*" in name and fnmatch.filter(self.ends, name)

    def is_declared(self, crate, name):
        """Whether the crate's src/ has such a function, type, constant or module."""
        declared = re.compile(rf"\b(fn|struct|enum|const|mod) {name}\b")
        return any(declared.search(text) for text in self.texts(f"crates/{crate}/src", ".rt"))

    def is_line(self, record, line):
        """Whether the record has such a line; also where there is no such record."""
        bodies = [text.partition(f"record {record} ")[2] for text in self.texts("crates", ".antt")]
        return not any(bodies) or any(re.search(rf"^\s+(pub )?{re.escape(line)} :", body, re.M) for body in bodies)

    def fault(self, span):
        """What is wrong with a span between backticks, if anything is."""
        if ".." in span:
            return None
        if re.fullmatch(r"[\w.*-]+(/[\w.*-]+)+/?|[\w-]+\.(antt|rt|rs|md|py|awk|txt)", span) and not re.search(r"target/|/out/", span):
            return None if self.is_path(span) else "is no path"
        inside = re.fullmatch(r"(\w+)::(?:\w+::)*(\w+)", span)
        if inside and f"crates/{inside[1]}" in self.ends and not self.is_declared(*inside.groups()):
            return f"is not in {inside[1]}"
        line = re.fullmatch(r"([A-Z]\w*)\.([a-z][\w-]*)", span)
        if line and not self.is_line(*line.groups()):
            return f"is no line of {line[1]}"
        unknown = [word for word in re.split(SEPARATORS, span) if not self.is_word(word)]
        return f"has {unknown[0]}, which is nowhere in the code" if unknown else None

    def is_word(self, word):
        """A word of the code, a number, or the end of words."""
        if word[:1] in ("-", "_") and word not in self.code:
            return any(known.endswith(word) for known in self.code)
        return word in self.code or not word or re.fullmatch(r"[0-9A-F]+", word)

    def breach(self, path, line, what):
        self.breaches.append(f"{path}:{line}: {what}")

    def spans(self, path, line, text):
        for span in re.findall(r"`([^`\n]+)`", text):
            if span not in self.faults:
                self.faults[span] = self.fault(span.strip())
            if self.faults[span]:
                self.breach(path, line, f"`{span}` {self.faults[span]}")

    def citations(self, path, line, text):
        """RULES with a heading and a number."""
        for found in re.finditer(rf"\bRULES, (?:({self.heads})(?: (\d+))?)?", text):
            if not found[1]:
                self.breach(path, line, f"no heading: {text[found.start():found.end() + 20]}")
            elif found[2] and int(found[2]) not in self.rules[found[1]]:
                self.breach(path, line, f"no rule: {found[0]}")

    def links(self, path, line, text):
        for found in re.finditer(r"\]\(([^)\s#]*)(?:#([^)\s]*))?\)", text):
            if found[1].startswith("http"):
                continue
            target = (self.root / path.parent / found[1]).resolve() if found[1] else self.root / path
            heads = re.findall(r"^#+ (.*)$", target.read_text(), re.M) if target.suffix == ".md" and target.exists() else []
            anchors = [re.sub(r"[^\w -]", "", head.lower()).replace(" ", "-") for head in heads]
            if not target.exists() or found[2] and found[2] not in anchors:
                self.breach(path, line, f"the link {found[0][1:]} leads nowhere")

    def families(self, path, line, text):
        for found in re.finditer(r'"([^"`]+): ([^"`]+)"', text):
            if not all(part in self.requests for part in found.groups()):
                self.breach(path, line, f"no family of requests: {found[0]}")

    def look(self):
        documents = {path: enumerate(text.splitlines(), 1) for path, text in self.documents.items()}
        lines = [(path, *line) for path, all_lines in documents.items() for line in all_lines]
        comments = [(path, *comment) for path, all_comments in self.comments.items() for comment in all_comments]
        for place in lines + comments:
            if place[0] not in WAS:
                self.spans(*place)
                self.citations(*place)
        for place in lines:
            self.links(*place)
            if place[0] not in WAS:
                self.families(*place)
        return self.breaches


def main(arguments):
    root = Path(arguments[0]) if arguments else Path(__file__).resolve().parents[2]
    breaches = Tree(root.resolve()).look()
    print("\n".join([*breaches, f"{len(breaches)} names that name nothing"]))
    return 1 if breaches else 0


if __name__ == "__main__":
    sys.exit(main(sys.argv[1:]))
