#!/usr/bin/env python3
"""Holds the library to the table of ceilings in kamvezhor.h: ceilings.py HEADER LIBRARY [PREFIX]

For each exported function, linked alone: the octets of .text and .rodata; the stack of the worst path from its entry, its return
address with it, in whole words, followed through the disassembly, every call and every jump table; how far it reaches below the
stack pointer. memcpy and memset belong to the C library: the return address of a call of them counts, what they do does not.
Prints each figure beside its ceiling. Exits 1 above one, where the table and the exported functions differ, and where a path cannot
be followed: recursion, an indirect call, an indirect jump by no table, a stack pointer that is not moved by a constant. PREFIX
stands before the names of the binutils.
"""
import re
import subprocess
import sys
import tempfile
from pathlib import Path

OUTSIDE = {"memcpy", "memset"}
ROOMS = {
    "kamvezhor_read_frame": "KAMVEZHOR_INFORMATION_ROOM",
    "kamvezhor_write_frame": "KAMVEZHOR_FRAME_ROOM",
    "kamvezhor_read_message": "KAMVEZHOR_LIST_ROOM",
}
COLUMNS = ("ROM", "stack", "red zone", "lent")
PREFIXES = re.compile(r"^(?:(?:rep[a-z]*|lock|bnd|notrack|data16|addr32|rex\S*|[cdefgs]s)\s+)+")
ENDS = {"ret", "ud2", "hlt"}


class Refused(Exception):
    """What makes a figure that cannot be told, or a table that cannot be used."""


def ceilings_of(header):
    """The table: {function: {column: ceiling}}."""
    head = re.search(r"^ \*\s+function\s+" + r"\s+".join(COLUMNS) + r"$", header, re.M)
    if not head:
        raise Refused("the header has no table of " + ", ".join(COLUMNS))
    rows = {}
    for line in header[head.end() + 1 :].split("\n"):
        row = re.fullmatch(r" \*\s+(\w+)((?:\s+\d+){4})", line)
        if not row:
            return rows
        rows[row[1]] = dict(zip(COLUMNS, map(int, row[2].split())))
    return rows


def room_of(header, name):
    found = re.search(rf"^#define {ROOMS.get(name)} (\d+)", header, re.M)
    if not found:
        raise Refused(f"{name}: the header does not define the room of its output")
    return int(found[1])


class Binutils:
    def __init__(self, prefix):
        self.prefix = prefix

    def run(self, tool, *words):
        done = subprocess.run([self.prefix + tool, *map(str, words)], capture_output=True, text=True)
        if done.returncode != 0:
            raise Refused(f"{tool}: {done.stderr.strip()}")
        return done.stdout

    def exported(self, library):
        return set(re.findall(r"^\S+ T (\S+)$", self.run("nm", "-g", library), re.M))

    def alone(self, library, name, into):
        """The function and what it needs, linked into one object."""
        self.run("ld", "-r", "--gc-sections", "-e", name, "-u", name, "-o", into, library)
        return into

    def rom(self, alone):
        return sum(int(size) for size in re.findall(r"^\.(?:text|rodata)\S*\s+(\d+)", self.run("size", "-A", alone), re.M))


class Code:
    """The disassembly: instructions by section and address, where each name stands, where jump tables lead."""

    def __init__(self, listing, records):
        self.at, self.names, self.relocated, self.starts = {}, {}, {}, {}
        section = place = None
        for line in listing.split("\n"):
            if found := re.fullmatch(r"([0-9a-f]+) .{7} (\.text\S*)\t[0-9a-f]+ (\S+)", line):
                self.names[found[3]] = (found[2], int(found[1], 16))
            elif found := re.fullmatch(r"Disassembly of section (.*):", line):
                section = found[1]
                self.at[section] = {}
            elif found := re.fullmatch(r"\s+([0-9a-f]+):\s+R_X86_64_(\w+)\s+(.+?)([+-]0x[0-9a-f]+)?", line):
                start = int(found[4] or "0", 16) + 4
                self.relocated[section, place] = (found[2], found[3], start)
                self.starts.setdefault(found[3], set()).add(start)
            elif found := re.fullmatch(r"\s+([0-9a-f]+):\s+(.*?)(?:\s*[#<].*)?", line):
                place = int(found[1], 16)
                self.at[section][place] = PREFIXES.sub("", found[2]).strip()
        self.behind = {s: dict(zip(sorted(a), sorted(a)[1:])) for s, a in self.at.items()}
        self.tables = self.jump_tables(records)

    def jump_tables(self, records):
        """The places of each section to which its tables in .rodata lead. An entry counts from the start of its table."""
        places, section = {}, ""
        for line in records.split("\n"):
            if found := re.fullmatch(r"RELOCATION RECORDS FOR \[(.*)\]:", line):
                section = found[1]
            found = re.fullmatch(r"([0-9a-f]+) R_X86_64_PC32\s+(\.text\S*?)(?:\+0x([0-9a-f]+))?", line)
            if found and section.startswith(".rodata"):
                at, there = int(found[1], 16), int(found[3] or "0", 16)
                start = max((s for s in self.starts.get(section, ()) if s <= at), default=at)
                places.setdefault(found[2], set()).add(there - (at - start))
        return places

    def targets(self, section, place, operand):
        """Where a call or a jump leads: names outside, or places."""
        kind, name, distance = self.relocated.get((section, place), ("", "", 0))
        if operand.startswith("*") and not kind.startswith("GOTPCREL"):
            if not self.at[section][place].startswith("jmp") or section not in self.tables:
                raise Refused(f"{section}: an indirect call or jump at {place:x}")
            return [(section, there) for there in self.tables[section]]
        if not name:
            return [(section, int(operand, 16))]
        if name not in self.names:
            return [name]
        there, start = self.names[name]
        return [(there, start + distance)]


def moved(instruction, place):
    """How many octets deeper the stack is behind an instruction that is neither a call nor a jump."""
    name = instruction.split()[0]
    to_pointer = instruction.endswith("%rsp")
    if name.startswith("push"):
        return 8
    if name == "pop" and not to_pointer:
        return -8
    if name not in ("leave", "enter") and (not to_pointer or name in ("cmp", "test")):
        return 0
    if found := re.fullmatch(r"(add|sub)\s+\$0x([0-9a-f]+),%rsp", instruction):
        octets = int(found[2], 16)
        octets -= (octets >> 63) << 64
        return octets if found[1] == "sub" else -octets
    if found := re.fullmatch(r"lea\s+(-?0x[0-9a-f]+)\(%rsp\),%rsp", instruction):
        return -int(found[1], 16)
    raise Refused(f"{instruction!r} at {place:x}: a stack pointer that is not moved by a constant")


def below(instruction):
    """How far an instruction reaches below the stack pointer."""
    return max((int(found, 16) for found in re.findall(r"-(0x[0-9a-f]+)\(%rsp", instruction)), default=0)


class Stack:
    """The worst path of each function, in octets below its return address, and its reach into the red zone."""

    def __init__(self, code):
        self.code, self.known, self.open = code, {}, []

    def called(self, target):
        if isinstance(target, str):
            if target not in OUTSIDE:
                raise Refused(f"{target} is called and is neither in the library nor known")
            return 0, 0
        if target in self.open:
            raise Refused(f"{target[0]}: recursion")
        if target not in self.known:
            self.open.append(target)
            self.known[target] = self.walk(*target)
            self.open.pop()
        return self.known[target]

    def walk(self, section, start):
        depths, deepest, red = {}, 0, 0
        left = [(start, 0)]
        while left:
            place, depth = left.pop()
            if depths.setdefault(place, depth) != depth:
                raise Refused(f"{section}: two depths of the stack at {place:x}")
            instruction = self.code.at[section].get(place)
            if instruction is None:
                raise Refused(f"{section}: a path leads out of it")
            reach = below(instruction)
            further, called, called_red = self.followed(section, place, instruction, depth)
            deepest, red = max(deepest, depth, depth + reach, called), max(red, reach, called_red)
            left += [step for step in further if depths.get(step[0]) != step[1]]
        return deepest, red

    def followed(self, section, place, instruction, depth):
        """The steps behind an instruction, and the depth and red zone of what it calls."""
        name, _, operand = instruction.partition(" ")
        behind = self.code.behind[section].get(place)
        if name in ENDS or name.startswith("ret"):
            if name.startswith("ret") and depth != 0:
                raise Refused(f"{section}: returns at {place:x} with {depth} octets left on the stack")
            return [], depth, 0
        if not name.startswith(("call", "j")):
            return [(behind, depth + moved(instruction, place))], depth, 0
        further = [] if name.startswith("jmp") else [(behind, depth)]
        deepest, red, pushed = depth, 0, 8 if name.startswith("call") else 0
        for target in self.code.targets(section, place, operand.strip()):
            if pushed == 0 and isinstance(target, tuple) and target[0] == section:
                further.append((target[1], depth))
            else:
                deeper, red = self.called(target)
                deepest = depth + pushed + deeper
        return further, deepest, red


def figures(binutils, library, name, work):
    alone = binutils.alone(library, name, work / "alone.o")
    code = Code(binutils.run("objdump", "-tdr", "--no-show-raw-insn", alone), binutils.run("objdump", "-r", alone))
    deepest, red = Stack(code).called(code.names[name])
    return {"ROM": binutils.rom(alone), "stack": 8 + -(-deepest // 8) * 8, "red zone": red}


def compare(header, library, binutils):
    """Prints a line for each function; a line for each complaint comes back."""
    table, exported = ceilings_of(header), binutils.exported(library)
    complaints = [f"{name}: not in the table" for name in sorted(exported - set(table))]
    complaints += [f"{name}: in the table and not in the library" for name in sorted(set(table) - exported)]
    with tempfile.TemporaryDirectory() as work:
        for name in sorted(exported & set(table)):
            seen = figures(binutils, library, name, Path(work))
            seen["lent"] = room_of(header, name)
            print(f"{name}: " + ", ".join(f"{c} {seen[c]} of {table[name][c]}" for c in COLUMNS))
            complaints += [f"{name}: {c} is {seen[c]}, above {table[name][c]}" for c in COLUMNS if seen[c] > table[name][c]]
            if seen["lent"] < table[name]["lent"]:
                complaints.append(f"{name}: {table[name]['lent']} octets lent, where {seen['lent']} are enough")
    return complaints


def main(header, library, prefix=""):
    try:
        complaints = compare(Path(header).read_text(), library, Binutils(prefix))
    except Refused as refused:
        complaints = [str(refused)]
    for complaint in complaints:
        print(f"ceilings: {complaint}", file=sys.stderr)
    return 1 if complaints else 0


if __name__ == "__main__":
    if len(sys.argv) not in (3, 4):
        sys.exit("usage: ceilings.py HEADER LIBRARY [PREFIX]")
    sys.exit(main(*sys.argv[1:]))
