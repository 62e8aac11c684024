#!/usr/bin/env python3
"""Lists the places of src/ that an older language would have written by hand, point by point.

Usage: tools/places.py [ROOT]      ROOT is a checkout (this one where left out).

Each line is a place: the point, the file with its line, and the text. Behind them stands a count for each point.
What is listed is where to look: docs/DESIGN-PASS.md says of each place what became of it.
"""
import collections
import glob
import os
import re
import sys

ROOT = sys.argv[1] if len(sys.argv) > 1 else os.path.join(os.path.dirname(__file__), "..")

# By a line's text.
PATTERNS = [
    # an enum of one's own
    ("1 enum", r"^(pub )?enum \w+"),
    # a fault or cause handed on as an Option, or the Option it is told by turned back by hand
    ("1 fault as Option", r"-> Option<.*(Fault|Cause|Stop)\b.*>|^\) -> Option<.*(Fault|Cause|Stop)"),
    ("1 rewrapped", r"Err\((\w+)\) => (return )?Err\(|Ok\((\w+)\) => Ok\(\3\)|Some\((\w+)\) => (return )?Err\(\4\)|None => Ok\(\(\)\)"),
    ("1 early return", r"if let (Some|Err)\(\w+\) = .*\{$"),
    ("1 flag", r"^\s+(pub(\(crate\))? )?\w+: bool,|^\s+let mut \w+ = (true|false);|^\s+\w+\(bool\),"),
    ("1 number for a kind", r"number\(\) *[<>]|\bas u8\b"),
    # an index that the loop counts
    ("3 loop by index", r"^\s*while .*[<>].*\{$|^\s*for \w+ in 0\.\."),
    # equality, order, copying, conversion and printing
    ("4 equality by match", r"^\s+(_|\w+\(_\)|None|\(.*\)) => (true|false),?$"),
    ("4 cast", r"\bas (u16|u32|u64|usize)\b"),
    ("4 copied field by field", r"^\s+(\w+): (self|r|record)\.\1,"),
    ("4 words beside the type", r"-> &'static str"),
    # a buffer with a length beside it, a place counted beside memory
    ("6 array", r"\[u8; [0-9A-Z_]+\]"),
    ("6 length beside", r"^\s+(pub(\(crate\))? )?(len|count|used|taken): (usize|u32),"),
    ("6 index by a field", r"\b(self\.)?\w+\[(self\.)?\w+\]"),
    # a switch on which step to run, a function's pointer
    ("7 step or pointer", r"\bdyn \w|\bfn\(|\bBox<|enum (Ask|Pending|Command)\b"),
]

ITEM = re.compile(r"^(\s*)(pub(\(crate\))? )?(fn|struct|enum|trait|impl)\b")


def files():
    return sorted(glob.glob(os.path.join(ROOT, "crates", "*", "src", "**", "*.rt"), recursive=True))


def short(path):
    return os.path.relpath(path, os.path.join(ROOT, "crates"))


def items(lines):
    """The functions and types of a file, each with its first line's number and its text."""
    at = 0
    while at < len(lines):
        if ITEM.match(lines[at]):
            depth, end, opened = 0, at, False
            while end < len(lines):
                code = re.sub(r"//.*|'.'|\"(\\.|[^\"\\])*\"", "", lines[end])
                ends = code.rstrip().endswith(";")
                code = "" if re.match(r"\s*(ensures|requires|ghost)\b", code) else code
                depth += code.count("{") - code.count("}")
                opened = opened or "{" in code
                if (opened and depth == 0) or (not opened and ends):
                    break
                end += 1
            yield at + 1, lines[at:end + 1]
        at += 1


def shape(text):
    """A text without its contract and comments, with names of types, variants, numbers and the item itself left out."""
    code = []
    for line in text:
        line = re.sub(r"//.*", "", line).strip()
        if line and not re.match(r"(ensures|requires|ghost|where)\b", line):
            code.append(line)
    joined = " ".join(code)
    joined = re.sub(r"\bfn \w+", "fn _", joined)
    joined = re.sub(r"\"(\\.|[^\"\\])*\"|b?'.'|\b0x[0-9A-Fa-f]+\b|\b[0-9_]+\b", "_", joined)
    joined = re.sub(r"\b[A-Z]\w*\b", "_", joined)
    return re.sub(r"\b(u8|u16|u32|u64|usize)\b", "_", joined)


def main():
    places = collections.defaultdict(list)
    shapes, clauses, parameters = (collections.defaultdict(list) for _ in range(3))
    for path in files():
        lines = open(path, encoding="utf-8").read().split("\n")
        for number, line in enumerate(lines, 1):
            code = line.split("//")[0]
            if re.match(r"\s*(ensures|requires|ghost)\b", code):
                continue
            for point, pattern in PATTERNS:
                if re.search(pattern, code):
                    places[point].append((short(path), number, line.strip()))
        for number, text in items(lines):
            head = text[0].strip()
            if len(text) > 3 and "impl" not in head.split("fn")[0]:
                shapes[shape(text)].append((short(path), number, head))
            if not re.search(r"\bfn \w+", head):
                continue
            joined = " ".join(text)
            for clause in re.findall(r"(?:ensures|requires)(?: \w+)? \{ (.*?) \}", joined):
                clauses[clause].append((short(path), number, clause))
            found = re.search(r"fn \w+(?:<[^()]*>)?\((.*?)\)\s*(?:->|where|requires|ensures|\{|;)", joined)
            names = re.findall(r"(\w+): (&?(?:mut )?[\w:<>\[\]&' ]+)", found.group(1)) if found else []
            for i, one in enumerate(names):
                for other in names[i + 1:]:
                    parameters[(one, other)].append((short(path), number, head))
    for text, where in shapes.items():
        if len(where) > 1:
            places["2 twin"] += where
    for clause, where in clauses.items():
        if len({(f, n) for f, n, _ in where}) > 2:
            places["5 clause in three"] += where
    for pair, where in parameters.items():
        if len({(f, n) for f, n, _ in where}) > 2:
            places["5 parameters together"] += where
    for point in sorted(places):
        for file, number, text in sorted(set(places[point])):
            print(f"{point}: {file}:{number}: {text}")
    print()
    for point in sorted(places):
        print(f"{len(set(places[point])):5} {point}")


main()
