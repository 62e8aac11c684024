#!/usr/bin/env python3
"""Brings this repository's own ghost names to today's spelling, once, behind the toolchain's own porting script.

usage: python3 tools/respell.py        at the top of the repository

Definitions, lemmas, fields and local names of specs/ and proofs/ lose their hyphens: words are in snake case, types and
modules in camel case. Names of the toolchain's library keep theirs. Names that proof files take over from the code follow the
code's spelling. Two names that would fall together stop it before anything is written.
"""

import collections
import glob
import re
import sys

NAME = r"[A-Za-z_][\w']*(?:-[\w']+)+"
TOKEN = re.compile(r"(?<![\w'◌·-])" + NAME + r"(?![\w'◌-])")
DECLARED = re.compile(r"^\s*(?:pub |abbrev |unfoldable |private |let )*(" + NAME + r")\s*:(?!:)")
LOCAL = re.compile(r"\blet (" + NAME + r")\b|[(λ] ?(" + NAME + r") :")
KIND = re.compile(r"^\s*(?:pub )?(?:record|data) (" + NAME + r")")
IMPORT = re.compile(r"^\s*(?:pub |ghost )*use (\S+)\.\{(.*)\}")
GHOST = re.compile(r"^\s*ghost (" + NAME + r"):")
CODE = re.compile(r"\b(?:fn|let|let mut) ([a-z][a-z0-9]*(?:_[a-z0-9]+)+)|\.([a-z][a-z0-9]*(?:_[a-z0-9]+)+)\(|\b([a-z][a-z0-9]*(?:_[a-z0-9]+)+)\(|\b([a-z][a-z0-9]*(?:_[a-z0-9]+)+):")
STEPS = ["in_ok", "in_err", "invariant_of", "overflow_add", "overflow_sub", "overflow_mul"]


def read(path):
    with open(path, encoding="utf-8") as f:
        return f.read()


def crates():
    with open("crates.txt", encoding="utf-8") as f:
        return [line.split(":")[0].split()[0] for line in f if ":" in line and not line.startswith("#")]


def new_name(old):
    parts = old.split("-")
    if old[0].isupper():
        return "".join(p[:1].upper() + p[1:] for p in parts)
    return "_".join(parts)


def main():
    ours = set(crates())
    antt = sorted(glob.glob("crates/*/specs/**/*.antt", recursive=True) + glob.glob("crates/*/proofs/**/*.antt", recursive=True))
    code = sorted(glob.glob("crates/*/src/**/*.rt", recursive=True))
    texts = {p: read(p) for p in antt + code}
    own, library = set(), collections.defaultdict(set)
    for p, t in texts.items():
        for line in t.split("\n"):
            if line.lstrip().startswith(("--", "//")):
                continue
            m = IMPORT.match(line)
            if m:
                for item in m.group(2).split(","):
                    names = item.strip().split(" as ")
                    if len(names) == 2:
                        own.add(names[1])
                    if m.group(1).split(".")[1] not in ours:
                        library[p].add(names[0])
            elif p.endswith(".rt"):
                own.update(GHOST.findall(line))
            elif not re.search(r": goal\.\S+$", line):
                own.update(DECLARED.findall(line))
                own.update(KIND.findall(line))
                own.update(a or b for a, b in LOCAL.findall(line))
    own = {n for n in own if "-" in n and re.search(r"[\w']-[\w']", n)}
    to = {n: new_name(n) for n in own}
    met = collections.defaultdict(list)
    for old, new in to.items():
        met[new].append(old)
    together = [v for v in met.values() if len(v) > 1]
    if together:
        print("names that fall together:", together)
        sys.exit(1)
    # names of the code that proof files cite with hyphens
    words = set(STEPS)
    for p in code:
        for found in CODE.findall(texts[p]):
            words.update(w for w in found if w)
    steps = {w.replace("_", "-"): w for w in words}
    step = re.compile(r"(?<![\w'])(" + "|".join(sorted(map(re.escape, steps), key=len, reverse=True)) + r")(?![\w'])")

    def turn(path, text):
        keep = library[path]
        answers = path.endswith(("/Answers.antt", "/Invariants.antt"))

        def one(m):
            n = m.group(0)
            if n in keep:
                return n
            if n in to:
                return to[n]
            return step.sub(lambda s: steps[s.group(1)], n) if answers else n

        return TOKEN.sub(one, text)

    def ghost_lines(path, text):
        return "\n".join(line if line.lstrip().startswith("//") else turn(path, line) for line in text.split("\n"))

    changed = 0
    for p, t in texts.items():
        s = ghost_lines(p, t) if p.endswith(".rt") else turn(p, t)
        if s != t:
            changed += 1
            with open(p, "w", encoding="utf-8") as f:
                f.write(s)
    for p in ["README.md"] + sorted(glob.glob("docs/*.md")):
        t = read(p)
        s = re.sub(r"`[^`\n]+`", lambda m: TOKEN.sub(lambda n: to.get(n.group(0), n.group(0)), m.group(0)), t)
        if s != t:
            changed += 1
            with open(p, "w", encoding="utf-8") as f:
                f.write(s)
    print(f"{len(to)} names respelled in {changed} files")


main()
