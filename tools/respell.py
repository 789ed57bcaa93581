#!/usr/bin/env python3
"""Brings the definitions, fields and lemmas of the repository to the spelling of the installed Rattle.

usage: python3 tools/respell.py [--list]     once, at the top of the repository, behind /opt/rattle/port/port.py

Words are in snake case, a dash stays only where it joins two definitions (`units-drop`); types and modules keep their
capital. Functions of src/, exported C names, strings, inputs and outputs keep their names: in a .rt file only clauses and
`ghost use` lines are read. Must-fail edits are brought over by hand.
"""
import os
import re
import sys

WORD = r"[A-Za-z][A-Za-z0-9_'\-]*"
TOKEN = re.compile(r"(?<![A-Za-z0-9_'\-])" + WORD)
CAMEL = re.compile(r"[a-z][a-z0-9_']*[A-Z][A-Za-z0-9_']*$")
# lemmas that port.py turned to names which definitions take now
TAKEN = ["goes_on", "got_number", "option_len", "plain_in", "size_back"]
PLAIN = set("length drop take append map set get_or update replicate".split())


def files(kind):
    for folder, dirs, names in os.walk("crates"):
        dirs[:] = sorted(d for d in dirs if d not in ("out", "must-fail"))
        for n in sorted(names):
            if n.endswith(kind):
                yield os.path.join(folder, n)


def snake(word):
    return re.sub(r"(?<=[a-z0-9'])([A-Z]+)(?=$|[^A-Za-z]|[A-Z]?[a-z0-9])", lambda m: "_" + m.group(1).lower(), word)


def made(path):
    """Whether the file is of one function's proof: the names that it declares at the margin are the check's own."""
    return path.endswith(("/Proof.antt", "/Answers.antt", "/Invariants.antt"))


def declared():
    """The names that antt files declare: definitions and lemmas, also those in modules; fields of records; constructors and variables in camel case."""
    heads, fields, defs = set(), set(), set()
    for p in files(".antt"):
        inside = False
        for line in open(p, encoding="utf-8").read().split("\n"):
            line = re.sub(r"(?:^|\s)--\s.*", "", line)
            if re.match(r"^\s*(pub )?record ", line):
                inside = True
                continue
            if line and not line.startswith(" "):
                inside = False
            # the library and the check write no such name
            heads.update(w for w in TOKEN.findall(line) if CAMEL.match(w))
            m = re.match(r"^\s*(?:(?:abbrev|unfoldable|private|pub) )*(" + WORD + r") :", line)
            if not m or made(p) and re.search(r" : (?:tie|goal)\.", line):
                continue
            (fields if inside else heads).add(m.group(1))
            if "/specs/" in p and not inside:
                defs.add(m.group(1))
    return heads, fields, defs


def renamed(name, defs):
    if name.endswith("-spec"):
        return name[:-5].replace("-", "_") + "_spec"
    if name[0].isupper():
        # a type joined to a word keeps the type
        head, *rest = re.split(r"[-]", name)
        return "_".join([head] + [snake(x) for x in rest])
    parts = [snake(x) for x in name.split("-")]
    if len(parts) == 1:
        return parts[0]
    words = name.split("-")
    known = lambda w: bool(defs) and (w in defs or snake(w) in defs or w in PLAIN)
    for cut in range(1, len(words)):
        left, right = "-".join(words[:cut]), "-".join(words[cut:])
        if known(left) and known(right):
            return "_".join(snake(x) for x in left.split("-")) + "-" + "_".join(snake(x) for x in right.split("-"))
    return "_".join(parts)


def table():
    heads, fields, defs = declared()
    turn = {n: n + "_lem" for n in TAKEN}
    for n in sorted(heads | fields):
        if "-" in n or re.search(r"[a-z0-9'][A-Z]", n) and n[0].islower():
            to = renamed(n, defs if n in heads else set())
            if to != n:
                turn[n] = to
    # a lemma that would have its definition's name
    for n in sorted(turn):
        if "-" in n and n in heads and (turn[n] in heads or any(turn[m] == turn[n] for m in turn if m != n and "-" not in m)):
            turn[n] += "_lem"
    return turn, heads | fields


def clauses(text):
    """The spans of a .rt file that are clauses or `ghost use` lines."""
    for m in re.finditer(r"^\s*ghost use [^;]*;", text, re.M):
        yield m.span()
    for m in re.finditer(r"^\s*(?:requires|ensures|invariant|decreases)\b[^{\n]*\{", text, re.M):
        depth, i = 1, m.end()
        while depth:
            depth += {"{": 1, "}": -1}.get(text[i], 0)
            i += 1
        yield (m.start(), i)


def main():
    turn, all_names = table()
    if "--list" in sys.argv:
        back = {}
        for a, b in turn.items():
            back.setdefault(b, []).append(a)
        for a, b in sorted(turn.items()):
            clash = (b in all_names and b not in TAKEN) or len(back[b]) > 1
            print(("CLASH " if clash else "      ") + a + " -> " + b)
        return
    swap = lambda m: turn.get(m.group(0), m.group(0))
    for p in files(".antt"):
        t = open(p, encoding="utf-8").read()
        new = TOKEN.sub(swap, t)
        if new != t:
            open(p, "w", encoding="utf-8").write(new)
    for p in files(".rt"):
        t = open(p, encoding="utf-8").read()
        out, at = [], 0
        for a, b in clauses(t):
            out += [t[at:a], TOKEN.sub(swap, t[a:b])]
            at = b
        new = "".join(out) + t[at:]
        if new != t:
            open(p, "w", encoding="utf-8").write(new)


if __name__ == "__main__":
    main()
