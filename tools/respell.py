#!/usr/bin/env python3
"""Brings the names of this repository's own definitions and lemmas to today's spelling.

usage: python3 tools/respell.py [--list]      at the top of the repository, once, right after the kit's port.py

A name with dashes becomes one in snake case (row-of: row_of), or in camel case where it names a type (Accepts-exactly:
AcceptsExactly). The names are those that the files of specs/ and proofs/ declare: definitions, lemmas, constructors, fields
of records. Goals, steps of generated records and the library's names are left, and so is every name of src/.
With --list it only prints the names, and those that would fall together.
"""
import os
import re
import sys

TOKEN = r"[A-Za-zα-ωΑ-Ω][\w'-]*[\w']|[A-Za-z]"
DECLARED = re.compile(r"^(?:\s*)(?:pub\s+)?(?:abbrev\s+)?(?:unfoldable\s+)?(?:pub\s+)?(" + TOKEN + r")\s*(?:[({][^=]*)?:\s")
HEADED = re.compile(r"^\s*(?:pub\s+)?(?:data|record)\s+(" + TOKEN + r")")
ALIAS = re.compile(r"\bas (" + TOKEN + r")\s*[,}]")
# names that Rattle makes: an own name that begins like one of these stays, as a proof file may mean the made one
MADE = re.compile(r"^(loop|in_ok|in_err|returns|match|else|invariant|decreases|overflow|bounds|ghost)-")


def files(ending):
    for top, dirs, names in os.walk("crates"):
        dirs[:] = sorted(d for d in dirs if d != "out")
        for name in sorted(names):
            if name.endswith(ending):
                yield os.path.join(top, name)


def read(path):
    with open(path, encoding="utf-8") as f:
        return f.read()


def respelled(name):
    if name[0].isupper():
        return "".join(w[:1].upper() + w[1:] for w in name.split("-"))
    return name.replace("-", "_")


def declared(path):
    answers = os.path.basename(path) in ("Answers.antt", "Invariants.antt", "Proof.antt")
    for line in read(path).split("\n"):
        if line.lstrip().startswith("--"):
            continue
        for pattern in (HEADED, DECLARED):
            m = pattern.match(line)
            if m and not (answers and re.search(r":\s*goal\.", line)):
                yield m.group(1)
        for m in ALIAS.finditer(line):
            yield m.group(1)


def imported():
    """The names that come from the library."""
    for ending in (".antt", ".rt"):
        for path in files(ending):
            for m in re.finditer(r"use Rattle\.std\.[\w.+']*\.\{([^}]*)\}", read(path)):
                for name in m.group(1).split(","):
                    yield name.strip().split(" as ")[0]


def renamings():
    own = {n for p in files(".antt") for n in declared(p)}
    library = set(imported())
    found = {}
    for name in sorted(own):
        if "-" in name and name not in library and not MADE.match(name):
            found[name] = respelled(name)
    return own, library, found


def turn(text, found, clauses_only):
    token = re.compile(r"(?<![\w'◌·-])(" + "|".join(sorted(map(re.escape, found), key=len, reverse=True)) + r")(?![\w'-])")

    def turned(line):
        code, sep, comment = line.partition("--" if not clauses_only else "//")
        return token.sub(lambda m: found[m.group(1)], code) + sep + comment

    lines = text.split("\n")
    if not clauses_only:
        return "\n".join(turned(line) for line in lines)
    inside = 0
    for i, line in enumerate(lines):
        head = re.match(r"\s*(pub )?(ghost|requires|ensures)\b", line)
        if inside or head:
            lines[i] = turned(line)
            inside += line.count("{") - line.count("}")
            inside = max(inside, 0)
    return "\n".join(lines)


def main():
    own, library, found = renamings()
    met = {}
    for name in own | library:
        met.setdefault(found.get(name, name), set()).add(name)
    for name, olds in sorted(met.items()):
        if len(olds) > 1:
            print("falls together:", name, "of", ", ".join(sorted(olds)))
    if "--list" in sys.argv[1:]:
        for old, new in found.items():
            print(old, new)
        return
    for path in list(files(".antt")) + list(files(".rt")):
        before = read(path)
        after = turn(before, found, path.endswith(".rt"))
        if after != before:
            with open(path, "w", encoding="utf-8") as f:
                f.write(after)
    print(len(found), "names respelled")


main()
