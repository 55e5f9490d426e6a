#!/usr/bin/env python3
"""Respells this repository's own definitions and lemmas: words in snake case, facts in camel case.

usage: python3 tools/spell.py          in the repository, once, after the toolchain's port.py
       python3 tools/spell.py --list   prints what would be renamed, and changes nothing

Names declared in crates/*/specs and in the lemma files of crates/*/proofs are respelled wherever
they stand below crates/, must-fail edits too. Functions, types and fields of src/ keep their names.
A dash stays where it joins two names of definitions. A name that stands there already in the new
spelling keeps its old one, and is listed.
"""

import glob
import re
import sys

WORD = r"[^\s(){}\[\].,;:]+"
SIGNATURE = re.compile(r"^(\s*)(?:(?:abbrev|unfoldable|pub)\s+)*(" + WORD + r")\s*:(?=\s|$)(.*)")
RECORD = re.compile(r"^\s*(?:pub )?(?:record|data)\s+(?:pub )?(" + WORD + r")")
TOKEN = re.compile(WORD)


def signatures(path):
    """The names declared in a file, each with the text of its signature."""
    lines = open(path, encoding="utf-8").read().split("\n")
    for i, line in enumerate(lines):
        m = SIGNATURE.match(line)
        if m:
            text = m[3]
            for more in lines[i + 1:]:
                if not re.match(m[1] + r"\s+\S", more) or SIGNATURE.match(more) or re.match(r"\s*" + re.escape(m[2]) + r"(\s|$)", more):
                    break
                text += " " + more.strip()
            yield m[2], text.strip()
        m = RECORD.match(line)
        if m:
            yield m[1], "Type 0"


def snake(name):
    """A name with each capital behind a small letter or a digit made small, behind a line."""
    name = re.sub(r"(?<=[a-z0-9])([A-Z]+)(?=$|[0-9_'-])", lambda m: "_" + m[1].lower(), name)
    return re.sub(r"(?<=[a-z0-9])([A-Z])", lambda m: "_" + m[1].lower(), name)


def standing():
    """Names that stand in .antt files, but for paths and members, and the parameters of functions."""
    stand = set()
    for path in glob.glob("crates/**/*.antt", recursive=True):
        for line in open(path, encoding="utf-8"):
            m = re.match(r"\s*(?:pub )?use (\S+?)(?:\.\{(.*)\}| as (\S+))?\s*$", line)
            if m:
                stand.update(TOKEN.findall((m[2] or "").replace(" as ", " ") + " " + (m[3] or "")))
            else:
                stand.update(TOKEN.findall(re.sub(r"\.(?=[^\s])" + WORD, " ", line)))
    for path in glob.glob("crates/**/*.rt", recursive=True):
        text = open(path, encoding="utf-8").read()
        for head in re.findall(r"\bfn \w+[^(]*\(([^)]*)\)", text):
            stand.update(re.findall(r"(\w+)\s*:", head))
    return stand


def names():
    """Old names and new ones, and those that can't be respelled."""
    lemma_files = sorted(glob.glob("crates/*/specs/*.antt") + glob.glob("crates/*/proofs/*.antt"))
    declared, where, facts = {}, {}, set()
    for path in lemma_files:
        for name, text in signatures(path):
            declared.setdefault(name, path)
            if text.endswith("Type 0"):
                facts.add(name)
    walked = set()
    for path in glob.glob("crates/*/proofs/**/*.antt", recursive=True):
        if path not in lemma_files:
            walked.update(name for name, _ in signatures(path))
        for line in open(path, encoding="utf-8"):
            m = re.match(r"\s*(?:(?:abbrev|unfoldable|pub)\s+)*(" + WORD + r")\s*:(?=\s|$)", line)
            if m:
                where[m[1]] = path
    words = {n for n in declared if "-" not in n} | {"append", "length", "take", "drop", "map", "set", "get_or", "replicate", "split"}
    stand = standing()
    new, kept = {}, []
    for name in sorted(declared, key=lambda n: ("-" in n, n)):
        if name in facts:
            to = name[0].upper() + name[1:]
        elif name[0].isupper():
            to = name
        else:
            parts = name.split("-")
            joins = len(parts) == 2 and parts[0] in words and parts[1] in words
            to = ("-" if joins else "_").join(snake(part) for part in parts)
            if to == name:
                continue
            if "-" in name and (to in stand or to in new.values()):
                to += "_lem"
            elif to in stand and "/proofs/" in where.get(to, "") and to not in new:
                new[to] = to + "_lem"
                stand.discard(to)
        if to == name:
            continue
        if to in stand or to in new.values() or ("-" in name and name in walked) or re.search(r"-\d+$", name):
            kept.append((name, to, declared[name]))
        else:
            new[name] = to
    return new, kept


def main(argv):
    new, kept = names()
    if argv == ["--list"]:
        for name in sorted(new):
            print(name, new[name])
        for name, to, path in kept:
            print("kept:", name, "not", to, path)
        return
    files = glob.glob("crates/*/specs/*.antt") + glob.glob("crates/*/proofs/**/*.antt", recursive=True)
    files += glob.glob("crates/*/src/**/*.rt", recursive=True) + glob.glob("crates/*/must-fail/*.edit")
    for path in sorted(files):
        text = open(path, encoding="utf-8").read()

        def turn(m):
            """Names with capitals or dashes anywhere; others are names of src/ too, and lemmas only where no path has them."""
            if re.search(r"[A-Z-]", m[0]) or path.endswith(".antt") and text[m.start() - 1:m.start()] != ".":
                return new.get(m[0], m[0])
            return m[0]

        turned = TOKEN.sub(turn, text)
        if turned != text:
            open(path, "w", encoding="utf-8").write(turned)


main(sys.argv[1:])
