#!/usr/bin/env python3
"""Respells the repository's own definitions and lemmas: words in snake case, types in upper camel case.

usage: python3 tools/respell.py [--list | --clashes]     at the top of the repository

It renames what the files of specs/ and proofs/ define: functions, lemmas, fields and constructors get snake case
(wordOf and word-of become word_of), facts and types upper camel case (One-word becomes OneWord). Names that come from
src/ keep their spelling, and so do the goals of proof files, strings, inputs and outputs. It is run once;
--list prints the names with their new spelling, --clashes those that would fall together with another name.
"""
import os
import re
import sys

# Where the plain spelling would fall together with another name: a lemma gets _lem, as it would beside a function of its name.
LEMMAS = "after-data-read after-loss after-status-read bit-of cut-told data-by fate-of interrupt-shown lines-tied loss-told match-of next-by one-of shifting-now to-data two-of write-told same_bits is_true"
BY_HAND = {n: n.replace("-", "_") + "_lem" for n in LEMMAS.split()} | {"outOfRange": "refusal_by_range", "data-bits": "data_bits_read"}
TOKEN = re.compile(r"[A-Za-z_][A-Za-z0-9_'\-]*")
SIGNATURE = re.compile(r"^\s*(?:(?:abbrev|unfoldable|pub|data|record|ruleset)\s+)*([A-Za-z_][A-Za-z0-9_'\-]*)(?:\s+[({].*)?\s+:\s")
DECLARED = re.compile(r"^\s*pub (?:data|record) ([A-Za-z_][A-Za-z0-9_'\-]*)|^\s*(?:data|record) ([A-Za-z_][A-Za-z0-9_'\-]*)")


def files(root, endings):
    for folder, dirs, names in os.walk(os.path.join(root, "crates")):
        dirs[:] = sorted(d for d in dirs if d not in ("out", "target", "data"))
        for n in sorted(names):
            if n.endswith(endings):
                yield os.path.join(folder, n)


def is_goal_file(path):
    return os.path.basename(path) in ("Answers.antt", "Choices.antt", "Invariants.antt", "Proof.antt")


def defined(root):
    found = {}
    for p in files(root, (".antt",)):
        for line in open(p, encoding="utf-8"):
            if line.lstrip().startswith(("use ", "--", "|", "module ")):
                continue
            m = SIGNATURE.match(line) or DECLARED.match(line)
            if not m:
                continue
            name = next(g for g in m.groups() if g)
            if is_goal_file(p) and re.search(r" : goal\.", line):
                continue
            found.setdefault(name, set()).add(p)
    return found


def respelled(name):
    if name in BY_HAND:
        return BY_HAND[name]
    if len(name) == 1:
        return name
    if name[0].isupper():
        if re.fullmatch(r"[A-Z]{2,}", name):
            return name.lower()
        if "-" in name:
            return "".join(w[:1].upper() + w[1:] for w in name.split("-"))
        return name
    name = name.replace("-", "_")
    name = re.sub(r"(?<=[a-z0-9])([A-Z])", lambda m: "_" + m.group(1).lower(), name)
    return name.lower() if re.search("[A-Z]", name) else name


def line_respelled(line, turn, in_comments):
    """In a comment a word with a dash may be English: there only names in camel case are turned. Strings stay."""
    head = line.lstrip()
    if head.startswith(("--", "//")):
        return TOKEN.sub(lambda m: in_comments.get(m.group(0), m.group(0)), line)
    parts = re.split(r'("(?:[^"\\]|\\.)*")', line)
    return "".join(t if i % 2 else TOKEN.sub(lambda m: turn.get(m.group(0), m.group(0)), t) for i, t in enumerate(parts))


def main(argv):
    root = os.getcwd()
    names = defined(root)
    turn = {n: respelled(n) for n in names if respelled(n) != n}
    in_comments = {o: n for o, n in turn.items() if "-" not in o and o not in ("same_bits", "is_true")}
    if argv == ["--list"]:
        for n in sorted(turn):
            print(n, turn[n])
        return 0
    if argv == ["--clashes"]:
        used = {}
        for p in files(root, (".antt", ".rt")):
            for line in open(p, encoding="utf-8"):
                if line.lstrip().startswith(("--", "//")):
                    continue
                for t in TOKEN.findall(line):
                    used.setdefault(t, set()).add(os.path.relpath(p, root))
        new = {}
        for o, n in turn.items():
            new.setdefault(n, set()).add(o)
        for n in sorted(new):
            also = used.get(n, set())
            if len(new[n]) > 1 or also:
                print(n, "<-", sorted(new[n]), "| stands already in", sorted(also)[:6])
        return 0
    for p in files(root, (".antt", ".rt")):
        with open(p, encoding="utf-8") as f:
            old = f.read()
        text = "".join(line_respelled(l, turn, in_comments) for l in old.splitlines(keepends=True))
        if text != old:
            with open(p, "w", encoding="utf-8") as f:
                f.write(text)
    return 0


if __name__ == "__main__":
    raise SystemExit(main(sys.argv[1:]))
