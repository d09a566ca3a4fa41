#!/usr/bin/env python3
"""Brings the repository's own names to the spelling of the library, once: words in snake case, types in camel case.

usage: python3 tools/respell.py     at the top of a checkout, right after the kit's script for an older repository

What a definition file of specs/ or proofs/ declares with a dash in its name is respelled wherever it is named: in those
files, in clauses and ghost items of src/, in must-fail edits and between backticks in the pages. Functions of src/, strings, comments,
inputs and outputs stay. The program `check` has the name of a library of the kit, and becomes `plan_check`. The library's All by recursion
goes by its own name, since All is today another.
It stops, and writes nothing, where two names would fall together.
"""

import glob
import os
import re
import sys

WORD = r"[A-Za-z_][A-Za-z0-9_']*"
DASHED = re.compile(rf"(?<![\w'◌-])({WORD}(?:-[A-Za-z0-9_']+)+)(?![\w'-])")
DECLARED = re.compile(rf"^\s*(?:(?:pub|abbrev|unfoldable)\s+)*(?:({WORD}(?:-[A-Za-z0-9_']+)*)\s+:\s|(?:pub\s+)?(?:record|data)\s+({WORD}(?:-[A-Za-z0-9_']+)*))")
LET = re.compile(rf"\blet\s+({WORD}(?:-[A-Za-z0-9_']+)+)(?=\s*[:=])")
QUOTED = re.compile(r'"(?:[^"\\]|\\.)*"')
GOALS = ("Answers.antt", "Invariants.antt", "Proof.antt")
# arguments of lemmas, and names given on import
ARGUMENTS = "at-k by-index bytes-are few-boards few-duties good-name good-timing head-is in-call in-text in-time in-word no-blank no-fit no-ticks of-p short-cycle some-board some-cycle some-ticks too-late zero-clock".split()
ALL = "AllByRecursion as All"
# types that were spelled as words, with the crate that has them
TYPES = {"trials": {"short": "Short", "short-call": "ShortCall", "short-command": "ShortCommand"}}


def camel(name):
    return "".join(part[:1].upper() + part[1:] for part in name.split("-"))


def spelled(name):
    return camel(name) if name[:1].isupper() else name.replace("-", "_")


def files(*patterns):
    return sorted(p for pattern in patterns for p in glob.glob(pattern, recursive=True) if "/out/" not in p)


def read(path):
    with open(path, encoding="utf-8") as f:
        return f.read()


def code(line, mark):
    """The line's text before its comment, and the comment."""
    found = re.search(rf"(?:^|\s){mark}", line)
    return (line[: found.start()], line[found.start() :]) if found else (line, "")


def declared(paths):
    names, plain = set(), set()
    for path in paths:
        goals = os.path.basename(path) in GOALS
        for line in read(path).splitlines():
            text = code(line, "--")[0]
            found = DECLARED.match(text)
            if found and not (goals and re.search(r":\s*goal\.", text)):
                name = found.group(1) or found.group(2)
                (names if "-" in name else plain).add(name)
            names.update(LET.findall(text))
    return names, plain


def main():
    logic = files("crates/*/specs/**/*.antt", "crates/*/proofs/**/*.antt")
    sources = files("crates/*/src/**/*.rt")
    goal_names = set()
    for path in logic:
        if os.path.basename(path) in GOALS:
            for line in read(path).splitlines():
                found = re.match(rf"^(?:abbrev |pub )*({WORD}(?:-\S+)?) :\s*goal\.", line)
                if found:
                    goal_names.add(found.group(1))
    names, plain = declared(logic)
    names = (names | set(ARGUMENTS)) - goal_names
    to = {n: spelled(n) for n in names}
    for old, new in to.items():
        same = [n for n in to if to[n] == new]
        if len(same) > 1 or new in plain:
            sys.exit(f"respell: {', '.join(same)} would be {new}, which is taken")

    def respell(text, types=()):
        for old, new in dict(types).items():
            text = re.sub(rf"(?<![\w'.-]){old}(?![\w'-])", new, text)
        return DASHED.sub(lambda m: to.get(m.group(1), m.group(1)), text)

    for path in logic + sources + files("crates/*/must-fail/*.edit"):
        crate = path.split("/")[1]
        mark = "//" if path.endswith(".rt") else "--"
        lines = []
        by_recursion = ALL in read(path)
        for line in read(path).split("\n"):
            text, comment = code(line, mark)
            if by_recursion:
                text = re.sub(r"(?<![\w'◌.-])All(?![\w'-])", "AllByRecursion", text.replace(ALL, "AllByRecursion"))
            quotes = QUOTED.findall(text) + [""]
            between = [respell(t, TYPES.get(crate, ())) for t in QUOTED.split(text)]
            lines.append("".join(t + q for t, q in zip(between, quotes)) + comment)
        with open(path, "w", encoding="utf-8") as f:
            f.write("\n".join(lines))
    for path in files("*.md", "docs/*.md"):
        text = re.sub(r"`[^`\n]+`", lambda m: respell(m.group(0)), read(path))
        with open(path, "w", encoding="utf-8") as f:
            f.write(text)

    if os.path.isdir("crates/check"):
        os.rename("crates/check", "crates/plan_check")
        text = re.sub(r"^check:", "plan_check:", read("crates.txt"), flags=re.M)
        with open("crates.txt", "w", encoding="utf-8") as f:
            f.write(text)
    print(f"respell: {len(to)} names")


main()
