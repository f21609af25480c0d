#!/usr/bin/env python3
"""Brings the names of this repository's definitions and lemmas to one spelling, in every crate: words in snake case, types
in camel case. Functions of src/, exported names, texts, inputs and outputs keep theirs, and so do the library's names and
those that the checker makes.

usage: tools/respell.py            at the top of the repository; files are rewritten in place
"""
import glob
import os
import re

# names that only a proof's file of answers has are the checker's, but for lemmas that stand there beside the answers
MADE = re.compile(r"^(invariant|decreases|loop|returns|overflow|ghost)\b|requires|^c\.|-test$")
# the library's, though an answer may define a case of them
LIBRARY = {"cond-true", "cond-false", "le-ltb"}
DEFINED = re.compile(r"^\s*(?:(?:abbrev|unfoldable|pub|record|data)\s+)*([^\s:(){}=.]+)\s*(?::|\(|\{)")
TOKEN = r"(?<![\w'′-]){}(?![\w'′-])"


def texts(*endings):
    for path in sorted(glob.glob("crates/**/*", recursive=True)):
        if path.endswith(endings) and "/out/" not in path:
            yield path


def read(path):
    with open(path, encoding="utf-8") as f:
        return f.read()


def own_names():
    names = set()
    for path in texts(".antt"):
        answers = os.path.basename(path) in ("Answers.antt", "Invariants.antt", "Proof.antt")
        for line in read(path).split("\n"):
            found = DEFINED.match(line)
            if not found or line.lstrip().startswith(("--", "use ", "pub use ")):
                continue
            name = found.group(1)
            if "-" in name and name not in LIBRARY and not (answers and MADE.search(name)):
                names.add(name)
    return names


def spelled(name):
    if name[0].isupper():
        return "".join(part[0].upper() + part[1:] for part in name.split("-"))
    return name.replace("getD", "get_or").replace("-", "_")


def main():
    names = own_names()
    if len({spelled(n) for n in names}) < len(names):
        raise SystemExit("two names would fall together")
    pattern = re.compile(TOKEN.format("(" + "|".join(sorted(map(re.escape, names), key=len, reverse=True)) + ")"))
    for path in texts(".antt", ".rt", ".edit"):
        old = read(path)
        new = pattern.sub(lambda m: spelled(m.group(1)), old)
        if new != old:
            with open(path, "w", encoding="utf-8") as f:
                f.write(new)
    print(f"{len(names)} names")


main()
