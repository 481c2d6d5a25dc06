#!/usr/bin/env python3
"""Spells the repository's own definitions and lemmas in snake case, after port.py: run once, at the top.

A name in lower camel case that a file of specs/ or proofs/ declares or binds, or that a clause imports under such a name, gets underscores, in all
texts and pages. Where a lemma has that very name already, the lemma gets _lem behind it, as the kit's rule for names has it. getD, the
older name of get_or, goes from the names of lemmas too. Functions of src/, exported names, strings, inputs and outputs keep their names.
"""
import glob
import re
import sys

NAME = r"[^\s(){}.;,@\"«»:\[\]|=]+"
TOKEN = re.compile(NAME)
CAMEL = re.compile(r"[a-z][a-z0-9]*(?:[A-Z][a-z0-9]*)+\Z")
# Lemmas whose name is a definition's in snake case.
LEMMAS = "at_top by_place counts_of edge_in goes_on head_at in_window inside_of node_at node_in place_at row_number same_move turned_bit no_end".split()
DASHED = {"getD-by": "get_or-by", "getD-from": "get_or-from", "getD-same": "get_or-same"}


def snake(name):
    return re.sub(r"(?<=[a-z0-9])[A-Z]", lambda m: "_" + m[0].lower(), name)


def texts():
    for kind in ("specs/**/*.antt", "proofs/**/*.antt"):
        yield from sorted(glob.glob(f"crates/*/{kind}", recursive=True))


def read(path):
    with open(path, encoding="utf-8") as f:
        return f.read()


def write(path, text):
    with open(path, "w", encoding="utf-8") as f:
        f.write(text)


def code(line):
    return line.split("-- ")[0]


def main():
    camel = set()
    for path in texts():
        for line in read(path).splitlines():
            camel |= {t for t in TOKEN.findall(code(line)) if CAMEL.match(t)}
    sources = sorted(glob.glob("crates/*/src/**/*.rt", recursive=True))
    for path in sources:
        for line in read(path).splitlines():
            if line.lstrip().startswith("ghost use "):
                camel |= {t for t in TOKEN.findall(line) if CAMEL.match(t)}
    new = {t: snake(t) for t in camel} | DASHED
    if len(set(new.values())) < len(new):
        sys.exit("two names fall together: " + str(sorted(n for n in new.values() if list(new.values()).count(n) > 1)))
    lemma = re.compile(rf"(?<!proofs\.)(?<![^\s(){{}}.;,@\"«»:\[\]|=])({'|'.join(LEMMAS)})(?![^\s(){{}}.;,@\"«»:\[\]|=])")
    name = re.compile(rf"(?<![^\s(){{}}.;,@\"«»:\[\]|=`'])({'|'.join(sorted(map(re.escape, new), key=len, reverse=True))})(?![\w-])")
    for path in texts():
        t = read(path)
        write(path, name.sub(lambda m: new[m[1]], lemma.sub(r"\1_lem", t)))
    edits = glob.glob("crates/*/must-fail/*.edit")
    pages = glob.glob("*.md") + glob.glob("docs/**/*.md", recursive=True)
    for path in sources + edits + pages:
        write(path, name.sub(lambda m: new[m[1]], read(path)))
    print(f"{len(new)} names")


main()
