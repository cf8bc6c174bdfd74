#!/usr/bin/env python3
"""Brings the names of this repository's definitions and lemmas to the library's spelling.

usage: respell.py [--say]     at the top of the repository; --say prints the table of names and changes nothing

A name is one that a file of crates/*/specs/ or crates/*/proofs/*.antt declares. Types, modules and names that begin with a capital stay as they are.
In any other name a capital within the name begins a word (`goodByte` is `good_byte`), and a dash turns into `_`, except before a word of the library
that says what the lemma is about (`cut-length`). A lemma that would fall together with a function ends in `_lem`. Names of src/, strings and the words of
a dossier keep their spelling.
A second run changes nothing.
"""

import collections
import glob
import re
import sys

DECLARED = re.compile(r"(?m)^\s*(?:(?:unfoldable|abbrev|pub|data|record|opaque) +)*([^\s:(){}.;,\"λ|=]+(?: +[^\s:(){}.;,\"λ|=]+)*) : ")
WORD = re.compile(r"[^\s(){}.;,@\"«»\[\]|]+")
IMPORT = re.compile(r"(?ms)^\s*(?:ghost )?use ([^\s{;]+)\.\{([^}]*)\}")
# What stands in quotes, in a comment of antt and in one of Rattle.
QUIET = re.compile(r"\"(?:[^\"\\\n]|\\.)*\"|--[^\n]*|//[^\n]*")
ABOUT = {"append", "cons", "drop", "length", "map", "snoc", "All"}


def spelled(name):
    """The name in the library's spelling."""
    if not re.match(r"[a-z]", name):
        return name
    parts = name.split("-")
    turned = [re.sub(r"(?<=[a-z0-9])([A-Z])", lambda m: "_" + m[1].lower(), p) if p not in ABOUT else p for p in parts]
    out = turned[0]
    for part in turned[1:]:
        out += ("-" if part in ABOUT else "_") + part
    return out


def declared(text):
    """The names that a file of definitions or lemmas declares, and its constructors and fields."""
    for m in DECLARED.finditer(text):
        yield from m[1].split()


def turn(text, table, comments):
    """The text with each name of the table respelled, but for what stands in quotes; in comments only what stands in backticks, and names with a capital."""
    out, at = [], 0
    for quiet in QUIET.finditer(text):
        out.append(WORD.sub(lambda m: table.get(m[0], m[0]), text[at : quiet.start()]))
        kept = quiet[0]
        if not kept.startswith('"'):
            kept = re.sub(r"`[^`]*`|[a-z]+[A-Z]\w*", lambda m: WORD.sub(lambda w: comments.get(w[0], w[0]), m[0].replace("`", " ` ")).replace(" ` ", "`"), kept)
        out.append(kept)
        at = quiet.end()
    out.append(WORD.sub(lambda m: table.get(m[0], m[0]), text[at:]))
    return "".join(out)


def main():
    own = set(line.split(":")[0].split()[0] for line in open("crates.txt") if line.strip() and not line.startswith("#"))
    files = sorted(glob.glob("crates/*/specs/*.antt") + glob.glob("crates/*/proofs/*.antt"))
    names, imported = collections.defaultdict(set), set()
    for path in files:
        text = open(path).read()
        for name in declared(QUIET.sub("", text)):
            names[name].add(path)
    everything = sorted(glob.glob("crates/*/**/*.antt", recursive=True) + glob.glob("crates/*/**/*.rt", recursive=True))
    for path in everything:
        for m in IMPORT.finditer(open(path).read()):
            if not (m[1].startswith("Rattle.") and m[1].split(".")[1] in own):
                imported.update(n.split(" as ")[0].strip() for n in m[2].split(","))
    table = {n: spelled(n) for n in names if spelled(n) != n and n not in imported}
    taken = {s for n, s in table.items() if "-" not in n} | (set(names) - set(table)) | imported
    for n in table:
        if "-" in n and table[n] in taken:
            table[n] += "_lem"
    heads = collections.Counter(list(table.values()) + [n for n in names if n not in table] + list(imported - set(names)))
    together = sorted(n for n, count in heads.items() if count > 1)
    if "--say" in sys.argv:
        for n in sorted(table):
            print(n, table[n], sep="\t")
        print("fall together:", together)
        print("imported under this spelling:", sorted(n for n in names if spelled(n) != n and n in imported))
        return
    words = set(re.findall(r'"([a-z-]+)"', open("crates/lines/specs/Text.antt").read()))
    comments = {n: s for n, s in table.items() if n not in words}
    for path in everything:
        text = open(path).read()
        new = turn(text, table, comments)
        if new != text:
            open(path, "w").write(new)
    for path in sorted(glob.glob("crates/*/must-fail/*.edit")):
        text = open(path).read()
        new = "".join(line if line.startswith(("file:", "#")) else turn(line, table, comments) for line in text.splitlines(keepends=True))
        if new != text:
            open(path, "w").write(new)


main()
