#!/usr/bin/env python3
"""Brings the definitions and lemmas of this repository to the spelling of today's Rattle: words in snake case.

usage: tools/respell.py [--list]      at the top of the repository, after port.py

A name that a file of crates/*/specs or of crates/*/proofs declares, as `quadOf` or `high-short`, becomes `quad_of` or `high_short`: a capital inside a name
that begins small begins a word, and a dash between two small words is an underscore. A dash beside a name that begins with a capital stays, as in
`Each-append`. Where a lemma would fall together with its definition, it gets `_lem`. Types, modules, functions of src/, exported C names and strings keep
their names. Written are specs/ and proofs/ whole, the clauses, imports and comments of src/, the edits of must-fail/ and the pages. --list prints the
table and writes nothing. A second run changes nothing.
"""

import glob
import re
import sys

# A name as antt reads it, and the parts of a file in which it is not one.
TOKEN = re.compile(r"--[^\n]*|\"(?:[^\"\\]|\\.)*\"|[^\s(){}.;,@\"«»\[\]\\`]+")
IN_TEXT = re.compile(r"(?<![\w'-])[a-z][\w'-]*(?![\w'-])")
DECLARED = re.compile(r"^ *(?:\| *)?(?:(?:pub|abbrev|unfoldable|unfolding|private|data|record|ruleset) +)*([^\s:(){}.,;|=λ]+)(?= *(?:[({]|: ))", re.M)
# Parameters that are spelled as the definitions were.
LOCAL = "flipU flipV uFlipFace uFlipAxis wasMarks wasOut walkedNext walkedFirst".split()
# Names that only tell the steps of generated code apart, in the proofs that walk it; the code names those.
PLAIN = re.compile(r"[a-z][\w']*(?:-[\w']+)*$")


def files():
    for crate in sorted(glob.glob("crates/*/")):
        yield from sorted(glob.glob(crate + "specs/**/*.antt", recursive=True))
        yield from sorted(glob.glob(crate + "proofs/**/*.antt", recursive=True))


def read(path):
    with open(path, encoding="utf-8", newline="") as f:
        return f.read()


def is_walk(path):
    """Whether it is the proof of one function: a file in a folder of its own below proofs/."""
    return path.split("/")[2] == "proofs" and path.count("/") > 3


def snake(name):
    name = re.sub(r"(?<=[a-z0-9])([A-Z])", lambda m: "_" + m.group(1).lower(), name)
    return re.sub(r"(?<=[a-z0-9_'])-(?=[a-z0-9])", "_", name)


def table():
    names = set()
    for path in files():
        if not is_walk(path):
            names.update(n for n in DECLARED.findall(re.sub(r"--[^\n]*", "", read(path))) if PLAIN.match(n))
    turned = {n: snake(n) for n in names if snake(n) != n}
    # Two that fall together: the one with a dash is the lemma.
    for n in sorted(turned):
        if "-" in n and (turned[n] in names or turned[n] in (turned[m] for m in turned if m != n)):
            turned[n] += "_lem"
    if len(set(turned.values())) != len(turned):
        sys.exit(f"names fall together: {sorted(n for n in turned if list(turned.values()).count(turned[n]) > 1)}")
    return {**turned, **{n: snake(n) for n in LOCAL}}


def imported(text):
    """What a file imports by name from a library that is not of this repository."""
    own = {c.split("/")[1] for c in glob.glob("crates/*/")}
    uses = re.findall(r"^use ([\w.+'-]+)\.\{([^}]*)\}", text, re.M)
    return {n.strip() for m, ns in uses if not (m.startswith("Rattle.") and m.split(".")[1] in own) for n in ns.split(",")}


def declared(path):
    return set() if is_walk(path) else set(DECLARED.findall(re.sub(r"--[^\n]*", "", read(path))))


def of_tokens(text, turned, walk=False):
    def one(m):
        t = m.group(0)
        if t.startswith("--"):
            return of_prose(t, turned)
        # In a walk a step of the code stands behind a dot, under the name that the code gives it.
        return snake(t) if walk and t in turned and text[m.start() - 1 : m.start()] == "." else turned.get(t, t)

    return TOKEN.sub(one, text)


def of_prose(text, turned):
    """A name with a capital inside wherever it stands, and one with dashes only where it is quoted as a name."""
    quoted = lambda m: "`" + IN_TEXT.sub(lambda n: turned.get(n.group(0), n.group(0)), m.group(1)) + "`"
    text = re.sub(r"`([^`\n]*)`", quoted, text)
    return IN_TEXT.sub(lambda n: turned.get(n.group(0), n.group(0)) if "-" not in n.group(0) else n.group(0), text)


def of_source(text, turned):
    """A source: strings stay, and code has no such name but in its clauses and comments."""
    return "".join(p if p.startswith('"') else of_prose(p, turned) for p in re.split(r"(\"(?:[^\"\\\n]|\\.)*\")", text))


def main():
    turned = table()
    if "--list" in sys.argv:
        for n in sorted(turned):
            print(n, turned[n])
        return
    new = set(turned.values())
    for path in files():
        # A lemma of this file that already has the name that a definition gets.
        here = {n: n + "_lem" for n in declared(path) & new}
        # What this file has from a library of the kit keeps its name.
        theirs = {n: n for n in imported(read(path))}
        put(path, of_tokens(read(path), {**turned, **here, **theirs}, is_walk(path)))
    for path in sorted(glob.glob("crates/*/src/**/*.rt", recursive=True)):
        put(path, of_source(read(path), turned))
    for path in sorted(glob.glob("crates/*/must-fail/*.edit") + glob.glob("*.md") + glob.glob("docs/*.md") + glob.glob("docs/notes/*.md") + glob.glob("*/README.md")):
        put(path, of_prose(read(path), turned))


def put(path, text):
    if text != read(path):
        with open(path, "w", encoding="utf-8", newline="") as f:
            f.write(text)


main()
