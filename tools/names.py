#!/usr/bin/env python3
"""Brings the repository's own definitions and lemmas to the library's spelling: words in snake case.

usage: tools/names.py           in a tree that port.py turned: rewrites specs/, proofs/, clauses and must-fail edits
       tools/names.py --list    prints what it would rename, and what would fall together

A name is one that a signature of specs/ or proofs/ declares: `lineOf`, `covers-good` and `badS` become `line_of`, `covers_good` and
`bad_s`. Types begin with a capital and stay. What the library or the kit spells the same, and what Rattle makes (the names of goals),
stays too. Functions of src/, strings, inputs and outputs are not looked at.
"""

import glob
import os
import re
import sys

TOP = os.path.dirname(os.path.dirname(os.path.realpath(__file__)))
TOKEN = re.compile(r"[^\s(){}\[\];,.:\"`|]+")
SIGNATURE = re.compile(r"^\s*(?:pub )?(?:abbrev |unfoldable |axiom )*(?:pub )?(?:data |record )?((?:[^\s(){}\[\];,.:\"`|]+ )+?)(?:\([^)]*\) |\{[^}]*\} )*: ")
MADE = re.compile(r"^(invariant|decreases|ghost|loop|returns|overflow|bounds)-|^μ-|^tie$|^if\d|-requires$")
WORDS = {"let", "in", "data", "record", "pub", "abbrev", "unfoldable", "module", "where", "use", "open", "elim", "as", "axiom"}


def respelled(name):
    if name[0].isupper() or not any(ch.isalpha() for ch in name):
        return name
    name = re.sub(r"(?<=[a-z0-9])([A-Z])", lambda m: "_" + m.group(1).lower(), name)
    return re.sub(r"(?<=[\w'])-(?=\w)", "_", name)


def antt():
    for pattern in ("crates/*/specs/**/*.antt", "crates/*/proofs/**/*.antt"):
        yield from sorted(glob.glob(os.path.join(TOP, pattern), recursive=True))


def read(path):
    with open(path, encoding="utf-8") as f:
        return f.read()


def declared(files):
    found = set()
    for path in files:
        for line in read(path).splitlines():
            m = SIGNATURE.match(line)
            if m and not line.lstrip().startswith("--"):
                found.update(w for w in m.group(1).split() if w not in WORDS)
    for path in [*files, *glob.glob(os.path.join(TOP, "crates/*/src/*.rt"))]:
        for line in read(path).splitlines():
            if re.match(r"(pub |ghost )*use ", line):
                found.update(re.findall(r" as ([a-z]+[A-Z]\w*)", line))
    return found


def imported(files):
    """What files take from elsewhere: the names in the lists of `use` lines whose path is not of this repository."""
    own = {os.path.basename(os.path.dirname(c)) for c in glob.glob(os.path.join(TOP, "crates/*/src"))}
    names = set()
    for path in files:
        for line in read(path).splitlines():
            m = re.match(r"(?:pub )?(?:ghost )?use ([^\s{]+?)\.?\{(.*)\}", line)
            if m and not (m.group(1).startswith("Rattle.") and m.group(1).split(".")[1] in own):
                for item in m.group(2).split(","):
                    names.update(item.replace(" as ", " ").split())
    return names


def turn(text, names):
    def one(m):
        word = m.group(0)
        # beside a dot a word in snake case is a function of src/
        beside = text[m.start() - 1:m.start()] == "." or text[m.end():m.end() + 1] == "."
        return word if beside and word == respelled(word) else names.get(word, word)
    return TOKEN.sub(one, text)


# Code has no names of these forms, so that what is turned stands in a clause, a `ghost use` or a comment; strings stay.
def turn_source(text, names):
    camel = {old: new for old, new in names.items() if old != respelled(old)}
    return "".join(l if '"' in l else turn(l, camel) for l in text.splitlines(keepends=True))


# Edits and pages were not turned by port.py: what it respelled in the files is respelled here.
def turn_page(text, names, known, quoted):
    def one(m):
        word = m.group(0)
        if word == respelled(word):
            return word
        return names.get(word, respelled(word) if respelled(word) in known else word)
    if quoted:
        return re.sub(r"`[^`\n]*`", lambda m: TOKEN.sub(one, m.group(0)), text)
    return TOKEN.sub(one, text)


def chosen(known, theirs):
    """Old name to new. A lemma that would have its function's name gets `_lem`."""
    names = {n: respelled(n) for n in known if respelled(n) != n and n not in theirs and not MADE.search(n)}
    functions = {new for old, new in names.items() if "-" not in old}
    for old, new in list(names.items()):
        if "-" in old and (new in functions or new in known):
            names[old] = new + "_lem"
    # port.py turned the lemma, and left the function
    for new in functions:
        if new in known:
            names[new] = new + "_lem"
    return names


def main(argv):
    files = list(antt())
    known = declared(files)
    names = chosen(known, imported(files))
    if argv:
        tokens = {t for path in files for t in TOKEN.findall(re.sub(r"--.*", "", read(path)))}
        turned = sorted(names.values())
        for old, new in sorted(names.items()):
            print(old, new, "TWICE" if turned.count(new) > 1 or new in known and new not in names else "", "token" if new in tokens else "")
        return 0
    after = known | set(names.values())
    pages = [os.path.join(TOP, "README.md"), *glob.glob(os.path.join(TOP, "docs/*.md"))]
    turns = [(files, lambda t: turn(t, names)), (glob.glob(os.path.join(TOP, "crates/*/src/**/*.rt"), recursive=True), lambda t: turn_source(t, names))]
    turns += [(glob.glob(os.path.join(TOP, "crates/*/must-fail/*.edit")), lambda t: turn_page(t, names, after, False))]
    turns += [(pages, lambda t: turn_page(t, names, after, True))]
    for paths, change in turns:
        for path in paths:
            old = read(path)
            new = change(old)
            if new != old:
                with open(path, "w", encoding="utf-8") as f:
                    f.write(new)
    return 0


if __name__ == "__main__":
    raise SystemExit(main(sys.argv[1:]))
