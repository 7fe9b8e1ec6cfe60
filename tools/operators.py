#!/usr/bin/env python3
"""Imports the library's operators from the library.

usage: tools/operators.py      at the top of the repository: rewrites the `use` lines of crates/*/specs and crates/*/proofs

The Prelude of rules passes on the library's names. Under `rt ci` an operator of the library, as `◌+◌`, is to be imported from
Rattle.std.specs.Prelude itself, so that a reader sees that it is the library's own. Each operator in a `use` of the Prelude of rules moves to a
line `use Rattle.std.specs.Prelude.{..}` above it; all other names stay. What a name stands for does not change.
"""
import glob, re

own, std = "Rattle.rules.specs.Prelude.", "Rattle.std.specs.Prelude."
item = re.compile(r"(?m)^use " + re.escape(own) + r"\{([^}]*)\}\n")


# The names of a list `{a, b as c}`.
def names(text):
    return [it.strip() for it in text.split(",") if it.strip()]


def rewritten(text):
    def of_library(found):
        has = {name for line in re.findall(r"(?m)^use " + re.escape(std) + r"\{([^}]*)\}", text) for name in names(line)}
        operators = [it for it in names(found[1]) if "◌" in it and it not in passed and it not in has]
        left = [it for it in names(found[1]) if "◌" not in it or it in passed]
        lines = ["use %s{%s}\n" % (path, ", ".join(found)) for path, found in ((std, operators), (own, left)) if found]
        return "".join(lines)

    return item.sub(of_library, text)


# What rules itself defines is its own.
prelude = open("crates/rules/specs/Prelude.antt", encoding="utf-8").read()
library = re.search(r"(?m)^pub use " + re.escape(std) + r"\{([^}]*)\}", prelude)[1]
passed = set(re.findall(r"\S*◌\S*", prelude.replace(",", " ").replace("{", " ").replace("}", " "))) - set(names(library))

for path in sorted(glob.glob("crates/*/specs/**/*.antt", recursive=True) + glob.glob("crates/*/proofs/**/*.antt", recursive=True)):
    text = open(path, encoding="utf-8").read()
    if rewritten(text) != text:
        with open(path, "w", encoding="utf-8") as file:
            file.write(rewritten(text))
        print(path)
