#!/usr/bin/env python3
"""Brings the repository's own names in specs/, proofs/ and clauses to snake case (words) and upper camel case (types).

usage: python3 tools/respell.py [--list]      at the top of the repository, once, after the kit's port.py

A name counts as the repository's own where a file of specs/ or proofs/ declares it: a definition, a lemma, a record, a data type, a field,
a constructor, or the name that a `use` line gives an import. An answer (its type is a goal) has the name that Rattle gives it, and stays. Functions of src/, strings, inputs and outputs stay.
"""

import os
import re
import sys

# A name of antt's: letters, digits, primes, dashes and underscores, beginning with a letter.
NAME = r"[^\W\d_][\w'\-]*"
TOKEN = re.compile(r"(?<![\w'\-])" + NAME)
TOP = re.compile(r"^(?:abbrev |unfoldable )?(?:pub )?(" + NAME + r") :(?= |$)(.*)")
ALIAS = re.compile(r" as (" + NAME + r")(?=[,}])")
KIND = re.compile(r"^\s*(?:pub )?(?:data|record) (" + NAME + r")")
MEMBER = re.compile(r"^\s+(?:abbrev |unfoldable )?(?:pub )?(" + NAME + r") :(?= |$)(.*)")

# Names that would fall together with another: what they become.
TABLE = {
    "Strict-rule": "StrictFormRule",
    "Unit-step": "ChainStep",
    "Least-cost": "IsLeastCost",
    "Too-short": "LineTooShort",
    "yesNo": "yes_no_ops",
    "yesNo-laws": "yes_no_ops_laws",
}


def snake(name):
    name = name.replace("-", "_")
    name = re.sub(r"(?<=[a-z0-9'])([A-Z])", lambda m: "_" + m[1].lower(), name)
    return re.sub(r"_([A-Z])(?![A-Z])", lambda m: "_" + m[1].lower(), name)


def camel(name):
    return "".join(p[:1].upper() + p[1:] for p in re.split(r"[-_]", name))


def respelled(name):
    if name in TABLE:
        return TABLE[name]
    return camel(name) if name[0].isupper() else snake(name)


def texts(*endings):
    for folder, dirs, files in os.walk("crates"):
        dirs[:] = sorted(d for d in dirs if d != "out")
        for f in sorted(files):
            if f.endswith(endings):
                yield os.path.join(folder, f)


def own_names():
    """Each declared name, with the files that declare it."""
    found = {}
    for path in texts(".antt"):
        with open(path, encoding="utf-8") as f:
            lines = f.read().split("\n")
        for line in lines:
            if line.startswith("use "):
                for m in ALIAS.finditer(line):
                    found.setdefault(m[1], set()).add(path)
            m = KIND.match(line)
            if m:
                found.setdefault(m[1], set()).add(path)
                continue
            m = TOP.match(line)
            if m and not re.match(r" goal\.", m[2]):
                found.setdefault(m[1], set()).add(path)
                continue
            m = MEMBER.match(line)
            if m and not re.match(r" goal\.", m[2]):
                found.setdefault(m[1], set()).add(path)
    return found


def main():
    names = own_names()
    turned = {n: respelled(n) for n in names if respelled(n) != n}
    if "--list" in sys.argv:
        for n in sorted(turned):
            print(n, turned[n], len(names[n]))
        return
    for path in texts(".antt", ".rt", ".edit"):
        with open(path, encoding="utf-8") as f:
            old = f.read()
        new = TOKEN.sub(lambda m: turned.get(m[0], m[0]), old)
        if new != old:
            with open(path, "w", encoding="utf-8") as f:
                f.write(new)
    print(f"respell: {len(turned)} names")


main()
