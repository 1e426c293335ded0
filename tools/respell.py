#!/usr/bin/env python3
"""Gives this repository's own definitions and lemmas today's spelling: snake case for what had dashes.

usage: python3 tools/respell.py      at the top of the repository, once, after port.py
       python3 tools/respell.py --list      the names, and those new ones that stand somewhere already; writes nothing

Two kinds of names change, as whole words, in each .antt and .rt file below crates/:
- a definition, lemma, field, constructor or local name that an .antt file of specs/ or proofs/ declares;
- in proofs, a name of the source that the older Rattle wrote with dashes for its underscores (a function, a label, a
  field): `c.place-around` is `c.place_around`.
Other names that Rattle makes, of goals, invariants and steps, and names of its libraries keep their dashes.
"""

import os
import re
import sys

WORD = r"[^\W\d_][\w'?]*(?:-[\w'?]+)+"
# what may stand inside a name, so that no part of a longer name is taken for a whole one
INNER = r"[\w'?◌·«»-]"
DECLARED = [
    re.compile(rf"^ *(?:(?:abbrev|unfoldable|pub|pattern) )*({WORD}) :(?! goal\.)(?: |$)", re.M),
    re.compile(rf"^ *\| ({WORD})(?: |$)", re.M),
    re.compile(rf"\blet ({WORD}) "),
]
# a variable that only patterns name
VARIABLES = {"some-round"}


def files(root, endings):
    for folder, dirs, names in os.walk(os.path.join(root, "crates")):
        dirs[:] = sorted(d for d in dirs if d != "out")
        for name in sorted(names):
            if name.endswith(endings):
                yield os.path.join(folder, name)


def text(path):
    with open(path, encoding="utf-8") as f:
        return f.read()


def own_names(root):
    found = set(VARIABLES)
    for path in files(root, (".antt",)):
        t = text(path)
        for form in DECLARED:
            found.update(form.findall(t))
    return found


def source_names(root):
    """The words with dashes in proofs that are names of the source but for the dashes."""
    source = set()
    for path in files(root, (".rt",)):
        source.update(re.findall(r"[^\W\d]\w*", text(path)))
    found = set()
    for path in files(root, (".antt",)):
        if f"{os.sep}proofs{os.sep}" in path:
            found.update(w for w in re.findall(rf"(?<!{INNER}){WORD}(?!{INNER})", text(path)) if w.replace("-", "_") in source)
    return found


def main():
    root = os.getcwd()
    if not os.path.isdir(os.path.join(root, "crates")):
        sys.exit("respell: run it at the top of the repository")
    own, source = own_names(root), source_names(root)
    used = set()
    for path in files(root, (".antt", ".rt")):
        used.update(re.findall(r"[^\W\d_][\w'?-]*", text(path)))
    names = {n: n.replace("-", "_") for n in own | source}
    if "--list" in sys.argv:
        for n in sorted(names):
            kinds = [k for k, s in (("own", own), ("source", source)) if n in s]
            print(n, "and".join(f" {k} " for k in kinds).strip() + (", stands already" if names[n] in used else ""))
        return
    if not names:
        sys.exit("respell: no name to change")
    form = re.compile(rf"(?<!{INNER})(?:{'|'.join(re.escape(n) for n in sorted(names, key=len, reverse=True))})(?!{INNER})")
    for path in files(root, (".antt", ".rt")):
        old = text(path)
        new = form.sub(lambda m: names[m.group()], old)
        if new != old:
            with open(path, "w", encoding="utf-8") as f:
                f.write(new)
    print(f"respell: {len(names)} names")


main()
