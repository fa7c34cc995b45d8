#!/usr/bin/env python3
"""Brings the names of this repository's definitions and lemmas to today's spelling, once, in place.

Words are in snake case: `unfitLimit` becomes `unfit_limit`. A dash stays between two names of definitions, as in `length-step_table`,
and becomes `_` before or after a plain word, as in `rem_small`. Types, modules, functions of src/ and names of the libraries stay.
Run at the top, after port.py and before any edit by hand. It prints each name with its new spelling, and stops where two would fall
together."""

import collections
import glob
import os
import re
import sys

DEFINED = re.compile(r"\s*(?:(?:abbrev|unfoldable|pub)\s+)+([a-z][\w']*)(?:\s+[({][^=]*?)?\s*:(?:\s|$)")
DECLARED = re.compile(r"\s*(?:(?:abbrev|opaque|unfoldable|pub|instance)\s+)*(?:(?:record|data)\s+)?([A-Za-z][\w'-]*)(?:\s+[({][^=]*?)?\s*:(?:\s|$)")
TOKEN = re.compile(r"(?<![\w'\u25cc-])[A-Za-z][\w'-]*")
USE = re.compile(r"(?:pub\s+)?(?:ghost\s+)?use\s+([\w.'+-]+?)\.\{([^}]*)\}", re.S)
# words of the libraries that lemmas here are named after
WORDS = set("length append take drop set map replicate reverse rem add sub mul div mod xor and or ones sum get_or concat".split())
# lemmas that would have the name of the definition that they are about
LEMMAS = {n: n.replace("-", "_") + "_lem" for n in ("right-tables", "sum-from", "field-inside", "came_from")}
# fields of a record and lemmas of other modules, which are never one name
APART = {"fit_length", "fit_check_field", "fit_limit", "fit_range", "fit_values"}


def read(path):
    with open(path, encoding="utf-8") as f:
        return f.read()


def laws():
    return sorted(glob.glob("crates/*/specs/*.antt") + glob.glob("crates/*/proofs/*.antt"))


def snake(word):
    if word == "getD":
        return "get_or"
    if word[0].isupper():
        return word
    return re.sub(r"(?<=[a-z0-9])([A-Z])", lambda m: "_" + m[1].lower(), word)


def declared(paths):
    names = collections.defaultdict(set)
    for p in paths:
        for line in read(p).split("\n"):
            m = DECLARED.match(line)
            if m:
                names[m[1]].add(p)
    return names


def respelled(name, words):
    parts = name.split("-")
    out = snake(parts[0])
    for before, part in zip(parts, parts[1:]):
        out += ("-" if before in words and part in words else "_") + snake(part)
    return out


def foreign(text, crates):
    """The names that a file takes from libraries."""
    names = set()
    for path, items in USE.findall(text):
        steps = path.split(".")
        if not (steps[0] == "Rattle" and len(steps) > 1 and steps[1] in crates):
            for item in items.split(","):
                names.update(w for w in item.split() if w != "as")
    return names


def main():
    crates = set(os.listdir("crates"))
    names = declared(laws())
    words = set(WORDS)
    for p in glob.glob("crates/*/specs/*.antt"):
        words.update(m[1] for line in read(p).split("\n") if (m := DEFINED.match(line)) and re.match(r"\s*(abbrev|unfoldable)\b", line))
    new = {n: LEMMAS.get(n) or respelled(n, words) for n in names}
    new = {n: s for n, s in new.items() if n != s}
    falls = collections.defaultdict(list)
    for n in names:
        falls[new.get(n, n)].append(n)
    bad = {s: ns for s, ns in falls.items() if len(ns) > 1 and s not in APART}
    for s, ns in sorted(bad.items()):
        print("fall together:", s, "from", " ".join(f"{n} ({', '.join(sorted(names[n]))})" for n in ns))
    if bad:
        return 1
    files = glob.glob("crates/**/*.antt", recursive=True) + glob.glob("crates/*/src/**/*.rt", recursive=True) + glob.glob("crates/*/must-fail/*.edit")
    for p in sorted(f for f in files if "/out/" not in f):
        text = read(p)
        other = foreign(text, crates)
        turned = TOKEN.sub(lambda m: new[m[0]] if m[0] in new and m[0] not in other else m[0], text)
        if turned != text:
            with open(p, "w", encoding="utf-8") as f:
                f.write(turned)
    for n, s in sorted(new.items()):
        print(n, s)
    return 0


if __name__ == "__main__":
    sys.exit(main())
