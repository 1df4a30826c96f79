#!/usr/bin/env python3
"""Brings this repository's own definitions and lemmas to one spelling: words in snake case, types and modules in camel case.

usage: python3 tools/respell.py      at the top of the repository, once

A name counts as this repository's own where a file of specs/ or a file of lemmas in proofs/ (none of a function's folder) declares it.
It is turned in every .antt and .rt file below crates/, and in the pages of docs/ and README.md between backquotes; in comments only
where it cannot be an English word. Names of types, facts and modules begin with a capital and stay. Names of src/ stay: they are in
snake case, and so none of them is looked for. Where two names fall together, LEMMAS says what the lemma is called.
"""

import collections
import os
import re

# A lemma that would have its definition's name.
LEMMAS = {
    "may-hold": "may_hold_lem",
    "outcome-by": "outcome_by_lem",
    "train-after": "train_after_lem",
    "count-after": "count_after_lem",
    "spot-at": "spot_at_lem",
    "place-of-way": "place_of_way_lem",
    "area-A": "area_a_lem",
    "way-of": "way_of_lem",
    "in-header": "in_header_lem",
    "length-of": "length_of_lem",
    "is-sound": "is_sound_lem",
    "route-of": "route_of_lem",
    "header-filed": "header_filed_lem",
    "block_size": "block_size_lem",
}

DECLARED = re.compile(r"^\s*(?:(?:abbrev|unfoldable|pub|record|data)\s+)*([^\s:(){}=|,;]+)\s*(?:\([^=]*|\{[^=]*)?:\s")
TOKEN = re.compile(r"[^\s(){}\[\];,.\"`⌜⌝]+")
OPERATORS = {"◌orElse◌": "◌or_else◌"}


def snake(name):
    return re.sub(r"([a-z0-9])([A-Z])", r"\1_\2", name).replace("-", "_").replace("′", "'").lower()


def files(*ends):
    for folder, dirs, names in os.walk("crates"):
        dirs[:] = sorted(d for d in dirs if d != "out")
        for name in sorted(names):
            if name.endswith(ends):
                yield os.path.join(folder, name)


def own():
    """The declared names, each with the files that declare it."""
    found = collections.defaultdict(set)
    for path in files(".antt"):
        if "/specs/" not in path and not re.search(r"/proofs/[^/]*$", path):
            continue
        with open(path) as f:
            for line in f:
                m = DECLARED.match(line)
                if m:
                    found[m.group(1)].add(path)
    return found


def main():
    names = own()
    table = dict(OPERATORS)
    for name in names:
        if name[0].islower() and (snake(name) != name or name in LEMMAS):
            table[name] = LEMMAS.get(name, snake(name))
    fallen = collections.defaultdict(set)
    for name in names:
        fallen[table.get(name, name)].add(name)
    for to, those in sorted(fallen.items()):
        if len(those) > 1:
            print("together:", to, sorted(those), sorted({p for n in those for p in names[n]}))

    def turn(text, words):
        return TOKEN.sub(lambda m: words.get(m.group(0), m.group(0)), text)

    # In the pages names are also turned that stand in the new spelling everywhere else already.
    known = {table.get(n, n) for n in names}

    class Earlier(dict):
        def get(self, word, default):
            return snake(word) if word[0].islower() and word not in known and snake(word) in known else default

    earlier = Earlier()
    english = {n: t for n, t in table.items() if "-" not in n and re.search(r"[a-z0-9][A-Z]", n)}
    for path in files(".antt", ".rt"):
        mark = "--" if path.endswith(".antt") else "//"
        with open(path) as f:
            text = f.read()
        # What a file has from a library keeps its name there.
        kept = set()
        for module, taken in re.findall(r"^(?:pub )?use ([^\s{]+)\.\{([^}]*)\}", text, re.M):
            part = module.split(".")
            if part[0] != "Rattle" or not os.path.isdir(os.path.join("crates", part[1])):
                kept |= set(re.split(r",\s*", taken))
        here = {n: t for n, t in table.items() if n not in kept}
        lines = []
        for line in text.split("\n"):
            at = re.search(r"(^|\s)" + mark + r"(\s|$)", line)
            code, comment = (line[: at.start()], line[at.start() :]) if at else (line, "")
            lines.append(turn(code, here) + turn(comment, english))
        new = "\n".join(lines)
        if new != text:
            with open(path, "w") as f:
                f.write(new)
    pages = ["README.md"] + [os.path.join(d, n) for d, _, ns in sorted(os.walk("docs")) for n in sorted(ns) if n.endswith(".md")]
    for path in pages:
        with open(path) as f:
            text = f.read()
        new = re.sub(r"`[^`\n]+`", lambda m: turn(turn(m.group(0), table), earlier), text)
        if new != text:
            with open(path, "w") as f:
                f.write(new)


main()
