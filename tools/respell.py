#!/usr/bin/env python3
"""Spells the names of this repository's definitions and lemmas as today's Rattle does, by respelled.tsv beside this file.

usage: tools/respell.py [FOLDER]      once, at the top, right after the kit's port.py

A word of a definition is in snake case. A dash stays where it joins the names of two definitions, as in cut-cut; in a phrase the words
are joined by underscores. A lemma that would have its definition's name ends in _lem. Functions of src/, exported names, strings,
inputs and outputs keep their names.
"""

import os
import re
import sys

HERE = os.path.dirname(os.path.realpath(__file__))
TOKEN = re.compile(r"[^\s(){}.;,@\"«»:]+")
SIGNATURE = re.compile(r"^(\s*)((?:pattern |unfoldable |abbrev |pub )*)([^\s(){}.;,@\"«»:]+)((?: \{[^{}\n]*\})*) :(?!:)")
USE = re.compile(r"\buse ([^\s;{]+)\{([^}]*)\}")
GOAL = re.compile(r": .*\btie\.(Need|Inv|Meas|Own)")
PROOF = re.compile(r"/proofs/[^/]+/[^/]+\.antt$")
CAMEL = re.compile(r"[a-z][a-z0-9_]*[A-Z]")

with open(os.path.join(HERE, "respelled.tsv"), encoding="utf-8") as f:
    TABLE = dict(line.rstrip("\n").split("\t") for line in f)

# Lemmas whose name the kit's script made that of a definition, in the files that speak of both.
LEMMAS = {
    "crates/cut_laws/proofs/Items.antt": ["items_left"],
    "crates/decimal_laws/proofs/Reading.antt": ["is_digit"],
    "crates/decimal/proofs/Valued.antt": ["is_digit"],
    "crates/feed_laws/proofs/Goes.antt": ["goes_on"],
    "crates/feed_laws/proofs/Says.antt": ["goes_on", "too_large"],
    "crates/feed_laws/proofs/Feeding.antt": ["goes_on"],
}


def code_and_comment(line):
    found = re.search(r"(?:^|\s)--(?:\s|$)", line)
    return (line[: found.start()], line[found.start() :]) if found else (line, "")


def own_names(text):
    """What a function's proof imports or declares: the other names in it may be Rattle's."""
    names = set()
    for use in USE.finditer(text):
        names.update(it.strip().split(" as ")[0] for it in use[2].split(","))
    for line in text.split("\n"):
        found = SIGNATURE.match(line)
        if found and not GOAL.search(line):
            names.add(found[3])
    return names


def antt(path, text):
    lemmas = LEMMAS.get(path, [])
    own = own_names(text) if PROOF.search("/" + path) else None

    def spelled(match):
        name = match[0]
        if name in lemmas:
            return name + "_lem"
        if name in TABLE and (own is None or name in own or CAMEL.match(name)):
            return TABLE[name]
        return name

    lines = []
    for line in text.split("\n"):
        code, comment = code_and_comment(line)
        comment = re.sub(r"[A-Za-z0-9]+", lambda m: TABLE.get(m[0], m[0]) if CAMEL.match(m[0]) else m[0], comment)
        lines.append(TOKEN.sub(spelled, code) + comment)
    return "\n".join(lines)


def rt(text):
    """No function of src/ has a name in camel case that begins small, so such a name is a definition's."""
    return re.sub(r"(?<![\w\"])[a-z]\w*(?!\w)", lambda m: TABLE.get(m[0], m[0]) if CAMEL.match(m[0]) else m[0], text)


def main():
    root = os.path.realpath(sys.argv[1] if len(sys.argv) > 1 else ".")
    count = 0
    for folder, dirs, files in os.walk(os.path.join(root, "crates")):
        dirs[:] = sorted(d for d in dirs if d != "out")
        for name in sorted(files):
            if not name.endswith((".antt", ".rt", ".edit")):
                continue
            path = os.path.join(folder, name)
            with open(path, encoding="utf-8") as f:
                old = f.read()
            new = antt(os.path.relpath(path, root), old) if name.endswith(".antt") else rt(old)
            if new != old:
                with open(path, "w", encoding="utf-8") as f:
                    f.write(new)
                count += 1
    print(f"respell: {count} files")


main()
