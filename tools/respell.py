#!/usr/bin/env python3
"""Brings the repository's own names in specs/, proofs/, contracts and edits to snake case, and its modules to camel case.

usage: python3 tools/respell.py      at the top of the repository, once, after the kit's own script

The names stand in respelled.tsv beside this file: older, today's. Functions of src/ keep their names.
"""

import os
import re
import subprocess

HERE = os.path.dirname(os.path.realpath(__file__))
NAME = re.compile(r"[^\W\d][\w'′]*(?:-[\w'′]+)*")
MODULES = {
    "laws": "again survivors examples references thinned attributes refusals ranges room tables fixed keep".split(),
    "rewriting": "kept_pass list_pass map_pass write_pass whole".split(),
}


def camel(word):
    return "".join(part.capitalize() for part in word.split("_"))


def table():
    """Names that change wherever they stand, and lemmas, which keep their name as a field or a step of a proof."""
    names, lemmas = {}, {}
    with open(os.path.join(HERE, "respelled.tsv"), encoding="utf-8") as f:
        to = names
        for line in f:
            if line.startswith("# Lemmas"):
                to = lemmas
            if not line.startswith("#"):
                old, new = line.rstrip("\n").split("\t")
                to[old] = new
    return names, lemmas


def turned(text, names, lemmas):
    def one(m):
        before = text[m.start() - 1:m.start()]
        word = m.group(0)
        if word in lemmas and before != ".":
            return lemmas[word]
        return names.get(word, word)

    return NAME.sub(one, text)


def modules(text, crate):
    text = re.sub(r"(Rattle\.\w+\.specs)\.inner\b", r"\1.Inner", text)
    text = re.sub(r"(specs)/inner\b", r"\1/Inner", text)
    for owner, names in MODULES.items():
        for name in names:
            text = re.sub(rf"(Rattle\.{owner}\.proofs)\.{name}\b(?=\.)", rf"\1.{camel(name)}", text)
            text = re.sub(rf"({owner}/proofs)/{name}\b", rf"\1/{camel(name)}", text)
            if crate == owner:
                text = re.sub(rf"(?m)^pub mod {name}$", f"pub mod {camel(name)}", text)
    return text


def move(root, old, new):
    if os.path.exists(os.path.join(root, old)):
        subprocess.run(["git", "mv", old, new], cwd=root, check=True)


def main():
    root = subprocess.run(["git", "rev-parse", "--show-toplevel"], capture_output=True, text=True, check=True).stdout.strip()
    names, lemmas = table()
    listed = subprocess.run(["git", "ls-files", "-z", "crates", "tests/edits"], cwd=root, capture_output=True, text=True, check=True).stdout
    for path in [p for p in listed.split("\0") if p.endswith((".antt", ".rt", ".edit"))]:
        at = os.path.join(root, path)
        with open(at, encoding="utf-8") as f:
            old = f.read()
        crate = path.split("/")[1 if path.startswith("crates") else 2]
        new = turned(old, names, lemmas if path.endswith(".antt") else {})
        new = modules(new, crate)
        if path.endswith("specs/Lib.antt"):
            new = re.sub(r"(?m)^pub mod inner$", "pub mod Inner", new)
        if path.endswith(".edit"):
            new = re.sub(r"(?m)^(file: specs)/inner\b", r"\1/Inner", new)
        if new != old:
            with open(at, "w", encoding="utf-8") as f:
                f.write(new)
    for crate in sorted(os.listdir(os.path.join(root, "crates"))):
        move(root, f"crates/{crate}/specs/inner.antt", f"crates/{crate}/specs/Inner.antt")
        move(root, f"crates/{crate}/specs/inner", f"crates/{crate}/specs/Inner")
        for name in MODULES.get(crate, []):
            move(root, f"crates/{crate}/proofs/{name}.antt", f"crates/{crate}/proofs/{camel(name)}.antt")
            move(root, f"crates/{crate}/proofs/{name}", f"crates/{crate}/proofs/{camel(name)}")


if __name__ == "__main__":
    main()
