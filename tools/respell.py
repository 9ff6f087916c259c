#!/usr/bin/env python3
"""Brings the repository's own definitions and lemmas to Rattle's spelling: words in snake case, types and modules in
camel case; a dash still joins the parts of a lemma's name. Run once, at the top, right after port.py.

usage: tools/respell.py [--try]        --try only says what would fall together
"""

import os
import re
import sys

TOKEN = re.compile(r"[A-Za-z_][A-Za-z0-9_'-]*")
PART = re.compile(r"[a-z]+[a-z0-9']*[A-Z][A-Za-z0-9']*$")
USE = re.compile(r"\buse\s+([A-Za-z0-9_.'+-]+)(?:\.\{([^}]*)\})?")


# Lemmas that a definition's new name would fall together with: where they stand, and what they are called.
LEMMAS = [
    ("pairs/proofs/", "sum_over"),
    ("automata/proofs/AlikeSamples.antt", "alike_all"),
    ("minimize/proofs/", "ready_by"),
    ("running/proofs/Answers.antt", "ran_to"),
]
# Rattle makes a module specs.contracts, so text's own gets another name.
MODULE = ("crates/text/specs/Contracts.antt", "crates/text/specs/Clauses.antt")


def files(top):
    for folder, dirs, names in os.walk(os.path.join(top, "crates")):
        dirs[:] = sorted(d for d in dirs if d != "out")
        for name in sorted(names):
            if name.endswith((".antt", ".rt", ".edit")):
                yield os.path.join(folder, name)


def snake(part):
    if not PART.match(part):
        return part
    return re.sub(r"(?<=[a-z0-9'])([A-Z])", lambda m: "_" + m.group(1).lower(), part).lower()


def respelled(token):
    return "-".join(snake(part) for part in token.split("-"))


def main():
    top = os.getcwd()
    own = set(os.listdir(os.path.join(top, "crates")))
    texts = {path: open(path, encoding="utf-8").read() for path in files(top)}
    for place, name in LEMMAS:
        for path in texts:
            if os.path.relpath(path, top).startswith("crates/" + place):
                texts[path] = re.sub(rf"(?<![A-Za-z0-9_.'-]){name}(?![A-Za-z0-9_'-])", name + "_lem", texts[path])
    foreign = set()
    for path, text in texts.items():
        for module, names in USE.findall(text):
            parts = module.split(".")
            if parts[0] == "Rattle" and len(parts) > 1 and parts[1] in own:
                continue
            foreign.update(TOKEN.findall(names or ""))
            foreign.update(parts)
    table = {}
    for text in texts.values():
        for token in TOKEN.findall(text):
            if token not in foreign and respelled(token) != token:
                table[token] = respelled(token)
    for path, text in texts.items():
        seen = {}
        for token in set(TOKEN.findall(text)):
            seen.setdefault(table.get(token, token), set()).add(token)
        for new, old in seen.items():
            if len(old) > 1:
                print(f"together: {os.path.relpath(path, top)}: {' '.join(sorted(old))} -> {new}")
    print(f"{len(table)} names, {len(texts)} files")
    if "--try" in sys.argv:
        return
    old, new = (os.path.join(top, path) for path in MODULE)
    os.rename(old, new)
    texts[new] = texts.pop(old)
    for path, text in texts.items():
        text = text.replace("Rattle.text.specs.Contracts.", "Rattle.text.specs.Clauses.")
        if path.endswith("text/specs/Lib.antt"):
            text = text.replace("mod Contracts", "mod Clauses")
        new = TOKEN.sub(lambda m: table.get(m.group(0), m.group(0)), text)
        if path.endswith((".antt", ".rt", ".edit")):
            with open(path, "w", encoding="utf-8") as f:
                f.write(new)


main()
