#!/usr/bin/env python3
"""Statements of the lemmas in proofs/*.antt, a turned repository's beside this one's: usage: lemmas.py TURNED_FOLDER THIS_FOLDER

A statement is the text of a signature, from the name to its first clause, with the lines `module _ ..` above it. Those that are gone or read otherwise are printed; proofs of functions,
imports and white space are left out."""
import glob
import os
import re
import sys

sys.path.insert(0, os.path.dirname(os.path.abspath(__file__)))
import respell


def statements(path):
    with open(path, encoding="utf-8") as it:
        lines = it.read().split("\n")
    found, modules, i = {}, [], 0
    while i < len(lines):
        line = lines[i]
        bare = line.strip()
        indent = len(line) - len(line.lstrip())
        if bare and not bare.startswith("--"):
            modules = [m for m in modules if m[0] < indent]
        m = re.match(r"\s*module (.*) where$", line)
        if m:
            modules.append((indent, m.group(1)))
        names = list(respell.declared(line + "\n", False))
        if names:
            name, text, j = names[0][0], bare, i + 1
            while j < len(lines) and lines[j].strip() and len(lines[j]) - len(lines[j].lstrip()) > indent:
                text += " " + lines[j].strip()
                j += 1
            if " = " not in bare.split(" : ")[0]:
                key = (os.path.basename(path), name, sum(1 for k in found if k[:2] == (os.path.basename(path), name)))
                found[key] = " | ".join([t for _, t in modules] + [" ".join(text.split())])
            i = j
            continue
        i += 1
    return found


def main(argv):
    old, new = argv
    gone, other, count, added = [], [], 0, 0
    for folder in sorted(glob.glob(os.path.join(old, "crates", "*", "proofs"))):
        crate = os.path.basename(os.path.dirname(folder))
        a, b = {}, {}
        for root, into in ((old, a), (new, b)):
            for f in sorted(glob.glob(os.path.join(root, "crates", crate, "proofs", "*.antt"))):
                into.update(statements(f))
        count += len(a)
        added += len([k for k in b if k not in a])
        for k, text in a.items():
            if k not in b:
                gone.append(f"{crate} {k[0]} {k[1]}: {text}")
            elif b[k] != text:
                other.append(f"{crate} {k[0]} {k[1]}:\n  - {text}\n  + {b[k]}")
    print("\n".join(["gone: " + g for g in gone] + ["reads otherwise: " + o for o in other]))
    print(f"{count} statements, {len(gone)} gone, {len(other)} read otherwise, {added} new")


if __name__ == "__main__":
    main(sys.argv[1:])
