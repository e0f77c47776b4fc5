#!/usr/bin/env python3
"""Respells the repository's own definitions and lemmas, after port.py: words in snake case, as today's library has them.

usage: python3 tools/port/respell.py [ROOT]           rewrites the files below ROOT/crates in place
       python3 tools/port/respell.py --list [ROOT]    prints the old and new names, and what falls together, and writes nothing

What is declared in specs/ and proofs/ (a definition, a lemma, a field, a constructor) and is no type gets snake case: `rowSlot` becomes
`row_slot`, `table-ext` becomes `table_ext`. Types, modules and names that the compiler makes keep their spelling, as do functions, types and
strings of src/. A lemma whose new name a definition has gets `_lem` (LEMMAS).
"""
import collections
import glob
import os
import re
import sys

TOKEN = r"[^\s(){}\[\],;.«»\"`]+"
DECLARED = re.compile(r"^(\s*)((?:abbrev |unfoldable |pub |opaque )*)(data |record |module )?(%s)(?= |$)" % TOKEN)
NO_NAME = {"use", "pub", "let", "in", "where", "mod", "infixl", "infixr", "infix", "unfolding", "ruleset", "λ", "--"}
# Lemmas whose new name a definition has, or gets: `_lem` tells them apart.
LEMMAS = """b-of bands-of cell-u constant-at constants-at is-nan j-of joined-left k-of leg-of measures-of pair-total row-entry slot-in
slot-phonons slot-value strengths-left totals-left whole-within words-u""".split()
OTHERWISE = {n: n.replace("-", "_") + "_lem" for n in LEMMAS} | {"key-cases": "key_cases_hold"}


def files(root):
    found = []
    for kind in ("specs", "proofs"):
        found += glob.glob(os.path.join(root, "crates", "*", kind, "**", "*.antt"), recursive=True)
    return sorted(f for f in found if "/out/" not in f)


def sources(root):
    return sorted(f for f in glob.glob(os.path.join(root, "crates", "*", "src", "**", "*.rt"), recursive=True))


def declared(text, answers):
    """The names that a file declares, with their signatures. In a proof file of a function, names of goals are left out."""
    for line in text.splitlines():
        if line.lstrip().startswith("--"):
            continue
        m = DECLARED.match(line)
        if not m or m.group(4) in NO_NAME or m.group(3) == "module ":
            continue
        rest = line[m.end(4):]
        if " : " not in rest:
            continue
        head = rest.split(" : ")[0].strip()
        if head and not (head[0] in "({" and head[-1] in ")}"):
            continue
        if answers and re.match(r"\s*:\s*(\{M : Type 1\} → statement|(tie|goal)\.)", rest):
            continue
        yield m.group(4), m.group(3) or ""


def snake(name):
    if name in OTHERWISE:
        return OTHERWISE[name]
    parts = name.split("-")
    done = []
    for p in parts:
        q = re.sub(r"(?<=[a-z0-9])([A-Z])", lambda m: "_" + m.group(1).lower(), p)
        done.append(q)
    return "_".join(done)


def table(root):
    names = set()
    for f in files(root):
        with open(f, encoding="utf-8") as it:
            for n, kind in declared(it.read(), f.endswith("Proof.antt")):
                if kind or not re.match(r"[a-zα-ω0-9]", n):
                    continue
                if re.search(r"[a-z0-9][A-Z]", n) or "-" in n:
                    names.add(n)
    return {n: snake(n) for n in sorted(names) if snake(n) != n}


def tokens(text):
    return set(re.findall(TOKEN, text))


def clashes(root, names):
    """New names that a file has already, beside a file's own old name; and old names that get one new name."""
    said = []
    back = collections.defaultdict(list)
    for a, b in names.items():
        back[b].append(a)
    for b, olds in sorted(back.items()):
        if len(olds) > 1:
            said.append(f"together: {' '.join(olds)} -> {b}")
    for f in files(root) + sources(root):
        with open(f, encoding="utf-8") as it:
            text = "\n".join(l for l in it.read().splitlines() if not l.lstrip().startswith(("--", "//")))
        here = tokens(text)
        if f.endswith(".rt"):
            here |= set(re.findall(r"[A-Za-z_][A-Za-z0-9_]*", text))
        for a in here:
            if a in names and names[a] in here:
                said.append(f"taken: {os.path.relpath(f, root)}: {a} -> {names[a]}")
    return said


def turned(text, names, ghost):
    def one(m):
        return names.get(m.group(0), m.group(0))

    lines = []
    for line in text.split("\n"):
        bare = line.lstrip()
        if bare.startswith(("--", "//")):
            line = re.sub(r"[A-Za-z0-9]*[a-z0-9][A-Z][A-Za-z0-9]*", one, line)
        elif not ghost:
            line = re.sub(TOKEN, one, line)
        else:
            line = re.sub(r"[A-Za-z0-9]*[a-z0-9][A-Z][A-Za-z0-9]*", one, line)
            if "ghost" in line or "{ " in line:
                line = re.sub(TOKEN, one, line)
        lines.append(line)
    return "\n".join(lines)


def main(argv):
    only_list = argv[:1] == ["--list"]
    root = (argv[1:] if only_list else argv)[:1] or ["."]
    root = os.path.abspath(root[0])
    names = table(root)
    if only_list:
        for a, b in names.items():
            print(f"{a} {b}")
        print("\n".join(clashes(root, names)), file=sys.stderr)
        return 0
    changed = 0
    edits = sorted(glob.glob(os.path.join(root, "crates", "*", "must-fail", "*.edit")))
    for f in files(root) + sources(root) + edits:
        with open(f, encoding="utf-8") as it:
            old = it.read()
        new = turned(old, names, not f.endswith(".antt"))
        if new != old:
            changed += 1
            with open(f, "w", encoding="utf-8") as it:
                it.write(new)
    print(f"respell: {len(names)} names, {changed} files changed")
    return 0


if __name__ == "__main__":
    raise SystemExit(main(sys.argv[1:]))
