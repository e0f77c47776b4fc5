#!/usr/bin/env python3
"""Whether the specs of a turned repository differ from the old ones in spelling alone: usage: spelling.py OLD_COMMIT TURNED_FOLDER

Of each file of specs/ the words are read one by one, old beside turned. The words must be as many, and an old word must have become one and the same new word wherever it stands in the
file. A new word that two old ones became is printed too. Not read: contracts in src/, imports, round brackets, brackets of propositions, and the space before a field."""
import collections
import os
import re
import subprocess
import sys

PIECE = re.compile(r"[^\s(){}\[\],;.«»\"`|]+|[(){}\[\],;|]|\.")


def words(text):
    text = re.sub(r"(?m)^\s*(ghost )?use [^\n]*$", "", text)
    text = re.sub(r"(?m)--.*$", "", text)
    text = text.replace("⌜", "").replace("⌝", "").replace("∗", "×")
    text = re.sub(r"\(\s*([\w'′-]+(?:\s*\.[\w'′-]+)+)\s*\)", r"\1", text)
    text = re.sub(r"[()]", " ", text)
    text = re.sub(r"\s+\.(?=[\w])", ".", text)
    return [p for p in PIECE.findall(text) if p not in ("(", ")")]


def main(argv):
    commit, folder = argv
    files = subprocess.run(["git", "ls-tree", "-r", "--name-only", commit, "crates"], cwd=folder, capture_output=True, text=True).stdout.split("\n")
    uneven, twofold, pairs = [], [], collections.defaultdict(set)
    checked = 0
    for f in files:
        if "/specs/" not in f or not f.endswith(".antt"):
            continue
        old = subprocess.run(["git", "show", f"{commit}:{f}"], cwd=folder, capture_output=True, text=True).stdout
        with open(os.path.join(folder, f), encoding="utf-8") as it:
            new = it.read()
        a, b = words(old), words(new)
        checked += 1
        if len(a) != len(b):
            k = next((i for i, (x, y) in enumerate(zip(a, b)) if x != y and (x in "{},;:=." or y in "{},;:=.")), min(len(a), len(b)))
            uneven.append(f"{f}: {len(a)} words and {len(b)}; first at: {' '.join(a[max(0, k - 6):k + 6])} | {' '.join(b[max(0, k - 6):k + 6])}")
            continue
        became = collections.defaultdict(set)
        for x, y in zip(a, b):
            became[x].add(y)
            if x != y:
                pairs[y].add(x)
        for x, ys in became.items():
            if len(ys) > 1:
                twofold.append(f"{f}: {x} became {' and '.join(sorted(ys))}")
        back = collections.defaultdict(set)
        for x, ys in became.items():
            for y in ys:
                back[y].add(x)
        for y, xs in back.items():
            if len(xs) > 1:
                twofold.append(f"{f}: {' and '.join(sorted(xs))} became {y}")
    print("\n".join(uneven + twofold))
    print(f"{checked} files of specs/ read, {len(uneven)} uneven, {len(twofold)} words not one to one")


if __name__ == "__main__":
    main(sys.argv[1:])
