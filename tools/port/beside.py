#!/usr/bin/env python3
"""Writes what changed between two trees of the repository, old and new beside one another, as Markdown: public signatures and clauses, definitions, ghost items,
lemmas. It reads what the kit's contracts.py and tools/port/lemmas.py say.

usage: beside.py CONTRACTS.json OLD NEW
"""
import json
import re
import sys
from pathlib import Path


def public(root):
    """The names of functions that are `pub` in some file of a crate's src/, by crate and file."""
    found = set()
    for path in Path(root).glob("crates/*/src/*.rt"):
        crate = path.parts[-3]
        for name in re.findall(r"^\s*pub (?:extern \"C\" )?(?:const )?fn (\w+)", path.read_text(encoding="utf-8"), re.M):
            found.add((crate, f"src/{path.name}", name))
    return found


def clauses(pairs):
    return "; ".join((f"{name}: " if name else "") + f"`{text}`" for name, text in pairs) or "none"


def main(argv):
    said = json.loads(Path(argv[0]).read_text(encoding="utf-8"))
    known = public(argv[1]) | public(argv[2])

    def is_public(place):
        crate, file, *name = place.split(" ")
        return (crate, file, name[-1].split("::")[-1]) in known

    out = ["### Public signatures", ""]
    for place, old, new in said["signatures changed"]:
        if is_public(place):
            out += [f"- `{place}`", f"  - was `{old}`", f"  - is `{new}`"]
    out += ["", "### Public clauses", "", "`requires`, then `ensures`; a side that reads the same is left out.", ""]
    for place, old_requires, old_ensures, new_requires, new_ensures in ((c[0], c[1], c[2], c[3], c[4]) for c in said["contracts changed"]):
        if is_public(place):
            out.append(f"- `{place}`")
            if old_requires != new_requires:
                out += [f"  - required {clauses(old_requires)}", f"  - requires {clauses(new_requires)}"]
            if old_ensures != new_ensures:
                out += [f"  - ensured {clauses(old_ensures)}", f"  - ensures {clauses(new_ensures)}"]
    out += ["", "### Definitions that read otherwise", ""]
    for crate, name, old, new in said["definitions"]["changed"]:
        out += [f"- `{crate}` `{name}`", f"  - was `{' / '.join(old)}`", f"  - is `{' / '.join(new)}`"]
    print("\n".join(out))


if __name__ == "__main__":
    main(sys.argv[1:])
