#!/usr/bin/env python3
"""Checks a crate over crates below it that are not proved yet, which `rt check` refuses: these are read as source, and of them only what the
asked functions call. It gives no verdict.

usage: above.py ROOT CRATE [FLAG ..]      FLAG: words of `rattle check`, as --only check --allow-holes; with none, --only '' of the front end
"""
import os
import subprocess
import sys

KIT = os.path.dirname(os.path.dirname(os.path.realpath(subprocess.run(["which", "rt"], capture_output=True, text=True).stdout.strip())))


def main(argv):
    root, crate, flags = os.path.abspath(argv[0]), argv[1], argv[2:] or ["--only", ""]
    deps = {}
    for line in open(f"{root}/crates.txt"):
        line = line.split("#")[0].strip()
        if line:
            name, uses = line.split(":")
            deps[name.split()[0]] = uses.split()

    def below(name):
        out = []
        for d in deps[name]:
            if d in deps:
                out += [x for x in below(d) + [d] if x not in out]
        return out

    kit = [d for d in deps[crate] if d not in deps] + ["std"]
    more = {"core", "std"} | {d for b in below(crate) for d in deps[b] if d not in deps}
    words = ["--crate-name", crate, "src/main.rt" if os.path.exists(f"{root}/crates/{crate}/src/main.rt") else "src/lib.rt"]
    for d in kit + sorted(more - set(kit)):
        words += ["--extern", f"{d}={KIT}/rlibs/{d}.rlib"]
    words += ["-L", f"dependency={KIT}/rlibs"]
    for b in below(crate):
        words += ["--lib", f"{b}:{','.join(dict.fromkeys(['core', 'std', *deps[b]]))}={root}/crates/{b}/src/lib.rt"]
    words += ["--antt-project", f"{KIT}/rattle/logic/antt-project.json", "--logic-built", f"{KIT}/logic_built", "--links", f"{crate}="]
    if "--generated" not in flags:
        os.makedirs(f"{root}/crates/{crate}/out", exist_ok=True)
        words += ["--incremental", f"{root}/crates/{crate}/out/above"]
    return subprocess.run([f"{KIT}/bin/rattle", "check", *words, *flags], cwd=f"{root}/crates/{crate}").returncode


if __name__ == "__main__":
    raise SystemExit(main(sys.argv[1:]))
