#!/usr/bin/env python3
"""Turns the proof files of the older Rattle, which walked the code by hand, to Invariants.antt and Answers.antt.

usage: answers.py invariants CRATE OLD NAMES        writes proofs/F/Invariants.antt of each function F
       answers.py answers CRATE OLD NAMES LOG       writes proofs/F/Answers.antt for the goals that the check's LOG leaves open

CRATE is the crate's folder, OLD a folder with its Proof.antt files as port.py and respell.py left them, NAMES the file names.json that
`rt check --generated DIR --old-names` writes. What has no answer in OLD gets a hole. A draft: `rt check` decides, and what it refuses is
mended by hand.
"""
import json
import os
import re
import sys

TOKEN = r"[^\s(){}\[\],;«»\"`]+"


def norm(n):
    return n.replace("-", "_")


class Old:
    def __init__(self, path):
        self.lines = open(path, encoding="utf-8").read().split("\n")
        self.comment, self.uses, self.decls = [], [], []
        block, comments = None, []
        for l in self.lines:
            if l.startswith("--") and block is None and not self.uses:
                self.comment.append(l)
                continue
            if l.startswith("use "):
                self.uses.append(l)
                continue
            if l.startswith("--"):
                comments.append(l)
                continue
            if not l.strip():
                block = None
                continue
            if not l[0].isspace() and (re.match(r"(pub |abbrev |unfoldable |module |record |data )*%s.*( : | where)" % TOKEN, l) and " = " not in l.split(" : ")[0] or l.startswith("module _")):
                head = re.match(r"(?:pub |abbrev |unfoldable |module |record |data )*(%s)" % TOKEN, l).group(1)
                block = {"name": head, "head": l, "lines": [], "comments": comments}
                comments = []
                self.decls.append(block)
                continue
            if block is None:
                block = {"name": "", "head": "", "lines": [], "comments": comments}
                comments = []
                self.decls.append(block)
            block["lines"].append(l)


def need(head):
    m = re.search(r": tie\.Need-(%s)" % TOKEN, head)
    if not m:
        return None
    n = m.group(1)
    n = re.sub(r"^overflow[-_]", "", n)
    n = re.sub(r"^slice[-_]bounds-", "part-", n)
    return norm(n)


def joined_application(d, names):
    """The clause's parameters and its body."""
    body = "\n".join(d["lines"])
    m = re.match(r"(?s)\s*(?:unfolding [^\n]*\n)?(%s)((?: +%s| +\([^()]*\))*) =\s*(.*)$" % (re.escape(d["name"]), TOKEN), body)
    return m


def steps_of(entry):
    steps = {}
    for place in entry["places"]:
        a, b = place[2]
        if a:
            steps[norm(a)] = b
    places = {norm(p[0]): n for p, n in zip(entry["places"], entry["places_by_name"])}
    return steps, places


def parameters(entry, k):
    """What stands for each parameter of invariant number k, in order."""
    (_, new), names = entry["loops"][0][0], None
    loops = entry["loops"]
    got = loops[k]
    pair, variables = got
    changed = entry["changed"][k]
    first = [("l.initial." if c else "l.") + v for v, c in zip(variables, changed)]
    return pair[1], first + ["l." + v for v, c in zip(variables, changed) if c]


def entry_of(names, crate, f):
    want = f"Rattle-{crate}-proofs.{f}.Lts"
    return names.get(want)


def functions(old):
    for folder, _, fs in os.walk(old):
        if "Proof.antt" in fs:
            yield os.path.relpath(folder, old)


def rest_of(path):
    return path.replace("/", ".")


DROP = re.compile(r"(Statement|Tie|Lts|Code|Met|Walk)(\.\{|$| )")


def uses_of(old, crate, f, module):
    out = []
    for u in old.uses:
        if re.search(r"proofs\.%s\.(Statement|Tie|Code|Lts)" % re.escape(rest_of(f)), u):
            continue
        out.append(u)
    out.append(f"use Rattle.{crate}.proofs.{rest_of(f)}.{module} as goal")
    return out


def invariants(crate_dir, old_dir, names):
    crate = os.path.basename(os.path.abspath(crate_dir))
    for f in sorted(functions(old_dir)):
        e = entry_of(names, crate, rest_of(f))
        old = Old(os.path.join(old_dir, f, "Proof.antt"))
        if not e or not e["loops"]:
            continue
        out = []
        loops = {norm(l[0][0]): k for k, l in enumerate(e["loops"])}
        for d in old.decls:
            m = re.match(r"abbrev (invariant|decreases)-(\S+) : tie", d["head"])
            if not m:
                if re.match(r"(pub |abbrev |unfoldable )*%s : (?!tie)" % TOKEN, d["head"]) and "tie." not in d["head"]:
                    pass
                continue
            kind, loop = m.groups()
            k = loops.get(norm(loop))
            if k is None:
                print(f"{f}: no loop {loop} in {list(loops)}")
                continue
            body = "\n".join(d["lines"])
            b = re.match(r"(?s)\s*(\S+)((?: +\S+)*?) =\s(.*)$", body)
            if not b:
                print(f"{f}: no body of {d['name']}")
                continue
            params = b.group(2).split()
            new, stand = parameters(e, k)
            text = b.group(3)
            if len(params) != len(stand):
                print(f"{f}: {d['name']}: {len(params)} parameters, {len(stand)} wanted: {params} / {stand}")
                stand = {p: ("l.initial." + p[:-1] if p.endswith("₀") else "l." + p) for p in params}
            else:
                stand = dict(zip(params, stand))
            text = replace_names(text, stand)
            if kind == "decreases":
                out.append((f"decreases-{new}", text, d["comments"]))
            else:
                out.append((f"invariant-{new}", text, d["comments"]))
        asked = set(e.get("settled", []))
        where = os.path.join(crate_dir, "proofs", f)
        os.makedirs(where, exist_ok=True)
        with open(os.path.join(where, "Invariants.antt"), "w", encoding="utf-8") as it:
            it.write("\n".join(old.comment + uses_of(old, crate, f, "Given")) + "\n")
            for n, text, comments in out:
                it.write("\n" + "".join(c + "\n" for c in comments))
                it.write(f"abbrev pub {n} : goal.{n}\n{n} l =" + (" " if "\n" not in text.strip("\n") else "\n    ") + text.strip() + "\n")


def replace_names(text, stand):
    """Names become what stands for them, but for the field names of a record's text."""

    def one(m):
        t = m.group(0)
        head, dot, more = t.partition(".")
        if not dot and re.match(r" = ", text[m.end():]):
            return t
        return stand.get(head, head) + dot + more

    return re.sub(TOKEN, one, text)


def flat(text, steps, aliases, goal, helpers):
    """Paths through the places of the walk become paths from c by the step's name."""

    def one(m):
        t = m.group(0)
        parts = t.split(".")
        if parts[0] not in aliases or (len(parts) == 1 and parts[0] == "c"):
            return aliases.get(t, t) if len(parts) == 1 else t
        rest = [p for p in parts[1:] if p != "before"]
        if rest:
            s = norm(rest[0])
            if s in steps:
                rest[0] = steps[s]
            elif rest[0] == "pre":
                rest[0] = "requires"
        rest = [{"taken": "true", "well-formed": "well_formed", "good": "well_formed"}.get(p, p) for p in rest]
        return ".".join(["c"] + rest)

    return re.sub(TOKEN, one, text)


def turn_answer(body, steps, goal, starts, helpers):
    aliases = {"c": "c"}
    # functions that only walk back, and calls of them
    for _ in range(6):
        for s in starts:
            body = re.sub(r"\(%s (c[^\s()]*)\)" % re.escape(s), r"\1", body)
            body = re.sub(r"\(%s \((c[^\s()]*)\)\)" % re.escape(s), r"\1", body)
            body = re.sub(r"(?<![\w.-])%s (c[^\s(),]*)" % re.escape(s), r"\1", body)
        changed = True
        while changed:
            changed = False
            for m in re.finditer(r"let (%s) = ([^\n]*?) in(\n|\s|$)" % TOKEN, body):
                a, r = m.group(1), m.group(2).strip()
                parts = r.split(".")
                if parts[0] in aliases and all(p == "before" for p in parts[1:]):
                    body = body[: m.start()] + body[m.end():].lstrip(" ") if False else body.replace(m.group(0), "", 1)
                    body = re.sub(r"(?<![\w.'-])%s(?=[.\s(),;]|$)" % re.escape(a), "c", body)
                    changed = True
                    break
    body = flat(body, steps, aliases, goal, helpers)
    body = re.sub(r", c(\.[\w-]+)*\.well_formed[\w.]*", "", body)
    for name, place in helpers.items():
        body = re.sub(r"(?<![\w.'-])%s c(?![\w.'-])" % re.escape(name), f"{name} (goal.at.{goal} c).{place}", body)
    return body


def open_goals(log):
    """Of each function's file that the check asks for: its lines."""
    asked, now, f = {}, None, None
    for l in open(log, encoding="utf-8"):
        m = re.match(r"help: write \./proofs/(\S+)/(Answers|Invariants)\.antt with these lines", l) or re.match(r"help: add (?:these lines )?.*\./proofs/(\S+)/(Answers|Invariants)\.antt", l)
        if m:
            now = asked.setdefault(m.group(1), {}).setdefault(m.group(2), [])
            continue
        if now is not None:
            if l.startswith("    ") or not l.strip():
                now.append(l[4:].rstrip("\n"))
            else:
                now = None
    return asked


def answers(crate_dir, old_dir, names, log):
    crate = os.path.basename(os.path.abspath(crate_dir))
    asked = open_goals(log)
    for f, files in sorted(asked.items()):
        if "Answers" not in files:
            print(f"{f}: asks for Invariants alone")
            continue
        e = entry_of(names, crate, rest_of(f))
        path = os.path.join(old_dir, f, "Proof.antt")
        wanted = [m.group(1) for m in (re.match(r"pub (\S+) : goal\.", l) for l in files["Answers"]) if m]
        printed = [l for l in files["Answers"] if l.startswith("use ")]
        if not os.path.exists(path) or not e:
            print(f"{f}: no old proof: {wanted}")
            old, found, steps, starts, lemmas = None, {}, {}, [], []
        else:
            old = Old(path)
            new_of = {norm(a): b for a, b in e["needs"]}
            steps, places = steps_of(e)
            found, starts, lemmas = {}, [], []
            for d in old.decls:
                n = need(d["head"])
                if n is not None:
                    found[new_of.get(n, n)] = d
                elif re.search(r": tie\.\S+.* → tie\.", d["head"]) and re.search(r"(?s)= \w+(\.before)+\s*$", "\n".join(d["lines"])):
                    starts.append(d["name"])
                elif d["name"].startswith(("invariant-", "decreases-")) or "→ statement" in d["head"]:
                    pass
                else:
                    lemmas.append(d)
        out = list(old.comment) if old else []
        head = uses_of(old, crate, f, "Goals") if old else printed
        out += head
        helpers, used, texts = {}, set(), []
        for d in lemmas if old else []:
            if d["name"] == "" and not d["head"]:
                continue
            text = d["head"] + "\n" + "\n".join(d["lines"])
            taken = re.search(r"\((\S+) : tie\.(%s)" % TOKEN, d["head"])
            place = places.get(norm(taken.group(2)), taken.group(2)) if taken else None
            text = re.sub(r"tie\.(%s)((?: invariant-%s| decreases-%s)*)" % (TOKEN, TOKEN, TOKEN), lambda m: places.get(norm(m.group(1)), m.group(1)), text)
            if place:
                used.add(place)
                names_in = [d["name"]] if d["name"] != "_" else re.findall(r"(?m)^  (?:abbrev |pub )*(\S+) :", text)
                helpers.update({n: place for n in names_in})
                text = turn_answer(text, steps, "", starts, {})
            texts.append((d["comments"], text))
        if used:
            out.append(f"use Rattle.{crate}.proofs.{rest_of(f)}.Goals.{{{', '.join(sorted(used))}}}")
        for comments, text in texts:
            out += [""] + comments + text.split("\n")
        for g in wanted:
            d = found.get(g)
            whole = found.get(re.sub(r"-clause-[\w]+$", "", g)) if not d else None
            out.append("")
            body = "\n".join((d or whole or {"lines": []})["lines"])
            m = re.match(r"(?s)\s*((?:unfolding [^\n]*\n)?)\s*(\S+)((?: +\S+)*?) =\s(.*)$", body)
            if not m:
                if body:
                    out += ["-- OLD: " + l for l in body.split("\n")]
                out += [f"pub {g} : goal.{g}", f"{g} c = ?"]
                continue
            text = turn_answer(m.group(4), steps, g, starts, helpers)
            if whole:
                out += ["-- OLD, of all clauses: " + l for l in text.split("\n")] + [f"pub {g} : goal.{g}"]
                out += [m.group(1).strip()] * bool(m.group(1)) + [f"{g} c = ?"]
                continue
            one = "\n" not in text.strip()
            out += d["comments"] + [f"pub {g} : goal.{g}"]
            if m.group(1):
                out.append(m.group(1).strip())
            out.append(f"{g} c =" + (" " + text.strip() if one else "\n    " + text.strip()))
        where = os.path.join(crate_dir, "proofs", f)
        os.makedirs(where, exist_ok=True)
        to = os.path.join(where, "Answers.antt")
        if os.path.exists(to):
            to = os.path.join(where, "Answers.draft.txt")
        with open(to, "w", encoding="utf-8") as it:
            it.write("\n".join(out) + "\n")


def main(argv):
    verb, crate, old, names = argv[:4]
    names = json.load(open(names, encoding="utf-8"))
    if verb == "invariants":
        invariants(crate, old, names)
    else:
        answers(crate, old, names, argv[4])
    return 0


if __name__ == "__main__":
    raise SystemExit(main(sys.argv[1:]))
