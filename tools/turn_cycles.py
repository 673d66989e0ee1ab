#!/usr/bin/env python3
"""Turns proofs/+F_G/Proof.antt, the proof of functions that call one another, into Invariants.antt and Answers.antt.

usage: (in crates/: rt names FOLDER)  python3 tools/turn_cycles.py FOLDER CRATE..

FOLDER/CRATE/names.json is as for tools/turn_proofs.py. In the old proof an answer is `F_x : (t : ℕ) → F-lts.Need-G ..`, and a measure `μ_F κs a` reads the tuple of the
arguments: a.0, a.1.0, a.1.1.0. Today a goal is `goal.F-G`, or `goal.G` where F calls itself alone; its answer takes t and c, and a measure reads l.x, or l.x.now of a
reference. Of the old c.requires, .0 is c.decreases and .1 is c.requires. What was left to `search rules` gets no answer.
A line that begins `left:` names what is to be done by hand, as is an answer by the old `⊎_elim .. c.if1.branch`.
"""

import json
import os
import re
import sys

sys.path.insert(0, os.path.dirname(os.path.abspath(__file__)))
from turn_proofs import Fn, NAMED, PATH, blocks, clause, inline, plain

SEARCH = r"\s*search rules\s*"
WALK = re.compile(r"\.(Reads|Kinds|Tie|Lts-\S+)( as |\.|\s|$)|^use borrow\.Fn\.|\.\{\s*statement\W")


def parameters(crate, path, name):
    """The parameters of `fn name` in the source, each with whether it is a reference."""
    module = path.split(".")[:-1]
    files = ["/".join(["crates", crate, "src", *module]) + ".rt", f"crates/{crate}/src/lib.rt", f"crates/{crate}/src/main.rt"]
    for file in files:
        if not os.path.exists(file):
            continue
        m = re.search(rf"\bfn {re.escape(name)}\s*(?:<[^(]*>)?\(([^)]*)\)", open(file, encoding="utf-8").read())
        if m:
            found = re.findall(r"(\w+)\s*:(?!:)\s*(&?)", m[1])
            return [(n, bool(r)) for n, r in found]
    return None


def parameter(entry, step, k):
    """The parameter at k of what the step calls."""
    callee = next(p[3] for p in entry["places"] if p[2][1] == step and p[3])
    return entry["params"][callee][k]


def joined(uses):
    """One line for each import; an import over several lines is one."""
    return [re.sub(r",?\s*\}$", "}", re.sub(r"\{\s+", "{", " ".join(u.split()))) for u in uses]


def read(text):
    """The header, the imports, the declarations."""
    text = re.sub(r"(?m)^use [^\n{]*\{\n[^}]*\}", lambda m: joined([m[0]])[0], text)
    head, uses, decls = blocks(text)
    return head, [u for u in uses if not WALK.search(u)], uses, decls


def turn(folder, entries, crate, place, said):
    path = os.path.join(folder, "Proof.antt")
    head, kept, uses, decls = read(open(path, encoding="utf-8").read())
    alias = {}
    for u in uses:
        m = re.match(r"use \S+\.Lts-(\S+) as (\S+)", u)
        if m:
            alias[m[2]] = m[1]
    made = {f"{n}_{w}" for n in entries for w in ("at", "below", "calls")}
    fns = {n: Fn(e) for n, e in entries.items()}
    given, answers, own = [], [], []
    for d in decls:
        m = re.match(rf"(?:abbrev |pub )*({NAMED}) :(.*)", d[0])
        name = m[1]
        if name in made or name.endswith("_spec"):
            continue
        body_lines = [l for l in d[1:] if not re.match(r"unfolding ", l)]
        opened = [l for l in d[1:] if re.match(r"unfolding ", l)]
        if re.match(r" Measures \d", m[2]):
            of = name[len("μ_"):]
            pars, body, _ = clause(body_lines)
            ps = parameters(crate, place, of)
            if ps is None:
                said.append(f"{name}: no parameters of {of} in src/")
                continue
            a = pars[-1]

            def argument(t):
                x, ref = ps[t[1].count(".1")]
                rest = t[2] or ""
                return f"l.{x}.now{rest[len('.now'):]}" if ref and rest.startswith(".now") else f"l.{x}{rest}"
            body = re.sub(rf"(?<![\w.]){re.escape(a)}((?:\.1)*)\.0((?:\.{NAMED})*)", argument, body)
            given.append((f"decreases-{of}", opened, body))
            continue
        lts = re.search(rf"({NAMED})\.((?:Need|invariant|decreases)-\S+)", m[2])
        if not lts or lts[1] not in alias:
            own.append(d)
            continue
        of, kind = alias[lts[1]], lts[2]
        entry, fn = entries[of], fns[of]
        c = clause(body_lines)
        if c is None:
            said.append(f"{name}: several clauses")
            continue
        pars, body, _ = c
        m = re.match(r"(invariant|decreases)-(\S+)", kind)
        if m:
            loop = next(((i, l) for i, l in enumerate(entry["loops"]) if plain(l[0][0]) == plain(m[2])), None)
            if loop is None:
                said.append(f"{of}: no loop {m[2]}")
                continue
            i, ((_, new), names) = loop
            changed = entry["changed"][i]
            moved = [v for v, t in zip(names, changed) if t]
            if len(pars) != len(names) + len(moved):
                said.append(f"{name}: {len(pars)} arguments, and the loop has {names} of which {moved} change")
                continue
            to = {p: f"l.initial.{v}" if t else f"l.{v}" for p, v, t in zip(pars, names, changed)}
            to |= dict(zip(pars[len(names):], (f"l.{v}" for v in moved)))
            body = re.sub(rf"(?<![^\s(){{}};,@]){NAMED}", lambda t: to.get(t[0], to.get(t[0].strip("«»"), t[0])), body)
            given.append((f"{m[1]}-{entry['stem']}{new}", opened, body))
            continue
        asked = kind[len("Need-"):]
        byname = {plain(a): (b, k) for k, (a, b) in enumerate(entry["needs"])}
        short = re.sub(r"^overflow-", "", asked)
        part = re.sub(r"^slice-bounds-", "part-", asked)
        hit = next((byname[plain(n)] for n in (asked, short, part) if plain(n) in byname), None)
        if hit is None:
            if not re.fullmatch(SEARCH, body):
                said.append(f"{name}: no such goal now; its answer was: {' '.join(body.split())[:200]}")
            continue
        new, k = hit
        if re.fullmatch(SEARCH, body):
            continue
        at = entry["asked_at"][k][0] if k < len(entry["asked_at"]) else entry["places"][0][0]
        body = inline(body)
        more = []

        def moved_path(t):
            # a local called `typed` was taken for Rattle's older field of that name
            parts = ["typed" if p == "type-inv" and any(q[2][0] == "typed" for q in entry["places"]) else p for p in re.findall(NAMED, t[1])]
            to = fn.path(at, parts, more)
            to = re.sub(r"^c\.requires\.([01])(?!\d)", lambda m: ("c.decreases", "c.requires")[int(m[1])], to)
            return re.sub(rf"^c\.({NAMED})\.auto((?:\.1)*)\.0", lambda m: f"c.{m[1]}.auto.{parameter(entry, m[1], m[2].count('.1'))}", to)
        body = PATH.sub(moved_path, body)
        # the outcome of `!b` says what b is
        body = re.sub(rf"not-(true|false) \S+ (c(?:\.{NAMED})+?)\.\1-raw(?![\w-])", r"\2.\1", body)
        said += [f"{of}-{new}: {w}" for w in more]
        if "κs" in body:
            said.append(f"{of}-{new}: uses κs")
        answers.append((entry["stem"] + new, opened, "t c", body))
    base = f"Rattle.{crate}.proofs.{place}"

    def write(name, module, decl):
        with open(os.path.join(folder, name), "w", encoding="utf-8") as f:
            f.write("\n".join(head + kept + [f"use {base}.{module} as goal", ""] + decl))
    out = []
    for name, opened, body in sorted(given, key=lambda g: "-loop-" in g[0]):
        out += [f"abbrev pub {name} : goal.{name}", *opened, f"{name} l =" + (" " if "\n" not in body else "\n    ") + body, ""]
    write("Invariants.antt", "Given", out)
    out = [l for d in own for l in d + [""]]
    for name, opened, pars, body in answers:
        out += [f"pub {name} : goal.{name}", *opened, f"{name} {pars} =" + (" " if "\n" not in body else "\n    ") + body, ""]
    if answers:
        write("Answers.antt", "Goals", out)
    os.remove(path)


def main(argv):
    names, crates = argv[0], argv[1:]
    for crate in crates:
        cycles = {}
        for key, entry in json.load(open(f"{names}/{crate}/names.json", encoding="utf-8")).items():
            m = re.fullmatch(rf"Rattle-{crate}-proofs\.(.*)\.Lts-(.*)", key)
            if m:
                cycles.setdefault(m[1], {})[m[2]] = entry
        for place, entries in cycles.items():
            folder = f"crates/{crate}/proofs/" + place.replace(".", "/")
            if not os.path.exists(folder + "/Proof.antt"):
                continue
            said = []
            turn(folder, entries, crate, place, said)
            for s in said:
                print(f"left: {folder}: {s}")


if __name__ == "__main__":
    main(sys.argv[1:])
