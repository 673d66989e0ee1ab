#!/usr/bin/env python3
"""Turns proofs/F/Proof.antt, which walk the code by `tie`, into Invariants.antt and Answers.antt.

usage: (in crates/: rt names FOLDER)  python3 tools/turn_proofs.py FOLDER CRATE..

FOLDER/CRATE/names.json says for each goal and each step its older and its newer name. What was left to `search rules` gets no answer.
A line that begins `left:` names what is to be done by hand.
"""

import json
import os
import re
import sys

NAMED = r"(?:«[^»\n]+»|[^\s(){}.;,@\"«»])+"
PATH = re.compile(rf"(?<![^\s(){{}};,@])c((?:\.{NAMED})*)(?![^\s(){{}};,@])")


def plain(n):
    return re.sub("[-_«»]", "", re.sub("_lem$", "", n)).lower()


def blocks(text):
    """Splits a file into its header comment, its use lines and its declarations: (name, type, unfolding lines, clauses)."""
    lines = text.split("\n")
    head, uses, decls, i = [], [], [], 0
    while i < len(lines):
        line = lines[i]
        if line.startswith("--"):
            (head if not decls else []).append(line)
            i += 1
        elif line.startswith("use "):
            uses.append(line)
            i += 1
        elif not line.strip():
            i += 1
        else:
            j = i + 1
            while j < len(lines) and (lines[j].strip() and not lines[j].startswith("--")):
                j += 1
            decls.append(lines[i:j])
            i = j
    return head, uses, decls


class Fn:
    def __init__(self, entry):
        self.entry = entry
        self.at = {p[0]: i for i, p in enumerate(entry["places"])}

    def chain(self, place):
        i = self.at.get(place)
        while i is not None:
            yield i
            i = self.at.get(self.entry["places"][i][1])

    def path(self, place, parts, said):
        k = 0
        while k < len(parts) and parts[k] == "before":
            k += 1
        parts = parts[k:]
        if not parts:
            if k:
                said.append("the record itself is passed on")
            return "c"
        label, rest = parts[0], parts[1:]
        if label in ("args", "requires", "ranges", "lifetimes", "well_formed", "type_inv"):
            return ".".join(["c", label] + rest)
        chain = list(self.chain(place))
        order = chain[k:] + chain[:k][::-1]
        for i in order:
            old, parent, (step, new), callee, tests = self.entry["places"][i]
            if plain(step) != plain(label):
                continue
            arm = self.entry["arms"][i]
            if arm:
                best = None
                for field, of, way in arm[2]:
                    if plain(of) == plain(label) and rest[: len(way)] == way and (best is None or len(way) > len(best[1])):
                        best = (field, way)
                if best and not best[0].endswith("-own"):
                    return ".".join(["c", arm[0], best[0]] + rest[len(best[1]):])
                if label == arm[0]:
                    return ".".join(["c"] + parts)
                said.append(f"no field of {arm[0]} for {'.'.join(parts)}")
                return ".".join(["c", arm[0]] + rest)
            for a, b in tests:
                if rest and rest[0] == a:
                    rest = [b] + rest[1:]
                    break
            return ".".join(["c", new] + rest)
        said.append(f"no step {label}")
        return ".".join(["c"] + parts)


def inline(body):
    """Replaces each `let h = c.before.. in` by its path."""
    while True:
        m = re.search(rf"\blet ({NAMED}) = (c(?:\.{NAMED})*) in\s*", body)
        if not m:
            return body
        name, path = m[1], m[2]
        after = body[m.end():]
        after = re.sub(rf"(?<![^\s(){{}};,@]){re.escape(name)}(?=[\s(){{}};,.@]|$)", lambda _: path, after)
        body = body[: m.start()] + after


def clause(lines):
    """The arguments and the body of a declaration's one clause."""
    text = "\n".join(lines)
    m = re.match(rf"({NAMED})((?: [^\s=()]+)*) =\s*", text)
    return (m[2].split(), text[m.end():], m.end()) if m else None


def turn(folder, entry, crate, place_path, said):
    path = os.path.join(folder, "Proof.antt")
    text = open(path, encoding="utf-8").read()
    head, uses, decls = blocks(text)
    fn = Fn(entry)
    spec = next((d for d in decls if re.match(r"pub \S+_spec\b", d[0])), None)
    if spec is None:
        said.append("no _spec")
        return False
    args = re.search(r"tie\.spec(.*)\)", "\n".join(spec), re.S)
    if not args:
        m = re.search(r"tie\.close tie\.spec", "\n".join(spec))
        args = [] if m else None
        if args is None:
            said.append("no tie.spec")
            return False
    else:
        args = args[1].split()
    needs = [tuple(n) for n in entry["needs"]]
    byname = {plain(a): (b, i) for i, (a, b) in enumerate(needs)}
    goals = []
    for d in decls:
        m = re.match(rf"(?:abbrev |pub )*({NAMED}) : tie\.(\S+)", d[0])
        goals.append((m[1], m[2], d) if m else (None, None, d))
    goal_names = [g[0] for g in goals if g[1] and g[1].startswith("Need-")]
    in_order = [a for a in args if a in goal_names]
    given, answers, own = [], [], []
    for name, kind, d in goals:
        if d is spec:
            continue
        if kind is None:
            own.append(d)
            continue
        body_lines = [l for l in d[1:] if not re.match(r"unfolding ", l)]
        opened = [l for l in d[1:] if re.match(r"unfolding ", l)]
        c = clause(body_lines)
        if c is None:
            said.append(f"{name}: several clauses")
            continue
        pars, body, _ = c
        m = re.match(r"(invariant|decreases)-(\S+)", kind)
        if m:
            loop = next(((i, l) for i, l in enumerate(entry["loops"]) if plain(l[0][0]) == plain(m[2])), None)
            if loop is None:
                said.append(f"no loop {m[2]}")
                continue
            i, ((_, new), vars) = loop
            changed = entry["changed"][i]
            moved = [v for v, t in zip(vars, changed) if t]
            if len(pars) != len(vars) + len(moved):
                said.append(f"{name}: {len(pars)} arguments, and the loop has {vars} of which {moved} change")
                continue
            to = {}
            for p, v, t in zip(pars, vars, changed):
                to[p] = f"l.initial.{v}" if t else f"l.{v}"
            for p, v in zip(pars[len(vars):], moved):
                to[p] = f"l.{v}"
            q = lambda s: re.sub(r"\b(from|data|record|open|in|as|at)\b", r"\1", s)
            body = re.sub(rf"(?<![^\s(){{}};,@]){NAMED}", lambda t: to.get(t[0], to.get(t[0].strip("«»"), t[0])), body)
            given.append((f"{m[1]}-{new}", opened, body))
            continue
        asked = kind[len("Need-"):]
        short = re.sub(r"^overflow-", "", asked)
        part = re.sub(r"^slice-bounds-", "part-", asked)
        hit = next((byname[plain(n)] for n in (asked, short, part, name) if plain(n) in byname), None)
        if hit is None and len(in_order) == len(needs) and name in in_order:
            k = in_order.index(name)
            hit = (needs[k][1], k)
            said.append(f"{name}: by place {needs[k]}")
        if hit is None:
            if not re.fullmatch(r"\s*search rules\s*", body):
                said.append(f"{name}: no such goal now; its answer was: {' '.join(body.split())[:200]}")
            continue
        new, k = hit
        if re.fullmatch(r"\s*search rules\s*", body):
            continue
        place = entry["asked_at"][k][0] if k < len(entry["asked_at"]) else entry["places"][0][0]
        body = inline(body)
        more = []
        body = PATH.sub(lambda m: fn.path(place, [p for p in re.findall(NAMED, m[1])], more), body)
        said += [f"{new}: {w}" for w in more]
        lead = [p for p in pars if p not in ("c", "κs")]
        if re.search(r"κs", body):
            said.append(f"{new}: uses κs")
        answers.append((new, opened, " ".join(lead + ["c"]), body))
    base = f"Rattle.{crate}.proofs.{place_path}"
    kept = [u for u in uses if not re.search(r"\.(Statement|Tie)(\.|\s|$)", u)]
    if given:
        out = head + kept + [f"use {base}.Given as goal", ""]
        for d in own:
            out += d + [""]
        for name, opened, body in given:
            out += [f"abbrev pub {name} : goal.{name}", *opened, f"{name} l = {body}", ""]
        open(os.path.join(folder, "Invariants.antt"), "w", encoding="utf-8").write("\n".join(out))
    if answers:
        out = head + kept + [f"use {base}.Goals as goal", ""]
        for d in own:
            out += d + [""]
        for name, opened, pars, body in answers:
            out += [f"pub {name} : goal.{name}", *opened, f"{name} {pars} =" + (" " if "\n" not in body else "\n    ") + body, ""]
        open(os.path.join(folder, "Answers.antt"), "w", encoding="utf-8").write("\n".join(out))
    os.remove(path)
    return True


def main(argv):
    names, crates = argv[0], argv[1:]
    for crate in crates:
        listed = json.load(open(f"{names}/{crate}/names.json", encoding="utf-8"))
        for key, entry in listed.items():
            m = re.fullmatch(rf"Rattle-{crate}-proofs\.(.*)\.Lts", key)
            if not m:
                continue
            folder = f"crates/{crate}/proofs/" + m[1].replace(".", "/")
            if not os.path.exists(folder + "/Proof.antt"):
                continue
            said = []
            turn(folder, entry, crate, m[1], said)
            if os.path.isdir(folder) and not os.listdir(folder):
                os.removedirs(folder)
            for s in said:
                print(f"left: {folder}: {s}")


if __name__ == "__main__":
    main(sys.argv[1:])
