#!/usr/bin/env python3
"""Spells the repository's own definitions and lemmas in snake case, after port.py. Run once, at the top.

usage: python3 tools/respell.py

Names in camel case or with dashes, of definitions, lemmas, constructors and labels in specs/ and proofs/, get underscores (sameMember: same_member;
text-shown: text_shown). A lemma that would get its function's name gets `_lem` behind it. A name that begins with a capital keeps its capitals. Names that Rattle
makes (tie.Need-.., goal.loop-i-preserved) stay. The crate `json`, whose name a library of Rattle's has, is `json_scan`.
Must-fail edits are spelled likewise. Functions of src/, strings, inputs and outputs keep their names.
"""

import os
import re
import collections

TOKEN = re.compile(r'[^\s(){}.;,@"«»]+')
DECLARED = re.compile(r'^( *)((?:pattern |unfoldable |abbrev |pub |ruleset )*)((?:[^\s(){}.;,@"«»:]+ )*[^\s(){}.;,@"«»:]+)(?: \{[^{}\n]*\})* :( |$)')
TYPE = re.compile(r"^( *)(?:pub )?(?:data|record) ([^\s(){}.;,@\"«»:]+)")
MARKS = ("pub", "abbrev", "unfoldable", "data", "record", "pattern")

# a lemma beside a definition whose name it would get
LEMMAS = """union-rows new-name new-kind alias-rows field-alias-rows fields-rows symbol-rows part-rows schema-by is-space is-hex is-e is-sign is-high is-low
is-short on-more namespace-of is-first full-name last-start fault-of block-end rows-read good-row as-array number-from parts-fit default-fits row-numbers
takes-name good-parts is-declaration counted-all strings-of kind-known default-at with-default further-members in-string as-text is-largest form-else
schema-else start-among on-set value-from kind-word name-among inside-mode byte-at end-of is-narrow is-written key-of last-of logical-type rows-of kind-of
bytes-at left-of""".split()
# the same of lemmas that have underscores already, by crate (* is every crate)
LATER = {"from_row": "*", "is_member": "*", "next_fits": "binary", "of_length": "name", "rows_start": "*", "rows_then": "*", "field_row": "*", "is_name": "*", "rows_left": "*", "field_fits": "kept"}


def files(ends):
    for folder, dirs, names in os.walk("crates"):
        dirs[:] = sorted(d for d in dirs if d != "out")
        for it in sorted(names):
            if it.endswith(ends):
                yield os.path.join(folder, it)


def declared(path):
    found = set()
    for line in open(path, encoding="utf-8"):
        line = line.rstrip("\n")
        if line.lstrip().startswith("--") or "=" in line.split(":")[0]:
            continue
        m = TYPE.match(line)
        if m:
            found.add(m.group(2))
            continue
        m = DECLARED.match(line)
        if m and ": goal." not in line and ": tie." not in line:
            found |= {n for n in m.group(3).split() if n not in MARKS}
    return found


def snake(name):
    if name.startswith(("invariant-", "decreases-")):
        return name
    if "-" not in name and not (re.match("[a-z]", name) and re.search("[A-Z]", name)):
        return name
    if name in LEMMAS:
        return name.replace("-", "_") + "_lem"
    if re.match("[A-Z]", name):
        return name.replace("-", "_")
    return re.sub(r"(?<=[a-z0-9])[A-Z]", lambda m: "_" + m[0].lower(), name).replace("-", "_")


def turn_antt(text, names, crate):
    later = {n for n, c in LATER.items() if c in ("*", crate)}

    def code(part):
        def one(m):
            n = m[0]
            before = part[m.start() - 1] if m.start() else " "
            if n in names:
                return names[n]
            if n in later and before != ".":
                return n + "_lem"
            return n
        return TOKEN.sub(one, part)

    lines = []
    for line in text.split("\n"):
        cut = re.search(r"(^|\s)--(\s|$)", line)
        if cut:
            lines.append(code(line[: cut.start()]) + said(line[cut.start():], names))
        else:
            lines.append(code(line))
    return "\n".join(lines)


def said(comment, names):
    """In a comment: camel case anywhere, dashes only between backticks."""
    comment = re.sub(r"(?<![\w-])[a-z]\w*[A-Z]\w*(?![\w-])", lambda m: names.get(m[0], m[0]), comment)
    return re.sub(r"`([^`\s]+)`", lambda m: "`" + names.get(m[1], m[1]) + "`", comment)


def turn_rt(text, names):
    text = re.sub(r"(?<![\w-])[a-z]\w*[A-Z]\w*(?![\w-])", lambda m: names.get(m[0], m[0]), text)
    lines = []
    for line in text.split("\n"):
        if re.match(r"\s*(requires|ensures|invariant|ghost|ghost use)\b", line):
            line = TOKEN.sub(lambda m: names.get(m[0], m[0]), line)
        lines.append(said(line, names) if line.lstrip().startswith("//") else line)
    return "\n".join(lines)


def own_crate(path):
    return path.split("/")[1]


def write(path, text):
    with open(path, "w", encoding="utf-8") as f:
        f.write(text)


def main():
    own = set()
    for p in files(".antt"):
        own |= declared(p)
    names = {n: snake(n) for n in own if snake(n) != n}
    for p in files((".antt", ".rt", ".edit")):
        old = open(p, encoding="utf-8").read()
        if p.endswith(".rt"):
            new = turn_rt(old, names)
        elif p.endswith(".edit"):
            file = re.search(r"(?m)^file: (.*)", old)
            new = turn_rt(old, names) if file and file[1].endswith(".rt") else turn_antt(old, names, own_crate(p))
        else:
            new = turn_antt(old, names, own_crate(p))
        new = re.sub(r"\bRattle\.json\b", "Rattle.json_scan", new)
        if p.endswith(".rt"):
            new = re.sub(r"(?<![\w.])json::", "json_scan::", new)
        if new != old:
            write(p, new)
    os.rename("crates/json", "crates/json_scan")
    listed = open("crates.txt", encoding="utf-8").read()
    write("crates.txt", re.sub(r"(?m)(?<![\w])json(?![\w])", "json_scan", listed))
    again = collections.defaultdict(set)
    for p in files(".antt"):
        for n in declared(p):
            again[p].add(n)
    print(len(names), "names")


if __name__ == "__main__":
    main()
