#!/usr/bin/env python3
"""Counts the places in src/ that docs/DESIGN-PASS.md speaks of: python3 tools/places.py [COMMIT] [--list].

With a commit it counts there, else in the work tree. --list names each place.
"""

import collections
import re
import subprocess
import sys


def files(commit, part, end):
    if commit:
        names = subprocess.run(["git", "ls-tree", "-r", "--name-only", commit, "crates"], capture_output=True, text=True, check=True).stdout.split("\n")
    else:
        names = subprocess.run(["git", "ls-files", "-co", "--exclude-standard", "crates"], capture_output=True, text=True, check=True).stdout.split("\n")
    for name in sorted(set(names)):
        if f"/{part}/" in name and name.endswith(end):
            try:
                yield name, subprocess.run(["git", "show", f"{commit}:{name}"], capture_output=True, text=True, check=True).stdout if commit else open(name).read()
            except FileNotFoundError:
                pass


def functions(text):
    """Name, head and body of each function that is laid out by rt fmt."""
    for m in re.finditer(r"^( *)(?:pub(?:\(crate\))? )?(?:extern \"C\" )?fn (\w+)", text, re.M):
        end = re.search(rf"^{m.group(1)}}}$", text[m.start():], re.M)
        if not end:
            continue
        whole = text[m.start() : m.start() + end.end()]
        cut = re.search(rf"^{m.group(1)}{{\n|{{\n", whole, re.M)
        if cut:
            yield m.group(2), whole[: cut.start()], whole[cut.end() : -1 - len(m.group(1))]


def loops(body):
    """Head and block of each loop."""
    for m in re.finditer(r"^( *)((?:while|loop)\b.*)\{\n", body, re.M):
        end = re.search(rf"^{m.group(1)}}}", body[m.end():], re.M)
        if end:
            yield m.group(2).strip(), body[m.end() : m.end() + end.start()]


def enums(text):
    for m in re.finditer(r"^pub(?:\(crate\))? enum (\w+) \{\n(.*?)^\}", text, re.M | re.S):
        yield m.group(1), [v.strip().rstrip(",") for v in m.group(2).split("\n") if v.strip() and not v.strip().startswith("//")]


def normal(body):
    body = re.sub(r"//.*", "", body)
    body = re.sub(r"\b(?:[ui](?:8|16|32|64|size))\b", "N", body)
    body = re.sub(r"b?\"[^\"]*\"|b'[^']*'|\b\d[\d_a-fx]*\b", "L", body)
    return re.sub(r"\s+", " ", body).strip()


def main():
    words = sys.argv[1:]
    show = "--list" in words
    commit = next((w for w in words if not w.startswith("-")), None)
    places = collections.defaultdict(list)
    bodies = collections.defaultdict(list)
    facts = collections.defaultdict(set)
    together = collections.defaultdict(set)
    for name, text in files(commit, "src", ".rt"):
        crate = name.split("/")[1]
        for enum, variants in enums(text):
            plain = [v for v in variants if "(" not in v]
            faults = [v for v in variants if re.search(r"\((?:Fault|Refusal)\)$", v)]
            if faults or (len(variants) == 2 and len(plain) == 1):
                places["1 own enums like Option or Result"].append(f"{crate}::{enum}")
        for struct in re.finditer(r"^(?:pub )?struct (\w+) \{\n(.*?)^\}", text, re.M | re.S):
            if re.search(r": bool,", struct.group(2)):
                places["1 flags with a value beside them"].append(f"{crate}::{struct.group(1)}")
        for fn, head, body in functions(text):
            place = f"{crate}::{fn}"
            if re.search(r"\.number\(\) == |\bis_kind\(", body):
                places["1 kinds compared as numbers"].append(place)
            key = normal(body)
            if len(key) > 12:
                bodies[crate if False else key].append(place)
            for loop, block in loops(body):
                step = re.findall(r"^ *(\w+) [+-]= 1;$", block, re.M)
                if any(re.search(rf"\b{s}\b", loop) or re.search(rf"\[[^]]*\b{s}\b", block) or re.search(rf"\(.*\b{s}\b", block) for s in step):
                    places["3 loops that count by hand"].append(place)
            flat = re.sub(r"\s+", " ", body).strip()
            if re.fullmatch(r"\w+(?:\[\w+\])? as \w+|\(?\w+ as \w+\)?", flat):
                places["4 conversions by hand"].append(place)
            if flat.startswith("match ") and re.search(r"=> (?:true|false),", flat) and not re.search(r"=> (?!true|false)\S", flat):
                places["4 tests by a match of every variant"].append(place)
            requires = re.search(r"requires \{(.*?)\}\n", head, re.S)
            if requires:
                for fact in re.split(r" × ", requires.group(1)):
                    fact = re.sub(r"\.(now|old)\b", "", fact.strip().strip("()"))
                    facts[fact].add(place)
            if re.search(r"text: &\[u8\],\s*ends: &\[u16\]", head):
                together["text, ends"].add(place)
            if re.search(r"draft: &mut \[u8\],\s*counts: Counts", head):
                together["draft, counts"].add(place)
            if re.search(r"verdicts: &mut \[u8\],\s*found: &mut \[u16\]", head):
                together["verdicts, found"].add(place)
            if re.search(r"&mut \[u8; [\w:]+\]", head) and re.search(r"-> (?:usize|Option<usize>|Result<usize|Full|Named|Apart)", head):
                places["6 buffers with a length beside them"].append(place)
    for key, group in bodies.items():
        if len(group) > 1:
            places["2 functions of one body but for types and constants"] += group
    for fact, group in facts.items():
        if len(group) >= 3:
            places["5 facts required by three functions or more"].append(f"{fact} ({len(group)})")
    for pair, group in together.items():
        places["5 parameters that travel together"].append(f"{pair} ({len(group)})")
    short = re.compile(r"^[\w-]+ (?:\w+ )?c = (?:omega arith|search rules|refl)$", re.M)
    for name, text in files(commit, "proofs", "Answers.antt"):
        places["8 answers of one word"] += [name] * len(short.findall(text))
    for point in sorted(places):
        print(f"{point}: {len(places[point])}")
        if show:
            for place in sorted(set(places[point])):
                print(f"    {place}")


main()
