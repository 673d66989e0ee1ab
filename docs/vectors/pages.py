#!/usr/bin/env python3
"""Takes the examples out of docs/NAMES.md and docs/DEFAULTS.md, answers them by the model of replay.py, and holds what the pages say to it.

    python3 docs/vectors/pages.py crates/pages_run

at the root of the repository writes crates/pages_run/stdin, a script of calls, and crates/pages_run/stdout, the answers. It stops where a page and
the model differ.
"""
import os
import subprocess
import sys

HERE = os.path.dirname(os.path.abspath(__file__))


def blocks(page):
    """The examples: runs of lines that begin with four blanks, each a list of (call, answer)."""
    block = []
    for line in page.split("\n") + [""]:
        if line.startswith("    "):
            call, answer = line.strip().split("->")
            block.append((call.strip(), answer.strip()))
        elif block:
            yield block
            block = []


def line_of(call):
    word, place, rest = call.split(" ", 2)
    if word == "default":
        return "rows %s" % place
    return call if word == "name" else "%s %s %s" % (word, place, rest.encode().hex())


def answers_of(script):
    """The model's answers, a list of lines for each line of the script."""
    out = subprocess.run([sys.executable, os.path.join(HERE, "replay.py")], input=script, capture_output=True, text=True, check=True).stdout
    lines = out.rstrip("\n").split("\n")
    for call in script.rstrip("\n").split("\n"):
        n = 1
        if call.startswith("rows"):
            n = 1 + next(i for i, l in enumerate(lines) if not l.startswith("row "))
        yield lines[:n]
        lines = lines[n:]
    assert not lines


def said(call, answer):
    """An answer of the model as the page writes it."""
    words = answer[0].split(" ")
    if words[0] == "refused":
        return "refused %s, place %s, byte %s" % tuple(words[1:])
    if call.startswith("default"):
        at, text = answer[int(call.split(" ")[2])].split(" ")[-2:]
        return "%s, byte %s" % (bytes.fromhex(text).decode(), at)
    return "ok" if call.startswith("put") else bytes.fromhex(words[1]).decode()


def main(folder):
    calls, script = [], []
    for name in ("NAMES", "DEFAULTS"):
        for block in blocks(open("docs/%s.md" % name, encoding="utf-8").read()):
            script.append("open")
            calls.append(None)
            for call, answer in block:
                script.append(line_of(call))
                calls.append((call, answer))
    text = "".join(l + "\n" for l in script)
    answers = list(answers_of(text))
    for asked, answer in zip(calls, answers, strict=True):
        if asked and said(asked[0], answer) != asked[1]:
            sys.exit("%s\n    the page says %s\n    the model says %s" % (asked[0], asked[1], said(asked[0], answer)))
    os.makedirs(folder, exist_ok=True)
    open(os.path.join(folder, "stdin"), "w").write(text)
    open(os.path.join(folder, "stdout"), "w").write("".join(l + "\n" for a in answers for l in a))
    print(sum(c is not None for c in calls), "examples", file=sys.stderr)


if __name__ == "__main__":
    main(sys.argv[1])
