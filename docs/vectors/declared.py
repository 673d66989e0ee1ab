#!/usr/bin/env python3
"""Holds crates/declare/stdout, what the program for people prints, to the model of replay.py: each declaration of crates/declare/stdin (a JSON text
sequence) is put at the count in turn, and its block must have the model's place, rows, canonical text and fingerprint, or the refusal with its line and column.

Behind the line and column of a refusal that has a byte stand a piece of the text's line and a caret under the byte. The piece begins with four
columns, blank or `... `, and then has the line from its beginning, or from 60 bytes before the position where that is later; each byte is one column. Behind
the caret of a 7 at a character that is not ASCII (an escape undone) stands a blank and the character's number, as U+0416; else nothing does.

    python3 docs/vectors/declared.py        (at the root of the repository)
"""
import json
import os
import re
import subprocess
import sys

HERE = os.path.dirname(os.path.abspath(__file__))
WITHOUT_A_BYTE = ("20", "21", "22", "23", "24", "29")
ESCAPE = re.compile(rb"\\u[Dd][89ABab]..\\u....|\\u....|\\.", re.S)


def model(lines):
    script = "".join(l + "\n" for l in lines)
    run = subprocess.run([sys.executable, os.path.join(HERE, "replay.py")], input=script, capture_output=True, text=True, check=True)
    return run.stdout.rstrip("\n").split("\n")


def character(text, at):
    """The character that stands at a position, an escape undone."""
    escape = ESCAPE.match(text, at)
    return json.loads(b'"' + escape.group() + b'"') if escape else text[at:at + 4].decode("utf-8", "ignore")[0]


def behind_caret(why, text, at):
    return " U+%04X" % ord(character(text, at)) if why == "7" and not character(text, at).isascii() else ""


def pointed(why, text, at, piece, caret):
    """Are these the piece of the text and the caret for a refusal at a byte?"""
    begin = text.rfind(b"\n", 0, at) + 1
    shown = max(begin, at - 60)
    before = text[shown:at]
    return (piece[:4] == ("... " if shown > begin else "    ") and len(piece) >= 4 + len(before)
            and all(c == chr(b) for c, b in zip(piece[4:], before) if 32 <= b < 127)
            and caret == " " * (4 + len(before)) + "^" + behind_caret(why, text, at))


def refused(number, text, answer, block):
    why, place, position = answer.split()[1:]
    wanted = ["text %d: refusal %s, place %s, position %s\n" % (number, why, place, position)]
    if why not in WITHOUT_A_BYTE:
        at = int(position)
        where = "  line %d, column %d" % (text[:at].count(b"\n") + 1, at - text[:at].rfind(b"\n"))
        wanted.append("\n" + where + "\n")
        lines = block.split("\n")
        assert where in lines, (wanted, block)
        piece, caret = lines[lines.index(where) + 1:][:2]
        assert pointed(why, text, at, piece, caret), (position, behind_caret(why, text, at), block)
    return wanted


def shown(default):
    """A default in one line: a byte of white space as a blank, one that is not ASCII as `?`."""
    return "".join(" " if b in b"\t\n\r" else chr(b) if b < 127 else "?" for b in default)


def row_says(line, number, row):
    _, kind, depth, position, size, note, _, _, name, _, default = row.split()
    words = [str(number), kind, depth, position] + ([] if name == "-" else [bytes.fromhex(name).decode()])
    return (line.split()[:len(words)] == words and (size == "0" or "size " + size in line) and (note == "0" or "note " + note in line)
            and ("  default " not in line if default == "-" else line.endswith("  default " + shown(bytes.fromhex(default)))))


def accepted(number, place, before, block):
    said = model(before + ["rows %d" % place, "fingerprint %d" % place, "canonical %d 0 131072" % place])
    rows = [l for l in said if l.startswith("row ")]
    table = [l for l in block.split("\n") if re.match(r" +\d+  [a-z]", l)]
    assert len(rows) == len(table) and all(row_says(t, i, r) for i, (t, r) in enumerate(zip(table, rows))), block
    _, length, text = said[-1].split()
    _, signed, eight = said[-2].split()
    text = bytes.fromhex(text)[:int(length)].decode()
    return ["text %d: place %d, rows %d\n" % (number, place, len(rows)), "canonical text, %s bytes\n  %s\n" % (length, text),
            "fingerprint  %s\n" % signed, "hex          %016x\n" % (int(signed) % 2**64), "bytes        " + " ".join(re.findall("..", eight))]


def main():
    texts = [t for t in open("crates/declare/stdin", "rb").read().split(b"\x1e") if t.strip()]
    blocks = open("crates/declare/stdout").read().split("\n\n")
    script, place = ["open"], 0
    for i, (text, block) in enumerate(zip(texts, blocks)):
        script.append("put %d %s" % (place, text.hex()))
        answer = model(script)[-1]
        if answer.startswith("refused"):
            wanted = refused(i + 1, text, answer, block)
        else:
            wanted = accepted(i + 1, place, script, block)
            place += 1
        for w in wanted:
            assert w in block, (w, block)
    print(len(texts), "declarations as the model has them")


if __name__ == "__main__":
    main()
