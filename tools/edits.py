#!/usr/bin/env python3
"""Lists the must-fail edits whose `old:` text does not stand once in its file: python3 tools/edits.py, at the top."""
import glob
import os


def wrong(edit):
    crate = edit.split("/")[1]
    file, old, texts, found = None, None, {}, []
    for line in open(edit, encoding="utf-8").read().split("\n"):
        if line.startswith("file: "):
            file = f"crates/{crate}/" + line[6:].strip()
        elif line.startswith("old: "):
            old = line[5:]
        elif line.startswith("new: "):
            text = texts.get(file) or (open(file, encoding="utf-8").read() if os.path.exists(file) else "")
            if text.count(old) != 1:
                found.append((file, text.count(old), old))
            texts[file] = text.replace(old, line[5:])
    return found


if __name__ == "__main__":
    edits = sorted(glob.glob("crates/*/must-fail/*.edit"))
    bad = {e: w for e in edits for w in [wrong(e)] if w}
    for e, found in bad.items():
        for file, n, old in found:
            print(f"{e}: {n} times in {file}: {old[:120]}")
    print(f"{len(edits) - len(bad)} fit, {len(bad)} do not")
