#!/usr/bin/env python3
"""What Apache Avro's own decoder says of the data of crates/summaries_run, damaged ones too.

    python3 docs/vectors/summaries_decoder.py          at the root of the repository

Every datum of the script that is walked (by `datum`, or behind a header whose fingerprint is known), each once for its set and place, is read by Java Avro 1.8.2
(summaries_decoder.java). Whatever the second reading accepts Java must accept, with the same offsets, and where it finds bytes left over Java must leave them at the same byte; a datum of
which that does not hold stops the run, but for lengths of more than five groups, which Java 1.8.2 reads as int. The counts are printed of what Java refuses and of what it accepts
although the second reading refuses it, by number, with the shortest datum.
"""
import collections
import os
import subprocess
import sys

sys.path.insert(0, os.path.dirname(os.path.abspath(__file__)))
import canonical
import replay
import summaries

HERE = os.path.dirname(os.path.abspath(__file__))


def main():
    machine, texts, told, seen, given, wanted = summaries.Machine(), [], None, set(), [], []
    for line in open("crates/summaries_run/stdin").read().split("\n")[:-1]:
        words = line.split(" ")
        if words[0] not in ("summary", "find", "datum", "digest"):
            answer = machine.line(line)[0]
            if words[0] == "put" and answer.startswith("ok"):
                texts = texts[:int(words[1])] + [words[2]] + texts[int(words[1]) + 1:]
            elif words[0] in ("open", "memory", "fill"):
                texts = []
            elif words[0] == "poke":
                texts = None if texts is None else [None] * 32       # not a set of texts any more
            continue
        known = machine.set()
        if known is None or not texts or None in texts or words[0] not in ("summary", "datum") or machine.line(line) == ["what?"]:
            continue
        data = b"" if words[-1] == "-" else bytes.fromhex(words[-1])
        if words[0] == "summary":
            place = known.find(data[2:10]) if data[:2] == summaries.MARKER and len(data) >= 10 else None
            data = data[10:]
        else:
            place = int(words[1]) if int(words[1]) < len(texts) else None
        if place is None or (tuple(texts), place, data) in seen:
            continue
        seen.add((tuple(texts), place, data))
        if told != texts:
            given += ["set"] + ["declaration " + t for t in texts]
            told = list(texts)
        given.append("datum %d %s" % (place, replay.hexed(data)))
        walk = summaries.Walk(known, place, data, 0)
        try:
            walk.whole()
            wanted.append((",".join(map(str, walk.offsets)), None, texts[place], data))
        except replay.No as n:
            wanted.append((None, n.args, texts[place], data))
    out = subprocess.run(["java", "-Xss512m", "-cp", canonical.JARS, os.path.join(HERE, "summaries_decoder.java")], input="\n".join(given) + "\n", stdout=subprocess.PIPE, text=True, check=True).stdout.split("\n")[:-1]
    assert len(out) == len(wanted), (len(out), len(wanted))
    tally, first, refused = collections.Counter(), {}, []
    for (offsets, no, text, data), java in zip(wanted, out):
        if java == "no":
            tally["a set that Java does not take"] += 1
        elif offsets is not None and java.startswith("refused"):
            # Java 1.8.2 reads a length as an int: five groups
            assert bytes([128] * 5) in bytes(b & 128 for b in data), (bytes.fromhex(text), data.hex(), offsets, java)
            tally["accepted here, Java refuses"] += 1
            refused.append((bytes.fromhex(text).decode()[:60], data.hex()[:60]))
        elif offsets is not None:
            assert java == offsets, (bytes.fromhex(text), data.hex(), offsets, java)
            tally["accepted by both, with the same offsets"] += 1
        else:
            what = "%d here, Java %s" % (no[0], "refuses" if java.startswith("refused") else "leaves bytes over" if java.startswith("left") else "accepts")
            if no[0] == 46 and not java.startswith("refused"):
                assert java == "left %d" % no[2], (bytes.fromhex(text), data.hex(), no, java)
            tally[what] += 1
            if what not in first or len(data) < len(first[what][1]):
                first[what] = text, data, no, java
    for what, n in sorted(tally.items()):
        print("%6d  %s" % (n, what))
        if what in first and "refuses" not in what:
            text, data, no, java = first[what]
            print("        %s: %s here %d at %d, Java %s" % (bytes.fromhex(text).decode()[:100], replay.hexed(data)[:60], no[0], no[2], java[:60]))
    for text, data in refused:
        print("        %s: %s accepted here" % (text, data))


if __name__ == "__main__":
    main()
