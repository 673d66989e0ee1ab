#!/usr/bin/env python3
"""Data written by Avro's own code, Java and Python, for the declarations of summaries.declarations.

    python3 docs/vectors/summaries_python.py                     at the root of the repository; writes docs/vectors/summaries.data

Java's data come from summaries_java.java (Debian's libavro-java 1.8.2, default-jdk-headless 17). Beside them stand two data for each declaration by Avro's
Python library (Debian's python3-avro 1.11.1, run by /usr/bin/python3), whose DatumWriter writes blocks without sizes. Fixed seeds: a second run writes the
same bytes. summaries.data has the lines that are told at the head of summaries_java.java; Python's data have the writer `python`, and where their
fields and branches begin is found by reading the datum again with that library's BinaryDecoder over a stream that knows where it is.

What is tried here: that each datum is walked by summaries.py to the same offsets and to its end, and that the fingerprint of Java's SchemaNormalization is that of
the second reading for each declaration that refers to no earlier one, and another for each that does: Java writes the definition into the canonical text.
"""
import os
import subprocess
import sys

sys.path.insert(0, os.path.dirname(os.path.abspath(__file__)))
import canonical
import summaries

HERE = os.path.dirname(os.path.abspath(__file__))

WRITER = r'''
import io, json, math, random, sys, warnings
warnings.simplefilter("ignore")
import avro.errors, avro.io, avro.name, avro.schema

sys.setrecursionlimit(10000)
STRINGS = ["", "b", "\u0000\u0001", "\u00e9", "\u20ac\u0416", "\U0001F600", "key", "\ufffd", "two words"]


class Maker:
    def __init__(self, rng):
        self.rng, self.left = rng, 60

    def make(self, s, depth=0):
        """A value, and where a union is what the writer will take."""
        rng, t = self.rng, s.type
        self.left -= 1
        if t == "null": return None
        if t == "boolean": return rng.random() < 0.5
        if t == "int": return rng.choice([0, -1, 1, 63, 64, -65, 2 ** 31 - 1, -2 ** 31, rng.randrange(-2 ** 31, 2 ** 31)])
        if t == "long": return rng.choice([0, -1, 2 ** 31, 2 ** 63 - 1, -2 ** 63, rng.randrange(-2 ** 63, 2 ** 63)])
        if t in ("float", "double"): return rng.choice([0.0, -0.0, 1.5, math.inf, -math.inf, 2.0 ** -120])
        if t == "bytes": return rng.randbytes(rng.randrange(6))
        if t == "string": return rng.choice(STRINGS)
        if t == "fixed": return rng.randbytes(s.size)
        if t == "enum": return rng.choice(s.symbols)
        if t == "record": return {f.name: self.make(f.type, depth + 1) for f in s.fields}
        if t == "array": return [self.make(s.items, depth + 1) for _ in range(self.count(depth))]
        if t == "map": return {rng.choice(STRINGS) + str(i % 2): self.make(s.values, depth + 1) for i in range(self.count(depth))}
        members = s.schemas
        if self.left < 0 or depth > 12:
            if any(m.type == "null" for m in members): return None
        return self.make(rng.choice(members), depth + 1)

    def count(self, depth):
        return 0 if self.left < 0 or depth > 12 else self.rng.randrange(4)


def walk(s, d, at, offsets):
    t = s.type
    if t == "null": d.read_null()
    elif t == "boolean": d.read_boolean()
    elif t == "int": d.read_int()
    elif t == "long": d.read_long()
    elif t == "float": d.read_float()
    elif t == "double": d.read_double()
    elif t == "bytes": d.read_bytes()
    elif t == "string": d.read_utf8()
    elif t == "fixed": d.read(s.size)
    elif t == "enum": d.read_int()
    elif t == "record":
        for f in s.fields:
            offsets.append(at.tell())
            walk(f.type, d, at, offsets)
    elif t in ("array", "map"):
        n = d.read_long()
        while n:
            if n < 0:
                n = -n
                d.read_long()
            for _ in range(n):
                if t == "map": d.read_utf8()
                walk(s.items if t == "array" else s.values, d, at, offsets)
            n = d.read_long()
    else:
        taken = s.schemas[d.read_int()]
        offsets.append(at.tell())
        walk(taken, d, at, offsets)


names, place, number = None, 0, 0
for line in sys.stdin.read().split("\n")[:-1]:
    if line.startswith("#"): continue
    if not line:
        names = None
        continue
    if names is None:
        names, place = avro.name.Names(), 0
        print("set")
    text = json.loads(line)
    if isinstance(text, str) and text not in avro.schema.PRIMITIVE_TYPES:
        raise ValueError(line)
    s = avro.schema.make_avsc_object(text, names)
    print("declaration own - " + line)
    seen = set()
    # for a logical type this library wants values of classes of its own
    for i in range(0 if "logicalType" in line else 2):
        rng = random.Random("%d %d" % (number, i))
        for _ in range(200):
            value, out = Maker(rng).make(s), io.BytesIO()
            try:
                avro.io.DatumWriter(s).write(value, avro.io.BinaryEncoder(out))
            except avro.errors.AvroTypeException:
                continue        # of two records with the same fields in a union this library takes the first
            data = out.getvalue()
            if len(data) > 120 or data in seen: continue
            seen.add(data)
            offsets, again = [], io.BytesIO(data)
            walk(s, avro.io.BinaryDecoder(again), again, offsets)
            offsets.append(again.tell())
            assert again.tell() == len(data)
            print("datum %d python %s %s %s" % (place, data.hex() or "-", ",".join(map(str, offsets)), ascii(value)))
            break
    place += 1
    number += 1
'''


def run(command):
    text = open(os.path.join(HERE, "summaries.declarations")).read()
    return sets_of(subprocess.run(command, input=text, stdout=subprocess.PIPE, text=True, check=True).stdout.split("\n")[:-1])


def sets_of(lines):
    """For each set its declarations, (refers, fingerprint, text, data); a datum is (writer, bytes, offsets, value)."""
    sets = []
    for line in lines:
        word, _, rest = line.partition(" ")
        if word == "set":
            sets.append([])
        elif word == "declaration":
            refers, fingerprint, text = rest.split(" ", 2)
            sets[-1].append((refers == "refers", fingerprint, text.encode(), []))
        else:
            place, writer, data, offsets, value = rest.split(" ", 4)
            sets[-1][int(place)][3].append((writer, b"" if data == "-" else bytes.fromhex(data), [int(n) for n in offsets.split(",")], value))
    return sets


def stored():
    return sets_of(open(os.path.join(HERE, "summaries.data"), encoding="ascii").read().split("\n")[:-1])


def main():
    java = run(["java", "-cp", canonical.JARS, os.path.join(HERE, "summaries_java.java")])
    python = run(["/usr/bin/python3", "-c", WRITER])
    lines, tally, fingerprints = [], {}, 0
    for a, b in zip(java, python, strict=True):
        lines.append("set")
        known = summaries.set_of([text for _, _, text, _ in a])
        for place, (one, other) in enumerate(zip(a, b, strict=True)):
            refers, fingerprint, declared, by_java = one
            assert declared == other[2]
            assert refers == (bytes.fromhex(fingerprint) != known.prints[place]), one
            fingerprints += not refers
            lines.append("declaration %s %s %s" % ("refers" if refers else "own", fingerprint, declared.decode()))
            seen = set()
            for writer, data, offsets, value in by_java + other[3]:
                walk = summaries.Walk(known, place, data, 0)
                walk.whole()
                assert walk.offsets == offsets and offsets[-1] == len(data), (declared, data.hex(), offsets, walk.offsets)
                if data in seen:
                    continue
                seen.add(data)
                tally[writer] = tally.get(writer, 0) + 1
                lines.append("datum %d %s %s %s %s" % (place, writer, data.hex() or "-", ",".join(map(str, offsets)), value))
    out = "\n".join(lines) + "\n"
    assert len(out) < 300000, len(out)
    open(os.path.join(HERE, "summaries.data"), "w", encoding="ascii").write(out)
    print(len(java), "sets,", sum(len(s) for s in java), "declarations,", fingerprints, "of them with Java's fingerprint;", sum(tally.values()), "data:", tally, len(out), "bytes", file=sys.stderr)


if __name__ == "__main__":
    main()
