#!/usr/bin/env python3
"""Where Apache Avro's own test of defaults differs from request A6.

    python3 docs/vectors/defaults_java.py            at the root of the repository

Java is Debian's libavro-java 1.8.2 (Defaults.java, with setValidateDefaults(true)). It is asked about every text of crates/defaults_run that is a
declaration on its own, accepted or refused by 47 or 48, and about one text for each kind of difference, which stands in KINDS with both answers.
A text that is read differently is put down to the smallest set of rules of Java that gives Java's answer; a text that no such set explains stops
the run, and so does one to which all of these rules together give another answer than Java. It prints the counts.
"""
import collections
import itertools
import os
import re
import subprocess
import sys

sys.path.insert(0, os.path.dirname(os.path.abspath(__file__)))
import canonical
import declaration
import fitting
import replay

RULES = {
    "first": "a union takes its first member alone",
    "number": "int and long take any number",
    "enum": "an enum takes any string",
    "fixed": "a fixed takes any string",
    "bytes": "bytes take any string",
    "float": "a field of float or double takes a string that Java reads as a number",
    "open": "a record that is still open has no fields yet: refused",
    "length": "no limit of 255 bytes",
}
# a kind of difference: the field of {"type":"record","name":"R","fields":[F]}, Java's answer, ours
KINDS = [
    ("first", '{"name":"a","type":["null","string"],"default":"x"}', "default", "ok"),
    ("number", '{"name":"a","type":"int","default":2147483648}', "ok", "47"),
    ("number", '{"name":"a","type":"int","default":1.0}', "ok", "47"),
    ("number", '{"name":"a","type":"long","default":1e2}', "ok", "47"),
    ("enum", '{"name":"a","type":{"type":"enum","name":"E","symbols":["A"]},"default":"B"}', "ok", "47"),
    ("fixed", '{"name":"a","type":{"type":"fixed","name":"F","size":2},"default":"a"}', "ok", "47"),
    ("fixed", '{"name":"a","type":{"type":"fixed","name":"F","size":1},"default":"\u0416"}', "ok", "47"),
    ("bytes", '{"name":"a","type":"bytes","default":"\u0416"}', "ok", "47"),
    ("float", '{"name":"a","type":"double","default":"NaN"}', "ok", "47"),
    ("float", '{"name":"a","type":"float","default":"1.5"}', "ok", "47"),
    ("open", '{"name":"a","type":"R","default":{}}', "refused", "ok"),
    ("length", '{"name":"a","type":"string","default":"%s"}' % ("x" * 254), "ok", "48"),
]
# both the same: a string in a float's place that is no number, in an array, an empty union
ALIKE = [('{"name":"a","type":"float","default":"x"}', "47"), ('{"name":"a","type":{"type":"array","items":"float"},"default":["NaN"]}', "47"), ('{"name":"a","type":[],"default":null}', "47"), ('{"name":"a","type":"string","default":null}', "47"),
         ('{"name":"a","type":{"type":"map","values":"int"},"default":{"k":"x","k":1}}', "ok"), ('{"name":"a","type":"float","default":1e999}', "ok"),
         ('{"name":"a","type":{"type":"record","name":"S","fields":[{"name":"x","type":"int","default":0}]},"default":{"other":[]}}', "ok"),
         ('{"name":"a","type":{"type":"record","name":"S","fields":[{"name":"x","aliases":["w"],"type":"int"}]},"default":{"w":1}}', "47")]
JAVA_NUMBER = re.compile(r"\s*[-+]?(NaN|Infinity|([0-9]+\.?[0-9]*|\.[0-9]+)([eE][-+]?[0-9]+)?[fFdD]?)\s*")


class Refused(Exception):
    pass


class Java(fitting.Types):
    """The rows of a declaration, with some of Java's rules. A default is tested when its field is read: the records around it are open."""

    def __init__(self, rows, rules):
        super().__init__(rows)
        self.rules, self.open = rules, set()

    def decided(self, v, i, known):
        kind, r = self.rows[i][0], self.rules
        if kind in ("int", "long") and "number" in r:
            return isinstance(v, fitting.Number)
        if kind in r and kind in ("enum", "fixed", "bytes"):
            return fitting.is_string(v)
        if kind == "union" and "first" in r:
            return bool(self.part(i)) and self.fits(v, self.part(i)[0], known)
        if kind == "record" and "open" in r and i in self.open and isinstance(v, dict):
            raise Refused
        return super().decided(v, i, known)

    def accepted(self):
        """Every default, in the order in which its field ends."""
        last = {i: self.behind(i) for i, r in enumerate(self.rows) if r[0] == "record"}
        fields = sorted((self.behind(i), -i) for i, r in enumerate(self.rows) if r[0] == "field" and r[4])
        try:
            for end, i in fields:
                i = -i
                self.open = {j for j in last if j < i < last[j]}
                v = fitting.value_of(self.rows[i][4])
                if "float" in self.rules and self.rows[self.type_of(i)][0] in ("float", "double") and fitting.is_string(v):
                    if not JAVA_NUMBER.fullmatch(v):
                        return False
                elif not self.fits(v, self.type_of(i), {}):
                    return False
        except Refused:
            return False
        return True

    def behind(self, i):
        j = i + 1
        while j < len(self.rows) and self.rows[j][1] > self.rows[i][1]:
            j += 1
        return j


def ours(text):
    answer = replay.Machine().line("put 0 " + text.hex())[0].split()
    return "ok" if answer[0] == "ok" else answer[1]


def asked(texts):
    os.makedirs(canonical.CLASSES, exist_ok=True)
    subprocess.run(["javac", "-cp", canonical.JARS, "-d", canonical.CLASSES, os.path.join(canonical.HERE, "Defaults.java")], check=True)
    run = subprocess.run(["java", "-cp", canonical.CLASSES + ":" + canonical.JARS, "Defaults"], input="".join(t.hex() + "\n" for t in texts), stdout=subprocess.PIPE, stderr=subprocess.DEVNULL, text=True, check=True)
    answers = [line.split(" ") for line in run.stdout.splitlines()]
    assert len(answers) == len(texts)
    return answers


def rows_of(text):
    """The rows, defaults of any length kept; None where there is another fault."""
    longest, declaration.LONGEST_STRING = declaration.LONGEST_STRING, 40000
    try:
        return [(r.kind, r.depth, r.string, r.size, r.default) for r in declaration.declaration(text)]
    except declaration.Refused:
        return None
    finally:
        declaration.LONGEST_STRING = longest


def explained(text, here, java):
    """The smallest set of Java's rules that gives Java's answer."""
    rows = rows_of(text)
    names = [r for r in RULES if r != "length"]
    for n in range(len(names) + 1):
        for rules in itertools.combinations(names, n):
            if Java(rows, set(rules)).accepted() == java:
                return rules + (("length",) if here == "48" and java else ())
    raise AssertionError(("not explained", text, here, java))


def main():
    record = '{"type":"record","name":"R","fields":[%s]}'
    single = [(record % f).encode() for _, f, _, _ in KINDS]
    for (rule, field, java, here), text, answer in zip(KINDS, single, asked(single)):
        assert answer == ["ok", java] and ours(text) == here, (rule, field, answer, ours(text))
        print("%s\n    %s\n    Java %s, here %s" % (RULES[rule], field if len(field) < 200 else field[:60] + "..", java, here))
    for (field, here), answer in zip(ALIKE, asked([(record % f).encode() for f, _ in ALIKE])):
        assert ours((record % field).encode()) == here and (answer[1] == "ok") == (here == "ok"), (field, here, answer)
    texts = []
    for line in open("crates/defaults_run/stdin"):
        words = line.split()
        if words[0] == "put" and words[2] != "-":
            texts.append(bytes.fromhex(words[2]))
    texts = [t for t in dict.fromkeys(texts) if ours(t) in ("ok", "47", "48") and rows_of(t) is not None]
    counts, kinds = collections.Counter(), collections.Counter()
    for text, (without, with_) in zip(texts, asked(texts)):
        here = ours(text)
        if without != "ok":
            counts["refused by Java whatever the defaults are"] += 1
            continue
        java = with_ == "ok"
        assert Java(rows_of(text), set(RULES)).accepted() == java, ("all of Java's rules give another answer", text, here, java)
        if java == (here == "ok"):
            counts["accepted by both" if java else "refused by both"] += 1
            continue
        counts["accepted by Java alone" if java else "accepted here alone"] += 1
        kinds[explained(text, here, java)] += 1
    print(len(texts), "texts:", dict(counts))
    for rules, n in sorted(kinds.items(), key=lambda x: -x[1]):
        print("%5d  %s" % (n, "; ".join(RULES[r] for r in rules)))


if __name__ == "__main__":
    main()
