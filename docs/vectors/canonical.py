#!/usr/bin/env python3
"""Canonical texts and fingerprints made by Apache Avro's own code, for declarations that it and document 01 read alike.

    python3 docs/vectors/canonical.py crates/canonical_run      writes stdin and stdout there
    python3 docs/vectors/canonical.py list                      the texts by label, and every difference

stdin has a text to a line in hexadecimal digits. stdout has for each the canonical text in hexadecimal digits and the
fingerprint as a signed number: the answers of SchemaNormalization (Debian's libavro-java, 1.8.2, by Canonical.java). Avro's
Python library (Debian's python3-avro, 1.11.1) is asked too. Needed: javac and java, the jar files of /usr/share/java, and
/usr/bin/python3 with that library.

Each text of SAME is read by replay.py's model as well, and its answer must be Java's. The texts of DIFFER are those that the
two read differently, each with the reason; they are tried too, so that the list stays true, and are not written out.
"""
import collections
import json
import os
import random
import subprocess
import sys

sys.path.insert(0, os.path.dirname(os.path.abspath(__file__)))
import replay

HERE = os.path.dirname(os.path.abspath(__file__))
JARS = ":".join("/usr/share/java/%s.jar" % n for n in ("avro", "avro-guava-dependencies", "jackson-core-asl", "jackson-mapper-asl", "slf4j-api", "slf4j-nop", "guava", "commons-compress"))
CLASSES = "target/vectors"

SAME, DIFFER, NEITHER = [], [], []


def same(label, text):
    SAME.append((label, text.encode("utf-8")))


def differ(reason, text, java, ours):
    """java and ours: a canonical text, or `refused`; ours is a number where document 01 refuses."""
    DIFFER.append((reason, text.encode("utf-8"), java, ours))


def neither(number, text):
    """Refused by Java, and by document 01 with a number."""
    NEITHER.append((number, text.encode("utf-8")))


# ---- the texts

PRIMITIVES = ("null", "boolean", "int", "long", "float", "double", "bytes", "string")
for p in PRIMITIVES:
    same("primitive " + p, '"%s"' % p)
    same("primitive %s in an object" % p, '{"type":"%s"}' % p)
    same("primitive %s with white space and other members" % p, ' { "doc" : "x", "type" :\n "%s" , "x" : [1, {"y": null}] } ' % p)
    same("array of " + p, '{"type":"array","items":"%s"}' % p)
    same("map of " + p, '{"values":{"type":"%s"},"type":"map"}' % p)
    same("record with " + p, '{"type":"record","name":"R","fields":[{"name":"f","type":"%s"}]}' % p)
same("an array of arrays", '{"type":"array","items":{"type":"array","items":{"type":"array","items":"int"}}}')
same("a map of maps", '{"type":"map","values":{"type":"map","values":{"type":"map","values":"string"}}}')
same("a map of arrays of unions", '{"type":"map","values":{"type":"array","items":["null","string",{"type":"map","values":"bytes"}]}}')
same("an array with other members", '{"type":"array","java-class":"java.util.List","items":"string","default":[]}')
same("an empty union", "[]")
same("an empty union in an array", '{"type":"array","items":[]}')
same("a union of one", '["int"]')
same("a union of all primitives", '["null","boolean","int","long","float","double","bytes","string"]')
same("a union in another order", '["string","null",{"type":"int"}]')
same("a union of an array and a map", '[{"type":"array","items":"int"},{"type":"map","values":"int"},"null"]')
same("a union of definitions", '[{"type":"record","name":"A","fields":[]},{"type":"enum","name":"B","symbols":["X"]},{"type":"fixed","name":"C","size":3}]')
same("a union of definitions of one last part", '[{"type":"fixed","name":"a.X","size":1},{"type":"fixed","name":"b.X","size":2},{"type":"fixed","name":"X","size":3}]')
same("unions in arrays in unions", '[{"type":"array","items":["null",{"type":"array","items":["int","string"]}]},"null"]')
# enums
same("an enum", '{"type":"enum","name":"E","symbols":["A","B","C"]}')
same("an enum of one", '{"type":"enum","name":"E","symbols":["A"]}')
same("an enum whose symbols are not in order", '{"type":"enum","name":"E","symbols":["Z","A","M"]}')
same("an enum with doc and aliases", '{"type":"enum","name":"E","aliases":["D","x.C"],"doc":"e","symbols":["A"]}')
same("an enum with a namespace", '{"type":"enum","name":"E","namespace":"a.b","symbols":["A"]}')
same("an enum with a dotted name", '{"type":"enum","name":"a.b.E","symbols":["A"]}')
same("an enum with a dotted name and a namespace", '{"type":"enum","name":"a.b.E","namespace":"x","symbols":["A"]}')
same("an enum with an empty namespace", '{"type":"enum","name":"E","namespace":"","symbols":["A"]}')
same("an enum with a default", '{"type":"enum","name":"E","symbols":["A","B"],"default":"B"}')
same("an enum with underscores and digits", '{"type":"enum","name":"_E_1","symbols":["_","_1","a1","A__"]}')
same("an enum of 300", '{"type":"enum","name":"E","symbols":[%s]}' % ",".join('"S%d"' % i for i in range(300)))
same("symbols that are words of types", '{"type":"enum","name":"E","symbols":["null","int","record","string"]}')
# fixeds
for n in (1, 2, 7, 8, 9, 10, 11, 16, 99, 100, 101, 255, 256, 1000, 4096, 65535, 65536, 1000000, 16777216, 999999999, 1000000000, 2147483646, 2147483647):
    same("a fixed of %d" % n, '{"type":"fixed","name":"F","size":%d}' % n)
same("a fixed of 0", '{"type":"fixed","name":"F","size":0}')
same("a fixed in a namespace", '{"type":"fixed","size":16,"namespace":"a.b","name":"F"}')
same("a fixed with a dotted name", '{"type":"fixed","size":16,"name":"a.b.c.d.F"}')
same("a fixed with doc and aliases", '{"type":"fixed","name":"F","aliases":["G"],"size":16,"doc":"f"}')
same("a fixed with a leading dot", '{"type":"fixed","name":".F","size":2}')
# decimals
same("a decimal over bytes", '{"type":"bytes","logicalType":"decimal","precision":9,"scale":2}')
same("a decimal over bytes without a scale", '{"type":"bytes","logicalType":"decimal","precision":9}')
same("a decimal over fixed", '{"type":"fixed","name":"D","size":8,"logicalType":"decimal","precision":18,"scale":4}')
same("a decimal over fixed in a namespace", '{"type":"fixed","name":"D","namespace":"m","size":8,"logicalType":"decimal","precision":18}')
same("a decimal without a precision", '{"type":"bytes","logicalType":"decimal"}')
same("a decimal with precision 0", '{"type":"bytes","logicalType":"decimal","precision":0}')
same("a decimal with a scale over its precision", '{"type":"bytes","logicalType":"decimal","precision":2,"scale":3}')
same("a decimal with a precision that is no number", '{"type":"bytes","logicalType":"decimal","precision":"2"}')
same("a decimal with a negative scale", '{"type":"bytes","logicalType":"decimal","precision":2,"scale":-1}')
same("a decimal beyond its fixed", '{"type":"fixed","name":"D","size":1,"logicalType":"decimal","precision":30}')
same("a decimal over a string", '{"type":"string","logicalType":"decimal","precision":4}')
same("a decimal in a record", '{"type":"record","name":"R","fields":[{"name":"f","type":{"type":"bytes","logicalType":"decimal","precision":4,"scale":1}},{"name":"g","type":["null",{"type":"bytes","logicalType":"decimal","precision":4}]}]}')
same("a decimal in an array and a map", '{"type":"array","items":{"type":"map","values":{"type":"bytes","logicalType":"decimal","precision":4,"scale":1}}}')
same("other logical types", '{"type":"record","name":"R","fields":[{"name":"d","type":{"type":"int","logicalType":"date"}},{"name":"t","type":{"type":"long","logicalType":"timestamp-millis"}},{"name":"u","type":{"type":"string","logicalType":"uuid"}},{"name":"x","type":{"type":"fixed","name":"Dur","size":12,"logicalType":"duration"}}]}')
# records
same("01's listing", '{"type":"record","name":"R","namespace":"a","fields":[{"name":"x","type":"int"},{"name":"next","type":["null","R"]}]}')
same("01's listing, its canonical text", '{"name":"a.R","type":"record","fields":[{"name":"x","type":"int"},{"name":"next","type":["null","a.R"]}]}')
same("a record without fields", '{"type":"record","name":"R","fields":[]}')
same("members in another order", '{"fields":[{"type":"int","name":"f"},{"name":"g","type":"long"}],"name":"R","type":"record"}')
same("fields with doc, order and default", '{"type":"record","name":"R","doc":"r","fields":[{"name":"f","type":"int","default":5,"doc":"d","order":"descending"},{"name":"g","type":["null","string"],"default":null,"order":"ignore"},{"name":"h","type":"string","default":"","order":"ascending"}]}')
same("fields with aliases", '{"type":"record","name":"R","aliases":["Q","x.P"],"fields":[{"name":"f","aliases":["g","h"],"type":"int"}]}')
same("fields with own members", '{"type":"record","name":"R","x":1,"fields":[{"name":"f","x":{"y":[]},"type":"int"}]}')
same("a record with a namespace", '{"type":"record","name":"R","namespace":"com.example","fields":[{"name":"f","type":"int"}]}')
same("a record with a dotted name", '{"type":"record","name":"com.example.R","fields":[{"name":"f","type":"int"}]}')
same("a record with a dotted name and a namespace", '{"type":"record","name":"com.example.R","namespace":"no","fields":[{"name":"f","type":"com.example.R"}]}')
same("a record with an empty namespace", '{"type":"record","name":"R","namespace":"","fields":[{"name":"f","type":["null","R"]}]}')
same("a record with a leading dot", '{"type":"record","name":".R","fields":[{"name":"f","type":["null",".R","int"]}]}')
same("a record in a record", '{"type":"record","name":"a.R","fields":[{"name":"f","type":{"type":"record","name":"S","fields":[{"name":"g","type":"R"}]}},{"name":"h","type":"S"}]}')
same("a record of another namespace in a record", '{"type":"record","name":"a.R","fields":[{"name":"f","type":{"type":"record","name":"S","namespace":"b","fields":[{"name":"g","type":"a.R"},{"name":"h","type":["null","S"]}]}},{"name":"i","type":"b.S"}]}')
same("a dotted record in a record", '{"type":"record","name":"a.R","fields":[{"name":"f","type":{"type":"record","name":"b.c.S","fields":[{"name":"g","type":{"type":"enum","name":"E","symbols":["A"]}}]}},{"name":"i","type":["b.c.S","b.c.E","R"]}]}')
same("a namespace in a record without one", '{"type":"record","name":"R","fields":[{"name":"f","type":{"type":"record","name":"S","namespace":"b","fields":[{"name":"g","type":"S"}]}},{"name":"h","type":["R","b.S"]}]}')
same("an enum and a fixed in a record's namespace", '{"type":"record","name":"R","namespace":"n","fields":[{"name":"e","type":{"type":"enum","name":"E","symbols":["A"]}},{"name":"f","type":{"type":"fixed","name":"F","size":4}},{"name":"g","type":["null","E","F","n.R"]}]}')
same("a definition used twice", '{"type":"record","name":"R","fields":[{"name":"a","type":{"type":"fixed","name":"F","size":4}},{"name":"b","type":"F"},{"name":"c","type":{"type":"array","items":"F"}},{"name":"d","type":{"type":"map","values":["null","F"]}}]}')
same("a definition in an array", '{"type":"array","items":{"type":"record","name":"R","fields":[{"name":"f","type":{"type":"array","items":"R"}}]}}')
same("a definition in a map", '{"type":"map","values":{"type":"enum","name":"E","namespace":"q","symbols":["A"]}}')
same("definitions in a union, used later", '{"type":"record","name":"R","fields":[{"name":"a","type":["null",{"type":"record","name":"S","fields":[]},{"type":"enum","name":"E","symbols":[]}]},{"name":"b","type":"S"},{"name":"c","type":"E"}]}')
same("a linked list", '{"type":"record","name":"LongList","aliases":["LinkedLongs"],"fields":[{"name":"value","type":"long"},{"name":"next","type":["null","LongList"]}]}')
same("a tree", '{"type":"record","name":"t.Node","fields":[{"name":"label","type":"string"},{"name":"children","type":{"type":"array","items":"Node"}},{"name":"by","type":{"type":"map","values":"t.Node"}}]}')
same("a field whose type is an object with a primitive", '{"type":"record","name":"R","fields":[{"name":"f","type":{"type":"string","avro.java.string":"String"}}]}')
same("a hundred fields", '{"type":"record","name":"Wide","namespace":"w","fields":[%s]}' % ",".join('{"name":"field_%d","type":"%s"}' % (i, PRIMITIVES[i % 8]) for i in range(100)))
same("fifteen records deep", "".join('{"type":"record","name":"R%d","fields":[{"name":"f","type":' % i for i in range(15)) + '"int"' + "}]}" * 15)
same("a long name", '{"type":"record","name":"%s","fields":[]}' % ("N" * 255))
same("a long full name", '{"type":"record","name":"%s","namespace":"%s","fields":[{"name":"%s","type":"int"}]}' % ("N" * 100, "n" * 154, "f" * 255))
same("names with underscores and digits", '{"type":"record","name":"_R1","namespace":"_a.b_2","fields":[{"name":"_","type":"int"},{"name":"__1","type":"int"},{"name":"A1b2","type":"int"}]}')
same("fields that are words of types", '{"type":"record","name":"R","fields":[{"name":"int","type":"int"},{"name":"record","type":"null"},{"name":"type","type":"long"},{"name":"name","type":"string"}]}')
same("names that are words of types but not reserved", '{"type":"record","name":"array","fields":[{"name":"f","type":{"type":"enum","name":"map","symbols":["union"]}}]}')
same("field names that differ in case", '{"type":"record","name":"R","fields":[{"name":"f","type":"int"},{"name":"F","type":"int"},{"name":"ff","type":"int"}]}')
# text
same("white space everywhere", '\n{\t"type" : "record" ,\r\n "name" : "R" , "fields" : [ { "name" : "f" , "type" : [ "null" , { "type" : "array" , "items" : "int" } ] } ] }\n\n')
same("escapes in a name", r'{"type":"record","name":"\u0052\u0031","fields":[{"name":"\u0066","type":"int"}]}')
same("escapes in a type", r'{"type":"\u0072ecord","name":"R","fields":[{"name":"f","type":"i\u006et"}]}')
same("escapes in keys", r'{"t\u0079pe":"array","\u0069tems":"string"}')
same("escapes in a symbol", r'{"type":"enum","name":"E","symbols":["\u0041","B\u0042"]}')
same("an escaped dot in a name", r'{"type":"fixed","name":"a\u002eF","size":1}')
same("text that is not ASCII in docs", '{"type":"record","doc":"Größe → 大きさ 😀","name":"R","fields":[{"name":"f","doc":"é\\u00e9","type":"int"}]}')
same("keys that are not ASCII", '{"type":"record","größe":1,"name":"R","fields":[{"ключ":"x","name":"f","type":"int"}]}')
same("quotes and brackets in docs", r'{"type":"record","doc":"\"]}[{\\","name":"R","fields":[{"doc":"\n\t\/","name":"f","type":"int"}]}')
same("numbers of all forms in other members", '{"type":"int","a":-0,"b":1E+9,"c":0.5e-3,"d":[1,-2.5]}')
same("a type given twice, alike", '{"type":"int","type":"int"}')
same("a type given twice", '{"type":"int","type":"long"}')
same("a name given twice", '{"type":"fixed","name":"A","name":"B","size":1}')
same("a namespace that is no string", '{"type":"record","name":"R","namespace":5,"fields":[]}')
same("a doc that is no string", '{"type":"record","name":"R","doc":5,"fields":[]}')
same("a logical type that is no string", '{"type":"bytes","logicalType":5}')
same("no namespace inside a namespace, and a reference to itself", '{"type":"record","name":"a.R","fields":[{"name":"f","type":{"type":"record","name":"S","namespace":"","fields":[{"name":"g","type":"S"}]}}]}')
same("a leading dot inside a namespace", '{"type":"record","name":"a.R","fields":[{"name":"f","type":{"type":"fixed","name":".S","size":1}},{"name":"g","type":".S"}]}')
# as users write them
same("an employee", """{
  "type": "record", "name": "Employee", "namespace": "com.example.hr", "doc": "One row of the staff list.",
  "fields": [
    {"name": "id", "type": "long"},
    {"name": "email", "type": ["null", "string"], "default": null},
    {"name": "salary", "type": {"type": "bytes", "logicalType": "decimal", "precision": 12, "scale": 2}},
    {"name": "manager", "type": ["null", "Employee"], "default": null},
    {"name": "tags", "type": {"type": "map", "values": {"type": "array", "items": "string"}}, "order": "ignore"},
    {"name": "grade", "type": {"type": "enum", "name": "Grade", "aliases": ["Level"], "symbols": ["JUNIOR", "SENIOR"]}},
    {"name": "badge", "type": {"type": "fixed", "name": "Badge", "size": 16}}
  ]
}""")
same("a handshake", """{
  "type": "record", "name": "HandshakeRequest", "namespace":"org.apache.avro.ipc",
  "fields": [
    {"name": "clientHash", "type": {"type": "fixed", "name": "MD5", "size": 16}},
    {"name": "clientProtocol", "type": ["null", "string"]},
    {"name": "serverHash", "type": "MD5"},
    {"name": "meta", "type": ["null", {"type": "map", "values": "bytes"}]}
  ]
}""")
same("a handshake's response", """{
  "type": "record", "name": "HandshakeResponse", "namespace": "org.apache.avro.ipc",
  "fields": [
    {"name": "match", "type": {"type": "enum", "name": "HandshakeMatch", "symbols": ["BOTH", "CLIENT", "NONE"]}},
    {"name": "serverProtocol", "type": ["null", "string"]},
    {"name": "serverHash", "type": ["null", {"type": "fixed", "name": "MD5", "size": 16}]},
    {"name": "meta", "type": ["null", {"type": "map", "values": "bytes"}]}
  ]
}""")
same("a data file's header", '{"type":"record","name":"org.apache.avro.file.Header","fields":[{"name":"magic","type":{"type":"fixed","name":"Magic","size":4}},{"name":"meta","type":{"type":"map","values":"bytes"}},{"name":"sync","type":{"type":"fixed","name":"Sync","size":16}}]}')
same("interop", '{"type":"record","name":"Interop","namespace":"org.apache.avro","fields":[{"name":"intField","type":"int"},{"name":"longField","type":"long"},{"name":"stringField","type":"string"},{"name":"boolField","type":"boolean"},{"name":"floatField","type":"float"},'
     '{"name":"doubleField","type":"double"},{"name":"bytesField","type":"bytes"},{"name":"nullField","type":"null"},{"name":"arrayField","type":{"type":"array","items":"double"}},{"name":"mapField","type":{"type":"map","values":{"type":"record","name":"Foo","fields":[{"name":"label","type":"string"}]}}},'
     '{"name":"unionField","type":["boolean","double",{"type":"array","items":"bytes"}]},{"name":"enumField","type":{"type":"enum","name":"Kind","symbols":["A","B","C"]}},{"name":"fixedField","type":{"type":"fixed","name":"MD5","size":16}},'
     '{"name":"recordField","type":{"type":"record","name":"Node","fields":[{"name":"label","type":"string"},{"name":"children","type":{"type":"array","items":"Node"}}]}}]}')
same("a module summary", '{"type":"record","name":"ld.Summary","fields":[{"name":"unit","type":"string"},{"name":"sections","type":{"type":"array","items":{"type":"record","name":"Section","fields":[{"name":"name","aliases":["label"],"type":"string"},{"name":"size","type":"long"}]}}},{"name":"sum","type":{"type":"fixed","name":"Sum","size":8}},{"name":"main","type":["null","Section"]}]}')


# ---- texts by a generator of fixed seed: every reference is known, and no name without a namespace stands in one

class Maker:
    def __init__(self, seed):
        self.rng, self.serial, self.room, self.known = random.Random(seed), 0, 0, []
        self.room = self.rng.randint(4, 18)

    def fresh(self):
        self.serial += 1
        return self.rng.choice(("x", "Y", "_z", "Name", "a1")) + str(self.serial)

    def gap(self):
        return self.rng.choice(("", "", "", " ", "\n  ", "\t"))

    def quoted(self, s):
        return '"' + "".join("\\u%04x" % ord(c) if self.rng.random() < 0.02 else c for c in s) + '"'

    def members(self, pairs):
        pairs = list(pairs)
        if self.rng.random() < 0.3:
            pairs.append((self.rng.choice(("note", "x", "é")), self.rng.choice(('"1 \\" }"', "[{}]", "-2.5e3", "null", '"é"'))))
        self.rng.shuffle(pairs)
        return "{" + self.gap() + ("," + self.gap()).join(self.quoted(k) + self.gap() + ":" + self.gap() + v + self.gap() for k, v in pairs) + "}"

    def schema(self, space, taken=None):
        """taken: what a union has already, None outside a union."""
        self.room -= 1
        weights = {"primitive": 5, "reference": 3 if self.known else 0, "record": 3, "enum": 1, "fixed": 1, "array": 2, "map": 2, "union": 0 if taken is not None else 2}
        if self.room <= 0:
            weights.update(record=0, array=0, map=0, union=0)
        if taken is not None:
            for k in ("array", "map"):
                if k in taken:
                    weights[k] = 0
        kind = self.rng.choices(list(weights), list(weights.values()))[0]
        return getattr(self, kind)(space, taken)

    def primitive(self, space, taken):
        left = [p for p in PRIMITIVES if taken is None or p not in taken]
        if not left:
            return self.enum(space, taken)
        p = self.rng.choice(left)
        if taken is not None:
            taken.add(p)
        if p == "bytes" and self.rng.random() < 0.5:
            return self.members([("type", '"bytes"'), ("logicalType", '"decimal"'), ("precision", str(self.rng.randint(1, 30)))])
        return self.quoted(p) if self.rng.random() < 0.8 else self.members([("type", self.quoted(p))])

    def reference(self, space, taken):
        left = [f for f in self.known if (taken is None or f not in taken) and ("." in f or not space)]
        if not left:
            return self.primitive(space, taken)
        full = self.rng.choice(left)
        if taken is not None:
            taken.add(full)
        ns, _, last = full.rpartition(".")
        return self.quoted(last if ns == space and self.rng.random() < 0.7 else full)

    def named(self, space, taken):
        """The members of a name, and the definition's own namespace."""
        s = self.fresh()
        how = self.rng.randrange(4)
        if how == 0:
            ns = self.rng.choice(("a", "b.c", "com.example.x"))
            out = [("name", self.quoted(ns + "." + s))] + ([("namespace", '"other"')] if self.rng.random() < 0.3 else [])
        elif how == 1:
            ns = self.rng.choice(("a", "b.c", "com.example.x"))
            out = [("name", self.quoted(s)), ("namespace", self.quoted(ns))]
        else:
            ns, out = space, [("name", self.quoted(s))]
        full = ns + "." + s if ns else s
        self.known.append(full)
        if taken is not None:
            taken.add(full)
        if self.rng.random() < 0.3:
            out.append(("aliases", '["%s"]' % self.rng.choice((self.fresh(), "al." + self.fresh()))))
        if self.rng.random() < 0.3:
            out.append(("doc", '"%s"' % self.rng.choice(("a doc", "{}", "größe"))))
        return out, ns

    def record(self, space, taken):
        out, own = self.named(space, taken)
        fields = []
        for _ in range(self.rng.randint(0, 5)):
            f = [("name", self.quoted(self.fresh()))]
            if self.rng.random() < 0.2:
                f.append(("aliases", '["%s"]' % self.fresh()))
            if self.rng.random() < 0.2:
                f.append(("order", '"%s"' % self.rng.choice(("ascending", "descending", "ignore"))))
            fields.append(self.members(f + [("type", self.schema(own))]))
        return self.members(out + [("type", '"record"'), ("fields", "[" + self.gap() + ",".join(fields) + "]")])

    def enum(self, space, taken):
        out, _ = self.named(space, taken)
        return self.members(out + [("type", '"enum"'), ("symbols", "[" + ", ".join(self.quoted(self.fresh()) for _ in range(self.rng.randint(1, 5))) + "]")])

    def fixed(self, space, taken):
        out, _ = self.named(space, taken)
        return self.members(out + [("type", '"fixed"'), ("size", str(self.rng.randint(1, 10 ** self.rng.randint(1, 9))))])

    def array(self, space, taken):
        if taken is not None:
            taken.add("array")
        return self.members([("type", '"array"'), ("items", self.schema(space))])

    def map(self, space, taken):
        if taken is not None:
            taken.add("map")
        return self.members([("type", '"map"'), ("values", self.schema(space))])

    def union(self, space, taken):
        own = set()
        return "[" + ("," + self.gap()).join(self.schema(space, own) for _ in range(self.rng.randint(1, 4))) + "]"


def generated():
    seen = {t for _, t in SAME}
    seed = 0
    made = 0
    while made < 60:
        seed += 1
        text = Maker(seed).schema("")
        if len(text) < 150 or len(text) > 3000 or text.encode() in seen:
            continue
        seen.add(text.encode())
        same("generated %d" % seed, text)
        made += 1


generated()

# ---- read differently: the reason, the text, Java's answer, document 01's

EMPTY_R = '{"name":"R","type":"record","fields":[]}'
INT = '"int"'

for text, ours in (('{"type":{"type":"int"}}', INT), ('{"type":["null","int"]}', '["null","int"]'), ('{"type":{"type":"record","name":"R","fields":[]}}', EMPTY_R),
                   ('{"type":"array","items":{"type":{"type":"map","values":"int"}}}', '{"type":"array","items":{"type":"map","values":"int"}}')):
    differ("Java reads a `type` that is a string only; a schema nested in a `type` is refused", text, "refused", ours)
differ("Java reads no reference as the `type` of an object", '{"type":"record","name":"R","fields":[{"name":"e","type":{"type":"enum","name":"E","symbols":["A"]}},{"name":"f","type":{"type":"E"}}]}',
       "refused", '{"name":"R","type":"record","fields":[{"name":"e","type":{"name":"E","type":"enum","symbols":["A"]}},{"name":"f","type":"E"}]}')
differ("in Java a record without a namespace leaves the enclosing one to its fields", '{"type":"record","name":"a.R","fields":[{"name":"f","type":{"type":"record","name":"S","namespace":"","fields":[{"name":"g","type":{"type":"fixed","name":"F","size":1}}]}}]}',
       '{"name":"a.R","type":"record","fields":[{"name":"f","type":{"name":"S","type":"record","fields":[{"name":"g","type":{"name":"a.F","type":"fixed","size":1}}]}}]}',
       '{"name":"a.R","type":"record","fields":[{"name":"f","type":{"name":"S","type":"record","fields":[{"name":"g","type":{"name":"F","type":"fixed","size":1}}]}}]}')
differ("in Java a record behind a leading dot leaves the enclosing namespace to its fields", '{"type":"record","name":"a.R","fields":[{"name":"f","type":{"type":"record","name":".S","fields":[{"name":"g","type":"R"}]}}]}',
       '{"name":"a.R","type":"record","fields":[{"name":"f","type":{"name":"S","type":"record","fields":[{"name":"g","type":"a.R"}]}}]}', 26)
differ("Java looks for a reference without a dot in the namespace and then outside of all", '{"type":"record","name":"a.R","fields":[{"name":"f","type":{"type":"fixed","name":"S","namespace":"","size":1}},{"name":"g","type":"S"}]}',
       '{"name":"a.R","type":"record","fields":[{"name":"f","type":{"name":"S","type":"fixed","size":1}},{"name":"g","type":"S"}]}', 26)
differ("Java looks for a reference without a dot in the namespace and then outside of all", '{"type":"record","name":"R","fields":[{"name":"f","type":{"type":"record","name":"b.S","fields":[{"name":"g","type":"R"}]}}]}',
       '{"name":"R","type":"record","fields":[{"name":"f","type":{"name":"b.S","type":"record","fields":[{"name":"g","type":"R"}]}}]}', 26)
differ("reserved words: Java refuses a primitive's name without a namespace alone", '{"type":"record","name":"a.int","fields":[]}', '{"name":"a.int","type":"record","fields":[]}', 8)
differ("reserved words: record, enum, fixed are names in Java", '{"type":"record","name":"record","fields":[]}', '{"name":"record","type":"record","fields":[]}', 8)
differ("reserved words: Java does not ask of an alias", '{"type":"record","name":"R","aliases":["int"],"fields":[]}', EMPTY_R, 8)
differ("a size is an int of Java", '{"type":"fixed","name":"F","size":2147483648}', "refused", '{"name":"F","type":"fixed","size":2147483648}')
differ("a size is an int of Java", '{"type":"fixed","name":"F","size":18446744073709551615}', "refused", '{"name":"F","type":"fixed","size":18446744073709551615}')
differ("Java reads the size -0", '{"type":"fixed","name":"F","size":-0}', '{"name":"F","type":"fixed","size":0}', 18)
differ("a letter is any of Unicode in Java", '{"type":"record","name":"é","fields":[]}', '{"name":"é","type":"record","fields":[]}', 7)
differ("a letter is any of Unicode in Java", '{"type":"record","name":"R","fields":[{"name":"é","type":"int"}]}', '{"name":"R","type":"record","fields":[{"name":"é","type":"int"}]}', 7)
differ("a letter is any of Unicode in Java", '{"type":"enum","name":"E","symbols":["é"]}', '{"name":"E","type":"enum","symbols":["é"]}', 7)
differ("Java does not look into a namespace", '{"type":"record","name":"R","namespace":"é","fields":[]}', '{"name":"é.R","type":"record","fields":[]}', 7)
differ("Java does not look into a namespace", '{"type":"record","name":"R","namespace":"1","fields":[]}', '{"name":"1.R","type":"record","fields":[]}', 7)
differ("Java does not look into a namespace", '{"type":"record","name":"R","namespace":"a.","fields":[]}', '{"name":"a..R","type":"record","fields":[]}', 7)
differ("Java does not look into the namespace of a dotted name", '{"type":"record","name":"a..b","fields":[]}', '{"name":"a..b","type":"record","fields":[]}', 7)
differ("Java does not look into the namespace of a dotted name", '{"type":"record","name":"..b","fields":[]}', '{"name":"..b","type":"record","fields":[]}', 7)
differ("Java does not look into the namespace of a dotted name", '{"type":"record","name":".a.b","fields":[]}', '{"name":".a.b","type":"record","fields":[]}', 7)
differ("in Java a field's alias takes no name", '{"type":"record","name":"R","fields":[{"name":"f","aliases":["g"],"type":"int"},{"name":"g","type":"int"}]}',
       '{"name":"R","type":"record","fields":[{"name":"f","type":"int"},{"name":"g","type":"int"}]}', 11)
differ("Java refuses an element of `fields` that is no object", '{"type":"record","name":"R","fields":[5,{"name":"f","type":"int"}]}', "refused", '{"name":"R","type":"record","fields":[{"name":"f","type":"int"}]}')
differ("Java refuses aliases that are no array of strings", '{"type":"record","name":"R","aliases":"A","fields":[]}', "refused", EMPTY_R)
differ("Java refuses aliases that are no array of strings", '{"type":"record","name":"R","aliases":[5],"fields":[]}', "refused", EMPTY_R)
differ("Java refuses an unknown `order`", '{"type":"record","name":"R","fields":[{"name":"f","type":"int","order":"up"}]}', "refused", '{"name":"R","type":"record","fields":[{"name":"f","type":"int"}]}')
differ("Java 1.8.2 does not know an enum's default", '{"type":"enum","name":"E","symbols":["A"],"default":"B"}', '{"name":"E","type":"enum","symbols":["A"]}', 16)
differ("Java 1.8.2 does not know an enum's default", '{"type":"enum","name":"E","symbols":["A"],"default":5}', '{"name":"E","type":"enum","symbols":["A"]}', 15)
differ("Java 1.8.2 tests no default unless it is asked to", '{"type":"record","name":"R","fields":[{"name":"f","type":"int","default":"x"}]}', '{"name":"R","type":"record","fields":[{"name":"f","type":"int"}]}', 47)
differ("an error is a record in Java", '{"type":"error","name":"R","fields":[]}', EMPTY_R, 26)
differ("Java reads the first value of a text and stops", '"int" x', INT, 2)
differ("Java reads the first value of a text and stops", '{"type":"int"} {"type":"int"}', INT, 2)
differ("Java lets comments through", '/* c */ "int"', INT, 2)
differ("Java lets half of a surrogate pair through", r'{"type":"int","doc":"\ud800"}', INT, 2)
differ("limits of the port", '{"type":"record","name":"%s","fields":[]}' % ("N" * 256), '{"name":"%s","type":"record","fields":[]}' % ("N" * 256), 9)
differ("limits of the port", '{"type":"array","items":' * 65 + INT + "}" * 65, '{"type":"array","items":' * 65 + INT + "}" * 65, 3)
differ("limits of the port", '{"type":"enum","name":"E","symbols":[%s]}' % ",".join('"A%d"' % i for i in range(1024)), '{"name":"E","type":"enum","symbols":[%s]}' % ",".join('"A%d"' % i for i in range(1024)), 23)
differ("limits of the port", INT + " " * 32764, INT, 1)
wide = ",".join('"%s%02d"' % ("n" * 253, i) for i in range(65))
differ("limits of the port", '{"type":"enum","name":"E","symbols":[%s]}' % wide, '{"name":"E","type":"enum","symbols":[%s]}' % wide, 24)

# ---- refused by both

for number, text in ((2, '{"type":"int","x":NaN}'), (2, "{'type':'int'}"), (2, "int"), (2, "\ufeff\"int\""), (2, '{"type":"int","doc":"a\tb"}'), (2, '{"type":"int","x":1.}'), (2, '{"type":"int","x":01}'), (2, '{"type":"int"'),
                     (4, "5"), (4, "null"), (5, "{}"), (6, '{"type":"record","fields":[]}'), (6, '{"type":"record","name":5,"fields":[]}'), (7, '{"type":"record","name":"","fields":[]}'), (7, '{"type":"record","name":"a.","fields":[]}'),
                     (7, '{"type":"record","name":"a-b","fields":[]}'), (7, '{"type":"record","name":"R","fields":[{"name":"a.b","type":"int"}]}'), (7, '{"type":"record","name":"R","aliases":["1"],"fields":[]}'), (7, '{"type":"enum","name":"E","symbols":["a b"]}'),
                     (8, '{"type":"record","name":"int","fields":[]}'), (10, '{"type":"record","name":"R"}'), (10, '{"type":"record","name":"R","fields":{}}'), (11, '{"type":"record","name":"R","fields":[{"name":"f","type":"int"},{"name":"f","type":"int"}]}'),
                     (12, '{"type":"enum","name":"E"}'), (12, '{"type":"enum","name":"E","symbols":"A"}'), (13, '{"type":"enum","name":"E","symbols":[5]}'), (14, '{"type":"enum","name":"E","symbols":["A","A"]}'), (17, '{"type":"fixed","name":"F"}'),
                     (18, '{"type":"fixed","name":"F","size":-1}'), (18, '{"type":"fixed","name":"F","size":1.0}'), (18, '{"type":"fixed","name":"F","size":"4"}'), (19, '["int","int"]'), (19, '[["int"]]'), (19, '[{"type":"fixed","name":"F","size":1},"F"]'),
                     (25, '{"type":"array","items":[{"type":"fixed","name":"F","size":1},{"type":"map","values":{"type":"fixed","name":"F","size":1}}]}'), (26, '"Foo"'), (26, '{"type":"array","items":".int"}'),
                     (26, '{"type":"record","name":"R","aliases":["Q"],"fields":[{"name":"f","type":["null","Q"]}]}'), (26, '{"type":"record","name":"R","fields":[{"name":"f","type":"S"},{"name":"g","type":{"type":"record","name":"S","fields":[]}}]}'),
                     (26, '{"type":"record","name":"R","fields":[{"name":"f","type":"fixed","size":4}]}'), (26, '{"type":"record","name":"R","fields":[{"name":"f","type":"array","items":"int"}]}'), (27, '{"type":"array"}'), (28, '{"type":"map"}')):
    neither(number, text)


# ---- the three readings

def ours(text):
    """(canonical text, fingerprint), or (`refused`, number)."""
    machine = replay.Machine()
    try:
        machine.put(0, text)
    except replay.No as n:
        return "refused", n.args[0]
    c = replay.canonical(replay.decoded(machine.memory)[0])
    return c.decode(), replay.signed(replay.rabin(c))


def run(command, texts):
    out = subprocess.run(command, input="".join((t.hex() or "-") + "\n" for t in texts), capture_output=True, text=True, check=True).stdout.split("\n")[:-1]
    assert len(out) == len(texts)
    return out


def java(texts):
    """The lines of Canonical.java."""
    os.makedirs(CLASSES, exist_ok=True)
    subprocess.run(["javac", "-cp", JARS, "-d", CLASSES, os.path.join(HERE, "Canonical.java")], check=True)
    return run(["java", "-cp", JARS + ":" + CLASSES, "Canonical"], texts)


PYTHON = """
import sys, warnings
warnings.simplefilter("ignore")
import avro.schema
for line in sys.stdin:
    try:
        print(avro.schema.parse(bytes.fromhex(line.strip().strip("-")).decode("utf-8")).canonical_form.encode("utf-8").hex())
    except Exception as e:
        print("refused")
"""


PYTHON_REFUSES = {
    "a fixed with a leading dot": "a name with a leading dot is refused",
    "a record with a leading dot": "a name with a leading dot is refused",
    "a leading dot inside a namespace": "a name with a leading dot is refused",
    "a namespace that is no string": "a namespace that is no string is refused",
    "no namespace inside a namespace, and a reference to itself": "a reference inside a record of the empty namespace is refused",
}


def python(texts):
    """The canonical texts of Avro's Python library; it makes no fingerprints."""
    return run(["/usr/bin/python3", "-c", PYTHON], texts)


def straightened(text):
    """Two ways in which the Python library strays are undone: it leaves a primitive in an object where that has other members,
    and writes a fixed that is used again in full."""
    seen = set()

    def go(v):
        if isinstance(v, list):
            return [go(x) for x in v]
        if not isinstance(v, dict):
            return v
        if list(v) == ["type"] and v["type"] in PRIMITIVES:
            return v["type"]
        if v.get("type") == "fixed":
            if v["name"] in seen:
                return v["name"]
            seen.add(v["name"])
        return {k: x if k in ("name", "symbols", "size") else go(x) for k, x in v.items()}

    return json.dumps(go(json.loads(text)), separators=(",", ":"), ensure_ascii=False)


def unhexed(answer):
    return "refused" if answer == "refused" else bytes.fromhex(answer.split()[0]).decode()


def main(where):
    texts = [t for _, t in SAME]
    assert len(set(texts)) == len(texts) and len({label for label, _ in SAME}) == len(SAME) and len(texts) >= 170
    answers = java(texts)
    for (label, text), answer in zip(SAME, answers):
        assert answer != "refused", label
        assert (unhexed(answer), int(answer.split()[1])) == ours(text), (label, unhexed(answer), ours(text))
    strays = collections.Counter()
    for (label, _), answer, other in zip(SAME, answers, python(texts)):
        if unhexed(other) == unhexed(answer):
            strays["as Java"] += 1
        elif other == "refused":
            strays[PYTHON_REFUSES[label]] += 1
        else:
            assert straightened(unhexed(other)) == unhexed(answer), (label, unhexed(other), unhexed(answer))
            strays["a primitive in an object, or a fixed used again"] += 1
    for (reason, text, theirs, we), answer in zip(DIFFER, java([d[1] for d in DIFFER])):
        assert unhexed(answer) == theirs, (reason, text, unhexed(answer))
        assert ours(text) == ("refused", we) if isinstance(we, int) else ours(text)[0] == we, (reason, text, ours(text))
        assert theirs != we
        if where == "list":
            print("%s\n    text %s\n    Java %s\n    01   %s" % (reason, text.decode()[:200], theirs[:200], "refused %d" % we if isinstance(we, int) else we))
    for (number, text), answer in zip(NEITHER, java([t for _, t in NEITHER])):
        assert answer == "refused" and ours(text) == ("refused", number), (number, text, answer, ours(text))
    if where == "list":
        for (label, _), answer in zip(SAME, answers):
            print(label, "|", unhexed(answer)[:120], answer.split()[1])
    else:
        os.makedirs(where, exist_ok=True)
        open(os.path.join(where, "stdin"), "w").write("".join(t.hex() + "\n" for t in texts))
        open(os.path.join(where, "stdout"), "w").write("".join(a + "\n" for a in answers))
    print(len(SAME), "texts alike;", len(DIFFER), "read differently;", len(NEITHER), "refused by both; Avro's Python library:", dict(strays), file=sys.stderr)


if __name__ == "__main__":
    main(sys.argv[1])
