#!/usr/bin/env python3
"""The texts of declaration.py, each with the answer that was worked out by hand from document 01 and, where 7 stands, from
request A2 of 02; a decimal's note 7 is that of request A10, a field's default and 48 are those of request A6.

In a text ^ marks the byte where the refusal must stand and is left out; in an accepted text the marks, if there are any, are
the positions of all rows and of all defaults of fields. ~40~ stands for the letter n forty times. Rows are written `DEPTH KIND
STRING`, with `=SIZE` and `#NOTE` or `#1,PRECISION,SCALE` where these are not 0 and `:DEFAULT` where a field has one, separated by
`; `; or `ROWS/BYTES` where only the counts are given. In DEFAULT %20 is a blank, and so with other bytes that would not do.
"""
import collections
import itertools
import json
import random
import re
import urllib.parse

Case = collections.namedtuple("Case", "label text number position rows marks")
CASES = []


def unmarked(text):
    """The bytes of a text without its marks, and the positions of the marks."""
    if isinstance(text, str):
        text = text.encode("utf-8")
    text = re.sub(rb"~(\d+)~", lambda m: b"n" * int(m.group(1)), text)
    pieces = text.split(b"^")
    marks, at = [], 0
    for p in pieces[:-1]:
        at += len(p)
        marks.append(at)
    return b"".join(pieces), marks


def no(number, label, text):
    plain, marks = unmarked(text)
    assert len(marks) == 1, ("one mark", label)
    CASES.append(Case("%d %s" % (number, label), plain, number, marks[0], None, None))


def yes(label, rows, text):
    plain, marks = unmarked(text)
    CASES.append(Case("ok " + label, plain, 0, None, rows, marks or None))


def expected_rows(rows):
    """[(kind, depth, string, size, note, precision, scale, default)] from the short form."""
    out = []
    for r in rows.split(";"):
        words = r.split()
        depth, kind, string, size, note, default = int(words[0]), words[1], "", 0, (0, 0, 0), b""
        for w in words[2:]:
            if w[0] == "=":
                size = int(w[1:])
            elif w[0] == "#":
                note = tuple(int(x) for x in (w[1:] + ",0,0").split(",")[:3])
            elif w[0] == ":":
                default = unmarked(urllib.parse.unquote_to_bytes(w[1:]))[0]
            else:
                string = w
        string = unmarked(string)[0]
        out.append((kind, depth, string, size) + note + (default,))
    return out


def judge(case, got):
    """The reader's lines against what stands beside the text."""
    if case.number:
        assert got == ["refused %d %d" % (case.number, case.position)], (case.label, case.text, (case.number, case.position), got)
        return
    assert got[-1].startswith("end "), (case.label, case.text, got)
    if isinstance(case.rows, list):
        assert got[:-1] == case.rows, (case.label, case.text, case.rows, got)
        return
    if "/" in case.rows:
        assert got[-1] == "end %s %s" % tuple(case.rows.split("/")), (case.label, got[-1])
    else:
        want = expected_rows(case.rows)
        have = []
        for line in got[:-1]:
            _, kind, depth, _, size, note, precision, scale, string, at, default = line.split(" ")
            string, default = (b"" if x == "-" else bytes.fromhex(x) for x in (string, default))
            assert default or at == "0", (case.label, line)
            have.append((kind, int(depth), string, int(size), int(note), int(precision), int(scale), default))
        assert have == want, (case.label, case.text, want, have)
        assert got[-1] == "end %d %d" % (len(want), sum(len(w[2]) + len(w[7]) for w in want)), (case.label, got[-1])
    if case.marks is not None:
        lines = [line.split(" ") for line in got[:-1]]
        assert sorted([int(w[3]) for w in lines] + [int(w[9]) for w in lines if w[10] != "-"]) == case.marks, (case.label, case.text, case.marks, got)


# ---- 01's own listing, and texts as users write them

yes("01's listing", "0 record a.R; 1 field x; 2 int; 1 field next; 2 union; 3 null; 3 reference a.R",
    '{"type":"record","name":^"R","namespace":"a","fields":[{"name":^"x","type":^"int"},{"name":^"next","type":^[^"null",^"R"]}]}')
yes("01's listing, its canonical text", "0 record a.R; 1 field x; 2 int; 1 field next; 2 union; 3 null; 3 reference a.R",
    '{"name":^"a.R","type":"record","fields":[{"name":^"x","type":^"int"},{"name":^"next","type":^[^"null",^"a.R"]}]}')
yes("a user record over lines", "0 record com.example.hr.Employee; 1 field id; 2 long; 1 field name; 2 string; 1 field email :null; 2 union; 3 null; 3 string; "
    "1 field salary; 2 bytes #1,12,2; 1 field manager :null; 2 union; 3 null; 3 reference com.example.hr.Employee; 1 field tags; 2 map; 3 array; 4 string; "
    "1 field grade; 2 enum com.example.hr.Grade; 3 alias com.example.hr.Level; 3 symbol JUNIOR; 3 symbol SENIOR; 1 field badge; 2 fixed com.example.hr.Badge =16", """
{
  "type": "record",
  "name": ^"Employee",
  "namespace": "com.example.hr",
  "doc": "One row of the staff list.",
  "fields": [
    {"name": ^"id", "type": ^"long"},
    {"name": ^"name", "type": ^"string", "doc": "as on the contract"},
    {"name": ^"email", "type": ^[^"null", ^"string"], "default": ^null},
    {"name": ^"salary", "type": {"type": ^"bytes", "logicalType": "decimal", "precision": 12, "scale": 2}},
    {"name": ^"manager", "type": ^[^"null", ^"Employee"], "default": ^null},
    {"name": ^"tags", "type": ^{"type": "map", "values": ^{"type": "array", "items": ^"string"}}, "order": "ignore"},
    {"name": ^"grade", "type": {"type": "enum", "name": ^"Grade", "aliases": [^"Level"], "symbols": [^"JUNIOR", ^"SENIOR"], "default": "JUNIOR"}},
    {"name": ^"badge", "type": {"type": "fixed", "name": ^"Badge", "size": 16}}
  ]
}
""")
yes("a linked list", "0 record LongList; 1 alias LinkedLongs; 1 field value; 2 long; 1 field next; 2 union; 3 null; 3 reference LongList", """{
  "type": "record",
  "name": "LongList",
  "aliases": ["LinkedLongs"],
  "fields" : [
    {"name": "value", "type": "long"},
    {"name": "next", "type": ["null", "LongList"]}
  ]
}""")
yes("the specification's enum", "0 enum Suit; 1 symbol SPADES; 1 symbol HEARTS; 1 symbol DIAMONDS; 1 symbol CLUBS",
    '{\n  "type": "enum",\n  "name": "Suit",\n  "symbols" : ["SPADES", "HEARTS", "DIAMONDS", "CLUBS"]\n}')
yes("the specification's fixed", "0 fixed md5 =16", '{"type": "fixed", "size": 16, "name": "md5"}')
yes("the specification's array", "0 array; 1 string", '{\n  "type": "array",\n  "items" : "string",\n  "default": []\n}')
yes("the specification's map", "0 map; 1 long", '{\n  "type": "map",\n  "values" : "long",\n  "default": {}\n}')
yes("the specification's example of names", "0 record X; 1 field a; 2 enum Kind; 3 symbol A; 1 field b; 2 record n.Y; 3 field k; 4 reference n.Kind; 3 field z; 4 fixed Z =1",
    '{"type":"record","name":"X","fields":[{"name":"a","type":{"type":"enum","name":"Kind","symbols":["A"]}},{"name":"b","type":{"type":"record","name":"n.Y","fields":['
    '{"name":"k","type":"Kind"},{"name":"z","type":{"type":"fixed","namespace":"","name":"Z","size":1}}]}}]}')
yes("a map of arrays of unions", "0 map; 1 array; 2 union; 3 null; 3 boolean; 3 int; 3 long; 3 float; 3 double; 3 bytes; 3 string; 3 array; 4 int; 3 map; 4 string; 3 reference a.b.C; 3 reference D",
    '^{"type":"map","values":^{"type":"array","items":^[^"null",^"boolean",^"int",^"long",^"float",^"double",^"bytes",^"string",^{"type":"array","items":^"int"},'
    '^{"type":"map","values":^"string"},^"a.b.C",^"D"]}}')
yes("a module summary", "0 record ld.Summary; 1 field unit; 2 string; 1 field sections; 2 array; 3 record ld.Section; 4 field name; 5 field-alias label; 5 string; 4 field size; 5 long; "
    "4 field flags; 5 union; 6 null; 6 reference ld.Flags; 1 field sum; 2 fixed ld.Sum =8",
    '{"type":"record","name":"ld.Summary","fields":[{"name":"unit","type":"string"},{"name":"sections","type":{"type":"array","items":{"type":"record","name":"Section","fields":['
    '{"name":"name","aliases":["label"],"type":"string"},{"name":"size","type":"long"},{"name":"flags","type":["null","Flags"]}]}}},{"name":"sum","type":{"type":"fixed","name":"Sum","size":8}}]}')
yes("a tree of a map of itself", "0 record Tree; 1 field label; 2 string; 1 field kids; 2 map; 3 reference Tree",
    '{"type":"record","name":"Tree","fields":[{"name":"label","type":"string"},{"name":"kids","type":{"type":"map","values":"Tree"}}]}')
yes("an event with two records in a union", "0 record log.Event; 1 field at; 2 long; 1 field what; 2 union; 3 record log.Start; 4 field pid; 5 int; 3 record log.Stop; 4 field code :null; 5 union; 6 null; 6 int",
    '{"type":"record","name":"Event","namespace":"log","fields":[{"name":"at","type":{"type":"long","logicalType":"timestamp-millis"}},{"name":"what","type":['
    '{"type":"record","name":"Start","fields":[{"name":"pid","type":"int"}]},{"type":"record","name":"Stop","fields":[{"name":"code","type":["null","int"],"default":null}]}]}]}')

# ---- strings as schemas

for p in ("null", "boolean", "int", "long", "float", "double", "bytes", "string"):
    yes("the primitive " + p, "0 " + p, '^"%s"' % p)
    yes("the primitive %s in an object" % p, "0 " + p, ' { "type" : ^"%s" } ' % p)
yes("a primitive between white space", "0 int", '\t\r\n ^"int" \n\r\t')
yes("a reference", "0 reference Foo", '^"Foo"')
yes("a dotted reference", "0 reference a.b.Foo", '^"a.b.Foo"')
yes("a reference with a leading dot", "0 reference Foo", '^".Foo"')
yes("a reference spelt .int is no primitive", "0 reference int", '^".int"')
yes("a reference of one letter", "0 reference _", '"_"')
yes("a reference with digits and underscores", "0 reference _a1__2B", '"_a1__2B"')
yes("a primitive in capitals is a reference", "0 reference Int", '"Int"')
yes("words of complex types are references as strings", "0 union; 1 reference record; 1 reference enum; 1 reference fixed; 1 reference array; 1 reference map; 1 reference union; 1 reference error",
    '["record","enum","fixed","array","map","union","error"]')
yes("a reference to a reserved word of another namespace", "0 reference a.int", '"a.int"')
yes("an escape in a primitive", "0 int", r'^"\u0069nt"')
yes("an escape in a primitive in an object", "0 string", r'{"type":^"str\u0069\u006e\u0067"}')
yes("an escape in a reference", "0 reference Foo", r'"\u0046o\u006F"')
yes("an escaped dot in a reference", "0 reference a.B", r'"a\u002eB"')
yes("an escaped leading dot in a reference", "0 reference B", r'"\u002eB"')
yes("an object with a reference as type", "0 reference a.B", '{"type":^"a.B"}')
yes("a reference of 255 bytes", "0 reference ~255~", '"~255~"')
yes("a reference of 255 bytes after its leading dot", "0 reference ~255~", '".~255~"')
yes("a reference of 255 bytes by its namespace", "0 record ~200~.R; 1 field f; 2 reference ~200~.~54~",
    '{"type":"record","name":"R","namespace":"~200~","fields":[{"name":"f","type":"~54~"}]}')
yes("a reference of 255 bytes, all escapes", "0 reference ~255~", '"' + r"\u006e" * 255 + '"')

# ---- 1, 2, 3

no(1, "a text of 32,769 bytes", '"int"' + " " * 32763 + "^ ")
no(1, "a text over the length with a fault at 0", "x" + " " * 32767 + "^ ")
yes("a text of 32,768 bytes", "0 int", '"int"' + " " * 32763)
no(2, "no bytes", "^")
no(2, "white space alone", " \t\r\n^")
no(2, "an object that does not end", '{"type":"int"^')
no(2, "a string that does not end", '"int^')
no(2, "something behind the value", '"int" ^"int"')
no(2, "a comma before the end", '{"type":"int",^}')
no(2, "a byte order mark", b'^\xef\xbb\xbf"int"')
no(2, "not UTF-8 in a name", b'"a\xc3^("')
no(2, "a lone surrogate in a name", r'"\uD800^"')
no(2, "a name in single quotes", "^'int'")
no(2, "an unknown word", '{"type":n^il}')
no(2, "behind a fault of the declaration", '{"type":5} ^x')
no(2, "inside what would be 5", '{"x":1 ^"y"}')
no(2, "a number with a leading zero as size", '{"type":"fixed","name":"F","size":0^1}')
no(2, "a number with a plus as size", '{"type":"fixed","name":"F","size":^+1}')
no(2, "a hexadecimal number as size", '{"type":"fixed","name":"F","size":0^x10}')
no(3, "65 arrays", "[" * 64 + "^[" + "]" * 65)
no(3, "65 arrays, not closed", "[" * 64 + "^[")
no(3, "65 objects by type", '{"type":' * 64 + '^{"type":"int"}' + "}" * 64)
no(3, "65 objects by items", '{"type":"array","items":' * 64 + '^{"type":"int"}' + "}" * 64)
no(3, "65 brackets in a doc", '{"type":"int","doc":' + "[" * 63 + "^[" + "]" * 64 + "}")
no(3, "65 brackets in a default", '{"type":"int","default":' + '{"a":' * 63 + "^{}" + "}" * 64)
no(3, "before a 2 behind it", "[" * 64 + "^[" + "]" * 65 + "x")
no(3, "before a declaration fault before it", "[5," + "[" * 63 + "^[]" + "]" * 64)
yes("64 objects by type", "0 int", '{"type":' * 64 + '^"int"' + "}" * 64)
yes("64 objects by items", "64/0", '{"type":"array","items":' * 63 + '{"type":"int"}' + "}" * 63)
yes("64 brackets, union innermost", "64/0", '{"type":"map","values":' * 63 + "[]" + "}" * 63)
yes("64 brackets in a doc", "0 int", '{"type":^"int","doc":' + "[" * 63 + "]" * 63 + "}")

# ---- 4: a schema that is no string, object, array

for w in ("5", "-1", "0", "1.5e3", "true", "false", "null", "123456789012345678901234567890"):
    no(4, "the text " + w, "  ^" + w + " ")
no(4, "type a number", '{"type": ^5}')
no(4, "type null", '{"name":"x","type":^null}')
no(4, "type true, three deep", '{"type":{"type":{"type":^true}}}')
no(4, "items a number", '{"type":"array","items":^3}')
no(4, "items null", '{"items":^null,"type":"array"}')
no(4, "values false", '{"type":"map","values":^false}')
no(4, "a union's member a number", '["null", ^7]')
no(4, "a union's only member null", '[^null]')
no(4, "a field's type a number", '{"type":"record","name":"R","fields":[{"name":"f","type":^1}]}')
no(4, "a field's type null", '{"type":"record","name":"R","fields":[{"name":"f","type": ^null }]}')
no(4, "a member's type a number", '["null",{"type":^0}]')
no(4, "the last type counts", '{"type":"int","type":^5}')
no(4, "the first of two", '[^1,2]')
no(4, "the first in preorder, not in the text", '{"type":"record","fields":[{"type":^1,"name":"f"},{"name":"g","type":2}],"name":"R"}')
no(4, "4 before a later 5", '[^4,{}]')
no(4, "4 before a later 19", '["int",^4,"int"]')
yes("type given twice, the first a number", "0 int", '{"type":5,"type":^"int"}')

# ---- 5: type missing

no(5, "an empty object", '^{}')
no(5, "an empty object between white space", ' \n ^{ \t } ')
no(5, "an object with a name", '^{"name":"x"}')
no(5, "a key in capitals", '^{"Type":"int"}')
no(5, "a key with a blank", '^{"type ":"int"}')
no(5, "a key with a null character", r'^{"type\u0000":"int"}')
no(5, "an empty key", '^{"":"int"}')
no(5, "type inside another member", '^{"doc":{"type":"int"}}')
no(5, "in a nested type", '{"type":^{}}')
no(5, "in a nested type, three deep", '{"type":{"type": ^{"name":"type"}}}')
no(5, "in items", '{"type":"array","items":^{"items":"int"}}')
no(5, "in values", '{"type":"map","values":^{"values":"int"}}')
no(5, "a union's member", '["null",^{"name":"R","fields":[]}]')
no(5, "a field without a type", '{"type":"record","name":"R","fields":[^{"name":"f"}]}')
no(5, "a field without a type, with a default", '{"type":"record","name":"R","fields":[ ^{"default":1,"name":"f"} ]}')
no(5, "a field's type an empty object", '{"type":"record","name":"R","fields":[{"name":"f","type":^{}}]}')
no(5, "5 before a later 4", '[^{},4]')
no(5, "5 in the first field before 6 in the second", '{"type":"record","name":"R","fields":[^{"name":"f"},{"type":"int"}]}')
no(5, "5 in the first field before 11", '{"type":"record","name":"R","fields":[{"name":"f","type":"int"},^{"name":"f"}]}')
no(5, "an object that has symbols", '^{"name":"E","symbols":["A"]}')
yes("the key type with escapes", "0 int", r'{"\u0074ype":^"int"}')
yes("the key type twice, once with escapes", "0 long", r'{"type":"int","t\u0079pe":^"long"}')
yes("the key type twice, the plain one last", "0 int", r'{"t\u0079pe":"long","type":^"int"}')

# ---- 6: a name missing or no string

for t, rest in (("record", '"fields":[]'), ("enum", '"symbols":["A"]'), ("fixed", '"size":4')):
    no(6, t + " without a name", '^{"type":"%s",%s}' % (t, rest))
    no(6, t + " with a number as name", '^{"type":"%s","name":5,%s}' % (t, rest))
    no(6, t + " with null as name", '^{"type":"%s",%s,"name":null}' % (t, rest))
    no(6, t + " with an array as name", '^{"type":"%s",%s,"name":["R"]}' % (t, rest))
    no(6, t + " with an object as name", '^{"type":"%s",%s,"name":{"name":"R"}}' % (t, rest))
    no(6, t + " with a name given twice, the last no string", '^{"type":"%s","name":"R",%s,"name":true}' % (t, rest))
    yes(t + " with a name given twice, the first no string", "0 %s R%s" % (t, {"record": "", "enum": "; 1 symbol A", "fixed": " =4"}[t]), '{"type":"%s","name":5,%s,"name":"R"}' % (t, rest))
no(6, "nested in a type, at the inner object", '{"type": ^{"type":"record","fields":[]},"name":"R"}')
no(6, "a member", '["null",^{"type":"fixed","size":2}]')
no(6, "in items", '{"type":"array","items":^{"type":"enum","symbols":[]}}')
no(6, "a field without a name", '{"type":"record","name":"R","fields":[^{"type":"int"}]}')
no(6, "a field that is empty", '{"type":"record","name":"R","fields":[^{}]}')
no(6, "a field with a number as name", '{"type":"record","name":"R","fields":[{"name":"f","type":"int"},^{"name":1,"type":"int"}]}')
no(6, "a field with null as name", '{"type":"record","name":"R","fields":[^{"name":null,"type":"int"}]}')
no(6, "before 7 of the namespace", '^{"type":"record","namespace":"1","fields":[]}')
no(6, "before 7 of an alias", '^{"type":"record","aliases":["1"],"fields":[]}')
no(6, "before 8 of an alias", '^{"aliases":["int"],"type":"record","fields":[]}')
no(6, "before 10", '^{"type":"record"}')
no(6, "before 12", '^{"type":"enum"}')
no(6, "in a field before 5", '{"type":"record","name":"R","fields":[^{"aliases":["1"]}]}')
no(6, "a namespace is no name", '^{"type":"record","namespace":"a","fields":[]}')
no(6, "an alias is no name", '^{"type":"fixed","aliases":["a"],"size":1}')
no(6, "in a field before 7 of its alias", '{"type":"record","name":"R","fields":[^{"aliases":["1"],"type":"int"}]}')
no(6, "in the second field before 11", '{"type":"record","name":"R","fields":[{"name":"f","type":"int"},{"name":"f","type":"int"},^{"type":"int"}]}')

# ---- 7: not a name, namespace or symbol

# In these strings ^ marks the character that breaks the rule; at the end it is the closing quote's mark.


def bad(b):
    """A string without its mark, for a label."""
    return ascii(b.replace("^", ""))


BAD = ["^", ".^", ".^.", "a.^", "a.^.b", ".a^.b", ".^.a", ".a^.", "a.b.^", "^1", "^1a", "a.^1", ".^1", "a^-b", "a^ b", "^ a", "a^ ", "a^/b", "a^:b", "a^$", "^é", "a^é", "a.^é", "^日本", "^-", "a^\u200b", "^а",
       "^\U0001d5ba", "^ａ", "a^,b", "^[]", "a.b^-c.d"]
for i, b in enumerate(BAD):
    no(7, "as reference %d %s" % (i, bad(b)), '"%s"' % b)
    no(7, "as name of a record %d %s" % (i, bad(b)), '{"type":"record","name":"%s","fields":[]}' % b)
for i, b in enumerate(["^.", "^..", "a.^", "^.a", "a.^.b", "^.a.b", "^1", "a.^1", "a^-b", "^ ", "^é", "a.^é", "a.^ b"]):
    no(7, "as namespace %d %s" % (i, bad(b)), '{"type":"record","name":"R","namespace":"%s","fields":[]}' % b)
for i, b in enumerate(["^", "^.", "a^.b", "^.a", "^1", "a^-b", "a^ b", "^é", "a^.", "A^é"]):
    no(7, "as symbol %d %s" % (i, bad(b)), '{"type":"enum","name":"E","symbols":["A","%s"]}' % b)
    no(7, "as field %d %s" % (i, bad(b)), '{"type":"record","name":"R","fields":[{"name":"%s","type":"int"}]}' % b)
    no(7, "as field alias %d %s" % (i, bad(b)), '{"type":"record","name":"R","fields":[{"name":"f","aliases":["g","%s"],"type":"int"}]}' % b)
for i, b in enumerate(["^", ".^", "a.^", ".^.a", ".a^.b", "^1", "a^-b", "^é", "a.^.b"]):
    no(7, "as alias of a record %d %s" % (i, bad(b)), '{"type":"record","name":"R","aliases":["a","%s"],"fields":[]}' % b)
    no(7, "as alias of an enum %d %s" % (i, bad(b)), '{"type":"enum","name":"E","aliases":["%s"],"symbols":[]}' % b)
    no(7, "as alias of a fixed %d %s" % (i, bad(b)), '{"type":"fixed","name":"F","size":1,"aliases":["x.y",".z","%s","1"]}' % b)
no(7, "a reference in an object", '{"type":"a^ b"}')
no(7, "an empty type", '{"type":"^"}')
no(7, "a type with a capital and a blank", '{"type": "record^ "}')
no(7, "an escape that makes a blank", r'"a^\u0020b"')
no(7, "an escape that makes a line end", r'"a^\n"')
no(7, "an escape of a slash", r'"a^\/b"')
no(7, "a null character", r'"a^\u0000"')
no(7, "a pair of surrogates", r'"a^\uD835\uDDBA"')
no(7, "a quote in a name", r'{"type":"record","name":"a^\"b","fields":[]}')
no(7, "an escape of é in a symbol", r'{"type":"enum","name":"E","symbols":["^\u00e9"]}')
no(7, "an escaped dot in a field", r'{"type":"record","name":"R","fields":[{"name":"a^\u002Eb","type":"int"}]}')
no(7, "in items", '{"type":"array","items":"^1"}')
no(7, "in values", '{"type":"map","values":{"type":"^1"}}')
no(7, "a member", '["null", "^1"]')
no(7, "the name before the namespace, namespace first", '{"namespace":"1","type":"record","name":"^2","fields":[]}')
no(7, "the name before the namespace, name first", '{"name":"^2","namespace":"1","type":"record","fields":[]}')
no(7, "the namespace before 8 of the name", '{"type":"record","name":"int","namespace":"^1","fields":[]}')
no(7, "the namespace before 9 of the name", '{"type":"record","name":"~256~","namespace":"^1","fields":[]}')
no(7, "the name before 10", '{"type":"record","name":"^1"}')
no(7, "the namespace before 7 of an alias", '{"type":"record","name":"R","aliases":["1"],"namespace":"^2","fields":[]}')
no(7, "an alias before 8 of a later alias", '{"type":"record","name":"R","aliases":["^1","int"],"fields":[]}')
no(7, "an alias before 10", '{"type":"record","name":"R","aliases":["^1"]}')
no(7, "an alias before 12", '{"type":"enum","name":"E","aliases":["^1"]}')
no(7, "an alias before 13", '{"type":"enum","symbols":[5],"name":"E","aliases":["^1"]}')
no(7, "a name before 9 of it: 256 bytes and a bad one", '{"type":"record","name":"~256~^-","fields":[]}')
no(7, "a reference before 9 of it", '"~256~^-"')
no(7, "a symbol before 9 of it", '{"type":"enum","name":"E","symbols":["~256~^-"]}')
no(7, "a field before 9 of it", '{"type":"record","name":"R","fields":[{"name":"~256~^.a","type":"int"}]}')
no(7, "a first symbol before 9 of the second", '{"type":"enum","name":"E","symbols":["^1","~256~"]}')
no(7, "a symbol before 14 behind it", '{"type":"enum","name":"E","symbols":["A","^1","A"]}')
no(7, "a symbol before 15", '{"type":"enum","name":"E","default":1,"symbols":["^1"]}')
no(7, "a bad symbol given twice", '{"type":"enum","name":"E","symbols":["^1","1"]}')
no(7, "a fixed's name behind its size", '{"type":"fixed","name":"^1","size":4}')
no(7, "a fixed's namespace", '{"type":"fixed","name":"F","namespace":"a.^","size":4}')
no(7, "an enum's namespace", '{"type":"enum","namespace":"a^ b","name":"F","symbols":[]}')
no(7, "a namespace that is escaped", r'{"type":"record","name":"R","namespace":"^\u0031","fields":[]}')
no(7, "a field's name before 5", '{"type":"record","name":"R","fields":[{"name":"^1"}]}')
no(7, "a field's alias before 5", '{"type":"record","name":"R","fields":[{"name":"f","aliases":["^1"]}]}')
no(7, "a field's alias before its type's 4", '{"type":"record","name":"R","fields":[{"type":5,"name":"f","aliases":["^1"]}]}')
no(7, "a field with a dotted name", '{"type":"record","name":"R","namespace":"a","fields":[{"name":"a^.f","type":"int"}]}')
no(7, "an inner record's name in a union", '["null",{"type":"record","name":"R^-","fields":[]}]')
no(7, "the last of two namespaces counts", '{"type":"record","name":"R","namespace":"a","namespace":"^1","fields":[]}')
no(7, "two bad references, the first", '["^1","2"]')
yes("a bad namespace given twice, the last good", "0 record b.R", '{"type":"record","name":^"R","namespace":"1","namespace":"b","fields":[]}')
yes("a bad namespace beside a dotted name", "0 record a.R", '{"type":"record","name":"a.R","namespace":"1","fields":[]}')
yes("a bad namespace beside a leading dot", "0 record R", '{"type":"record","name":".R","namespace":"..","fields":[]}')
yes("a bad doc", "0 record R", '{"type":"record","name":"R","doc":5,"fields":[]}')
yes("an unknown member's string is no name", "0 record R", '{"type":"record","name":"R","other":"1 2","fields":[]}')

# ---- 8: reserved

RESERVED = ["null", "boolean", "int", "long", "float", "double", "bytes", "string", "record", "enum", "fixed"]
for w in RESERVED:
    no(8, "a record named " + w, '{"type":"record","name":^"%s","fields":[]}' % w)
    no(8, "an alias " + w, '{"type":"enum","name":"E","aliases":[^"%s"],"symbols":[]}' % w)
for w in ("array", "map", "union", "error", "Int", "ints", "in", "records"):
    yes("a record named " + w, "0 record " + w, '{"type":"record","name":^"%s","fields":[]}' % w)
no(8, "an enum named int", '{"type":"enum","name":^"int","symbols":[]}')
no(8, "a fixed named fixed", '{"type":"fixed","name":^"fixed","size":1}')
no(8, "as last part of a dotted name", '{"type":"record","name":^"a.b.enum","fields":[]}')
no(8, "behind a leading dot", '{"type":"record","name":^".long","fields":[]}')
no(8, "by its namespace", '{"type":"record","name":^"long","namespace":"a.b","fields":[]}')
no(8, "spelt with an escape", r'{"type":"record","name":^"\u0069nt","fields":[]}')
no(8, "an alias with a namespace", '{"type":"record","name":"R","aliases":["x",^"a.string"],"fields":[]}')
no(8, "an alias with a leading dot", '{"type":"fixed","name":"R","aliases":[^".null"],"size":0}')
no(8, "the first alias before 7 of the second", '{"type":"record","name":"R","aliases":[^"int","1"],"fields":[]}')
no(8, "before 9 of it", '{"type":"record","name":^"~255~.int","fields":[]}')
no(8, "before 9 by the namespace", '{"type":"record","name":^"int","namespace":"~255~","fields":[]}')
no(8, "an alias before 9 of it", '{"type":"record","name":"R","aliases":[^"~255~.fixed"],"fields":[]}')
no(8, "before 7 of an alias", '{"aliases":["1"],"type":"record","name":^"int","fields":[]}')
no(8, "before 10", '{"type":"record","name":^"int"}')
no(8, "before 12", '{"type":"enum","name":^"enum"}')
no(8, "before 19", '["a.int",{"type":"record","name":^"int","namespace":"a","fields":[]}]')
no(8, "in a member before 10", '["null",{"type":"record","name":^"null"}]')
no(8, "an alias before 13", '{"type":"enum","name":"E","symbols":[null],"aliases":["map",^"int"]}')
no(8, "before a field's 7", '{"type":"record","fields":[{"name":"1","type":"int"}],"name":^"string"}')
yes("reserved words as a namespace", "0 record int.null.R", '{"type":"record","name":"int.null.R","fields":[]}')
yes("reserved words as fields", "0 record R; 1 field int; 2 int; 1 field record; 2 null", '{"type":"record","name":"R","fields":[{"name":"int","type":"int"},{"name":"record","type":"null"}]}')
yes("reserved words as symbols", "0 enum E; 1 symbol null; 1 symbol enum; 1 symbol string", '{"type":"enum","name":"E","symbols":["null","enum","string"],"default":"enum"}')
yes("reserved words as field aliases", "0 record R; 1 field f; 2 field-alias int; 2 field-alias fixed; 2 int", '{"type":"record","name":"R","fields":[{"name":"f","aliases":["int","fixed"],"type":"int"}]}')
yes("reserved words as references", "0 union; 1 reference a.int; 1 reference a.record", '["a.int","a.record"]')
yes("a namespace that is a reserved word", "0 enum int.E", '{"type":"enum","name":"E","namespace":"int","symbols":[]}')
yes("a reserved first part of an alias", "0 enum E; 1 alias int.E", '{"type":"enum","name":"E","aliases":["int.E"],"symbols":[]}')

# ---- 9: a kept string over 255 bytes

yes("a name of 255 bytes", "0 record ~255~", '{"type":"record","name":^"~255~","fields":[]}')
no(9, "a name of 256 bytes", '{"type":"record","name":^"~256~","fields":[]}')
yes("a name of 255 bytes by its namespace", "0 record ~200~.~54~", '{"type":"record","name":^"~54~","namespace":"~200~","fields":[]}')
no(9, "a name of 256 bytes by its namespace", '{"type":"record","name":^"~55~","namespace":"~200~","fields":[]}')
yes("a dotted name of 255 bytes", "0 enum ~127~.~127~", '{"type":"enum","name":"~127~.~127~","symbols":[]}')
no(9, "a dotted name of 256 bytes", '{"type":"enum","name":^"~127~.~128~","symbols":[]}')
yes("a leading dot and 255 bytes", "0 fixed ~255~ =1", '{"type":"fixed","name":".~255~","size":1}')
no(9, "a leading dot and 256 bytes", '{"type":"fixed","name":^".~256~","size":1}')
yes("a name of 255 bytes by the enclosing namespace", "0 record ~250~.R; 1 field f; 2 fixed ~250~.nnnn =1", '{"type":"record","name":"~250~.R","fields":[{"name":"f","type":{"type":"fixed","name":"nnnn","size":1}}]}')
no(9, "a name of 256 bytes by the enclosing namespace", '{"type":"record","name":"~250~.R","fields":[{"name":"f","type":{"type":"fixed","name":^"nnnnn","size":1}}]}')
no(9, "a reference of 256 bytes", '^"~256~"')
no(9, "a reference of 256 bytes after its leading dot", '^".~256~"')
no(9, "a dotted reference of 256 bytes", '{"type":^"~128~.~127~"}')
no(9, "a reference of 256 bytes by its namespace", '{"type":"record","name":"R","namespace":"~200~","fields":[{"name":"f","type":^"~55~"}]}')
no(9, "a reference of 256 bytes, all escapes", '^"' + r"\u006e" * 256 + '"')
yes("an alias of 255 bytes", "0 record R; 1 alias ~255~", '{"type":"record","name":"R","aliases":["~255~"],"fields":[]}')
no(9, "an alias of 256 bytes", '{"type":"record","name":"R","aliases":["b",^"~256~"],"fields":[]}')
yes("an alias of 255 bytes by the definition's namespace", "0 enum ~250~.E; 1 alias ~250~.nnnn", '{"type":"enum","name":"~250~.E","aliases":["nnnn"],"symbols":[]}')
no(9, "an alias of 256 bytes by the definition's namespace", '{"type":"enum","name":"~250~.E","aliases":[^"nnnnn"],"symbols":[]}')
no(9, "an alias with a leading dot and 256 bytes", '{"type":"enum","name":"E","aliases":[^".~256~"],"symbols":[]}')
yes("a field of 255 bytes", "0 record R; 1 field ~255~; 2 int", '{"type":"record","name":"R","fields":[{"name":"~255~","type":"int"}]}')
no(9, "a field of 256 bytes", '{"type":"record","name":"R","fields":[{"name":^"~256~","type":"int"}]}')
yes("a field of 255 bytes in a long namespace", "0 record ~253~.R; 1 field ~255~; 2 int", '{"type":"record","name":"~253~.R","fields":[{"name":"~255~","type":"int"}]}')
yes("a field alias of 255 bytes", "0 record R; 1 field f; 2 field-alias ~255~; 2 int", '{"type":"record","name":"R","fields":[{"name":"f","aliases":["~255~"],"type":"int"}]}')
no(9, "a field alias of 256 bytes", '{"type":"record","name":"R","fields":[{"name":"f","aliases":[^"~256~"],"type":"int"}]}')
yes("a symbol of 255 bytes", "0 enum E; 1 symbol ~255~; 1 symbol ~254~", '{"type":"enum","name":"E","symbols":["~255~","~254~"]}')
no(9, "a symbol of 256 bytes", '{"type":"enum","name":"E","symbols":["A",^"~256~"]}')
no(9, "a symbol of 256 bytes before 14 of it", '{"type":"enum","name":"E","symbols":[^"~256~","~256~"]}')
no(9, "a symbol of 256 bytes before 7 of the next", '{"type":"enum","name":"E","symbols":[^"~256~","1"]}')
no(9, "before 7 of an alias", '{"type":"record","aliases":["1"],"name":^"~256~","fields":[]}')
no(9, "before 10", '{"type":"record","name":^"~256~"}')
no(9, "a member before 19", '["~255~",{"type":"record","name":^"~256~","fields":[]},"~255~"]')
no(9, "a fixed's name behind 17 and 18", '{"type":"fixed","size":1,"name":^"~300~"}')
no(9, "a field's name before 5", '{"type":"record","name":"R","fields":[{"name":^"~256~"}]}')
no(9, "a field's alias before 5", '{"type":"record","name":"R","fields":[{"name":"f","aliases":[^"~256~"]}]}')
no(9, "a long namespace alone", '{"type":"record","name":^"R","namespace":"~300~","fields":[]}')
yes("a long namespace beside a dotted name", "0 record a.R", '{"type":"record","name":"a.R","namespace":"~300~","fields":[]}')
yes("a long doc is not kept", "0 int", '{"type":"int","doc":"~300~"}')
yes("a namespace of 253 bytes", "0 record ~253~.R", '{"type":"record","name":"R","namespace":"~253~","fields":[]}')
no(9, "a namespace of 254 bytes", '{"type":"record","name":^"R","namespace":"~254~","fields":[]}')
no(9, "a default is not measured, the symbol is", '{"type":"enum","name":"E","default":"~256~","symbols":[^"~256~"]}')

# ---- 10: fields missing or no array

no(10, "missing", '^{"type":"record","name":"R"}')
no(10, "null", '^{"type":"record","name":"R","fields":null}')
no(10, "a string", '^{"type":"record","name":"R","fields":"f"}')
no(10, "an object", '^{"type":"record","name":"R","fields":{"name":"f","type":"int"}}')
no(10, "a number", '^{"type":"record","name":"R","fields":0}')
no(10, "given twice, the last no array", '^{"type":"record","name":"R","fields":[],"fields":{}}')
no(10, "nested in a type, at the inner object", '{"fields":[],"type":  ^{"type":"record","name":"R"}}')
no(10, "a member", '["null",^{"type":"record","name":"R"}]')
no(10, "an inner record", '{"type":"record","name":"R","fields":[{"name":"f","type":^{"type":"record","name":"S"}}]}')
no(10, "an inner record before 11 of the outer", '{"type":"record","name":"R","fields":[{"name":"f","type":"int"},{"name":"f","type":^{"type":"record","name":"S"}}]}')
no(10, "in items", '{"type":"array","items":^{"type":"record","name":"R","Fields":[]}}')
no(10, "symbols do not serve", '^{"type":"record","name":"R","symbols":["A"]}')
yes("no fields", "0 record R", '{"type":"record","name":"R","fields":[]}')
yes("fields given twice, the last counts", "0 record R; 1 field g; 2 null", '{"type":"record","name":"R","fields":[{"name":"f","type":"int"}],"fields":[{"name":"g","type":"null"}]}')
yes("fields given twice, the first no array", "0 record R; 1 field g; 2 null", '{"type":"record","name":"R","fields":5,"fields":[{"name":"g","type":"null"}]}')
yes("elements that are no objects", "0 record R; 1 field f; 2 int; 1 field g; 2 long",
    '{"type":"record","name":^"R","fields":[1,"x",null,{"name":^"f","type":^"int"},true,[{"name":"h","type":"int"}],[],{"name":^"g","type":^"long"},"g"]}')
yes("only elements that are no objects", "0 record R", '{"type":"record","name":"R","fields":["f",5,[]]}')

# ---- 11: a field name taken

no(11, "two fields of one name", '{"type":"record","name":"R","fields":[{"name":"f","type":"int"},{"name":^"f","type":"int"}]}')
no(11, "an earlier field's alias", '{"type":"record","name":"R","fields":[{"name":"f","aliases":["g"],"type":"int"},{"name":^"g","type":"int"}]}')
no(11, "an earlier field's second alias", '{"type":"record","name":"R","fields":[{"name":"f","aliases":["h","g"],"type":"int"},{"name":"k","type":"int"},{"name":^"g","type":"int"}]}')
no(11, "spelt with an escape", r'{"type":"record","name":"R","fields":[{"name":"f","type":"int"},{"name":^"\u0066","type":"int"}]}')
no(11, "an alias spelt with an escape", r'{"type":"record","name":"R","fields":[{"name":"f","aliases":["\u0067"],"type":"int"},{"name":^"g","type":"int"}]}')
no(11, "the third", '{"type":"record","name":"R","fields":[{"name":"a","type":"int"},{"name":"b","type":"int"},{"name":^"a","type":"int"},{"name":"b","type":"int"}]}')
no(11, "over an element that is no object", '{"type":"record","name":"R","fields":[{"name":"a","type":"int"},"a",{"name":^"a","type":"int"}]}')
no(11, "the inner record before the outer", '{"type":"record","name":"R","fields":[{"name":"a","type":"int"},{"name":"a","type":{"type":"record","name":"S","fields":[{"name":"x","type":"int"},{"name":^"x","type":"int"}]}}]}')
no(11, "the name of the last of two name members", '{"type":"record","name":"R","fields":[{"name":"a","type":"int"},{"name":"b","type":"int","name":^"a"}]}')
no(11, "behind an alias equal to an earlier name", '{"type":"record","name":"R","fields":[{"name":"f","type":"int"},{"name":"g","aliases":["f"],"type":"int"},{"name":^"f","type":"int"}]}')
no(11, "long names that differ nowhere", '{"type":"record","name":"R","fields":[{"name":"~255~","type":"int"},{"name":^"~255~","type":"int"}]}')
no(11, "an alias of a field that itself passed", '{"type":"record","name":"R","fields":[{"name":"a","aliases":["b"],"type":"int"},{"name":"c","aliases":["b"],"type":"int"},{"name":^"b","type":"int"}]}')
yes("an alias equal to an earlier name", "0 record R; 1 field f; 2 int; 1 field g; 2 field-alias f; 2 int",
    '{"type":"record","name":^"R","fields":[{"name":^"f","type":^"int"},{"name":^"g","aliases":[^"f"],"type":^"int"}]}')
yes("a field's own name as alias", "0 record R; 1 field f; 2 field-alias f; 2 int", '{"type":"record","name":"R","fields":[{"name":"f","aliases":["f"],"type":"int"}]}')
yes("an alias twice in one field", "0 record R; 1 field f; 2 field-alias g; 2 field-alias g; 2 int", '{"type":"record","name":"R","fields":[{"name":"f","aliases":["g","g"],"type":"int"}]}')
yes("one alias in two fields", "0 record R; 1 field f; 2 field-alias h; 2 int; 1 field g; 2 field-alias h; 2 int", '{"type":"record","name":"R","fields":[{"name":"f","aliases":["h"],"type":"int"},{"name":"g","aliases":["h"],"type":"int"}]}')
yes("a later field's name as an earlier alias's capital", "0 record R; 1 field f; 2 field-alias G; 2 int; 1 field g; 2 int", '{"type":"record","name":"R","fields":[{"name":"f","aliases":["G"],"type":"int"},{"name":"g","type":"int"}]}')
yes("a field named as its record", "0 record R; 1 field R; 2 int", '{"type":"record","name":"R","fields":[{"name":"R","type":"int"}]}')
yes("a field named as one of an inner record", "0 record R; 1 field f; 2 record S; 3 field f; 4 int; 1 field g; 2 int",
    '{"type":"record","name":"R","fields":[{"name":"f","type":{"type":"record","name":"S","fields":[{"name":"f","type":"int"}]}},{"name":"g","type":"int"}]}')
yes("a field named as a prefix of another", "0 record R; 1 field ff; 2 int; 1 field f; 2 int; 1 field fff; 2 int", '{"type":"record","name":"R","fields":[{"name":"ff","type":"int"},{"name":"f","type":"int"},{"name":"fff","type":"int"}]}')
yes("an alias list that is no list of strings takes no name", "0 record R; 1 field f; 2 int; 1 field g; 2 int", '{"type":"record","name":"R","fields":[{"name":"f","aliases":["g",5],"type":"int"},{"name":"g","type":"int"}]}')
yes("an alias as a string takes no name", "0 record R; 1 field f; 2 int; 1 field g; 2 int", '{"type":"record","name":"R","fields":[{"name":"f","aliases":"g","type":"int"},{"name":"g","type":"int"}]}')

# ---- 12: symbols missing or no array

no(12, "missing", '^{"type":"enum","name":"E"}')
no(12, "null", '^{"type":"enum","name":"E","symbols":null}')
no(12, "a string", '^{"type":"enum","name":"E","symbols":"A"}')
no(12, "an object", '^{"type":"enum","name":"E","symbols":{"A":0}}')
no(12, "a number", '^{"type":"enum","symbols":3,"name":"E"}')
no(12, "given twice, the last no array", '^{"type":"enum","name":"E","symbols":["A"],"symbols":"A"}')
no(12, "nested in a type, at the inner object", '{"symbols":["A"],"type":^{"type":"enum","name":"E"}}')
no(12, "a member", '["null",^{"type":"enum","name":"E"}]')
no(12, "in a field", '{"type":"record","name":"R","fields":[{"name":"f","symbols":["A"],"type":^{"type":"enum","name":"E"}}]}')
no(12, "before 15", '^{"type":"enum","name":"E","default":5}')
no(12, "before 16", '^{"type":"enum","name":"E","default":"A"}')
no(12, "fields do not serve", '^{"type":"enum","name":"E","fields":[]}')
yes("no symbols", "0 enum E", '{"type":"enum","name":"E","symbols":[]}')
yes("symbols given twice, the last counts", "0 enum E; 1 symbol B", '{"type":"enum","name":^"E","symbols":["A","A"],"symbols":[^"B"]}')
yes("symbols given twice, once with an escape", "0 enum E; 1 symbol B", r'{"type":"enum","name":"E","symbols":["A"],"symb\u006fls":["B"]}')

# ---- 13: a symbol no string

no(13, "a number", '{"type":"enum","name":"E","symbols":[^5]}')
no(13, "null", '{"type":"enum","name":"E","symbols":["A", ^null]}')
no(13, "an array", '{"type":"enum","name":"E","symbols":["A",^["B"]]}')
no(13, "an object", '{"type":"enum","name":"E","symbols":[^{"name":"A"},"B"]}')
no(13, "true", '{"type":"enum","name":"E","symbols":["A","B",^true]}')
no(13, "the first of two", '{"type":"enum","name":"E","symbols":[^false,1]}')
no(13, "before 7 of an earlier symbol", '{"type":"enum","name":"E","symbols":["1",^5]}')
no(13, "before 9 of an earlier symbol", '{"type":"enum","name":"E","symbols":["~256~",^-1]}')
no(13, "before 14 of earlier symbols", '{"type":"enum","name":"E","symbols":["A","A",^5]}')
no(13, "before 15", '{"default":5,"type":"enum","name":"E","symbols":[^5]}')
no(13, "before 16", '{"type":"enum","name":"E","symbols":["A",^5],"default":"B"}')
no(13, "in a member", '["null",{"type":"enum","name":"E","symbols":[^5]},"null"]')

# ---- 14: a symbol twice

no(14, "two alike", '{"type":"enum","name":"E","symbols":["A",^"A"]}')
no(14, "the third", '{"type":"enum","name":"E","symbols":["A","B",^"A"]}')
no(14, "spelt with an escape", r'{"type":"enum","name":"E","symbols":["A",^"\u0041"]}')
no(14, "three alike, the second", '{"type":"enum","name":"E","symbols":["A",^"A","A"]}')
no(14, "two pairs, the first pair that is closed", '{"type":"enum","name":"E","symbols":["A","B",^"B","A"]}')
no(14, "255 bytes alike", '{"type":"enum","name":"E","symbols":["~255~",^"~255~"]}')
no(14, "before 7 of a later symbol", '{"type":"enum","name":"E","symbols":["A",^"A","1"]}')
no(14, "before 9 of a later symbol", '{"type":"enum","name":"E","symbols":["A",^"A","~256~"]}')
no(14, "before 15", '{"type":"enum","name":"E","default":null,"symbols":["A",^"A"]}')
no(14, "before 16", '{"type":"enum","name":"E","symbols":["A",^"A"],"default":"B"}')
no(14, "in a field before 11", '{"type":"record","name":"R","fields":[{"name":"f","type":"int"},{"name":"f","type":{"type":"enum","name":"E","symbols":["A",^"A"]}}]}')
yes("symbols that differ in case", "0 enum E; 1 symbol A; 1 symbol a; 1 symbol AA; 1 symbol A_", '{"type":"enum","name":^"E","symbols":[^"A",^"a",^"AA",^"A_"]}')
yes("a symbol like its enum and its alias", "0 enum E; 1 alias A; 1 symbol E; 1 symbol A", '{"type":"enum","name":"E","aliases":["A"],"symbols":["E","A"]}')
yes("one symbol in two enums", "0 union; 1 enum E; 2 symbol A; 1 enum F; 2 symbol A", '[{"type":"enum","name":"E","symbols":["A"]},{"type":"enum","name":"F","symbols":["A"]}]')
yes("long symbols that differ in the last letter", "0 enum E; 1 symbol ~254~a; 1 symbol ~254~b", '{"type":"enum","name":"E","symbols":["~254~a","~254~b"]}')

# ---- 15, 16: an enum's default

no(15, "a number", '{"type":"enum","name":"E","symbols":["A"],"default":^5}')
no(15, "null", '{"type":"enum","name":"E","symbols":["A"],"default": ^null}')
no(15, "an array", '{"type":"enum","default":^["A"],"name":"E","symbols":["A"]}')
no(15, "an object", '{"default":^{},"type":"enum","name":"E","symbols":["A"]}')
no(15, "true", '{"type":"enum","name":"E","symbols":[],"default":^true}')
no(15, "given twice, the last no string", '{"type":"enum","name":"E","symbols":["A"],"default":"A","default":^0}')
no(15, "in a member", '["null",{"type":"enum","name":"E","symbols":["A"],"default":^false}]')
no(16, "another word", '{"type":"enum","name":"E","symbols":["A"],"default":^"B"}')
no(16, "the empty string", '{"type":"enum","name":"E","symbols":["A"],"default":^""}')
no(16, "no symbols", '{"type":"enum","name":"E","symbols":[],"default":^"A"}')
no(16, "the enum's own name", '{"type":"enum","name":"E","default":^"E","symbols":["A"]}')
no(16, "an alias", '{"type":"enum","name":"E","aliases":["B"],"symbols":["A"],"default":^"B"}')
no(16, "another case", '{"type":"enum","name":"E","symbols":["A"],"default":^"a"}')
no(16, "a symbol and more", '{"type":"enum","name":"E","symbols":["A"],"default":^"AA"}')
no(16, "no name at all", '{"type":"enum","name":"E","symbols":["A"],"default":^"1 2"}')
no(16, "a long string", '{"type":"enum","name":"E","symbols":["A"],"default":^"~300~"}')
no(16, "given twice, the last no symbol", '{"type":"enum","name":"E","symbols":["A"],"default":5,"default":^"B"}')
no(16, "before 11 of the record around it", '{"type":"record","name":"R","fields":[{"name":"f","type":"int"},{"name":"f","type":{"type":"enum","name":"E","symbols":["A"],"default":^"B"}}]}')
yes("a default", "0 enum E; 1 symbol A; 1 symbol B", '{"type":"enum","name":"E","symbols":["A","B"],"default":"B"}')
yes("a default spelt with an escape", "0 enum E; 1 symbol A", r'{"type":"enum","name":"E","symbols":["A"],"default":"\u0041"}')
yes("a symbol spelt with an escape, the default plain", "0 enum E; 1 symbol A", r'{"type":"enum","name":"E","symbols":["\u0041"],"default":"A"}')
yes("a default given twice, the last good", "0 enum E; 1 symbol A", '{"type":"enum","name":"E","symbols":["A"],"default":5,"default":"A"}')
yes("a default of a record, an array, a fixed is not looked at", "0 record R; 1 field f :{}; 2 array; 3 fixed F =1; 1 field g :5; 2 enum E; 3 symbol A",
    '{"type":"record","name":"R","default":5,"fields":[{"name":"f","default":{},"type":{"type":"array","default":1,"items":{"type":"fixed","name":"F","default":7,"size":1}}},{"name":"g","default":5,"type":{"type":"enum","name":"E","symbols":["A"]}}]}')

# ---- 17, 18: a fixed's size

no(17, "missing", '^{"type":"fixed","name":"F"}')
no(17, "before 6", '^{"type":"fixed"}')
no(17, "before 7", '^{"type":"fixed","name":"1"}')
no(17, "before 7 of the namespace", '^{"type":"fixed","name":"F","namespace":"1"}')
no(17, "before 8", '^{"type":"fixed","name":"int"}')
no(17, "before 9", '^{"type":"fixed","name":"~256~"}')
no(17, "before 7 of an alias", '^{"type":"fixed","name":"F","aliases":["1"]}')
no(17, "nested in a type, at the inner object", '{"size":4,"type":^{"type":"fixed","name":"F"}}')
no(17, "in a member", '["null",^{"type":"fixed","name":"F","Size":4}]')
no(17, "in a member before 19", '["F",^{"type":"fixed","name":"F"}]')
no(17, "in items", '{"type":"array","items": ^{"type":"fixed","name":"F"},"size":2}')
for w in ("-0", "-1", "1.0", "1e3", "1E0", "0e0", "0.0", '"4"', "null", "true", "[4]", "{}", "18446744073709551616", "18446744073709551625", "99999999999999999999", "100000000000000000000000", '""', "1.5"):
    no(18, "a size " + w, '{"type":"fixed","name":"F","size":^%s}' % w)
no(18, "before 6", '{"type":"fixed","size":^-1}')
no(18, "before 7", '{"type":"fixed","name":"1","size":^-1}')
no(18, "before 7 of the namespace", '{"type":"fixed","name":"F","namespace":"1","size": ^"1"}')
no(18, "before 8", '{"type":"fixed","name":"int","size":^1.0}')
no(18, "before 9", '{"type":"fixed","name":"~256~","size":^1e0}')
no(18, "before 19", '["F",{"type":"fixed","name":"F","size":^null}]')
no(18, "given twice, the last no size", '{"type":"fixed","name":"F","size":4,"size":^"4"}')
no(18, "before 7 of an alias", '{"aliases":["1"],"type":"fixed","name":"F","size":^[]}')
for w in ("0", "1", "9", "10", "16", "255", "256", "65535", "65536", "4294967295", "4294967296", "9223372036854775807", "9223372036854775808", "10000000000000000000", "18446744073709551609",
          "18446744073709551615"):
    yes("a size " + w, "0 fixed F =" + w, '{"type":"fixed","name":^"F","size":%s}' % w)
yes("a size between white space", "0 fixed F =12", '{"type":"fixed","name":"F","size" :\n12\t}')
yes("a size at the end of its object", "0 fixed F =7", '{"type":"fixed","name":"F","size":7}')
yes("a size given twice, the last good", "0 fixed F =5", '{"type":"fixed","name":"F","size":"4","size":5}')
yes("a size whose key has an escape", "0 fixed F =5", r'{"type":"fixed","name":"F","siz\u0065":5}')
yes("a size beside a record", "0 record R", '{"type":"record","name":"R","fields":[],"size":5}')
yes("a bad size beside an enum", "0 enum E", '{"type":"enum","name":"E","symbols":[],"size":-5}')

# ---- 27, 28

no(27, "missing", '^{"type":"array"}')
no(27, "values do not serve", '^{"type":"array","values":"int"}')
no(27, "a key in capitals", '^{"type":"array","Items":"int"}')
no(27, "nested in a type, at the inner object", '{"items":"int","type":^{"type":"array"}}')
no(27, "a member", '["null",^{"type":"array"}]')
no(27, "in a map", '{"type":"map","values": ^{"type":"array"}}')
no(27, "in a field", '{"type":"record","name":"R","fields":[{"name":"f","items":"int","type":^{"type":"array"}}]}')
no(27, "the outer before a fault behind it", '[^{"type":"array"},5]')
no(27, "in an array in an array", '{"type":"array","items":^{"type":"array"}}')
no(28, "missing", '^{"type":"map"}')
no(28, "items do not serve", '^{"type":"map","items":"int"}')
no(28, "a key with an accent", '^{"type":"map","valués":"int"}')
no(28, "nested in a type, at the inner object", '{"values":"int","type":^{"type":"map"}}')
no(28, "a member", '["null",^{"type":"map"}]')
no(28, "in an array", '{"type":"array","items":^{"type":"map"}}')
no(28, "in a field before 11", '{"type":"record","name":"R","fields":[{"name":"f","type":"int"},{"name":"f","type": ^{"type":"map"}}]}')
no(28, "a map in a map", '{"type":"map","values":^{"type":"map"}}')
no(28, "before 27 behind it", '[^{"type":"map"},{"type":"array"}]')
no(27, "before 28 behind it", '[^{"type":"array"},{"type":"map"}]')
yes("items spelt with an escape", "0 array; 1 int", r'^{"type":"array","\u0069tems":^"int"}')
yes("items given twice", "0 array; 1 long", '^{"items":"int","type":"array","items":^"long"}')
yes("values given twice, the first no schema", "0 map; 1 long", '^{"values":5,"type":"map","values":^"long"}')
yes("an array with a name and a namespace", "0 array; 1 reference R", '{"type":"array","name":"1","namespace":"a","items":"R"}')
yes("array spelt with an escape", "0 array; 1 int", r'^{"type":"arra\u0079","items":^"int"}')
yes("record spelt with an escape", "0 record R", r'{"type":"\u0072ecord","name":^"R","fields":[]}')

# ---- 19: the union rule, and unions that keep it

yes("an empty union", "0 union", "^[]")
yes("an empty union with white space", "0 union", " ^[ \n ] ")
yes("a union of one", "0 union; 1 int", '^[^"int"]')
yes("a union of one in an object", "0 union; 1 int", '{"type":^[^"int"]}')
yes("an empty union in a field and in items", "0 record R; 1 field f; 2 union; 1 field g; 2 array; 3 union", '{"type":"record","name":"R","fields":[{"name":"f","type":[]},{"name":"g","type":{"type":"array","items":[]}}]}')
yes("a union of all primitives", "0 union; 1 null; 1 boolean; 1 int; 1 long; 1 float; 1 double; 1 bytes; 1 string", '["null","boolean","int","long","float","double","bytes","string"]')
yes("a union of records, enums and fixeds", "0 union; 1 record A; 1 record B; 1 enum C; 1 enum D; 1 fixed E =1; 1 fixed F =1",
    '[{"type":"record","name":"A","fields":[]},{"type":"record","name":"B","fields":[]},{"type":"enum","name":"C","symbols":[]},{"type":"enum","name":"D","symbols":[]},{"type":"fixed","name":"E","size":1},{"type":"fixed","name":"F","size":1}]')
yes("a union in an array in a union", "0 union; 1 array; 2 union; 3 array; 4 union", '[{"type":"array","items":[{"type":"array","items":[]}]}]')
yes("a union in a record in a union", "0 union; 1 record R; 2 field f; 3 union; 4 null; 4 int; 1 null", '[{"type":"record","name":"R","fields":[{"name":"f","type":["null","int"]}]},"null"]')
yes("one last part in two namespaces", "0 union; 1 reference a.X; 1 reference b.X; 1 reference X", '["a.X","b.X","X"]')
yes("a decimal over fixed beside bytes", "0 union; 1 bytes; 1 fixed F =4 #1,3,0", '["bytes",{"type":"fixed","name":"F","size":4,"logicalType":"decimal","precision":3}]')
yes("a primitive beside a reference of its name", "0 union; 1 int; 1 reference int", '["int",".int"]')
yes("a kind beside references of the kinds' names", "0 union; 1 array; 2 int; 1 reference array; 1 map; 2 int; 1 reference map; 1 reference union", '[{"type":"array","items":"int"},"array",{"type":"map","values":"int"},"map","union"]')
yes("an alias beside a reference of its name", "0 union; 1 fixed F =1; 2 alias G; 1 reference G", '[{"type":"fixed","name":"F","aliases":["G"],"size":1},"G"]')
yes("the same kinds in two unions", "0 record R; 1 field f; 2 union; 3 null; 3 int; 1 field g; 2 union; 3 null; 3 int", '{"type":"record","name":"R","fields":[{"name":"f","type":["null","int"]},{"name":"g","type":["null","int"]}]}')
yes("members through nested types", "0 union; 1 int; 1 long; 1 record R; 1 array; 2 union", '^[{"type":{"type":^"int"}},{"type":^"long"},{"type":{"type":{"type":"record","name":^"R","fields":[]}}},{"type":^{"type":"array","items":{"type":{"type":^[]}}}}]')
for p in ("null", "boolean", "int", "long", "float", "double", "bytes", "string"):
    no(19, "two of " + p, '["%s",^"%s"]' % (p, p))
no(19, "two ints, one in an object", '["int","null", ^{"type":"int"}]')
no(19, "two ints, the first in an object", '[{"type":"int"},^"int"]')
no(19, "two ints, nested types", '[{"type":{"type":"int"}},"null",^{"type":{"type":{"type":"int"}}}]')
no(19, "two arrays", '[{"type":"array","items":"int"},^{"type":"array","items":"string"}]')
no(19, "two maps", '[{"type":"map","values":"int"},"int",^{"type":"map","values":"string"}]')
no(19, "a union in a union", '[^["null"]]')
no(19, "an empty union in a union", '["null", ^[]]')
no(19, "a union in a union by a nested type", '["null",^{"type":["int"]}]')
no(19, "a union in a union by nested types", '[^{"doc":"x","type":{"type":{"type":[]}}}]')
no(19, "a union in a union in an array", '{"type":"array","items":[^["int"]]}')
no(19, "64 arrays", "[^[" + "[" * 62 + "]" * 64)
no(19, "two records of one name", '[{"type":"record","name":"R","fields":[]},^{"type":"record","name":"R","fields":[]}]')
no(19, "a record and an enum of one name", '[{"type":"record","name":"R","fields":[]},^{"type":"enum","name":"R","symbols":[]}]')
no(19, "a fixed and a reference", '[{"type":"fixed","name":"R","size":1},^"R"]')
no(19, "a reference and a record", '["R",^{"type":"record","name":"R","fields":[]}]')
no(19, "two references", '["R","S",^"R"]')
no(19, "two references by a leading dot", '["R",^".R"]')
no(19, "two references by an object", '["R",^{"type":"R"}]')
no(19, "two references by an escape", r'["R",^"\u0052"]')
no(19, "one full name by two ways", '{"type":"record","name":"a.R","fields":[{"name":"f","type":["S",^"a.S"]}]}')
no(19, "one full name by a namespace", '["a.R",^{"type":"record","name":"R","namespace":"a","fields":[]}]')
no(19, "one full name without a namespace", '{"type":"record","name":"a.R","fields":[{"name":"f","type":[".S",^{"type":"fixed","name":"S","namespace":"","size":1}]}]}')
no(19, "a decimal beside bytes", '["bytes",^{"type":"bytes","logicalType":"decimal","precision":4}]')
no(19, "two decimals", '[{"type":"bytes","logicalType":"decimal","precision":4},^{"type":"bytes","logicalType":"decimal","precision":5}]')
no(19, "the third, and not the fourth", '["null","int",^"null","int"]')
no(19, "in an inner union", '["null",{"type":"array","items":["null",^"null"]}]')
no(19, "nested through a type, at the outer object", '["int", ^{"x":1,"type": {"type":"int"}}]')
# 19 and the rest of its member
no(19, "before 27 of its member", '[{"type":"array","items":"int"},^{"type":"array"}]')
no(19, "before 28 of its member", '[{"type":"map","values":"int"},^{"type":"map"}]')
no(19, "before 4 in its member's items", '[{"type":"array","items":"int"},^{"type":"array","items":5}]')
no(19, "before 10 of its member", '["R",^{"type":"record","name":"R"}]')
no(19, "before 12 of its member", '["R",^{"type":"enum","name":"R"}]')
no(19, "before 7 of its member's alias", '["R",^{"type":"record","name":"R","aliases":["1"],"fields":[]}]')
no(19, "before 8 of its member's alias", '["R",^{"type":"enum","name":"R","aliases":["int"],"symbols":[]}]')
no(19, "before 9 of its member's alias", '["R",^{"type":"fixed","name":"R","aliases":["~256~"],"size":0}]')
no(19, "before 6 of its member's field", '["R",^{"type":"record","name":"R","fields":[{}]}]')
no(19, "before 7 of its member's field", '["R",^{"type":"record","name":"R","fields":[{"name":"1"}]}]')
no(19, "before 5 of its member's field", '["R",^{"type":"record","name":"R","fields":[{"name":"f"}]}]')
no(19, "before 11 of its member", '["R",^{"type":"record","name":"R","fields":[{"name":"f","type":"int"},{"name":"f","type":"int"}]}]')
no(19, "before 13 of its member", '["R",^{"type":"enum","name":"R","symbols":[5]}]')
no(19, "before 14 of its member", '["R",^{"type":"enum","name":"R","symbols":["A","A"]}]')
no(19, "before 15 of its member", '["R",^{"type":"enum","name":"R","symbols":["A"],"default":0}]')
no(19, "before 16 of its member", '["R",^{"type":"enum","name":"R","symbols":["A"],"default":"B"}]')
no(19, "before 19 in its member", '[{"type":"array","items":"int"},^{"type":"array","items":["int","int"]}]')
no(19, "before a fault in the next member", '["int",^"int",5]')
no(19, "a union in a union before its members' faults", '[^[5,{},"1"]]')
no(19, "a union in a union by a type before its members' faults", '[^{"type":["int","int"]}]')
no(4, "in a member that would be twice", '["int",{"type":^5}]')
no(5, "in a member before 19 of the next", '["int",^{},"int"]')
no(6, "in a member before 19 of the next", '["R",^{"type":"record","fields":[]},"R"]')
no(7, "in a member of a namespace before 19", '["a.R",{"type":"record","name":"R","namespace":"a.^","fields":[]}]')
no(7, "in a member's parts before 19 of the next", '["int",{"type":"array","items":"^1"},"int"]')
no(11, "in a member before 19 of the next", '["R",{"type":"record","name":"S","fields":[{"name":"f","type":"int"},{"name":^"f","type":"int"}]},"R"]')
no(16, "in a member before 19 of the next", '["R",{"type":"enum","name":"S","symbols":["A"],"default":^"B"},"R"]')
no(19, "in a field before 11 of its record", '{"type":"record","name":"R","fields":[{"name":"f","type":"int"},{"name":"f","type":["int",^"int"]}]}')
no(19, "in the first field before 7 in the second", '{"type":"record","name":"R","fields":[{"name":"f","type":["int",^"int"]},{"name":"1","type":"int"}]}')
no(7, "in the first field before 19 in the second", '{"type":"record","name":"R","fields":[{"name":"^1","type":"int"},{"name":"f","type":["int","int"]}]}')

# ---- namespaces

yes("a namespace for the definition", "0 record a.b.R", '{"type":"record","namespace":"a.b","name":^"R","fields":[]}')
yes("a namespace that is empty", "0 record R", '{"type":"record","namespace":"","name":"R","fields":[]}')
for w in ("null", "5", "true", '["b"]', '{"x":"b"}'):
    yes("a namespace that is no string: " + w, "0 record a.O; 1 field f; 2 record a.R", '{"type":"record","name":"a.O","fields":[{"name":"f","type":{"type":"record","name":"R","namespace":%s,"fields":[]}}]}' % w)
yes("the empty namespace replaces the enclosing one", "0 record a.O; 1 field f; 2 record R; 3 field g; 4 reference S; 1 field h; 2 reference a.S",
    '{"type":"record","name":"O","namespace":"a","fields":[{"name":"f","type":{"type":"record","name":"R","namespace":"","fields":[{"name":"g","type":"S"}]}},{"name":"h","type":"S"}]}')
yes("another namespace replaces the enclosing one", "0 record a.O; 1 field f; 2 record b.c.R; 3 field g; 4 reference b.c.S; 1 field h; 2 reference a.S",
    '{"type":"record","name":"O","namespace":"a","fields":[{"name":"f","type":{"type":"record","name":"R","namespace":"b.c","fields":[{"name":"g","type":"S"}]}},{"name":"h","type":"S"}]}')
yes("a dotted name gives its fields its namespace", "0 record a.O; 1 field f; 2 record b.c.R; 3 field g; 4 reference b.c.S; 1 field h; 2 reference a.S",
    '{"type":"record","name":"O","namespace":"a","fields":[{"name":"f","type":{"type":"record","name":"b.c.R","fields":[{"name":"g","type":"S"}]}},{"name":"h","type":"S"}]}')
yes("a leading dot gives its fields no namespace", "0 record a.O; 1 field f; 2 record R; 3 field g; 4 reference S; 1 field h; 2 reference a.S",
    '{"type":"record","name":"O","namespace":"a","fields":[{"name":"f","type":{"type":"record","name":".R","fields":[{"name":"g","type":"S"}]}},{"name":"h","type":"S"}]}')
yes("a leading dot and a namespace beside it", "0 record R; 1 field g; 2 reference S", '{"type":"record","name":".R","namespace":"a","fields":[{"name":"g","type":"S"}]}')
yes("a dotted name and a namespace beside it", "0 record b.R; 1 field g; 2 reference b.S", '{"type":"record","name":"b.R","namespace":"a","fields":[{"name":"g","type":"S"}]}')
yes("a dotted name and the empty namespace beside it", "0 record b.R; 1 field g; 2 reference b.S", '{"type":"record","name":"b.R","namespace":"","fields":[{"name":"g","type":"S"}]}')
yes("an enum and a fixed in a namespace", "0 record a.O; 1 field e; 2 enum a.E; 3 symbol A; 1 field f; 2 fixed a.F =2; 1 field g; 2 fixed b.G =2",
    '{"type":"record","name":"a.O","fields":[{"name":"e","type":{"type":"enum","name":"E","symbols":["A"]}},{"name":"f","type":{"type":"fixed","name":"F","size":2}},{"name":"g","type":{"type":"fixed","namespace":"b","name":"G","size":2}}]}')
yes("three records deep", "0 record a.A; 1 field f; 2 record a.B; 3 field f; 4 record a.C; 5 field f; 6 reference a.A; 5 field g; 6 reference D",
    '{"type":"record","name":"a.A","fields":[{"name":"f","type":{"type":"record","name":"B","fields":[{"name":"f","type":{"type":"record","name":"C","fields":[{"name":"f","type":"A"},{"name":"g","type":".D"}]}}]}}]}')
yes("no namespace, then one, then none", "0 record A; 1 field f; 2 record b.B; 3 field f; 4 record b.C; 5 field f; 6 reference b.A; 1 field g; 2 reference A",
    '{"type":"record","name":"A","fields":[{"name":"f","type":{"type":"record","name":"B","namespace":"b","fields":[{"name":"f","type":{"type":"record","name":"C","fields":[{"name":"f","type":"A"}]}}]}},{"name":"g","type":"A"}]}')
yes("a namespace goes through arrays, maps, unions and types", "0 record a.R; 1 field f; 2 array; 3 map; 4 union; 5 null; 5 reference a.S; 5 reference a.T",
    '{"type":"record","name":"a.R","fields":[{"name":"f","type":{"type":"array","namespace":"b","items":{"type":"map","values":["null",{"type":"S","namespace":"c"},{"type":{"type":"T"}}]}}}]}')
yes("a namespace beside a nested type is not looked at", "0 record R", '{"namespace":"a","name":"x","type":{"type":"record","name":"R","fields":[]}}')
yes("a bad namespace beside a nested type", "0 record R", '{"namespace":"1","name":"2","type":{"type":"record","name":"R","fields":[]}}')
yes("a namespace in a field is not looked at", "0 record a.R; 1 field f; 2 reference a.S", '{"type":"record","name":"a.R","fields":[{"name":"f","namespace":"b","type":"S"}]}')
yes("a dotted reference in a namespace", "0 record a.R; 1 field f; 2 reference b.S; 1 field g; 2 reference a.b.S", '{"type":"record","name":"a.R","fields":[{"name":"f","type":"b.S"},{"name":"g","type":"a.b.S"}]}')
yes("a namespace with an escape", "0 record a.b.R", r'{"type":"record","name":"R","namespace":"a\u002eb","fields":[]}')
yes("a name with an escaped dot", "0 record a.R; 1 field f; 2 reference a.S", r'{"type":"record","name":"a\u002eR","namespace":"x","fields":[{"name":"f","type":"S"}]}')
yes("a namespace whose key has an escape", "0 record a.R", r'{"type":"record","name":"R","n\u0061mespace":"a","fields":[]}')
yes("a namespace twice, the last empty", "0 record R", '{"type":"record","name":"R","namespace":"a","namespace":"","fields":[]}')
yes("a namespace twice, the last no string", "0 record R", '{"type":"record","name":"R","namespace":"a","namespace":5,"fields":[]}')
yes("a name twice", "0 record b.S", '{"type":"record","name":"a.R","fields":[],"name":^"b.S"}')
yes("aliases in the definition's namespace", "0 record a.R; 1 alias a.A; 1 alias b.B; 1 alias C; 1 alias a.A",
    '{"type":"record","name":^"R","namespace":"a","aliases":[^"A",^"b.B",^".C",^"a.A"],"fields":[]}')
yes("aliases in a dotted name's namespace", "0 enum b.c.E; 1 alias b.c.A", '{"type":"enum","name":"b.c.E","namespace":"a","aliases":["A"],"symbols":[]}')
yes("aliases behind a leading dot", "0 record a.O; 1 field f; 2 fixed F =1; 3 alias A", '{"type":"record","name":"a.O","fields":[{"name":"f","type":{"type":"fixed","name":".F","aliases":["A"],"size":1}}]}')
yes("aliases behind an empty namespace", "0 record a.O; 1 field f; 2 fixed F =1; 3 alias A", '{"type":"record","name":"a.O","fields":[{"name":"f","type":{"type":"fixed","name":"F","namespace":"","aliases":["A"],"size":1}}]}')
yes("aliases in the enclosing namespace", "0 record a.O; 1 field f; 2 enum a.E; 3 alias a.A", '{"type":"record","name":"a.O","fields":[{"name":"f","type":{"type":"enum","name":"E","aliases":["A"],"symbols":[]}}]}')

# ---- aliases

for w in ('"A"', "5", "null", "{}", '["A",5]', '[null]', '[["A"]]', '["1",true]', '{"A":"B"}', '["int",{}]'):
    yes("aliases of a record that are no array of strings: " + w, "0 record R", '{"type":"record","name":"R","aliases":%s,"fields":[]}' % w)
    yes("aliases of a field that are no array of strings: " + w, "0 record R; 1 field f; 2 int", '{"type":"record","name":"R","fields":[{"name":"f","aliases":%s,"type":"int"}]}' % w)
yes("no aliases", "0 record R; 1 field f; 2 int", '{"type":"record","name":"R","aliases":[],"fields":[{"name":"f","aliases":[],"type":"int"}]}')
yes("aliases given twice, the last counts", "0 record R; 1 alias B", '{"type":"record","name":"R","aliases":["A"],"aliases":["B"],"fields":[]}')
yes("aliases given twice, the last absent", "0 record R", '{"type":"record","name":"R","aliases":["A"],"aliases":"B","fields":[]}')
yes("bad aliases given twice, the last good", "0 enum E; 1 alias B", '{"type":"enum","name":"E","aliases":["1"],"aliases":["B"],"symbols":[]}')
yes("a definition's own name as alias", "0 fixed F =1; 1 alias F; 1 alias F", '{"type":"fixed","name":"F","aliases":["F","F"],"size":1}')
yes("aliases with escapes", "0 record R; 1 alias AB; 1 field f; 2 field-alias gh; 2 int", r'{"type":"record","name":"R","aliases":["\u0041B"],"fields":[{"name":"f","aliases":["g\u0068"],"type":"int"}]}')
yes("aliases beside a primitive and a reference", "0 union; 1 int; 1 reference R; 1 array; 2 int", '[{"type":"int","aliases":["1"]},{"type":"R","aliases":["int"]},{"type":"array","aliases":["-"],"items":"int"}]')
yes("aliases beside a nested type", "0 record R", '{"aliases":["1"],"type":{"type":"record","name":"R","fields":[]}}')
yes("many aliases", "0 record R; 1 alias A; 1 alias B; 1 alias C; 1 field f; 2 field-alias a; 2 field-alias b; 2 field-alias c; 2 null",
    '{"type":"record","aliases":[^"A" , ^"B" , ^"C"],"name":^"R","fields":[{"aliases":[^"a" , ^"b",^"c"],"type":^"null","name":^"f"}]}')

# ---- nested types

yes("a record nested in types", "0 record R; 1 field f; 2 int", '{"type":{"type":{"type":{"type":"record","name":^"R","fields":[{"name":^"f","type":{"type":{"type":^"int"}}}]}}}}')
yes("a union nested in types", "0 union; 1 null; 1 int", '{"type":{"type":^[^"null",^"int"]}}')
yes("an array nested in a type", "0 array; 1 int", '{"type":^{"type":"array","items":^"int"},"items":"long"}')
yes("a type record as a field's type is a reference", "0 record R; 1 field f; 2 reference record", '{"type":"record","name":^"R","fields":[{"name":^"f","type":^"record","fields":[]}]}')
yes("a field that looks like a fixed", "0 record R; 1 field f; 2 reference fixed", '{"type":"record","name":^"R","fields":[{"name":^"f","type":^"fixed","size":4}]}')
yes("a field that looks like an enum", "0 record a.R; 1 field f; 2 reference a.enum", '{"type":"record","name":"a.R","fields":[{"name":"f","type":"enum","symbols":["1"]}]}')
yes("a field that looks like an array", "0 record R; 1 field f; 2 reference array; 1 field g; 2 reference map", '{"type":"record","name":"R","fields":[{"name":"f","type":"array","items":"int"},{"name":"g","type":"map","values":5}]}')
yes("a field's type an object of a primitive", "0 record R; 1 field f; 2 double", '{"type":"record","name":^"R","fields":[{"name":^"f","type":{"type":^"double"}}]}')
yes("members of a nested type's outer object do not count", "0 fixed F =3", '{"size":-1,"name":5,"symbols":0,"type":{"type":"fixed","name":^"F","size":3},"fields":1}')
yes("unknown members everywhere", "0 record R; 1 field f; 2 map; 3 enum E; 4 symbol A",
    '{"x":[1,{"type":5}],"type":"record","doc":{"name":1},"name":"R","":"","fields":[{"order":"up","name":"f","type":{"type":"map","key":null,"values":{"type":"enum","name":"E","symbols":["A"],"fields":5,"size":"x","items":0}}}]}')

# ---- decimals

# 02's numbers as request A10 has them, for the sizes 1 to 16; the reader works them out
SIXTEEN = [2, 4, 6, 9, 11, 14, 16, 18, 21, 23, 26, 28, 31, 33, 35, 38]


def most(size):
    """The most digits of a decimal over a fixed of this size."""
    return {0: 0, **dict(enumerate(SIXTEEN, 1))}.get(size, 38)


D = '"logicalType":"decimal"'
yes("a decimal over bytes", "0 bytes #1,9,2", '{"type":^"bytes",%s,"precision":9,"scale":2}' % D)
yes("a decimal over fixed", "0 fixed F =4 #1,9,2", '{"type":"fixed","name":^"F","size":4,%s,"precision":9,"scale":2}' % D)
yes("a missing scale is 0", "0 bytes #1,9,0", '{"type":"bytes",%s,"precision":9}' % D)
yes("scale as precision", "0 bytes #1,7,7", '{"type":"bytes",%s,"precision":7,"scale":7}' % D)
yes("precision 1", "0 bytes #1,1,0", '{"type":"bytes",%s,"precision":1}' % D)
yes("the highest precision and scale", "0 bytes #1,18446744073709551615,18446744073709551615", '{"type":"bytes",%s,"precision":18446744073709551615,"scale":18446744073709551615}' % D)
yes("a precision beyond what the fixed holds", "0 fixed F =1 #7", '{"type":"fixed","name":"F","size":1,%s,"precision":100}' % D)
for over, row in (('{"type":"bytes",', "0 bytes"), ('{"type":"fixed","name":"F","size":4,', "0 fixed F =4")):
    k = row.split()[1]
    yes("note 2 over " + k, row + " #2", over + D + "}")
    yes("note 2 before 4 over " + k, row + " #2", over + D + ',"scale":-1}')
    for w in ("-1", "-0", "1.0", "1e1", '"9"', "null", "true", "[]", "{}", "18446744073709551616"):
        yes("note 3 over %s by %s" % (k, w), row + " #3", over + D + ',"precision":%s}' % w)
    yes("note 3 before 4 over " + k, row + " #3", over + D + ',"precision":"9","scale":"2"}')
    yes("note 3 by a negative one before 6 over " + k, row + " #3", over + D + ',"precision":-5,"scale":9}')
    for w in ("-1", "-0", "0.0", "2e0", '"2"', "null", "false", "[2]", "{}", "18446744073709551616"):
        yes("note 4 over %s by %s" % (k, w), row + " #4", over + D + ',"precision":9,"scale":%s}' % w)
    yes("note 4 before 5 over " + k, row + " #4", over + D + ',"precision":0,"scale":"2"}')
    yes("note 5 over " + k, row + " #5", over + D + ',"precision":0}')
    yes("note 5 with scale 0 over " + k, row + " #5", over + D + ',"precision":0,"scale":0}')
    yes("note 5 before 6 over " + k, row + " #5", over + '"scale":3,' + D + ',"precision":0}')
    yes("note 6 over " + k, row + " #6", over + D + ',"precision":2,"scale":3}')
    yes("note 6 at the highest scale over " + k, row + " #6", over + D + ',"precision":18446744073709551614,"scale":18446744073709551615}')
    yes("another logical type over " + k, row, over + '"logicalType":"uuid","precision":2,"scale":3}')
    yes("no logical type over " + k, row, over + '"precision":9,"scale":2}')
    yes("a logical type that is no string over " + k, row, over + '"logicalType":["decimal"],"precision":9}')
    yes("a logical type in capitals over " + k, row, over + '"logicalType":"Decimal","precision":9}')
    yes("a logical type with an escape over " + k, row + " #1,9,0", over + r'"logical\u0054ype":"decim\u0061l","preci\u0073ion":9}')
    yes("a logical type twice, the last another over " + k, row, over + D + ',"precision":9,"logicalType":"x"}')
    yes("a logical type twice, the last decimal over " + k, row + " #1,9,0", over + '"logicalType":5,"precision":9,' + D + "}")
    yes("precision twice over " + k, row + " #1,8,1", over + D + ',"precision":"x","precision":8,"scale":9,"scale":1}')
    yes("precision twice, the last bad over " + k, row + " #3", over + D + ',"precision":8,"precision":null}')
for w in ("null", "boolean", "int", "long", "float", "double", "string", "R"):
    yes("a decimal over %s is not looked at" % w, ("0 " + w) if w != "R" else "0 reference R", '{"type":"%s",%s,"precision":9,"scale":2}' % (w, D))
yes("a decimal over an array, map, record, enum is not looked at", "0 array; 1 map; 2 record R; 3 field f; 4 enum E",
    '{"type":"array",%s,"precision":1,"items":{"type":"map",%s,"precision":1,"values":{"type":"record",%s,"precision":1,"name":"R","fields":[{"name":"f","type":{"type":"enum","name":"E","symbols":[],%s,"precision":1}}]}}}' % (D, D, D, D))
yes("a decimal beside a nested type is not looked at", "0 bytes", '{"type":{"type":"bytes"},%s,"precision":9}' % D)
yes("a decimal in the inner object of a nested type", "0 bytes #1,9,0", '{"type":{"type":^"bytes",%s,"precision":9},"precision":5}' % D)
yes("a decimal beside a union is not looked at", "0 union; 1 bytes", '{"type":["bytes"],%s,"precision":9}' % D)
yes("a decimal beside a field's type is not looked at", "0 record R; 1 field f; 2 bytes", '{"type":"record","name":"R","fields":[{"name":"f","type":"bytes",%s,"precision":9}]}' % D)
yes("a decimal inside a field's type", "0 record R; 1 field f; 2 bytes #1,9,0; 1 field g; 2 fixed G =2 #6", '{"type":"record","name":"R","fields":[{"name":"f","type":{"type":"bytes",%s,"precision":9}},{"name":"g","type":{"type":"fixed","name":"G","size":2,%s,"precision":1,"scale":2}}]}' % (D, D))
yes("a decimal in items and values", "0 array; 1 map; 2 bytes #1,3,1", '{"type":"array","items":{"type":"map","values":{"type":"bytes",%s,"precision":3,"scale":1}}}' % D)
yes("the precision of an outer object does not serve", "0 bytes #2", '{"precision":9,"type":{"type":"bytes",%s}}' % D)
yes("bytes spelt with an escape", "0 bytes #1,5,0", r'{"type":"b\u0079tes",%s,"precision":5}' % D)
no(18, "a decimal's bad size is still refused", '{"type":"fixed","name":"F","size":^-4,%s,"precision":9}' % D)
no(19, "a bad decimal beside bytes", '["bytes",^{"type":"bytes",%s}]' % D)

# ---- positions, white space, other text

yes("white space everywhere", "0 record a.R; 1 alias a.A; 1 field f; 2 field-alias g; 2 array; 3 int; 1 field h; 2 union; 3 null; 3 reference a.R",
    '\n\t{ "type" :\r\n "record" , "name"\t:\t^"R" ,"namespace":  "a", "aliases" : [ ^"A" ] , "fields" : [ { "name" : ^"f" , "aliases" : [ ^"g" ] , "type" : ^{ "type" : "array" , "items" : ^"int" } } ,\n'
    ' { "type" :  ^[  ^"null" , ^"R"  ] , "name" : ^"h" } ] } \r\n')
yes("positions that go down", "0 record R; 1 alias A; 1 field f; 2 field-alias g; 2 int",
    '{"fields":[{"type":^"int","aliases":[^"g"],"name":^"f"}],"aliases":[^"A"],"name":^"R","type":"record"}')
yes("text that is not ASCII in a doc", "0 record R; 1 field f; 2 int", '{"type":"record","doc":"Größe → 大きさ 😀","name":^"R","fields":[{"name":^"f","doc":"é","type":^"int"}]}')
yes("keys that are not ASCII", "0 int", '{"tÿpe":1,"😀":{},"type":^"int"}')
yes("brackets and quotes in strings", "0 record R; 1 field f; 2 int", r'{"doc":"}]{[\"\\","type":"record","name":^"R","x\"y":"\\\"","fields":[{"doc":"\\","name":^"f","type":^"int"}]}')
yes("numbers of all forms in unknown members", "0 int", '{"a":-0,"b":1E+9,"c":0.5e-3,"d":[1,-2.5],"type":^"int"}')
yes("words in unknown members", "0 int", '{"a":true,"b":[false,null,{"type":null}],"type":^"int"}')
no(7, "a position behind text that is not ASCII", '{"type":"record","doc":"é😀","name":"^1","fields":[]}')
no(16, "a position behind escapes", r'{"type":"enum","doc":"\u00e9\"","name":"E","symbols":["A"],"default": ^"\u0042"}')
no(14, "a position behind a long run of white space", '{"type":"enum","name":"E","symbols":["A",' + " " * 500 + '^"A"]}')
no(4, "at the end of a long text", '{"type":"array","doc":"' + "x" * 3000 + '","items":^5}')
no(19, "64 brackets deep", '{"type":"array","items":' * 62 + '["int",^{"type":"int"}]' + "}" * 62)
no(5, "64 brackets deep", '{"type":' * 63 + "^{}" + "}" * 63)
no(27, "64 brackets deep", '{"type":"array","items":' * 63 + '^{"type":"array"}' + "}" * 63)
no(11, "in records 20 deep", '{"type":"record","name":"R","fields":[{"name":"f","type":' * 20 + '{"type":"record","name":"S","fields":[{"name":"a","type":"int"},{"name":^"a","type":"int"}]}' + "}]}" * 20)
yes("records 21 deep", "43/42", '{"type":"record","name":"R","fields":[{"name":"f","type":' * 21 + '[]' + "}]}" * 21)
yes("maps and unions in turn, 64 brackets", "64/0", '{"type":"map","values":[' * 31 + '{"type":"array","items":[]}' + "]}" * 31)

# ---- over the limits of the set: accepted here, by the counts alone


def symbols(n):
    """n symbols: 2 bytes each for the first ten, 3 for the next ninety, 4 for the next nine hundred, then 5."""
    return ",".join('"A%d"' % i for i in range(n))


def wide(n):
    """n symbols of 255 bytes."""
    return ",".join('"~252~%03d"' % i for i in range(n))


yes("1,024 rows", "1024/4007", '{"type":"enum","name":"EE","symbols":[' + symbols(1023) + "]}")
yes("1,025 rows", "1025/4011", '{"type":"enum","name":"E","symbols":[' + symbols(1024) + "]}")
yes("700 fields", "1401/3391", '{"type":"record","name":"R","fields":[' + ",".join('{"name":"f%d","type":"R"}' % i for i in range(700)) + "]}")
yes("16,384 string bytes", "65/16384", '{"type":"enum","name":"~64~","symbols":[' + wide(64) + "]}")
yes("16,385 string bytes", "65/16385", '{"type":"enum","name":"~65~","symbols":[' + wide(64) + "]}")
LONGEST = '{"type":"enum","name":"E","symbols":[' + symbols(4200) + "]}"
yes("4,201 rows in 32,768 bytes", "4201/19891", LONGEST + " " * (32768 - len(LONGEST)))
no(14, "the last of 1,200 symbols", '{"type":"enum","name":"E","symbols":[' + symbols(1200) + ',^"A0"]}')
no(11, "the last of 500 fields", '{"type":"record","name":"R","fields":[' + ",".join('{"name":"f%d","type":"R"}' % i for i in range(500)) + ',{"name":^"f250","type":"R"}]}')

# ---- two faults in one text: every pair of the places where a fault may be, in 01's order
#
# A place is (number, where, members changed). The members of a text are written in 01's order and then in the reverse order:
# the place of a fault in the text does not matter. In a member's text ^ marks its fault; where is `object` for a fault that
# stands at the object.

N256 = '"' + "n" * 256 + '"'
NAMES = [(6, "object", {"name": None}), (6, "object", {"name": "5"}), (7, "", {"name": '"^1"'}), (7, "", {"namespace": '"a.^"'}),
         (8, "", {"name": '^"int"'}), (9, "", {"name": "^" + N256})]
ALIASES = [(7, "", {"aliases": '["A","b^ c"]'}), (8, "", {"aliases": '["A",^"x.enum"]'}), (9, "", {"aliases": '[^' + N256 + ',"1"]'})]
FIELD = [(6, '^{"type":"int"}'), (7, '{"name":"^1","type":"int"}'), (9, '{"name":^' + N256 + ',"type":"int"}'), (7, '{"name":"f","aliases":["g","a^.b"],"type":"int"}'),
         (9, '{"name":"f","aliases":[^' + N256 + '],"type":"int"}'), (5, '^{"name":"f","aliases":["g"]}'), (4, '{"name":"f","type":^5}'), (5, '{"name":"f","type":^{}}'),
         (19, '{"name":"f","type":["int",^"int"]}'), (27, '{"name":"f","type":^{"type":"array"}}'), (17, '{"name":"f","type":^{"type":"fixed"}}'),
         (11, '{"name":"f","type":"int"},{"name":^"f","type":"int"}')]
PLACES = {
    "record": [({"type": '"record"', "name": '"R"', "namespace": '"s"', "aliases": '["Q"]', "fields": '[{"name":"f","type":"int"}]'}),
               NAMES + ALIASES + [(10, "object", {"fields": None}), (10, "object", {"fields": "{}"})] + [(n, "", {"fields": "[" + f + "]"}) for n, f in FIELD]],
    "enum": [({"type": '"enum"', "name": '"E"', "namespace": '"s"', "aliases": '["Q"]', "symbols": '["A"]', "default": '"A"'}),
             NAMES + ALIASES + [(12, "object", {"symbols": None}), (13, "", {"symbols": '["A",^5]'}), (7, "", {"symbols": '["A","^-"]'}), (9, "", {"symbols": '["A",^' + N256 + "]"}),
                                (14, "", {"symbols": '["A",^"A"]'}), (15, "", {"default": "^5"}), (16, "", {"default": '^"B"'})]],
    "fixed": [({"type": '"fixed"', "size": "4", "name": '"F"', "namespace": '"s"', "aliases": '["Q"]'}),
              [(17, "object", {"size": None}), (18, "", {"size": "^-4"})] + NAMES + ALIASES],
}


def written(members, back):
    keys = [k for k in members if members[k] is not None]
    return "{" + ",".join('"%s":%s' % (k, members[k]) for k in (reversed(keys) if back else keys)) + "}"


def pairs():
    count = 0
    for kind, (good, places) in PLACES.items():
        for i, (n, where, first) in enumerate(places):
            for m, _, second in places[i + 1:]:
                if set(first) & set(second):
                    continue
                members = dict(good)
                members.update({k: v and v.replace("^", "") for k, v in second.items()})
                members.update(first)
                text = written(members, count % 2)
                no(n, "before %d in a%s %s, pair %d" % (m, "n" if kind == "enum" else "", kind, count), ("^" if where == "object" else "") + text)
                count += 1
    # a fault in one field, and one in the next
    for i, (n, f) in enumerate(FIELD):
        m, g = FIELD[(i * 5 + 1) % len(FIELD)]
        g = g.replace("^", "").replace('"f"', '"h"')
        if n == 11:
            continue
        no(n, "in a field before %d in the next, pair %d" % (m, count), '{"fields":[%s,%s],"name":"R","type":"record"}' % (f, g))
        count += 1
    # 11 of a record comes once all of its fields have passed
    for n, f in FIELD:
        if n != 11:
            no(n, "in the last field before 11, pair %d" % count, '{"type":"record","name":"R","fields":[{"name":"x","type":"int"},{"name":"x","type":"int"},%s]}' % f)
            count += 1


pairs()

# ---- texts by a generator: the rows, or the one fault, are known by construction


class Mark:
    pass


class Maker:
    """Writes a schema of random form with its rows. A text is a tree of strings and marks, so that positions come out once it
    is laid flat. With a site number, the fault of that site is put in, and `fault` tells what must be found. With `fit` there
    are many decimals over fixed, around their limits, with `defaults` many fields have one; what is drawn for them comes from a
    source of its own. `held` has for the mark of such a field's name the mark and the text of its default."""

    def __init__(self, seed, site=None, fit=False, defaults=False):
        self.rng, self.site, self.sites, self.fault, self.serial = random.Random(seed), site, 0, None, 0
        self.defaults, self.held = random.Random("defaults %d" % seed) if defaults else None, {}
        self.fit, self.notes = random.Random("fit %d" % seed) if fit else None, []
        self.room = self.rng.randint(6, 22)

    def here(self, number, mark):
        """Is this the place of the fault?"""
        self.sites += 1
        if self.sites - 1 == self.site:
            self.fault = (number, mark)
            return True
        return False

    def fresh(self):
        self.serial += 1
        return self.rng.choice(("x", "Y", "_z", "Name", "a1")) + str(self.serial)

    def spaced(self):
        return self.rng.choice(("", "", "", " ", "\n  ", "\t", "\r\n"))

    def quoted(self, s):
        out = "".join("\\u%04x" % ord(c) if self.rng.random() < 0.03 else c for c in s)
        return '"' + out + '"'

    def broken(self, s, mark):
        """A string in quotes, with the mark of its 7 where ^ stands; at the end it is the closing quote's mark."""
        before, after = s.split("^")
        return [self.quoted(before)[:-1], mark, self.quoted(after)[1:]]

    def members(self, pairs):
        pairs = list(pairs)
        if self.rng.random() < 0.3:
            pairs.append((self.rng.choice(("doc", "x", "é")), self.rng.choice(('"1 \\" }"', "[{}]", "-2.5e3", "null"))))
        self.rng.shuffle(pairs)
        out = ["{", self.spaced()]
        for i, (k, v) in enumerate(pairs):
            out += [",", self.spaced()] if i else []
            out += [self.quoted(k), self.spaced(), ":", self.spaced(), v, self.spaced()]
        return out + ["}"]

    def listed(self, items):
        out = ["[", self.spaced()]
        for i, v in enumerate(items):
            out += [",", self.spaced()] if i else []
            out += [v, self.spaced()]
        return out + ["]"]

    def schema(self, space, depth, taken=None):
        """The text and rows; taken holds what a union has already."""
        m = Mark()
        if self.here(4, m):
            return [m, self.rng.choice(("5", "null", "true", "-1e5"))], []
        if self.here(5, m):
            return [m, "{", self.spaced(), "}"], []
        self.room -= 1
        kinds = ["primitive", "reference", "record", "enum", "fixed", "array", "map", "union"]
        weights = [4, 2, 3, 2, 9 if self.fit else 2, 2, 2, 2]
        if self.room <= 0 or depth > 14:
            weights = [4, 2, 0, 0, 0, 0, 0, 0]
        if taken is not None:
            weights[7] = 0
            if "array" in taken:
                weights[5] = 0
            if "map" in taken:
                weights[6] = 0
        kind = self.rng.choices(kinds, weights)[0]
        text, rows = getattr(self, kind)(space, depth, taken)
        if self.rng.random() < 0.12:
            text = self.members([("type", text if not self.is_string(text) else self.members([("type", text)]))])
        return text, rows

    @staticmethod
    def is_string(text):
        return isinstance(text, list) and len(text) == 2 and isinstance(text[0], Mark)

    def primitive(self, space, depth, taken):
        m = Mark()
        left = [p for p in ("null", "boolean", "int", "long", "float", "double", "bytes", "string") if taken is None or p not in taken]
        if not left:
            return self.reference(space, depth, taken)
        p = self.rng.choice(left)
        if taken is not None:
            taken.add(p)
        if p == "bytes" and self.rng.random() < 0.7:
            extra, note = self.decimal()
            return self.members([("type", [m, self.quoted(p)])] + extra), [("bytes", depth, m, "", 0) + note]
        return [m, self.quoted(p)], [(p, depth, m, "", 0, 0, 0, 0)]

    def decimal(self):
        note = self.rng.randint(1, 6)
        p, s = self.rng.randint(1, 40), 0
        given = {"precision": str(p)}
        if note == 1 and self.rng.random() < 0.6:
            s = self.rng.randint(0, p)
            given["scale"] = str(s)
        if note == 2:
            del given["precision"]
        if note == 3:
            given["precision"] = self.rng.choice(('"5"', "-5", "5.0", "null", "36893488147419103232"))
        if note == 4:
            given["scale"] = self.rng.choice(('"5"', "-5", "5.0", "null", "36893488147419103232"))
        if note == 5:
            given = {"precision": "0", "scale": self.rng.choice("05")}
        if note == 6:
            given["scale"] = str(p + 1)
        return [("logicalType", '"decimal"')] + list(given.items()), (note, p if note == 1 else 0, s if note == 1 else 0)

    def around(self, extra, note):
        """A size, and at most times a decimal whose precision is at its limit, or a little or much above or below."""
        r = self.fit.random
        size = self.fit.choice((0, 17, 18, 256, 2 ** 32 + 1, 2 ** 61 + 1, 2 ** 64 - 1)) if r() < 0.25 else self.fit.randint(1, 16)
        if r() < 0.35:
            return size, extra, note
        p = self.fit.choice((0, 0, 0, 0, -1, -1, -2, 1, 1, 1, 2, 256, 2 ** 32)) + most(size)
        p, s = max(p, 1), 0
        given = [("logicalType", '"decimal"'), ("precision", str(p))]
        if r() < 0.5:
            s = self.fit.choice((0, 1, p))
            given.append(("scale", str(s)))
        return size, given, (1, p, s)

    def reference(self, space, depth, taken):
        m, b, s = Mark(), Mark(), self.fresh()
        how = self.rng.randrange(4)
        if how == 0:
            written, full = "." + s, s
        elif how == 1:
            written = full = "q." + s
        else:
            written, full = s, (space + "." + s if space else s)
        if self.here(7, b):
            return [m, self.broken(self.rng.choice(("^1", "a^ b", "a.^", "^", "^é")), b)], []
        return [m, self.quoted(written)], [("reference", depth, m, full, 0, 0, 0, 0)]

    def named(self, space, depth, kind, obj, size=0, note=(0, 0, 0)):
        """Members name, namespace and aliases; the rows; the own namespace."""
        m, b, s, out = Mark(), Mark(), self.fresh(), []
        how = self.rng.randrange(6)
        if how == 0:
            written, full = "." + s, s
        elif how == 1:
            written = full = self.rng.choice(("a", "b.c", "a.b.c")) + "." + s
        elif how == 2:
            written = full = s
            out.append(("namespace", '""'))
        elif how == 3:
            ns = self.rng.choice(("a", "b.c", "long.int"))
            written, full, n = s, ns + "." + s, Mark()
            out.append(("namespace", ['"', n, '1x"'] if self.here(7, n) else self.quoted(ns)))
        else:
            written, full = s, (space + "." + s if space else s)
        name = [m, self.quoted(written)]
        if self.here(6, obj):
            name = self.rng.choice(("5", "null", '["x"]'))
        elif self.here(7, b):
            before, after = self.rng.choice(('"^"', '"a^-b"', '".a^.b"', '"a.^.b"')).split("^")
            name = [m, before, b, after]
        elif self.here(8, m):
            name = [m, self.rng.choice(('"int"', '"a.record"', '".null"'))]
        elif self.here(9, m):
            name = [m, '"' + "n" * 256 + '"']
        out.append(("name", name))
        own = full.rpartition(".")[0]
        rows = [(kind, depth, m, full, size) + note]
        if self.rng.random() < 0.4:
            items = []
            for _ in range(self.rng.randint(0, 3)):
                a, b, s = Mark(), Mark(), self.fresh()
                w, f = self.rng.choice(((s, own + "." + s if own else s), ("." + s, s), ("k.l." + s, "k.l." + s)))
                if self.here(7, b):
                    items.append(self.broken("^-", b))
                else:
                    items.append([a, self.quoted("z.string" if self.here(8, a) else w)])
                rows.append(("alias", depth + 1, a, f, 0, 0, 0, 0))
            out.append(("aliases", self.listed(items)))
        return out, rows, own

    def record(self, space, depth, taken):
        obj = Mark()
        out, rows, own = self.named(space, depth, "record", obj)
        fields, names = [], []
        for _ in range(self.rng.randint(0, 4)):
            if self.rng.random() < 0.1:
                fields.append(self.rng.choice(("5", '"f"', "[]", "null")))
            f, m, b, s = Mark(), Mark(), Mark(), self.fresh()
            name = [m, self.quoted(s)]
            if names and self.here(11, m):
                name = [m, self.quoted(self.rng.choice(names))]
            elif self.here(6, f):
                name = "null"
            elif self.here(7, b):
                name = ['"a', b, '.b"']
            pairs = [("name", name)]
            rows.append(("field", depth + 1, m, s, 0, 0, 0, 0))
            also = []
            if self.rng.random() < 0.3:
                for _ in range(self.rng.randint(0, 2)):
                    a, t = Mark(), self.rng.choice(names + [self.fresh()])
                    also.append((t, ['"', a, '.x"'] if self.here(7, a) else [a, self.quoted(t)]))
                    rows.append(("field-alias", depth + 2, a, t, 0, 0, 0, 0))
                pairs.append(("aliases", self.listed([x for _, x in also])))
            names += [s] + [t for t, _ in also]
            if self.defaults and self.defaults.random() < 0.7:
                d, v = Mark(), self.default()
                if self.here(48, d):
                    v = self.defaults.choice(('"%s"' % ("x" * 254), "[%s]" % (" " * 300), "1" * 256))
                self.held[m] = d, v
                pairs.append(("default", [d, v]))
            text, more = self.schema(own, depth + 2)
            if not self.here(5, f):
                pairs.append(("type", text))
            rows += more
            fields.append([f] + self.members(pairs))
        out += [("type", '"record"')]
        if not self.here(10, obj):
            out.append(("fields", self.listed(fields)))
        return [obj] + self.members(out), rows

    def default(self):
        """Any value of at most 255 bytes: whether it fits is not asked."""
        r = self.defaults
        return r.choice(("null", "true", "-0", "1.5e3", '""', r'"\u00e9 \" } ]"', '"é😀"', "[]", "[ ]", "{}", '{"type": "int", "default": [1, {"name":"x"}]}', "[[[ ]],\n{ }]", "7" * r.randint(1, 255), '"%s"' % ("y" * r.choice((3, 252, 253))),
                         '[%s]' % (" " * r.choice((7, 253)))))

    def enum(self, space, depth, taken):
        obj = Mark()
        out, rows, _ = self.named(space, depth, "enum", obj)
        items, names = [], []
        for _ in range(self.rng.randint(1, 5)):
            m, b, s = Mark(), Mark(), self.fresh()
            v = [m, self.quoted(s)]
            if self.here(13, m):
                v = [m, "7"]
            elif self.here(7, b):
                v = ['"b', b, '.c"']
            elif names and self.here(14, m):
                v = [m, self.quoted(self.rng.choice(names))]
            items.append(v)
            names.append(s)
            rows.append(("symbol", depth + 1, m, s, 0, 0, 0, 0))
        out.append(("type", '"enum"'))
        if not self.here(12, obj):
            out.append(("symbols", self.listed(items)))
        d = Mark()
        if self.here(15, d):
            out.append(("default", [d, "{}"]))
        elif self.here(16, d):
            out.append(("default", [d, '"none"']))
        elif self.rng.random() < 0.5 and not (self.fault and self.fault[0] in (7, 13, 14)):
            out.append(("default", self.quoted(self.rng.choice(names))))
        return [obj] + self.members(out), rows

    def fixed(self, space, depth, taken):
        obj, v = Mark(), Mark()
        size = self.rng.choice((0, 1, 16, 2 ** 32, 2 ** 64 - 1, self.rng.randrange(2 ** 64)))
        extra, note = self.decimal() if self.rng.random() < 0.4 else ([], (0, 0, 0))
        if self.fit:
            size, extra, note = self.around(extra, note)
        if note[0] == 1 and note[1] > most(size):
            note = (7, 0, 0)
        self.notes.append(note[0])
        given = [("size", [v, self.rng.choice(('"16"', "-1", "16.0", str(2 ** 64))) if self.here(18, v) else str(size)])]
        if self.here(17, obj):
            given = []
        out, rows, _ = self.named(space, depth, "fixed", obj, size, note)
        return [obj] + self.members([("type", '"fixed"')] + extra + given + out), rows

    def array(self, space, depth, taken):
        return self.holder(space, depth, taken, "array", "items", 27)

    def map(self, space, depth, taken):
        return self.holder(space, depth, taken, "map", "values", 28)

    def holder(self, space, depth, taken, kind, key, number):
        if taken is not None:
            taken.add(kind)
        obj = Mark()
        text, more = self.schema(space, depth + 1)
        out = [("type", '"%s"' % kind)] + ([] if self.here(number, obj) else [(key, text)])
        return [obj] + self.members(out), [(kind, depth, obj, "", 0, 0, 0, 0)] + more

    def union(self, space, depth, taken):
        m, own, items = Mark(), set(), []
        rows = [("union", depth, m, "", 0, 0, 0, 0)]
        for _ in range(self.rng.randint(0, 4)):
            text, more = self.schema(space, depth + 1, own)
            items.append(text)
            rows += more
        later = Mark()
        if self.here(19, later):
            again = sorted(own - {"array", "map"})
            items.append([later, "[]" if not again else '"%s"' % again[0]])
        return [m] + self.listed(items), rows


def flat(tree, out, places):
    if isinstance(tree, Mark):
        places[tree] = len(out)
    elif isinstance(tree, str):
        out += tree.encode("utf-8")
    else:
        for t in tree:
            flat(t, out, places)


def made(seed, site=None, fit=False, defaults=False):
    maker = Maker(seed, site, fit, defaults)
    text, rows = maker.schema("", 0)
    out, places = bytearray(), {}
    out += b" \n"[:seed % 3]
    flat(text, out, places)
    return maker, bytes(out), rows, places


def row_lines(rows, places, held=None):
    """held has for the mark of a field's name its default: mark and text."""
    out = []
    for k, d, m, s, size, note, p, sc in rows:
        at, default = (held or {}).get(m, (None, ""))
        out.append("row %s %d %d %d %d %d %d %s %d %s" % (k, d, places[m], size, note, p, sc, s.encode().hex() or "-", places[at] if at else 0, default.encode().hex() or "-"))
    return out


def generated():
    seen = {c.text for c in CASES}
    good = seed = 0
    while good < 70:
        seed += 1
        maker, text, rows, places = made(seed)
        if len(text) < 40 or len(text) > 2500 or text in seen:
            continue
        seen.add(text)
        CASES.append(Case("ok generated %d" % seed, text, 0, None, row_lines(rows, places), None))
        good += 1
    rng = random.Random(1912)
    wanted = collections.Counter({n: 8 for n in list(range(4, 20)) + [27, 28]})
    while sum(wanted.values()):
        seed += 1
        sites = made(seed)[0].sites
        tries = list(range(sites))
        rng.shuffle(tries)
        for site in tries[:3]:
            maker, text, _, places = made(seed, site)
            if maker.fault is None or wanted[maker.fault[0]] == 0 or len(text) > 1800 or text in seen:
                continue
            if maker.fault[1] not in places:
                continue
            seen.add(text)
            wanted[maker.fault[0]] -= 1
            CASES.append(Case("%d generated %d at %d" % (maker.fault[0], seed, site), text, maker.fault[0], places[maker.fault[1]], None, None))


generated()

# ---- names that nearly agree
#
# For 11, 14, 16 and 19: names that are equal, or differ in one byte or in their length alone. Whether two are equal is asked of
# Python's strings, once Python's json has undone the escapes. In the texts of this section ^ marks the rows' positions and @ the
# one of the refusal, if it is refused. They stand in a list of their own: sequences.py picks texts of CASES by their number there.

NEAR = []


def undone(spelling):
    return json.loads('"%s"' % spelling)


def near(number, label, refused, rows, text):
    if refused:
        no(number, "near: " + label, text.replace("^", "").replace("@", "^"))
    else:
        yes("%d near: %s" % (number, label), rows, text.replace("@", ""))
    NEAR.append(CASES.pop())


def parts(texts, fault):
    """The texts between commas, @ before the one at fault."""
    return ",".join(("@" if i == fault else "") + t for i, t in enumerate(texts))


def again(names):
    """The number of the first name that an earlier one is equal to."""
    return next((i for i, n in enumerate(names) if n in names[:i]), None)


def near_11(label, *fields):
    """A field is its name, or its name and its aliases."""
    fields = [[f] if isinstance(f, str) else f for f in fields]
    taken, fault, rows, texts = [], None, "0 record R", []
    for i, (name, *others) in enumerate(fields):
        if undone(name) in taken and fault is None:
            fault = i
        taken += [undone(n) for n in [name] + others]
        rows += "; 1 field %s; %s2 union" % (undone(name), "".join("2 field-alias %s; " % undone(a) for a in others))
        texts.append('{"name":%s^"%s"%s,"type":^[]}' % ("@" if i == fault else "", name, ',"aliases":[%s]' % ",".join('^"%s"' % a for a in others) if others else ""))
    near(11, label, fault is not None, rows, '{"type":"record","name":^"R","fields":[%s]}' % ",".join(texts))


def near_14(label, *symbols):
    fault = again([undone(s) for s in symbols])
    near(14, label, fault is not None, "0 enum E" + "".join("; 1 symbol " + undone(s) for s in symbols),
         '{"type":"enum","name":^"E","symbols":[%s]}' % parts(['^"%s"' % s for s in symbols], fault))


def near_16(label, default, *symbols):
    near(16, label, undone(default) not in [undone(s) for s in symbols], "0 enum E" + "".join("; 1 symbol " + undone(s) for s in symbols),
         '{"type":"enum","name":^"E","symbols":[%s],"default":@"%s"}' % (",".join('^"%s"' % s for s in symbols), default))


def near_19(label, *members, space=""):
    """A member is its full name, its row and its text. With a space the union stands in a record of that namespace."""
    fault, depth = again([m[0] for m in members]), 3 if space else 1
    rows = "".join("; %d %s" % (depth, m[1] % m[0]) for m in members)
    text = "^[%s]" % parts([m[2] for m in members], fault)
    if space:
        near(19, label, fault is not None, "0 record %s.R; 1 field f; 2 union" % space + rows, '{"type":"record","name":^"%s.R","fields":[{"name":^"f","type":%s}]}' % (space, text))
    else:
        near(19, label, fault is not None, "0 union" + rows, text)


def named(spelling, full=None):
    """A reference; its full name is the name itself where no other is given."""
    return full or undone(spelling), "reference %s", '^"%s"' % spelling


def defined(spelling, full=None, space=None):
    """A fixed, with a namespace of its own where one is given."""
    return full or undone(spelling), "fixed %s =0", '{"type":"fixed","name":^"%s",%s"size":0}' % (spelling, "" if space is None else '"namespace":"%s",' % space)


def spelt(name, how, capital):
    """The name with an escape for its first character, its last, or all; the hexadecimal digits small or capital."""
    at = {"plain": (), "first": (0,), "last": (len(name) - 1,), "all": range(len(name))}[how]
    return "".join(("\\u%04X" if capital else "\\u%04x") % ord(c) if i in at else c for i, c in enumerate(name))


# J is 4A, o 6F, k 6B, Z 5A, K 4B: the digits of an escape may be small or capital
BASE = "JokZ"
PAIRS = [("equal", BASE, BASE), ("a prefix first", "Jok", BASE), ("a prefix behind", BASE, "Jok"), ("a suffix first", "okZ", BASE), ("a suffix behind", BASE, "okZ"),
         ("the first byte", BASE, "KokZ"), ("the last byte", BASE, "JokJ"), ("the last but one", BASE, "JoKZ"), ("a middle byte", BASE, "JpkZ")]
SPELLINGS = [(a, b) for how in ("first", "last", "all") for a, b in ((how, "plain"), ("plain", how), (how, how))]


def two_references(label, *names):
    near_19(label, *[named(n) for n in names])


def field_and_alias(label, x, y):
    near_11(label, ("f", x), y)


def short_pairs():
    """Each pair plain, by each of the rules; the equal one in all spellings, by each; every other spelling by one of 14, 16 and 19."""
    rules = (near_14, near_16, near_11, two_references)
    for p, (label, x, y) in enumerate(PAIRS):
        for rule in rules:
            rule(label, x, y)
        for s, (a, b) in enumerate(SPELLINGS):
            for rule in rules if x == y else ((near_14, near_16, two_references, two_references)[(p + s) % 4],):
                rule("%s, escapes: %s and %s" % (label, a, b), spelt(x, a, False), spelt(y, b, True))
    for rule in rules:
        rule("one byte, equal", "J", "J")
        rule("one byte, another", "J", "K")
    for rule in (near_14, near_16, two_references):
        rule("equal, escapes: first and last", spelt(BASE, "first", True), spelt(BASE, "last", False))
        rule("one byte, equal, escapes in both", r"\u004A", r"\u004a")
        rule("one byte, another, escapes in both", r"\u004a", r"\u004B")
        rule("turned round", BASE, BASE[::-1])
    near_11("the first byte, escapes: first and first", r"\u004aokZ", r"\u004BokZ")
    near_11("the last byte, escapes: plain and last", "JokZ", r"Jok\u004A")
    near_11("five, escapes in two", "okZ", "Jok", r"Jok\u005A", "JpkZ", r"\u004aokZK")
    for p in (0, 1, 4, 5, 6):
        label, x, y = PAIRS[p]
        field_and_alias("an alias, " + label, x, y)
    for a, b in (("first", "plain"), ("all", "all")):
        field_and_alias("an alias, equal, escapes: %s and %s" % (a, b), spelt(BASE, a, True), spelt(BASE, b, False))


short_pairs()

# a default that is no name, beside symbols of its length that have its other bytes, or the letters of its escape
for spelling, letters in ((r"\"", "x"), (r"\\", "x"), (r"\n", "n"), (r"\u0000", "u0000"), (r"\u00e9", "u00e9"), ("é", "e"), (r"\u014A", "J"), (r"\u20AC", "u20AC"), (r"\uD83D\uDE00", "uD83DuDE00"),
                          ("😀", "D83D")):
    width = len(undone(spelling).encode("utf-8"))
    near_16("no name, in the middle: " + ascii(spelling), "J%sZ" % spelling, "J%sZ" % ("y" * width), "J%sZ" % letters, "JZ")
for spelling in (r"\"", r"\\", r"\u00E9", r"\ud83d\ude00"):
    width = len(undone(spelling).encode("utf-8"))
    near_16("no name, at the end: " + spelling, "ok" + spelling, "ok" + "x" * width, "ok")
    near_16("no name, at the beginning: " + spelling, spelling + "ok", "x" * width + "ok", "ok")
near_16("an escape undone once only", r"\\u004A", "J", "u004A")
near_16("a null character behind", r"J\u0000", "J")
near_16("257 bytes beside one", "J" * 257, "J")
near_16("the second of three", "JokZ", "KokZ", r"Jok\u005A", "Jok")
near_16("none of five", "JokZ", "KokZ", "JokY", "Jok", "okZ", "JokZJ")

# members that are definitions
for label, x, y in PAIRS:
    if label in ("equal", "a prefix first", "the first byte", "the last byte"):
        near_19("two definitions, " + label, defined(x), defined(y))
    if label in ("equal", "a suffix behind", "the first byte", "the last byte"):
        near_19("a reference and a definition, " + label, named(x), defined(y))
        near_19("a definition and a reference, " + label, defined(x), named(y))
near_19("two definitions, equal, escapes", defined(spelt(BASE, "all", False)), defined(spelt(BASE, "last", True)))
near_19("a reference and a definition, equal, escapes", named(spelt(BASE, "first", True)), defined(BASE))
near_19("a definition and a reference, the last byte, escapes", defined(spelt(BASE, "last", True)), named(spelt("JokJ", "last", True)))

# full names; beside a spelling stands what its namespace makes of it
near_19("a namespace makes them equal", named("JokZ", "n.JokZ"), named("n.JokZ"), space="n")
near_19("a namespace of another first byte", named("JokZ", "n.JokZ"), named("m.JokZ"), space="n")
near_19("a namespace and none, a suffix", named("JokZ", "n.JokZ"), named(".JokZ", "JokZ"), space="n")
near_19("a namespace makes the last of three equal", named("KokZ", "n.KokZ"), named(".JokZ", "JokZ"), defined("JokZ", "n.JokZ"), named(r"n\u002eJokZ"), space="n")
near_19("the empty namespace and a leading dot", defined("JokZ", "JokZ", ""), named(r"\u002EJokZ", "JokZ"), space="n")
near_19("a dot in another place", named("a.bc"), named("ab.c"))
near_19("a dot in another place by a namespace", defined("c", "ab.c", "ab"), named("a.bc"))
near_19("a dot in another place by two namespaces", defined("c", "ab.c", "ab"), defined("bc", "a.bc", "a"))
near_19("a dot and an underscore", named("a.bc"), named("a_bc"))
near_19("a namespace with two parts", defined("c", "a.b.c", "a.b"), named("a.b.c"))
near_19("a namespace with two parts, an escaped dot", defined("c", "a.b.c", r"a\u002Eb"), named(r"\u0061.b.c"))
near_19("a namespace with two parts, the last two parts", defined("c", "a.b.c", "a.b"), named("b.c"))
near_19("one last part in namespaces that differ in the last byte", defined("JokZ", "n.m.JokZ", "n.m"), defined("JokZ", "n.n.JokZ", "n.n"))


def long_name(length):
    return ("abcdefghijklmnopqrstuvwxyz_ABCDEFGHIJKLMNOPQRSTUVWXYZ0123456789" * 5)[:length]


def long_pairs():
    """A long name, one that shares its beginning or its end, and the first again."""
    for length in (200, 255):
        name, how = long_name(length), "plain" if length == 200 else "first"
        beginning, end = name[:-1] + "Q", "Q" + name[1:]
        near_11("%d bytes" % length, name, end if length == 200 else beginning, spelt(name, how, True))
        near_14("%d bytes" % length, name, beginning if length == 200 else end, spelt(name, how, False))
        two_references("%d bytes" % length, name, end if length == 200 else beginning, name)
        near_16("%d bytes" % length, name, beginning, spelt(name, how, True) if length == 200 else end)
    deep = long_name(30) + "." + long_name(30)
    near_19("long namespaces", named(deep + ".Jok"), defined("Jok", "Q" + deep[1:] + ".Jok", "Q" + deep[1:]), named(deep + ".JoZ"), defined("Jok", deep + ".Jok", deep))


long_pairs()


def many_names():
    """Names that share a beginning of 60 bytes; one pair is equal."""
    names = [long_name(60) + c for c in "JKabcdefghijklmnopqrstuvwxyz_012345"]
    near_14("many names, the first and the last", *names, names[0])
    near_14("many names, two neighbours", *names[:20], spelt(names[19], "last", True), *names[20:])
    near_11("many names, the first and the last", *names, spelt(names[0], "first", False))
    near_11("many names, an alias and its neighbour", names[:10], names[10:20], names[20:30], names[29:])


many_names()


# ---- decimals that fit: request A10 of 02
#
# They stand in a list of their own, behind all the others: sequences.py picks texts of CASES by their number there.

FIT = []
HIGH = 2 ** 64 - 1


def kept():
    FIT.append(CASES.pop())


def fit(label, rows, text):
    yes("fit: " + label, rows, text)
    kept()


def unfit(number, label, text):
    no(number, "fit: " + label, text)
    kept()


def fixed_decimal(size, precision, scale=None, name="F"):
    """The text of a decimal over fixed; None leaves a member out."""
    given = (("precision", precision), ("scale", scale))
    return '{"type":"fixed","name":^"%s","size":%s,%s%s}' % (name, size, D, "".join(',"%s":%s' % (k, v) for k, v in given if v is not None))


def over_fixed(label, size, precision, scale, note, name="D"):
    """A text of size, precision and scale, and its note as it was worked out by hand."""
    row = "0 fixed %s =%d #%s" % (name, size, "1,%d,%d" % (precision, scale or 0) if note == 1 else note)
    fit("size %d, %s" % (size, label), row, fixed_decimal(size, precision, scale, name))


# the examples of the request's design
for size, precision, scale, note in ((0, 1, 0, 7), (1, 2, 0, 1), (1, 3, 0, 7), (1, 3, 4, 6), (1, 3, 3, 7), (1, 0, 0, 5), (4, 9, 9, 1), (4, 10, 0, 7), (16, 38, None, 1), (16, 39, None, 7),
                                     (17, 38, None, 1), (17, 39, None, 7), (HIGH, 38, None, 1)):
    over_fixed("an example, precision %d, scale %s" % (precision, scale), size, precision, scale, note, "Example")
fit("an example, bytes", "0 bytes #1,1000,0", '{"type":^"bytes",%s,"precision":1000}' % D)

# every size from 0 to 18, and the highest
for size in list(range(19)) + [HIGH]:
    m = most(size)
    if m:
        over_fixed("at the limit", size, m, None, 1)
        over_fixed("at the limit, as much scale", size, m, m, 1)
    over_fixed("one above", size, m + 1, None, 7)
    over_fixed("one above, as much scale", size, m + 1, m + 1, 7)
    over_fixed("one above, scale above it", size, m + 1, m + 2, 6)
    over_fixed("precision 0", size, 0, None, 5)
    over_fixed("precision 0, scale above it", size, 0, m + 1, 5)
    over_fixed("the highest precision", size, HIGH, None, 7)
    over_fixed("2^32 above the limit", size, 2 ** 32 + m, None, 7)
for size in (1, 8, 16, 17):
    m = most(size)
    over_fixed("one below the limit, scale 1", size, m - 1, 1, 1)
    over_fixed("at the limit, scale above it", size, m, m + 1, 6)
    over_fixed("one above, scale 0", size, m + 1, 0, 7)
    over_fixed("ten above, scale 3", size, m + 10, 3, 7)
    for more in (256, 65536, 2 ** 63):
        over_fixed("%d above the limit" % more, size, more + m, None, 7)
    over_fixed("the highest precision and scale", size, HIGH, HIGH, 7)
    over_fixed("the highest scale", size, HIGH - 1, HIGH, 6)

# sizes above 18: 38 fits and 39 does not, whatever the size's low bytes, or eight times the size, are
for size in (19, 31, 32, 33, 64, 128, 255, 256, 257, 260, 65536, 65537, 2 ** 24 + 2, 2 ** 31, 2 ** 32 - 1, 2 ** 32, 2 ** 32 + 1, 2 ** 32 + 16, 2 ** 61, 2 ** 61 + 1, 2 ** 61 + 2, 2 ** 62 + 1, 2 ** 63 - 1, 2 ** 63,
             2 ** 63 + 16, HIGH - 1):
    over_fixed("38 digits", size, 38, None, 1)
    over_fixed("39 digits", size, 39, 38, 7)
for size in (256, 257, 2 ** 32, 2 ** 32 + 1, 2 ** 61 + 1, 2 ** 63):
    over_fixed("3 digits, all of them scale", size, 3, 3, 1)
    over_fixed("39 digits, scale above it", size, 39, 40, 6)

# 2, 3 and 4 come before 7; a number over 2^64 - 1 is no precision
for size in (0, 1, HIGH):
    for label, note, members in (("precision missing", 2, ""), ("precision missing, scale given", 2, ',"scale":5'), ("a precision in quotes", 3, ',"precision":"99"'), ("a precision of 2^64", 3, ',"precision":%d' % 2 ** 64),
                                 ("a precision 99.0", 3, ',"precision":99.0'), ("a precision 1e2, bad scale", 3, ',"precision":1e2,"scale":-1'), ("a bad scale", 4, ',"precision":99,"scale":-1'),
                                 ("a scale of 2^64", 4, ',"precision":99,"scale":%d' % 2 ** 64), ("a scale null", 4, ',"scale":null,"precision":99'), ("a bad scale, precision 0", 4, ',"precision":0,"scale":"0"')):
        fit("size %d, %s" % (size, label), "0 fixed F =%d #%d" % (size, note), '{"type":"fixed","name":"F","size":%d,%s%s}' % (size, D, members))

# the members in any order
IN_ORDER = [("type", '"fixed"'), ("name", '^"F"'), ("size", "%d"), ("logicalType", '"decimal"'), ("precision", "%d"), ("scale", "2")]
for back in (False, True):
    for first in range(6):
        keys = (IN_ORDER[first:] + IN_ORDER[:first])[::-1 if back else 1]
        precision, note = (12, "#7") if (first + back) % 2 else (11, "#1,11,2")
        text = "{" + ",".join('"%s":%s' % (k, v % {"size": 5, "precision": precision}[k] if "%" in v else v) for k, v in keys) + "}"
        fit("from %s on%s" % (IN_ORDER[first][0], ", back" if back else ""), "0 fixed F =5 " + note, text)
fit("size last, precision first, fits", "0 fixed F =2 #1,4,0", '{"precision":4,%s,"type":"fixed","name":^"F","size":2}' % D)
fit("size last, precision first, does not fit", "0 fixed F =2 #7", '{"precision":5,%s,"type":"fixed","name":^"F","size":2}' % D)
fit("size first, type last", "0 fixed F =2 #7", '{"size":2,"name":^"F","scale":1,"precision":5,%s,"type":"fixed"}' % D)

# keys given twice: the last counts
fit("size twice, the last smaller", "0 fixed F =1 #7", '{"type":"fixed","name":"F","size":2,%s,"precision":3,"size":1}' % D)
fit("size twice, the last larger", "0 fixed F =2 #1,3,0", '{"type":"fixed","name":"F","size":1,%s,"precision":3,"size":2}' % D)
fit("size twice, the first no size", "0 fixed F =1 #7", '{"type":"fixed","name":"F","size":"16",%s,"precision":3,"size":1}' % D)
fit("size twice, the last 0", "0 fixed F =0 #7", '{"size":16,"type":"fixed","name":"F","size":0,%s,"precision":1}' % D)
fit("size thrice", "0 fixed F =3 #1,6,6", '{"size":1,"type":"fixed","size":2,"name":"F","size":3,"scale":6,%s,"precision":6}' % D)
fit("precision twice, the last fits", "0 fixed F =1 #1,2,0", '{"type":"fixed","name":"F","size":1,%s,"precision":3,"precision":2}' % D)
fit("precision twice, the last does not fit", "0 fixed F =1 #7", '{"type":"fixed","name":"F","size":1,%s,"precision":2,"precision":3}' % D)
fit("precision twice, the first bad", "0 fixed F =1 #7", '{"type":"fixed","name":"F","size":1,%s,"precision":null,"precision":3}' % D)
fit("precision twice, the last bad", "0 fixed F =1 #3", '{"type":"fixed","name":"F","size":1,%s,"precision":3,"precision":-3}' % D)
fit("scale twice, the last above the precision", "0 fixed F =1 #6", '{"type":"fixed","name":"F","size":1,%s,"precision":3,"scale":3,"scale":4}' % D)
fit("scale twice, the last not above the precision", "0 fixed F =1 #7", '{"type":"fixed","name":"F","size":1,%s,"precision":3,"scale":4,"scale":3}' % D)
fit("logical type twice, the last another", "0 fixed F =1", '{"type":"fixed","name":"F","size":1,%s,"precision":3,"logicalType":"duration"}' % D)
fit("logical type twice, the last decimal", "0 fixed F =1 #7", '{"type":"fixed","name":"F","size":1,"logicalType":"duration","precision":3,%s}' % D)
fit("type twice, the last bytes", "0 bytes #1,99,0", '{"type":"fixed","name":"F","size":1,%s,"precision":99,"type":^"bytes"}' % D)
fit("type twice, the last fixed", "0 fixed F =1 #7", '{"type":"bytes","name":^"F","size":1,%s,"precision":99,"type":"fixed"}' % D)

# escapes
fit("an escape in size", "0 fixed F =1 #7", r'{"type":"fixed","name":^"F","s\u0069ze":1,%s,"precision":3}' % D)
fit("an escape in size, fits", "0 fixed F =1 #1,2,0", r'{"type":"fixed","name":^"F","siz\u0065":1,%s,"precision":2}' % D)
fit("an escape in precision", "0 fixed F =1 #7", r'{"type":"fixed","name":^"F","size":1,%s,"\u0070recision":3}' % D)
fit("an escape in scale", "0 fixed F =1 #6", r'{"type":"fixed","name":^"F","size":1,%s,"precision":3,"sc\u0061le":4}' % D)
fit("an escape in the logical type", "0 fixed F =1 #7", r'{"type":"fixed","name":^"F","size":1,"logicalT\u0079pe":"\u0064ecimal","precision":3}')
fit("an escape in the type", "0 fixed F =1 #7", r'{"type":"f\u0069xed","name":^"F","size":1,%s,"precision":3}' % D)
fit("size twice, the last with an escape", "0 fixed F =1 #7", r'{"type":"fixed","name":^"F","size":16,%s,"precision":3,"\u0073ize":1}' % D)
fit("size twice, the first with an escape", "0 fixed F =16 #1,38,0", r'{"type":"fixed","\u0073ize":1,"name":^"F","size":16,%s,"precision":38}' % D)
fit("precision twice, the last with an escape", "0 fixed F =1 #7", r'{"type":"fixed","name":^"F","size":1,%s,"precision":2,"precisio\u006e":3}' % D)

# bytes have no limit, and their `size` is not looked at
for p in (3, 38, 39, 40, 128, 255, 256, 2 ** 32, 2 ** 63, HIGH):
    fit("bytes, precision %d" % p, "0 bytes #1,%d,0" % p, '{"type":^"bytes",%s,"precision":%d}' % (D, p))
    fit("bytes, precision %d, scale one less" % p, "0 bytes #1,%d,%d" % (p, p - 1), '{"type":^"bytes",%s,"precision":%d,"scale":%d}' % (D, p, p - 1))
for size in ("0", "1", "16", str(HIGH), "-1", '"x"', "null", "1.5", "[]"):
    fit("bytes with a size %s" % size, "0 bytes #1,1000,1", '{"type":^"bytes","size":%s,%s,"precision":1000,"scale":1}' % (size, D))
fit("bytes with a size behind and a name", "0 bytes #1,39,0", '{"name":"F","precision":39,%s,"type":^"bytes","size":1}' % D)
fit("bytes with size 0, precision 1", "0 bytes #1,1,0", '{"type":^"bytes",%s,"precision":1,"size":0}' % D)
fit("bytes with a size, scale above", "0 bytes #6", '{"type":^"bytes",%s,"size":1,"precision":1000,"scale":1001}' % D)
fit("bytes with a size, no precision", "0 bytes #2", '{"type":^"bytes",%s,"size":1}' % D)

# the object whose own type is fixed
fit("a decimal beside a nested fixed", "0 fixed F =1", '{"type":{"type":"fixed","name":^"F","size":1},%s,"precision":3}' % D)
fit("a decimal in a nested fixed, another size outside", "0 fixed F =1 #7", '{"size":16,"type":{"type":"fixed","name":^"F","size":1,%s,"precision":3},"precision":2}' % D)
fit("a decimal in a nested fixed, a smaller size outside", "0 fixed F =16 #1,38,1", '{"type":{"type":"fixed","name":^"F","size":16,%s,"precision":38,"scale":1},"size":1}' % D)
fit("another logical type, however many digits", "0 fixed F =1", '{"type":"fixed","name":^"F","size":1,"logicalType":"Decimal","precision":99}')
fit("no logical type, however many digits", "0 fixed F =1", '{"type":"fixed","name":^"F","size":1,"precision":99,"scale":100}')
fit("a reference with the members of a decimal", "0 reference F", '{"type":^"F","size":1,%s,"precision":99}' % D)
fit("an enum with the members of a decimal", "0 enum F", '{"type":"enum","name":^"F","symbols":[],"size":1,%s,"precision":99}' % D)

# in fields, unions, arrays and maps
fit("a fixed with aliases", "0 fixed a.F =1 #7; 1 alias a.G; 1 alias H", '{"type":"fixed","name":^"F","namespace":"a","aliases":[^"G",^".H"],"size":1,%s,"precision":3}' % D)
fit("in an array", "0 array; 1 fixed F =3 #7", '^{"type":"array","items":%s}' % fixed_decimal(3, 7))
fit("in a map", "0 map; 1 fixed F =3 #1,6,1", '^{"type":"map","values":%s}' % fixed_decimal(3, 6, 1))
fit("in a map of arrays of unions", "0 map; 1 array; 2 union; 3 null; 3 fixed F =8 #7; 3 fixed G =8 #1,18,18; 3 bytes #1,99,0",
    '^{"type":"map","values":^{"type":"array","items":^[^"null",%s,%s,{"type":^"bytes",%s,"precision":99}]}}' % (fixed_decimal(8, 19, 18), fixed_decimal(8, 18, 18, "G"), D))
fit("in a union beside bytes", "0 union; 1 bytes; 1 fixed F =1 #7", '^[^"bytes",%s]' % fixed_decimal(1, 3))
fit("in a union, the same digits at four sizes", "0 union; 1 fixed A =0 #7; 1 fixed B =3 #7; 1 fixed C =4 #1,9,9; 1 fixed D =5 #1,9,9",
    "^[%s]" % ",".join(fixed_decimal(size, 9, 9, name) for size, name in ((0, "A"), (3, "B"), (4, "C"), (5, "D"))))
fit("in a union, a definition that does not fit and a name that is longer", "0 union; 1 fixed F =2 #7; 1 reference FF", '^[%s,^"FF"]' % fixed_decimal(2, 5))
fit("two fields, the second refers to the first's", "0 record R; 1 field a; 2 fixed F =2 #7; 1 field b; 2 reference F",
    '{"type":"record","name":^"R","fields":[{"name":^"a","type":%s},{"name":^"b","type":{"type":^"F",%s,"precision":4}}]}' % (fixed_decimal(2, 5), D))
fit("a field's own members are no decimal's", "0 record R; 1 field f; 2 fixed F =2 #1,4,0", '{"type":"record","name":^"R","fields":[{"name":^"f","size":1,"precision":9,%s,"type":%s}]}' % (D, fixed_decimal(2, 4)))
fit("every size, at the limit", "0 record R" + "".join("; 1 field f%d; 2 fixed F%d =%d #1,%d,0" % (i, i, i, m) for i, m in enumerate(SIXTEEN, 1)),
    '{"type":"record","name":^"R","fields":[%s]}' % ",".join('{"name":^"f%d","type":%s}' % (i, fixed_decimal(i, m, None, "F%d" % i)) for i, m in enumerate(SIXTEEN, 1)))
fit("every size, one above", "0 union" + "".join("; 1 fixed F%d =%d #7" % (i, i) for i, m in enumerate(SIXTEEN, 1)), "^[%s]" % ",".join(fixed_decimal(i, m + 1, m, "F%d" % i) for i, m in enumerate(SIXTEEN, 1)))
fit("twenty digits at every size", "0 union" + "".join("; 1 fixed F%d =%d #%s" % (i, i, "7" if i < 9 else "1,20,0") for i in range(19)), "^[%s]" % ",".join(fixed_decimal(i, 20, None, "F%d" % i) for i in range(19)))
fit("a ledger over lines", "0 record bank.Entry; 1 field amount; 2 fixed bank.Amount =8 #1,18,2; 1 field total; 2 fixed bank.Total =8 #7; 1 field rate; 2 bytes #1,60,40; 1 field fee :null; 2 union; 3 null; 3 reference bank.Amount", """
{
  "type": "record",
  "name": ^"Entry",
  "namespace": "bank",
  "fields": [
    {"name": ^"amount", "type": {"type": "fixed", "name": ^"Amount", "size": 8, "logicalType": "decimal", "precision": 18, "scale": 2}},
    {"name": ^"total", "type": {"type": "fixed", "name": ^"Total", "size": 8, "logicalType": "decimal", "precision": 20, "scale": 2}},
    {"name": ^"rate", "type": {"type": ^"bytes", "logicalType": "decimal", "precision": 60, "scale": 40}},
    {"name": ^"fee", "type": ^[^"null", ^"Amount"], "default": ^null}
  ]
}
""")

# refused all the same: a note is never a refusal, and takes none away
unfit(6, "no name", '^{"type":"fixed","size":1,%s,"precision":3}' % D)
unfit(6, "a name that is no string", '^{"type":"fixed","name":5,"size":1,%s,"precision":3}' % D)
unfit(7, "a bad name", '{"type":"fixed","name":"F^-","size":1,%s,"precision":3}' % D)
unfit(7, "a bad namespace", '{"type":"fixed","name":"F","namespace":"a.^","size":1,%s,"precision":3}' % D)
unfit(7, "a bad alias", '{"type":"fixed","name":"F","aliases":["G","^1"],"size":1,%s,"precision":3}' % D)
unfit(8, "a reserved name", '{"type":"fixed","name":^"bytes","size":1,%s,"precision":3}' % D)
unfit(8, "a reserved alias", '{"type":"fixed","name":"F","aliases":[^"a.fixed"],"size":1,%s,"precision":3}' % D)
unfit(9, "a name of 256 bytes", '{"type":"fixed","name":^"~256~","size":1,%s,"precision":3}' % D)
unfit(17, "no size", '^{"type":"fixed","name":"F",%s,"precision":3}' % D)
unfit(17, "no size, the highest precision", '^{"type":"fixed","name":"F","Size":16,%s,"precision":%d}' % (D, HIGH))
unfit(17, "no size and no name", '^{"type":"fixed",%s,"precision":39}' % D)
unfit(17, "a size outside a nested fixed", '{"size":1,"type":^{"type":"fixed","name":"F",%s,"precision":3}}' % D)
for w in ("-1", '"1"', "1.0", "1e0", "null", "[1]", str(2 ** 64), "-0"):
    unfit(18, "a size %s" % w, '{"type":"fixed","name":"F","size":^%s,%s,"precision":3}' % (w, D))
unfit(18, "size twice, the last no size", '{"type":"fixed","name":"F","size":1,%s,"precision":3,"size":^true}' % D)
unfit(18, "before 6 and 7", '{"type":"fixed","namespace":"1",%s,"precision":39,"size":^-1}' % D)
unfit(19, "two of one name, the second does not fit", '[%s,^%s]' % (fixed_decimal(1, 2).replace("^", ""), fixed_decimal(1, 3).replace("^", "")))
unfit(19, "two of one name, the first does not fit", '[%s,^%s]' % (fixed_decimal(1, 3).replace("^", ""), fixed_decimal(1, 2).replace("^", "")))
unfit(19, "a name and its definition that does not fit", '["F",^%s]' % fixed_decimal(0, 1).replace("^", ""))
unfit(19, "a definition that does not fit and its name", '[%s,^"F"]' % fixed_decimal(0, 1).replace("^", ""))
unfit(19, "two decimals over bytes beside one over fixed", '[%s,{"type":"bytes",%s,"precision":99},^{"type":"bytes","size":1,%s,"precision":3}]' % (fixed_decimal(0, 1).replace("^", ""), D, D))
unfit(4, "behind one that does not fit", '[%s,^5]' % fixed_decimal(1, 3).replace("^", ""))
unfit(11, "two fields of one name, both do not fit", '{"type":"record","name":"R","fields":[{"name":"f","type":%s},{"name":^"f","type":%s}]}' % (fixed_decimal(1, 3).replace("^", ""), fixed_decimal(1, 3, None, "G").replace("^", "")))


def generated_decimals():
    """Texts of the generator with decimals over fixed around their limits."""
    seen = {c.text for c in CASES + NEAR + FIT}
    counted, good, seed = collections.Counter(), 0, 20000
    while good < 30:
        seed += 1
        _, text, rows, places = made(seed, None, True)
        notes = [note for k, _, _, _, _, note, _, _ in rows if k == "fixed"]
        if len(text) > 600 or text in seen or len(notes) < 2 or not set(notes) & {1, 7}:
            continue
        seen.add(text)
        counted.update(notes)
        CASES.append(Case("ok generated decimals %d" % seed, text, 0, None, row_lines(rows, places), None))
        kept()
        good += 1
    assert counted[1] >= 20 and counted[7] >= 20 and len(counted) >= 7, counted
    wanted = collections.Counter({6: 1, 7: 2, 8: 1, 17: 2, 18: 2, 19: 2})
    while sum(wanted.values()):
        seed += 1
        for site in range(made(seed, None, True)[0].sites):
            maker, text, _, places = made(seed, site, True)
            if maker.fault is None or wanted[maker.fault[0]] <= 0 or len(text) > 500 or text in seen or maker.fault[1] not in places or 7 not in maker.notes:
                continue
            seen.add(text)
            wanted[maker.fault[0]] -= 1
            CASES.append(Case("%d generated decimals %d at %d" % (maker.fault[0], seed, site), text, maker.fault[0], places[maker.fault[1]], None, None))
            kept()
            break


generated_decimals()


# ---- many members, symbols, fields
#
# For 11, 14 and 19, and what comes before and behind them: arrays of many elements, and arrays of exact sizes. ^ and @ are those
# of the names that nearly agree. They stand in a list of their own: sequences.py picks texts of CASES by their number there.

MANY = []
UNION = "kind: union"
LETTERS = "abcdefghijklmnopqrstuvwxyzABCDEFGHIJKLMNOPQRSTUVWXYZ"

# A union's member: what tells it apart from others (None: nothing does), its rows with their depth below it, its text. A fault of
# its own has a number and @ in the text; it is early where it comes before 19 of the same member.
Member = collections.namedtuple("Member", "key rows text number early", defaults=(0, False))


def many(label, number, rows, text):
    if number:
        no(number, "many: " + label, text.replace("^", "").replace("@", "^"))
    else:
        assert "@" not in text, label
        yes("many: " + label, "; ".join("%d %s" % r for r in rows), text)
    MANY.append(CASES.pop())


def below(rows, depth):
    return [(d + depth, r) for d, r in rows]


def size_in_bytes(text):
    return len(unmarked(text.replace("@", ""))[0])


def bracketed(texts, size=None):
    """An array; with a size, of that many bytes from [ to behind ], by white space behind [ and the commas."""
    gaps = [""] * max(1, len(texts))
    if size is not None:
        missing = size - size_in_bytes(bracketed(texts))
        assert missing >= 0, (size, missing)
        for i in range(missing):
            gaps[-1 - i % len(gaps)] += " \n\t\r"[i // len(gaps) % 4]
    out = "[" + ",".join(g + t for g, t in zip(gaps, texts)) + "]"
    assert size is None or size_in_bytes(out) == size
    return out


def name_of(i, length, wide=2):
    """Names of one length that begin and end alike; i is told by one or two letters in the middle."""
    code = LETTERS[i] if wide == 1 else LETTERS[i // 52] + LETTERS[i % 52]
    before = (length - wide) // 2
    assert before >= 0
    return ("JokZJoK_" * 32)[:before] + code + ("kZ9o_K4J" * 32)[:length - wide - before]


def names_of(n, each):
    """n names, all different, that take `each` bytes a name on the average or a little less."""
    wide = 1 if n <= 52 else 2
    first = max(wide, int(each))
    longer = int(n * (each - first)) if each > first else 0
    return [name_of(i, first + (1 if 0 < i <= min(longer, n - 2) else 0), wide) for i in range(n)]


# letters in other orders: one length, one set of bytes
TURNED = ["Q" + "".join(p) for p in itertools.permutations("abcde")] + ["Z" + "".join(p) for p in itertools.permutations("abcdef")]


# members

def full_of(name, space):
    return space + "." + undone(name) if space else undone(name)


def m_reference(name, full=None, how="%s"):
    full = full or undone(name)
    return Member(full, [(0, "reference " + full)], how % ('^"%s"' % name))


IN_OBJECT, IN_TWO = '{"type":%s}', '{"doc":"x","type": {"type":%s}}'


def m_fixed(name, full=None, space=None, how="%s"):
    full = full or undone(name)
    return Member(full, [(0, "fixed %s =3" % full)], how % ('{"type":"fixed","name":^"%s",%s"size":3}' % (name, "" if space is None else '"namespace":"%s",' % space)))


def m_enum(name, full=None, n=3):
    full, symbols = full or undone(name), ["S%d" % i for i in range(n)]
    return Member(full, [(0, "enum " + full)] + [(1, "symbol " + s) for s in symbols], '{"type":"enum","name":^"%s","symbols":[%s]}' % (name, ",".join('^"%s"' % s for s in symbols)))


def m_record(name, full=None, space=None, n=1):
    full, fields = full or undone(name), ["f%d" % i for i in range(n)]
    return Member(full, [(0, "record " + full)] + [r for f in fields for r in ((1, "field " + f), (2, "int"))],
                  '{"type":"record","name":^"%s",%s"fields":[%s]}' % (name, "" if space is None else '"namespace":"%s",' % space, ",".join('{"name":^"%s","type":^"int"}' % f for f in fields)))


def m_primitive(kind, how="%s"):
    return Member("kind: " + kind, [(0, kind)], how % ('^"%s"' % kind))


def m_decimal(precision):
    return Member("kind: bytes", [(0, "bytes #1,%d,0" % precision)], '{"type":^"bytes",%s,"precision":%d}' % (D, precision))


def m_array(of="int", how="%s"):
    return Member("kind: array", [(0, "array"), (1, of)], how % ('^{"type":"array","items":^"%s"}' % of))


def m_map(of="int", how="%s"):
    return Member("kind: map", [(0, "map"), (1, of)], how % ('^{"type":"map","values":^"%s"}' % of))


def m_union(how="%s"):
    return Member(UNION, [], how % '["int"]')


def m_holding(name, full, members, more=()):
    """A record with a union in a field, and one in another where more is given."""
    rows, text, number = [(0, "record " + full)], [], 0
    for f, inside in zip("gh", (members, more) if more else (members,)):
        r, t, n = union_of(inside)
        rows += [(1, "field " + f)] + below(r, 2)
        text.append('{"name":^"%s","type":%s}' % (f, t.replace("@", "") if number else t))
        number = number or n
    return Member(full, rows, '{"type":"record","name":^"%s","fields":[%s]}' % (name, ",".join(text)), number)


def first_fault(members):
    """The first refusal, for members are checked in order: its number, the member's number from 0 and its marked text."""
    for i, m in enumerate(members):
        clash = m.key == UNION or (m.key is not None and m.key in [e.key for e in members[:i]])
        if m.number and (m.early or not clash):
            return m.number, i, m.text
        if clash:
            return 19, i, "@" + m.text.replace("@", "")
    return 0, None, None


def union_of(members, size=None):
    """Rows, text and number of a union."""
    number, fault, marked = first_fault(members)
    texts = [marked if i == fault else m.text.replace("@", "") for i, m in enumerate(members)]
    return [(0, "union")] + [r for m in members for r in below(m.rows, 1)], "^" + bracketed(texts, size), number


def in_record(space, *types):
    """Rows and text of a record whose fields have these types, each given by its rows and its text."""
    full = space + ".R" if space else "R"
    rows, texts = [(0, "record " + full)], []
    for i, (r, t) in enumerate(types):
        rows += [(1, "field u%d" % i)] + below(r, 2)
        texts.append('{"name":^"u%d","type":%s}' % (i, t))
    return rows, '{"type":"record","name":^"%s","fields":[%s]}' % (full, ",".join(texts))


def many_19(label, number, fault, members, space=None, around=None, size=None):
    """The number and the member at fault, from 0, are worked out by hand; 0 and None where it is accepted. With a space the union
    stands in a field of a record there; around is items or values."""
    assert first_fault(members)[:2] == (number, fault), (label, first_fault(members))
    rows, text, _ = union_of(members, size)
    if space is not None:
        rows, text = in_record(space, (rows, text))
    if around:
        kind = "array" if around == "items" else "map"
        rows, text = [(0, kind)] + below(rows, 1), '^{"type":"%s","%s":%s}' % (kind, around, text)
    many("%d members, %s" % (len(members), label), number, rows, text)


# 1, 2: unions of many members

def references(n, space="", names=None):
    return [m_reference(s, full_of(s, space)) for s in (names or names_of(n, 3))[:n]]


def in_objects(n, space="", names=None):
    """References, every other one in an object, every sixth in two."""
    return [m_reference(s, full_of(s, space), IN_TWO if i % 6 == 5 else IN_OBJECT if i % 2 else "%s") for i, s in enumerate((names or names_of(n, 3))[:n])]


def fixeds(n, space=""):
    return [m_fixed(s, full_of(s, space)) for s in names_of(n, 3)]


def enums(n, space=""):
    return [m_enum(s, full_of(s, space), 1 + i % 3) for i, s in enumerate(names_of(n, 4))]


def records(n, space=""):
    return [m_record(s, full_of(s, space), None, i % 3) for i, s in enumerate(names_of(n, 4))]


def mixture(n, space=""):
    """All kinds; every primitive once, one array and one map, where n leaves room for them."""
    once = [m_primitive("null"), m_array("string"), m_primitive("int", IN_OBJECT), m_primitive("boolean"), m_map(), m_primitive("string"), m_decimal(9), m_primitive("long"), m_primitive("double", IN_TWO), m_primitive("float")]
    out = []
    for i, s in enumerate(names_of(n, 4)):
        full = full_of(s, space)
        out.append(once[i // 3] if i % 3 == 1 and i // 3 < len(once) else
                   (m_reference(s, full), m_fixed(s, full), m_record(s, full), m_enum(s, full, 1), m_reference(s, full, IN_OBJECT))[i % 5])
    return out


def at(members, **given):
    """Members with others in their place: at(members, _8=m) puts m in the place of the ninth."""
    out = list(members)
    for k, m in given.items():
        out[int(k[1:])] = m
    return out


def like(member, how=None):
    """A reference spelt with the member's full name, plain or with escapes."""
    return m_reference(spelt(member.key, how, True) if how else member.key)


LONG_SPACE = long_name(99) + "." + long_name(100)
assert len(LONG_SPACE) == 200

many_19("references that differ in the order of their letters", 0, None, references(40, names=TURNED))
many_19("references and objects in a namespace", 0, None, in_objects(130, "a.b"), "a.b")
many_19("references of 3 bytes", 0, None, references(300))
many_19("records with a reference to each name in another namespace", 0, None, records(11, "n") + [m_reference("m." + m.key[2:]) for m in records(11, "n")], "n")
many_19("all kinds", 0, None, mixture(40, "x"), "x")
many("12 fixeds and 9 enums in two unions", 0, *in_record("n", union_of(fixeds(12, "n"))[:2], union_of(enums(9, "n"))[:2]))
many_19("dotted names that do not look at their namespace, however bad", 0, None,
        [m_fixed("a.F%d" % i, None, ("a", "b", "1-", "a.", ".", "a..b", "~256~", " ", "")[i]) for i in range(9)] + [m_reference("b.F1"), m_reference("F8")])
many_19("references that end alike behind namespaces of 200 bytes", 0, None, [m_reference(LONG_SPACE[:100 + 10 * i] + "X" + LONG_SPACE[101 + 10 * i:] + ".J") for i in range(9)])

BAD = {4: "@7", 5: '@{"name":"x","items":"int"}', 6: '@{"type":"record","name":null,"fields":[]}', 7: '"a.b@-c"', 8: '{"type":"enum","name":@"long","symbols":[]}', 9: '@"~256~"',
       10: '@{"type":"record","name":"Bad","fields":{}}', 12: '@{"type":"enum","name":"Bad","symbols":5}', 13: '{"type":"enum","name":"Bad","symbols":["A",@5,"A"]}',
       14: '{"type":"enum","name":"Bad","symbols":["A","B",@"A","B"]}', 17: '@{"type":"fixed","name":"Bad"}', 18: '{"type":"fixed","name":"Bad","size":@-1}', 27: '@{"type":"array"}', 28: '@{"type":"map"}'}


def bad_member(number):
    return Member(None, [], BAD[number], number)


def clashes():
    r = references
    many_19("the first and the last", 19, 8, at(r(9), _8=r(1)[0]))
    many_19("the first and the second, the second in an object", 19, 1, at(in_objects(10), _1=m_reference(names_of(10, 3)[0], None, IN_OBJECT)))
    many_19("the eighth and the ninth, then 4 and 5", 19, 8, at(fixeds(11), _8=fixeds(11)[7], _9=bad_member(4), _10=bad_member(5)))
    many_19("the ninth and the tenth, an enum and a record, then 6 and 7", 19, 9, at(enums(12), _9=m_record(enums(12)[8].key), _10=bad_member(6), _11=bad_member(7)))
    many_19("the last two, one with an escape", 19, 9, at(mixture(10, "x"), _9=like(mixture(10, "x")[8], "last")), "x")
    many_19("two in the middle, a plain name and the full one, then 8 and 9", 19, 6, at(r(12, "n"), _6=like(r(12, "n")[5]), _10=bad_member(8), _11=bad_member(9)), "n")
    many_19("the first and the last, the full name first, 200 bytes of namespace", 19, 39, at(r(40, LONG_SPACE), _0=like(r(40, LONG_SPACE)[39], "first")), LONG_SPACE)
    many_19("the last two, a plain name and the full one, 200 bytes of namespace", 19, 11, at(in_objects(12, LONG_SPACE), _11=like(r(12, LONG_SPACE)[10])), LONG_SPACE)
    many_19("the ninth and the tenth, a leading dot and an empty namespace, then 10", 19, 9, at(in_objects(40, "n"), _8=m_reference(".Top", "Top"), _9=m_fixed("Top", "Top", ""), _11=bad_member(10)), "n")
    many_19("the first and the last, a namespace and a dotted name", 19, 11, at(fixeds(12, "a.b"), _0=m_record("Far", "c.d.Far", "c.d"), _11=m_reference("c.d.Far")), "a.b")
    many_19("the eighth and the ninth, a dotted name with another namespace, then 12", 19, 8, at(records(12), _7=m_record("a.Rec", None, "b"), _8=m_record("Rec", "a.Rec", "a"), _10=bad_member(12)))
    many_19("the last two, a dotted name with a bad namespace", 19, 9, at(r(10, "a"), _8=m_reference("Fix", "a.Fix"), _9=m_fixed("a.Fix", None, "1 -")), "a")
    many_19("the first and the last, a definition and a reference", 19, 8, at(r(9), _0=m_enum("Kind"), _8=m_reference("Kind", None, IN_TWO)))
    many_19("bytes, and a decimal over bytes as the ninth", 19, 8, at(r(9), _2=m_primitive("bytes"), _8=m_decimal(4)))
    many_19("an int as the fourth and the last, in an object", 19, 11, at(mixture(12), _3=m_primitive("int"), _7=m_reference("Kz"), _11=m_primitive("int", IN_TWO)))
    many_19("two arrays, the first and the last", 19, 9, at(r(10), _0=m_array(), _9=m_array("string", IN_OBJECT)))
    many_19("two maps, then 13 and 14", 19, 9, at(r(12), _8=m_map("R"), _9=m_map("R"), _10=bad_member(13), _11=bad_member(14)))
    many_19("a union as the ninth", 19, 8, at(r(9), _8=m_union()))
    many_19("a union in nested types as the tenth, then 17 and 18", 19, 9, at(r(12), _9=m_union(IN_TWO), _10=bad_member(17), _11=bad_member(18)))
    many_19("the first and the last", 19, 129, at(r(130), _129=r(1, names=names_of(130, 3))[0]))
    many_19("two clashes, the earlier later one counts", 19, 100, at(in_objects(130), _100=in_objects(130)[3], _120=in_objects(130)[1]))
    many_19("two clashes, turned round", 19, 9, at(r(12), _10=r(12)[0], _9=m_fixed(r(12)[1].key)))
    many_19("the last two", 19, 299, at(r(300), _299=r(300)[298]))
    many_19("the eighth and the ninth, with an escape, then two more", 19, 8, at(r(300, names=TURNED[20:]), _8=m_reference(spelt(TURNED[27], "all", False)), _9=m_reference(TURNED[20]), _10=m_reference(TURNED[21])))
    many_19("two in the middle, then 27 and 28", 19, 151, at(r(300), _151=r(300)[150], _152=bad_member(27), _299=bad_member(28)))
    many_19("two clashes, a name before a kind", 19, 25, at(mixture(40), _25=like(mixture(40)[2]), _30=m_primitive("int")))


clashes()

# 3: other refusals before the clash. The member at fault has the name of an earlier one where it can have one.
EARLY = {7: '{"type":"fixed","size":1,"name":"Bad","namespace":"n.@1"}', 8: '{"type":"record","name":@"int","namespace":"a","fields":[]}', 9: '{"type":"enum","name":@"~256~","symbols":[]}',
         17: '@{"type":"fixed","name":"Bad"}', 18: '{"type":"fixed","name":"Bad","size":@"1"}'}
for i, number in enumerate(BAD):
    members = references(9 + i % 4)
    members[3 * i % 7] = m_reference("a.int" if number == 8 else "Bad" if number in EARLY else "Other")
    members[-1] = members[i % 7]
    members[7] = Member("Bad" if number in EARLY else None, [], EARLY[number], number, True) if number in EARLY else bad_member(number)
    many_19("%d as the eighth before a clash with the last" % number, number, 7, members, "" if i % 2 else None)
# inside the later member itself
for i, (number, key, text) in enumerate(((10, "Abc", '@{"type":"record","name":"Abc"}'), (12, "Abc", '@{"type":"enum","symbols":"A","name":"Abc"}'), (27, "kind: array", '@{"type":"array","values":"int"}'),
                                         (28, "kind: map", '@{"type":"map","items":"int"}'), (7, "Abc", '{"aliases":["Q","@1"],"type":"fixed","name":"Abc","size":1}'))):
    first = m_array() if number == 27 else m_map() if number == 28 else m_reference("Abc")
    members = at(references(9 + i % 3), _1=first) + [Member(key, [], text, number)]
    many_19("the last would be %d, the second is its like" % number, 19, 9 + i % 3, members)
# full names over 255 bytes
OVER = long_name(55)
TOO_LONG = Member(full_of(OVER, LONG_SPACE), [], '@"%s"' % OVER, 9, True)
many_19("a name of 256 bytes by its namespace", 9, 9, at(references(11, LONG_SPACE), _9=TOO_LONG), LONG_SPACE)
many_19("two equal names of 256 bytes", 9, 8, at(references(12, LONG_SPACE), _8=TOO_LONG, _10=TOO_LONG), LONG_SPACE)
many_19("a name of 256 bytes behind a clash, one of 255 before it", 19, 9,
        at(references(11, LONG_SPACE), _0=m_reference(OVER[1:], full_of(OVER[1:], LONG_SPACE)), _9=like(references(11, LONG_SPACE)[8]), _10=TOO_LONG), LONG_SPACE)

# 4: unions in each other's records


def nested_unions():
    outer, inner = references(10, "a"), references(10, "b")
    holding = m_holding("b.S", "b.S", inner)
    many_19("the tenth holds a union of the same names in another namespace", 0, None, at(outer, _9=holding), "a")
    many_19("the first holds two unions of the same full names", 0, None, [m_holding("S", "a.S", outer, in_objects(12, "a"))] + outer[1:] + [m_reference("T", "a.T")], "a")
    many_19("a clash behind an inner union of the same names", 19, 11, outer[:5] + [holding] + outer[5:] + [m_reference("b.S")], "a")
    many_19("a clash in an inner union before one outside", 19, 9, outer[:9] + [m_holding("b.S", "b.S", at(inner, _9=m_reference("b." + names_of(10, 3)[4]))), outer[0]], "a")
    many_19("a clash outside before one in an inner union", 19, 11, [m_reference("b.S")] + outer + [m_holding("b.S", "b.S", at(inner, _9=inner[0]))], "a")
    many_19("as items, its last member holds two", 0, None, references(9) + [m_holding("b.S", "b.S", inner, references(11, "b"))], around="items")
    many_19("as values, a clash of the first and the last", 19, 10, at(mixture(11), _10=like(mixture(11)[0], "all")), around="values")
    rows, text = in_record("a", *[union_of(u)[:2] for u in (references(9, "a"), in_objects(10, "a"), references(11, "a"), references(12, "a"))])
    many("four unions of the same names in one record", 0, rows, text)


nested_unions()


# 5: enums of many symbols

def enum_of(symbols, default=None, size=None, name="E"):
    """Rows, text and number. A symbol is its spelling, a pair of 7 and its spelling with @ at the fault, or a pair of 13 and the
    value. The default is a value."""
    number, texts, seen = 13 if any(isinstance(s, tuple) and s[0] == 13 for s in symbols) else 0, [], []
    found = False
    for s in symbols:
        kind, s = s if isinstance(s, tuple) else (0, s)
        text = s.replace("@", "") if kind == 13 else '^"%s"' % s.replace("@", "")
        if not found:
            if number == 13:
                found, text = kind == 13, ("@" if kind == 13 else "") + text
            else:
                fault = 7 if kind else 9 if size_in_bytes(s) > 255 else 14 if undone(s) in seen else 0
                if fault:
                    number, found, text = fault, True, '"%s"' % s if fault == 7 else "@" + text
                seen.append(undone(s.replace("@", "")))
        texts.append(text)
    if default is not None and not number:
        number = 15 if default[0] != '"' else 16 if json.loads(default) not in seen else 0
    rows = [(0, "enum " + name)] + [(1, "symbol " + undone(s)) for s in symbols if isinstance(s, str)]
    given = "" if default is None else ',"default":%s%s' % ("@" if number in (15, 16) else "", default)
    return rows, '{"type":"enum","name":^"%s","symbols":%s%s}' % (name, bracketed(texts, size), given), number


def many_14(label, expected, symbols, default=None, size=None):
    rows, text, number = enum_of(symbols, default, size)
    assert number == expected, (label, number, expected)
    many("%d symbols, %s" % (len(symbols), label), number, rows, text)


def enums_of_many():
    turned, short = TURNED[:], names_of(400, 2)
    many_14("all new, the ninth the default", 0, turned[:9], '"%s"' % turned[8])
    many_14("all new, the default with escapes", 0, turned[:130], '"%s"' % spelt(turned[129], "all", True))
    many_14("the first again as the last", 14, turned[:12] + turned[:1])
    many_14("the eighth again as the ninth", 14, turned[:8] + turned[7:12])
    many_14("the last two", 14, short + short[-1:])
    many_14("the fourth again as the 31st, with an escape", 14, turned[:30] + [spelt(turned[3], "first", True)] + turned[30:40])
    many_14("two twice, the first with escapes", 14, [spelt(turned[0], "all", False)] + turned[1:20] + turned[5:6] + turned[:1])
    many_14("a bad one before the second of two", 7, turned[:9] + [(7, "a@-b")] + turned[:1])
    many_14("a bad one behind the second of two", 14, turned[:9] + turned[8:9] + [(7, "a@.b")])
    many_14("one of 256 bytes before the second of two", 9, turned[:9] + ["~256~"] + turned[:1])
    many_14("one of 256 bytes twice behind the second of two", 14, turned[:10] + turned[4:5] + ["~256~", "~256~"])
    many_14("no string as the last, behind a pair and a bad one", 13, turned[:9] + turned[:1] + [(7, "@"), "~256~", (13, "null")])
    many_14("two no strings in the middle", 13, short[:60] + [(13, '["A"]')] + short[:9] + [(13, "5")])
    many_14("a default no string", 15, turned[:40], '["%s"]' % turned[0])
    many_14("a default that is a prefix of all", 16, turned[:12], '"Q"')
    many_14("a default in another order of letters", 16, turned[:119], '"%s"' % turned[119])
    many_14("a bad default behind a pair", 14, turned[:11] + turned[9:10], "5")


enums_of_many()


# 6: records of many fields

def record_of(fields, size=None, called="R"):
    """Rows, text and number. A field is its name, a list of its name and aliases, a pair of its name and its type (with rows, text
    and number), or a value in ( ) that is no object. ! stands where 11 may come, behind all types."""
    taken, met, in_types, texts, rows = [], None, 0, [], [(0, "record " + called)]
    for f in fields:
        if isinstance(f, str) and f[0] == "(":
            texts.append(f[1:-1])
            continue
        (name, *others), (type_rows, type_text, number) = ([f[0]], f[1]) if isinstance(f, tuple) else (f if isinstance(f, list) else [f], ([(0, "union")], "^[]", 0))
        if undone(name) in taken and met is None:
            met = len(texts)
        in_types = in_types or number
        taken += [undone(n) for n in [name] + others]
        rows += [(1, "field " + undone(name))] + [(2, "field-alias " + undone(a)) for a in others] + below(type_rows, 2)
        texts.append('{"name":!^"%s"%s,"type":%s}' % (name, ',"aliases":[%s]' % ",".join('^"%s"' % a for a in others) if others else "", type_text))
    texts = [t.replace("!", "@" if i == met and not in_types else "", 1) for i, t in enumerate(texts)]
    return rows, '{"type":"record","name":^"%s","fields":%s}' % (called, bracketed(texts, size)), in_types or (0 if met is None else 11)


def many_11(label, expected, fields, size=None):
    rows, text, number = record_of(fields, size)
    assert number == expected, (label, number, expected)
    many("%d fields, %s" % (len(fields), label), number, rows, text)


def records_of_many():
    turned, short = TURNED[:], names_of(200, 2)
    many_11("each with aliases, elements that are no objects between", 0, [x for i in range(9) for x in ([turned[i], turned[i + 20], turned[i + 40]], ("(5)", '("f")', "(null)", "([])", '([{"name":"%s"}])' % turned[0])[i % 5])])
    many_11("aliases equal to earlier names and to each other", 0, [turned[0]] + [[turned[i], turned[0], turned[i], turned[i - 1], "X", "X", "X"] for i in range(1, 12)])
    many_11("the first again as the last", 11, turned[:9] + turned[:1])
    many_11("the eighth's alias again as the ninth", 11, turned[:7] + [[turned[7], turned[50], turned[51]], turned[51]] + turned[8:12])
    many_11("the first's alias again as the last", 11, [[short[0], short[1], short[199]]] + short[2:100] + [short[199]])
    many_11("an alias equal to an earlier name, then one that is met", 11, turned[:10] + [[turned[10], turned[0], turned[1]], [turned[11], turned[12]], "(0)", turned[12], turned[0]])
    many_11("two names met, the earlier counts, with an escape", 11, [[turned[0], spelt(turned[31], "last", True)]] + turned[1:30] + [turned[31], turned[1]])
    many_11("two names met before a type that is refused", 4, turned[:9] + turned[:2] + [(turned[20], ([], "@7", 4))])
    many_11("two names met before a union that is refused", 19, turned[:9] + turned[:1] + [(turned[20], union_of(references(9) + references(1, names=names_of(9, 3)))), "(1)"])


records_of_many()

# 7: arrays of exact sizes, from [ to behind ]


def union_members(n, size, again=False):
    """References whose names fill the size, but for some white space."""
    names = names_of(n, (size - 1 - 3 * n) / n)
    return references(n, names=names[:-1] + [names[0]] if again else names)


def symbols_to_fill(n, size, again=False):
    names = names_of(n, (size - 1 - 3 * n) / n)
    return names[:-1] + [names[0]] if again else names


def fields_to_fill(n, size, again=False):
    """Every tenth has an alias, that of an earlier name or its own."""
    names = names_of(n, (size - 1 - 22 * n - 40 * (n // 10)) / n if n > 9 else 1)
    if again:
        names[-1] = names[0]
    return [[s, "zzz" if i % 20 else names[1]] if i % 10 == 9 and i < n - 1 else s for i, s in enumerate(names)]


def of_size(kind, size, n):
    """Rows and text of a union, an enum or a record whose array has that size, all new."""
    if kind == 0:
        return union_of(union_members(n, size), size)[:2]
    if kind == 1:
        return enum_of(symbols_to_fill(n, size), None, size, "E%d" % size)[:2]
    return record_of(fields_to_fill(n, size), size, "R%d" % size)[:2]


def sizes():
    new, again = "an array of %d bytes, all new", "an array of %d bytes, the first again as the last"
    # around each size: the numbers of members, symbols and fields
    counts = {48: (11, 10, 2), 512: (40, 60, 12), 1024: (130, 120, 30), 4096: (300, 250, 100), 8192: (300, 400, 200)}
    for middle, (members, symbols, fields) in counts.items():
        three = (middle - 1, middle, middle + 1)
        if middle <= 1024:
            # the ones that are all new stand together, for they are short
            all_new = [[of_size(kind, size, counts[middle][kind]) for size in three] for kind in range(3)]
            for label, types in (("three kinds", sum(all_new, [])),) if middle == 48 else zip(("references", "symbols", "fields"), all_new):
                many("arrays of %d, %d and %d bytes, all new, of %s" % (three + (label,)), 0, *in_record("", *types))
        else:
            many_19(new % three[0], 0, None, union_members(members, three[0]), size=three[0])
            many_14(new % three[1], 0, symbols_to_fill(symbols, three[1]), size=three[1])
            many_11(new % three[2], 0, fields_to_fill(fields, three[2]), size=three[2])
        for size in three if middle <= 1024 else three[1:] if middle == 4096 else three[1:2]:
            many_19(again % size, 19, members - 1, union_members(members, size, True), size=size)
        for size in three if middle <= 1024 else three[2:]:
            many_14(again % size, 14, symbols_to_fill(symbols, size, True), size=size)
        for size in three if middle <= 1024 else three[:1]:
            many_11(again % size, 11, fields_to_fill(fields, size, True), size=size)


sizes()
assert sum(len(c.text) for c in MANY) <= 160000, sum(len(c.text) for c in MANY)


# ---- defaults of fields: request A6
#
# What is kept, and 48. Whether a default fits is not asked of a text alone. They stand in a list of their own, as those above do.

KEPT = []
L = '"%s"' % ("x" * 254)


def held(label, rows, text):
    yes("kept: " + label, rows, text)
    KEPT.append(CASES.pop())


def over(number, label, text):
    no(number, "kept: " + label, text)
    KEPT.append(CASES.pop())


def in_field(default, type_='"int"'):
    """A record with a field that has a default; all positions are marked."""
    return '{"type":"record","name":^"R","fields":[{"name":^"a","type":^%s,"default":%s}]}' % (type_, default)


def fields(*texts):
    return '{"type":"record","name":"R","fields":[%s]}' % ",".join(texts)


def percent(text):
    return urllib.parse.quote(text, safe='{}[]":,.-+\\')


# each kind of value, whether it fits or not; white space around it is cut and white space inside is kept
for v in ("null", "true", "false", "0", "-0", "1.5", "1E+2", '""', '"none"', '" x "', '"é"', '"Ж😀"', r'"\u00e9"', r'"\ud83d\ude00"', r'"\"\\\/\n"', "[]", "[ ]", "[ 1 , 2 ]", "{}", "{ }", '{"k":1,"k":"x"}', r'{"\u006b": [ null ]}', "9" * 250):
    held("the value " + v[:30], "0 record R; 1 field a :%s; 2 int" % percent(v), in_field("^" + v))
held("white space around", "0 record R; 1 field a :5; 2 int", in_field(" \t\r\n ^5 \n\r\t "))
held("white space around and inside", "0 record R; 1 field a :%s; 2 int" % percent("[\t5 ,\r\n6 ]"), in_field("  ^[\t5 ,\r\n6 ]  "))
held("a value that looks like a schema", "0 record R; 1 field a :%s; 2 int" % percent('{"type":"record","name":"1","fields":5,"default":{}}'), in_field('^{"type":"record","name":"1","fields":5,"default":{}}'))
held("strings in a default are no names", "0 record n.R; 1 field a :\"1-\"; 2 reference n.R", '{"type":"record","name":^"R","namespace":"n","fields":[{"default":^"1-","name":^"a","type":^"R"}]}')
# where it stands
held("the first member", "0 record R; 1 field a :5; 2 field-alias b; 2 int", '{"type":"record","name":^"R","fields":[{"default":^5,"name":^"a","aliases":[^"b"],"type":^"int"}]}')
held("between the others", "0 record R; 1 field a :5; 2 field-alias b; 2 int", '{"type":"record","name":^"R","fields":[{"type":^"int","aliases":[^"b"],"default":^5,"name":^"a","doc":"d"}]}')
held("before a type with rows of its own", "0 record R; 1 field a :{}; 2 record S; 3 field b :[]; 4 map; 5 null; 1 field c; 2 null",
     '{"type":"record","name":^"R","fields":[{"name":^"a","default":^{},"type":{"type":"record","name":^"S","fields":[{"default":^[],"type":^{"type":"map","values":^"null"},"name":^"b"}]}},{"name":^"c","type":^"null"}]}')
held("behind a type with rows of its own", "0 record R; 1 field a :{}; 2 record S; 3 field b :[]; 4 int", '{"type":"record","name":^"R","fields":[{"name":^"a","type":{"type":"record","name":^"S","fields":[{"name":^"b","type":^"int","default":^[]}]},"default":^{}}]}')
held("several fields", "0 record R; 1 field a :1; 2 int; 1 field b; 2 int; 1 field c :%s; 2 union; 1 field d :null; 2 fixed F =3" % percent('"x y"'),
     '{"type":"record","name":^"R","fields":[{"name":^"a","type":^"int","default":^1},{"name":^"b","type":^"int"},{"name":^"c","type":^[],"default":^"x y"},{"name":^"d","type":{"type":"fixed","name":^"F","size":3},"default":^null}]}')
# given twice; the key with escapes
held("twice, the last counts", "0 record R; 1 field a :2; 2 int", '{"type":"record","name":^"R","fields":[{"name":^"a","default":"one","type":^"int","default":^2}]}')
held("twice, the first too long", "0 record R; 1 field a :2; 2 int", '{"type":"record","name":^"R","fields":[{"name":^"a","default":%s,"type":^"int","default":^2}]}' % L)
held("twice, the last null", "0 record R; 1 field a :null; 2 int", '{"type":"record","name":^"R","fields":[{"name":^"a","default":1,"type":^"int","default":^null}]}')
held("the key with escapes", "0 record R; 1 field a :2; 2 int", r'{"type":"record","name":^"R","fields":[{"name":^"a","type":^"int","d\u0065f\u0061ult":^2}]}')
held("the key twice, once with escapes", "0 record R; 1 field a :2; 2 int", r'{"type":"record","name":^"R","fields":[{"name":^"a","type":^"int","default":"x","\u0064efault":^2}]}')
held("keys that are others", "0 record R; 1 field a; 2 int", r'{"type":"record","name":^"R","fields":[{"name":^"a","type":^"int","Default":1,"default ":2,"defaul":3,"default\u0000":4,"":5}]}')
# not a field's
held("beside types that are no fields", "0 record R; 1 field a; 2 array; 3 int", '{"type":"record","default":%s,"name":^"R","fields":["default",5,{"name":^"a","type":^{"type":"array","default":%s,"items":{"type":^"int","default":"x"}}}]}' % (L, L))
held("on top", "0 map; 1 string", '^{"type":"map","default":%s,"values":{"type":^"string","default":5}}' % L)
held("in a field's type, not of the field", "0 record R; 1 field a; 2 int", '{"type":"record","name":^"R","fields":[{"name":^"a","type":{"type":^"int","default":5}}]}')
held("of the field and of its type", "0 record R; 1 field a :6; 2 int", '{"type":"record","name":^"R","fields":[{"name":^"a","default":^6,"type":{"type":^"int","default":5}}]}')
held("of an enum and of the field", "0 record R; 1 field a :5; 2 enum E; 3 symbol A", '{"type":"record","name":^"R","fields":[{"name":^"a","default":^5,"type":{"type":"enum","name":^"E","symbols":[^"A"],"default":"A"}}]}')
over(15, "of an enum, no string", fields('{"name":"a","default":"A","type":{"type":"enum","name":"E","symbols":["A"],"default":^5}}'))
over(16, "of an enum, no symbol", fields('{"name":"a","default":"A","type":{"type":"enum","name":"E","symbols":["A"],"default":^"B"}}'))
# 255 and 256 bytes
for label, v in (("letters", lambda n: '"%s"' % ("x" * (n - 2))), ("letters of two bytes", lambda n: '"%s%s"' % ("x" * (n % 2), "é" * ((n - 2) // 2))), ("escapes", lambda n: '"%s%s"' % (r"\u0078" * ((n - 2) // 6), "x" * ((n - 2) % 6))),
                 ("white space inside", lambda n: "[%s]" % ((" \t\r\n" * 64)[:n - 2])), ("digits", lambda n: "1" * n), ("members", lambda n: '{"%s":0}' % ("k" * (n - 6)))):
    for n in (254, 255):
        assert len(v(n).encode()) == n
        if n == 255 or label == "letters":
            held("%d bytes, %s" % (n, label), "0 record R; 1 field a :%s; 2 int" % percent(v(n)), in_field("^" + v(n)))
    assert len(v(256).encode()) == 256
    over(48, "256 bytes, " + label, in_field(v(256)).replace("^", "").replace('"default":', '"default":^'))
held("255 bytes, and white space around", "0 record R; 1 field a :%s; 2 int" % ('"%s"' % ("x" * 253)), in_field(" " * 40 + '^"%s"' % ("x" * 253) + "\n" * 40))
over(48, "256 bytes, and white space around", fields('{"name":"a","type":"int","default": \n ^%s }' % L))
over(48, "512 bytes", fields('{"name":"a","type":"int","default":^"%s"}' % ("x" * 510)))
over(48, "twice, the last too long", fields('{"name":"a","type":"int","default":1,"default":^%s}' % L))
over(48, "the key with escapes", fields(r'{"name":"a","type":"int","\u0064efault":^%s}' % L))
# 48 and the faults of the same field: 6, 7, 9 of its name and of its aliases before it, 5 and the type's behind it
over(6, "no name", fields('^{"type":"int","default":%s}' % L))
over(6, "a name that is no string", fields('^{"default":%s,"name":null,"type":"int"}' % L))
over(7, "a bad name", fields('{"default":%s,"name":"a^.b","type":"int"}' % L))
over(7, "a bad alias", fields('{"default":%s,"name":"a","aliases":["b","^"],"type":"int"}' % L))
over(7, "a bad alias, and no type", fields('{"name":"a","aliases":["^1"],"default":%s}' % L))
over(9, "a name of 256 bytes", fields('{"default":%s,"name":^"~256~","type":"int"}' % L))
over(9, "an alias of 256 bytes", fields('{"default":%s,"name":"a","aliases":["b",^"~256~"],"type":"int"}' % L))
over(48, "no type", fields('{"name":"a","default":^%s}' % L))
over(5, "no type, 255 bytes", fields('^{"name":"a","default":%s}' % ('"%s"' % ("x" * 253))))
over(48, "aliases that count as absent", fields('{"name":"a","aliases":["1",5],"default":^%s}' % L))
for number, t in ((4, "5"), (5, "{}"), (7, '"1"'), (9, '"~256~"'), (16, '{"type":"enum","name":"E","symbols":[],"default":"A"}'), (18, '{"type":"fixed","name":"F","size":"1"}'), (19, '["int","int"]'), (28, '{"type":"map"}')):
    over(48, "before %d of the type" % number, fields('{"name":"a","type":%s,"default":^%s}' % (t, L)))
over(48, "of the outer field before that of the inner", fields('{"name":"a","type":%s,"default":^%s}' % (fields('{"name":"b","type":"int","default":%s}' % L).replace('"R"', '"S"'), L)))
over(48, "of an inner field", fields('{"name":"a","type":%s,"default":5}' % fields('{"name":"b","type":"int","default":^%s}' % L).replace('"R"', '"S"')))
# other fields
over(5, "in an earlier field", fields('^{"name":"a"}', '{"name":"b","type":"int","default":%s}' % L))
over(48, "before 5 of a later field", fields('{"name":"b","type":"int","default":^%s}' % L, '{"name":"a"}'))
over(48, "before 6 of a later field", fields('{"name":"b","type":"int","default":^%s}' % L, "{}"))
over(48, "before 11", fields('{"name":"a","type":"int"}', '{"name":"a","type":"int","default":^%s}' % L))
over(48, "before 11, in the field that has the name first", fields('{"name":"a","type":"int","default":^%s}' % L, '{"name":"a","type":"int"}'))
over(11, "with defaults that do not fit", fields('{"name":"a","type":"int","default":"x"}', '{"name":^"a","type":"int","default":"y"}'))
over(11, "of an inner record before 48 of a later field", fields('{"name":"a","type":%s}' % fields('{"name":"b","type":"int"}', '{"name":^"b","type":"int"}').replace('"R"', '"S"'), '{"name":"c","type":"int","default":%s}' % L))
over(19, "of the member before 48 in it", '["R",^%s]' % fields('{"name":"a","type":"int","default":%s}' % L))
over(48, "before 19 of the next member", '[%s,"R"]' % fields('{"name":"a","type":"int","default":^%s}' % L))
over(10, "fields that are no array", '^{"type":"record","name":"R","fields":{"name":"a","type":"int","default":%s}}' % L)
over(2, "behind it", fields('{"name":"a","type":"int","default":%s}' % L) + "^]")
over(3, "inside it", '{"type":"record","name":"R","fields":[{"name":"a","type":"int","default":' + "[" * 61 + "^[" + "]" * 62 + "}]}")
held("61 brackets", "0 record R; 1 field a :%s; 2 int" % ("[" * 61 + "]" * 61), in_field("^" + "[" * 61 + "]" * 61))
# string bytes: a name and 63 aliases of 252 bytes, a field of 1 or 2, a default of 255
for n, total in (("a", 16384), ("ab", 16385)):
    held("%d string bytes" % total, "66/%d" % total, '{"type":"record","name":"R","namespace":"~250~","aliases":[%s],"fields":[{"name":"%s","type":"int","default":"%s"}]}' % (",".join(['"a"'] * 63), n, "x" * 253))


def generated_defaults():
    """Texts of the generator with defaults."""
    seen = {c.text for c in CASES + NEAR + FIT + MANY + KEPT}
    good, seed = 0, 40000
    while good < 14:
        seed += 1
        maker, text, rows, places = made(seed, None, False, True)
        if len(text) > 400 or text in seen or len(maker.held) < 2:
            continue
        seen.add(text)
        KEPT.append(Case("ok generated defaults %d" % seed, text, 0, None, row_lines(rows, places, maker.held), None))
        good += 1
    wanted = collections.Counter({48: 3, 7: 1, 11: 1, 19: 1})
    while sum(wanted.values()):
        seed += 1
        for site in range(made(seed, None, False, True)[0].sites):
            maker, text, _, places = made(seed, site, False, True)
            if maker.fault is None or wanted[maker.fault[0]] <= 0 or len(text) > 520 or text in seen or maker.fault[1] not in places or len(maker.held) < 2:
                continue
            seen.add(text)
            wanted[maker.fault[0]] -= 1
            KEPT.append(Case("%d generated defaults %d at %d" % (maker.fault[0], seed, site), text, maker.fault[0], places[maker.fault[1]], None, None))
            break


generated_defaults()


def all_cases():
    return CASES + NEAR + FIT + MANY + KEPT
