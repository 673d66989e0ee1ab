#!/usr/bin/env python3
"""Scripts of calls on a set whose fields have defaults, and their answers by replay.py.

    python3 docs/vectors/defaults.py crates/defaults_run         writes stdin and stdout there
    python3 docs/vectors/defaults.py labels                      each sequence's first line and what it is about

Written from request A6 of 02. As in sequences.py, whose calls are used, beside each put stands what was worked out by hand: 47 or 48, the
place and, by a mark ^ in the text, the position, or the counts. A refusal must leave the digest as it was, and an accepted put must give the
memory of the edited list, put at the end of an empty set one by one. The texts of the generator are made together with their verdicts: a
value is written for a type so that it fits, or so that it does not.
"""
import os
import random
import struct
import sys

sys.path.insert(0, os.path.dirname(os.path.abspath(__file__)))
import replay
import sequences
from declaration_texts import Mark, flat, unmarked
from sequences import ANSWERS, LINES, Now, SEQUENCES, ask, at_end, digest, full, name, poke, put, say, seq, text_of, weight

# ---- texts


def rec(n, *fields, more=""):
    return '{"type":"record","name":"%s"%s,"fields":[%s]}' % (n, more, ",".join(fields))


def fld(n, type_, default=None, more=""):
    """A field; a default is marked."""
    return '{"name":"%s"%s,"type":%s%s}' % (n, more, type_, "" if default is None else ',"default":^' + default)


def one(type_, default):
    return rec("R", fld("a", type_, default))


def enum(n, *symbols):
    return '{"type":"enum","name":"%s","symbols":[%s]}' % (n, ",".join('"%s"' % s for s in symbols))


def fixed(n, size):
    return '{"type":"fixed","name":"%s","size":%d}' % (n, size)


def arr(t):
    return '{"type":"array","items":%s}' % t


def mp(t):
    return '{"type":"map","values":%s}' % t


def size(value):
    """How many bytes a value has as it is written."""
    return len(unmarked(value)[0])


def asked():
    """The answer of the last put: behind it stands a digest."""
    return ANSWERS[-2]


def fit(type_, rows, string_bytes, *values, place=0, before=(0, 0)):
    """Each of the values as the default of a field of this type, whose rows and string bytes are given: it is accepted."""
    for v in values:
        put(place, one(type_, v), (place + 1, before[0] + 2 + rows, before[1] + 2 + string_bytes + size(v)))


def unfit(type_, *values, place=0):
    for v in values:
        put(place, one(type_, v), 47)


def kept(place, row, text, want_at=None):
    """The default that a field's row keeps, as it is written; behind its mark in the text it must stand."""
    line = say("rows %d" % place)[row]
    words = line.split(" ")
    assert words[1] == "field" and words[10] == (text.encode().hex() or "-"), (SEQUENCES[-1], line, text)
    if want_at is not None:
        assert words[9] == str(want_at), (SEQUENCES[-1], line, want_at)


# ---- the page's own examples, with the positions that it gives

def examples():
    seq("examples: a field said int and none")
    put(0, '{"type":"record","name":"R","fields":[{"name":"a","type":"int","default":^"none"}]}', 47)
    assert asked() == "refused 47 0 73"

    def F(field, want, *told):
        put(0, '{"type":"record","name":"R","fields":[%s]}' % field, want)
        assert not told or asked() == told[0], (field, asked())

    seq("examples: single fields")
    F('{"name":"a","type":"int","default":^2147483647}', (1, 3, 12))
    for v in ("2147483648", "1.0", "1e0"):
        F('{"name":"a","type":"int","default":^%s}' % v, 47, "refused 47 0 73")
    F('{"name":"a","type":"int","default":^-0}', (1, 3, 4))
    F('{"name":"a","type":"float","default":^1e999}', (1, 3, 7))
    F('{"name":"a","type":"double","default":^"NaN"}', 47)
    F('{"name":"a","type":{"type":"fixed","name":"F","size":1},"default":^"é"}', (1, 3, 7))
    F(r'{"name":"a","type":{"type":"fixed","name":"F","size":1},"default":^"\u00e9"}', (1, 3, 11))
    F('{"name":"a","type":{"type":"fixed","name":"F","size":2},"default":^"é"}', 47)
    F('{"name":"a","type":"bytes","default":^"Ж"}', 47)
    F('{"name":"a","type":["null","string"],"default":^"x"}', (1, 5, 5))
    F('{"name":"a","type":"string","default":^null}', 47)
    for v in ("null", "0", '""', "[]", "{}", "true"):
        F('{"name":"a","type":[],"default":^%s}' % v, 47)
    F('{"name":"a","type":{"type":"map","values":"int"},"default":^{"k":"x","k":1}}', (1, 4, 17))
    F('{"name":"a","type":{"type":"array","items":"int"},"default":  ^[ 1 , 2 ]  }', (1, 4, 11))
    kept(0, 1, "[ 1 , 2 ]")
    F('{"name":"a","type":"R","default":^{}}', (1, 3, 5))
    kept(0, 1, "{}", 71)
    F('{"name":"a","type":["null","R"],"default":^{"a":{"a":null}}}', (1, 5, 19))
    kept(0, 1, '{"a":{"a":null}}')

    seq("examples: a record as the type")
    bad = '{"type":"record","name":"S","fields":[{"name":"x","type":"int"},{"name":"y","type":"int","default":%s}]}'
    F('{"name":"b","type":%s,"default":{"x":1}}' % (bad % '^"bad"'), 47)
    F('{"name":"b","type":%s,"default":^{"x":1}}' % (bad % "5"), (1, 7, 13))
    aliased = '{"type":"record","name":"S","fields":[{"name":"x","aliases":["w"],"type":"int"}]}'
    F('{"name":"b","type":%s,"default":^{"w":1}}' % aliased, 47)
    F('{"name":"b","type":%s,"default":^{"x":1,"w":[],"":{}}}' % aliased, (1, 6, 25))

    seq("examples: 256 bytes")
    for n, want in ((253, (1, 3, 257)), (254, 48)):
        F('{"name":"a","type":"string","default":^"%s"}' % ("x" * n), want)
    F('{"name":"a","default":^"%s"}' % ("x" * 254), 48)
    F('^{"name":"a","default":"%s"}' % ("x" * 253), 5)
    F('{"name":"a","aliases":["b","^1"],"default":"%s"}' % ("x" * 254), 7)

    seq("examples: an enum loses the symbol of a default behind it")
    at_end(enum("E", "A", "B"), (1, 3, 3))
    at_end(rec("R", fld("e", '"E"', '"B"')), (2, 6, 9))
    at_end(arr('"E"'), (3, 8, 10))
    put(0, enum("E", "A"), 47, behind=1)
    assert asked() == "refused 47 1 71"
    got = say("put 0 " + b'"int"'.hex())
    assert got == ["refused 26 1 57"]
    digest()
    put(0, fixed("E", 1), (3, 6, 8))
    full()
    seq("examples: a record's field loses its default")
    at_end(rec("S", fld("x", '"int"', "0")), (1, 3, 3))
    at_end(rec("R", fld("s", '"S"', "{}")), (2, 6, 8))
    put(0, rec("S", fld("x", '"int"')), 47, behind=1)
    assert asked() == "refused 47 1 71"
    full()

    seq("examples: two faults")
    put(0, rec("R", fld("a", '"int"', '"x"').replace("^", ""), fld("b", '^"U"')), 26)
    put(0, rec("R", fld("a", rec("S", fld("x", '"int"', '"x"').replace("^", "")), '"y"')), 47)
    put(0, rec("R", fld("a", rec("S", fld("x", '"int"', '"x"')), '{"x":1}').replace('^{', '{')), 47)


# ---- each kind of type with each kind of value

VALUES = ["null", "true", "false", "0", "-1", "1.5", "1e2", '""', '"A"', '"é"', '"Ж"', "[]", "[0]", '["A"]', "{}", '{"x":0}', '{"x":"A"}']
# a type, its rows and string bytes, and the values that fit it
TABLE = [
    ('"null"', 1, 0, "null"),
    ('"boolean"', 1, 0, "true false"),
    ('"int"', 1, 0, "0 -1"),
    ('"long"', 1, 0, "0 -1"),
    ('"float"', 1, 0, "0 -1 1.5 1e2"),
    ('"double"', 1, 0, "0 -1 1.5 1e2"),
    ('"bytes"', 1, 0, '"" "A" "é"'),
    ('"string"', 1, 0, '"" "A" "é" "Ж"'),
    (enum("E", "A"), 2, 2, '"A"'),
    (fixed("F", 0), 1, 1, '""'),
    (fixed("F", 1), 1, 1, '"A" "é"'),
    (arr('"int"'), 2, 0, "[] [0]"),
    (arr('"string"'), 2, 0, '[] ["A"]'),
    (mp('"int"'), 2, 0, '{} {"x":0}'),
    (mp('"string"'), 2, 0, '{} {"x":"A"}'),
    (rec("S"), 1, 1, '{} {"x":0} {"x":"A"}'),
    (rec("S", fld("x", '"int"')), 3, 2, '{"x":0}'),
    (rec("S", '{"name":"x","type":"string","default":"B"}'), 3, 5, '{} {"x":"A"}'),
    ("[]", 1, 0, ""),
    ('["null"]', 2, 0, "null"),
    ('["int","null"]', 3, 0, "null 0 -1"),
    ('["null",%s,%s]' % (arr('"int"'), mp('"string"')), 6, 0, 'null [] [0] {} {"x":"A"}'),
    ('["boolean","double","string"]', 4, 0, 'true false 0 -1 1.5 1e2 "" "A" "é" "Ж"'),
]


def table():
    for type_, rows, string_bytes, good in TABLE:
        seq("each kind of value for " + type_)
        for v in VALUES:
            (fit(type_, rows, string_bytes, v) if v in good.split() else unfit(type_, v))
    # the same by a reference to another declaration
    for n, definition, count, good in (("E", enum("E", "A"), (1, 2, 2), '"A"'), ("F", fixed("F", 1), (1, 1, 1), '"A" "é"'), ("S", rec("S", fld("x", '"int"')), (1, 3, 2), '{"x":0}'),
                                       ("S", rec("S", '{"name":"x","type":"int","default":8}'), (1, 3, 3), '{} {"x":0}')):
        seq("each kind of value for a reference to " + definition)
        at_end(definition, count)
        for v in VALUES:
            if v in good.split():
                fit('"%s"' % n, 1, 1, v, place=1, before=count[1:])
            else:
                unfit('"%s"' % n, v, place=1)


# ---- numbers

def numbers():
    I, L = '"int"', '"long"'
    seq("int at its edges")
    fit(I, 1, 0, "2147483647", "-2147483648", "2147483646", "-2147483647", "-0", "0", "-1", "1000000000", "1999999999")
    unfit(I, "2147483648", "-2147483649", "2147483650", "3000000000", "9999999999", "10000000000", "-10000000000", "4294967295", "4294967296", "4294967297", "-4294967296", "9223372036854775807", "18446744073709551616", "18446744073709551621")
    seq("int as a fraction or with an exponent")
    unfit(I, "1.0", "0.0", "-0.0", "1.5", "1e2", "1E2", "1e0", "1E0", "0e0", "-0e0", "1e+2", "1E+2", "100e-2", "1.0e1", "10E-1", "2147483647.0")
    unfit(I, "true", "false", "null", '"1"', '""', "[1]", '{"int":1}')
    seq("int in 250 digits and more")
    for n in (11, 20, 250, 255):
        unfit(I, "9" * n, "-" + "9" * (n - 1), "1" + "0" * (n - 1))
    put(0, one(I, "1" * 256), 48)
    put(0, one(I, "-" + "1" * 255), 48)
    fit(I, 1, 0, "7")
    seq("long at its edges")
    fit(L, 1, 0, "9223372036854775807", "-9223372036854775808", "9223372036854775806", "-9223372036854775807", "2147483648", "-2147483649", "-0", "4294967296", "999999999999999999", "8999999999999999999", "9199999999999999999")
    unfit(L, "9223372036854775808", "-9223372036854775809", "9223372036854775810", "9300000000000000000", "-9300000000000000000", "18446744073709551615", "18446744073709551616", "18446744073709551617", "-18446744073709551616", "10000000000000000000")
    unfit(L, "340282366920938463463374607431768211456", "340282366920938463463374607431768211457")
    unfit(L, "1.0", "1e2", "1E2", "9223372036854775807.0", "9.0", "1e18", '"9"', "null")
    for n in (21, 250, 255):
        unfit(L, "1" * n, "-" + "1" * (n - 1))
    put(0, one(L, "3" * 256), 48)
    fit(L, 1, 0, "-7")
    for p in ('"float"', '"double"'):
        seq("any number for " + p)
        if p == '"double"':
            fit(p, 1, 0, "1e999", "-0", "18446744073709551616", "9" * 250, "1E2")
            unfit(p, '"NaN"', '"-Infinity"', '"1"', "true")
            continue
        fit(p, 1, 0, "1e999", "-1e999", "1E-999", "1e+99999", "0", "-0", "-0.0", "0.1", "2147483648", "18446744073709551616", "9" * 250, "-" + "9" * 254, "0." + "1" * 253, "1e" + "9" * 253, "3.4028236e38", "1E2")
        unfit(p, '"NaN"', '"Infinity"', '"-Infinity"', '"INF"', '"1"', '"1.5"', "true", "null", "[1.5]", '""')
        put(0, one(p, "0." + "1" * 254), 48)
    seq("what is a number in a text but no JSON")
    for v in ("01", "+1", "0x10", "1.", ".5", "NaN", "-", "1_0", "--1", "Infinity"):
        text = one('"double"', v).replace("^", "")
        at = text.index('"default":') + 10 + {"01": 1, "0x10": 1, "1.": 2, "-": 1, "1_0": 1, "--1": 1}.get(v, 0)
        put(0, text[:at] + "^" + text[at:], 2)


# ---- code points

def code_points():
    B, one_of, two_of = '"bytes"', fixed("F", 1), fixed("F", 2)
    single = ['"ÿ"', r'"\u00ff"', r'"\u00FF"', r'"\u00fF"', '"é"', r'"\u00e9"', r'"\u0000"', r'"\u0041"', '"\x7f"', r'"\u0080"', r'"\n"', r'"\""', r'"\\"', r'"\/"', '"/"', r'"\b"', r'"\f"', r'"\r"', r'"\t"', '" "']
    high = ['"Ā"', r'"\u0100"', r'"\u0101"', '"Ж"', r'"\u0416"', '"€"', r'"\uFFFF"', r'"\uffff"', '"😀"', r'"\ud83d\ude00"', r'"\uD800\uDC00"', r'"\uDBFF\uDFFF"', r'"\u4100"']
    double = ['"ab"', '"éÿ"', r'"\u00c3\u00a9"', r'"é\u00e9"', r'"\u0000\u0000"', '"a "']
    seq("code points up to 255, and above, for bytes")
    fit(B, 1, 0, *single)
    unfit(B, *high)
    fit(B, 1, 0, '""', *double)
    unfit(B, '"abcĀ"', '"Āabc"', r'"abc\u0100"', r'"\u00ff\u0100"', '"ÿĀÿ"')
    seq("code points up to 255, and above, for a fixed of 1")
    fit(one_of, 1, 1, *single)
    unfit(one_of, *high)
    unfit(one_of, '""', *double)
    seq("code points for a fixed of 2")
    fit(two_of, 1, 1, *double)
    unfit(two_of, *high[::2])
    unfit(two_of, '""', *single[::2])
    unfit(two_of, '"aĀ"', '"Āa"', '"abc"', '"ééé"', '"😀😀"')
    seq("code points for a string: any")
    fit('"string"', 1, 0, *(high + single[:6] + double))
    seq("the length of a fixed counts code points, not bytes, not escapes")
    fit(fixed("F", 3), 1, 1, '"ÿéa"', r'"\u00ffa\n"', '"aaa"')
    unfit(fixed("F", 3), '"éa"', '"aa"', '"aaaa"', '"ééa\\n"', '"€"', r'"\u00e9\u0062"')
    unfit(fixed("F", 4), '"😀"', '"éé"')
    unfit(fixed("F", 6), r'"\u00e9"', '"ééé"')
    unfit(fixed("F", 12), r'"\ud83d\ude00"')
    fit(fixed("F", 6), 1, 1, r'"u00e9a"', r'"\\u00e9"')
    fit(fixed("F", 0), 1, 1, '""')
    unfit(fixed("F", 0), '"a"', r'"\u0000"', "null", "[]", "0")
    seq("fixed sizes one off, and far off")
    for n in (1, 2, 9, 16, 100, 252):
        fit(fixed("F", n), 1, 1, '"%s"' % ("x" * n))
        unfit(fixed("F", n - 1), '"%s"' % ("x" * n))
        unfit(fixed("F", n + 1), '"%s"' % ("x" * n))
    fit(fixed("F", 253), 1, 1, '"%s"' % ("x" * 253))
    unfit(fixed("F", 254), '"%s"' % ("x" * 253))
    fit(fixed("F", 42), 1, 1, '"%s"' % (r"\u00ff" * 42))
    fit(fixed("F", 126), 1, 1, '"%s"' % ("ÿ" * 126))
    unfit(fixed("F", 252), '"%s"' % ("ÿ" * 126), '"%s"' % (r"\u00ff" * 42))
    for n in (256, 65536, 2 ** 32, 2 ** 63, 2 ** 64 - 1):
        unfit(fixed("F", n), '""', '"x"')
    for n in (257, 65537, 2 ** 32 + 1):
        unfit(fixed("F", n), '"x"')
    seq("decimals are bytes and fixeds")
    d = '{"type":"bytes","logicalType":"decimal","precision":4,"scale":2}'
    fit(d, 1, 0, '""', r'"\u0000"', '"ÿ"')
    unfit(d, "1", "1.5", '"Ж"', "null")
    for p in (2, 9):
        d = '{"type":"fixed","name":"F","size":1,"logicalType":"decimal","precision":%d}' % p
        fit(d, 1, 1, '"1"', r'"\u00ff"')
        unfit(d, '"12"', "1", '""', '"Ж"')
    fit('{"type":"int","logicalType":"date"}', 1, 0, "5")
    unfit('{"type":"int","logicalType":"date"}', '"1970-01-01"')
    fit('{"type":{"type":{"type":"string"}}}', 1, 0, '"x"')


# ---- enums

def enums():
    three = enum("E", "A", "BC", "D_1")
    seq("a symbol, spelt in several ways")
    fit(three, 4, 7, '"A"', '"BC"', '"D_1"', r'"\u0041"', r'"B\u0043"', r'"\u0042\u0043"', r'"D\u005f1"', r'"D\u005F\u0031"')
    unfit(three, '"B"', '"C"', '"BCD"', '"AB"', '"a"', '"bc"', '""', '"E"', '"D_"', '"_1"', '" A"', '"A "', r'"\u0061"', r'"A\u0000"', r'"\\u0041"', '"ABC"', '"А"')
    unfit(three, "null", "0", "1", "true", '["A"]', '{"A":0}', '{"E":"A"}')
    seq("an enum with escapes in its symbols")
    escaped = r'{"type":"enum","name":"E","symbols":["\u0041","B\u0043"]}'
    fit(escaped, 3, 4, '"A"', '"BC"', r'"\u0041"', r'"B\u0043"')
    unfit(escaped, r'"\\u0041"', '"B"')
    seq("an enum's own default does not help, and its alias is no symbol")
    own = '{"type":"enum","name":"E","aliases":["Q"],"symbols":["A","B"],"default":"A"}'
    fit(own, 4, 4, '"A"', '"B"')
    unfit(own, '"C"', '"Q"', '"E"', "null")
    put(0, rec("R", fld("a", '{"type":"enum","name":"E","symbols":["A"],"default":^"B"}') [:-1] + ',"default":"A"}'), 16)
    put(0, rec("R", fld("a", '{"type":"enum","name":"E","symbols":["A"],"default":^5}')[:-1] + ',"default":"x"}'), 15)
    put(0, rec("R", fld("a", '{"type":"enum","name":"E","symbols":["A"],"default":"A"}', '"x"')), 47)
    seq("an enum without symbols")
    for v in ('""', '"A"', "null", "0"):
        unfit(enum("E"), v)
    seq("an enum with a symbol like a word of JSON")
    words = enum("E", "null", "true", "int")
    fit(words, 4, 12, '"null"', '"true"', '"int"')
    unfit(words, "null", "true", '"false"')


# ---- arrays, maps, records

def parts():
    seq("arrays")
    ai = arr('"int"')
    fit(ai, 2, 0, "[]", "[ ]", "[1]", "[1,2,3]", "[-0,2147483647]", "[\t1 ,\r\n2 ]")
    unfit(ai, '["x"]', '[1,"x"]', '["x",1]', "[1,2147483648,2]", "[1,2,1.0]", "[null]", "[[]]", "[[1]]", "[1,[2]]", "{}", "1")
    fit(arr(ai), 3, 0, "[]", "[[]]", "[[1],[],[2,3]]")
    unfit(arr(ai), "[1]", "[[1],2]", "[[[]]]", '[[],["x"]]', "[[1],null]")
    fit(arr(mp(ai)), 4, 0, '[{"a":[1]},{}]', '[{"a":[],"b":[0]}]')
    unfit(arr(mp(ai)), '[{"a":1}]', '[{"a":["x"]}]', "[[]]", '{"a":[1]}')
    fit(arr("[]"), 2, 0, "[]")
    unfit(arr("[]"), "[0]", "[null]", "[[]]")
    fit(mp("[]"), 2, 0, "{}")
    unfit(mp("[]"), '{"a":null}')
    seq("maps, and keys given twice")
    mi = mp('"int"')
    fit(mi, 2, 0, "{}", '{"k":1}', '{"":0}', '{"a":1,"b":2}', '{"k":"x","k":1}', r'{"k":"x","\u006b":1}', r'{"\u006b":"x","k":1}', '{"k":[{"k":"x"}],"k":null,"k":3}', r'{"é":"x","\u00e9":1}', r'{"\/":"x","/":1}',
        r'{"\ud83d\ude00":"x","😀":1}', '{"a":"x","b":2,"a":1}', '{ "k" : 1 , "k" : 2 }')
    unfit(mi, '{"k":1,"k":"x"}', r'{"k":1,"\u006b":"x"}', r'{"\u006b":1,"k":"x"}', '{"k":"x","K":1}', '{"k":"x","k ":1}', '{"k":"x","":1}', '{"a":1,"b":"x"}', '{"a":"x","b":1}', '{"k":1,"k":null}', '{"a":1,"b":2,"a":"x"}', '{"kk":"x","k":1}',
          r'{"k":"x","k\u0000":1}')
    fit(mp(mi), 3, 0, '{"a":{"b":1}}', '{"a":{"b":"x"},"a":{"b":1}}', '{"a":{"b":"x","b":1},"c":{}}', '{"a":5,"a":{}}')
    unfit(mp(mi), '{"a":{"b":1},"a":{"b":"x"}}', '{"a":1}', '{"a":{"b":{}}}')
    seq("records: members and missing fields")
    s = rec("S", fld("x", '"int"'), fld("y", '"string"', '"d"').replace("^", ""))
    fit(s, 5, 6, '{"x":1}', '{"x":1,"y":"e"}', '{"y":"e","x":1}', '{"x":"s","x":1}', r'{"\u0078":1}', r'{"x":"s","\u0078":1}', r'{"\u0078":"s","x":1}', '{"x":1,"y":5,"y":""}', '{"x":1,"z":"u","":[],"X":{}}', '{ "x" : 1 }')
    unfit(s, "{}", '{"y":"e"}', '{"x":1,"y":5}', '{"x":1,"y":null}', '{"x":1,"x":"s"}', r'{"x":1,"\u0078":"s"}', r'{"\u0078":1,"x":"s"}', '{"x":1,"y":"e","y":5}', '{"X":1}', '{"x ":1}', '{"xx":1}', '{"":1}', '{"x":null}', "[]", "null", '"x"', "[1]",
          '{"S":{"x":1}}')
    seq("records: a field's alias as key")
    s = rec("S", fld("x", '"int"', None, ',"aliases":["w","v"]'))
    fit(s, 5, 4, '{"x":1}', '{"x":1,"w":2}', '{"w":"s","x":1}')
    unfit(s, '{"w":1}', '{"v":1}', '{"w":1,"v":1}', '{"w":1,"x":"s"}')
    s = rec("S", fld("x", '"int"', "0", ',"aliases":["w","v"]').replace("^", ""))
    fit(s, 5, 5, '{"w":1}', '{"w":"s"}', "{}")
    unfit(s, '{"w":1,"x":"s"}')
    seq("records: the names of others as keys")
    s = rec("S", fld("x", '"int"'), fld("xy", '"int"'))
    fit(s, 5, 4, '{"x":1,"xy":2}')
    unfit(s, '{"x":1}', '{"xy":1}', '{"x":1,"y":2}', '{"R":1,"a":2}', '{"x":1,"xY":2}')
    s = rec("S", fld("a", '"int"'))
    fit(s, 3, 2, '{"a":1}')
    unfit(s, "{}", '{"a":{"a":1}}')
    seq("records in records")
    inner = rec("T", fld("y", '"int"'), fld("z", '"int"', "0").replace("^", ""))
    s = rec("S", fld("x", inner))
    fit(s, 7, 6, '{"x":{"y":1}}', '{"x":{"y":1,"z":2}}', '{"x":{"z":"s","y":1,"z":2}}')
    unfit(s, '{"x":{}}', '{"x":{"z":1}}', '{"x":{"y":1,"z":"s"}}', '{"y":1}', '{"x":{"y":"s"}}', '{"x":[]}')
    seq("records without fields take any object")
    fit(rec("S"), 1, 1, "{}", '{"a":1}', '{"":[[[{"x":null}]]]}')
    unfit(rec("S"), "[]", "null", '""', "0")
    seq("a record of arrays and maps of records")
    s = rec("S", fld("x", arr(rec("T", fld("y", mp('"S"'))))))
    fit(s, 7, 5, '{"x":[]}', '{"x":[{"y":{}}]}', '{"x":[{"y":{"k":{"x":[]}}},{"y":{}}]}')
    unfit(s, '{"x":[{}]}', '{"x":[{"y":{"k":{}}}]}', '{"x":[{"y":{"k":{"x":[{}]}}}]}', '{"x":{}}')


# ---- nested defaults: the first field row in preorder

def preorder():
    seq("the outer field before the inner")
    put(0, rec("R", fld("a", rec("S", fld("x", '"int"', '"p"').replace("^", "")), "7")), 47)
    put(0, rec("R", fld("a", rec("S", fld("x", '"int"', '"p"')), "{}").replace("^{", "{")), 47)
    put(0, rec("R", fld("a", rec("S", fld("x", '"int"', '"p"')))), 47)
    put(0, '{"type":"record","name":"R","fields":[{"default":^7,"name":"a","type":%s}]}' % rec("S", '{"default":"p","name":"x","type":"int"}'), 47)
    put(0, '{"fields":[{"type":{"fields":[{"type":"int","default":"p","name":"x"}],"name":"S","type":"record"},"default":^7,"name":"a"}],"name":"R","type":"record"}', 47)
    put(0, rec("R", fld("a", rec("S", fld("x", '"int"', "1")), "{}")), (1, 5, 7))
    seq("the inner before the next outer one")
    put(0, rec("R", fld("a", rec("S", fld("x", '"int"', '"p"'))), fld("b", '"int"', '"q"').replace("^", "")), 47)
    put(0, rec("R", fld("a", rec("S", fld("x", '"int"', "1").replace("^", ""))), fld("b", '"int"', '"q"')), 47)
    put(0, rec("R", fld("a", '"int"', '"q"'), fld("b", rec("S", fld("x", '"int"', '"p"').replace("^", "")))), 47)
    put(0, rec("R", fld("a", '"int"', '"q"'), fld("b", '"int"', '"r"').replace("^", "")), 47)
    put(0, rec("R", fld("a", '"int"', "1").replace("^", ""), fld("b", '"int"', '"r"'), fld("c", '"int"', '"s"').replace("^", "")), 47)
    put(0, rec("R", fld("a", '"int"'), fld("b", '"int"', '"r"')), 47)
    seq("fields inside unions, arrays and maps")
    inside = rec("S", fld("x", '"int"', '"p"'))
    for t in (arr(inside), mp(inside), '["null",%s]' % inside, arr(mp('["null",%s]' % inside))):
        put(0, t, 47)
        put(0, rec("R", fld("a", t)), 47)
    put(0, rec("R", fld("a", arr(inside.replace("^", "")), "{}")), 47)
    put(0, rec("R", fld("a", arr(inside), "[]").replace("^[", "[")), 47)
    put(0, '[%s,%s]' % (rec("S", fld("x", '"int"', '"p"')), rec("T", fld("x", '"int"', '"p"').replace("^", ""))), 47)
    put(0, '[%s,%s]' % (rec("S", fld("x", '"int"', "1").replace("^", "")), rec("T", fld("x", '"int"', '"p"'))), 47)
    seq("a missing field's own default is not looked at from outside")
    put(0, rec("R", fld("a", rec("S", fld("x", '"int"', '"bad"')), "{}").replace("^{", "{")), 47)
    put(0, rec("R", fld("a", rec("S", fld("x", '"int"', '"bad"')), '{"x":1}').replace("^{", "{")), 47)
    put(0, rec("R", fld("a", rec("S", fld("x", rec("T", fld("y", '"int"', "2")).replace("^", ""), "{}").replace("^", "")), "{}")), (1, 7, 11))


# ---- unions

def unions():
    for order in (("null", "string", "int"), ("null", "int", "string"), ("string", "null", "int"), ("string", "int", "null"), ("int", "null", "string"), ("int", "string", "null")):
        seq("a union of %s, %s and %s" % order)
        t = '["%s","%s","%s"]' % order
        fit(t, 4, 0, "null", '"x"', "1", '""')
        unfit(t, "1.0", "true", "2147483648", '{"string":"x"}', "[]", "[null]")
    seq("unions of none and of one")
    unfit("[]", "null", "0", '""', "[]", "{}", "false")
    fit('["null"]', 2, 0, "null")
    unfit('["null"]', "0", '"null"', "[null]")
    fit('["string"]', 2, 0, '"null"')
    unfit('["string"]', "null")
    seq("unions of kinds that look alike")
    fit('["int","long"]', 3, 0, "1", "2147483648", "-9223372036854775808")
    unfit('["int","long"]', "9223372036854775808", "1.0")
    fit('["int","float"]', 3, 0, "1", "1.0", "2147483648", "1e999")
    fit('["bytes","string"]', 3, 0, '"Ж"', '"a"')
    unfit('["bytes",%s]' % fixed("F", 2), '"Ж"', '"ЖЖ"')
    fit('["bytes",%s]' % fixed("F", 2), 3, 1, '"a"', '"ab"', '"abc"')
    fit('[%s,%s]' % (fixed("F", 2), fixed("G", 3)), 3, 2, '"ab"', '"abc"')
    unfit('[%s,%s]' % (fixed("F", 2), fixed("G", 3)), '"a"', '"abcd"')
    fit('[%s,%s]' % (enum("E", "A"), enum("F", "B")), 5, 4, '"A"', '"B"')
    unfit('[%s,%s]' % (enum("E", "A"), enum("F", "B")), '"C"', '"AB"')
    fit('[%s,%s]' % (enum("E", "A"), fixed("F", 1)), 4, 3, '"A"', '"B"')
    unfit('[%s,%s]' % (enum("E", "A"), fixed("F", 2)), '"B"', '"ABC"')
    seq("unions of records and maps")
    rs, rt = rec("S", fld("x", '"int"')), rec("T", fld("y", '"string"'))
    for t in ("[%s,%s]" % (rs, rt), "[%s,%s]" % (rt, rs)):
        fit(t, 7, 4, '{"x":1}', '{"y":"s"}', '{"x":1,"y":1}', '{"x":"s","y":"s"}')
        unfit(t, '{"x":"s","y":1}', "{}", '{"S":{"x":1}}', '{"x":"s"}')
    for t in ("[%s,%s]" % (rs, mp('"string"')), "[%s,%s]" % (mp('"string"'), rs)):
        fit(t, 6, 2, '{"x":1}', '{"x":"s"}', "{}", '{"x":1,"y":[]}')
        unfit(t, '{"x":1.0}', '{"x":"s","y":1}', "[]")
    seq("unions inside arrays and maps, arrays inside unions")
    t = arr('["null","int"]')
    fit(t, 4, 0, "[null,1,null]", "[]")
    unfit(t, '[null,"x"]', "null")
    t = '["null",%s]' % arr('["null","int"]')
    fit(t, 6, 0, "null", "[null,1]")
    unfit(t, '[null,[]]', "1")
    t = mp('["null",%s]' % mp('["null","string"]'))
    fit(t, 7, 0, '{"a":null,"b":{"c":null,"d":"e"}}')
    unfit(t, '{"a":{"b":{}}}')
    seq("unions of references")
    at_end(enum("n.E", "A", "B"), (1, 3, 5))
    at_end(fixed("n.F", 3), (2, 4, 8))
    at_end(rec("n.S", fld("x", '["null","n.S"]')), (3, 9, 15))
    for t in ('["n.E","n.F","n.S"]', '["n.S","n.F","n.E"]', '["n.F","n.E","n.S"]'):
        fit(t, 4, 9, '"A"', '"abc"', '{"x":null}', '{"x":{"x":null}}', place=3, before=(9, 15))
        unfit(t, '"C"', '"ab"', "{}", '{"x":{}}', "null", place=3)
    fit('["null","n.E"]', 3, 3, "null", '"B"', place=3, before=(9, 15))
    unfit('["n.E"]', "null", '"abc"', place=3)


# ---- references

def references():
    seq("a record that refers to itself")
    put(0, rec("R", fld("a", '"R"', "{}")), (1, 3, 5))
    put(0, rec("R", fld("a", '"R"', '{"a":{}}')), (1, 3, 11))
    put(0, rec("R", fld("a", '"R"', '{"a":{"a":{"b":5}}}')), (1, 3, 22))
    for v in ("null", '{"a":null}', '{"a":{"a":[]}}', "[]", "1"):
        put(0, rec("R", fld("a", '"R"', v)), 47)
    put(0, rec("R", fld("a", '["null","R"]', '{"a":{"a":null}}')), (1, 5, 19))
    put(0, rec("R", fld("a", '["R","null"]', "null")), (1, 5, 7))
    put(0, rec("R", fld("a", arr('"R"'), '[{},{"a":[{}]}]')), (1, 4, 18))
    put(0, rec("R", fld("a", arr('"R"'), '[{},{"a":[{"a":{}}]}]')), 47)
    put(0, rec("R", fld("a", mp('"R"'), '{"a":{"a":{"a":{}}}}')), (1, 4, 23))
    put(0, rec("R", fld("a", mp('"R"'), '{"a":{"a":{"a":[]}}}')), 47)
    seq("an open record's fields behind the reference count")
    b = fld("b", '"int"')
    put(0, rec("R", fld("a", '["null","R"]', '{"b":1}'), b), (1, 7, 11))
    put(0, rec("R", fld("a", '["null","R"]', "{}"), b), 47)
    put(0, rec("R", fld("a", '["null","R"]', '{"b":"x"}'), b), 47)
    put(0, rec("R", fld("a", '["null","R"]', "{}"), fld("b", '"int"', "0")), (1, 7, 7))
    put(0, rec("R", fld("a", '["null","R"]', '{"b":1,"a":{"b":2,"a":null}}'), b), (1, 7, 32))
    put(0, rec("R", fld("a", '["null","R"]', '{"b":1,"a":{"a":null}}'), b), 47)
    put(0, rec("R", fld("a", '"R"', '{"b":{"b":{}}}'), fld("b", '"R"', "{}")), (1, 5, 21))
    put(0, rec("R", fld("a", '"R"', '{"b":{"c":1}}'), fld("b", '["null","R"]'), fld("c", '"int"')), 47)
    put(0, rec("R", fld("a", '"R"', '{"b":null,"c":1}'), fld("b", '["null","R"]'), fld("c", '"int"')), (1, 9, 22))
    seq("the record around an inner one")
    put(0, rec("R", fld("a", rec("S", fld("x", '"R"', '{"b":1}'))), b), 47)
    put(0, rec("R", fld("a", rec("S", fld("x", '"R"', '{"b":1,"a":{}}'))), b), (1, 7, 20))
    put(0, rec("R", fld("a", rec("S", fld("x", '"R"', '{"b":1}').replace("^", "")), "{}"), b), (1, 7, 15))
    put(0, rec("R", fld("a", rec("S", fld("x", '["null","R"]', "null").replace("^", "")), '{"x":{"b":1}}'), b), (1, 9, 23))
    put(0, rec("R", fld("a", rec("S", fld("x", '["null","R"]', "null").replace("^", "")), '{"x":{"b":1,"a":{"x":{}}}}'), b), 47)
    seq("definitions earlier in the same declaration")
    put(0, rec("R", fld("e", enum("E", "A")), fld("f", '"E"', '"A"')), (1, 6, 9))
    put(0, rec("R", fld("e", enum("E", "A")), fld("f", '"E"', '"B"')), 47)
    put(0, rec("R", fld("e", fixed("F", 2)), fld("f", '"F"', '"ab"')), (1, 5, 9))
    put(0, rec("R", fld("e", fixed("F", 2)), fld("f", '"F"', '"a"')), 47)
    put(0, rec("R", fld("e", rec("S", fld("x", '"int"'))), fld("f", arr('"S"'), '[{"x":1}]')), (1, 8, 15))
    put(0, rec("R", fld("e", rec("S", fld("x", '"int"'))), fld("f", arr('"S"'), '[{"x":1},{}]')), 47)
    put(0, rec("R", fld("e", '["null",%s]' % enum("E", "A"), "null").replace("^", ""), fld("f", '["null","E"]', '"A"')), (1, 10, 13))
    seq("definitions of other declarations")
    at_end(enum("E", "A"), (1, 2, 2))
    at_end(fixed("F", 1), (2, 3, 3))
    at_end(rec("S", fld("e", '"E"'), fld("f", '["null","F"]', "null"), fld("s", '["null","S"]', "null")), (3, 14, 18))
    for v, good in (('{"e":"A"}', 1), ('{"e":"A","f":"x"}', 1), ('{"e":"A","s":{"e":"A"}}', 1), ('{"e":"A","s":{"e":"A","s":{"e":"A","f":"ÿ"}}}', 1), ("{}", 0), ('{"e":"B"}', 0), ('{"e":"A","f":"xy"}', 0), ('{"e":"A","s":{}}', 0),
                    ('{"e":"A","s":{"e":"A","f":"Ж"}}', 0), ('{"e":null}', 0)):
        if good:
            fit('"S"', 1, 1, v, place=3, before=(14, 18))
        else:
            unfit('"S"', v, place=3)
    put(3, rec("R", fld("a", arr('"E"'), '["A","A"]'), fld("b", mp('"F"'), '{"k":"1"}'), fld("c", '["F","E"]', '"A"')), (4, 25, 47))
    full()
    seq("namespaces: the type's full name decides, the value's strings are none")
    at_end(enum("a.E", "A"), (1, 2, 4))
    at_end(enum("b.E", "B"), (2, 4, 8))
    at_end(enum("E", "C"), (3, 6, 10))
    R = '{"type":"record","name":"a.R","fields":[%s]}'
    put(3, R % fld("x", '"E"', '"A"'), (4, 9, 20))
    for t, v in (('"E"', '"B"'), ('"b.E"', '"A"'), ('"E"', '"C"'), ('".E"', '"A"'), ('"E"', '"a.A"'), ('"E"', '".A"')):
        put(3, R % fld("x", t, v), 47)
    put(3, R % fld("x", '"b.E"', '"B"'), (4, 9, 20))
    put(3, R % fld("x", '".E"', '"C"'), (4, 9, 18))
    put(3, '{"type":"record","name":"R","namespace":"b","fields":[%s]}' % fld("x", '"E"', '"B"'), (4, 9, 20))
    put(3, '{"type":"record","name":"R","namespace":"","fields":[%s]}' % fld("x", '"E"', '"C"'), (4, 9, 16))
    put(3, '{"type":"record","name":"R","namespace":"a","fields":[%s]}' % fld("x", '["null",{"type":"record","name":"S","namespace":"b","fields":[%s]}]' % fld("y", '"E"', '"B"').replace("^", ""), "{}"), (4, 13, 26))
    put(3, '{"type":"record","name":"R","namespace":"a","fields":[%s]}' % fld("x", '["null",{"type":"record","name":"S","namespace":"b","fields":[%s]}]' % fld("y", '"E"', '"A"')), 47)
    put(3, '{"type":"record","name":"R","namespace":"a","fields":[%s]}' % fld("x", '"b.R"', "{}").replace('"b.R"', '^"b.R"'), 26)
    put(3, '{"type":"record","name":"a.R","fields":[%s]}' % fld("x", '"R"', "{}"), (4, 9, 19))
    put(3, '{"type":"record","name":"a.R","aliases":["Q"],"fields":[%s]}' % fld("x", '^"Q"', "{}"), 26)


# ---- values nested deep

def deep():
    seq("a recursive record, its value forty levels deep")
    R = lambda v, t='["null","R"]': rec("R", fld("a", t, v))
    for n in (1, 2, 20, 41):
        put(0, R('{"a":' * n + "null" + "}" * n), (1, 5, 2 + 1 + 4 + 6 * n))
    for n in (1, 20, 41):
        put(0, R('{"a":' * n + "1" + "}" * n), 47)
    put(0, R('{"a":' * 41 + '"x"' + "}" * 41), 47)
    put(0, R('{"a":' * 42 + "null" + "}" * 42), 48)
    put(0, R('{"a":' * 42 + "{}" + "}" * 42), (1, 5, 257))
    put(0, R('{"a":' * 42 + "{} " + "}" * 42), (1, 5, 258))
    put(0, R('{"a":' * 42 + "{  }" + "}" * 42), 48)
    put(0, R('{"a":' * 42 + "[]" + "}" * 42), 47)
    seq("arrays of itself")
    for n in (1, 10, 30):
        put(0, R("[" + '{"a":[' * n + "]}" * n + "]", arr('"R"')), (1, 4, 5 + 8 * n))
        put(0, R("[" + '{"a":[' * n + "1" + "]}" * n + "]", arr('"R"')), 47)
        put(0, R('{"a":[' * n + "]}" * n, arr('"R"')), 47)


def deeper():
    seq("arrays nested 61 deep, the most that a text takes in a field of its outermost record")
    for n in (2, 61):
        t = '{"type":"array","items":' * n + '"int"' + "}" * n
        put(0, rec("R", fld("a", t, "[" * n + "7" + "]" * n)), (1, 3 + n, 3 + 2 * n))
        put(0, rec("R", fld("a", t, "[" * n + "true" + "]" * n)), 47)
        put(0, rec("R", fld("a", t, "[" * (n - 1) + "7" + "]" * (n - 1))), 47)
        put(0, rec("R", fld("a", t, "[" * (n - 1) + "{}" + "]" * (n - 1))), 47)
    t = '{"type":"array","items":' * 61 + '"int"' + "}" * 61
    put(0, rec("R", fld("a", t)[:-1] + ',"default":' + "[" * 61 + "^[" + "]" * 62 + "}"), 3)
    seq("unions of recursive records: each pair of a value and a type is decided once")
    two = rec("A", fld("a", '["A",%s]' % rec("B", fld("a", '["null","A","B"]')), "%s"))
    for n in (2, 12, 40):
        put(0, two % ('{"a":' * n + "null" + "}" * n), (1, 10, 11 + 6 * n))
        put(0, two % ('{"a":' * n + "1" + "}" * n), 47)
    five = rec("A", fld("a", '["A",%s,"null"]' % ",".join(rec(x, fld("a", '["null","A",%s]' % ",".join('"%s"' % y for y in "BCDE" if y <= x))) for x in "BCDE"), "%s"))
    for v, good in (('{"a":' * 40 + "null" + "}" * 40, 1), ('{"a":' * 40 + '"z"' + "}" * 40, 0), ('{"a":' * 40 + "[]" + "}" * 40, 0)):
        put(0, five % v, (1, 35, 25 + len(v)) if good else 47)
    wide = rec("A", fld("a", '["null",%s,%s]' % (arr('"A"'), mp('"A"')), "%s"))
    for v, good in (('{"k":{"a":[{"a":null},{"a":{"k":{"a":null}}}]}}', 1), ("[" + ",".join(["{}"] * 80) + "]", 1), ("[" + ",".join(['{"a":[]}'] * 28) + "]", 1), ("[" + ",".join(['{"a":[]}'] * 27) + ',{"a":1}]', 0), ('{"k":{"a":[{"a":null},{"a":{"k":{"b":null}}}]}}', 1),
                    ('{"k":{"a":[{"a":null},{"a":{"k":{"a":0}}}]}}', 0)):
        put(0, wide % v, (1, 8, 4 + len(v)) if good else 47)


# ---- what is no default of a field

def elsewhere():
    seq("a default beside a type that is no field")
    put(0, '{"type":"int","default":"x"}', (1, 1, 0))
    put(0, '{"type":"int","default":"%s"}' % ("x" * 300), (1, 1, 0))
    put(0, '{"type":"array","items":"int","default":{}}', (1, 2, 0))
    put(0, '{"type":"map","values":"int","default":"%s"}' % ("x" * 300), (1, 2, 0))
    put(0, '{"type":"record","name":"R","fields":[],"default":5}', (1, 1, 1))
    put(0, '{"type":"fixed","name":"F","size":1,"default":"xyz"}', (1, 1, 1))
    put(0, '["null",{"type":"string","default":5}]', (1, 3, 0))
    put(0, rec("R", fld("a", '{"type":"int","default":"x"}')), (1, 3, 2))
    put(0, rec("R", fld("a", '{"type":"int","default":"x"}', "5")), (1, 3, 3))
    put(0, rec("R", fld("a", '{"type":"int","default":5}', '"x"')), 47)
    put(0, rec("R", fld("a", '{"type":"array","items":{"type":"int","default":"x"},"default":"%s"}' % ("y" * 260), "[5]")), (1, 4, 5))
    put(0, rec("R", fld("a", rec("S", more=',"default":"x"'), "{}")), (1, 3, 5))
    seq("an enum's default keeps its own rules")
    put(0, '{"type":"enum","name":"E","symbols":["A"],"default":"A"}', (1, 2, 2))
    put(0, '{"type":"enum","name":"E","symbols":["A"],"default":^"B"}', 16)
    put(0, '{"type":"enum","name":"E","symbols":["A"],"default":^1}', 15)
    put(0, '{"type":"enum","name":"E","symbols":["A"],"default":^"%s"}' % ("x" * 300), 16)
    put(0, rec("R", '{"name":"a","type":"enum","symbols":["A"],"default":"A"}').replace('"enum"', '^"enum"'), 26)
    seq("elements of fields that are no objects, and members that only look alike")
    put(0, rec("R", "5", '"default"', '["default",5]', fld("a", '"int"', "1"), "null"), (1, 3, 3))
    put(0, rec("R", '{"name":"a","type":"int","Default":"x"}', '{"name":"b","type":"int","default ":"x"}', '{"name":"c","type":"int","":"x"}', '{"name":"d","type":"int","defaults":"x"}', r'{"name":"e","type":"int","default\u0000":"x"}'), (1, 11, 6))
    put(0, rec("R", '{"name":"a","type":"int","x":{"default":"x"},"aliases":["default"]}'), (1, 4, 9))
    put(0, rec("default", '{"name":"default","type":"int","default":7}'), (1, 3, 15))
    put(0, rec("R", fld("a", '"int"'), more=',"default":{"a":"x"}'), (1, 3, 2))
    seq("error is no record kind here")
    put(0, '{"type":^"error","name":"E","fields":[{"name":"a","type":"int","default":"x"}]}', 26)
    put(0, rec("error", fld("a", '"int"', "1")), (1, 3, 7))
    put(1, '{"type":"error","name":"E","fields":[{"name":"a","type":"int","default":"x"}]}', (2, 4, 12))
    put(1, rec("R", fld("a", '{"type":"error","default":5}', '{"a":2}')), (2, 6, 21))
    put(1, rec("R", fld("a", '{"type":"error"}', '{"a":"x"}')), 47)


def twice():
    seq("default given twice: the last counts")
    put(0, rec("R", '{"name":"a","type":"int","default":"x","default":5}'), (1, 3, 3))
    kept(0, 1, "5", 87)
    put(0, rec("R", '{"name":"a","type":"int","default":5,"default":^"x"}'), 47)
    put(0, rec("R", '{"default":"x","name":"a","default":null,"type":"int","default":5}'), (1, 3, 3))
    put(0, rec("R", '{"default":5,"name":"a","default":^null,"type":"int"}'), 47)
    put(0, rec("R", r'{"name":"a","type":"int","default":"x","def\u0061ult":5}'), (1, 3, 3))
    put(0, rec("R", r'{"name":"a","type":"int","\u0064efault":5,"default":^"x"}'), 47)
    put(0, rec("R", r'{"name":"a","type":"int","default":5,"\u0064efault":^"x"}'), 47)
    put(0, rec("R", r'{"name":"a","type":"int","\u0064\u0065\u0066\u0061\u0075\u006c\u0074":^"x"}'), 47)
    seq("default given twice: the last is measured")
    long = '"%s"' % ("x" * 254)
    put(0, rec("R", '{"name":"a","type":"string","default":%s,"default":"y"}' % long), (1, 3, 5))
    put(0, rec("R", '{"name":"a","type":"string","default":"y","default":^%s}' % long), 48)
    put(0, rec("R", '{"name":"a","default":%s,"type":"string","default":^%s}' % (long, long)), 48)
    seq("the last of equal keys everywhere")
    put(0, rec("R", '{"name":"a","type":"string","type":"int","default":^"x"}'), 47)
    put(0, rec("R", '{"name":"a","type":"string","default":"x","type":"int","default":5,"name":"b"}'), (1, 3, 3))
    put(0, rec("R", '{"name":"a","aliases":["1"],"type":"int","default":5,"aliases":["z"]}'), (1, 4, 4))
    put(0, '{"type":"record","name":"R","fields":[{"name":"a","type":"int","default":"x"}],"fields":[{"name":"a","type":"int","default":^true}]}', 47)
    put(0, '{"type":"record","name":"R","fields":[{"name":"a","type":"int","default":"%s"}],"fields":[{"name":"a","type":"int","default":6}]}' % ("x" * 254), (1, 3, 3))


# ---- what is kept

def texts_kept():
    seq("white space around a default is cut, white space inside is kept")
    for before, text, after in (("", "5", ""), (" ", "5", ""), ("", "5", " "), ("\t\r\n ", "5", " \n\r\t"), ("  ", "-0", "  ")):
        put(0, '{"type":"record","name":"R","fields":[{"name":"a","type":"int","default":%s^%s%s}]}' % (before, text, after), (1, 3, 2 + len(text)))
        kept(0, 1, text, 73 + len(before))
    for text in ("[]", "[ ]", "[\t]", "[\r\n]", "[ 1]", "[1 ]", "[ 1 , 2 ]", "[1,2]", "[1\n,\n2]"):
        put(0, '{"type":"record","name":"R","fields":[{"name":"a","type":{"type":"array","items":"int"},"default": ^%s }]}' % text, (1, 4, 2 + len(text)))
        kept(0, 1, text, 99)
    for text in ('{ "k" : 1 }', '{"k":1,"k":1}', r'{"\u006b":1}', '{ }'):
        fit(mp('"int"'), 2, 0, text)
        kept(0, 1, text)
    for text in ('" "', '"\\n"', '"  x  "', r'"\u0020"', '"é"', r'"\u00e9"', r'"\u00E9"', '"/"', r'"\/"', '"😀"', r'"\ud83d\ude00"'):
        fit('"string"', 1, 0, text)
        kept(0, 1, text)
    seq("a default before, between and behind the other members")
    put(0, '{"type":"record","name":"R","fields":[{"default":5,"name":"a","type":"int"}]}', (1, 3, 3))
    kept(0, 1, "5", 49)
    put(0, '{"type":"record","name":"R","fields":[{"name":"a","default":5,"aliases":["b"],"type":"int"}]}', (1, 4, 4))
    kept(0, 1, "5", 60)
    put(0, '{"fields":[{"type":"int","name":"a","default" : 55 , "doc":"d"}],"type":"record","name":"R"}', (1, 3, 4))
    kept(0, 1, "55", 48)
    put(0, ' {"type":"record","name":"R","fields":[{"name":"a","type":"null","default":null}]}', (1, 3, 6))
    kept(0, 1, "null", 75)
    put(0, '{"type":"record","name":"R","fields":[{"name":"é","type":"int","default":5}]}'.replace("é", r"\u0061"), (1, 3, 3))
    kept(0, 1, "5", 78)
    put(0, '{"doc":"é","type":"record","name":"R","fields":[{"name":"a","type":"int","default":5}]}', (1, 3, 3))
    kept(0, 1, "5", 84)
    seq("null is a default")
    fit('"null"', 1, 0, "null")
    kept(0, 1, "null", 74)
    put(0, rec("R", fld("a", '"null"')), (1, 3, 2))
    assert say("rows 0")[1].endswith(" 0 -")
    put(0, rec("R", fld("a", rec("S", fld("x", '"null"', "null").replace("^", "")), "{}")), (1, 5, 10))
    put(0, rec("R", fld("a", rec("S", fld("x", '"null"')), "{}")), 47)
    seq("rows that differ in a default's spacing or spelling differ in memory")
    before = set()
    for v in ("[1,2]", "[1, 2]", "[1 ,2]", "[ 1,2]", "[1,2 ]", "[1,2,3]"):
        fit(arr('"int"'), 2, 0, v)
        assert Now.digest[0] not in before
        before.add(Now.digest[0])
    fit(arr('"int"'), 2, 0, "[1,2]")
    assert Now.digest[0] in before
    seq("the position at the end of a long text, and in a replacement before it")
    at_end(enum("E", "A", "B"), (1, 3, 3))
    text = '{"type":"record","name":"R","fields":[{"name":"e","type":"E","default":%s"B"}]}'
    put(1, text % (" " * (5000 - len(text % "")) + "^"), (2, 6, 9))
    kept(1, 1, '"B"', 4994)
    put(0, enum("E", "A"), 47, behind=1)
    assert asked() == "refused 47 1 4994"
    put(0, enum("E", "B"), (2, 5, 8))


def lengths():
    def lengths_of(label, type_, rows, string_bytes, make):
        """make gives a text of so many bytes that fits."""
        seq("253 to 256 bytes: " + label)
        for n in (253, 254, 255) if label == "letters" else (254, 255):
            assert size(make(n)) == n, (label, n, size(make(n)))
            fit(type_, rows, string_bytes, make(n))
            if n == 255:
                kept(0, 1, make(n))
        assert size(make(256)) == 256
        put(0, one(type_, make(256)), 48)
        if label in ("letters", "white space inside"):
            put(0, one('"boolean"', make(255)), 47)
            put(0, one('"boolean"', make(256)), 48)

    lengths_of("letters", '"string"', 1, 0, lambda n: '"%s"' % ("x" * (n - 2)))
    lengths_of("letters of two bytes", '"bytes"', 1, 0, lambda n: '"%s%s"' % ("x" * (n % 2), "é" * ((n - 2) // 2)))
    lengths_of("escapes", '"string"', 1, 0, lambda n: '"%s%s"' % (r"\u00e9" * ((n - 2) // 6), "x" * ((n - 2) % 6)))
    lengths_of("short escapes", '"bytes"', 1, 0, lambda n: '"%s%s"' % (r"\n" * ((n - 2) // 2), "x" * (n % 2)))
    lengths_of("white space inside", arr('"int"'), 2, 0, lambda n: "[1,%s2]" % (" " * (n - 5)))
    lengths_of("white space of all kinds inside braces", mp('"int"'), 2, 0, lambda n: "{%s}" % (" \t\r\n" * 64)[:n - 2])
    lengths_of("digits", '"float"', 1, 0, lambda n: "1" * n)
    lengths_of("an array of numbers", arr('"int"'), 2, 0, lambda n: "[" + "1," * ((n - 3) // 2) + ("1]" if n % 2 else "11]"))
    lengths_of("members", mp('"null"'), 2, 0, lambda n: '{"%s":null}' % ("k" * (n - 9)))
    seq("253 to 256 bytes: outer white space is not counted")
    for n, want in ((255, (1, 3, 257)), (256, 48)):
        put(0, '{"type":"record","name":"R","fields":[{"name":"a","type":"string","default": \t%s^"%s"\r\n  }]}' % (" " * 300, "x" * (n - 2)), want)
    seq("253 to 256 bytes: an escape less than 256 bytes, undone far less, and the other way")
    put(0, one('"string"', '"%s"' % (r"\u0061" * 42)), (1, 3, 256))
    put(0, one('"string"', '"%sxx"' % (r"\u0061" * 42)), 48)
    put(0, one(fixed("F", 43), '"%s"' % (r"\u0061" * 43)), 48)
    put(0, one('"string"', '"%s"' % ("😀" * 63)), (1, 3, 256))
    put(0, one('"string"', '"%sab"' % ("😀" * 63)), 48)


# ---- the order of two faults

LONG = '"%s"' % ("x" * 254)


def orders():
    def D(v):
        return ',"default":' + v

    seq("48 and the faults of the same field")
    L = LONG
    put(0, rec("R", '{"name":"a","default":^%s}' % L), 48)                                      # 5
    put(0, rec("R", '^{"type":"int","default":%s}' % L), 6)
    put(0, rec("R", '^{"name":5,"type":"int","default":%s}' % L), 6)
    put(0, rec("R", '{"default":%s,"name":"^1","type":"int"}' % L), 7)
    put(0, rec("R", '{"default":%s,"name":"a","aliases":["b","c^-"],"type":"int"}' % L), 7)
    put(0, rec("R", '{"default":%s,"name":^"%s","type":"int"}' % (L, "n" * 256)), 9)
    put(0, rec("R", '{"default":%s,"name":"a","aliases":[^"%s"],"type":"int"}' % (L, "n" * 256)), 9)
    put(0, rec("R", '{"name":"a","aliases":["b",5,"1"],"default":^%s}' % L), 48)
    put(0, rec("R", '{"name":"a","aliases":"1","default":^%s,"type":"int"}' % L), 48)
    seq("48 before the faults of the field's type")
    for t in ("5", "{}", '"1"', '{"type":"record","name":"S"}', '{"type":"enum","name":"E","symbols":["A","A"]}', '{"type":"enum","name":"E","symbols":["A"],"default":"B"}', '{"type":"fixed","name":"F","size":-1}', '["int","int"]', '{"type":"array"}'):
        put(0, rec("R", '{"name":"a","type":%s,"default":^%s}' % (t, L)), 48)
    put(0, rec("R", '{"name":"a","type":%s,"default":^%s}' % (rec("S", '{"name":"x","type":"int","default":%s}' % L), L)), 48)
    put(0, rec("R", '{"name":"a","type":%s,"default":5}' % rec("S", '{"name":"x","type":"int","default":^%s}' % L)), 48)
    seq("48 and faults of other fields, in preorder")
    good, bad = fld("b", '"int"'), '{"name":"a","type":"int","default":%s}'
    put(0, rec("R", '^{"name":"b"}', bad % L), 5)
    put(0, rec("R", bad % ("^" + L), '{"name":"b"}'), 48)
    put(0, rec("R", '^{"type":"int"}', bad % L), 6)
    put(0, rec("R", bad % ("^" + L), '{"type":"int"}'), 48)
    put(0, rec("R", '{"name":"^-","type":"int"}', bad % L), 7)
    put(0, rec("R", bad % ("^" + L), '{"name":"-","type":"int"}'), 48)
    put(0, rec("R", '{"name":"b","type":^5}', bad % L), 4)
    put(0, rec("R", bad % ("^" + L), '{"name":"b","type":5}'), 48)
    put(0, rec("R", '{"name":"b","type":["int",^"int"]}', bad % L), 19)
    put(0, rec("R", bad % ("^" + L), '{"name":"b","type":["int","int"]}'), 48)
    put(0, rec("R", bad % ("^" + L), '{"name":"b","type":"int","default":%s}' % L), 48)
    seq("48 before 11, and behind 11 of an inner record")
    put(0, rec("R", fld("a", '"int"'), bad % ("^" + L)), 48)
    put(0, rec("R", bad % ("^" + L), fld("a", '"int"')), 48)
    put(0, rec("R", fld("b", rec("S", fld("x", '"int"'), '{"name":^"x","type":"int"}')), bad % L), 11)
    put(0, rec("R", bad % ("^" + L), fld("b", rec("S", fld("x", '"int"'), fld("x", '"int"')))), 48)
    put(0, rec("R", fld("a", '"int"', '"bad"').replace("^", ""), '{"name":^"a","type":"int","default":5}'), 11)
    seq("48 and 19: of the union around, of the union inside")
    put(0, '[%s,^%s]' % (rec("S"), rec("S", bad % L)), 19)
    put(0, '[%s,%s,%s]' % (rec("S"), rec("T", bad % ("^" + L)), rec("S")), 48)
    put(0, '[%s,^%s,%s]' % (rec("S"), rec("S"), rec("T", bad % L)), 19)
    put(0, rec("R", '{"name":"a","default":^%s,"type":["int","int"]}' % L), 48)
    seq("48 and the definition around: 6 to 10 come before")
    put(0, '^{"type":"record","fields":[%s]}' % (bad % L), 6)
    put(0, '{"type":"record","name":"^1","fields":[%s]}' % (bad % L), 7)
    put(0, '{"type":"record","name":^"int","fields":[%s]}' % (bad % L), 8)
    put(0, '{"type":"record","name":"R","aliases":["^"],"fields":[%s]}' % (bad % L), 7)
    put(0, '^{"type":"record","name":"R","fields":{"a":%s}}' % (bad % L), 10)
    seq("48 behind the scan, 20, 21")
    put(0, rec("R", bad % L) + "^x", 2)
    put(0, rec("R", bad % ('"' + "x" * 254 + "\\^x" + '"')), 2)
    put(1, rec("R", bad % L), 21)
    put(0, '"int"', (1, 1, 0))
    poke(65, b"\1")
    put(0, rec("R", bad % L), 20)
    put(0, rec("R", bad % '"x"'), 20)
    poke(65, b"\0")
    digest()

    seq("22 before 48 and 47")
    for i in range(32):
        at_end(one('"int"', "5") if i == 7 else "[]", None)
    put(32, rec("S", bad % L), 22)
    put(32, rec("S", bad % '"x"'), 22)
    put(33, rec("S", bad % L), 21)
    put(31, rec("S", bad % ("^" + L)), 48)
    put(31, rec("S", bad % '^"x"'), 47)
    put(31, rec("S", bad % "6"), (32, 36, 6))

    seq("48 before 23, 25, 26 and 47")
    at_end(fixed("F", 1), (1, 1, 1))
    put(1, rec("F", bad % ("^" + L)), 48)
    put(1, rec("R", fld("b", '"U"'), bad % ("^" + L)), 48)
    put(1, rec("R", fld("b", '"int"', '"x"').replace("^", ""), bad % ("^" + L)), 48)
    put(1, sequences.rows("H", 1021), (2, 1022, 1022))
    put(2, rec("R", bad % ("^" + L)), 48)
    put(2, rec("R", bad % '"x"'), 23)
    put(2, rec("R"), (3, 1023, 1023))
    put(2, rec("R", bad % '"x"'), 23)
    put(2, rec("R", bad % ("^" + L)), 48)
    seq("48 before 24 and 47")
    at_end(fixed("F", 1), (1, 1, 1))
    put(1, weight("W", 16383), (2, 67, 16384))
    put(1, "[%s,%s]" % (weight("W", 16383).replace("^", ""), rec("R", bad % ("^" + L))), 48)
    put(1, "[%s,%s]" % (weight("W", 16383).replace("^", ""), rec("R", bad % '"x"')), 24)
    put(2, rec("R", bad % ("^" + L)), 48)
    put(2, rec("R", bad % "1"), 24)
    put(0, rec("R", bad % ("^" + L)), 48)

    seq("25 and 26 of a whole declaration before its 47")
    at_end(fixed("F", 1), (1, 1, 1))
    d = fld("a", '"int"', '"x"').replace("^", "")
    put(1, rec("R", d, fld("b", '^"U"')), 26)
    put(1, rec("R", d, fld("b", fixed("F", 1)).replace('"F"', '^"F"')), 25)
    put(1, '{"type":"record","name":^"F","fields":[%s]}' % d, 25)
    put(1, rec("R", fld("b", '^"U"'), d), 26)
    put(1, rec("R", d, fld("b", rec("S", fld("c", '^"U"')))), 26)
    put(1, "[%s,^\"U\"]" % rec("R", d), 26)
    put(1, rec("R", fld("a", '^"U"', '"x"').replace(":^\"x", ':"x')), 26)
    put(1, rec("R", fld("a", '"int"', '"x"'), fld("b", '"F"')), 47)
    put(1, rec("R", fld("b", '"F"'), fld("a", '"int"', '"x"')), 47)
    put(1, rec("R", fld("a", '["null","R",^"U"]', "null").replace("^null", "null")), 26)
    seq("11 and 19 before 47")
    put(0, rec("R", d, '{"name":^"a","type":"int"}'), 11)
    put(0, rec("R", d, '{"name":"b","type":["int",^"int"]}'), 19)
    put(0, rec("R", d, '^{"name":"b"}'), 5)
    put(0, rec("R", d, '{"name":"b","type":^5}'), 4)

    seq("47 of a declaration before 23 of the next, behind its own 23")
    at_end(enum("E", "A", "B"), (1, 3, 3))
    at_end(rec("R", fld("e", '"E"', '"B"')), (2, 6, 9))
    at_end(sequences.rows("H", 1018), (3, 1024, 9 + 1 + 1017))
    put(0, enum("E", "B", "C", "D"), 23, behind=2)
    put(0, enum("E", "A", "C", "D"), 47, behind=1)
    put(1, rec("R", fld("e", '"E"', '"B"'), fld("f", '"int"')), 23, behind=2)
    put(1, rec("R", fld("e", '"E"', '"C"'), fld("f", '"int"')), 47)
    put(0, '{"type":"enum","name":"E","aliases":[%s],"symbols":["A"]}' % ",".join(['"a"'] * 1022), 23, behind=1)
    seq("47 of a declaration before 24 of the next, behind its own 24")
    at_end(enum("E", "A", "B"), (1, 3, 3))
    at_end(rec("R", fld("e", '"E"', '"B"')), (2, 6, 9))
    at_end(weight("H", 16375), (3, 6 + 65, 16384))
    put(0, enum("E", "BB", "B"), 24, behind=2)
    put(0, enum("E", "BB", "C"), 47, behind=1)
    put(1, rec("R", fld("e", '"E"', '"B" ')), (3, 6 + 65, 16384))
    put(1, rec("R", fld("e", arr('"E"'), '["B"]')), 24, behind=2)
    put(1, rec("R", fld("e", arr('"E"'), '["C"]')), 47)
    seq("47 of a declaration before 25 and 26 of the next, behind its own")
    at_end("[%s,%s]" % (enum("E", "A", "B"), fixed("F", 1)), (1, 5, 4))
    at_end(rec("R", '{"name":"e","type":"E","default":^"B"}', '{"name":"f","type":^"F","default":^"x"}'), (2, 10, 15))
    at_end('["E",^"F"]', (3, 13, 17))
    at_end(fixed("G", 1).replace('"G"', '^"G"'), (4, 14, 18))
    put(0, enum("E", "A"), 26, behind=1, which=1)
    put(0, "[%s,%s]" % (enum("E", "A"), fixed("F", 1)), 47, behind=1)
    put(0, "[%s,%s]" % (enum("E", "B"), fixed("F", 2)), 47, behind=1, which=2)
    put(0, "[%s,%s]" % (enum("E", "C"), fixed("F", 2)), 47, behind=1)
    put(0, "[%s,%s,%s]" % (enum("E", "A"), fixed("F", 1), fixed("G", 1)), 47, behind=1)
    put(0, "[%s,%s,%s]" % (enum("E", "B"), fixed("F", 1), fixed("G", 1)), 25, behind=3)
    put(1, rec("G", fld("e", '"E"', '"C"')), 47)
    put(1, rec("G", fld("e", '"E"', '"B"')), 25, behind=3)
    full()


# ---- replacements

def replacements():
    seq("an enum behind which defaults stand")
    at_end(enum("E", "A", "B", "C"), (1, 4, 4))
    at_end(rec("R", fld("a", '"E"', '"A"')), (2, 7, 10))
    at_end(rec("S", fld("b", arr('"E"'), '["B","C"]')), (3, 11, 22))
    at_end(rec("T", fld("c", '["null","E"]', '"C"')), (4, 16, 28))
    put(0, enum("E", "B", "C"), 47, behind=1)
    put(0, enum("E", "A", "C"), 47, behind=2)
    put(0, enum("E", "A", "B"), 47, behind=2)
    put(0, enum("E"), 47, behind=1)
    put(0, enum("E", "C", "B", "A"), (4, 16, 28))
    put(0, enum("E", "C", "B", "A", "D"), (4, 17, 29))
    put(2, rec("S", fld("b", arr('"E"'), '["B"]')), (4, 17, 25))
    put(0, enum("E", "A", "B"), 47, behind=3)
    put(3, rec("T", fld("c", '["null","E"]', "null")), (4, 17, 26))
    put(0, enum("E", "A", "B"), (4, 15, 24))
    put(3, rec("T", fld("c", '["null","E"]', '"C"')), 47)
    put(0, fixed("E", 1), (4, 13, 22))
    put(0, fixed("E", 2), 47, behind=1)
    put(0, rec("E"), 47, behind=1)
    full()
    seq("a refused put is cured by another")
    at_end(enum("E", "A"), (1, 2, 2))
    put(1, rec("R", fld("a", '"E"', '"B"')), 47)
    put(0, enum("E", "A", "B"), (1, 3, 3))
    put(1, rec("R", fld("a", '"E"', '"B"')), (2, 6, 9))
    put(0, enum("E", "A"), 47, behind=1)
    put(1, rec("R", fld("a", '"E"', '"A"')), (2, 6, 9))
    put(0, enum("E", "A"), (2, 5, 8))
    full()
    seq("a fixed's size")
    at_end(fixed("n.F", 3), (1, 1, 3))
    at_end('{"type":"record","name":"n.R","fields":[%s]}' % fld("a", '"F"', '"abc"'), (2, 4, 15))
    at_end(rec("S", fld("a", mp('["null","n.F"]'), '{"k":"\\u00e9ab","l":null}')), (3, 10, 45))
    for n in (0, 2, 4, 259, 2 ** 32 + 3, 2 ** 64 - 1):
        put(0, fixed("n.F", n), 47, behind=1)
    put(1, '{"type":"record","name":"n.R","fields":[%s]}' % fld("a", '"F"'), (3, 10, 40))
    for n in (0, 2, 4):
        put(0, fixed("n.F", n), 47, behind=2)
    put(0, '{"type":"fixed","name":"F","namespace":"n","size":3,"logicalType":"decimal","precision":6}', (3, 10, 40))
    put(0, '{"type":"enum","name":"n.F","symbols":["éab"]}'.replace("é", "^é"), 7)
    put(0, enum("n.F", "abc"), 47, behind=2)
    put(2, rec("S", fld("a", mp('["null","n.F"]'), '{"k":null}')), (3, 10, 25))
    put(0, enum("n.F", "abc"), (3, 11, 28))
    full()
    seq("a record whose fields change")
    at_end(rec("S", fld("x", '"int"')), (1, 3, 2))
    at_end(rec("R", fld("s", '"S"', '{"x":1}')), (2, 6, 12))
    at_end(rec("T", fld("s", '["null","S"]', "null")), (3, 11, 19))
    put(0, rec("S", fld("x", '"string"')), 47, behind=1)
    put(0, rec("S", fld("x", '"long"')), (3, 11, 19))
    put(0, rec("S", fld("x", '"double"')), (3, 11, 19))
    put(0, rec("S", fld("x", '["null","int"]')), (3, 13, 19))
    put(0, rec("S", fld("x", '["null","string"]')), 47, behind=1)
    put(0, rec("S", fld("y", '"int"')), 47, behind=1)
    put(0, rec("S", fld("y", '"int"', "0")), (3, 11, 20))
    put(0, rec("S", fld("x", '"int"'), fld("y", '"int"')), 47, behind=1)
    put(0, rec("S", fld("x", '"int"'), fld("y", '"int"', "0")), (3, 13, 21))
    put(0, rec("S", fld("y", '"int"', None, ',"aliases":["x"]')), 47, behind=1)
    put(0, rec("S"), (3, 9, 18))
    put(0, enum("S", "x"), 47, behind=1)
    put(0, fixed("S", 7), 47, behind=1)
    put(0, rec("S", fld("x", '"S"', "{}")), 47, behind=1)
    put(0, rec("S", fld("x", '["int","S"]', "{}")), (3, 13, 22))
    full()
    seq("a record's field gains and loses a default")
    at_end(rec("S", fld("x", '"int"'), fld("y", '"int"', "2")), (1, 5, 4))
    put(1, rec("R", fld("s", '"S"', "{}")), 47)
    put(1, rec("R", fld("s", '"S"', '{"x":3}')), (2, 8, 14))
    put(0, rec("S", fld("x", '"int"'), fld("y", '"int"')), 47, behind=1)
    put(0, rec("S", fld("x", '"int"', "1"), fld("y", '"int"', "2")), (2, 8, 15))
    put(1, rec("R", fld("s", '"S"', "{}")), (2, 8, 10))
    put(0, rec("S", fld("x", '"int"'), fld("y", '"int"', "2")), 47, behind=1)
    put(0, rec("S", fld("x", '"int"', "1"), fld("y", '"int"')), 47, behind=1)
    put(0, rec("S", fld("x", '"int"', "1"), fld("y", '"int"', "null")), 47, which=1)
    put(0, rec("S", fld("x", '"S"', "{}"), fld("y", '["null","S"]', "null")), (2, 10, 16))
    full()
    seq("a change that shows three references away")
    at_end(enum("E", "A", "B"), (1, 3, 3))
    at_end(rec("S", fld("e", '"E"')), (2, 6, 6))
    at_end(rec("T", fld("s", arr('"S"'))), (3, 10, 9))
    at_end(rec("U", fld("t", mp('"T"'), '{"k":{"s":[{"e":"A"},{"e":"B"}]}}')), (4, 14, 45))
    at_end(rec("V", fld("v", '["null","U"]', '{"t":{}}')), (5, 19, 56))
    put(0, enum("E", "B"), 47, behind=3)
    put(0, enum("E", "A"), 47, behind=3)
    put(1, rec("S", fld("e", '["null","E"]')), (5, 21, 56))
    put(1, rec("S", fld("f", '"E"')), 47, behind=3)
    put(2, rec("T", fld("s", '"S"')), 47, behind=3)
    put(3, rec("U", fld("t", mp('"E"'), '{"k":"A"}')), (5, 21, 32))
    put(3, rec("U", fld("t", '"E"', '"A"')), 47, behind=4)
    put(4, rec("V", fld("v", '["null","U"]', '{"t":"A"}')), 47)
    put(0, enum("E", "A"), (5, 20, 31))
    full()
    seq("the first of several that break")
    at_end(fixed("F", 1), (1, 1, 1))
    for k in range(1, 6):
        at_end(rec("R%d" % k, fld("a", '"F"', '"%s"' % ("x" if k != 3 else r"\u0078"))))
    put(0, fixed("F", 2), 47, behind=1)
    put(1, '"F"', None)
    put(0, fixed("F", 2), 47, behind=2)
    put(2, "[]", None)
    put(0, fixed("F", 2), 47, behind=3)
    put(0, enum("F", "x"), (6, 13, 29))
    put(0, enum("F", "y"), 47, behind=3)
    put(5, rec("R5", fld("a", '"F"', '"y"')), 47)
    full()
    seq("several defaults in one later declaration, the first in preorder that breaks")
    at_end("[%s,%s,%s]" % (enum("E", "A", "B"), fixed("F", 1), rec("S", fld("x", '"int"')).replace("^", "")), (1, 8, 6))
    at_end(rec("R", fld("a", '"int"', "1"), fld("b", '"E"', '"B"'), fld("c", rec("T", fld("d", '"F"', '"x"')), '{"d":"y"}'), fld("e", '"S"', '{"x":1}')).replace('^{"d', '{"d'), (2, 19, 39))
    for t, which in (((enum("E", "A"), fixed("F", 1), rec("S")), 1), ((enum("E", "B"), fixed("F", 2), rec("S")), None), ((enum("E", "B"), fixed("F", 1), rec("S", fld("x", '"null"'))), 3)):
        t = "[%s,%s,%s]" % t
        if which is None:
            # c's default stands behind d's in the text, and before it in preorder
            got = say("put 0 " + t.encode().hex())
            c = Now.texts[1].index(b'{"d":"y"}')
            assert got == ["refused 47 1 %d" % c], got
            digest()
        else:
            put(0, t, 47, behind=1, which=which)
    seq("a default that fits what the name meant before does not help")
    at_end(rec("S", fld("x", '"int"', "1")), (1, 3, 3))
    at_end(rec("R", fld("a", '"S"', "{}")), (2, 6, 8))
    at_end(rec("Q", fld("a", '["null","R"]', '{"a":{"x":2}}')), (3, 11, 24))
    put(1, rec("R", fld("a", '"S"', '{"x":"y"}')), 47)
    put(1, enum("R", "A"), 47, behind=2)
    put(1, rec("R", fld("b", '"S"', "{}")), (3, 11, 24))
    put(1, rec("R", fld("b", '"S"')), 47, behind=2)
    put(1, rec("R", fld("a", arr('"S"'), "[]")), 47, behind=2)
    put(1, rec("R", fld("a", mp('"int"'), "{}")), (3, 12, 23))
    full()
    seq("places before the one put at are not asked again")
    at_end(rec("S", fld("x", '"int"', "1")), (1, 3, 3))
    at_end(enum("E", "A"), (2, 5, 5))
    at_end(rec("R", fld("e", '"E"', '"A"')), (3, 8, 11))
    put(2, rec("R", fld("e", '"E"', '"B"')), 47)
    put(3, rec("T", fld("e", '"R"', '{"e":"B"}')), 47)
    put(3, rec("T", fld("e", '"R"', '{"e":"A"}')), (4, 11, 23))
    put(1, enum("E", "B"), 47, behind=2)
    put(0, rec("S"), (4, 9, 21))
    seq("digests: a refusal leaves all, and what was accepted is what the list gives")
    at_end(rec("S", fld("x", '"int"', "1")), (1, 3, 3))
    at_end(rec("R", fld("a", '"S"', "{}")), (2, 6, 8))
    before = digest()
    put(0, rec("S", fld("x", '"int"')), 47, behind=1)
    put(0, rec("S", fld("x", '"int"', LONG)), 48)
    put(2, rec("T", fld("x", '"int"', "[]")), 47)
    assert digest() == before
    put(0, rec("S", fld("x", '"int"', "2")), (2, 6, 8))
    assert digest() != before
    put(0, rec("S", fld("x", '"int"', "1")), (2, 6, 8))
    assert digest() == before
    put(0, rec("S", fld("x", '"int"').replace("}", ', "default":1}')), (2, 6, 8))
    assert digest() != before
    put(0, rec("S", fld("x", '"int"', "1")).replace('"int"', '{"type":"int"}'), (2, 6, 8))
    full()


# ---- 24 by the bytes of defaults

def weights():
    seq("24 met exactly by a default")
    at_end(weight("W", 16370))
    n = int(asked().split()[2])
    put(1, rec("R", fld("a", '"string"', '"%s"' % ("x" * 10))), (2, n + 3, 16384))
    put(1, rec("R", fld("a", '"string"', '"%s"' % ("x" * 11))), 24)
    put(1, rec("R", fld("a", '"string"', '"%s"' % ("é" * 5))), (2, n + 3, 16384))
    put(1, rec("R", fld("a", '"string"', '"%sx"' % ("é" * 5))), 24)
    put(1, rec("R", fld("a", '"string"', r'"\u0061abcd"')), (2, n + 3, 16384))
    put(1, rec("R", fld("a", '"string"', r'"\u0061abcde"')), 24)
    put(1, rec("R", fld("a", arr('"int"'), "[1,       2]")), (2, n + 4, 16384))
    put(1, rec("R", fld("a", arr('"int"'), "[1,        2]")), 24)
    put(1, rec("R", fld("a", arr('"int"'), "[1,       2]"+ "     ")), (2, n + 4, 16384))
    seq("24 before 47, 47 where the bytes just do")
    at_end(weight("W", 16370))
    n = int(asked().split()[2])
    put(1, rec("R", fld("a", '"int"', '"%s"' % ("x" * 10))), 47)
    put(1, rec("R", fld("a", '"int"', '"%s"' % ("x" * 11))), 24)
    put(1, rec("R", fld("a", '"int"', '"%s"' % ("x" * 253))), 24)
    put(1, rec("R", fld("a", '"int"', '"%s"' % ("x" * 254))), 48)
    seq("24 at a later place, by a default that grew")
    at_end(rec("R", fld("a", '"string"', '""')), (1, 3, 4))
    at_end(weight("W", 16380))
    assert asked().endswith(" 16384")
    put(0, rec("R", fld("a", '"string"', '"x"')), 24, behind=1)
    put(0, rec("R", fld("a", '"string"')), None)
    assert asked().endswith(" 16382")
    put(0, rec("R", fld("a", '"null"', "null")), 24, behind=1)
    put(0, rec("R", fld("a", arr('"int"'), "[]")), None)
    assert asked().endswith(" 16384")
    put(2, '"int"', None)
    put(3, rec("S"), 24)
    seq("eight defaults of 255 bytes")
    fields = [fld("f%d" % i, '"bytes"', '"%s"' % ("x" * 253)).replace("^", "") for i in range(8)]
    put(0, weight("W", 14000), None)
    rows = int(asked().split()[2])
    put(1, rec("R", *fields), (2, rows + 17, 14000 + 1 + 8 * 257))
    put(2, rec("S", fld("g", '"string"', '"%s"' % ("y" * 253))), (3, rows + 20, 16057 + 257))
    put(3, rec("T", fld("h", '"string"', '"%s"' % ("y" * 66))), (4, rows + 23, 16384))
    put(3, rec("T", fld("h", '"string"', '"%s"' % ("y" * 67))), 24)
    put(3, rec("T", fld("h", '"int"', '"%s"' % ("y" * 66))), 47)
    put(1, rec("R", fld("f", '"bytes"', '"%s"' % ("x" * 253)), *fields), 24, behind=2)
    put(2, rec("S", fld("g", '"string"', '"%s"' % ("y" * 254))), 48)
    put(2, rec("S", fld("g", '"bytes"', '"%s"' % ("y" * 252))), (4, rows + 23, 16383))
    say("fingerprint 1")


# ---- canonical text and fingerprint

def canonical():
    seq("canonical text and fingerprint do not know defaults")
    texts = [rec("n.R", fld("a", '"int"'), fld("b", '["null","string"]')), rec("n.R", fld("a", '"int"', "5"), fld("b", '["null","string"]', "null")), rec("n.R", fld("a", '"int"', " -0 "), fld("b", '["null","string"]', r'"\u0078"'))]
    want = '{"name":"n.R","type":"record","fields":[{"name":"a","type":"int"},{"name":"b","type":["null","string"]}]}'
    prints = []
    for t in texts:
        put(0, t, None)
        text_of(0, 0, len(want), want)
        prints.append(say("fingerprint 0"))
    assert prints[0] == prints[1] == prints[2]
    text_of(0, 0, len(want) - 1, (29, len(want)))
    text_of(0, 3, len(want) + 5, want)
    put(0, want, (1, 7, 5))
    assert say("fingerprint 0") == prints[0]
    seq("names of rows are those they were")
    put(0, rec("n.R", fld("a", rec("S", fld("x", '"R"', "{}"), fld("y", enum("E", "A"), '"A"')), '{"x":{},"y":"A"}'), more=',"aliases":["Q"]'), (1, 9, 40))
    for row, w in enumerate(("n.R", "n.Q", 21, "n.S", 21, "n.R", 21, "n.E", 21, 21)):
        name(0, row, w)
    full()
    text_of(0, 0, 200, '{"name":"n.R","type":"record","fields":[{"name":"a","type":{"name":"n.S","type":"record","fields":[{"name":"x","type":"n.R"},{"name":"y","type":{"name":"n.E","type":"enum","symbols":["A"]}}]}}]}')
    seq("a record of many kinds, every field with a default")
    put(0, rec("a.b.All", fld("n", '"null"', "null"), fld("t", '"boolean"', "true"), fld("i", '"int"', "-1"), fld("l", '"long"', "9223372036854775807"), fld("f", '"float"', "1e999"), fld("d", '"double"', "-0.5E-3"), fld("b", '"bytes"', r'"\u00ff\u0000"'),
            fld("s", '"string"', '"😀"'), fld("e", enum("E", "A", "B"), '"B"'), fld("x", fixed("F", 2), '"ab"'), fld("ar", arr('"E"'), '["A", "B"]'), fld("m", mp('["null","F"]'), '{"k": null, "l": "cd"}'),
            fld("r", rec("S", fld("p", '"int"'), fld("q", '["null","S"]', "null").replace("^", "")), '{"p": 1, "q": {"p": 2}}'), fld("u", '["null","All","S"]', '{"p":0}')), (1, 44, 202))
    full()


# ---- memory with defaults

def row_at(i):
    return 66 + 34 * i


def verdict(good, place=0):
    """A question after a poke: 20 or not. Then the same of a put, now and then."""
    ask("name %d 0" % place, None if good else 20)
    assert ANSWERS[-1].startswith("ok") == good, (SEQUENCES[-1], LINES[-2:], ANSWERS[-1])


def memories():
    def changed(at, data, good):
        """Bytes poked, judged, and put back."""
        old = bytes(Now.machine.memory[at:at + len(data)])
        poke(at, data)
        verdict(good)
        poke(at, old)

    seq("pokes into the text of a number")
    put(0, one('"int"', "12"), (1, 3, 4))
    text = 34882 + 2
    for data, good in ((b"22", 1), (b"-2", 1), (b"02", 0), (b"00", 0), (b"10", 1), (b"1 ", 0), (b" 1", 0), (b"1\n", 0), (b"\t1", 0), (b"1.", 0), (b"1e", 0), (b"--", 0), (b'""', 0), (b"[]", 0), (b"{}", 0), (b"1\0", 0), (b"\0\0", 0), (b"1,", 0), (b"\xc3\xa9", 0), (b"-0", 1),
                       (b"99", 1), (b"x2", 0), (b"+2", 0), (b"1\x80", 0)):
        changed(text, data, bool(good))
    digest()
    verdict(True)
    # its position
    for p, good in ((0, 1), (1, 1), (73, 1), (32767, 1), (32768, 0), (65536, 0), (65536 + 73, 0), (2 ** 32, 0), (2 ** 63 + 73, 0), (2 ** 64 - 1, 0)):
        changed(row_at(1) + 10, struct.pack("<Q", p), bool(good))
    # its length, with the rows and strings behind it
    changed(row_at(1) + 7, b"\1", False)
    changed(row_at(1) + 7, b"\3", False)
    changed(row_at(1) + 7, b"\0", False)
    poke(row_at(1) + 7, b"\1")
    verdict(False)
    poke(row_at(2) + 8, b"\3")
    verdict(False)
    poke(text + 1, b"\0")
    verdict(True)
    say("rows 0")
    poke(row_at(1) + 7, b"\0")
    poke(row_at(2) + 8, b"\2")
    poke(text, b"\0")
    verdict(False)
    poke(row_at(1) + 10, b"\0")
    verdict(True)
    say("rows 0")
    poke(row_at(1) + 10, b"\1")
    verdict(False)
    poke(row_at(1) + 10, b"\0")
    poke(row_at(1) + 7, b"\3")
    poke(row_at(2) + 8, b"\5")
    poke(text, b"1 2")
    verdict(False)
    poke(text, b"1.2")
    verdict(False)
    poke(text, b"102")
    verdict(True)
    poke(row_at(2), b"\1")
    verdict(False)
    poke(row_at(2), b"\5")
    poke(text, b"1.2")
    verdict(True)
    say("rows 0")
    digest()
    put(1, '"R"', None)
    say("rows 1")

    seq("pokes of a string's text: each byte to others, verdicts by hand")
    put(0, one('"string"', r'"a\u0041é"'), (1, 3, 2 + 11))
    text = 34882 + 2
    for at, data, good in ((0, b"'", 0), (0, b" ", 0), (0, b"a", 0), (0, b"[", 0), (1, b"b", 1), (1, b'"', 0), (1, b"\\", 1), (1, b"\n", 0), (1, b"\x1f", 0), (1, b" ", 1), (1, b"\x7f", 1), (1, b"\x80", 0), (1, b"\xc3", 0), (1, b"\0", 0), (2, b"n", 1), (2, b"/", 1), (2, b'"', 0), (3, b"x", 0),
                           (3, b"n", 1), (3, b"\\", 1), (3, b'"', 1), (3, b"U", 0), (4, b"d", 1), (4, b"g", 0), (4, b"F", 1), (4, b"d8", 0), (4, b"DC", 0), (4, b"d7", 1), (4, b"e0", 1), (5, b"/", 0), (5, b":", 0), (7, b"G", 0), (7, b"f", 1), (8, b"\xc2", 1), (8, b"\xc1", 0), (8, b"\xe3", 0), (8, b"a", 0), (9, b"\x80", 1), (9, b"\x7f", 0), (9, b"\xc3", 0),
                           (9, b"a", 0), (8, b"ab", 1), (10, b"'", 0), (10, b" ", 0), (10, b"]", 0)):
        changed(text + at, data, bool(good))
    digest()
    verdict(True)

    seq("pokes that leave a value but not one that fits")
    put(0, rec("R", fld("e", enum("E", "A", "B"), '"A"'), fld("f", fixed("F", 2), '"ab"'), fld("b", '"bytes"', r'"\u00ff"'), fld("n", '"null"', "null"), fld("m", mp('"int"'), '{"k":1}')), (1, 14, 36))
    strings = bytes(Now.machine.memory[34882:34882 + 36])
    find = lambda s: 34882 + strings.index(s)
    for s, data, good in ((b'"A"', b'"B"', 1), (b'"A"', b'"C"', 0), (b'"A"', b'"a"', 0), (b'"A"', b"[0]", 0), (b'"A"', b"100", 0), (b'"ab"', b'"\\n"', 0), (b'"ab"', b'"\xc3\xbf"', 0), (b'"ab"', b'"cd"', 1), (b'"ab"', b"null", 0), (b'"ab"', b'["x]', 0), (b"u00ff", b"u0100", 0), (b"u00ff", b"u00FF", 1), (b"u00ff", b"uffff", 0),
                          (b"u00ff", b"n\xc3\xbfa", 1), (b"u00ff", b"n\xc4\x80a", 0), (b"null", b"true", 0), (b"null", b"1234", 0), (b"null", b"nulL", 0), (b'{"k":1}', b'{"k":0}', 1), (b'{"k":1}', b'{"k":a}', 0), (b'{"k":1}', b'{"":-1}', 1), (b'{"k":1}', b'{     }', 1), (b'{"k":1}', b'["k",1]', 0), (b'{"k":1}', b'{"":""}', 0), (b'{"k":1}', b' {"":1}', 0),
                          (b'{"k":1}', b'{"":1} ', 0), (b'{"k":1}', b'1234567', 0)):
        changed(find(s), data, bool(good))
    # the types that they are held against
    changed(find(b'AB"') if b'AB"' in strings else 34882 + strings.index(b"EA") + 1, b"C", False)
    changed(34882 + strings.index(b"EA") + 2, b"C", True)
    f = [i for i in range(14) if Now.machine.memory[row_at(i)] == 34][0]
    for n, good in ((1, 0), (2, 1), (3, 0), (4, 0), (258, 0)):
        changed(row_at(f) + 10, struct.pack("<Q", n), bool(good))
    for kind, good in ((8, 1), (7, 1), (1, 0), (5, 0)):
        b = [i for i in range(14) if Now.machine.memory[row_at(i)] == 7][0]
        changed(row_at(b), bytes([kind]), bool(good))
    i = [i for i in range(14) if Now.machine.memory[row_at(i)] == 3][0]
    for kind, good in ((3, 1), (4, 1), (5, 1), (6, 1), (1, 0), (2, 0), (8, 0)):
        changed(row_at(i), bytes([kind]), bool(good))
    m = i - 1
    for kind, good in ((25, 1), (24, 0), (26, 0)):
        changed(row_at(m), bytes([kind]), bool(good))
    digest()
    full()

    seq("defaults on rows that are no fields, and every call's 20")
    put(0, one('"int"', "5"), (1, 3, 3))
    put(1, '{"type":"array","items":"R"}', (2, 5, 4))
    # the default's byte given to the record, to the int behind it
    poke(row_at(0) + 6, b"\1\1")
    verdict(False)
    poke(row_at(0) + 6, b"\1\0")
    verdict(True)
    poke(row_at(1) + 7, b"\0")
    poke(row_at(2) + 7, b"\1")
    poke(row_at(2) + 8, b"\2")
    verdict(False)
    poke(row_at(1) + 10, bytes(8))
    verdict(False)
    poke(row_at(2) + 7, b"\0")
    poke(row_at(2) + 8, b"\3")
    poke(row_at(1) + 7, b"\1")
    verdict(True)
    poke(34882 + 2, b"x")
    for line in ("rows 0", "rows 1", "rows 7", "name 0 0", "name 9 9", "fingerprint 0", "fingerprint 1"):
        ask(line, 20)
    text_of(0, 0, 3, 20)
    put(0, '"int"', 20)
    put(2, rec("S", fld("a", '"int"', LONG)), 20)
    put(9, "", 20)
    digest()
    poke(34882 + 2, b"6")
    verdict(True)
    assert say("open") == ["ok 0 0 0"]
    digest()

    seq("a later declaration whose default is made wrong by a poke before it")
    put(0, enum("E", "A", "B"), (1, 3, 3))
    put(1, rec("R", fld("e", '"E"', '"B"')), (2, 6, 9))
    changed(34882 + 2, b"C", False)
    changed(34882 + 1, b"C", True)
    changed(row_at(0), b"\x22", False)
    # positions are free in memory, and 47 of a replacement tells the kept one
    for p in (0, 5, 12345, 32767):
        poke(row_at(4) + 10, struct.pack("<Q", p))
        digest()
        assert say("put 0 " + enum("E", "A").encode().hex()) == ["refused 47 1 %d" % p]
        digest()

    def raw(label, declarations, good):
        """A set poked into memory."""
        seq(label)
        memory = replay.encoded(declarations)
        used, text = sum(len(d) for d in declarations), replay.counts(declarations)[2]
        say("poke 0 " + memory[:2 + 2 * len(declarations)].hex())
        for at in range(66, 66 + 34 * used, 34):
            say("poke %d %s" % (at, memory[at:at + 34].rstrip(b"\0").hex()))
        say("poke 34882 " + memory[34882:34882 + text].hex())
        Now.texts, Now.marks, Now.digest = [None] * len(declarations), [None] * len(declarations), None
        verdict(good)

    Row = replay.Row

    def nested(n, inside=b""):
        default = b"[" * n + inside + b"]" * n
        return [[Row("record", 0, 0, b"R", 0, 0, 0, 0), Row("field", 1, 0, b"a", 0, 0, 0, 0, 9, default)] + [Row("array", 2 + i, 0, b"", 0, 0, 0, 0) for i in range(n)] + [Row("int", 2 + n, 0, b"", 0, 0, 0, 0)]]

    raw("64 brackets in memory", nested(64), True)
    say("fingerprint 0")
    put(1, '"R"', None)
    raw("64 brackets in memory, a number inside", nested(64, b"5"), True)
    raw("64 brackets in memory, a word inside", nested(64, b"null"), False)
    raw("65 brackets in memory", nested(65), False)
    raw("65 brackets in memory, a number inside", nested(65, b"5"), False)
    ins = b'"%s"' % (b"x" * 253)
    raw("255 bytes in memory, at position 0", [[Row("record", 0, 0, b"R", 0, 0, 0, 0), Row("field", 1, 0, b"a", 0, 0, 0, 0, 0, ins), Row("string", 2, 0, b"", 0, 0, 0, 0)]], True)
    ask("rows 0", None)
    raw("a default of a record in the second declaration by a reference", [[Row("record", 0, 0, b"S", 0, 0, 0, 0), Row("field", 1, 0, b"x", 0, 0, 0, 0, 3, b"1"), Row("long", 2, 0, b"", 0, 0, 0, 0)],
                                                                         [Row("record", 0, 0, b"R", 0, 0, 0, 0), Row("field", 1, 0, b"a", 0, 0, 0, 0, 32767, b'{}'), Row("reference", 2, 0, b"S", 0, 0, 0, 0)]], True)
    for at, data, good in ((34882 + 2, b"-", 0), (34882 + 2, b"0", 1), (34882 + 1, b"y", 1), (row_at(2), b"\1", 0), (34882 + 5, b"[]", 0)):
        changed(at, data, bool(good))
    assert say("put 0 " + rec("S", fld("x", '"long"')).encode().hex()) == ["refused 47 1 32767"]
    digest()


def each_byte():
    """Each byte of rows and texts with defaults, changed to others: the model alone judges."""
    seq("each byte of a set with defaults, changed")
    put(0, rec("S", fld("x", '"int"', "10"), fld("y", '["null",%s]' % enum("E", "A", "B"), r'"\u0041"')), (1, 9, 16))
    put(1, rec("R", fld("s", arr('"S"'), '[{"x":1},{"y":null}]'), fld("f", fixed("F", 2), '"é\\n"')), (2, 15, 47))
    n = 0
    places = [row_at(i) + k for i in (1, 3, 10, 13) for k in (0, 6, 7, 8, 10, 11, 12, 17)] + list(range(34882 + 2, 34882 + 47))
    for at in places:
        old = Now.machine.memory[at]
        for new in ((old + 1) % 256, (old - 1) % 256, old ^ 128, old ^ 32):
            say("poke %d %02x" % (at, new))
            n += say("name 1 0")[0].startswith("ok")
        say("poke %d %02x" % (at, old))
    assert 30 < n < 150, n
    Now.texts, Now.digest = [None, None], None
    full()


# ---- a generator: types, and values that fit them or do not, by construction

class T:
    """A type: kind; parts are its types, symbols or fields; a definition has a name and is known by it."""

    def __init__(self, kind, parts=(), name=None, size=0):
        self.kind, self.parts, self.name, self.size = kind, parts, name, size


class Field:
    def __init__(self, name, type_, has):
        self.name, self.type, self.has, self.mark, self.text, self.number = name, type_, has, Mark(), None, 0


JSON_KINDS = {"null": {"null"}, "boolean": {"word"}, "int": {"number"}, "long": {"number"}, "float": {"number"}, "double": {"number"}, "bytes": {"string"}, "string": {"string"}, "enum": {"string"}, "fixed": {"string"}, "array": {"array"},
              "map": {"object"}, "record": {"object"}}
SAMPLES = {"null": ["null"], "word": ["true", "false"], "number": ["0", "-5", "1.5", "7e0"], "string": ['""', '"A"', '"zz"', r'"\u0416"'], "array": ["[]", "[0]", "[null]"], "object": ["{}", '{"x":1}']}


class Maker:
    def __init__(self, rng, name, known):
        self.rng, self.own, self.known, self.serial, self.fields, self.room = rng, name, dict(known), 0, [], rng.randint(2, 5)
        self.refer = 25 if known else 4

    def chance(self, p):
        return self.rng.random() < p

    # types

    def fresh(self):
        self.serial += 1
        return self.own if self.serial == 1 else "%s%d" % (self.own, self.serial - 1)

    def definition(self, kind):
        n = self.fresh()
        t = T(kind, [], n)
        self.known[n] = t
        if kind == "enum":
            t.parts = self.rng.sample(["A", "B", "C", "DD", "_e1"], self.rng.randint(1, 4))
        elif kind == "fixed":
            t.size = self.rng.choice((0, 1, 1, 2, 3, 8))
        else:
            for i in range(self.rng.randint(1, 3)):
                f = Field("xyzw"[i], None, self.chance(0.75))
                self.fields.append(f)
                t.parts.append(f)
                f.type = self.type(None)
        return t

    def type(self, taken):
        self.room -= 1
        kinds = ["primitive", "enum", "fixed", "record", "array", "map", "union", "reference"]
        weights = [6, 2, 2, 2, 2, 2, 0 if taken is not None else 4, self.refer] if self.room > 0 else [6, 0, 0, 0, 0, 0, 0, self.refer]
        kind = self.rng.choices(kinds, weights)[0]
        if kind == "primitive":
            kind = self.rng.choice([p for p in ("null", "boolean", "int", "int", "long", "float", "double", "bytes", "string", "string") if taken is None or p not in taken] or ["enum"])
        if taken is not None and kind in ("array", "map") and kind in taken:
            kind = "fixed"
        if kind == "reference":
            n = self.rng.choice(sorted(self.known))
            if taken is not None and n in taken:
                kind = "enum"
            else:
                if taken is not None:
                    taken.add(n)
                return T("reference", [], n)
        if taken is not None:
            taken.add(kind)
        if kind in ("enum", "fixed", "record"):
            t = self.definition(kind)
            if taken is not None:
                taken.add(t.name)
            return t
        if kind in ("array", "map"):
            return T(kind, [self.type(None)])
        if kind == "union":
            own = set()
            return T("union", [self.type(own) for _ in range(self.rng.choice((0, 1, 2, 2, 2, 3, 3)))])
        return T(kind)

    # values

    def meant(self, t):
        return self.known[t.name] if t.kind == "reference" else t

    def kinds_of(self, t):
        t = self.meant(t)
        return set().union(*[self.kinds_of(m) for m in t.parts]) if t.kind == "union" else JSON_KINDS[t.kind]

    def gap(self):
        return self.rng.choice(("", "", "", "", " ", "\n"))

    def string(self, chars):
        return '"' + "".join("\\u%04x" % ord(c) if self.chance(0.1) and ord(c) < 65536 else c for c in chars) + '"'

    def array(self, items):
        return "[" + self.gap() + ",".join(i + self.gap() for i in items) + "]"

    def object(self, pairs):
        return "{" + self.gap() + ",".join(self.string(k) + ":" + self.gap() + v for k, v in pairs) + "}"

    def good(self, t, budget):
        """A value that fits, or None where none was found within the budget of levels."""
        t = self.meant(t)
        r = self.rng
        if budget < 0:
            return None
        if t.kind in ("null", "boolean"):
            return r.choice(SAMPLES["null" if t.kind == "null" else "word"])
        if t.kind in ("int", "long"):
            top = 2 ** (31 if t.kind == "int" else 63)
            return str(r.choice((0, 1, -1, top - 1, -top, r.randrange(-top, top)))) if self.chance(0.9) else "-0"
        if t.kind in ("float", "double"):
            return r.choice(("0", "-1.5", "1e99", "2E-3", "1e999", str(r.randrange(10 ** 20))))
        if t.kind == "bytes":
            return self.string(r.choice(("", "a", "é", "ab\x7f", "ÿ")))
        if t.kind == "string":
            return self.string(r.choice(("", "a", "Ж", "😀", "null", "{}")))
        if t.kind == "enum":
            return self.string(r.choice(t.parts))
        if t.kind == "fixed":
            return self.string([r.choice("abéÿ0") for _ in range(t.size)])
        if t.kind == "union":
            for m in r.sample(t.parts, len(t.parts)):
                v = self.good(m, budget - 1)
                if v is not None:
                    return v
            return None
        if t.kind in ("array", "map"):
            found = [self.good(t.parts[0], budget - 1) for _ in range(r.choice((0, 1, 1, 2)))]
            if None in found:
                found = []
            if t.kind == "array":
                return self.array(found)
            pairs = [("k%d" % i, v) for i, v in enumerate(found)]
            if pairs and self.chance(0.2):
                pairs.insert(0, (pairs[-1][0], r.choice(sum(SAMPLES.values(), []))))
            return self.object(pairs)
        pairs = []
        for f in t.parts:
            if f.has and self.chance(0.5):
                continue
            v = self.good(f.type, budget - 1)
            if v is None:
                if not f.has:
                    return None
                continue
            if self.chance(0.1):
                pairs.append((f.name, r.choice(sum(SAMPLES.values(), []))))
            pairs.append((f.name, v))
        if self.chance(0.15):
            pairs.append(("other", "[]"))
        return self.object(pairs)

    def bad(self, t, budget):
        """A value that does not fit, or None."""
        t = self.meant(t)
        r = self.rng
        if budget >= 0 and self.chance(0.65):
            if t.kind == "int":
                return r.choice(("2147483648", "-2147483649", "1.0", "1e2", "9" * 30))
            if t.kind == "long":
                return r.choice(("9223372036854775808", "-9223372036854775809", "0.0", "1E2"))
            if t.kind == "bytes":
                return self.string(r.choice(("Ā", "aЖ", "😀")))
            if t.kind == "enum":
                return self.string(r.choice([x for x in ("", "a", t.parts[0] + "_", t.name) if x not in t.parts]))
            if t.kind == "fixed":
                return self.string(["é"] * r.choice((t.size + 1, t.size + 2))) if self.chance(0.5) or not t.size else self.string(["Ж"] * t.size)
            if t.kind in ("array", "map"):
                v = self.bad(t.parts[0], budget - 1)
                if v is not None:
                    g = self.good(t.parts[0], budget - 1)
                    items = r.sample([v] if g is None else [v, g], 1 if g is None else 2)
                    return self.array(items) if t.kind == "array" else self.object([("m%d" % i, x) for i, x in enumerate(items)] + ([] if self.chance(0.7) else [("m%d" % items.index(v), v)]))
            if t.kind == "record":
                f = r.choice(t.parts)
                rest = [(g.name, self.good(g.type, budget - 1)) for g in t.parts if g is not f]
                if all(v is not None for _, v in rest):
                    if not f.has and self.chance(0.5):
                        return self.object(rest)
                    v = self.bad(f.type, budget - 1)
                    if v is not None:
                        return self.object(rest + [(f.name, v)])
        left = sorted(set(SAMPLES) - self.kinds_of(t))
        return r.choice(SAMPLES[r.choice(left)]) if left else None

    # text

    def filled(self):
        for f in self.fields:
            if not f.has:
                continue
            draw = self.rng.random()
            v = self.good(f.type, 5) if draw < 0.72 else None
            if v is None:
                v = self.bad(f.type, 4)
                f.number = 47
            if v is None:
                v = self.good(f.type, 5)
                f.number = 0
            room = 255 - len(v.encode())
            if v[0] in "[{" and room >= 0 and self.chance(0.12):
                # white space inside, so that it has 255 bytes or 256
                v = v[0] + " " * (room + self.rng.randrange(2)) + v[1:]
            if len(v.encode()) > 255:
                f.number = 48
            f.text = v

    def text(self, t):
        if t.kind == "reference":
            return '"%s"' % t.name
        if t.kind == "union":
            out = ["["]
            for i, m in enumerate(t.parts):
                out += [","] * (i > 0) + [self.text(m)]
            return out + ["]"]
        if t.kind in ("array", "map"):
            return ['{"type":"%s","%s":' % (t.kind, "items" if t.kind == "array" else "values"), self.text(t.parts[0]), "}"]
        if t.kind == "enum":
            return enum(t.name, *t.parts)
        if t.kind == "fixed":
            return fixed(t.name, t.size)
        if t.kind == "record":
            out = ['{"type":"record","name":"%s","fields":[' % t.name]
            for i, f in enumerate(t.parts):
                members = [['"name":"%s"' % f.name], ['"type":', self.text(f.type)]]
                if f.has:
                    members.append(['"default":' + self.gap(), f.mark, f.text + self.gap()])
                self.rng.shuffle(members)
                out += [","] * (i > 0) + ["{"]
                for j, m in enumerate(members):
                    out += [","] * (j > 0) + m
                out += ["}"]
            return out + ["]}"]
        return '"%s"' % t.kind

    def declaration(self):
        """The text, and the refusal that it must have on its own, number and position, or None."""
        top = self.definition(self.rng.choice(("record", "record", "record", "enum", "fixed"))) if self.chance(0.9) else T("array", [self.definition("record")])
        self.filled()
        out, places = bytearray(), {}
        flat(self.text(top), out, places)
        for number in (48, 47):
            for f in preordered(top):
                if f.number == number:
                    return bytes(out), (number, places[f.mark])
        return bytes(out), None


def preordered(t):
    """The fields of a type in preorder."""
    for p in t.parts:
        if isinstance(p, Field):
            yield p
            yield from preordered(p.type)
        elif isinstance(p, T):
            yield from preordered(p)


def generated(count):
    """Sequences; at the count each verdict is known, before it the text's own fault is."""
    tally = {"ok": 0}
    for seed in range(count):
        rng = random.Random("defaults %d" % seed)
        seq("generated %d" % seed)
        digest()
        known = []       # for each place, what its text defines
        for step in range(rng.randint(5, 7)):
            n = len(Now.texts)
            place = n if n < 3 or rng.random() < 0.15 else rng.randrange(n)
            earlier = {k: t for d in known[:place] for k, t in d.items()}
            for _ in range(30):
                maker = Maker(rng, "ABCDEFGH"[place], earlier)
                text, fault = maker.declaration()
                if len(text) < (270 if rng.random() < 0.7 else 640) and (fault is None or rng.random() < 0.7):
                    break
            else:
                continue
            before, old = Now.digest, list(Now.texts)
            got = say("put %d %s" % (place, text.hex()))
            digest()
            edited = Now.texts[:place] + [text] + Now.texts[place + 1:]
            if fault is not None:
                assert got == ["refused %d %d %d" % (fault[0], place, fault[1])], (SEQUENCES[-1], text, fault, got)
            elif got[0].startswith("refused"):
                assert int(got[0].split()[2]) > place and place < n, (SEQUENCES[-1], text, got)
            key = got[0].split()[1] if got[0].startswith("refused") else "ok"
            key += " behind" if got[0].startswith("refused") and int(got[0].split()[2]) > place else ""
            tally[key] = tally.get(key, 0) + 1
            if got[0].startswith("ok"):
                Now.texts = edited
                known[place:place + 1] = [{k: t for k, t in maker.known.items() if k not in earlier}]
                assert sequences.from_nothing(edited) == bytes(Now.machine.memory[:replay.LENGTH])
            else:
                assert Now.digest == before and sequences.from_nothing(edited) == got
        Now.marks = [None] * len(Now.texts)
        if seed % 3 == 0:
            full()
    print("generated:", tally, file=sys.stderr)


def main(args):
    for part in (examples, table, numbers, code_points, enums, parts, preorder, unions, references, deep, deeper, elsewhere, twice, texts_kept, lengths, orders, replacements, weights, canonical, memories, each_byte):
        part()
    generated(110)
    sequences.ended()
    if args[0] == "labels":
        for line, label in SEQUENCES:
            print(line, label)
        return
    tally = {}
    for a in ANSWERS:
        if a.startswith("refused"):
            tally[int(a.split()[1])] = tally.get(int(a.split()[1]), 0) + 1
    print("refusals:", {n: tally[n] for n in sorted(tally)}, file=sys.stderr)
    assert {2, 3, 4, 5, 6, 7, 8, 9, 10, 11, 15, 16, 19, 20, 21, 22, 23, 24, 25, 26, 47, 48} <= set(tally), tally
    stdin, stdout = "\n".join(LINES) + "\n", "\n".join(ANSWERS) + "\n"
    assert max(len(stdin), len(stdout)) < 900000, (len(stdin), len(stdout))
    os.makedirs(args[0], exist_ok=True)
    open(os.path.join(args[0], "stdin"), "w").write(stdin)
    open(os.path.join(args[0], "stdout"), "w").write(stdout)
    print(len(SEQUENCES), "sequences,", len(LINES), "lines,", len(stdin), "bytes;", len(ANSWERS), "answers,", len(stdout), "bytes", file=sys.stderr)


if __name__ == "__main__":
    main(sys.argv[1:])
