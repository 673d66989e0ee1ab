#!/usr/bin/env python3
r"""Where refusal 7 stands: strings that must be names, and the byte at which each of them breaks the rule.

    python3 docs/vectors/breach.py crates/breach_run

writes crates/breach_run/stdin, a string to a line: the bytes that stand between its two quotes in a text, escapes as they are written (the empty
string is an empty line); and crates/breach_run/stdout, a line for each string with seven answers separated by one blank. They are those of the seven
texts that have the string at X:

    name         {"type":"fixed","name":"X","size":1}
    alias        {"type":"fixed","name":"A","aliases":["X"],"size":1}
    reference    {"type":"array","items":"X"}
    namespace    {"type":"fixed","name":"A","namespace":"X","size":1}
    field        {"type":"record","name":"R","fields":[{"name":"X","type":"int"}]}
    field alias  {"type":"record","name":"R","fields":[{"name":"f","aliases":["X"],"type":"int"}]}
    symbol       {"type":"enum","name":"E","symbols":["X"]}

An answer is `ok` where the text is a declaration (whether a reference is defined is not asked), else NUMBER:POSITION, the position in bytes from 0
in the whole text.

Written from the section Names of document 01 and from request A2 of 02. 7 stands at the first character after which no string that keeps the rule can
follow, and at the closing quote where there is none and the string still does not keep it. A character is what one escape, a pair of surrogate escapes
or one character of UTF-8 means; its position is that of its first byte. The rules are regular expressions, and whether some string that keeps
a rule begins with given characters is tried: they are gone on with in every way of up to two characters out of six. That is enough, since a beginning
of a name that is none itself ends where a simple name must begin, and there one letter makes it one.

Held to it: for every string the same three rules as machines, tables of states and arrows; for every text the answer of the reader of declaration.py,
number and position, which finds the place in a way of its own.

The strings: all 7,381 of 0 to 4 symbols out of nine, by length and then in the order of the nine: `a`, `1`, `.`, `_`, a blank, `é`, `\u0062` (b),
`\u002e` (a dot), `\ud83d\ude00` (one character); then 152 that were worked out by hand and have their seven answers beside them. By hand too: of
the 7,381, 255 are simple names (3 letters, then 3 letters or a digit: 3 + 12 + 48 + 192); 2 * (3 + 12 + 48) = 126 are a dot and a simple name; 18 + 144 = 162
are two simple names joined by a dot. So 543 are names, 418 namespaces with the empty one, and 3 * 543 + 418 + 3 * 255 = 2,812 of their 51,667
texts are accepted; the others are refused by 7. All in all 7,533 strings and 52,731 texts: 2,921 accepted, 49,778 refused by 7, 8 by 8, 24 by 9.
"""
import collections
import functools
import itertools
import json
import os
import re
import sys

sys.path.insert(0, os.path.dirname(os.path.abspath(__file__)))
import declaration

# ---- the rules, and the texts with the byte of the opening quote

SIMPLE = "[A-Za-z_][A-Za-z0-9_]*"
RULES = {"simple": SIMPLE, "name": r"%s|\.%s|%s(\.%s)*" % (SIMPLE, SIMPLE, SIMPLE, SIMPLE), "namespace": r"(%s(\.%s)*)?" % (SIMPLE, SIMPLE)}

FRAMES = [("name", "name", 23, '{"type":"fixed","name":"', '","size":1}'),
          ("alias", "name", 38, '{"type":"fixed","name":"A","aliases":["', '"],"size":1}'),
          ("reference", "name", 24, '{"type":"array","items":"', '"}'),
          ("namespace", "namespace", 39, '{"type":"fixed","name":"A","namespace":"', '","size":1}'),
          ("field", "simple", 46, '{"type":"record","name":"R","fields":[{"name":"', '","type":"int"}]}'),
          ("field alias", "simple", 61, '{"type":"record","name":"R","fields":[{"name":"f","aliases":["', '"],"type":"int"}]}'),
          ("symbol", "simple", 37, '{"type":"enum","name":"E","symbols":["', '"]}')]

PRIMITIVES = ("null", "boolean", "int", "long", "float", "double", "bytes", "string")
RESERVED = PRIMITIVES + ("record", "enum", "fixed")
LONGEST = 255


# ---- the characters of a string, each with its place

PIECE = re.compile(r"\\u[dD][89abAB]..\\u....|\\u....|\\.|[^\\]", re.S)


def characters(written):
    """What the string means, and for each of its characters the number of bytes before it; the last number is that of the closing quote."""
    pieces = PIECE.findall(written)
    assert "".join(pieces) == written
    meant = [json.loads('"%s"' % p) for p in pieces]
    assert all(len(c) == 1 for c in meant) and "".join(meant) == json.loads('"%s"' % written), written
    return "".join(meant), [0] + list(itertools.accumulate(len(p.encode()) for p in pieces))


# ---- the first opinion: what can be gone on with

WAYS = ["".join(w) for n in range(3) for w in itertools.product("a1._ é", repeat=n)]


@functools.lru_cache(maxsize=None)
def keeps(rule, string):
    return re.fullmatch(RULES[rule], string) is not None


@functools.lru_cache(maxsize=None)
def begins(rule, string):
    """Does some string that keeps the rule begin with this one?"""
    return any(keeps(rule, string + way) for way in WAYS)


def breach(rule, string):
    """The number of the first character after which nothing can follow, or that of all where the string ends too soon; None where it keeps the rule."""
    if keeps(rule, string):
        return None
    return next((i for i in range(len(string)) if not begins(rule, string[:i + 1])), len(string))


# ---- the second: machines

LETTERS = set("ABCDEFGHIJKLMNOPQRSTUVWXYZabcdefghijklmnopqrstuvwxyz_")
DIGITS = set("0123456789")
MACHINES = {
    "simple": ({("start", "letter"): "in", ("in", "letter"): "in", ("in", "digit"): "in"}, {"in"}),
    "name": ({("start", "dot"): "lead", ("start", "letter"): "plain", ("lead", "letter"): "leadin", ("leadin", "letter"): "leadin", ("leadin", "digit"): "leadin",
              ("plain", "letter"): "plain", ("plain", "digit"): "plain", ("plain", "dot"): "dot", ("dot", "letter"): "plain"}, {"plain", "leadin"}),
    "namespace": ({("start", "letter"): "plain", ("plain", "letter"): "plain", ("plain", "digit"): "plain", ("plain", "dot"): "dot", ("dot", "letter"): "plain"},
                  {"start", "plain"}),
}


def stopped(rule, string):
    """The same by the machines."""
    arrows, good = MACHINES[rule]
    state = "start"
    for i, c in enumerate(string):
        state = arrows.get((state, "letter" if c in LETTERS else "digit" if c in DIGITS else "dot" if c == "." else "other"))
        if state is None:
            return i
    return None if state in good else len(string)


# ---- the answer of a text

def answer(frame, written):
    where, rule, quote, _, _ = frame
    string, places = characters(written)
    at = breach(rule, string)
    assert at == stopped(rule, string), (rule, written)
    if at is not None:
        return "7:%d" % (quote + 1 + places[at])
    if where == "reference" and string in PRIMITIVES:
        return "ok"
    if where == "namespace":
        kept, quote = (string + ".A" if string else "A"), 23       # the string that is kept is the full name of A, at the name's quote
    else:
        kept = string.removeprefix(".")
    if where in ("name", "alias") and kept.split(".")[-1] in RESERVED:
        return "8:%d" % quote
    return "9:%d" % quote if len(kept) > LONGEST else "ok"


def by_the_reader(frame, written):
    try:
        declaration.declaration((frame[3] + written + frame[4]).encode())
    except declaration.Refused as r:
        return "%d:%d" % r.args
    return "ok"


# ---- the strings

SYMBOLS = ["a", "1", ".", "_", " ", "é", r"\u0062", r"\u002e", r"\ud83d\ude00"]
ALL = ["".join(s) for n in range(5) for s in itertools.product(SYMBOLS, repeat=n)]

# name, alias, reference, namespace, field, field alias, symbol; the first byte of the string is 24, 39, 25, 40, 47, 62, 38
FIRST = "7:24 7:39 7:25 7:40 7:47 7:62 7:38"
SECOND = "7:25 7:40 7:26 7:41 7:48 7:63 7:39"
THIRD = "7:26 7:41 7:27 7:42 7:49 7:64 7:40"
GOOD = "ok ok ok ok ok ok ok"
DOTTED = "ok ok ok ok 7:48 7:63 7:39"          # two simple names, the first of one byte
LEADING = "ok ok ok 7:40 7:47 7:62 7:38"       # a dot and a simple name

BY_HAND = [
    # the examples of the request
    ("a.", "7:26 7:41 7:27 7:42 7:48 7:63 7:39"),
    ("", "7:24 7:39 7:25 ok 7:47 7:62 7:38"),
    (".", "7:25 7:40 7:26 7:40 7:47 7:62 7:38"),
    (".a.b", "7:26 7:41 7:27 7:40 7:47 7:62 7:38"),
    ("..a", "7:25 7:40 7:26 7:40 7:47 7:62 7:38"),
    ("1a", FIRST),
    ("a..b", "7:26 7:41 7:27 7:42 7:48 7:63 7:39"),
    ("a b", SECOND),
    ("aЖb", SECOND),
    (r"a\u0416b", SECOND),
    (r"\ud83d\ude00", FIRST),
    (r"\u0041.", "7:31 7:46 7:32 7:47 7:53 7:68 7:44"),
    (r"a\u002e", "7:31 7:46 7:32 7:47 7:48 7:63 7:39"),
    (r".a\u002eb", "7:26 7:41 7:27 7:40 7:47 7:62 7:38"),
    (r"a\/b", SECOND),
    (".1", "7:25 7:40 7:26 7:40 7:47 7:62 7:38"),
    (".a", LEADING),
    (r"a\u002eb", DOTTED),
    ("a.b", DOTTED),
    ("a.1", "7:26 7:41 7:27 7:42 7:48 7:63 7:39"),
    # a Cyrillic letter among 59 Latin ones, as itself and as an escape; the last of 300 bytes, as itself and as an escape
    ("abcdefghijklmnopqrstuvwxyzABCD" + "\u043e" + "EFGHIJKLMNOPQRSTUVWXYZabcdefg", "7:54 7:69 7:55 7:70 7:77 7:92 7:68"),
    ("abcdefghijklmnopqrstuvwxyzABCD" + r"\u043e" + "EFGHIJKLMNOPQRSTUVWXYZabcdefg", "7:54 7:69 7:55 7:70 7:77 7:92 7:68"),
    ("org.example.Acc" + "\u043e" + "unt", "7:39 7:54 7:40 7:55 7:50 7:65 7:41"),
    ("n" * 298 + "ж", "7:322 7:337 7:323 7:338 7:345 7:360 7:336"),
    ("n" * 298 + r"\u0436", "7:322 7:337 7:323 7:338 7:345 7:360 7:336"),
    ("ж" + "n" * 298, FIRST),
    # characters of two, three and four bytes; a letter with an accent behind it
    ("éa", FIRST),
    ("abé", THIRD),
    ("日本", FIRST),
    ("a€b", SECOND),
    ("ab日", THIRD),
    ("😀", FIRST),
    ("a😀b", SECOND),
    ("ab𝖺", THIRD),
    ("a.😀", "7:26 7:41 7:27 7:42 7:48 7:63 7:39"),
    (".é", "7:25 7:40 7:26 7:40 7:47 7:62 7:38"),
    ("Ａ", FIRST),
    ("ae\u0301", THIRD),
    ("a\u200b", SECOND),
    ("a\u00a0", SECOND),
    ("a\x7f", SECOND),
    # short escapes, and those of control characters
    (r"a\"b", SECOND),
    (r"a\\b", SECOND),
    (r"\"", FIRST),
    (r"\\", FIRST),
    (r"ab\\", THIRD),
    (r"\/", FIRST),
    (r"a\n", SECOND),
    (r"a\bc", SECOND),
    (r"\f", FIRST),
    (r"ab\r", THIRD),
    (r"a.\t", "7:26 7:41 7:27 7:42 7:48 7:63 7:39"),
    (r"a\\u0062", SECOND),
    (r"\u0000", FIRST),
    (r"a\u0000", SECOND),
    (r"ab\u0000c", THIRD),
    (r"a\u0020b", SECOND),
    (r"a\u0022b", SECOND),
    (r"a\u005cb", SECOND),
    (r"a\u007f", SECOND),
    (r"a\u0080", SECOND),
    # hexadecimal digits small and capital; what comes behind an escape that is permitted
    (r"a\u002Eb", DOTTED),
    (r"a\u002E", "7:31 7:46 7:32 7:47 7:48 7:63 7:39"),
    (r"\u002E", "7:30 7:45 7:31 7:40 7:47 7:62 7:38"),
    (r"\u002EB", LEADING),
    (r"\u002e\u0062", LEADING),
    (r"a\u002e\u002Eb", "7:31 7:46 7:32 7:47 7:48 7:63 7:39"),
    (r"\u002e\u0061\u002Eb", "7:36 7:51 7:37 7:40 7:47 7:62 7:38"),
    (r"\u002E.", "7:30 7:45 7:31 7:40 7:47 7:62 7:38"),
    (r"\u004a\u006B\u005F\u0039", GOOD),
    (r"\u0031", FIRST),
    (r"a\u0031", GOOD),
    (r"a.\u0031", "7:26 7:41 7:27 7:42 7:48 7:63 7:39"),
    (r"\u0061\u0062-", "7:36 7:51 7:37 7:52 7:59 7:74 7:50"),
    (r"\u0061\u0062é", "7:36 7:51 7:37 7:52 7:59 7:74 7:50"),
    (r"\u0061\u002d", "7:30 7:45 7:31 7:46 7:53 7:68 7:44"),
    (r"\u0061\/", "7:30 7:45 7:31 7:46 7:53 7:68 7:44"),
    (r"\u0061.\u0062.", "7:38 7:53 7:39 7:54 7:53 7:68 7:44"),
    (r"a\u041Ab", SECOND),
    (r"a\u041ab", SECOND),
    # a pair of surrogates first, in the middle, last; its digits small and capital
    (r"\ud83d\ude00a", FIRST),
    (r"a\ud83d\ude00b", SECOND),
    (r"ab\ud83d\ude00", THIRD),
    (r"\uD83D\uDE00", FIRST),
    (r"a\ud83D\uDe00", SECOND),
    (r"\u0061\uDBFF\uDFFF", "7:30 7:45 7:31 7:46 7:53 7:68 7:44"),
    (r"a.\ud800\udc00", "7:26 7:41 7:27 7:42 7:48 7:63 7:39"),
    (r".\ud83d\ude00", "7:25 7:40 7:26 7:40 7:47 7:62 7:38"),
    # characters whose last byte, or last two digits, are those of a permitted one: A, a dot, _, a, 0
    (r"\u0141", FIRST),
    (r"a\u012e", SECOND),
    (r"a\u015F", SECOND),
    (r"a\u2061", SECOND),
    (r"a\uff10", SECOND),
    (r"\ud800\udc41", FIRST),
    (r"a\ud800\udc2eb", SECOND),
    ("Ł", FIRST),
    # a wrong character and a bad end
    ("a-b.", SECOND),
    ("é.", FIRST),
    ("1.", FIRST),
    ("a.-.", "7:26 7:41 7:27 7:42 7:48 7:63 7:39"),
    (".a.", "7:26 7:41 7:27 7:40 7:47 7:62 7:38"),
    (".a-.", "7:26 7:41 7:27 7:40 7:47 7:62 7:38"),
    ("a.b c.", "7:27 7:42 7:28 7:43 7:48 7:63 7:39"),
    ("..", "7:25 7:40 7:26 7:40 7:47 7:62 7:38"),
    ("a..", "7:26 7:41 7:27 7:42 7:48 7:63 7:39"),
    (r"a.\u00e9\u002e", "7:26 7:41 7:27 7:42 7:48 7:63 7:39"),
    # names of three parts and more
    ("a.b.c", DOTTED),
    ("a.b.", "7:28 7:43 7:29 7:44 7:48 7:63 7:39"),
    ("a.b..c", "7:28 7:43 7:29 7:44 7:48 7:63 7:39"),
    ("a.b.c-d", "7:29 7:44 7:30 7:45 7:48 7:63 7:39"),
    ("._1", LEADING),
    (".b9.c9", "7:27 7:42 7:28 7:40 7:47 7:62 7:38"),
    # the edges of the letters and digits, first and behind a letter
    ("@", FIRST),
    ("[", FIRST),
    ("`", FIRST),
    ("{", FIRST),
    ("/", FIRST),
    (":", FIRST),
    ("^", FIRST),
    ("0", FIRST),
    ("9", FIRST),
    ("A", GOOD),
    ("Z", GOOD),
    ("z", GOOD),
    ("AZaz09_", GOOD),
    ("a@", SECOND),
    ("Z[", SECOND),
    ("_`", SECOND),
    ("z{", SECOND),
    ("A/", SECOND),
    ("A:", SECOND),
    ("_^_", SECOND),
    ("a-", SECOND),
    ("a,b", SECOND),
    ("a$b", SECOND),
    # 9, at the opening quote of the string that is kept: of the namespace it is the name's, and two bytes are added
    ("n" * 253, GOOD),
    ("n" * 254, "ok ok ok 9:23 ok ok ok"),
    ("n" * 255, "ok ok ok 9:23 ok ok ok"),
    ("n" * 256, "9:23 9:38 9:24 9:23 9:46 9:61 9:37"),
    (r"\u006e" * 256, "9:23 9:38 9:24 9:23 9:46 9:61 9:37"),
    ("." + "n" * 255, LEADING),
    ("." + "n" * 256, "9:23 9:38 9:24 7:40 7:47 7:62 7:38"),
    ("n" * 127 + "." + "n" * 127, "ok ok ok 9:23 7:174 7:189 7:165"),
    ("n" * 127 + "." + "n" * 128, "9:23 9:38 9:24 9:23 7:174 7:189 7:165"),
    # 7 before 9
    ("n" * 256 + ".", "7:281 7:296 7:282 7:297 7:303 7:318 7:294"),
    (r"\u006e" * 256 + "-", "7:1560 7:1575 7:1561 7:1576 7:1583 7:1598 7:1574"),
    # 8, at the opening quote, and 7 before it
    ("int", "8:23 8:38 ok ok ok ok ok"),
    (r"\u0069nt", "8:23 8:38 ok ok ok ok ok"),
    ("a.record", "8:23 8:38 ok ok 7:48 7:63 7:39"),
    (".null", "8:23 8:38 ok 7:40 7:47 7:62 7:38"),
    ("int.", "7:28 7:43 7:29 7:44 7:50 7:65 7:41"),
    ("int-", "7:27 7:42 7:28 7:43 7:50 7:65 7:41"),
]


def main(folder):
    for _, _, quote, before, _ in FRAMES:
        assert len(before) == quote + 1 and before.endswith('"')
    lines, answers, counts = [], [], collections.Counter()
    for n, (written, want) in enumerate([(s, None) for s in ALL] + BY_HAND):
        assert "\n" not in written
        got = [answer(f, written) for f in FRAMES]
        assert want is None or " ".join(got) == want, (written, want, got)
        for f, a in zip(FRAMES, got):
            assert by_the_reader(f, written) == a, (f[0], written, a, by_the_reader(f, written))
        counts.update(a.split(":")[0] for a in got)
        lines.append(written)
        answers.append(" ".join(got))
        if n == len(ALL) - 1:
            assert len(ALL) == 7381 and counts == {"ok": 2812, "7": 51667 - 2812}, counts
    assert len(lines) == 7533 and counts == {"ok": 2921, "7": 49778, "8": 8, "9": 24}, (len(lines), counts)
    print(len(lines), "strings,", len(BY_HAND), "of them by hand;", sum(counts.values()), "texts:", dict(counts), file=sys.stderr)
    os.makedirs(folder, exist_ok=True)
    open(os.path.join(folder, "stdin"), "wb").write("".join(l + "\n" for l in lines).encode())
    open(os.path.join(folder, "stdout"), "w").write("".join(a + "\n" for a in answers))


if __name__ == "__main__":
    main(sys.argv[1])
