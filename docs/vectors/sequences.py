#!/usr/bin/env python3
"""Scripts of calls on a set, and their answers by replay.py.

    python3 docs/vectors/sequences.py crates/sets_run            writes stdin and stdout there
    python3 docs/vectors/sequences.py --short crates/replay      a script of about fifty lines, for people
    python3 docs/vectors/sequences.py labels                     each sequence's first line and what it is about

Each sequence starts with `memory 51266`, `fill 0`, `open`. Beside each call stands what it must answer, worked out by hand from
document 01 and from three requests of 02, A2 where 7 stands, A4 for the call that puts and A10 for a decimal's note 7: the number of
a refusal, whose position is marked by ^ in the text at fault, or the counts. Two things are tried of every put: a refusal leaves the
digest as it was; and the memory is the one that putting the same texts at the end of an empty set one by one gives. Of a refused put
at a place up to the count it is tried that the edited list, put at the end one by one, is refused in the same way: with 22 too, by
its 33rd text. A place above the count has no edited list, and is 21.
"""
import os
import random
import sys

sys.path.insert(0, os.path.dirname(os.path.abspath(__file__)))
import declaration_texts
import replay
from declaration_texts import unmarked

LINES, ANSWERS, SEQUENCES = [], [], []


class Now:
    """The sequence that is being written."""
    machine = replay.Machine()
    texts = []     # the texts in the set, None where memory was poked
    marks = []     # the marked positions of each
    digest = None


def say(line):
    answers = Now.machine.line(line)
    LINES.append(line)
    ANSWERS.extend(answers)
    return answers


def ended():
    """The memory at the end of a sequence: questions have left it alone."""
    before = Now.digest
    assert digest() == before or before is None


def seq(label):
    if SEQUENCES:
        ended()
    SEQUENCES.append((len(LINES) + 1, label))
    for line in ("memory 51266", "fill 0"):
        assert say(line) == ["ok"]
    assert say("open") == ["ok 0 0 0"]
    Now.texts, Now.marks, Now.digest = [], [], None


def digest():
    answer = say("digest")
    Now.digest = answer
    return answer


def from_nothing(texts):
    """The texts put at the end of an empty set, one by one: the memory, or the refusal."""
    m = replay.Machine()
    for place, t in enumerate(texts):
        answer = m.line("put %d %s" % (place, t.hex() or "-"))
        if answer[0].startswith("refused"):
            return answer
    return bytes(m.memory[:replay.LENGTH])


def put(place, text, want=None, behind=None, which=0):
    """A text put at a place; want is a refusal's number, at the place or at one behind it, or the counts. which says at what mark."""
    plain, marks = unmarked(text)
    mark = marks[which] if marks and behind is None else None
    if Now.digest is None:
        digest()
    before, count = Now.digest, len(Now.texts)
    got = say("put %d %s" % (place, plain.hex() or "-"))
    digest()
    edited = Now.texts[:place] + [plain] + Now.texts[place + 1:]
    if isinstance(want, int):
        number = want
        at = place if behind is None else behind
        position = 0 if number in (20, 21, 22, 23, 24) else 32768 if number == 1 else mark if behind is None else Now.marks[behind][which]
        assert got == ["refused %d %d %d" % (number, at, position)], (SEQUENCES[-1], place, plain[:200], want, got)
        assert Now.digest == before
        if number != 20:
            assert (number == 21) == (place > count) and (number == 22) == (place == count == 32)
            if place <= count and None not in Now.texts:
                assert from_nothing(edited) == got, (SEQUENCES[-1], from_nothing(edited), got)
        return
    assert got[0].startswith("ok"), (SEQUENCES[-1], place, plain[:200], got)
    assert want is None or got == ["ok %d %d %d" % want], (SEQUENCES[-1], place, plain[:200], want, got)
    assert place <= count and place < 32 and got[0].split()[1] == str(max(count, place + 1))
    Now.texts, Now.marks = edited, Now.marks[:place] + [marks] + Now.marks[place + 1:]
    if None not in Now.texts:
        assert from_nothing(Now.texts) == bytes(Now.machine.memory[:replay.LENGTH])


def at_end(text, want=None):
    """A text put at the count."""
    put(len(Now.texts), text, want)


def ask(line, want):
    """A question, and its answer: a refusal's number, or the line."""
    got = say(line)
    if isinstance(want, int):
        place = int(line.split()[1])
        assert got[0].split()[:3] == ["refused", str(want), str(place)], (SEQUENCES[-1], line, want, got)
    elif want is not None:
        assert got[0] == want, (SEQUENCES[-1], line, want, got)
    return got


def name(place, row, want):
    ask("name %d %d" % (place, row), want if isinstance(want, int) else "ok " + want.encode().hex())


def text_of(place, offset, room, want):
    """The canonical text; want is the text, or 29 with its length, or another number."""
    line = "canonical %d %d %d" % (place, offset, room)
    if isinstance(want, tuple):
        assert say(line) == ["refused 29 %d %d %s" % (place, want[1], "aa" * room or "-")], (SEQUENCES[-1], line)
    elif isinstance(want, int):
        assert say(line) == ["refused %d %d 0 %s" % (want, place, "aa" * room or "-")], (SEQUENCES[-1], line)
    else:
        b = want.encode()
        assert say(line) == ["ok %d %s" % (len(b), "aa" * offset + b.hex() + "aa" * (room - offset - len(b)))], (SEQUENCES[-1], line, ANSWERS[-1])


def poke(at, data):
    say("poke %d %s" % (at, data.hex() or "-"))
    Now.texts, Now.digest = [None] * len(Now.texts), None


def full():
    """Every question about every place."""
    for place in range(len(Now.texts)):
        say("rows %d" % place)
        say("fingerprint %d" % place)


# ---- texts

def E(n, more=""):
    return '{"type":"enum","name":^"%s","symbols":["A","B"]%s}' % (n, more)


def F(n, size=4):
    return '{"type":"fixed","name":^"%s","size":%d}' % (n, size)


def R(n, *types):
    return '{"type":"record","name":^"%s","fields":[%s]}' % (n, ",".join('{"name":"f%d","type":%s}' % (i, t) for i, t in enumerate(types)))


def ref(n):
    return '{"type":"array","items":^"%s"}' % n


def plain(t):
    return t.replace("^", "")


def rows(n, count):
    """A fixed of so many rows; its string bytes are the name's and count - 1."""
    return '{"type":"fixed","name":^"%s","size":0,"aliases":[%s]}' % (n, ",".join(['"a"'] * (count - 1)))


def weight(n, total):
    """A fixed of so many string bytes, in a namespace of 250 bytes."""
    left = total - 251 - len(n)
    k, r = divmod(left, 252)
    assert left >= 0
    aliases = ['"a"'] * k + (['".%s"' % ("b" * r)] if r else [])
    return '{"type":"fixed","name":^"%s","namespace":"~250~","size":0,"aliases":[%s]}' % (n, ",".join(aliases))


LISTING = '{"type":"record","name":"R","namespace":"a","fields":[{"name":"x","type":"int"},{"name":"next","type":["null","R"]}]}'
LISTED = '{"name":"a.R","type":"record","fields":[{"name":"x","type":"int"},{"name":"next","type":["null","a.R"]}]}'


def faults(number):
    """Short texts of one refusal, from the list of declaration_texts."""
    found = [c for c in declaration_texts.CASES if c.number == number and len(c.text) < 400 and "generated" not in c.label]
    return [found[i * len(found) // 4] for i in range(4)]


def marked(case):
    t = case.text[:case.position] + b"^" + case.text[case.position:]
    assert unmarked(t)[0] == case.text
    return t


TOO_LONG = "x" + " " * 32768      # 1 before 2


# ---- the empty set, one declaration, 01's listing

def first():
    seq("the empty set")
    digest()
    for line in ("name 0 0", "fingerprint 0", "rows 0"):
        ask(line, 21)
    text_of(0, 0, 4, 21)
    put(1, '"int"', 21)
    say("open")
    digest()

    seq("01's listing")
    at_end(LISTING, (1, 7, 11))
    say("rows 0")
    name(0, 0, "a.R")
    name(0, 6, "a.R")
    for row in (1, 2, 3, 4, 5, 7, 8):
        name(0, row, 21)
    text_of(0, 0, 105, LISTED)
    say("fingerprint 0")
    assert say("rows 0")[-1] == "end"

    seq("01's listing, its canonical text has the same canonical text")
    at_end(LISTED, (1, 7, 11))
    text_of(0, 0, 105, LISTED)
    say("fingerprint 0")
    say("rows 0")

    for p in ("null", "boolean", "int", "long", "float", "double", "bytes", "string"):
        seq("one primitive " + p)
        at_end('{"type":"%s"}' % p, (1, 1, 0))
        text_of(0, 0, len(p) + 2, '"%s"' % p)
        say("fingerprint 0")
        name(0, 0, 21)
        at_end('"%s"' % p, (2, 2, 0))
        full()

    seq("every kind of row by name")
    at_end('{"type":"record","name":"a.R","aliases":["S","b.T"],"fields":[{"name":"x","aliases":["y"],"type":{"type":"enum","name":"E","aliases":[".EE"],"symbols":["A"]}},'
        '{"name":"z","type":{"type":"map","values":{"type":"array","items":["null","E",{"type":"fixed","name":"c.F","aliases":["G"],"size":18446744073709551615},"bytes"]}}}]}', (1, 17, 27))
    say("rows 0")
    for row, want in enumerate(["a.R", "a.S", "b.T", 21, 21, "a.E", "EE", 21, 21, 21, 21, 21, 21, "a.E", "c.F", "c.G", 21, 21, 21]):
        name(0, row, want)
    for row in (34, 65535, 65536, 4294967296, 18446744073709551615):
        name(0, row, 21)
    for place in (1, 2, 31, 32, 65536, 4294967296, 18446744073709551615):
        name(place, 0, 21)
        ask("fingerprint %d" % place, 21)
        ask("rows %d" % place, 21)
        text_of(place, 0, 0, 21)
    text_of(0, 0, 300, '{"name":"a.R","type":"record","fields":[{"name":"x","type":{"name":"a.E","type":"enum","symbols":["A"]}},{"name":"z","type":{"type":"map","values":{"type":"array",'
            '"items":["null","a.E",{"name":"c.F","type":"fixed","size":18446744073709551615},"bytes"]}}}]}')
    say("fingerprint 0")


# ---- each refusal of a text, at the count and at places before it

def refusals():
    seq("1 at the count")
    at_end(F("a.F"), (1, 1, 3))
    at_end(TOO_LONG, 1)
    at_end("[]", (2, 2, 3))
    seq("1 at the last place")
    at_end(F("F"))
    at_end(ref("F"))
    put(1, TOO_LONG, 1)
    full()
    for number in list(range(2, 20)) + [27, 28]:
        cases = faults(number)
        seq("%d at the count of an empty set" % number)
        at_end(marked(cases[0]), number)
        at_end('"int"', (1, 1, 0))
        at_end(marked(cases[1]), number)
        seq("%d at the count, behind two" % number)
        at_end(F("F"), (1, 1, 1))
        at_end(ref("F"), (2, 3, 2))
        at_end(marked(cases[2]), number)
        full()
        seq("%d at the first, middle and last place" % number)
        at_end(F("F"))
        at_end(ref("F"))
        at_end('{"type":"map","values":"F"}', (3, 5, 3))
        for place in (0, 1, 2):
            put(place, marked(cases[(place + 1) % 4]), number)
        put(4, marked(cases[0]), 21)
        name(2, 1, "F")


# ---- 25 and 26

def names():
    seq("25 at the count")
    at_end(F("a.F"))
    at_end(F("a.F"), 25)
    at_end('{"type":"record","name":^"F","namespace":"a","fields":[]}', 25)
    at_end('{"type":"record","name":"R","namespace":"a","fields":[{"name":"f","type":{"type":"enum","name":^"F","symbols":[]}}]}', 25)
    at_end(F("F"), (2, 2, 4))
    at_end(F("b.F"), (3, 3, 7))
    full()
    seq("25 within one declaration")
    at_end(R("R", plain(F("x.G")), F("R")).replace("^", "", 1), 25)
    at_end(plain(R("R")[:-2]) + '{"name":"f","type":{"type":"record","name":^"R","fields":[]}}]}', 25)
    at_end('{"type":"array","items":[{"type":"record","name":"S","fields":[{"name":"f","type":{"type":"enum","name":"T","symbols":[]}}]},{"type":"record","name":^"T","fields":[]}]}', 25)
    at_end('{"type":"record","name":"R","namespace":"n","fields":[{"name":"f","type":{"type":"record","name":"R","namespace":"","fields":[{"name":"g","type":"R"}]}},{"name":"h","type":["R","n.S"]}]}'.replace('"n.S"', '^"n.S"'), 26)
    at_end('{"type":"record","name":"R","namespace":"n","fields":[{"name":"f","type":{"type":"record","name":"R","namespace":"","fields":[{"name":"g","type":"R"}]}},{"name":"h","type":["R",".R"]}]}', (1, 9, 12))
    full()
    seq("25 does not look at aliases")
    at_end('{"type":"fixed","name":"F","size":1,"aliases":["G","F","H"]}', (1, 4, 4))
    at_end(F("G"), (2, 5, 5))
    at_end('{"type":"fixed","name":"H","size":1,"aliases":["G","F"]}', (3, 8, 8))
    full()
    seq("26 does not look at aliases")
    at_end('{"type":"record","name":"a.R","aliases":["Q"],"fields":[]}', (1, 2, 6))
    at_end(ref("a.Q"), 26)
    at_end(ref("Q"), 26)
    at_end('{"type":"record","name":"a.S","aliases":["Q"],"fields":[{"name":"f","type":^"Q"}]}', 26)
    at_end(ref("a.R"), (2, 4, 9))
    full()
    seq("26 at the count of an empty set")
    at_end('^"R"', 26)
    at_end('["null",^"a.b.C"]', 26)
    at_end('{"type":^"R"}', 26)
    at_end('{"type":"map","values":^".R"}', 26)
    at_end('"int"', (1, 1, 0))
    seq("a record that refers to itself")
    at_end('{"type":"record","name":"R","fields":[{"name":"f","type":"R"}]}', (1, 3, 3))
    at_end('"R"', (2, 4, 4))
    at_end('".R"', (3, 5, 5))
    full()
    seq("an enclosing record two deep")
    at_end('{"type":"record","name":"a.R","fields":[{"name":"f","type":{"type":"record","name":"S","fields":[{"name":"f","type":["null","R","S"]}]}}]}', (1, 8, 14))
    full()
    seq("a reference before its definition")
    at_end('{"type":"record","name":"R","fields":[{"name":"f","type":^"S"},{"name":"g","type":{"type":"record","name":"S","fields":[]}}]}', 26)
    at_end('{"type":"record","name":"R","fields":[{"name":"g","type":{"type":"record","name":"S","fields":[]}},{"name":"f","type":"S"}]}', (1, 5, 5))
    at_end('[{"type":"array","items":^"T"},{"type":"fixed","name":"T","size":1}]', 26)
    at_end('[{"type":"fixed","name":"T","size":1},{"type":"array","items":"T"}]', (2, 9, 7))
    full()
    seq("a reference to a later declaration")
    at_end(ref("R"), 26)
    at_end(R("R"), (1, 1, 1))
    at_end(ref("R"), (2, 3, 2))
    seq("a reference within a namespace is not looked for outside it")
    at_end(F("F"), (1, 1, 1))
    at_end('{"type":"record","name":"a.R","fields":[{"name":"f","type":^"F"}]}', 26)
    at_end('{"type":"record","name":"a.R","fields":[{"name":"f","type":".F"}]}', (2, 4, 6))
    full()
    seq("a reference without a namespace does not find one inside")
    at_end(F("a.F"), (1, 1, 3))
    at_end(ref("F"), 26)
    at_end('{"type":"record","name":"a.R","fields":[{"name":"f","type":"F"}]}', (2, 4, 10))
    full()
    seq("a reference to a prefix, and to more")
    at_end(F("a.bc"), (1, 1, 4))
    for r in ("a.b", "a.bcd", "a", "bc", "b.bc", "A.bc", "a.bC", "a.a.bc"):
        at_end(ref(r), 26)
    at_end(ref("a.bc"), (2, 3, 8))
    seq("references to reserved words are never known")
    for r in ("record", "enum", "fixed", ".int", "a.string", ".null"):
        at_end(ref(r), 26)
    at_end('{"type":"record","name":"R","fields":[{"name":"f","type":^"array","items":"int"}]}', 26)
    at_end('{"type":"record","name":"array","fields":[]}', (1, 1, 5))
    at_end('{"type":"record","name":"R","fields":[{"name":"f","type":"array","items":"int"}]}', (2, 4, 12))
    at_end('{"type":"array","items":"array"}', (3, 6, 17))
    full()
    seq("25 before 26 in preorder")
    at_end(F("F"))
    at_end('[{"type":"fixed","name":^"F","size":1},"G"]', 25)
    at_end('{"type":"record","name":"R","fields":[{"name":"f","type":{"type":"fixed","name":^"F","size":1}},{"name":"g","type":"G"}]}', 25)
    at_end('{"type":"record","fields":[{"name":"g","type":"G"}],"name":^"F"}', 25)
    seq("26 before 25 in preorder")
    at_end(F("F"))
    at_end('[^"G",{"type":"fixed","name":"F","size":1}]', 26)
    at_end('{"type":"record","name":"R","fields":[{"name":"g","type":^"G"},{"name":"f","type":{"type":"fixed","name":"F","size":1}}]}', 26)
    at_end('{"type":"record","name":"R","fields":[{"type":{"type":"array","items":^"G"},"name":"g"},{"name":"f","type":{"type":"record","name":"R","fields":[]}}]}', 26)
    seq("two 25 and two 26, the first in preorder")
    at_end('[{"type":"fixed","name":"F","size":1},{"type":"fixed","name":"G","size":1}]', (1, 3, 2))
    at_end('{"type":"array","items":[{"type":"fixed","name":^"G","size":1},{"type":"fixed","name":"F","size":1}]}', 25)
    at_end('[^"X","Y"]', 26)
    at_end('["F","G",^"Y","X"]', 26)
    seq("a refused definition defines nothing")
    at_end('[{"type":"fixed","name":"F","size":1},^"G"]', 26)
    at_end(ref("F"), 26)
    at_end(F("F"), (1, 1, 1))
    seq("a long name, all but the last byte alike")
    at_end(F("~254~a"), (1, 1, 255))
    at_end(F("~254~b"), (2, 2, 510))
    at_end(F("~254~a"), 25)
    at_end(ref("~254~c"), 26)
    at_end(ref("~254~b"), (3, 4, 765))


# ---- places before the count

def replacements():
    A, B, C = F("F"), ref("F"), '{"type":"map","values":"F"}'
    seq("replacement at the first, middle and last place, larger")
    for t in (A, '"int"', '"long"'):
        at_end(t)
    put(0, R("R", '"int"', '"string"'), (3, 7, 5))
    put(1, R("S", '"R"'), (3, 9, 9))
    put(2, R("T", '"S"', '"R"', '"T"'), (3, 15, 19))
    full()
    seq("replacement at the first, middle and last place, smaller")
    for t in (R("R", '"int"', '"string"'), R("S", '"int"', '"R"'), R("T", '"int"', '"int"')):
        at_end(t)
    put(2, '"int"', (3, 11, 11))
    put(1, '"null"', (3, 7, 5))
    put(0, "[]", (3, 3, 0))
    full()
    seq("replacement by the same text")
    at_end(LISTING, (1, 7, 11))
    at_end(E("e.E"), (2, 10, 16))
    put(0, LISTING, (2, 10, 16))
    put(1, E("e.E"), (2, 10, 16))
    full()
    seq("replacement by the same rows at other positions")
    at_end(LISTING, (1, 7, 11))
    put(0, " " + LISTING, (1, 7, 11))
    say("rows 0")
    put(0, LISTED, (1, 7, 11))
    say("rows 0")
    put(0, LISTING, (1, 7, 11))
    seq("replacement in a set of one")
    at_end(A, (1, 1, 1))
    put(0, F("G"), (1, 1, 1))
    put(0, ref("F"), 26)
    put(0, R("a.F", '"F"'), (1, 3, 8))
    put(2, '"int"', 21)
    full()
    seq("a replacement leaves what stands before it")
    for t in (A, B, C, E("E"), '"E"'):
        at_end(t)
    put(4, '["E","F"]', (5, 11, 8))
    put(3, '{"type":"enum","name":"E","symbols":[]}', (5, 9, 6))
    full()
    seq("26 behind the place")
    at_end(A)
    at_end(B)
    put(0, F("G"), 26, behind=1)
    put(0, '"int"', 26, behind=1)
    put(0, R("F"), (2, 3, 2))
    full()
    seq("26 two behind the place")
    for t in (A, '"int"', "  " + B):
        at_end(t)
    put(0, F("G"), 26, behind=2)
    put(1, F("G"), (3, 4, 3))
    put(0, '{"type":"fixed","name":"H","size":1,"aliases":["F"]}', 26, behind=2)
    full()
    seq("26 behind the place, of two the earlier")
    for t in (A, B, C):
        at_end(t)
    put(0, '"int"', 26, behind=1)
    put(1, '"int"', (3, 4, 2))
    put(2, '{"type":"map","values":^"F"}', (3, 4, 2))
    put(0, '"int"', 26, behind=2)
    seq("26 behind the place, in one declaration the first")
    at_end('[{"type":"fixed","name":"F","size":1},{"type":"fixed","name":"G","size":1}]')
    at_end('{"type":"record","name":"R","fields":[{"name":"f","type":"int"},{"name":"g","type":^"G"},{"name":"h","type":"F"}]}')
    put(0, '"int"', 26, behind=1)
    put(0, F("F"), 26, behind=1)
    seq("26 behind the place, the second reference of two")
    at_end('[{"type":"fixed","name":"F","size":1},{"type":"fixed","name":"G","size":1}]')
    at_end('["F",{"type":"array","items":^"G"}]')
    put(0, F("F"), 26, behind=1)
    put(0, '[{"type":"fixed","name":"G","size":1},{"type":"fixed","name":"F","size":1}]', (2, 7, 4))
    seq("26 behind the place because a definition moved into another namespace")
    at_end('{"type":"record","name":"R","namespace":"a","fields":[]}')
    at_end(ref("a.R"))
    put(0, '{"type":"record","name":"R","namespace":"b","fields":[]}', 26, behind=1)
    put(0, '{"type":"record","name":"R","fields":[]}', 26, behind=1)
    put(0, '{"type":"enum","name":"a.R","symbols":[]}', (2, 3, 6))
    seq("25 behind the place")
    at_end(A)
    at_end(F("G"))
    put(0, F("G"), 25, behind=1)
    put(0, '[{"type":"fixed","name":"H","size":1},{"type":"enum","name":"G","symbols":[]}]', 25, behind=1)
    put(1, F("F"), 25)
    put(0, F("H"), (2, 2, 2))
    full()
    seq("25 three behind the place")
    for t in ('"int"', '"long"', A, '{"type":"array","items":{"type":"record","name":^"G","fields":[]}}'):
        at_end(t)
    put(0, F("G"), 25, behind=3)
    put(1, '{"type":"array","items":{"type":"fixed","name":"G","size":1}}', 25, behind=3)
    put(2, R("F", plain(F("G"))), 25, behind=3)
    put(3, R("G", '"F"'), (4, 6, 5))
    full()
    seq("25 behind the place, of two the earlier")
    for t in ('"int"', A, F("G")):
        at_end(t)
    put(0, '[{"type":"fixed","name":"G","size":1},{"type":"fixed","name":"F","size":1}]', 25, behind=1)
    seq("25 behind the place before 26 behind that")
    for t in (A, F("G"), B):
        at_end(t)
    put(0, F("G"), 25, behind=1)
    seq("26 behind the place before 25 behind that")
    for t in (A, B, F("G")):
        at_end(t)
    put(0, F("G"), 26, behind=1)
    seq("25 and 26 behind the place in one declaration, 25 first")
    at_end(A)
    at_end('[{"type":"fixed","name":^"G","size":1},"F"]')
    put(0, F("G"), 25, behind=1)
    seq("25 and 26 behind the place in one declaration, 26 first")
    at_end(A)
    at_end('[^"F",{"type":"fixed","name":"G","size":1}]')
    put(0, F("G"), 26, behind=1)
    seq("25 in the new text before 26 behind")
    for t in (E("E"), A, B):
        at_end(t)
    put(1, E("E"), 25)
    put(1, '[^"X",{"type":"enum","name":"E","symbols":[]}]', 26)
    seq("26 in the new text before 25 behind")
    for t in ('"int"', F("G")):
        at_end(t)
    put(0, '[{"type":"fixed","name":"G","size":1},^"X"]', 26)
    seq("a new text may not refer to what it replaces")
    at_end(A)
    at_end(E("E"))
    put(0, ref("F"), 26)
    put(0, ref("E"), 26)
    put(1, ref("E"), 26)
    put(1, ref("F"), (2, 3, 2))
    seq("a new text may take the name of what it replaces")
    at_end(A)
    at_end(B)
    put(0, E("F"), (2, 5, 4))
    put(0, R("F", '"F"'), (2, 5, 5))
    full()
    seq("23 behind the place")
    at_end('"int"')
    at_end(rows("B", 1000))
    at_end(rows("C", 23), (3, 1024, 1023))
    put(0, '["int"]', 23, behind=2)
    put(0, rows("A", 24), 23, behind=2)
    put(0, rows("A", 25), 23, behind=1)
    put(0, rows("A", 1025), 23)
    put(0, '"long"', (3, 1024, 1023))
    put(1, rows("B", 999), (3, 1023, 1022))
    put(0, '["int"]', (3, 1024, 1022))
    seq("24 behind the place")
    at_end(F("A"))
    at_end(weight("B", 16000))
    at_end(weight("C", 383), (3, 67, 16384))
    put(0, F("AA"), 24, behind=2)
    put(0, weight("A", 384), 24, behind=2)
    put(0, weight("A", 385), 24, behind=1)
    put(0, weight("A", 16384), 24, behind=1)
    put(0, weight("A", 16385), 24)
    put(0, F("X"), (3, 67, 16384))
    put(2, weight("C", 382), (3, 67, 16383))
    put(0, F("XX"), (3, 67, 16384))
    seq("24 behind the place before 23 behind that")
    at_end('"int"')
    at_end(weight("B", 16300), (2, 66, 16300))
    at_end(rows("C", 80), (3, 146, 16380))
    put(0, rows("A", 84), 24, behind=2)
    put(0, rows("A", 85), 24, behind=1)
    put(0, rows("A", 900), 24, behind=1)
    put(0, rows("A", 1), (3, 146, 16381))
    put(0, '{"type":"array","items":' * 20 + '"int"' + "}" * 20, (3, 166, 16380))
    put(0, rows("A", 5), 24, behind=2)
    seq("23 behind the place before 24 of the same declaration")
    at_end('"int"')
    at_end(rows("B", 900), (2, 901, 900))
    at_end(weight("C", 15400), (3, 963, 16300))
    put(0, rows("A", 62), (3, 1024, 16362))
    put(0, rows("A", 63), 23, behind=2)
    put(0, rows("A" * 24, 63), 23, behind=2)
    put(0, rows("A" * 24, 62), 24, behind=2)
    seq("23 behind the place before 25 of the same declaration")
    at_end('"int"')
    at_end(rows("B", 1023), (2, 1024, 1023))
    put(0, '[{"type":"fixed","name":"B","size":0}]', 23, behind=1)
    put(0, F("B"), 25, behind=1)
    seq("25 behind the place before 23 behind that")
    for t in ('"int"', F("B"), rows("C", 1022)):
        at_end(t)
    put(0, '[{"type":"fixed","name":"B","size":0}]', 25, behind=1)
    put(0, '[{"type":"fixed","name":"D","size":0}]', 23, behind=2)
    seq("24 behind the place before 26 of the same declaration")
    at_end(F("F"))
    at_end('["F",%s]' % plain(weight("W", 16382)), (2, 69, 16384))
    put(0, F("FF"), 24, behind=1)
    seq("26 behind the place before 24 behind that")
    for t in (A, B, weight("W", 16382)):
        at_end(t)
    put(0, F("GG"), 26, behind=1)
    put(0, '[{"type":"fixed","name":"F","size":1},{"type":"fixed","name":"G","size":1}]', 24, behind=2)
    seq("positions behind the place are those that the rows keep")
    at_end(A)
    at_end(" " * 300 + B)
    at_end("\n" * 5 + '{"type":"record","name":^"G","fields":[]}')
    put(0, '"int"', 26, behind=1)
    put(0, '[{"type":"fixed","name":"F","size":1},{"type":"fixed","name":"G","size":1}]', 25, behind=2)
    seq("chains of references")
    at_end(F("A"))
    for a, b in zip("ABCDE", "BCDEF"):
        at_end(R(b, '^"%s"' % a).replace("^", "", 1))
    for place, n in enumerate("BCDEF"):
        put(place, F("Z"), 26, behind=place + 1)
    put(5, F("Z"), (6, 14, 18))
    full()
    seq("two places exchanged by three replacements")
    at_end(F("A"))
    at_end(F("B"))
    put(0, F("B"), 25, behind=1)
    put(0, F("T"), (2, 2, 2))
    put(1, F("A"), (2, 2, 2))
    put(0, F("B"), (2, 2, 2))
    full()


# ---- limits

def limits():
    seq("32 declarations, and one more")
    for i in range(32):
        at_end('"int"', (i + 1, i + 1, 0))
    at_end('"int"', 22)
    put(31, F("F"), (32, 32, 1))
    put(32, F("F"), 22)
    put(33, F("F"), 21)
    put(0, ref("F"), 26)
    ask("rows 31", None)
    ask("rows 32", 21)
    name(31, 0, "F")
    name(32, 0, 21)
    seq("22 before 1, 2, 3 and the checks of the text")
    for i in range(32):
        at_end(F("F%d" % i))
    for t in (TOO_LONG, "", "[" * 65, "5", "{}", '{"type":"record"}', '"1"', F("int"), F("~256~"), '["int","int"]', rows("X", 1025), weight("X", 16385), F("F3"), ref("G")):
        at_end(t, 22)
    put(31, ref("F30"), (32, 33, 86))
    seq("31 declarations, and the last one refused")
    for i in range(31):
        at_end("[]", (i + 1, i + 1, 0))
    at_end('^"R"', 26)
    at_end("^5", 4)
    at_end('"int"', (32, 32, 0))
    at_end('"int"', 22)
    seq("1,024 rows in one declaration")
    at_end(rows("F", 1024), (1, 1024, 1024))
    at_end('"int"', 23)
    name(0, 0, "F")
    name(0, 1, "a")
    name(0, 1023, "a")
    name(0, 1024, 21)
    text_of(0, 0, 38, '{"name":"F","type":"fixed","size":0}')
    say("fingerprint 0")
    put(0, rows("F", 1025), 23)
    put(0, rows("F", 1023), (1, 1023, 1023))
    at_end('"int"', (2, 1024, 1023))
    at_end("[]", 23)
    seq("1,025 rows in one declaration")
    at_end(rows("F", 1025), 23)
    at_end('"int"', (1, 1, 0))
    seq("1,024 rows in two declarations")
    at_end(rows("F", 500), (1, 500, 500))
    at_end(rows("G", 525), 23)
    at_end(rows("G", 524), (2, 1024, 1024))
    at_end('"int"', 23)
    name(1, 523, "a")
    name(1, 524, 21)
    put(0, rows("F", 501), 23, behind=1)
    put(1, rows("G", 525), 23)
    put(1, '"F"', (2, 501, 501))
    seq("1,024 rows of fields and symbols")
    at_end('{"type":"enum","name":"E","symbols":[%s]}' % declaration_texts.symbols(500), (1, 501, 1891))
    at_end('{"type":"record","name":"R","fields":[%s]}' % ",".join('{"name":"f%d","type":"E"}' % i for i in range(261)), (2, 1024, 3087))
    at_end("[]", 23)
    say("fingerprint 0")
    say("fingerprint 1")
    name(1, 522, "E")
    name(1, 521, 21)
    seq("a union of many")
    at_end('[%s,^"int"]' % ",".join(['"int"'] + ['{"type":"fixed","name":"F%d","size":0}' % i for i in range(60)]), 19)
    at_end('[%s]' % ",".join(['"int"'] + ['{"type":"fixed","name":"F%d","size":0}' % i for i in range(60)]), (1, 62, 170))
    say("fingerprint 0")
    seq("16,384 string bytes in one declaration")
    at_end(weight("W", 16384), (1, 66, 16384))
    at_end(F("F"), 24)
    at_end('"int"', (2, 67, 16384))
    at_end("[]", (3, 68, 16384))
    put(0, weight("W", 16385), 24)
    put(0, weight("W", 16383), (3, 68, 16383))
    at_end(F("F"), (4, 69, 16384))
    at_end(F("G"), 24)
    seq("16,385 string bytes in one declaration")
    at_end(weight("W", 16385), 24)
    at_end('"int"', (1, 1, 0))
    at_end(weight("W", 16384), (2, 67, 16384))
    at_end(F("F"), 24)
    seq("16,384 string bytes in three declarations")
    at_end(weight("A", 5000))
    at_end(weight("B", 5000))
    at_end(weight("C", 6385), 24)
    at_end(weight("C", 6384), None)
    name(2, 0, "n" * 250 + ".C")
    name(2, 1, "n" * 250 + ".a")
    put(1, weight("B", 5001), 24, behind=2)
    put(1, weight("B", 4999))
    at_end(F("F"))
    at_end(F("G"), 24)
    seq("a string that ends at the last byte")
    at_end(weight("W", 16383))
    at_end(F("F"))
    name(1, 0, "F")
    ask("poke 51265 47", "ok")
    Now.texts, Now.digest = [None, None], None
    name(1, 0, "G")
    at_end(F("H"), 24)
    put(1, F("H"))
    name(1, 0, "H")
    seq("all limits at once")
    for i in range(30):
        at_end(rows("A%02d" % i, 31), (i + 1, 31 * (i + 1), 33 * (i + 1)))
    at_end(weight("W", 15150), (31, 991, 16140))
    at_end(rows("B" * 212, 33), (32, 1024, 16384))
    at_end('"int"', 22)
    put(0, rows("A00", 32), 23, behind=31)
    put(0, rows("A000", 31), 24, behind=31)
    put(31, rows("B" * 212, 34), 23)
    put(31, rows("B" * 213, 33), 24)
    put(0, rows("A01", 31), 25, behind=1)
    put(29, rows("A28", 31), 25)
    put(31, "[]", (32, 992, 16140))
    put(30, '"A29"', (32, 932, 993))
    say("fingerprint 29")
    say("fingerprint 30")


# ---- the order of numbers

def order():
    seq("20 before 21")
    at_end(F("F"))
    poke(65, b"\1")
    for place in (0, 1, 5, 4294967296):
        for line in ("name %d 0", "fingerprint %d", "rows %d", "name %d 9"):
            ask(line % place, 20)
        text_of(place, 0, 3, 20)
        text_of(place, 4, 3, 20)
        put(place, '"int"', 20)
    seq("20 before 22")
    for i in range(32):
        at_end('"int"')
    poke(34881, b"\7")
    at_end('"int"', 20)
    at_end("x", 20)
    put(33, "x", 20)
    poke(34881, b"\0")
    at_end("x", 22)
    put(33, "x", 21)
    seq("20 before 2, 3 and the checks of the text")
    at_end(F("F"))
    poke(51265, b"\xff")
    for t in ("", "[" * 65, "5", "{}", '"1"', F("int"), '["int","int"]', F("F"), ref("G")):
        at_end(t, 20)
    for t in ("", "[" * 65, "5", "{}", '"1"', F("int"), '["int","int"]', ref("G")):
        put(0, t, 20)
        put(2, t, 20)
    seq("20 before 23, 24, 25 and 26")
    at_end(F("F"))
    poke(200, b"\1")
    for t in (weight("A", 16385), F("F"), ref("G")):
        at_end(t, 20)
        put(0, t, 20)
    at_end(rows("A", 1025), 20)
    seq("21 before 1, 2, 3 and the checks of the text")
    at_end(F("F"))
    for t in (TOO_LONG, "", "[" * 65, "5", "{}", '"1"', F("int"), '["int","int"]', weight("X", 16385), ref("G")):
        put(2, t, 21)
    seq("21 for a place in a set of three")
    for n in "ABC":
        at_end(F(n))
    for place in (3, 4, 31, 32, 33, 255, 256, 65535, 65536, 4294967295, 4294967296, 18446744073709551615):
        if place > 3:
            put(place, F("D"), 21)
        name(place, 0, 21)
        ask("fingerprint %d" % place, 21)
        ask("rows %d" % place, 21)
        text_of(place, 0, 1, 21)
    put(3, F("D"), (4, 4, 4))
    name(3, 0, "D")
    name(4, 0, 21)
    seq("2 before a fault of the declaration before it")
    at_end('{"type":5,^}', 2)
    at_end('["int","int"^', 2)
    at_end('{"type":"enum","name":"1","symbols":[5]} ^]', 2)
    seq("3 before a fault of the declaration before it")
    at_end("[5,[]," + "[" * 63 + "^[]" + "]" * 64, 3)
    at_end('{"type":"int","type":' + "[" * 63 + "^[" + "]" * 64 + "}", 3)
    at_end('["int","int",' + "[" * 63 + "^[" + "]" * 65, 3)
    seq("a fault of the declaration before 23")
    many = ",".join(['"a"'] * 1030)
    at_end('{"type":"enum","name":"E","aliases":[%s],"symbols":["A",^"A"]}' % many, 14)
    at_end('{"type":"fixed","name":"R","aliases":[%s,"^1"],"size":0}' % many, 7)
    seq("a fault of the declaration before 24")
    at_end('{"type":"record","name":"R","namespace":"~250~","aliases":[%s],"fields":[^{"type":"int"}]}' % ",".join(['"a"'] * 70), 6)
    at_end('{"type":"record","name":"R","namespace":"~250~","aliases":[%s,^"int"],"fields":[]}' % ",".join(['"a"'] * 70), 8)
    at_end('{"type":"record","name":"R","namespace":"~250~","aliases":[%s,^"nnnnn"],"fields":[]}' % ",".join(['"a"'] * 70), 9)
    at_end('{"type":"record","name":"R","namespace":"~250~","aliases":[%s],"fields":[{"name":"f","type":^{"type":"map"}}]}' % ",".join(['"a"'] * 70), 28)
    seq("a fault of the declaration before 25 and 26")
    at_end(F("F"))
    at_end('{"type":"record","name":"F","fields":[{"name":"f","type":"G"},^{"type":"G"}]}', 6)
    at_end('{"type":"record","name":"F","fields":[{"name":"f","type":"G"},{"name":^"f","type":"G"}]}', 11)
    at_end('["G",{"type":"fixed","name":"F","size":1},^["G"]]', 19)
    at_end('[{"type":"enum","name":"F","symbols":["A"],"default":^"B"},"G"]', 16)
    put(0, '["X",^{"type":"array"}]', 27)
    seq("23 before 24")
    at_end('{"type":"fixed","name":"R","namespace":"~250~","aliases":[%s],"size":0}' % ",".join(['"a"'] * 1024), 23)
    at_end('{"type":"fixed","name":"R","namespace":"~250~","aliases":[%s],"size":0}' % ",".join(['"a"'] * 1023), 24)
    seq("23 before 25 and 26")
    at_end(F("F"))
    at_end('[%s,{"type":"fixed","name":"F","size":1},"X"]' % plain(rows("G", 1022)), 23)
    at_end('[{"type":"fixed","name":"F","size":1},%s]' % plain(rows("G", 1022)), 23)
    at_end('[{"type":"fixed","name":^"F","size":1},%s]' % plain(rows("G", 1021)), 25)
    seq("24 before 25 and 26")
    at_end(F("F"))
    at_end('[{"type":"fixed","name":"F","size":1},%s]' % plain(weight("W", 16383)), 24)
    at_end('[{"type":"fixed","name":^"F","size":1},%s]' % plain(weight("W", 16382)), 25)
    at_end('["X",%s]' % plain(weight("W", 16383)), 24)
    at_end('[^"X",%s]' % plain(weight("W", 16382)), 26)
    at_end('["F",%s]' % plain(weight("W", 16382)), None)
    seq("29 after 21")
    at_end('"int"')
    text_of(1, 0, 0, 21)
    text_of(1, 9, 3, 21)
    text_of(0, 9, 3, (29, 5))


# ---- memory

def memories():
    seq("open clears whatever memory held")
    at_end(LISTING)
    say("open")
    digest()
    say("fill 255")
    digest()
    assert say("open") == ["ok 0 0 0"]
    digest()
    say("memory 51330")
    digest()
    say("memory 51266")
    Now.texts, Now.digest = [], None
    at_end(LISTING, (1, 7, 11))
    for b in (0, 1, 32, 33, 128, 255):
        seq("memory filled with %d" % b)
        say("fill %d" % b)
        Now.digest = None
        if b:
            at_end('"int"', 20)
            put(1, '"int"', 20)
            for line in ("name 0 0", "fingerprint 0", "rows 0"):
                ask(line, 20)
            text_of(0, 0, 2, 20)
        else:
            at_end('"int"', (1, 1, 0))
        say("open")
        digest()
    for n in (0, 1, 2, 66, 34882, 51265, 51267, 51300, 51330):
        seq("memory of %d bytes" % n)
        at_end(LISTING)
        say("memory %d" % n)
        Now.digest = None
        assert say("open") == ["refused 20 0 0"]
        at_end('"int"', 20)
        put(0, '"int"', 20)
        put(7, '"int"', 20)
        for line in ("name 0 0", "name 3 0", "fingerprint 0", "rows 0"):
            ask(line, 20)
        text_of(0, 0, 4, 20)
        say("memory 51266")
        Now.digest = None
        name(0, 0, "a.R")
        at_end('"a.R"', (2, 8, 14))
    # one byte of the memory of a set of four declarations
    texts = ['{"type":"record","name":"R","namespace":"a","fields":[{"name":"x","type":"int"},{"name":"y","type":["null","R"]}]}',
             '{"type":"enum","name":"a.E","aliases":["D"],"symbols":["A","B"]}', '{"type":"fixed","name":"F","size":8,"logicalType":"decimal","precision":5,"scale":2}', '["bytes","a.E"]']
    # rows: 0 record a.R, 1 field x, 2 int, 3 field y, 4 union, 5 null, 6 reference a.R; 7 enum a.E, 8 alias a.D, 9 symbol A, 10 symbol B; 11 fixed F; 12 union, 13 bytes, 14 reference a.E
    # strings, from 34882 on: a.R x y a.R a.E a.D A B F a.E
    row = [66 + 34 * i for i in range(16)]
    bad = [
        ("33 declarations", 0, b"\x21"), ("one declaration less", 0, b"\3"), ("one declaration more", 0, b"\5"), ("no declarations", 0, b"\0"), ("a high byte of the count", 1, b"\1"),
        ("a row more in a declaration", 2, b"\x08"), ("a row less in a declaration", 2, b"\6"), ("rows moved between declarations", 2, b"\6\0\5\0"), ("a spare count", 10, b"\1"), ("the last spare count", 64, b"\0\1"),
        ("kind 0", row[2], b"\0"), ("kind 9", row[2], b"\x09"), ("kind 255", row[2], b"\xff"), ("a primitive made a reference", row[2], b"\x10"), ("a field made a symbol", row[1], b"\x29"),
        ("a symbol made a field", row[9], b"\x28"), ("an alias made a field alias", row[8], b"\x31"), ("a union made an array", row[4], b"\x18"), ("a record made an enum", row[0], b"\x21"),
        ("a note on an int", row[2] + 1, b"\1"), ("note 7 on bytes", row[13] + 1, b"\7"), ("note 1 without a precision", row[13] + 1, b"\1"), ("the decimal's note taken away", row[11] + 1, b"\0"),
        ("a depth more", row[2] + 2, b"\3"), ("a depth less", row[2] + 2, b"\1"), ("a depth of the top row", row[0] + 2, b"\1"), ("a high byte of a depth", row[5] + 3, b"\1"),
        ("position 32,768", row[6] + 5, b"\x80"), ("a length more", row[0] + 6, b"\4"), ("a length less", row[0] + 6, b"\2"), ("a start more", row[3] + 8, b"\5"), ("a start of a row that keeps no string", row[2] + 8, b"\0"),
        ("a size on a record", row[0] + 10, b"\1"), ("a size's high byte on a union", row[4] + 17, b"\1"), ("a precision on a string row", row[9] + 18, b"\1"), ("scale over precision", row[11] + 26, b"\6"),
        ("precision 0", row[11] + 18, b"\0"), ("a scale on note 0", row[13] + 26, b"\1"), ("a name that starts with a digit", 34882, b"1"), ("a name with a blank", 34883, b" "), ("two fields of one name", 34886, b"x"),
        ("a reference to nothing", 34889, b"S"), ("two symbols alike", 34897, b"A"), ("an enum that is a record's name", 34892, b"R"), ("a dot at the end of a name", 34884, b"."),
        ("the first spare row", row[15], b"\1"), ("the last byte of the rows", 34881, b"\1"), ("the first spare string byte", 34902, b"A"), ("the last byte", 51265, b"\1"),
    ]
    for label, at, data in bad:
        seq("memory spoilt: " + label)
        for t in texts:
            at_end(t)
        poke(at, data)
        if replay.wellformed.well_formed(Now.machine.memory[:replay.LENGTH]):
            raise AssertionError((label, "is well formed"))
        at_end('"int"', 20)
        put(1, '"int"', 20)
        ask("name 1 0", 20)
        ask("rows 2", 20)
        ask("fingerprint 3", 20)
        text_of(0, 0, 5, 20)
    good = [
        ("a position", row[6] + 4, b"\xff\x7f"), ("positions in another order", row[0] + 4, b"\0\x10"), ("all positions alike", row[7] + 4, b"\x18\0"), ("the size", row[11] + 10, b"\xff\xff\xff\xff\xff\xff\xff\xff"),
        ("the precision", row[11] + 18, b"\x12"), ("scale as precision", row[11] + 26, b"\5"), ("note 6 on bytes", row[13] + 1, b"\6"), ("a field's name", 34885, b"_"), ("a symbol", 34897, b"Z"),
        ("an int made a string", row[2], b"\x08"), ("an alias", 34895, b"Q"), ("a fixed's name", 34898, b"G"),
    ]
    for label, at, data in good:
        seq("memory changed and still well formed: " + label)
        for t in texts:
            at_end(t)
        poke(at, data)
        if not replay.wellformed.well_formed(Now.machine.memory[:replay.LENGTH]):
            raise AssertionError((label, "is not well formed"))
        full()
        at_end('"int"', None)
        put(4, "[]", None)
    seq("a refusal behind the place has the position that the rows keep, whatever it is")
    at_end(F("F"))
    at_end(ref("F"))
    at_end(E("E"))
    poke(66 + 34 * 2 + 4, b"\x39\x30")
    digest()
    assert say("put 0 " + b'"int"'.hex()) == ["refused 26 1 12345"]
    digest()
    poke(66 + 34 * 3 + 4, b"\xff\x7f")
    assert say("put 0 " + b'[{"type":"fixed","name":"F","size":1},{"type":"fixed","name":"E","size":1}]'.hex()) == ["refused 25 2 32767"]
    digest()

    def raw(label, declarations):
        """A set that no text gives: its rows are poked into the memory."""
        seq(label)
        memory = replay.encoded([[replay.Row(k, d, p, s, 0, 0, 0, 0) for k, d, p, s in ds] for ds in declarations])
        used = sum(len(ds) for ds in declarations)
        text = sum(len(r[3]) for ds in declarations for r in ds)
        say("poke 0 " + memory[:2 + 2 * len(declarations)].hex())
        for at in range(66, 66 + 34 * used, 34):
            say("poke %d %s" % (at, memory[at:at + 34].rstrip(b"\0").hex()))
        say("poke 34882 " + (memory[34882:34882 + text].hex() or "-"))
        Now.texts, Now.marks, Now.digest = [None] * len(declarations), [None] * len(declarations), None
        assert replay.wellformed.well_formed(Now.machine.memory[:replay.LENGTH])

    raw("arrays nested 100 deep", [[("array", i, 0, b"") for i in range(100)] + [("union", 100, 0, b"")]])
    text_of(0, 0, 2502, '{"type":"array","items":' * 100 + "[]" + "}" * 100)
    say("fingerprint 0")
    at_end('"int"', (2, 102, 0))
    put(0, '"int"', (2, 2, 0))
    raw("arrays and maps nested 1,023 deep", [[("array" if i % 2 else "map", i, i, b"") for i in range(1023)] + [("null", 1023, 32767, b"")]])
    deep = '{"type":"map","values":{"type":"array","items":' * 511 + '{"type":"map","values":"null"}' + "}" * 1022
    assert len(deep) == 511 * 25 + 512 * 24 + 6
    text_of(0, 0, 25069, deep)
    text_of(0, 3, 25072, deep)
    text_of(0, 0, 25068, (29, 25069))
    say("fingerprint 0")
    at_end('"int"', 23)
    name(0, 1023, 21)
    raw("records nested 100 deep", [[r for i in range(100) for r in (("record", 2 * i, 0, b"R%d" % i), ("field", 2 * i + 1, 0, b"f"))] + [("reference", 200, 77, b"R0")]])
    say("fingerprint 0")
    name(0, 200, "R0")
    name(0, 198, "R99")
    at_end('^"R45"', (2, 202, 395))
    put(0, R("R0"), 26, behind=1)
    full()


# ---- canonical text

CANONICAL = [
    ("[]", "[]"), ('{"type":"array","items":[]}', '{"type":"array","items":[]}'), ('{"type":"map","values":{"type":"string"}}', '{"type":"map","values":"string"}'),
    ('["null","int"]', '["null","int"]'), ('{"type":"enum","name":"E","symbols":[]}', '{"name":"E","type":"enum","symbols":[]}'), ('{"type":"record","name":"R","fields":[]}', '{"name":"R","type":"record","fields":[]}'),
    ('{"type":"enum","doc":"x","name":"E","namespace":"a","aliases":["F"],"symbols":["B","A"],"default":"A"}', '{"name":"a.E","type":"enum","symbols":["B","A"]}'),
    ('{"type":"fixed","name":"F","size":0}', '{"name":"F","type":"fixed","size":0}'), ('{"type":"fixed","name":"F","size":9}', '{"name":"F","type":"fixed","size":9}'),
    ('{"type":"fixed","name":"F","size":10}', '{"name":"F","type":"fixed","size":10}'), ('{"type":"fixed","name":"F","size":18446744073709551615}', '{"name":"F","type":"fixed","size":18446744073709551615}'),
    ('{"type":"fixed","name":"F","size":10000000000000000000}', '{"name":"F","type":"fixed","size":10000000000000000000}'), ('{"type":"fixed","name":"F","size":907050302010}', '{"name":"F","type":"fixed","size":907050302010}'),
    ('{"type":"fixed","name":"F","size":16,"logicalType":"decimal","precision":4,"scale":1}', '{"name":"F","type":"fixed","size":16}'), ('{"type":"bytes","logicalType":"decimal","precision":4}', '"bytes"'),
    (r'{"type":"r\u0065cord","name":"\u0052","fields":[{"name":"f","aliases":["g"],"doc":"d","default":1,"order":"ignore","type":{"type":{"type":"int"}}}]}', '{"name":"R","type":"record","fields":[{"name":"f","type":"int"}]}'),
    ('{"type":"record","name":"a.b.R","fields":[{"name":"f","type":{"type":"record","name":"S","fields":[{"name":"g","type":["R","S",{"type":"enum","name":".E","symbols":["A"]}]}]}},{"name":"h","type":".E"}]}',
     '{"name":"a.b.R","type":"record","fields":[{"name":"f","type":{"name":"a.b.S","type":"record","fields":[{"name":"g","type":["a.b.R","a.b.S",{"name":"E","type":"enum","symbols":["A"]}]}]}},{"name":"h","type":"E"}]}'),
]


def canonicals():
    for i, (text, want) in enumerate(CANONICAL):
        n = len(want)
        seq("canonical text %d: its room and offsets" % i)
        at_end('"null"')
        at_end(text)
        text_of(1, 0, n, want)
        text_of(1, 0, n + 3, want)
        text_of(1, 2, n + 2, want)
        text_of(1, 1, n + 4, want)
        text_of(1, 0, n - 1, (29, n))
        text_of(1, 1, n, (29, n))
        text_of(1, n, n, (29, n))
        text_of(1, n + 1, n, (29, n))
        text_of(1, 0, 0, (29, n))
        say("fingerprint 1")
        digest()
    seq("offsets at and past the end")
    at_end('"int"')
    for offset in (0, 1, 2, 3, 4, 5, 6, 7, 8, 255, 65535, 4294967295, 9223372036854775807, 18446744073709551610, 18446744073709551611, 18446744073709551615):
        if offset <= 2:
            text_of(0, offset, 7, '"int"')
        else:
            text_of(0, offset, 7, (29, 5))
    text_of(0, 1000, 1005, '"int"')
    text_of(0, 1000, 1004, (29, 5))
    seq("a place behind others has its own text")
    for t in (LISTING, E("E"), '["a.R","E"]', '{"type":"map","values":"E"}'):
        at_end(t)
    text_of(0, 0, 106, LISTED)
    text_of(1, 0, 46, '{"name":"E","type":"enum","symbols":["A","B"]}')
    text_of(2, 3, 14, '["a.R","E"]')
    text_of(3, 0, 29, '{"type":"map","values":"E"}')
    full()
    seq("equal texts by other spellings")
    at_end('{"type":"record","name":"x.R","fields":[{"name":"f","type":"int"}]}')
    say("fingerprint 0")
    for t in ('{"fields":[{"type":{"type":"int"},"name":"f"}],"namespace":"x","name":"R","type":"record"}', '{ "type":{"type":"record","name":"R","namespace":"x","aliases":["Q"],"fields":[5,{"name":"f","aliases":["g"],"type":"int"}]}}'):
        put(0, t)
        text_of(0, 0, 70, '{"name":"x.R","type":"record","fields":[{"name":"f","type":"int"}]}')
        say("fingerprint 0")
        say("rows 0")


# ---- the scan, and lines that are none

def others():
    seq("scans, which touch nothing")
    at_end('"int"')
    digest()
    for c in declaration_texts.CASES:
        if c.number in (2, 3) and len(c.text) < 300:
            ask("scan " + (c.text.hex() or "-"), "refused %d 0 %d" % (c.number, c.position))
        elif c.number in (4, 5, 19) and len(c.text) < 30:
            ask("scan " + c.text.hex(), "ok")
    digest()
    seq("lines that are none")
    at_end('"int"')
    for line in ("", "hello", "Open", "open 1", "put", "put 0 zz", "put 0 7", "put 0 7B7D", "put 0", "put - 22", "name 0", "name 0 0 0", "rows", "rows x", "canonical 0 0", "fingerprint", "scan", "digest 0", " open", "open ", "put 0  22", "poke 0", "fill", "memory"):
        assert say(line) == ["what?"], line
    digest()
    name(0, 0, 21)


# ---- sequences by a generator of fixed seed

POOL = ['"int"', "[]", F("A"), F("B"), F("n.A"), E("B"), E("C"), R("A"), R("A", '"A"'), R("B", '"A"', '"int"'), R("C", '"B"', '["null","C"]'), R("n.A", '"B"'), R("n.C", '"A"', plain(F("B"))), ref("A"), ref("B"), ref("C"), ref("n.A"),
        '["A","B"]', '{"type":"map","values":["null","C"]}', '{"type":"record","name":"D","fields":[{"name":"f","type":{"type":"fixed","name":"A","size":1}},{"name":"g","type":"B"}]}',
        '{"type":"enum","name":"D","aliases":["A","B"],"symbols":["A"]}', '["int","int"]', "{}", '{"type":"record","name":"n.D","fields":[{"name":"f","type":"D"}]}', weight("A", 9000), weight("C", 7000)]


def random_ones():
    for seed in range(40):
        random_calls("random %d" % seed, random.Random(seed + 7), lambda rng: rng.choice(POOL))


def mostly_within(rng, n):
    """The count, or a place before it; in a few calls a place up to one above the count."""
    if rng.random() < 0.45:
        return n
    return rng.randrange(n + 2) if rng.random() < 0.1 else rng.randrange(max(n, 1))


def random_calls(label, rng, drawn, placed=mostly_within, first=()):
    seq(label)
    for t in first:
        at_end(t)
    for _ in range(rng.randint(8, 16)):
        if Now.digest is None:
            digest()
        n = len(Now.texts)
        text = unmarked(drawn(rng))[0]
        place = placed(rng, n)
        before = Now.digest
        got = say("put %d %s" % (place, text.hex() or "-"))
        digest()
        edited = Now.texts[:place] + [text] + Now.texts[place + 1:]
        if got[0].startswith("ok"):
            Now.texts = edited
            assert from_nothing(edited) == bytes(Now.machine.memory[:replay.LENGTH])
        else:
            assert before == Now.digest
            assert got == ["refused 21 %d 0" % place] if place > n else from_nothing(edited) == got
    for place in range(len(Now.texts)):
        say("fingerprint %d" % place)
    if sum(len(t) for t in Now.texts) < 600:
        for place in range(len(Now.texts)):
            say("rows %d" % place)


# ---- 25 and 26 over names that nearly agree

def Fn(n, namespace):
    return '{"type":"fixed","name":^"%s","namespace":"%s","size":4}' % (n, namespace)


def near_names():
    seq("full names that differ in the first byte")
    at_end(F("n.JokZ"), (1, 1, 6))
    at_end(F("m.JokZ"), (2, 2, 12))
    at_end(F("N.JokZ"), (3, 3, 18))
    for t in (F("n.JokZ"), F("m.JokZ"), Fn("JokZ", "N")):
        at_end(t, 25)
    at_end('["m.JokZ","N.JokZ","n.JokZ"]', (4, 7, 36))
    full()
    seq("full names that differ in the last byte")
    at_end(F("n.JokZ"), (1, 1, 6))
    at_end(E("n.JokY"), (2, 4, 14))
    at_end(R("n.JokX"), (3, 5, 20))
    for t in (F("n.JokX"), R("n.JokY"), Fn("JokZ", "n"), E(r"n\u002eJok\u005A")):
        at_end(t, 25)
    at_end('["n.JokX","n.JokZ",^"n.JokW"]', 26)
    full()
    seq("full names that differ in a byte in the middle")
    for i, n in enumerate(("n.JokZ", "n.JpkZ", "n.JoKZ", "n_JokZ", "n.jokZ")):
        at_end(F(n), (i + 1, i + 1, 6 * (i + 1)))
    for n in ("n.jokZ", "n_JokZ", "n.JokZ", "n.JoKZ", "n.JpkZ"):
        at_end(F(n), 25)
    seq("full names that differ in the place of a dot")
    at_end(F("a.bc"), (1, 1, 4))
    at_end(F("ab.c"), (2, 2, 8))
    at_end(F("abc"), (3, 3, 11))
    at_end(F("a.b.c"), (4, 4, 16))
    for t in (Fn("c", "ab"), Fn("bc", "a"), Fn("c", "a.b"), Fn(".abc", "a"), F("a.b.c")):
        at_end(t, 25)
    for n in ("b.c", "a.b", "ab.bc", "a_bc", "c", "bc"):
        at_end('^"%s"' % n, 26)
    at_end('["ab.c","a.bc","abc","a.b.c"]', (5, 9, 32))
    full()
    seq("a full name that is another's prefix, before it and behind it")
    at_end(F("n.JokZ"), (1, 1, 6))
    at_end(F("n.Jok"), (2, 2, 11))
    at_end(F("n.JokZJ"), (3, 3, 18))
    at_end(F("n"), (4, 4, 19))
    for n in ("n.JokZJ", "n.Jok", "n.JokZ", "n"):
        at_end(F(n), 25)
    for n in ("n.J", "n.Jo", "n.JokZJo"):
        at_end(ref(n), 26)
    seq("a full name that is another's suffix, before it and behind it")
    at_end(F("n.JokZ"), (1, 1, 6))
    at_end(F("JokZ"), (2, 2, 10))
    at_end(F("m.n.JokZ"), (3, 3, 18))
    at_end(F("okZ"), (4, 4, 21))
    for t in (F("okZ"), F("n.JokZ"), Fn(".JokZ", "n"), Fn("JokZ", "m.n"), Fn("JokZ", "")):
        at_end(t, 25)
    for n in ("n.okZ", "kZ", "Z", "m.JokZ", "l.n.JokZ"):
        at_end(ref(n), 26)
    seq("names that nearly agree within one declaration")
    at_end(R("n.JokZ", '{"type":"fixed","name":"JokY","size":1}', '{"type":"fixed","name":^"JokZ","size":1}').replace("^", "", 1), 25)
    at_end(R("n.JokZ", '{"type":"fixed","name":"JokY","size":1}', '{"type":"fixed","name":".JokY","size":1}', '{"type":"enum","name":^"n.JokY","symbols":[]}').replace("^", "", 1), 25)
    at_end(R("n.JokZ", '{"type":"fixed","name":"JokY","size":1}', '["JokY",^"JokX"]').replace("^", "", 1), 26)
    at_end(R("n.JokZ", '{"type":"fixed","name":"JokY","size":1}', '["JokY","JokZ"]'), (1, 7, 28))
    full()
    seq("a reference that differs from the only definition in one byte")
    at_end('{"type":"fixed","name":"n.JokZ","aliases":["JokY"],"size":4}', (1, 2, 12))
    for n in ("m.JokZ", "n_JokZ", "n.KokZ", "n.JpkZ", "n.JoKZ", "n.JokY", "n.Jok", "n.JokZZ", "JokZ", "N.JokZ"):
        at_end('^"%s"' % n, 26)
    at_end(r'^"n.Jok\u0059"', 26)
    at_end(r'^"\u006d.JokZ"', 26)
    at_end('"n.JokZ"', (2, 3, 18))
    at_end(r'"\u006E\u002e\u004a\u006F\u006b\u005A"', (3, 4, 24))
    name(2, 0, "n.JokZ")
    seq("a reference that its namespace makes nearly equal")
    at_end(F("n.JokZ"), (1, 1, 6))
    for space, n in (("m", "JokZ"), ("n", "JokY"), ("n", ".JokZ"), ("n", "n.KokZ"), ("n.n", "JokZ")):
        at_end('{"type":"record","name":"%s.R","fields":[{"name":"f","type":^"%s"}]}' % (space, n), 26)
    at_end('{"type":"record","name":"n.R","fields":[{"name":"f","type":"JokZ"}]}', (2, 4, 16))
    at_end('{"type":"record","name":"m.R","fields":[{"name":"f","type":"n.JokZ"}]}', (3, 7, 26))
    full()
    long = declaration_texts.long_name(199)
    seq("names of 200 bytes that share their beginning")
    at_end(F(long + "x"), (1, 1, 200))
    at_end(F(long + "y"), (2, 2, 400))
    at_end(F(long + "x"), 25)
    at_end('^"%sz"' % long, 26)
    at_end('^"%s"' % long, 26)
    at_end('^"%sy"' % long, (3, 3, 600))
    put(0, F(long + "y"), 25, behind=1)
    put(1, F(long + "z"), 26, behind=2)
    seq("names of 200 bytes that share their end")
    at_end(F("x" + long), (1, 1, 200))
    at_end(F("y" + long), (2, 2, 400))
    at_end(F("y" + long), 25)
    at_end('^"z%s"' % long, 26)
    at_end('"x%s"' % long, (3, 3, 600))
    put(1, F("x" + long), 25)
    seq("a definition replaced by one of a nearly equal name, a reference behind it")
    at_end(F("n.JokZ"), (1, 1, 6))
    at_end('"int"')
    at_end(ref("n.JokZ"), (3, 4, 12))
    for n in ("m.JokZ", "n.KokZ", "n.JpkZ", "n.JoKZ", "n.JokY", "n.Jok", "n.JokZJ", "JokZ", "n.n.JokZ"):
        put(0, F(n), 26, behind=2)
    put(0, E("n.JokZ"), (3, 6, 14))
    full()
    seq("a definition replaced by one of a nearly equal name, then a reference to the old one")
    at_end(F("n.JokZ"), (1, 1, 6))
    put(0, F("n.JokY"), (1, 1, 6))
    at_end(ref("n.JokZ"), 26)
    at_end(ref("n.JokY"), (2, 3, 12))
    put(0, F("n.JokZ"), 26, behind=1)
    put(1, ref("n.JokZ"), 26)
    put(1, F("n.JokZ"), (2, 2, 12))
    put(0, F("n.JokZ"), 25, behind=1)
    put(0, F("m.JokZ"), (2, 2, 12))
    at_end('["n.JokZ",^"n.JokY"]', 26)
    seq("ten declarations whose names share a beginning")
    beginning = "org.example.the_same_for_all."
    for i, c in enumerate("JKabcdefgZ"):
        at_end(F(beginning + c), (i + 1, i + 1, 30 * (i + 1)))
    for c in "ZdJ":
        at_end(F(beginning + c), 25)
    at_end('["%sJ","%sZ",^"%sj"]' % (beginning, beginning, beginning), 26)
    put(0, F(beginning + "Z"), 25, behind=9)
    put(9, F(beginning + "J"), 25)
    put(5, F(beginning + "Y"), (10, 10, 300))
    put(9, ref(beginning + "d"), 26)
    put(9, ref(beginning + "J"), (10, 11, 300))


# ---- 7 in a replacement: at the character, the escape or the closing quote

def breaches():
    seq("a replacement refused by 7 at a letter, an escape, a dot")
    at_end(F("n.Account"), (1, 1, 9))
    at_end(E("n.E"), (2, 4, 14))
    at_end(ref("n.Account"), (3, 6, 23))
    put(0, '{"type":"fixed","name":"n.Acc^\u043eunt","size":4}', 7)
    put(0, r'{"type":"fixed","name":"n.Acc^\u043eunt","size":4}', 7)
    put(1, r'{"type":"enum","name":"n.E","aliases":["\u0044","ab^\ud83d\ude00."],"symbols":["A"]}', 7)
    put(2, '{"type":"array","items":".a^.b"}', 7)
    put(2, r'{"type":"array","items":"n\u002e^\u002eAccount"}', 7)
    put(4, '{"type":"array","items":".a.b"}', 21)
    full()
    name(0, 0, "n.Account")
    seq("a replacement refused by 7 at the closing quote, and at the dot of a field")
    at_end(F("F"), (1, 1, 1))
    at_end('{"type":"enum","name":"E","symbols":["A","B"]}', (2, 4, 4))
    put(1, '{"type":"enum","name":"E","symbols":["A","^"]}', 7)
    put(1, '{"type":"enum","name":"E","namespace":"a.^","symbols":["A"]}', 7)
    put(0, r'{"type":"fixed","name":"a\u002e^","size":4}', 7)
    put(0, '{"type":"record","name":"F","fields":[{"name":"f","aliases":["g","^"],"type":"int"}]}', 7)
    put(0, '{"type":"record","name":"F","fields":[{"name":"g","type":"int"},{"name":"a^.","type":"int"}]}', 7)
    full()
    seq("a replacement refused by 7 before 9, 25 and 26 of it and of those behind")
    at_end(F("F"), (1, 1, 1))
    at_end(ref("F"), (2, 3, 2))
    at_end(F("G"), (3, 4, 3))
    put(0, '{"type":"fixed","name":"~298~^\u0436","size":4}', 7)
    put(0, '{"type":"record","name":"G","fields":[{"name":"f","type":["X","Y^\u043e"]}]}', 7)
    put(1, '[{"type":"fixed","name":"F","size":1},"X",{"type":"fixed","name":"Y","aliases":["^\U0001f600"],"size":1}]', 7)
    put(0, F("F"), (3, 4, 3))
    full()


# ---- decimals that fit: request A10 of 02

def DF(n, size, precision, scale=None):
    """A decimal over fixed."""
    return '{"type":"fixed","name":^"%s","size":%d,"logicalType":"decimal","precision":%d%s}' % (n, size, precision, "" if scale is None else ',"scale":%d' % scale)


def DB(precision, scale=0, more=""):
    """A decimal over bytes."""
    return '{"type":"bytes","logicalType":"decimal","precision":%d,"scale":%d%s}' % (precision, scale, more)


def rows_are(place, *want):
    """The rows of a place, each `KIND DEPTH SIZE NOTE PRECISION SCALE STRING`."""
    got = say("rows %d" % place)
    words = [r.split(" ") for r in got[:-1]]
    assert got[-1] == "end", (SEQUENCES[-1], got)
    have = [" ".join(w[1:3] + w[4:8] + ([] if w[8] == "-" else [bytes.fromhex(w[8]).decode()])) for w in words]
    assert have == list(want), (SEQUENCES[-1], have, want)


def small(*numbers):
    return b"".join(n.to_bytes(8, "little") for n in numbers)


def spoils(at, data):
    """Bytes that make the memory not well formed; then they are put back."""
    old = bytes(Now.machine.memory[at:at + len(data)])
    poke(at, data)
    at_end('"int"', 20)
    put(0, '"int"', 20)
    ask("rows 0", 20)
    poke(at, old)
    assert ask("fingerprint 0", None)[0].startswith("ok")


def keeps(at, data, place, *rows):
    """Bytes that leave it well formed: the rows of a place are then these; then the bytes are put back."""
    old = bytes(Now.machine.memory[at:at + len(data)])
    poke(at, data)
    rows_are(place, *rows)
    assert ask("fingerprint %d" % place, None)[0].startswith("ok")
    poke(at, old)


DECIMALS = [DF("F", 4, 9, 2), DF("G", 4, 10), DB(39, 1), DB(1, 2), '"int"', E("E"), ref("F")]
# rows: 0 fixed F, 1 fixed G, 2 bytes, 3 bytes, 4 int, 5 enum E, 6 symbol A, 7 symbol B, 8 array, 9 reference F
DROW = [66 + 34 * i for i in range(10)]
HIGH = 2 ** 64 - 1


def with_decimals(label):
    seq(label)
    for t in DECIMALS[:-1]:
        at_end(t)
    at_end(DECIMALS[-1], (7, 10, 6))


def decimals():
    seq("a decimal that does not fit beside those that do")
    at_end(DF("a.F", 4, 9, 2), (1, 1, 3))
    at_end(DF("a.G", 4, 10, 2), (2, 2, 6))
    at_end(DB(39), (3, 3, 6))
    at_end(DB(1000, 999, ',"size":1'), (4, 4, 6))
    at_end(DF("a.H", 0, 1), (5, 5, 9))
    rows_are(0, "fixed 0 4 1 9 2 a.F")
    rows_are(1, "fixed 0 4 7 0 0 a.G")
    rows_are(2, "bytes 0 0 1 39 0")
    rows_are(3, "bytes 0 0 1 1000 999")
    rows_are(4, "fixed 0 0 7 0 0 a.H")
    text_of(0, 0, 38, '{"name":"a.F","type":"fixed","size":4}')
    text_of(1, 0, 38, '{"name":"a.G","type":"fixed","size":4}')
    text_of(3, 0, 7, '"bytes"')
    text_of(4, 1, 40, '{"name":"a.H","type":"fixed","size":0}')
    name(1, 0, "a.G")
    at_end(ref("a.G"), (6, 7, 12))
    at_end(DF("a.G", 4, 9), 25)
    full()

    seq("one canonical text and one fingerprint whatever the note, other memory for each")
    seen, prints = set(), set()
    for i, (text, row) in enumerate(((DF("F", 1, 2), "fixed 0 1 1 2 0 F"), (DF("F", 1, 3), "fixed 0 1 7 0 0 F"), (F("F", 1), "fixed 0 1 0 0 0 F"), (DF("F", 1, 2, 2), "fixed 0 1 1 2 2 F"), (DF("F", 1, 0), "fixed 0 1 5 0 0 F"),
                                     (DF("F", 1, 3, 4), "fixed 0 1 6 0 0 F"))):
        if i == 0:
            at_end(text, (1, 1, 1))
        else:
            put(0, text, (1, 1, 1))
        rows_are(0, row)
        text_of(0, 0, 36, '{"name":"F","type":"fixed","size":1}')
        prints.add(ask("fingerprint 0", None)[0])
        seen.add(Now.digest[0])
    assert len(prints) == 1 and len(seen) == 6
    put(0, DF("F", 1, 4, 4), (1, 1, 1))
    put(0, DF("F", 1, HIGH), (1, 1, 1))
    assert Now.digest[0] in seen
    put(0, DF("F", 2, 3), (1, 1, 1))
    text_of(0, 0, 36, '{"name":"F","type":"fixed","size":2}')
    assert ask("fingerprint 0", None)[0] not in prints

    seq("sixteen sizes at the limit and one above")
    for i, m in enumerate(declaration_texts.SIXTEEN, 1):
        at_end(DF("L%02d" % i, i, m, m % 3), (2 * i - 1, 2 * i - 1, 6 * i - 3))
        at_end(DF("M%02d" % i, i, m + 1, m % 3), (2 * i, 2 * i, 6 * i))
    for i, m in enumerate(declaration_texts.SIXTEEN, 1):
        rows_are(2 * i - 2, "fixed 0 %d 1 %d %d L%02d" % (i, m, m % 3, i))
        rows_are(2 * i - 1, "fixed 0 %d 7 0 0 M%02d" % (i, i))
    at_end(DF("N", 1, 3), 22)
    put(31, DF("M15", 16, 39), 25)
    put(30, DF("L16", 17, 39), (32, 32, 96))
    rows_are(30, "fixed 0 17 7 0 0 L16")

    seq("sizes 0, 17 and higher")
    sizes = (0, 17, 18, 256, 257, 2 ** 32, 2 ** 32 + 1, 2 ** 61 + 1, 2 ** 63, HIGH)
    for i, size in enumerate(sizes):
        at_end(DF("L%d" % i, size, 38 if size else 1), (2 * i + 1, 2 * i + 1, 4 * i + 2))
        at_end(DF("M%d" % i, size, 39, 39), (2 * i + 2, 2 * i + 2, 4 * i + 4))
    for i, size in enumerate(sizes):
        rows_are(2 * i, "fixed 0 %d %s L%d" % (size, "1 38 0" if size else "7 0 0", i))
        rows_are(2 * i + 1, "fixed 0 %d 7 0 0 M%d" % (size, i))
    text_of(19, 0, 56, '{"name":"M9","type":"fixed","size":%d}' % HIGH)

    seq("replaced by decimals that fit and do not, references behind")
    at_end(DF("F", 2, 5), (1, 1, 1))
    at_end(ref("F"), (2, 3, 2))
    at_end(DF("G", 2, 4), (3, 4, 3))
    put(0, DF("F", 2, 4), (3, 4, 3))
    rows_are(0, "fixed 0 2 1 4 0 F")
    put(0, DF("G", 2, 5), 26, behind=1)
    put(0, DF("F", 2, 5, 5), (3, 4, 3))
    rows_are(0, "fixed 0 2 7 0 0 F")
    put(2, DF("F", 2, 5), 25)
    put(0, "[%s,%s]" % (plain(DF("F", 0, 1)), plain(DF("G", 2, 5))), 25, behind=2)
    put(2, DF("H", 0, 1), (3, 4, 3))
    put(0, "[%s,%s]" % (plain(DF("F", 0, 1)), plain(DF("G", 2, 5))), (3, 6, 4))
    put(1, '["F",%s]' % DB(99), (3, 7, 4))
    rows_are(0, "union 0 0 0 0 0", "fixed 1 0 7 0 0 F", "fixed 1 2 7 0 0 G")
    rows_are(1, "union 0 0 0 0 0", "reference 1 0 0 0 0 F", "bytes 1 0 1 99 0")
    full()

    seq("in fields, unions, arrays and maps")
    at_end(R("a.R", plain(DF("F", 3, 7)), '["null",%s,"F",%s]' % (plain(DF("G", 3, 6, 6)), DB(39, 39)), '{"type":"map","values":{"type":"array","items":%s}}' % plain(DF(".H", 8, 19))), (1, 13, 19))
    rows_are(0, "record 0 0 0 0 0 a.R", "field 1 0 0 0 0 f0", "fixed 2 3 7 0 0 a.F", "field 1 0 0 0 0 f1", "union 2 0 0 0 0", "null 3 0 0 0 0", "fixed 3 3 1 6 6 a.G", "reference 3 0 0 0 0 a.F", "bytes 3 0 1 39 39",
             "field 1 0 0 0 0 f2", "map 2 0 0 0 0", "array 3 0 0 0 0", "fixed 4 8 7 0 0 H")
    for row, n in ((2, "a.F"), (6, "a.G"), (7, "a.F"), (12, "H")):
        name(0, row, n)
    text_of(0, 0, 300, '{"name":"a.R","type":"record","fields":[{"name":"f0","type":{"name":"a.F","type":"fixed","size":3}},{"name":"f1","type":["null",{"name":"a.G","type":"fixed","size":3},"a.F","bytes"]},'
            '{"name":"f2","type":{"type":"map","values":{"type":"array","items":{"name":"H","type":"fixed","size":8}}}}]}')
    say("fingerprint 0")

    seq("refused all the same where the decimal does not fit")
    at_end(DF("F", 1, 3), (1, 1, 1))
    at_end(ref("F"), (2, 3, 2))
    for number, text in ((6, '^{"type":"fixed","size":1,"logicalType":"decimal","precision":3}'), (7, '{"type":"fixed","name":"F^ ","size":1,"logicalType":"decimal","precision":3}'), (8, DF("long", 1, 3)),
                         (9, DF("~256~", 1, 3)), (17, '^{"type":"fixed","name":"F","logicalType":"decimal","precision":3}'), (18, '{"type":"fixed","name":"F","logicalType":"decimal","precision":3,"size":^-1}'),
                         (18, '{"type":"fixed","name":"F","logicalType":"decimal","precision":3,"size":^18446744073709551616}'), (19, "[%s,^%s]" % (plain(DF("F", 1, 3)), plain(DF("F", 1, 2))))):
        at_end(text, number)
        put(0, text, number)
    at_end(DF("F", 1, 3), 25)
    at_end("[%s,^\"X\"]" % plain(DF("G", 1, 3)), 26)
    put(0, DF("F", 1, 2), (2, 3, 2))

    with_decimals("memory: note 7 on bytes")
    spoils(DROW[2] + 1, b"\7")
    spoils(DROW[3] + 1, b"\7")
    keeps(DROW[3] + 1, b"\5", 3, "bytes 0 0 5 0 0")
    poke(DROW[2] + 18, small(0, 0))
    poke(DROW[2] + 1, b"\7")
    ask("rows 2", 20)
    poke(DROW[2] + 1, b"\6")
    rows_are(2, "bytes 0 0 6 0 0")
    spoils(DROW[2] + 1, b"\7")

    with_decimals("memory: bytes have no limit")
    for p, s in ((1, 1), (39, 39), (1000, 0), (HIGH, 0), (HIGH, HIGH)):
        keeps(DROW[2] + 18, small(p, s), 2, "bytes 0 0 1 %d %d" % (p, s))
    spoils(DROW[2] + 18, small(0, 0))
    spoils(DROW[2] + 18, small(38, 39))
    spoils(DROW[2] + 10, small(16))

    with_decimals("memory: notes on rows that are no decimals")
    for row in (4, 5, 6, 8, 9):
        for note in (b"\1", b"\7"):
            spoils(DROW[row] + 1, note)

    with_decimals("memory: note 1 on a fixed above its limit")
    for p, s in ((10, 2), (10, 10), (256 + 9, 2), (2 ** 32 + 9, 2), (HIGH, 2), (HIGH, HIGH)):
        spoils(DROW[0] + 18, small(p, s))
    for p, s in ((9, 9), (9, 0), (2, 2), (1, 0)):
        keeps(DROW[0] + 18, small(p, s), 0, "fixed 0 4 1 %d %d F" % (p, s))
    spoils(DROW[1] + 1, b"\1")
    poke(DROW[1] + 18, small(9, 0))
    ask("rows 0", 20)
    poke(DROW[1] + 1, b"\1")
    rows_are(1, "fixed 0 4 1 9 0 G")
    spoils(DROW[1] + 18, small(10))
    at_end(DF("H", 4, 10), None)
    put(1, DF("G", 4, 10), None)
    rows_are(1, "fixed 0 4 7 0 0 G")

    with_decimals("memory: the size of a decimal lowered and raised")
    for size in (3, 2, 1, 0):
        spoils(DROW[0] + 10, small(size))
    for size in (5, 16, 17, 256, 257, 2 ** 32, 2 ** 61, 2 ** 63, HIGH):
        keeps(DROW[0] + 10, small(size), 0, "fixed 0 %d 1 9 2 F" % size)
    for size in (0, 1, 3, 5, 16, 17, 2 ** 32, HIGH):
        keeps(DROW[1] + 10, small(size), 1, "fixed 0 %d 7 0 0 G" % size)
    poke(DROW[0] + 10, small(5, 11, 11))
    rows_are(0, "fixed 0 5 1 11 11 F")
    text_of(0, 0, 36, '{"name":"F","type":"fixed","size":5}')
    spoils(DROW[0] + 10, small(4))
    spoils(DROW[0] + 18, small(12))
    poke(DROW[0] + 10, small(HIGH, 38, 38))
    rows_are(0, "fixed 0 %d 1 38 38 F" % HIGH)
    spoils(DROW[0] + 18, small(39))
    spoils(DROW[0] + 10, small(15))
    keeps(DROW[0] + 10, small(16), 0, "fixed 0 16 1 38 38 F")
    at_end("[]", None)
    put(0, DF("F", 4, 10), None)

    with_decimals("memory: note 7 with a precision or a scale, and notes above 7")
    for p, s in ((10, 0), (9, 0), (1, 0), (0, 1), (HIGH, HIGH)):
        spoils(DROW[1] + 18, small(p, s))
    spoils(DROW[0] + 1, b"\7")
    spoils(DROW[1] + 1, b"\x08")
    spoils(DROW[1] + 1, b"\xff")
    for note in (0, 2, 3, 4, 5, 6):
        keeps(DROW[1] + 1, bytes([note]), 1, "fixed 0 4 %d 0 0 G" % note)
    poke(DROW[0] + 18, small(0, 0))
    ask("fingerprint 0", 20)
    poke(DROW[0] + 1, b"\7")
    rows_are(0, "fixed 0 4 7 0 0 F")
    text_of(0, 0, 36, '{"name":"F","type":"fixed","size":4}')
    put(0, DF("F", 4, 9, 2), None)

    seq("memory: the limit of each size")
    at_end(F("F", 0), (1, 1, 1))
    for size in list(range(19)) + [2 ** 32 + 1, HIGH]:
        m = declaration_texts.most(size)
        poke(67, b"\1")
        poke(76, small(size, m + 1, 0))
        ask("rows 0", 20)
        poke(76, small(size, m, m))
        if m:
            rows_are(0, "fixed 0 %d 1 %d %d F" % (size, m, m))
        else:
            ask("rows 0", 20)
        poke(67, b"\7")
        ask("rows 0", 20) if m else rows_are(0, "fixed 0 0 7 0 0 F")
        poke(76, small(size, 0, 0))
        rows_are(0, "fixed 0 %d 7 0 0 F" % size)

    seq("memory spoilt: the precision of a decimal over a fixed of 8, the highest")
    at_end('{"type":"fixed","name":"F","size":8,"logicalType":"decimal","precision":5,"scale":2}', (1, 1, 1))
    spoils(66 + 18, small(HIGH))
    spoils(66 + 18, small(19))
    keeps(66 + 18, small(18), 0, "fixed 0 8 1 18 2 F")

    pool = [DF("A", 1, 2), DF("A", 1, 3), DF("A", 16, 38, 38), DF("B", 16, 39), DF("B", 0, 1), F("B", 0), DF("n.A", HIGH, 39), DF("n.A", 2 ** 32 + 1, 38), DF("C", 4, 9, 10), DF("C", 4, 10), DB(39), DB(HIGH, 1), ref("A"), ref("B"),
            '["A","B"]', R("R", '"A"', plain(DF("C", 2, 5))), R("R", plain(DF("C", 2, 4)), '"B"'), "[%s,%s]" % (plain(DF("A", 2, 5)), DB(99)), '{"type":"map","values":%s}' % plain(DF("B", 8, 19)), DF("int", 1, 3),
            '{"type":"fixed","name":"A","logicalType":"decimal","precision":3}']
    for seed in range(8):
        random_calls("random decimals %d" % seed, random.Random("decimals %d" % seed), lambda rng: rng.choice(pool))


# ---- put at a place: request A4 of 02

def filled(label, n):
    """A set of so many empty unions."""
    seq(label)
    for i in range(n):
        at_end("[]", (i + 1, i + 1, 0))


def far(n):
    """Places above 33, many of them n or 0 in their lower bits."""
    return sorted({40, 65535, 65536, 65536 + n, 2 ** 31, 2 ** 32, 2 ** 32 + n, 2 ** 63, HIGH})


def by_place(n, place, number):
    """What a text with a fault of its own is answered: the place comes first."""
    return 21 if place > n else 22 if place == 32 else number


def puts():
    for n in (0, 1, 2, 31, 32):
        filled("a good text at every place from 0 to 33 and at places far above, %d declarations" % n, n)
        for place in list(range(n + 1, 34)) + far(n):
            put(place, " []", 21)
        for place in range(n):
            put(place, " []", (n, n, 0))
        if n < 32:
            ask("rows %d" % n, 21)
            put(n, "  []", (n + 1, n + 1, 0))
            put(n, "   []", (n + 1, n + 1, 0))
            ask("rows %d" % n, "row union 0 3 0 0 0 0 - 0 -")
        if n < 31:
            put(n + 1, "[]", (n + 2, n + 2, 0))
            put(n + 3, "[]", 21)
        else:
            put(33, "[]", 21)
            put(32, "[]", 22)
            put(31, "[]", (32, 32, 0))
        for place in sorted({0, n // 2, n - 1} & set(range(min(n, 31)))):
            ask("rows %d" % place, "row union 0 1 0 0 0 0 - 0 -")

    for n in (0, 1, 2, 31, 32):
        seq("a text with a fault at places of a set of %d: 21 and 22 before it" % n)
        for t in ([F("A")] + ["[]"] * (n - 2) + ['^"A"'])[:n]:
            at_end(t)
        for number, text in ((2, "^"), (4, "^5"), (7, '"^"'), (26, '^"B"')):
            for place in sorted({0, max(n - 1, 0), n, n + 1, 32, 33, 40, 2 ** 32, 2 ** 32 + n, HIGH}):
                put(place, text, by_place(n, place, number))
        for place in (n, n + 1) if n < 31 else (n - 1, n, n + 1):
            put(place, "[" * 64 + "^[", by_place(n, place, 3))
        if n:
            for place in sorted({max(n - 1, 1), n, n + 1, 2 ** 32 + n}):
                put(place, F("A"), by_place(n, place, 25) if place else None)
            put(0, F("A"), None)
        if n > 1:
            put(0, "[]", 26, behind=n - 1)
            put(0, '^"A"', 26)
            put(1, F("A"), 25)

    seq("the request's examples")
    put(1, "[]", 21)
    put(0, "[]", (1, 1, 0))
    for i in range(1, 31):
        put(i, "[]", (i + 1, i + 1, 0))
    put(32, "[]", 21)
    put(31, "[]", (32, 32, 0))
    put(32, "[]", 22)
    put(32, "", 22)
    put(33, "[]", 21)
    put(33, "", 21)
    put(40, "[]", 21)
    put(31, "^", 2)
    poke(65, b"\1")
    put(10 ** 18, "[]", 20)

    for n in (0, 2, 32):
        filled("20 with the place asked for: a byte changed, %d declarations" % n, n)
        poke(51265, b"\1")
        for place in sorted({0, n, n + 1, 31, 32, 33, 40, 2 ** 32, 2 ** 32 + n, 2 ** 63, HIGH}):
            put(place, "[]", 20)
        for text in ("", "5", '""', '"B"'):
            for place in (0, n, n + 1, HIGH):
                put(place, text, 20)
        poke(51265, b"\0")
        put(n + 1, "[]", 21)
        put(n, "[]", (n + 1, n + 1, 0) if n < 32 else 22)
    for n, length in ((2, 0), (2, 65), (2, 51265), (2, 51267), (2, 51330), (32, 51265)):
        filled("20 with the place asked for: memory of %d bytes, %d declarations" % (length, n), n)
        say("memory %d" % length)
        Now.digest = None
        for place in (0, n - 1, n, n + 1, 2 ** 32 + n, HIGH):
            put(place, "[]", 20)
        put(n, "", 20)
        put(n + 1, '"B"', 20)
        say("memory 51266")
        Now.digest = None
        put(n + 1, "[]", 21)
        put(n, "[]", (n + 1, n + 1, 0) if n < 32 else 22)
    seq("20 with the place asked for: the count itself changed")
    at_end(F("A"), (1, 1, 1))
    at_end('"A"', (2, 2, 2))
    for counted in (1, 3, 32, 33, 255):
        poke(0, bytes([counted]))
        for place in sorted({0, 1, 2, counted, HIGH}):
            put(place, "[]", 20)
    poke(0, b"\2")
    put(3, "[]", 21)
    put(2, "[]", (3, 3, 2))

    seq("25 and 26 at the count")
    at_end(F("a.F"), (1, 1, 3))
    at_end(ref("a.F"), (2, 3, 6))
    put(2, F("a.F"), 25)
    put(2, R("G", F("a.F")).replace("^", "", 1), 25)
    put(2, '{"type":"array","items":[{"type":"fixed","name":"G","size":1},{"type":"map","values":{"type":"enum","name":^"G","symbols":[]}}]}', 25)
    put(2, ref("G"), 26)
    put(2, '[{"type":"map","values":^"G"},{"type":"fixed","name":"G","size":1}]', 26)
    put(2, '[{"type":"fixed","name":^"a.F","size":1},"X"]', 25)
    put(2, '[^"X",{"type":"fixed","name":"a.F","size":1}]', 26)
    new = R("G", '"a.F"', '"G"')
    put(3, new, 21)
    put(2, new, (3, 8, 15))
    put(3, new, 25)
    put(2, new, (3, 8, 15))
    put(3, '^"G"', (4, 9, 16))
    put(2, '"a.F"', 26, behind=3)

    seq("the limit of rows met and passed, at the count and behind the place")
    put(0, "[]", (1, 1, 0))
    put(1, rows("A", 1022), (2, 1023, 1022))
    put(2, '["int"]', 23)
    put(2, "[]", (3, 1024, 1022))
    put(3, "[]", 23)
    put(3, '"X"', 23)
    put(3, "^5", 4)
    put(4, "[]", 21)
    put(2, '["int"]', 23)
    put(0, '["int"]', 23, behind=2)
    put(0, '["int","long"]', 23, behind=1)
    put(2, F("A"), 25)
    put(2, '^"X"', 26)
    put(2, F("B"), (3, 1024, 1023))
    put(0, F("A"), 25, behind=1)
    put(0, F("B"), 25, behind=2)
    put(0, F("C"), (3, 1024, 1024))

    seq("the limit of string bytes met and passed, at the count and behind the place")
    put(0, F("A"), (1, 1, 1))
    put(1, weight("B", 16382), (2, 67, 16383))
    put(2, F("CC"), 24)
    put(2, F("C"), (3, 68, 16384))
    put(3, F("D"), 24)
    put(3, '"A"', 24)
    put(3, "[]", (4, 69, 16384))
    put(4, F("D"), 24)
    put(4, '"^"', 7)
    put(5, F("D"), 21)
    put(0, F("AA"), 24, behind=2)
    put(0, F("AAA"), 24, behind=1)
    put(0, F("C"), 25, behind=2)
    put(3, F("D"), 24)
    put(2, "[]", (4, 69, 16383))
    put(4, F("D"), (5, 70, 16384))
    put(2, F("E"), 24, behind=4)

    seq("put in the middle, the fault behind it: its own place and position")
    for t in (F("A"), "[]", "  " + ref("A"), F("B"), ' {"type":"map","values":^"B"}'):
        at_end(t)
    put(0, F("C"), 26, behind=2)
    put(3, F("C"), 26, behind=4)
    put(1, F("B"), 25, behind=3)
    put(0, '[{"type":"fixed","name":"A","size":1},{"type":"fixed","name":"B","size":1}]', 25, behind=3)
    put(0, F("B"), 26, behind=2)
    put(1, F("C"), (5, 7, 5))
    put(5, F("C"), 25)
    put(5, F("D"), (6, 8, 6))
    put(0, '[{"type":"fixed","name":"A","size":1},{"type":"fixed","name":"D","size":1}]', 25, behind=5)
    put(6, ref("D"), (7, 10, 7))
    put(5, "[]", 26, behind=6)

    seq("put at the count leaves every earlier place as it was")
    at_end(LISTING, (1, 7, 11))
    at_end('{"type":"enum","name":"e.E","aliases":["D"],"symbols":["A","B"]}', (2, 11, 19))

    def earlier():
        return [say(line) for line in ("rows 0", "rows 1", "name 0 0", "name 0 6", "name 1 0", "name 1 1", "name 1 2", "canonical 0 0 105", "canonical 1 0 48", "fingerprint 0", "fingerprint 1")]

    before = earlier()
    assert before[2] == before[3] == ["ok " + b"a.R".hex()] and before[5] == ["ok " + b"e.D".hex()] and before[6] == ["refused 21 1 0"]
    for text, want in (('["a.R","e.E"]', (3, 14, 25)), (E("e.E"), 25), ('^"D"', 26), ("^", 2), (R("S", '"a.R"'), (4, 17, 31))):
        at_end(text, want)
        assert earlier() == before
    put(2, '"e.E"', (4, 15, 28))
    assert earlier() == before
    put(5, "[]", 21)
    assert earlier() == before

    seq("put at the count again and again, each time one further")
    for i in range(12):
        put(i + 1, "[]", 21)
        put(i, F("F%02d" % i), (i + 1, i + 1, 3 * (i + 1)))
        put(i, F("G%02d" % i), (i + 1, i + 1, 3 * (i + 1)))
    name(0, 0, "G00")
    name(11, 0, "G11")
    name(12, 0, 21)

    seq("lines of put that are none, and two calls that are no more")
    at_end("[]", (1, 1, 0))
    before = Now.digest
    for line in ("add", "add 5b5d", "add -", "add 1 5b5d", "replace", "replace 0", "replace 0 5b5d", "replace 0 -", "replace 1 5b5d", "put", "put 0", "put 1", "put 5b5d", "put -", "put 0 zz", "put 0 5b5", "put 0 5B5D", "put 0 --",
                 "put x -", "put - -", "put 0 - -", "put 0 5b5d 5b5d", "put 5b5d 0", "put -1 5b5d", "put +1 5b5d", "put 1.0 5b5d", "put 0x1 5b5d", "put 1e0 5b5d", "put 18446744073709551616 5b5d", "put 18446744073709551617 -",
                 "put 36893488147419103232 5b5d", "put 99999999999999999999 5b5d", "put 340282366920938463463374607431768211456 5b5d", "put  0 5b5d", "put 0  5b5d", "put 0 5b5d ", " put 0 5b5d", "put 0 ", "Put 0 5b5d", "PUT 0 5b5d",
                 "put\t0 5b5d", "puts 0 5b5d", "put0 5b5d", "name 18446744073709551616 0", "name 0 18446744073709551616", "rows 18446744073709551616", "fingerprint 18446744073709551616", "canonical 18446744073709551616 0 4",
                 "canonical 0 18446744073709551616 4"):
        assert say(line) == ["what?"], line
    assert digest() == before
    ask("put 18446744073709551615 5b5d", "refused 21 18446744073709551615 0")
    assert digest() == before
    for line, want in (("put 00 205b5d", "ok 1 1 0"), ("put 01 5b5d", "ok 2 2 0"), ("put 002 -", "refused 2 2 0"), ("put 03 5b5d", "refused 21 3 0")):
        ask(line, want)
        digest()
    ask("rows 0", "row union 0 1 0 0 0 0 - 0 -")

    pool = ["[]", " []", '["A"]', '"A"', '"B"', '["A","B"]', '["null","C"]', F("A"), F("B"), F("C"), F("D"), E("A"), E("C"), R("B", '"A"'), R("C", '"B"', '"C"'), ref("A"), "5", "", '""', '["int","int"]',
            "[%s,%s]" % (plain(F("A")), plain(F("B")))]
    few = [F("A"), F("B"), '["A","B"]', E("C"), '"C"']

    def drawn(rng):
        return rng.choice(pool)

    for seed in range(12):
        random_calls("random places %d" % seed, random.Random("places %d" % seed), drawn, lambda rng, n: rng.randrange(n + 3), few[:seed % 6])
    for seed in range(2):
        random_calls("random places of a nearly full set %d" % seed, random.Random("nearly full %d" % seed), drawn, lambda rng, n: rng.randrange(n - 3, n + 3), few[:2] + ["[]"] * (29 + seed))
    for seed, heavy in enumerate((rows("H", 1014), weight("H", 16374), weight("H", 16376))):
        random_calls("random places behind a declaration that takes nearly all %s, %d" % ("string bytes" if seed else "rows", seed), random.Random("heavy %d" % seed), drawn, lambda rng, n: rng.randrange(1, n + 3), [heavy] + few)


# ---- a script for people

def short():
    seq("a script for people")
    digest()
    at_end(LISTING, (1, 7, 11))
    say("rows 0")
    text_of(0, 0, 105, LISTED)
    say("fingerprint 0")
    name(0, 0, "a.R")
    name(0, 6, "a.R")
    name(0, 1, 21)
    at_end('{"type":"enum","name":"E","namespace":"a","aliases":["D"],"symbols":["A","B"],"default":"B"}', (2, 11, 19))
    at_end('{"type":"fixed","name":"F","size":16,"logicalType":"decimal","precision":9,"scale":2}', (3, 12, 20))
    say("rows 2")
    at_end('{"type":"map","values":["null",^"a.E","F"]}', (4, 17, 24))
    say("rows 3")
    text_of(3, 0, 44, '{"type":"map","values":["null","a.E","F"]}')
    text_of(3, 2, 44, '{"type":"map","values":["null","a.E","F"]}')
    text_of(3, 3, 44, (29, 42))
    at_end('{"type":"int"^', 2)
    at_end('["int",^"int"]', 19)
    at_end('{"type":"record","name":"^1R","fields":[]}', 7)
    at_end(F("F"), 25)
    at_end(ref("a.D"), 26)
    put(1, '"int"', 26, behind=3)
    put(0, R("S", '"string"'), (4, 13, 16))
    say("rows 0")
    put(5, '"int"', 21)
    say("scan " + b'{"a":[1,2,{"b":null}]}'.hex())
    say("scan " + b'{"a":[1,2,{"b":nul}]}'.hex())
    poke(65, b"\1")
    at_end('"int"', 20)
    ask("rows 0", 20)
    say("open")
    digest()
    say("memory 51265")
    say("open")
    say("what is this")
    say("add " + b'"int"'.hex())


def write(where):
    os.makedirs(where, exist_ok=True)
    stdin, stdout = "\n".join(LINES) + "\n", "\n".join(ANSWERS) + "\n"
    assert len(stdin) < 980000 and len(stdout) < 2000000, (len(stdin), len(stdout))
    open(os.path.join(where, "stdin"), "w").write(stdin)
    open(os.path.join(where, "stdout"), "w").write(stdout)
    print(len(SEQUENCES), "sequences,", len(LINES), "lines,", len(stdin), "bytes;", len(ANSWERS), "answers,", len(stdout), "bytes", file=sys.stderr)


def main(args):
    if args[0] == "--short":
        short()
        write(args[1])
        return
    for part in (first, refusals, names, replacements, limits, order, memories, canonicals, others, random_ones, near_names, breaches, decimals, puts):
        part()
    ended()
    if args[0] == "labels":
        for line, label in SEQUENCES:
            print(line, label)
        return
    assert len(SEQUENCES) >= 220
    seen = {int(a.split()[1]) for a in ANSWERS if a.startswith("refused")}
    assert seen == set(range(1, 30)), set(range(1, 30)) - seen
    write(args[0])


if __name__ == "__main__":
    main(sys.argv[1:])
