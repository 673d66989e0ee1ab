#!/usr/bin/env python3
"""A script of summaries, and its answers by summaries.py.

    python3 docs/vectors/summaries_script.py crates/summaries_run       at the root of the repository; writes stdin and stdout there
    python3 docs/vectors/summaries_script.py labels                     each part's first line and what it is about

Written from request A1 of 02. Where an answer could be worked out by hand it stands beside its line; the data of summaries.data carry the offsets that Avro's own
code found. The other answers (damaged bytes, bytes at random) are the second reading's alone. Tried of every line that is refused: the list is 170 throughout. Of
every set that is not changed after it was made: its memory has the same digest at its end. Fixed seeds: a second run writes the same bytes.
"""
import collections
import os
import random
import struct
import sys

sys.path.insert(0, os.path.dirname(os.path.abspath(__file__)))
import replay
import summaries
import summaries_python
from declaration import Row
from summaries import MARKER

LINES, ANSWERS, PARTS = [], [], []
MACHINE = summaries.Machine()
TALLY = collections.Counter()
DIGEST = None           # of the set's memory, None where it was changed after it was made


def say(line):
    assert len(line) <= 30000, len(line)
    global DIGEST
    if line.startswith(("poke", "fill", "memory")):
        DIGEST = None
    answers = MACHINE.line(line)
    LINES.append(line)
    ANSWERS.extend(answers)
    assert len(answers) == 1 and len(answers[0]) <= 30000, len(answers[0])
    TALLY[line.split(" ")[0] + " " + " ".join(answers[0].split(" ")[:2 if answers[0].startswith("refused") else 1])] += 1
    return answers[0]


def part(label):
    PARTS.append((len(LINES) + 1, label))


def hexed(b):
    return b.hex() or "-"


def unmoved():
    assert DIGEST is None or say("digest") == DIGEST


def fresh(*texts):
    """An empty set, and texts at its end."""
    global DIGEST
    unmoved()
    for line, want in (("memory 51266", "ok"), ("fill 0", "ok"), ("open", "ok 0 0 0")):
        assert say(line) == want
    for place, t in enumerate(texts):
        put(place, t)
    DIGEST = say("digest")


def put(place, text):
    global DIGEST
    DIGEST = None
    text = text.encode() if isinstance(text, str) else text
    answer = say("put %d %s" % (place, hexed(text)))
    assert answer.startswith("ok "), (text, answer)


def known():
    return MACHINE.set()


def header(place=0):
    return MARKER + known().prints[place]


def spaced(numbers):
    return "".join(" %d" % n for n in numbers)


def untouched(room):
    return spaced([170] * room)


def answered(line, room, want, place):
    """want is None, a list of offsets, or a refusal (number, position)."""
    got = say(line)
    words = got.split(" ")
    if words[0] == "refused":
        assert len(words) == 4 + room and words[4:] == ["170"] * room, (line, got)
    if isinstance(want, list):
        before = "ok %d %d" % (place, len(want)) if line.startswith("summary") else "ok %d" % len(want)
        assert got == before + spaced(want) + untouched(room - len(want)), (line, want, got)
    elif want is not None:
        number, position = want
        place = 0 if number in (20, 29, 40, 41) and line.startswith("summary") else place
        assert got == "refused %d %d %d" % (number, place, position) + untouched(room), (line, want, got)
    return got


def whole(s, want=None, room=None, place=0):
    """A summary of any bytes."""
    if room is None:
        room = max(3, len(want)) if isinstance(want, list) else 3
    return answered("summary %d %s" % (room, hexed(s)), room, want, place)


def summary(data, want=None, room=None, place=0):
    """The datum behind ten bytes. want counts from C3."""
    if room is None:
        room = len(want) + len(data) % 3 if isinstance(want, list) else 3
    return whole(header(place) + data, want, room, place)


def datum(data, want=None, room=None, place=0):
    """The datum alone. want counts from its first byte."""
    if room is None:
        room = len(want) + len(data) % 3 if isinstance(want, list) else 3
    return answered("datum %d %d %s" % (place, room, hexed(data)), room, want, place)


def both(data, want, room=None, place=0):
    """want counts from the datum's first byte."""
    datum(data, want, room, place)
    summary(data, [10 + n for n in want] if isinstance(want, list) else (want[0], want[1] + (want[0] != 29) * 10), room, place)


def find(eight, want):
    assert say("find " + hexed(eight)) == want, (eight, want, ANSWERS[-1])


def zz(n):
    """Zig-zag."""
    return 2 * n if n >= 0 else -2 * n - 1


def groups(u, n=None):
    """A number in groups of seven bits, n of them where that is given."""
    out = []
    while True:
        out.append(u & 127)
        u >>= 7
        if (u == 0) if n is None else (len(out) == n):
            break
    assert u == 0
    return bytes(b | 128 for b in out[:-1]) + bytes(out[-1:])


def num(n):
    return groups(zz(n))


def text(s):
    b = s if isinstance(s, bytes) else s.encode()
    return num(len(b)) + b


def h(s):
    return bytes.fromhex(s)


# ---- declarations

def arr(t):
    return '{"type":"array","items":%s}' % t


def mp(t):
    return '{"type":"map","values":%s}' % t


def rec(n, *fields, more=""):
    return '{"type":"record","name":"%s"%s,"fields":[%s]}' % (n, more, ",".join('{"name":"%s","type":%s}' % f for f in fields))


def fixed(n, size):
    return '{"type":"fixed","name":"%s","size":%d}' % (n, size)


def enum(n, *symbols):
    return '{"type":"enum","name":"%s","symbols":[%s]}' % (n, ",".join('"%s"' % s for s in symbols))


R = rec("R", ("x", '"int"'), ("u", '["null","int"]'))
L = rec("L", ("n", '["null","L"]'))
SELF = rec("R", ("a", '"R"'))


# ---- the parts

def examples():
    part("the examples of A01")
    fresh(R)
    for data, want in (("020206", [10, 11, 12, 13]), ("0200", [10, 11, 12, 12]), ("02", (42, 11)), ("0204", (44, 11)), ("0201", (44, 11)), ("ffffffff0f00", [10, 15, 16, 16]),
                       ("ffffffff1f00", (43, 10)), ("808080808000", (43, 10)), ("808080800000", [10, 15, 16, 16]), ("80808080", (42, 14)), ("8080808080", (43, 10)), ("02000000", (46, 12))):
        summary(h(data), want)
        summary(h(data), want, room=7)
    summary(h("020206"), (29, 4), room=3)
    assert summaries.steps_of(known(), 0, h("020206")) == 6
    fresh(arr('"int"'))
    for data, want in (("00", [11]), ("0304020400", [15]), ("0306020400", (57, 11)), ("0302020400", (57, 11)), ("0301020400", (57, 11)), ("030402", (42, 13)), ("8000", [12])):
        summary(h(data), want)
    assert summaries.steps_of(known(), 0, h("00")) == 2 and summaries.steps_of(known(), 0, h("0304020400")) == 5
    fresh(arr('"null"'))
    summary(num(4093) + b"\0", [13])
    summary(num(4094) + b"\0", (45, 12))
    summary(h("02") * 2047 + b"\0", [10 + 2048])
    summary(h("02") * 2048 + b"\0", (45, 10 + 2048))
    summary(h("ffffffffffffffffff01") + b"\0", (45, 21))
    summary(h("ffffffffffffffffff01") + b"\0\0", (45, 21))
    fresh(mp('"int"'))
    summary(h("010602610200"), [16])
    summary(h("0201"), (43, 11))
    summary(h("02010200"), (43, 11))
    assert summaries.steps_of(known(), 0, h("010602610200")) == 4
    fresh(SELF)
    for data in (b"", b"\0", b"\2\2\2"):
        summary(data, (45, 10))
    fresh(L)
    summary(h("020200"), [10, 11, 11, 12, 12, 13, 13])
    assert summaries.steps_of(known(), 0, h("020200")) == 12
    fresh('"null"')
    summary(b"", [10])
    summary(b"\0", (46, 10))
    fresh(arr(arr('"int"')))
    for data, want in (("0202020000", [15]), ("01080102020000", [17]), ("010a0102020000", (57, 11)), ("01080104020000", (57, 13)), ("010a0104020000", (57, 13))):
        summary(h(data), want)
    assert summaries.steps_of(known(), 0, h("0202020000")) == 7
    fresh(mp('"null"'))
    summary(num(4095) + b"\0" * 4094 + b"\1", (43, 12 + 4094))
    summary(num(4095) + b"\0" * 4095, (45, 12 + 4095))
    summary(num(4093) + b"\0" * 4093 + b"\0", [12 + 4094])


def outside():
    """Every stored datum; a third also without its header. find for each declaration."""
    i = 0
    for n, stored in enumerate(summaries_python.stored()):
        part("data of Avro's own code, set %d" % n)
        fresh(*(t for _, _, t, _ in stored))
        for place, (refers, fingerprint, _, data) in enumerate(stored):
            find(known().prints[place], "ok %d" % place)
            if refers:
                # as Java writes it: the definitions of earlier declarations are in its canonical text
                find(h(fingerprint), "refused 41 0 0")
                whole(MARKER + h(fingerprint) + data[0][1], (41, 2))
            else:
                assert known().prints[place] == h(fingerprint)
            for writer, d, offsets, _ in data:
                room = len(offsets) + i % 3
                summary(d, [10 + o for o in offsets], room, place)
                if i % 3 == 0:
                    datum(d, offsets, room, place)
                i += 1


def markers():
    part("40: the marker, and 42: the fingerprint cut")
    fresh(R, '"int"')
    good = header(1) + b"\2"
    for b in range(256):
        whole(bytes([b]) + good[1:], [11] if b == 0xC3 else (40, 0), place=1)
    for b in range(256):
        whole(good[:1] + bytes([b]) + good[2:], [11] if b == 1 else (40, 0), place=1)
    for room in (0, 1, 3):
        whole(b"", (40, 0), room)
        whole(good[:1], (40, 1), room)
        for n in range(2, 10):
            whole(good[:n], (42, n), room)
        whole(good[:10], (42, 10), room, place=1)
    for b in (0, 1, 0x3C, 0x43, 0x83, 0xC1, 0xC2, 0xC4, 0xE3, 0xFF):
        whole(bytes([b]), (40, 0))
        whole(bytes([b, 1]), (40, 0))
        whole(bytes([b]) * 10, (40, 0))
    for b in (0, 2, 3, 0x81, 0xC3, 0xFF):
        whole(bytes([0xC3, b]), (40, 0))
        whole(bytes([0xC3, b]) * 5, (40, 0))
    whole(b"\1\xc3" + good[2:], (40, 0))
    whole(b"\xc3" * 12, (40, 0))
    whole(b"\1" * 12, (40, 0))
    # a cut fingerprint is 42 whatever it begins with, also where no declaration has it, and in an empty set
    fresh()
    for n in range(0, 13):
        whole((MARKER + bytes(10))[:n], (40, 0) if n == 0 else (40, 1) if n == 1 else (42, n) if n < 10 else (41, 2))
        if n > 1:
            whole((b"\xc3\2" + bytes(10))[:n], (40, 0))


def collided():
    """Two fixeds of different names and sizes with one fingerprint: a name of 150 letters is changed in the bit between a and c at places that a
    linear system over two elements gives."""
    def state(name, size):
        return replay.rabin(b'{"name":"%s","type":"fixed","size":%d}' % (name, size))
    base = b"a" * 150
    rows = []            # pairs of a change of the state and the places that make it
    for i in range(150):
        vector, places = state(base[:i] + b"c" + base[i + 1:], 2) ^ state(base, 2), 1 << i
        for v, p in rows:
            if vector ^ v < vector:
                vector, places = vector ^ v, places ^ p
        if vector:
            rows.append((vector, places))
            rows.sort(reverse=True)
    wanted, places = state(base, 1) ^ state(base, 2), 0
    for v, p in rows:
        if wanted ^ v < wanted:
            wanted, places = wanted ^ v, places ^ p
    assert wanted == 0
    other = bytes(ord("c") if places >> i & 1 else ord("a") for i in range(150))
    assert other != base and state(base, 1) == state(other, 2)
    return fixed(base.decode(), 1), fixed(other.decode(), 2)


def fingerprints():
    part("41, find, and the earlier place of two")
    fresh(R, '"int"', enum("E", "A", "B"))
    for place in range(3):
        find(known().prints[place], "ok %d" % place)
    eight = known().prints[1]
    for i in range(64):
        other = bytearray(eight)
        other[i // 8] ^= 1 << i % 8
        find(bytes(other), "refused 41 0 0")
        whole(MARKER + bytes(other) + b"\2", (41, 2))
    for other in (eight[::-1], eight[1:] + eight[:1], bytes(8), b"\xff" * 8, struct.pack("<Q", replay.EMPTY)):
        find(other, "refused 41 0 0")
        for data in (b"", b"\2", b"\2\2\2", b"\x80"):
            for room in (0, 2):
                whole(MARKER + other + data, (41, 2), room)
    # the same text at several places: the earlier one
    fresh('"int"', '"long"', '"int"', '{"type":"int"}', '"long"')
    find(known().prints[3], "ok 0")
    find(known().prints[4], "ok 1")
    summary(b"\2", [11], place=0)
    summary(num(2 ** 40), [16], place=1)
    whole(header(2) + b"\2", [11])
    put(0, '"string"')
    find(replay.lowest_first(replay.rabin(b'"int"')), "ok 2")
    whole(MARKER + known().prints[3] + b"\2", [11], place=2)
    whole(MARKER + known().prints[4] + b"\2", [11], place=1)
    put(1, '"double"')
    whole(MARKER + known().prints[4] + b"\2", [11], place=4)
    put(4, '"double"')
    whole(MARKER + replay.lowest_first(replay.rabin(b'"long"')) + b"\2", (41, 2))
    find(replay.lowest_first(replay.rabin(b'"long"')), "refused 41 0 0")
    find(replay.lowest_first(replay.rabin(b'"double"')), "ok 1")
    put(0, '{"type":"int","logicalType":"date"}')
    whole(header(0) + b"\2", [11], place=0)
    # one canonical text of different declarations: decimals, logical types, members in another order
    fresh('"bytes"', '{"type":"bytes","logicalType":"decimal","precision":4,"scale":2}', arr('{"type":"bytes","logicalType":"decimal","precision":4}'), arr('"bytes"'), '{"items":"bytes","doc":"x","type":"array"}')
    for place in range(5):
        find(known().prints[place], "ok %d" % (0 if place < 2 else 2))
    for place in range(5):
        datum(b"\2x" if place < 2 else b"\2\2x\0", [2] if place < 2 else [4], place=place)
    # 32 places, all alike, and the last one else
    fresh(*(['"boolean"'] * 31 + ['"float"']))
    find(known().prints[5], "ok 0")
    find(known().prints[31], "ok 31")
    whole(header(31) + bytes(4), [14], place=31)
    whole(header(30) + b"\1", [11], place=0)
    datum(b"\1", [1], place=30)
    # each of 32 places by its own
    fresh(*(fixed("F%d" % i, i) for i in range(32)))
    for i in range(32):
        find(known().prints[i], "ok %d" % i)
        summary(bytes(i), [10 + i], place=i)
    summary(bytes(31), (46, 40), place=30)
    summary(bytes(30), (42, 40), place=31)
    # a declaration that was replaced, also by a refused put
    fresh(fixed("F", 2), rec("R", ("f", '"F"')))
    old, kept = known().prints
    summary(b"xy", [12], place=0)
    put(0, fixed("F", 3))
    find(old, "refused 41 0 0")
    whole(MARKER + old + b"xy", (41, 2))
    find(known().prints[0], "ok 0")
    summary(b"xyz", [13], place=0)
    assert known().prints[1] == kept
    summary(b"xyz", [10, 13], place=1)           # the same fingerprint as before, another datum
    summary(b"xy", (42, 12), place=1)
    assert say("put 0 " + hexed(fixed("G", 1).encode())).startswith("refused 26 1")
    summary(b"xyz", [10, 13], place=1)
    put(0, enum("F", "A", "B"))
    summary(b"\2", [10, 11], place=1)
    summary(b"\4", (44, 10), place=1)
    put(0, rec("F", ("a", '"null"'), ("b", '"boolean"')))
    summary(b"\1", [10, 10, 10, 11], place=1)
    # two texts with one fingerprint: the lower place
    a, b = collided()
    for first, second, size in ((a, b, 1), (b, a, 2)):
        fresh('"null"', first, second)
        assert known().prints[1] == known().prints[2]
        find(known().prints[2], "ok 1")
        for n in range(4):
            whole(header(2) + bytes(n), [10 + n] if n == size else (42, 10 + n) if n < size else (46, 10 + size), place=1)
            datum(bytes(n), [n] if n == 3 - size else (42, n) if n < 3 - size else (46, 3 - size), place=2)
        put(1, '"null"')
        find(known().prints[2], "ok 2")
        whole(header(2) + bytes(3 - size), [13 - size], place=2)


def numbers():
    part("43 and 42: numbers of five and ten groups")
    ints = [(groups(u, n), True) for n in range(1, 6) for u in (0, 1, 127, 128 ** n - 1) if u < 2 ** 32]
    ints += [(groups(2 ** 32 - 1), True), (groups(2 ** 32 - 2), True), (groups(2 ** 31), True), (groups(2 ** 32), False), (groups(2 ** 32 + 1), False), (groups(2 ** 35 - 1), False)]
    ints += [(b"\x80\x80\x80\x80" + bytes([g]), g < 16) for g in (0, 1, 7, 8, 15, 16, 17, 31, 32, 64, 127)] + [(b"\xff\xff\xff\xff" + bytes([g]), g < 16) for g in (0, 15, 16, 112, 127)]
    ints += [(b"\x80" * 4 + bytes([g]) + more, False) for g in (0x80, 0x81, 0x8F, 0xFF) for more in (b"", b"\0", b"\x80\0", b"\xff" * 5 + b"\1")]
    longs = [(groups(u, n), True) for n in range(1, 11) for u in (0, 1, 128 ** n - 1) if u < 2 ** 64]
    longs += [(groups(2 ** 64 - 1), True), (groups(2 ** 64 - 2), True), (groups(2 ** 63), True), (groups(2 ** 64), False), (groups(2 ** 64 + 1), False), (groups(2 ** 70 - 1), False)]
    longs += [(b"\x80" * 9 + bytes([g]), g < 2) for g in (0, 1, 2, 3, 4, 64, 127)] + [(b"\xff" * 9 + bytes([g]), g < 2) for g in (0, 1, 2, 3, 126, 127)]
    longs += [(b"\x80" * 9 + bytes([g]) + more, False) for g in (0x80, 0x81, 0x82, 0xFF) for more in (b"", b"\0", b"\1", b"\x80\0", b"\xff" * 3)]
    for kind, cases in (("int", ints), ("long", longs)):
        fresh(rec("R", ("a", '"null"'), ("b", '"%s"' % kind)), '"%s"' % kind)
        for data, good in cases:
            datum(data, [0, 0, len(data)] if good else (43, 0))
            summary(data, [10 + len(data)] if good else (43, 10), place=1)
            if good:
                datum(data + b"\0", (46, len(data)), place=1)
        longest = 5 if kind == "int" else 10
        for b in (b"\x80", b"\xff", b"\x81"):
            for n in range(0, longest + 2):
                both(b * n, (42, n) if n < longest else (43, 0))
        # the last group of an int alone cannot be read off the fault: a wrong first byte of the next item stays unread
        both(b"\x80" * longest + b"\0" * 5, (43, 0))
    # at another position than the first: the number's own first byte
    fresh(rec("R", ("a", '"int"'), ("b", '"long"'), ("c", '"int"')))
    both(b"\2" + b"\x80" * 10 + b"\0", (43, 1))
    both(b"\2" + b"\x80" * 9 + b"\2" + b"\0", (43, 1))
    both(b"\2" + b"\x80" * 9 + b"\1" + b"\x80" * 4 + b"\x10", (43, 11))
    both(b"\2" + b"\x80" * 9 + b"\1" + b"\x80" * 4, (42, 15))
    both(b"\2" + b"\x80" * 9, (42, 10))
    both(b"\x80" * 5 + b"\x80" * 10, (43, 0))
    # a branch and a symbol are int; a length, a count and a size are long
    fresh('["null","int"]', enum("E", "A", "B"), '"string"', arr('"null"'), '"bytes"', mp('"null"'))
    for data, good in ints:
        for place in (0, 1):
            value = sum((b & 127) << 7 * i for i, b in enumerate(data))
            if not good:
                datum(data, (43, 0), place=place)
            elif value in (0, 2):
                datum(data + (b"\0" if value == 2 and place == 0 else b""), None, place=place)
            else:
                datum(data, (44, 0), place=place)
    for u in (0, 2):
        for n in range(1, 7):
            datum(groups(u, n) + (b"\0" if u else b""), ([n, n + (u > 0)] if n < 6 else (43, 0)), place=0)
            datum(groups(u, n), ([n] if n < 6 else (43, 0)), place=1)
    for place in (2, 4):
        for data, good in longs:
            value = sum((b & 127) << 7 * i for i, b in enumerate(data))
            datum(data, (43, 0) if not good or value % 2 else (42, len(data)) if value else [len(data)], place=place)
        for n in range(1, 12):
            datum(groups(2, n) + b"x", [n + 1] if n < 11 else (43, 0), place=place)
    for data, good in longs:
        value = sum((b & 127) << 7 * i for i, b in enumerate(data))
        n = len(data)
        if not good:
            datum(data, (43, 0), place=3)
            datum(data, (43, 0), place=5)
            datum(b"\1" + data, (43, 1), place=3)
            datum(b"\2" + data, (43, 1), place=5)
        else:
            datum(data, [n] if value == 0 else (42, n) if value % 2 == 0 and value // 2 < 4095 or value % 2 else (45, n), place=3)
            datum(b"\1" + data + b"\0", [n + 2] if value == 0 else (57, 1), place=3)
    for n in range(1, 12):
        datum(groups(2, n) + groups(0, 12 - n if n > 1 else 10), [12] if 2 <= n < 11 else [11] if n == 1 else (43, 0), place=3)


def choices():
    part("44: branches, symbols and booleans")
    fresh('"boolean"', '[]', '["null"]', '["boolean","null"]', enum("E"), enum("E1", "A"), enum("E3", "A", "B", "C"), '[%s]' % ",".join(fixed("M%d" % i, 0) for i in range(65)),
          enum("E64", *("S%d" % i for i in range(64))))
    for b in range(256):
        datum(bytes([b]), [1] if b < 2 else (44, 0))
    for b in (0, 1, 2, 3, 128, 255):
        summary(bytes([b]), [11] if b < 2 else (44, 10))
        summary(bytes([b]) + b"\0", (46, 11) if b < 2 else (44, 10))
    both(b"", (42, 0))
    for place, count, own in ((1, 0, 0), (2, 1, 0), (4, 0, 0), (5, 1, 0), (6, 3, 0), (7, 65, 0), (8, 64, 0)):
        for n in (0, 1, 2, 3, 4, 62, 63, 64, 65, 66, 127, 128, 8191, 8192, 2 ** 31 - 1, -1, -2, -64, -65, -2 ** 31):
            data = num(n)
            union = place in (1, 2, 7)
            want = ([len(data)] * (2 if union else 1)) if 0 <= n < count else (44, 0)
            both(data, want, place=place)
            both(data + b"\0", (46, len(data)) if 0 <= n < count else (44, 0), place=place)
        both(b"", (42, 0), place=place)
        both(b"\x80", (42, 1), place=place)
    datum(b"\0\1", [1, 2], place=3)
    datum(b"\0\2", (44, 1), place=3)
    datum(b"\2", [1, 1], place=3)
    datum(b"\2\1", (46, 1), place=3)
    # the first fault of several
    fresh(rec("R", ("a", '"boolean"'), ("e", enum("E", "A")), ("u", '["null"]'), ("b", '"boolean"')))
    both(h("00000001"), [0, 1, 2, 3, 3, 4])
    for data, want in (("02000001", (44, 0)), ("00020001", (44, 1)), ("00010001", (44, 1)), ("00000201", (44, 2)), ("00000101", (44, 2)), ("00000002", (44, 3)), ("02020202", (44, 0)), ("00808080808000", (43, 1)),
                       ("0000808080808000", (43, 2)), ("000000", (42, 3)), ("0000", (42, 2)), ("00", (42, 1)), ("", (42, 0)), ("0000000100", (46, 4)), ("0000000201", (44, 3))):
        both(h(data), want)


def lengths():
    part("42 and 43: lengths, fixed sizes, floats")
    fresh('"bytes"', '"string"', '"float"', '"double"', fixed("F0", 0), fixed("F1", 1), fixed("F5", 5), fixed("Fm", 2 ** 64 - 1), fixed("Fh", 2 ** 63), fixed("F32", 2 ** 32), rec("R", ("a", '"string"'), ("b", '"bytes"')), fixed("F255", 255), fixed("F256", 256))
    for place in (0, 1):
        for n in (0, 1, 2, 63, 64, 65, 300):
            data = num(n) + b"\xff" * n
            both(data, [len(data)], place=place)
            both(data + b"\0", (46, len(data)), place=place)
            if n:
                both(data[:-1], (42, len(data) - 1), place=place)
        for n in (-1, -2, -64, -65, -2 ** 31, -2 ** 32, -2 ** 63):
            both(num(n), (43, 0), place=place)
            both(num(n) + b"x" * 3, (43, 0), place=place)
        for n in (3, 2 ** 31 - 1, 2 ** 31, 2 ** 32, 2 ** 32 + 1, 2 ** 32 + 2, 2 ** 62, 2 ** 63 - 1, 2 ** 63 - 11, 2 ** 63 - 10, 2 ** 63 - 12):
            both(num(n), (42, len(num(n))), place=place)
            both(num(n) + b"xy", (42, len(num(n)) + 2), place=place)
        both(b"", (42, 0), place=place)
    for place, size in ((2, 4), (3, 8), (4, 0), (5, 1), (6, 5), (11, 255), (12, 256)):
        for n in [0, 1, 2, 3, 4, 5, 6, 7, 8, 9] if size < 10 else [0, size - 2, size - 1, size, size + 1]:
            both(b"\xfe" * n, [n] if n == size else (42, n) if n < size else (46, size), place=place)
    for place in (7, 8, 9):
        for n in (0, 1, 9, 20):
            both(bytes(n), (42, n), place=place)
    # strings are not looked into
    for s in (b"\xff\xfe", b"\xc0\x80", b"\xed\xa0\x80", b"\x80", b"\xf4\x90\x80\x80", b"\0"):
        both(text(s), [len(s) + 1], place=1)
    both(text("a") + text("bc"), [0, 2, 5], place=10)
    both(text("a") + num(-1), (43, 2), place=10)
    both(text("a") + num(3) + b"xy", (42, 5), place=10)
    both(num(-1) + num(-1), (43, 0), place=10)
    both(text("a"), (42, 2), place=10)


def blocks():
    part("57, and counts and sizes of blocks")
    fresh(arr('"int"'), mp('"int"'), arr('"null"'), arr('["null","int"]'), arr(arr('"boolean"')), mp(mp('"null"')), rec("R", ("a", arr('"int"')), ("b", '"int"')), arr(fixed("F2", 2)), mp('"string"'))

    def sized(*items, count=None, by=0):
        inside = b"".join(items)
        return num(-(len(items) if count is None else count)) + num(len(inside) + by) + inside

    for n in (1, 2, 3, 31, 64, 65):
        for place, item in ((0, b"\2"), (1, b"\2k\4"), (2, b""), (3, b"\2\2"), (7, b"xy"), (8, b"\2k\2v")):
            size_at = len(num(-n))
            for by in (-2, -1, 0, 1, 2, 64, -64, 128, 2 ** 32, 2 ** 62, -2 ** 63 + n * len(item)):
                if n > 3 and by not in (-1, 0, 1, 2 ** 32):
                    continue
                if by < 0 and len(item) * n + by < -2 ** 63:
                    continue
                data = sized(*([item] * n), by=by) + b"\0"
                here = len(num(-n)) + len(num(n * len(item)))
                want = ([here + 2 * i + 1 for i in range(n)] if place == 3 else []) + [len(data)]
                if n > 3:
                    datum(data, want if by == 0 else (57, size_at), place=place)
                else:
                    both(data, want if by == 0 else (57, size_at), place=place)
    # 57 comes at the block's end, before what is behind it and after what is in it
    for by in (-1, 0, 1):
        wrong = (57, 1)
        block = sized(b"\2", b"\4", by=by)
        both(block, wrong if by else (42, 4), place=0)
        both(block + b"\x80" * 11, wrong if by else (43, 4), place=0)
        both(block + b"\0\0", wrong if by else (46, 5), place=0)
        both(block[:-1], (42, 3), place=0)
        both(sized(b"\2", b"\x80" * 5, by=by), (43, 3), place=0)
        both(sized(b"\2", count=2, by=by), (42, 3), place=0)
        both(sized(b"\2k\2", b"\1k\2", by=by), (43, 5), place=1)
        both(sized(b"\2k\2", b"\4k", by=by), (42, 7), place=1)
        both(sized(b"\0", b"\4", by=by), (44, 3), place=3)
        both(sized(b"\0", b"\1", by=by), (44, 3), place=3)
        both(block + b"\0" + b"\6", [0, 5, 6] if by == 0 else wrong, place=6)
        both(block + b"\0" + b"\x80", (42, 6) if by == 0 else wrong, place=6)
    # several blocks, one of them wrong
    for bad in range(4):
        data, want = b"", None
        for i in range(4):
            if i == bad and want is None and bad < 3:
                want = (57, len(data) + 1)
            data += sized(b"\2", b"\4", by=(i == bad and bad < 3)) if i % 2 == 0 or i == bad else b"\4\2\4"
        both(data + b"\0", want or [len(data) + 1], place=0)
    # a size of 0 or of one item for two, a count with another sign
    both(h("0300020400"), (57, 1), place=0)
    both(h("0302020400"), (57, 1), place=0)
    both(h("04020400"), [4], place=0)
    both(h("0404020400"), (42, 5), place=0)
    # padded counts and sizes
    both(h("83008400") + b"\2\4" + h("808000"), [9], place=0)
    both(h("8380808080808080800084808080808080808000") + b"\2\4\0", [23], place=0)
    both(h("8300858000") + b"\2\4\0", (57, 2), place=0)
    both(h("838080808080808080808000") + b"\4\2\4\0", (43, 0), place=0)
    both(b"\3" + h("848080808080808080808000") + b"\2\4\0", (43, 1), place=0)
    both(b"\3" + b"\x80" * 9, (42, 10), place=0)
    both(b"\3", (42, 1), place=0)
    both(b"\3\4", (42, 2), place=0)
    both(b"\3" + b"\x80" * 9 + b"\2", (43, 1), place=0)
    # counts at the ends
    top, low = num(2 ** 63 - 1), num(-2 ** 63)
    for count, size in ((top, b""), (low, num(0)), (low, num(-2 ** 63)), (low, num(2 ** 63 - 1)), (num(-2 ** 63 + 1), num(0)), (num(2 ** 62), b""), (num(2 ** 32), b""), (num(-2 ** 32), num(0)), (num(2 ** 32 + 1), b""), (num(4096), b""), (num(-4096), num(0))):
        at = len(count) + len(size)
        for more in (b"", b"\0", b"\2\2"):
            both(count + size + more, (45, at), place=2)
        both(count + size, (42, at), place=0)
        both(count + size + b"\2\4", (42, at + 2), place=0)
        both(count + size + b"\2\4\x80", (42, at + 3), place=0)
        both(count + size, (42, at), place=1)
        both(count + size + b"\1", (43, at), place=1)
        both(count + size + b"\0\2\1", (43, at + 2), place=1)
        both(count + size + b"\4", (44, at), place=3)
        both(count + size + b"\0\0\4", (44, at + 2), place=3)
    both(low, (42, 10), place=2)
    both(low + b"\x80", (42, 11), place=2)
    both(low + b"\x80" * 10, (43, 10), place=2)
    # 57 before the 45 of the next header, and after the 45 of an item
    both(num(-4094) + num(0) + b"\0", (45, 3), place=2)
    both(num(-4094) + num(1) + b"\0", (57, 2), place=2)
    both(num(-4094) + num(-1) + b"\0", (57, 2), place=2)
    both(num(-4095) + num(1) + b"\0", (45, 3), place=2)
    both(num(-4093) + num(1) + b"\0", (57, 2), place=2)
    both(num(-4093) + num(0) + b"\0", [4], place=2)
    # nested
    inner = sized(b"\0", b"\1") + b"\0"
    for outer_by in (-1, 0, 1):
        for inner_by in (-1, 0, 1):
            inner = sized(b"\0", b"\1", by=inner_by) + b"\0"
            data = sized(inner, inner, by=outer_by) + b"\0"
            both(data, (57, 3) if inner_by else (57, 1) if outer_by else [len(data)], place=4)
            inner = sized(b"\2a", b"\0", by=inner_by) + b"\0"
            data = sized(text("k") + inner, by=outer_by) + b"\0"
            both(data, (57, 5) if inner_by else (57, 1) if outer_by else [len(data)], place=5)
            # the second of two inner blocks
            inner = sized(b"\0") + sized(b"\1", by=inner_by) + b"\0"
            data = sized(inner, by=outer_by) + b"\0"
            both(data, (57, 6) if inner_by else (57, 1) if outer_by else [len(data)], place=4)
    both(b"\2\0" * 5 + b"\0", [11], place=4)
    both(b"\2\0\1\2\0\0", [6], place=4)
    both(b"\2\0\1\4\0\0", (57, 3), place=4)
    # 4 bytes of a block that a reader who skips by size would pass over
    both(h("010202") + b"\0", [4], place=0)
    both(h("0104") + b"\x80\1" + b"\0", [5], place=0)
    both(h("0102") + b"\x80\1" + b"\0", (57, 1), place=0)
    both(h("0108") + b"\x80\x80\x80\x80" + b"\0" + b"\0", (57, 1), place=0)
    both(h("010a") + b"\x80\x80\x80\x80" + b"\0" + b"\0", [8], place=0)
    both(h("010c") + b"\x80\x80\x80\x80\x80\x80" + b"\0", (43, 2), place=0)
    # keys: any bytes, equal ones, empty ones
    both(h("06") + b"\2k\2" * 3 + b"\0", [11], place=1)
    both(h("04") + b"\0\2" + b"\4\xff\xfe\4" + b"\0", [8], place=1)
    for n in (-1, -2 ** 63, -64):
        both(b"\2" + num(n) + b"\2\0", (43, 1), place=1)
        both(b"\4\0\2" + num(n) + b"\2\0", (43, 3), place=1)
    for n in (2, 3, 2 ** 63 - 1, 2 ** 32):
        both(b"\2" + num(n) + b"k", (42, 2 + len(num(n))), place=1)
    both(b"\2\2k", (42, 3), place=1)
    both(b"\2" + b"\x80" * 10, (43, 1), place=1)
    both(b"\2" + b"\x80" * 9, (42, 10), place=1)
    both(b"", (42, 0), place=0)
    both(b"", (42, 0), place=1)
    both(b"\2", (42, 1), place=2)
    both(b"\0\0", (46, 1), place=2)


def shapes():
    """Steps 4,095 to 4,098 in many shapes: each stands in a record behind or before an array of null, whose count makes up the rest."""
    part("45: each step of many shapes as the 4,097th")
    defined = rec("D", ("e", enum("De", "A")), ("f", fixed("Df", 2)), ("r", rec("Dr")), ("l", '["null","D"]'))
    fresh(defined)
    cases = [('"null"', b""), ('"boolean"', b"\1"), ('"int"', b"\x80\1"), ('"long"', b"\x80\x80\0"), ('"float"', bytes(4)), ('"double"', bytes(8)), ('"bytes"', b"\2x"), ('"string"', b"\4xy"), ('"De"', b"\0"), ('"Df"', b"xy"),
             ('"Dr"', b""), ('"D"', b"\0xy\0"), ('"D"', b"\0xy\2\0zz\0"), ('["null","D","int"]', b"\0"), ('["null","D","int"]', b"\2\0xy\0"), ('["null","D","int"]', b"\4\2"), (arr('"int"'), b"\0"), (arr('"int"'), b"\4\2\4\0"),
             (arr('"int"'), b"\3\4\2\4\0"), (arr('"int"'), b"\2\2\1\2\4\0"), (mp('"int"'), b"\0"), (mp('"int"'), b"\4\2k\2\0\4\0"), (mp('"int"'), b"\3\x0a\2k\2\0\4\0"), (arr(arr('"null"')), b"\4\0\2\0\0"), (mp('"D"'), b"\2\2k\0xy\0\0"),
             (arr('["null","Dr"]'), b"\4\0\2\0"), (rec("N", ("a", '"null"'), ("b", rec("M", ("c", '"Dr"'), ("d", '"boolean"')))), b"\1")]
    for t, data in cases:
        for pad_first in (True, False):
            pad = ("p", arr('"null"'))
            w = rec("W", *((pad, ("s", t)) if pad_first else (("s", t), pad)))
            put(1, w)

            def made(m):
                return num(m) + b"\0" + data if pad_first else data + num(m) + b"\0"

            base = summaries.steps_of(known(), 1, made(2000)) - 2000
            own = summaries.Walk(known(), 1, made(2000), 0, most=None)
            own.whole()
            for total in range(4095, 4099 if not pad_first else 4097 + (base - 5)):
                d = made(total - base)
                assert summaries.steps_of(known(), 1, d) == total
                if total <= 4096:
                    datum(d, own.offsets, place=1)
                    if total == 4096:
                        summary(d, [10 + n for n in own.offsets], place=1)
                else:
                    got = datum(d, None, place=1)
                    assert got.startswith("refused 45 1 "), got
                    at = int(got.split(" ")[3])
                    if total == 4097 or pad_first:
                        datum(d[:at], (45, at), place=1)             # at the end of input
                        datum(d[:at] + b"\xff" * 11, (45, at), place=1)
                    if at and pad_first and at > 4:
                        datum(d[:at - 1], None, place=1)
                    if total == 4097:
                        summary(d, (45, 10 + at), place=1)


def steps():
    part("45: long and deep data")
    fresh(arr('"null"'))
    for n in (4092, 4093, 4094, 4095):
        for count in (num(n), num(-n) + num(0)):
            both(count + b"\0", [len(count) + 1] if n <= 4093 else (45, len(count)))
            both(count, (42, len(count)) if n <= 4093 else (45, len(count)))
            both(count + b"\1", (42, len(count) + 1) if n <= 4093 else (45, len(count)))
    datum(b"\2" * 2047, (42, 2047))
    datum(b"\2" * 2048, (45, 2048))
    datum(b"\1\0" * 2047 + b"\0", [4095])
    datum(b"\1\0" * 2046 + b"\1\2" + b"\0", (57, 4093))
    datum(b"\2" * 2046 + b"\4\0", (45, 2047))        # a block of one more than there are steps for
    fresh(SELF, rec("A", ("b", rec("B", ("c", '"A"')))), '["R","null"]', rec("E", ("a", arr('"R"'))))
    for data in (b"", b"\0", b"\2", b"\xff" * 20):
        both(data, (45, 0))
        both(data, (45, 0), place=1)
        both(data, (45, 0), room=0)
    both(b"\0", (45, 1), place=2)
    both(b"\2", [1, 1], place=2)
    both(b"\0", [0, 1], place=3)
    both(b"\2\0", (45, 1), place=3)
    both(b"\1\0\0", (45, 2), place=3)
    # linked lists: four steps a link, and four at the end
    fresh(L, rec("V", ("n", '["V","null"]'), ("v", '"int"')), rec("P", ("v", '"null"'), ("n", '["null","P"]')))
    for k in (1023, 1024):
        offsets = [n for i in range(k + 1) for n in (i, i + 1)] + [k + 1]
        data = b"\2" * k + b"\0"
        assert summaries.steps_of(known(), 0, data) == 4 * k + 4
        room = 2049
        datum(data, offsets if k < 1024 else (45, 1024), room=room if k == 1023 else None)
        if k == 1023:
            summary(data, [10 + n for n in offsets], room=2049)
            summary(data, (29, 2049), room=2)
            datum(data, (29, 2049), room=2)
            datum(data + b"\0", (46, 1024), room=2)
            datum(data[:-1], (42, 1023), room=2)
        if k == 1024:
            datum(data[:-1], (45, 1024), room=2)
    for k in (681, 682):
        datum(b"\2" * k + b"\0", None, place=2, room=1)
        datum(b"\0" * k + b"\2" + b"\2" * k, None, place=1, room=1)
    # deep arrays and maps
    fresh(rec("N", ("a", arr('"N"'))), rec("M", ("a", mp('"M"'))), rec("T", ("l", '["null","T"]'), ("r", '["null","T"]')), rec("S", ("a", arr('["null","S"]'))))
    for place, one, end in ((0, 6, 4), (1, 6, 4)):
        # each level is record, field, array, header, reference and a closing header
        k = (4096 - end) // one
        data = b"\2" * k + b"\0" * (k + 1) if place == 0 else b"\2\0" * k + b"\0" * (k + 1)
        assert summaries.steps_of(known(), place, data) == one * k + end == 4096
        got = datum(data, (29, k + 2), place=place, room=2)
        datum(data + b"\0", (46, len(data)), place=place, room=2)
        more = b"\2" * (k + 1) + b"\0" * (k + 2) if place == 0 else b"\2\0" * (k + 1) + b"\0" * (k + 2)
        got = datum(more, None, place=place, room=2)
        assert got.startswith("refused 45 "), got
        datum(data[:-1], (42, len(data) - 1), place=place, room=2)
    rng = random.Random("trees")

    def grown(n):
        """A tree of n records below the root."""
        if n < 0:
            return b"\0"
        left = rng.randint(0, n)
        a, b = left - 1, n - left - 1
        return b"" .join(b"\0" if x < 0 else b"\2" + grown(x) for x in (a, b))

    for n in (100, 583, 584, 585):
        data = grown(n)
        got = datum(data, None, place=2, room=1)
        assert got.startswith("refused 29" if summaries.steps_of(known(), 2, data) <= 4096 else "refused 45")
    # behind an array of null that leaves few steps: W, its fields p and m, the array and its two headers, then the map, its header and values
    # maps whose faulty key stands where the value would be step 4,097; in one block, in two, with sizes
    pad = ("p", arr('"null"'))
    fresh(rec("W", pad, ("m", mp('"null"'))), rec("X", pad, ("m", mp('"boolean"'))), rec("Y", pad, ("m", mp(rec("O")))), rec("Z", pad, ("m", arr('"boolean"'))))
    for place, value in ((0, b""), (1, b"\1"), (2, b"")):
        for n in (0, 1, 3):
            # W, p, array, header, .., header, m, map, header and n values are all 4,096
            before = num(4096 - 8 - n) + b"\0"
            values = (b"\2k" + value) * n
            for first in (num(n + 1), num(n + 2), num(-n - 1) + num(0), num(2 ** 63 - 1)):
                at = len(before) + len(first) + len(values)
                for key, want in ((b"\1", (43, 0)), (b"\x80" * 10, (43, 0)), (b"\x80", (42, 1)), (b"", (42, 0)), (b"\4k", (42, 2)), (b"\0", (45, 1)), (b"\2k", (45, 2)), (b"\0\1\0", (45, 1))):
                    datum(before + first + values + key, (want[0], at + want[1]), place=place)
            if n:
                # the same steps, and the closing header is the 4,097th
                data = before + num(n) + values
                datum(data, (45, len(data)), place=place)
                datum(data + b"\0", (45, len(data)), place=place)
                data = num(4096 - 9 - n) + b"\0" + num(n) + values
                datum(data, (42, len(data)), place=place)
                datum(data + b"\x80" * 10, (43, len(data)), place=place)
                datum(data + b"\0", [0, len(before), len(data) + 1], place=place)
                datum(data + b"\0\0", (46, len(data) + 1), place=place)
                datum(data + b"\2", (42, len(data) + 1), place=place)
                datum(data + b"\2\0", (45, len(data) + 2), place=place)
                for by in (-1, 0, 1):
                    data = before + num(-n) + num(len(values) + by) + values
                    datum(data + b"\0", (57, len(before) + 1) if by else (45, len(data)), place=place)
    # the last boolean that there are steps for, and the one behind it
    for n in (1, 2, 5):
        before = num(4096 - 8 - n) + b"\0"
        datum(before + num(n) + b"\1" * n + b"\0", (45, len(before) + 1 + n), place=3)
        datum(before + num(n) + b"\1" * (n - 1) + b"\2" + b"\0", (44, len(before) + n), place=3)
        datum(before + num(n) + b"\1" * (n - 1), (42, len(before) + n), place=3)
        datum(before + num(n + 1) + b"\1" * n + b"\2" + b"\0", (45, len(before) + 1 + n), place=3)
        datum(before + num(n + 1) + b"\1" * n, (45, len(before) + 1 + n), place=3)
        datum(before + num(-n) + num(n + 1) + b"\1" * n, (57, len(before) + 1), place=3)
        datum(before + num(-n - 1) + num(n) + b"\1" * n, (45, len(before) + 2 + n), place=3)


def rooms():
    part("29, last of all")
    fresh(R, L, '"null"', arr(R.replace('"R"', '"Q"')), '["null","string"]')
    for place, data, offsets in ((0, h("020206"), [0, 1, 2, 3]), (0, h("0200"), [0, 1, 2, 2]), (1, h("020200"), [0, 1, 1, 2, 2, 3, 3]), (2, b"", [0]), (3, h("0402000402020600"), None), (3, b"\0", [1]), (4, b"\0", [1, 1]), (4, b"\2\2x", [1, 3])):
        if offsets is None:
            data = h("04") + h("0200") + h("020206") + b"\0"
            offsets = [1, 2, 3, 3, 4, 5, 7]
        for room in range(0, len(offsets) + 3):
            both(data, offsets if room >= len(offsets) else (29, len(offsets)), room=room, place=place)
            both(data + b"\0", (46, len(data)), room=room, place=place)
            if data:
                both(data[:-1], (42, len(data) - 1), room=room, place=place)
    fresh(arr(rec("U", *(("f%d" % i, '["null"]') for i in range(20)))), R)
    data, offsets = num(67) + bytes(20 * 67) + b"\0", [n for i in range(20 * 67) for n in (2 + i, 3 + i)] + [3 + 20 * 67]
    assert summaries.steps_of(known(), 0, data) == 3 + 61 * 67 == 4090
    datum(data, offsets, room=2681)
    datum(data, (29, 2681), room=2680)
    summary(data, (29, 2681), room=0)
    summary(data, [10 + n for n in offsets], room=2682)
    datum(num(68) + bytes(20 * 68) + b"\0", (45, 2 + 20 * 67 + 2), room=0)       # seven steps for the last record with two fields; the third field is step 4,097
    fresh(R, L, '"null"')
    whole(header(0) + h("020206"), [10, 11, 12, 13], room=7000)       # an answer of 8,192 numbers would be a line of over 30,000 characters
    for line in ("summary 8193 c301", "summary 18446744073709551615 c301", "datum 0 8193 00", "find 00", "find -", "find 000000000000000000", "find 00000000000000", "summary", "summary 3", "summary c301", "summary 3 c3 01", "summary 3 c30",
                 "summary -1 c301", "summary 3 C301", "datum 0 3", "datum 3 00", "datum 0 3 0g", "datum 18446744073709551616 3 00", "find", "find 0000000000000000 00", "Summary 3 c301", "summary 18446744073709551616 c301", "datum 0 18446744073709551616 -"):
        assert say(line) == "what?", line
    assert say("summary 0003 -") == "refused 40 0 0 170 170 170"
    assert say("summary 0 -") == "refused 40 0 0"
    assert say("summary 0 c3") == "refused 40 0 1"
    assert say("datum 2 0 -") == "refused 29 2 1"
    assert say("datum 02 01 -") == "ok 1 0"


def places():
    part("20 and 21")
    fresh()
    for place in (0, 1, 31, 32, 2 ** 32, 2 ** 63, 2 ** 64 - 1):
        for data in (b"", b"\0"):
            for room in (0, 3):
                datum(data, (21, 0), room=room, place=place)
    fresh(R, '"null"', '"int"')
    for place in (3, 4, 31, 32, 33, 255, 256, 257, 65536, 65537, 2 ** 32, 2 ** 32 + 1, 2 ** 63, 2 ** 64 - 1):
        for data in (b"", b"\0", h("020206")):
            datum(data, (21, 0), place=place)
    datum(h("020206"), [0, 1, 2, 3], place=0)
    datum(b"", [0], place=1)
    datum(b"\2", [1], place=2)
    good = [header(0) + h("020206"), header(1), header(2) + b"\2"]

    def spoilt():
        for room in (0, 3):
            for s in (b"", b"\xc3", b"\0", MARKER, MARKER + bytes(8), *good, good[0][:-1], good[0] + b"\0"):
                whole(s, (20, 0), room=room)
        find(good[0][2:10], "refused 20 0 0")
        find(bytes(8), "refused 20 0 0")
        for place in (0, 1, 2, 3, 32, 2 ** 64 - 1):
            for data in (b"", h("020206")):
                datum(data, (20, 0), room=3 if data else 0, place=place)

    for n in (51265, 51267, 0, 1, 66, 51330):
        assert say("memory %d" % n) == "ok"
        spoilt()
    assert say("memory 51266") == "ok"
    whole(good[0], [10, 11, 12, 13])
    # single bytes: a spare byte, the count, a row's kind, depth, string, and spare string bytes
    memory = bytes(MACHINE.memory)
    for at, to in ((0, 4), (0, 33), (1, 1), (2, 6), (8, 1), (65, 1), (66, 0), (66, 99), (66 + 2, 1), (66 + 34 + 2, 2), (66 + 34 * 5, 16), (66 + 34 * 9, 1), (34881, 1), (34882, 0x31), (34882 + 3, 1), (51265, 255)):
        assert memory[at] != to
        say("poke %d %02x" % (at, to))
        if known() is not None:
            raise AssertionError((at, to))
        whole(good[0], (20, 0))
        whole(b"", (20, 0), room=1)
        find(good[1][2:10], "refused 20 0 0")
        datum(b"", (20, 0), room=1, place=1)
        datum(b"", (20, 0), room=1, place=9)
        say("poke %d %02x" % (at, memory[at]))
    whole(good[0], [10, 11, 12, 13])
    before = say("digest")
    # a byte that makes another good set: the int of place 2 is a long, a boolean, a string
    row = 66 + 34 * 8
    assert memory[row] == 3
    for kind, name, data in ((4, b'"long"', b"\x80" * 9 + b"\1"), (2, b'"boolean"', b"\1"), (8, b'"string"', b"\2x"), (1, b'"null"', b"")):
        say("poke %d %02x" % (row, kind))
        place = 1 if kind == 1 else 2
        find(replay.lowest_first(replay.rabin(name)), "ok %d" % place)
        whole(good[2], (41, 2))
        whole(header(2) + data, [10 + len(data)], place=place)
    say("poke %d 03" % row)
    assert say("digest") == before
    # what lies behind the layout's bytes is not looked at; memory full of other bytes
    say("poke 51266 " + "ff" * 64)
    whole(good[0], [10, 11, 12, 13])
    for b in (1, 170, 255):
        assert say("fill %d" % b) == "ok"
        spoilt()
    # a set that no text makes: 401 rows nested
    assert say("fill 0") == "ok"
    depth = 400
    rows = [Row("array", i, 0, b"", 0, 0, 0, 0) for i in range(depth)] + [Row("int", depth, 0, b"", 0, 0, 0, 0)]
    memory = replay.encoded([rows])
    say("poke 0 " + memory[:66 + 34 * (depth + 1)].hex())
    assert bytes(MACHINE.lent()) == memory and known() is not None
    data = b"\2" * depth + b"\x80\1" + b"\0" * depth
    both(data, [len(data)])
    both(data + b"\0", (46, len(data)))
    both(data[:-1], (42, len(data) - 1))
    both(b"\0", [1])
    both(b"\2" * 399 + b"\0" * 400, [799])
    data = b"\x80\1" + b"\0"
    for i in range(depth):
        if i:
            data = num(-1) + num(len(data)) + data + b"\0"
        else:
            data = num(-1) + num(2) + data
    both(data, [len(data)])
    wrong = num(-1) + num(len(data) - 10) + data[len(num(-1)) + 2:]
    datum(wrong, None)
    fresh()


def between():
    part("references between declarations")
    fresh(enum("a.E", "X", "Y"), fixed("a.F", 3), rec("a.P", ("e", '"E"'), ("f", '"F"'), ("in", rec("Q", ("z", '"int"')))), rec("b.S", ("p", '["null","a.P"]'), ("q", '"a.Q"'), ("m", mp('"a.E"')), ("s", arr('"S"'))),
          '["a.E","a.F","b.S"]', rec("a.T", ("t", '"P"'), more=',"aliases":["U","b.V"]'), '"a.T"', arr('"a.Q"'))
    p = b"\2xyz\6"
    both(b"\2", [1], place=0)
    both(p, [0, 1, 4, 4, 5], place=2)
    s = b"\2" + p + b"\4" + b"\2\2k\0\0" + b"\0"
    both(s, [0, 1, 1, 2, 5, 5, 6, 6, 7, 12, 13], place=3)
    datum(b"\0\4\0" + b"\2" + b"\0\2\0\0" + b"\0", [0, 1, 1, 1, 2, 3, 4, 5, 5, 5, 6, 7, 9], place=3, room=14)
    both(b"\0\2", [1, 2], place=4)
    both(b"\2abc", [1, 4], place=4)
    both(b"\4" + s, [1] + [1 + n for n in [0, 1, 1, 2, 5, 5, 6, 6, 7, 12, 13]], place=4)
    both(p, [0, 0, 1, 4, 4, 5], place=5)
    both(p, [0, 0, 1, 4, 4, 5], place=6)
    both(b"\4\2\2\0", [1, 2, 4], place=7)
    both(b"\4xyz\6", (44, 0), place=6)
    both(b"\2xyz", (42, 4), place=6)
    both(b"\2xyz\x80", (42, 5), place=6)
    both(b"\2xyz" + b"\x80" * 5, (43, 4), place=6)
    both(b"\2xy", (42, 3), place=5)
    for place in range(8):
        find(known().prints[place], "ok %d" % place)
    # an earlier declaration is replaced: the later ones keep their fingerprints and read other data
    prints = known().prints
    put(1, fixed("a.F", 0))
    assert known().prints[2:] == prints[2:]
    both(b"\2\6", [0, 1, 1, 1, 2], place=2)
    both(b"\2\6", [0, 0, 1, 1, 1, 2], place=6)
    put(0, rec("a.E", ("x", '["null","boolean"]')))
    both(b"\2\1\6", [0, 0, 1, 2, 2, 2, 3], place=2)
    both(b"\0\2\1", [1, 1, 2, 3], place=4)
    # one definition by several paths, a definition nested in a union in a map of an earlier declaration
    fresh(mp('["null",%s]' % rec("x.A", ("b", arr(fixed("x.B", 1))))), arr('"x.B"'), rec("x.C", ("a", '"A"'), ("b", '"B"'), ("c", '["null","C"]')), '"x.C"')
    both(b"\2\0" + b"\2" + b"\2q\0" + b"\0", [3, 3, 7], place=0)
    both(b"\4qr\0", [4], place=1)
    both(b"\2q\0" + b"r" + b"\0", [0, 0, 3, 4, 5, 5], place=2)
    both(b"\0" + b"r" + b"\2" + b"\0s\0", [0, 0, 1, 2, 3, 3, 3, 4, 5, 6, 6], place=3)
    # steps: a reference is one and its definition another
    fresh(fixed("F", 0), '"F"', arr('"F"'), arr('{"type":"F"}'))
    assert summaries.steps_of(known(), 1, b"") == 2 and summaries.steps_of(known(), 0, b"") == 1
    both(b"", [0], place=1)
    both(num(2046) + b"\0", [3], place=2)
    both(num(2047) + b"\0", (45, 2), place=2)
    datum(num(2046) + b"\0", [3], place=3)
    datum(num(2047) + b"\0", (45, 2), place=3)
    # aliases are not visited, of definitions and of fields, and symbols are none
    fresh('{"type":"record","name":"R","aliases":["Q","P","x.O"],"fields":[{"name":"a","aliases":["b","c"],"type":{"type":"enum","name":"E","aliases":["D"],"symbols":["S","T"]}},{"name":"d","aliases":["e"],"type":{"type":"fixed","name":"F","aliases":["G","H"],"size":1}}]}', arr('"R"'))
    assert summaries.steps_of(known(), 0, b"\2x") == 5
    both(b"\2x", [0, 1, 2])
    both(b"\0x", [0, 1, 2])
    both(b"\4x", (44, 0))
    both(num(682) + b"\2x" * 682 + b"\0", (29, 1365), room=2, place=1)
    both(num(683) + b"\2x" * 683 + b"\0", (45, steps_of_six()), room=2, place=1)


def steps_of_six():
    """Where 45 stands in an array of such records: array and header are two steps, then a reference, a record, a field, an enum (a byte), a field, a fixed (a byte)."""
    records, rest = divmod(4096 - 2, 6)
    return 2 + 2 * records + (1 if rest >= 4 else 0)


def of_stored(rng, n, shortest, longest):
    """So many of the stored data, of all sets in turn: (texts, place, data)."""
    sets = summaries_python.stored()
    drawn = []
    for texts in sets:
        here = [(place, d, o) for place, (_, _, _, data) in enumerate(texts) for _, d, o, _ in data if shortest <= len(d) <= longest]
        rng.shuffle(here)
        drawn.append([[t for _, _, t, _ in texts], here])
    picked = [(i, k) for k in range(400) for i in range(len(drawn)) if k < len(drawn[i][1])][:n]
    assert len(picked) == n, len(picked)
    for i, (texts, here) in enumerate(drawn):
        yield texts, [here[k] for j, k in picked if j == i]


def truncated():
    part("a hundred summaries cut at every byte")
    for texts, data in of_stored(random.Random("cuts"), 100, 3, 22):
        fresh(*texts)
        for place, d, offsets in data:
            s = header(place) + d
            for n in range(len(s)):
                got = whole(s[:n], None, room=n % 3)
                number = int(got.split(" ")[1])
                assert got.startswith("refused ") and number == (40 if n < 2 else 42), (s.hex(), n, got)
            whole(s, [10 + o for o in offsets], room=len(offsets), place=place)


def changed():
    part("every byte of thirty summaries changed three times")
    rng = random.Random("changes")
    for texts, data in of_stored(rng, 30, 6, 20):
        fresh(*texts)
        for place, d, offsets in data:
            s = header(place) + d
            for i in range(len(s)):
                others = [s[i] ^ 1, s[i] ^ 128, (s[i] + 2) % 256, (s[i] - 2) % 256, 0, 255]
                wanted = []
                for b in others[:2] + rng.sample(others[2:], 4):
                    if b != s[i] and b not in wanted:
                        wanted.append(b)
                for b in wanted[:3]:
                    t = bytearray(s)
                    t[i] = b
                    whole(bytes(t), None if i >= 10 else (40, 0) if i < 2 else (41, 2), room=min(len(offsets) + 1, 12))


def drawn():
    part("bytes at random, and data with one byte more, less or doubled")
    rng = random.Random("drawn")
    for stored in summaries_python.stored():
        fresh(*(t for _, _, t, _ in stored))
        for place, (_, _, _, data) in enumerate(stored):
            for _ in range(5):
                n = rng.randrange(1, 14)
                datum(bytes(rng.choice([0, 0, 1, 2, 2, 3, 4, 6, 128, 255, rng.randrange(256)]) for _ in range(n)), None, room=rng.choice([1, 4, 9]), place=place)
            short = [d for _, d, _, _ in data if 1 <= len(d) <= 40]
            for d in rng.sample(short, min(3, len(short))):
                i = rng.randrange(len(d))
                datum(d[:i] + d[i + 1:], None, room=4, place=place)
                datum(d[:i] + d[i:i + 1] + d[i:], None, room=4, place=place)
                datum(d, None, room=4, place=(place + 1) % len(stored))


def main(args):
    for f in (examples, outside, markers, fingerprints, numbers, choices, lengths, blocks, shapes, steps, rooms, places, between, truncated, changed, drawn):
        f()
        if args[0] == "labels":
            print(f.__name__, len(LINES), sum(len(x) + 1 for x in LINES), sum(len(x) + 1 for x in ANSWERS))
    unmoved()
    if args[0] == "labels":
        for line, label in PARTS:
            print(line, label)
    for k in sorted(TALLY):
        print("%6d  %s" % (TALLY[k], k), file=sys.stderr)
    stdin, stdout = "\n".join(LINES) + "\n", "\n".join(ANSWERS) + "\n"
    print(len(LINES), "lines,", len(stdin), "bytes;", len(ANSWERS), "answers,", len(stdout), "bytes; longest", max(map(len, LINES)), max(map(len, ANSWERS)), file=sys.stderr)
    if args[0] == "labels":
        return
    assert max(len(stdin), len(stdout)) <= 900000
    os.makedirs(args[0], exist_ok=True)
    open(os.path.join(args[0], "stdin"), "w").write(stdin)
    open(os.path.join(args[0], "stdout"), "w").write(stdout)


if __name__ == "__main__":
    main(sys.argv[1:])
