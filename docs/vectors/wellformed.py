#!/usr/bin/env python3
"""Verdicts of well-formedness, by a decoder written from docs/LAYOUT.md, document 01 and two requests of 02 alone: A10 for a decimal's
note 7, A6 for the default of a field, which is one JSON value by scan.py and fits its type by fitting.py.

    python3 docs/vectors/wellformed.py stdin  > crates/resolve_run/stdin
    python3 docs/vectors/wellformed.py stdout > crates/resolve_run/stdout
    python3 docs/vectors/wellformed.py cases       the first sets by name, with their verdicts

A line of stdin is a command of the program resolve_run:
    c            clear the memory
    sAAAA BYTES  store the bytes from AAAA on (no blank between; all in hex)
    jNNNN        judge the first NNNN bytes of the memory: one digit, 1 for well formed
    dAAAANNNN    change each of the NNNN bytes from AAAA on to one more, one less and the high bit flipped, one change at
                 a time, and judge the memory each time: three digits for each byte, then the end of the line
    n            the end of the line
"""
import os
import re
import struct
import sys

sys.path.insert(0, os.path.dirname(os.path.abspath(__file__)))
import fitting
import scan

LENGTH, ROWS, ROW, STRINGS = 51266, 66, 34, 34882
KINDS = {1: "null", 2: "boolean", 3: "int", 4: "long", 5: "float", 6: "double", 7: "bytes", 8: "string", 16: "reference",
         24: "array", 25: "map", 26: "union", 32: "record", 33: "enum", 34: "fixed", 40: "field", 41: "symbol", 48: "alias",
         49: "field alias"}
NUMBERS = {v: k for k, v in KINDS.items()}
PRIMITIVES = {"null", "boolean", "int", "long", "float", "double", "bytes", "string"}
DEFINITIONS = {"record", "enum", "fixed"}
SCHEMAS = PRIMITIVES | DEFINITIONS | {"reference", "array", "map", "union"}
RESERVED = {b"null", b"boolean", b"int", b"long", b"float", b"double", b"bytes", b"string", b"record", b"enum", b"fixed"}
SIMPLE = re.compile(rb"[A-Za-z_][A-Za-z0-9_]*\Z")


class Bad(Exception):
    pass


def need(fact):
    if not fact:
        raise Bad


# ---- reading memory: docs/LAYOUT.md

def declarations(mem):
    need(len(mem) == LENGTH)
    head = struct.unpack_from("<33H", mem)
    n, counts = head[0], head[1:]
    need(n <= 32)
    need(not any(counts[n:]))
    total = sum(counts[:n])
    need(total <= 1024)
    out, end, i = [], 0, 0
    for k in range(n):
        rows = []
        for _ in range(counts[k]):
            kind, note, depth, position, length, more, start, size, precision, scale = struct.unpack_from("<BBHHBBHQQQ", mem, ROWS + ROW * i)
            need(kind in KINDS)
            need(start == end)
            end += length + more
            need(end <= 16384)
            both = bytes(mem[STRINGS + start:STRINGS + end])
            rows.append(dict(kind=KINDS[kind], note=note, depth=depth, position=position, text=both[:length], default=both[length:], size=size, precision=precision, scale=scale))
            i += 1
        out.append(rows)
    need(not any(mem[ROWS + ROW * total:STRINGS]))
    need(not any(mem[STRINGS + end:]))
    return out


# ---- the rules: document 01 and, for decimals over fixed, request A10 of 02

def fits(precision, size):
    """Is 10 to the precision at most 2^(8n - 1) - 1? Above 16 bytes n stays 16; size 0 allows none."""
    n = min(size, 16)
    return n > 0 and precision < 8 * n and 10 ** precision <= 2 ** (8 * n - 1) - 1


def dotted(s):
    return all(SIMPLE.match(p) for p in s.split(b"."))


def check_row(r):
    kind, s = r["kind"], r["text"]
    if kind in DEFINITIONS or kind == "alias":
        need(dotted(s) and s.split(b".")[-1] not in RESERVED and len(s) <= 255)
    elif kind == "reference":
        need(dotted(s) and len(s) <= 255)
    elif kind in ("field", "field alias", "symbol"):
        need(SIMPLE.match(s) and len(s) <= 255)
    else:
        need(s == b"")
    need(r["position"] < 32768)
    if r["default"]:
        need(kind == "field")
        need(r["size"] < 32768)
        # one value, valid UTF-8, nested at most 64 deep, and nothing before it or behind it
        need(scan.scan(r["default"]) is None)
        need(r["default"][0] not in b" \t\r\n" and r["default"][-1] not in b" \t\r\n")
    else:
        need(kind == "fixed" or r["size"] == 0)
    need(r["note"] <= {"bytes": 6, "fixed": 7}.get(kind, 0))
    if r["note"] == 1:
        need(r["precision"] >= 1 and r["precision"] >= r["scale"])
        need(kind == "bytes" or fits(r["precision"], r["size"]))
    else:
        need(r["precision"] == 0 and r["scale"] == 0)


def tree(rows):
    """The root, with its children, each the child of the nearest row before it that is one less deep."""
    need(rows)
    need(rows[0]["depth"] == 0)
    path = []
    for r in rows:
        r["parts"] = []
        need(r["depth"] <= len(path))
        need(r["depth"] > 0 or not path)
        del path[r["depth"]:]
        if path:
            path[-1]["parts"].append(r)
        path.append(r)
    return rows[0]


def check_tree(r):
    check_row(r)
    kind = r["kind"]
    own = "field alias" if kind == "field" else "alias"
    parts = list(r["parts"])
    if kind in DEFINITIONS or kind == "field":
        while parts and parts[0]["kind"] == own:
            parts.pop(0)
    kinds = [p["kind"] for p in parts]
    if kind == "record":
        need(all(k == "field" for k in kinds))
        taken = set()
        for f in parts:
            need(f["text"] not in taken)
            taken.add(f["text"])
            taken |= {a["text"] for a in f["parts"] if a["kind"] == "field alias"}
    elif kind == "enum":
        need(all(k == "symbol" for k in kinds))
        need(len({p["text"] for p in parts}) == len(parts))
    elif kind == "union":
        need(all(k in SCHEMAS and k != "union" for k in kinds))
        seen = [p["text"] if p["kind"] in DEFINITIONS | {"reference"} else p["kind"] for p in parts]
        need(len(set(seen)) == len(seen))
    elif kind in ("array", "map", "field"):
        need(len(kinds) == 1 and kinds[0] in SCHEMAS)
    else:
        need(not parts)
    for p in r["parts"]:
        check_tree(p)


def well_formed(mem):
    try:
        ds = declarations(mem)
        for rows in ds:
            root = tree(rows)
            need(root["kind"] in SCHEMAS)
            check_tree(root)
        names = set()
        for r in (r for rows in ds for r in rows):
            if r["kind"] in DEFINITIONS:
                need(r["text"] not in names)
                names.add(r["text"])
            elif r["kind"] == "reference":
                need(r["text"] in names)
        # each default fits its type, among the rows up to and with its own declaration's
        so_far = []
        for rows in ds:
            so_far += rows
            if any(r["default"] for r in rows):
                types = fitting.Types((r["kind"], r["depth"], r["text"], r["size"], r["default"]) for r in so_far)
                for i in range(len(so_far) - len(rows), len(so_far)):
                    need(so_far[i]["default"] == b"" or types.default_fits(i))
        return True
    except Bad:
        return False


# ---- writing memory

def row(kind, depth, text=b"", position=0, size=0, note=0, precision=0, scale=0, default=b""):
    """A field's size is the position of its default."""
    return kind, depth, text, position, size, note, precision, scale, default


def encode(ds):
    mem = bytearray(LENGTH)
    struct.pack_into("<H", mem, 0, len(ds))
    i = end = 0
    for k, rows in enumerate(ds):
        if k < 32:
            struct.pack_into("<H", mem, 2 + 2 * k, len(rows))
        for kind, depth, text, position, size, note, precision, scale, default in rows:
            # a length above 255, which no row has, runs into the byte behind it
            lengths = len(text) + 256 * len(default)
            struct.pack_into("<BBHHHHQQQ", mem, ROWS + ROW * i, NUMBERS[kind], note, depth, position, lengths, end, size, precision, scale)
            both = text + default
            mem[STRINGS + end:STRINGS + end + len(both)] = both
            i, end = i + 1, end + len(both)
    return mem


# ---- the sets

R = row
FIRST = [
    R("record", 0, b"a.R", 26), R("alias", 1, b"a.Q", 40),
    R("field", 1, b"x", 60), R("field alias", 2, b"v", 70), R("int", 2, b"", 80),
    R("field", 1, b"y", 90), R("union", 2, b"", 100), R("null", 3, b"", 101), R("long", 3, b"", 108), R("float", 3, b"", 115),
    R("reference", 3, b"a.R", 122),
    R("field", 1, b"w", 130), R("array", 2, b"", 140), R("map", 3, b"", 150), R("boolean", 4, b"", 160)]
SECOND = [
    R("enum", 0, b"b.E", 32767), R("alias", 1, b"D", 20), R("symbol", 1, b"A", 30), R("symbol", 1, b"C", 33), R("symbol", 1, b"B", 36)]
THIRD = [R("fixed", 0, b"a.S", 9, size=16, note=1, precision=9, scale=8), R("alias", 1, b"a.R", 30)]
FOURTH = [
    R("union", 0, b"", 0), R("double", 1, b"", 1), R("bytes", 1, b"", 9, note=1, precision=1, scale=1), R("string", 1, b"", 30),
    R("reference", 1, b"b.E", 40), R("reference", 1, b"a.S", 48), R("enum", 1, b"N", 56, note=0)]
FIFTH = [R("fixed", 0, b"F", 5, size=2 ** 64 - 1, note=6)]
SIXTH = [R("int", 0, b"", 0)]
GOOD = [FIRST, SECOND, THIRD, FOURTH, FIFTH, SIXTH]

REC = R("record", 0, b"R")
INT1, INT2 = R("int", 1), R("int", 2)


def fld(name, depth=1):
    return R("field", depth, name)


CASES = [
    ("the good set", GOOD), ("the empty set", []), ("a declaration without rows", [[]]), ("a primitive", [[R("string", 0)]]),
    # the tree
    ("a first row at depth 1", [[R("int", 1)]]), ("two rows at depth 0", [[R("int", 0), R("int", 0)]]),
    ("a field on top", [[R("field", 0, b"x"), INT1]]), ("an alias on top", [[R("alias", 0, b"x")]]), ("a symbol on top", [[R("symbol", 0, b"x")]]),
    ("a row two deeper", [[REC, R("field", 2, b"x"), R("int", 3)]]), ("a part under a primitive", [[R("int", 0), R("null", 1)]]),
    ("a part under a reference", [[REC, fld(b"x"), R("reference", 2, b"R"), R("null", 3)]]), ("a part under an alias", [[REC, R("alias", 1, b"B"), R("null", 2)]]),
    ("a part under a symbol", [[R("enum", 0, b"E"), R("symbol", 1, b"A"), R("null", 2)]]), ("a part under a field alias", [[REC, fld(b"x"), R("field alias", 2, b"y"), R("int", 3)]]),
    ("a field without a type", [[REC, fld(b"x")]]), ("a field with an alias and no type", [[REC, fld(b"x"), R("field alias", 2, b"y")]]),
    ("a field of two types", [[REC, fld(b"x"), INT2, R("null", 2)]]), ("a field alias behind the type", [[REC, fld(b"x"), INT2, R("field alias", 2, b"y")]]),
    ("a definition's alias under a field", [[REC, fld(b"x"), R("alias", 2, b"y"), INT2]]), ("a field's alias under a record", [[REC, R("field alias", 1, b"y")]]),
    ("a record without fields", [[REC]]), ("a record with a symbol", [[REC, R("symbol", 1, b"A")]]), ("a record with a schema", [[REC, INT1]]),
    ("an alias behind a field", [[REC, fld(b"x"), INT2, R("alias", 1, b"B")]]), ("an enum without symbols", [[R("enum", 0, b"E")]]),
    ("an enum with a field", [[R("enum", 0, b"E"), fld(b"x"), INT2]]), ("an alias behind a symbol", [[R("enum", 0, b"E"), R("symbol", 1, b"A"), R("alias", 1, b"B")]]),
    ("a fixed with a part", [[R("fixed", 0, b"F"), INT1]]), ("a fixed with aliases", [[R("fixed", 0, b"F"), R("alias", 1, b"G"), R("alias", 1, b"G")]]),
    ("an array without a part", [[R("array", 0)]]), ("an array of two", [[R("array", 0), INT1, R("null", 1)]]), ("an array of a field", [[R("array", 0), fld(b"x"), INT2]]),
    ("a map without a part", [[R("map", 0)]]), ("a map of one", [[R("map", 0), INT1]]), ("a map with an alias", [[R("map", 0), R("alias", 1, b"B"), INT1]]),
    ("an empty union", [[R("union", 0)]]), ("a union of one", [[R("union", 0), INT1]]), ("a union in a union", [[R("union", 0), R("union", 1)]]),
    ("a union in an array in a union", [[R("union", 0), R("array", 1), R("union", 2), R("int", 3)]]), ("a union with a symbol", [[R("union", 0), R("symbol", 1, b"A")]]),
    # strings
    ("a name with a leading dot", [[R("record", 0, b".R")]]), ("a name with two dots", [[R("record", 0, b"a..R")]]), ("an empty name", [[R("record", 0)]]),
    ("a name that starts with a digit", [[R("record", 0, b"a.1R")]]), ("a reserved name", [[R("enum", 0, b"a.string")]]), ("a reserved name as namespace", [[R("enum", 0, b"string.a")]]),
    ("a reserved alias", [[R("fixed", 0, b"F"), R("alias", 1, b"x.record")]]), ("a reserved field, symbol and field alias", [[REC, fld(b"int"), R("field alias", 2, b"enum"), R("enum", 2, b"E"), R("symbol", 3, b"null")]]),
    ("a field with a dot", [[REC, fld(b"a.b"), INT2]]), ("a symbol with a dot", [[R("enum", 0, b"E"), R("symbol", 1, b"a.b")]]), ("a field alias with a dot", [[REC, fld(b"x"), R("field alias", 2, b"a.b"), INT2]]),
    ("a name of 255 bytes", [[R("record", 0, b"n" * 255)]]), ("a name of 256 bytes", [[R("record", 0, b"n" * 256)]]), ("a field of 255 bytes", [[REC, fld(b"n" * 255), INT2]]),
    ("a field of 256 bytes", [[REC, fld(b"n" * 256), INT2]]), ("a primitive with a string", [[R("int", 0, b"x")]]), ("an array with a string", [[R("array", 0, b"x"), INT1]]),
    # numbers
    ("position 32,767", [[R("int", 0, b"", 32767)]]), ("position 32,768", [[R("int", 0, b"", 32768)]]), ("a size on a record", [[R("record", 0, b"R", size=1)]]),
    ("a fixed of size 0", [[R("fixed", 0, b"F")]]), ("note 6", [[R("bytes", 0, note=6)]]), ("note 7 on bytes", [[R("bytes", 0, note=7)]]), ("a note on a string", [[R("string", 0, note=2)]]),
    ("note 1 with precision 0", [[R("bytes", 0, note=1)]]), ("note 1 with scale over precision", [[R("bytes", 0, note=1, precision=4, scale=5)]]),
    ("note 1 with scale as precision", [[R("bytes", 0, note=1, precision=2 ** 64 - 1, scale=2 ** 64 - 1)]]), ("note 2 with a precision", [[R("fixed", 0, b"F", note=2, precision=4)]]),
    ("note 0 with a precision", [[R("fixed", 0, b"F", precision=4)]]), ("note 0 with a scale", [[R("bytes", 0, scale=4)]]),
    # 11
    ("two fields of one name", [[REC, fld(b"x"), INT2, fld(b"x"), INT2]]), ("a field with an earlier alias", [[REC, fld(b"x"), R("field alias", 2, b"y"), INT2, fld(b"y"), INT2]]),
    ("an alias with an earlier name", [[REC, fld(b"x"), INT2, fld(b"y"), R("field alias", 2, b"x"), INT2]]), ("a field with its own alias", [[REC, fld(b"x"), R("field alias", 2, b"x"), INT2]]),
    ("two aliases alike", [[REC, fld(b"x"), R("field alias", 2, b"z"), INT2, fld(b"y"), R("field alias", 2, b"z"), INT2]]),
    ("a field named as one of an inner record", [[REC, fld(b"x"), R("record", 2, b"S"), fld(b"y", 3), R("int", 4), fld(b"y"), INT2]]),
    ("a field named as the alias of an inner field", [[REC, fld(b"x"), R("record", 2, b"S"), fld(b"y", 3), R("field alias", 4, b"z"), R("int", 4), fld(b"z"), INT2]]),
    # 14
    ("two symbols alike", [[R("enum", 0, b"E"), R("symbol", 1, b"A"), R("symbol", 1, b"B"), R("symbol", 1, b"A")]]), ("a symbol like its enum", [[R("enum", 0, b"E"), R("alias", 1, b"E"), R("symbol", 1, b"E")]]),
    # 19
    ("two of one kind", [[R("union", 0), INT1, R("null", 1), INT1]]), ("two arrays", [[R("union", 0), R("array", 1), INT2, R("array", 1), R("null", 2)]]),
    ("a decimal beside bytes", [[R("union", 0), R("bytes", 1, note=1, precision=3), R("bytes", 1)]]), ("two fixeds of two names", [[R("union", 0), R("fixed", 1, b"F"), R("fixed", 1, b"G")]]),
    ("a definition and a reference to it", [[R("union", 0), R("fixed", 1, b"F"), R("reference", 1, b"F")]]), ("two references alike", [[R("fixed", 0, b"F")], [R("union", 0), R("reference", 1, b"F"), R("reference", 1, b"F")]]),
    ("two references", [[R("fixed", 0, b"F")], [R("enum", 0, b"E")], [R("union", 0), R("reference", 1, b"F"), R("reference", 1, b"E")]]),
    # 25 and 26
    ("a name defined twice", [[REC], [R("enum", 0, b"R")]]), ("a name defined twice in one declaration", [[REC, fld(b"x"), R("record", 2, b"R")]]), ("an alias like an earlier name", [[REC], [R("enum", 0, b"E"), R("alias", 1, b"R")]]),
    ("a name like an earlier alias", [[R("record", 0, b"R"), R("alias", 1, b"E")], [R("enum", 0, b"E")]]), ("a record that refers to itself", [[REC, fld(b"x"), R("reference", 2, b"R")]]),
    ("a reference to an earlier declaration", [[REC], [R("array", 0), R("reference", 1, b"R")]]), ("a reference to a later declaration", [[R("array", 0), R("reference", 1, b"R")], [REC]]),
    ("a reference to an earlier field's type", [[REC, fld(b"x"), R("enum", 2, b"E"), fld(b"y"), R("reference", 2, b"E")]]), ("a reference to a later field's type", [[REC, fld(b"x"), R("reference", 2, b"E"), fld(b"y"), R("enum", 2, b"E")]]),
    ("a reference to an alias", [[R("record", 0, b"R"), R("alias", 1, b"Q")], [R("array", 0), R("reference", 1, b"Q")]]), ("a reference to the last part", [[R("record", 0, b"a.R")], [R("array", 0), R("reference", 1, b"R")]]),
    # limits
    ("32 declarations", [[R("int", 0)]] * 32), ("33 declarations", [[R("int", 0)]] * 33),
]


def store(mem):
    """Store commands for the bytes that are not 0."""
    out, at = [], 0
    while at < len(mem):
        if mem[at] == 0:
            at += 1
            continue
        end = at
        while end < len(mem) and end - at < 64 and any(mem[end:end + 4]):
            end += 1
        out.append("s%04x%s" % (at, bytes(mem[at:end]).hex()))
        at = end
    return out


# ---- decimals: request A10. A set is stored, and single rows of it are changed: each verdict was worked out by hand, in a loop

SIXTEEN = [2, 4, 6, 9, 11, 14, 16, 18, 21, 23, 26, 28, 31, 33, 35, 38]
HIGH = 2 ** 64 - 1
# a row of each kind
KINDS_SET = [
    [R("fixed", 0, b"F", 1, size=4)],
    [R("record", 0, b"R", 2), R("alias", 1, b"Q", 3), R("field", 1, b"x", 4), R("field alias", 2, b"y", 5), R("union", 2, b"", 6), R("null", 3), R("boolean", 3), R("int", 3), R("long", 3), R("float", 3), R("double", 3),
     R("bytes", 3), R("string", 3), R("reference", 3, b"F"), R("array", 3), R("map", 4), R("enum", 5, b"E"), R("symbol", 6, b"A")]]
assert sorted(r[0] for d in KINDS_SET for r in d) == sorted(NUMBERS)
# decimals at their limits; the changes of each byte of their numbers go to both sides
LIMIT_SET = [
    [R("fixed", 0, b"A", size=0, note=7)], [R("fixed", 0, b"B", size=1, note=1, precision=2, scale=2)], [R("fixed", 0, b"C", size=2, note=1, precision=3)], [R("fixed", 0, b"D", size=16, note=1, precision=38, scale=38)],
    [R("fixed", 0, b"E", size=17, note=1, precision=38)], [R("fixed", 0, b"F", size=HIGH, note=7)], [R("bytes", 0, note=1, precision=39, scale=1)], [R("bytes", 0, note=6)], [R("fixed", 0, b"G", size=4, note=1, precision=9, scale=4)]]


def most(size):
    """The most digits of a decimal over a fixed, by 02's sixteen numbers."""
    return 0 if size == 0 else 38 if size > 16 else SIXTEEN[size - 1]


def decimals():
    """Commands, printed lines."""
    commands, printed = [], []

    def started(ds):
        commands.extend(["c"] + store(encode(ds)))
        return encode(ds)

    def written(mem, at, data):
        """What changes is stored, from the first byte to the last."""
        other = [i for i, b in enumerate(data) if mem[at + i] != b]
        if other:
            commands.append("s%04x%s" % (at + other[0], data[other[0]:other[-1] + 1].hex()))
        mem[at:at + len(data)] = data

    def judged(mem, want):
        assert well_formed(mem) == want, (commands[-4:], want)
        commands.append("j%04x" % LENGTH)
        return "%d" % want

    def line(digits):
        commands.append("n")
        printed.append("".join(digits))

    # each note on each kind: with precision 0; note 1 with precision 1, too
    mem = started(KINDS_SET)
    for i, kind in enumerate(r[0] for d in KINDS_SET for r in d):
        out, at = [], ROWS + ROW * i
        for note in (0, 1, 2, 3, 4, 5, 6, 7, 8, 255):
            written(mem, at + 1, bytes([note]))
            out.append(judged(mem, note == 0 or (kind == "fixed" and 2 <= note <= 7) or (kind == "bytes" and 2 <= note <= 6)))
        written(mem, at + 1, b"\1")
        written(mem, at + 18, b"\1")
        out.append(judged(mem, kind in ("fixed", "bytes")))
        written(mem, at + 1, b"\0")
        written(mem, at + 18, b"\0")
        line(out)
    # a fixed alone
    mem = started([[R("fixed", 0, b"F")]])

    def numbers(note, size, precision, scale, want):
        written(mem, ROWS + 1, bytes([note]))
        written(mem, ROWS + 10, struct.pack("<QQQ", size, precision, scale))
        return judged(mem, want)

    # note 1 at the limit and one above, without scale and with all of it
    for size in list(range(19)) + [256, 257, 2 ** 32, 2 ** 32 + 1, 2 ** 61 + 1, 2 ** 63, HIGH]:
        m = most(size)
        line([numbers(1, size, m, 0, m > 0), numbers(1, size, m, m, m > 0), numbers(1, size, m + 1, 0, False), numbers(1, size, m + 1, m + 1, False)])
    # other precisions; note 7 at several sizes; note 7 with a number kept
    line([numbers(1, 16, p, 0, p == 38) for p in (38, 39, 256 + 38, 2 ** 32 + 38, 2 ** 63 + 38, HIGH)] + [numbers(1, 8, p, s, w) for p, s, w in ((18, 19, False), (17, 18, False), (1, 0, True), (0, 0, False), (HIGH, HIGH, False))])
    line([numbers(7, size, 0, 0, True) for size in (0, 1, 2, 4, 8, 15, 16, 17, 256, 2 ** 32, 2 ** 63, HIGH)])
    line([numbers(7, size, p, s, False) for size in (0, 1, 16, HIGH) for p, s in ((most(size) + 1, 0), (1, 0), (0, 1), (most(size) + 1, 1), (HIGH, HIGH))])
    line([numbers(note, size, most(size), 0, False) for size in (1, 16, HIGH) for note in (0, 2, 3, 4, 5, 6, 8, 255)])
    # bytes alone: no limit
    mem = started([[R("bytes", 0)]])
    line([numbers(note, size, p, s, w) for note, size, p, s, w in (
        (1, 0, 39, 0, True), (1, 0, 39, 39, True), (1, 0, 1000, 1, True), (1, 0, HIGH, 0, True), (1, 0, HIGH, HIGH, True), (1, 0, 1, 0, True), (1, 1, 1, 0, False), (1, 16, 39, 0, False), (7, 0, 0, 0, False), (7, 0, 39, 0, False),
        (7, 1, 0, 0, False), (6, 0, 0, 0, True), (6, 0, 39, 0, False))])
    # the set of limits, the note and the numbers of each row damaged
    mem = started(LIMIT_SET)
    for i in range(len(LIMIT_SET)):
        for at, n in ((ROWS + ROW * i + 1, 1), (ROWS + ROW * i + 10, 24)):
            commands.append("d%04x%04x" % (at, n))
            printed.append(damaged(mem, at, n))
    return commands, printed


# ---- names of one length that begin and end alike: what is told by a table of marks must not depend on them

def alike(i):
    return b"name_of_%03d_those_alike" % i


def alike_sets():
    """Sets with their verdicts, worked out by hand."""
    names = [alike(i) for i in range(18)]

    def fields(ns, depth=1):
        return [r for n in ns for r in (fld(n, depth), R("int", depth + 1))]

    def union(members):
        return [R("union", 0)] + [R(k, 1, n) for k, n in members]

    def enums(ns):
        return [[R("enum", 0, n)] for n in ns]

    inner = [fld(names[6]), R("record", 2, b"S")]
    yield "fields", [[REC] + fields(names)], True
    yield "the last field as the first", [[REC] + fields(names[:12] + names[:1])], False
    yield "a field as the one before it", [[REC] + fields(names[:6] + names[5:12])], False
    yield "a field as an earlier alias", [[REC] + fields(names[:6]) + [fld(names[6]), R("field alias", 2, names[9]), INT2] + fields(names[7:12])], False
    yield "an alias as an earlier field", [[REC] + fields(names[:6]) + [fld(names[6]), R("field alias", 2, names[3]), INT2] + fields(names[7:12])], True
    yield "aliases alike", [[REC] + [r for i in range(6) for r in (fld(names[i]), R("field alias", 2, names[17]), R("field alias", 2, names[14 + i % 3]), INT2)]], True
    yield "fields of an inner record as those around it", [[REC] + fields(names[:6]) + inner + fields(names[:12], 3) + fields(names[7:12])], True
    yield "a field twice in the inner record", [[REC] + fields(names[:6]) + inner + fields(names[:12] + names[7:8], 3) + fields(names[7:12])], False
    yield "a field twice around the inner record", [[REC] + fields(names[:6]) + inner + fields(names[:12], 3) + fields(names[6:12])], False
    yield "symbols", [[R("enum", 0, b"E")] + [R("symbol", 1, n) for n in names]], True
    yield "a symbol twice", [[R("enum", 0, b"E")] + [R("symbol", 1, n) for n in names + names[3:4]]], False
    yield "fixeds in a union, with other kinds", [union([("fixed", n) for n in names]) + [R("null", 1), R("int", 1), R("string", 1)]], True
    yield "a fixed and a reference to it in a union", [union([("fixed", n) for n in names[:12]] + [("reference", names[4])])], False
    yield "another's reference in a union", enums(names[12:13]) + [union([("fixed", n) for n in names[:12]] + [("reference", names[12])])], True
    yield "two references alike in a union", enums(names[:12]) + [union([("reference", n) for n in names[:12] + names[:1]])], False
    yield "two of one kind behind names in a union", [union([("fixed", n) for n in names[:12]]) + [R("null", 1), R("int", 1), R("null", 1)]], False
    yield "definitions, each referred to", enums(names) + [[REC] + [r for i, n in enumerate(names) for r in (fld(b"x%d" % i), R("reference", 2, n))]], True
    yield "a reference to none of them", enums(names[:12]) + [[R("array", 0), R("reference", 1, names[12])]], False
    yield "a definition twice", enums(names[:12] + names[2:3]), False
    yield "a reference before its definition", enums(names[:6]) + [[R("array", 0), R("reference", 1, names[6])]] + enums(names[6:12]), False


def alike_lines():
    """Commands, printed lines."""
    commands, line = [], []
    for name, ds, want in alike_sets():
        mem = encode(ds)
        assert well_formed(mem) == want, name
        commands += ["c"] + store(mem) + ["j%04x" % LENGTH]
        line.append("%d" % want)
    commands.append("n")
    # the first of them, the three digits of the fourteenth name damaged
    mem = encode(next(alike_sets())[1])
    at = STRINGS + len(REC[2]) + 13 * len(alike(0)) + 8
    commands += ["c"] + store(mem) + ["d%04x0003" % at]
    return commands, ["".join(line), damaged(mem, at, 3)]


# ---- defaults: request A6

def held(name, default, position=9, depth=1):
    """A field's row with a default."""
    return R("field", depth, name, size=position, default=default)


def of_type(default, *rows, before=(), position=9):
    """A record with one field, whose default and type are given."""
    return list(before) + [[REC, held(b"a", default, position)] + [R(k, 2 + d, *more) for d, k, *more in rows]]


def default_sets():
    """Sets with their verdicts, worked out by hand."""
    I, S, B = (0, "int"), (0, "string"), (0, "bytes")
    ENUM, FIXED = [R("enum", 0, b"E"), R("alias", 1, b"Q"), R("symbol", 1, b"A"), R("symbol", 1, b"BC")], [R("fixed", 0, b"F", size=2)]
    yield "a default", of_type(b"5", I), True
    yield "a default that does not fit", of_type(b'"none"', I), False
    for p, good in ((0, True), (1, True), (255, True), (32767, True), (32768, False), (65536, False), (65545, False), (2 ** 32, False), (2 ** 63, False), (HIGH, False)):
        yield "a default at position %d" % p, of_type(b"5", I, position=p), good
    for p in (1, 9, 32767, 32768, HIGH):
        yield "no default, and position %d" % p, of_type(b"", I, position=p), False
    yield "no default", of_type(b"", I, position=0), True
    # one value, nothing around it
    for c in b" \t\r\n":
        yield "white space %d before" % c, of_type(bytes([c]) + b"5", I), False
        yield "white space %d behind" % c, of_type(b"5" + bytes([c]), I), False
        yield "white space %d inside" % c, of_type(b"[" + bytes([c]) + b"5" + bytes([c]) + b"]", (0, "array"), (1, "int")), True
        yield "white space %d alone" % c, of_type(bytes([c]), I), False
    for t in (b"\x0b5", b"5\x0c", b"\xc2\xa05", b"\xef\xbb\xbf5", b"\0", b"5\0", b"5,", b"5 5", b"55 ", b"05", b"+5", b"5.", b"-", b"--5", b"x", b"nul", b"[5", b"5]", b"'5'", b'"5', b"5//"):
        yield "no value %s" % t.hex(), of_type(t, I), False
    for t, good in ((b'""', True), (b'"\xc3\xa9"', True), (b'"\xc3"', False), (b'"\xff"', False), (b'"\xc0\x80"', False), (b'"\xed\xa0\x80"', False), (b'"\xf4\x90\x80\x80"', False), (b'"\xf4\x8f\xbf\xbf"', True), (b'"\n"', False), (b'"\\n"', True), (b'"\x7f"', True), (b'"\x1f"', False),
                    (b'"\\ud800"', False), (b'"\\udc00\\ud800"', False), (b'"\\ud83d\\ude00"', True), (b'"\\x"', False), (b'"\\u00g0"', False), (b'"\\u00e"', False), (b'"a" ', False), (b'"a""', False), (b'"' + b"x" * 253 + b'"', True), (b'"' + b"\\u0041" * 42 + b'x"', True), (b'"' + b"x" * 254, False)):
        yield "a string of %d bytes, %s to %s" % (len(t), t[:12].hex(), t[-1:].hex()), of_type(t, S), good
    # nesting
    for n, inside, good in ((1, b"", True), (63, b"", True), (64, b"", True), (65, b"", False), (64, b"5", True), (64, b"null", False), (65, b"5", False), (100, b"", False)):
        yield "%d brackets around %s" % (n, inside.decode()), of_type(b"[" * n + inside + b"]" * n, *[(i, "array") for i in range(n)], (n, "int")), good
    maps = b"".join(b'{"":' if i % 3 == 0 else b"[" for i in range(64))
    shut = b"".join(b"}" if i % 3 == 0 else b"]" for i in reversed(range(64)))
    yield "64 brackets of two kinds", of_type(maps + b"7" + shut, *[(i, "map" if i % 3 == 0 else "array") for i in range(64)], (64, "int")), True
    yield "65 brackets of two kinds", of_type(maps + b"[7]" + shut, *[(i, "map" if i % 3 == 0 else "array") for i in range(64)], (64, "array"), (65, "int")), False
    # only fields have one
    for kind in sorted(NUMBERS):
        rows = [R("record", 0, b"R"), R("alias", 1, b"Q"), R("field", 1, b"x"), R("field alias", 2, b"y"), R("union", 2), R("null", 3), R("boolean", 3), R("int", 3), R("long", 3), R("float", 3), R("double", 3), R("bytes", 3), R("string", 3),
                R("reference", 3, b"R"), R("array", 3), R("map", 4), R("enum", 5, b"E"), R("symbol", 6, b"A"), R("fixed", 3, b"F", size=4)]
        i = [r[0] for r in rows].index(kind)
        r = rows[i]
        yield "a default of a row of kind %s" % kind, [rows[:i] + [R(r[0], r[1], r[2], r[3], r[4], default=b"null")] + rows[i + 1:]], kind == "field"
        yield "a default of a row of kind %s, with a position" % kind, [rows[:i] + [R(r[0], r[1], r[2], r[3], 4, default=b"null")] + rows[i + 1:]], kind == "field"
    # what fits
    for rows, good, bad in (
            ([(0, "null")], [b"null"], [b"0", b'"null"', b"false", b"[]", b"{}"]), ([(0, "boolean")], [b"true", b"false"], [b"null", b"0", b'"true"']),
            ([I], [b"2147483647", b"-2147483648", b"-0"], [b"2147483648", b"-2147483649", b"1.0", b"1e2", b"1E2", b"9" * 250, b"null"]),
            ([(0, "long")], [b"9223372036854775807", b"-9223372036854775808", b"2147483648"], [b"9223372036854775808", b"-9223372036854775809", b"0.0", b"18446744073709551617", b"1" * 255]),
            ([(0, "float")], [b"0", b"1e999", b"1.5", b"9" * 250], [b'"NaN"', b"null"]), ([(0, "double")], [b"-0", b"-1E-999", b"1" * 255], [b'"INF"', b"true"]),
            ([B], [b'""', b'"\xc3\xbf"', b'"\\u00ff"', b'"\\u0000"'], [b'"\xc4\x80"', b'"\\u0100"', b'"\\ud83d\\ude00"', b"0"]), ([S], [b'""', b'"\xc4\x80"', b'"\\ud83d\\ude00"'], [b"null", b"[]"]),
            ([(0, "fixed", b"F", 0, 1)], [b'"a"', b'"\xc3\xa9"', b'"\\u00e9"'], [b'""', b'"ab"', b'"\xd0\x96"', b"1"]), ([(0, "fixed", b"F", 0, 0)], [b'""'], [b'"a"', b"null"]), ([(0, "fixed", b"F", 0, HIGH)], [], [b'""', b'"a"']), ([(0, "fixed", b"F", 0, 257)], [], [b'"a"']),
            ([(0, "fixed", b"F", 0, 253)], [b'"' + b"x" * 253 + b'"'], [b'"' + b"x" * 252 + b'"']),
            ([(0, "enum", b"E"), (1, "alias", b"Q"), (1, "symbol", b"A"), (1, "symbol", b"BC")], [b'"A"', b'"BC"', b'"\\u0042C"'], [b'"B"', b'"Q"', b'"E"', b'""', b"0", b'"a"']), ([(0, "enum", b"E")], [], [b'""', b"null"]),
            ([(0, "array"), (1, "int")], [b"[]", b"[1,2]"], [b'["x"]', b"{}", b"[1,null]", b"1"]), ([(0, "map"), (1, "int")], [b"{}", b'{"k":"x","k":1}', b'{"k":"x","\\u006b":1}'], [b"[]", b'{"k":1,"k":"x"}', b'{"k":"x","K":1}']),
            ([(0, "union")], [], [b"null", b"[]", b'""']), ([(0, "union"), (1, "null"), (1, "string")], [b"null", b'"x"'], [b"1", b'{"string":"x"}']), ([(0, "union"), (1, "int"), (1, "long")], [b"2147483648"], [b"9223372036854775808"]),
            ([(0, "record", b"S"), (1, "field", b"x"), (2, "field alias", b"w"), (2, "int")], [b'{"x":1}', b'{"x":"s","x":1}', b'{"w":[],"x":1,"z":null}'], [b"{}", b'{"w":1}', b'{"x":1,"x":"s"}', b"[]", b"null"]),
            ([(0, "record", b"S")], [b"{}", b'{"a":1}'], [b"[]", b"null"])):
        for v in good:
            yield "%s takes %s" % (rows, v), of_type(v, *rows), True
        for v in bad:
            yield "%s does not take %s" % (rows, v), of_type(v, *rows), False
    inner = [(0, "record", b"S"), (1, "field", b"x", 0, 4, 0, 0, 0, b"7"), (2, "int"), (1, "field", b"y"), (2, "string")]
    for v, good in ((b'{"y":""}', True), (b'{"y":"","x":1}', True), (b'{"y":"","x":null}', False), (b'{"x":1}', False), (b"{}", False)):
        yield "a record whose first field has a default, %s" % v, of_type(v, *inner), good
    yield "an inner default that does not fit", of_type(b'{"y":""}', *[r if len(r) < 9 else r[:8] + (b"true",) for r in inner]), False
    yield "an inner default that does not fit, the outer field has none", [[REC, fld(b"a")] + [R(k, 2 + d, *more) for d, k, *more in [r if len(r) < 9 else r[:8] + (b"true",) for r in inner]]], False
    # references
    for v, good in ((b'"A"', True), (b'"BC"', True), (b'"C"', False)):
        yield "an enum of another declaration, %s" % v, of_type(v, (0, "reference", b"E"), before=[ENUM]), good
        yield "an enum in the same declaration, %s" % v, [[REC, fld(b"e")] + [R(k, d + 2, t) for k, d, t, *_ in ENUM] + [held(b"a", v), R("reference", 2, b"E")]], good
    for v, good in ((b'"ab"', True), (b'"a"', False), (b'"\xc3\xa9"', False)):
        yield "a fixed of another declaration, %s" % v, of_type(v, (0, "reference", b"F"), before=[ENUM, FIXED]), good
    for v, good in ((b"{}", True), (b'{"a":{}}', True), (b'{"a":{"a":null}}', False), (b"null", False)):
        yield "a record that refers to itself, %s" % v, of_type(v, (0, "reference", b"R")), good
    for v, good in ((b"null", True), (b"{}", True), (b'{"a":null}', True), (b'{"a":{"a":{"a":null}}}', True), (b'{"a":{"a":{"a":1}}}', False), (b'{"a":' * 41 + b"null" + b"}" * 41, True), (b'{"a":' * 41 + b"1" + b"}" * 41, False)):
        yield "null or itself, %s %d" % (v[:20], len(v)), of_type(v, (0, "union"), (1, "null"), (1, "reference", b"R")), good
    for v, good in ((b'{"b":1}', True), (b"{}", False), (b'{"b":"x"}', False)):
        yield "an open record with a field behind, %s" % v, [of_type(v, (0, "reference", b"R"))[0] + [fld(b"b"), INT2]], good
        yield "an open record with a field behind that has a default, %s" % v, [of_type(v, (0, "reference", b"R"))[0] + [held(b"b", b"0"), INT2]], v != b'{"b":"x"}'
    yield "a reference to a later declaration", of_type(b'"A"', (0, "reference", b"E")) + [ENUM], False
    yield "an unknown reference", of_type(b"null", (0, "union"), (1, "null"), (1, "reference", b"E")), False
    # several
    yield "the second of two does not fit", [[REC, held(b"a", b"1"), INT2, held(b"b", b'"x"'), INT2]], False
    yield "the default of the last declaration does not fit", [ENUM, FIXED] + of_type(b"1", I) + [[R("record", 0, b"T"), held(b"a", b"1.5"), INT2]], False
    yield "defaults in two declarations", [ENUM, FIXED] + of_type(b"1", I) + [[R("record", 0, b"T"), held(b"a", b"15"), INT2]], True
    # 16,384 string bytes: 1 + 63 of 258, one of 129
    names = [b"f%02d" % i for i in range(64)]
    many = [r for n in names[:63] for r in (held(n, b'"' + b"x" * 253 + b'"'), R("string", 2))]
    yield "16,384 string bytes by defaults", [[REC] + many + [held(names[63], b'"' + b"x" * 124 + b'"'), R("string", 2)]], True


# a good set: defaults of many kinds, in two declarations
DEFAULTS_SET = [
    [R("record", 0, b"a.S", 26), held(b"x", b"10", 60), R("int", 2, b"", 50), R("field", 1, b"y", 70, 80, default=b'"\\u0041"'), R("field alias", 2, b"v", 75), R("union", 2), R("null", 3), R("enum", 3, b"a.E"), R("symbol", 4, b"A"), R("symbol", 4, b"B")],
    [R("record", 0, b"R", 9), held(b"s", b'[{"x":1},{"y":null}]', 300), R("array", 2), R("reference", 3, b"a.S"), held(b"f", b'"\xc3\xa9\\n"', 513), R("fixed", 2, b"F", size=2), held(b"r", b"{}", 0), R("union", 2), R("null", 3), R("reference", 3, b"R"),
     held(b"d", b"-0.5e1", 32767), R("float", 2)]]


def default_lines():
    """Commands, printed lines."""
    commands, printed, line = [], [], []
    sets = list(default_sets())
    assert len({n for n, _, _ in sets}) == len(sets)
    for k, (name, ds, want) in enumerate(sets):
        mem = encode(ds)
        assert len(mem) == LENGTH and well_formed(mem) == want, name
        commands += ["c"] + store(mem) + ["j%04x" % LENGTH]
        line.append("%d" % want)
        if k == len(sets) - 1:
            # the last set is full: its last default can take no byte more
            at = ROWS + ROW * (sum(len(d) for d in ds) - 2) + 7
            for more, good in ((1, False), (2, False), (0, True)):
                mem[at] = 126 + more
                assert well_formed(mem) == good
                commands += ["s%04x%02x" % (at, 126 + more), "j%04x" % LENGTH]
                line.append("%d" % good)
        if k % 32 == 31 or k == len(sets) - 1:
            commands.append("n")
            printed.append("".join(line))
            line = []
    mem = encode(DEFAULTS_SET)
    assert well_formed(mem)
    commands += ["c"] + store(mem)
    rows = sum(len(d) for d in DEFAULTS_SET)
    text = sum(len(r[2]) + len(r[8]) for d in DEFAULTS_SET for r in d)
    for at, n in [(ROWS + ROW * i, ROW) for i in range(rows)] + [(STRINGS + i, min(50, text + 2 - i)) for i in range(0, text + 2, 50)]:
        commands.append("d%04x%04x" % (at, n))
        printed.append(damaged(mem, at, n))
    return commands, printed


def damaged(mem, at, n):
    """The verdicts of the command d."""
    out = []
    for i in range(at, at + n):
        old = mem[i]
        for new in ((old + 1) % 256, (old - 1) % 256, old ^ 128):
            mem[i] = new
            out.append("%d" % well_formed(mem))
        mem[i] = old
    return "".join(out)


def main(which):
    commands, printed = [], []
    line = []
    for k, (_, ds) in enumerate(CASES):
        mem = encode(ds)
        commands += ["c"] + store(mem) + ["j%04x" % LENGTH]
        line.append("%d" % well_formed(mem))
        if k % 32 == 31 or k == len(CASES) - 1:
            commands.append("n")
            printed.append("".join(line))
            line = []
    # other lengths
    commands += ["c", "j0000", "j%04x" % (LENGTH - 1), "j%04x" % (LENGTH + 1), "j%04x" % LENGTH, "n"]
    printed.append("".join("%d" % well_formed(bytearray(n)) for n in (0, LENGTH - 1, LENGTH + 1, LENGTH)))
    # the good set, each byte damaged
    mem = encode(GOOD)
    commands += store(mem)
    rows = sum(len(d) for d in GOOD)
    text = sum(len(r[2]) for d in GOOD for r in d)
    ranges = [(0, 66)] + [(ROWS + ROW * i, ROW) for i in range(rows + 1)] + [(STRINGS - 4, text + 8), (LENGTH - 4, 4)]
    for at, n in ranges:
        commands.append("d%04x%04x" % (at, n))
        printed.append(damaged(mem, at, n))
    for lines in (decimals(), alike_lines(), default_lines()):
        for whole, more in zip((commands, printed), lines):
            whole += more
    lines = commands if which == "stdin" else printed
    sys.stdout.write("\n".join(lines) + "\n")


if __name__ == "__main__":
    if sys.argv[1] == "cases":
        for name, ds in CASES:
            print(int(well_formed(encode(ds))), name)
        for name, ds, want in default_sets():
            print(int(want), name)
    else:
        main(sys.argv[1])
