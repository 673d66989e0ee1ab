#!/usr/bin/env python3
"""A second reading of document 01: from the bytes of a text to its rows, or to the number and position of its refusal.

    python3 docs/vectors/declaration.py crates/schema_run      writes stdin and stdout there
    python3 docs/vectors/declaration.py cases                  every text with its label and answer

Written from document 01, its sections Text, Names, Rows and Numbers returned, for the position of 7 from request A2 of 02, for a
decimal's note 7 from request A10, for a field's default and 48 from request A6, and from nothing else; the scan for 1, 2 and 3 is
that of scan.py. The texts stand in declaration_texts.py, each with the answer that was worked out by hand.

stdin has a text to a line in hexadecimal digits, `-` for no bytes. stdout has for each text either `refused NUMBER POSITION`,
or `row KIND DEPTH POSITION SIZE NOTE PRECISION SCALE HEX AT HEX` for each row and then `end ROWS BYTES`, the number of rows and of
string bytes; the rows are left out where there are over 1,024 of them, or over 16,384 string bytes. The last two words of a row
are the position of a field's default and its text as written, `0 -` where there is none; its bytes are string bytes. Whether a
default fits its type is not asked here: a text alone does not say.
"""
import collections
import os
import re
import sys

sys.path.insert(0, os.path.dirname(os.path.abspath(__file__)))
import scan

LONGEST_STRING = 255
MOST_ROWS, MOST_BYTES = 1024, 16384
HIGHEST = 2 ** 64 - 1

PRIMITIVES = [b"null", b"boolean", b"int", b"long", b"float", b"double", b"bytes", b"string"]
RESERVED = PRIMITIVES + [b"record", b"enum", b"fixed"]

# default is the text of a field's default as it is written, b"" where there is none; at is its position
Row = collections.namedtuple("Row", "kind depth position string size note precision scale at default", defaults=(0, b""))


class Refused(Exception):
    """Arguments: number, position."""


# ---- Text: one JSON value, each part with its position

class Value:
    """kind is string, number, word, array or object. inside is a string's bytes with escapes undone, a number's or word's
    bytes as written, an array's values, or an object's pairs of key and value. written is what stands between a string's
    quotes. The value stands from at up to end."""

    def __init__(self, kind, at, end, inside, written=None):
        self.kind, self.at, self.end, self.inside, self.written = kind, at, end, inside, written

    def member(self, key):
        """The value of a key, None where it is missing. A key given twice: the last counts."""
        found = [v for k, v in self.inside if k == key]
        return found[-1] if found else None


SPACE = re.compile(rb"[ \t\r\n]*")
WORD = re.compile(rb"[-+.0-9A-Za-z]+")
SHORT = {"b": "\b", "f": "\f", "n": "\n", "r": "\r", "t": "\t", '"': '"', "\\": "\\", "/": "/"}


def skip(text, at):
    return SPACE.match(text, at).end()


def undone(inside):
    """The bytes between two quotes, escapes undone."""
    units = []
    chars = iter(inside.decode("utf-8"))
    for c in chars:
        if c == "\\":
            e = next(chars)
            c = chr(int("".join(next(chars) for _ in range(4)), 16)) if e == "u" else SHORT[e]
        units.append(c)
    # a pair of surrogate escapes is one character
    return "".join(units).encode("utf-16", "surrogatepass").decode("utf-16").encode("utf-8")


def value_at(text, at):
    """The value that begins at a position, and where it ends."""
    c = text[at:at + 1]
    if c == b'"':
        end = at + 1
        while text[end] != ord('"'):
            end += 2 if text[end] == ord("\\") else 1
        return Value("string", at, end + 1, undone(text[at + 1:end]), text[at + 1:end]), end + 1
    if c == b"[":
        inside, here = [], skip(text, at + 1)
        while text[here] != ord("]"):
            v, here = value_at(text, here)
            inside.append(v)
            here = skip(text, here)
            if text[here] == ord(","):
                here = skip(text, here + 1)
        return Value("array", at, here + 1, inside), here + 1
    if c == b"{":
        inside, here = [], skip(text, at + 1)
        while text[here] != ord("}"):
            key, here = value_at(text, here)
            here = skip(text, here)
            assert text[here] == ord(":")
            v, here = value_at(text, skip(text, here + 1))
            inside.append((key.inside, v))
            here = skip(text, here)
            if text[here] == ord(","):
                here = skip(text, here + 1)
        return Value("object", at, here + 1, inside), here + 1
    end = WORD.match(text, at).end()
    return Value("word" if c in b"tfn" else "number", at, end, text[at:end]), end


def size_of(v):
    """A size literal is digits only, at most 2^64 - 1. None where it is none."""
    if v.kind == "number" and re.fullmatch(rb"[0-9]+", v.inside) and int(v.inside) <= HIGHEST:
        return int(v.inside)
    return None


# ---- Names

def is_simple(s):
    return re.fullmatch(rb"[A-Za-z_][A-Za-z0-9_]*", s) is not None


def is_joined(s):
    """Simple names joined by dots."""
    return all(is_simple(part) for part in s.split(b"."))


def is_name(s):
    """A simple name, a dot and a simple name, or simple names joined by dots."""
    return is_joined(s) or (s[:1] == b"." and is_simple(s[1:]))


def is_namespace(s):
    return s == b"" or is_joined(s)


# a character as it is written: a pair of surrogate escapes, another escape, or a character of UTF-8
CHARACTER = re.compile(rb"\\u[Dd][89ABab]..\\u....|\\u....|\\.|[\x00-\x7f]|[\xc0-\xff][\x80-\xbf]+", re.S)


def broken_at(s, rule):
    """Where a string that does not keep a rule stops keeping it: at the first character that makes what is read so far the
    beginning of no string that keeps it; at the closing quote if no character does. Each of the rules lets a letter stand
    first, behind a dot and behind a letter, a digit or _: so what can be gone on with is what one more letter makes good."""
    end = 0
    for c in CHARACTER.finditer(s.written):
        if not rule(undone(s.written[:c.end()]) + b"a"):
            return s.at + 1 + c.start()
        end = c.end()
    assert end == len(s.written)
    return s.at + 1 + end


def full_name(s, space):
    """The full name of a name in a namespace; b"" is none."""
    if b"." not in s:
        return space + b"." + s if space else s
    return s[1:] if s.startswith(b".") else s


def space_of(full):
    return full.rpartition(b".")[0]


def last_part(s):
    return s.rpartition(b".")[2]


# ---- Rows

def refuse(number, position):
    raise Refused(number, position)


def refuse_unless(fact, number, position):
    if not fact:
        refuse(number, position)


def must_keep(rule, s):
    """7: a string that must be a name, a namespace or a simple name."""
    if not rule(s.inside):
        refuse(7, broken_at(s, rule))


class Walk:
    """The rows of a declaration in preorder."""

    def __init__(self, text):
        self.text, self.rows = text, []

    def row(self, kind, depth, position, string=b"", size=0, note=0, precision=0, scale=0):
        self.rows.append(Row(kind, depth, position, string, size, note, precision, scale))

    # `told` is called where 19 comes, with what tells union members apart
    def schema(self, v, space, depth, told):
        if v.kind == "string":
            self.plain(v, space, depth, told)
        elif v.kind == "array":
            self.union(v, space, depth, told)
        elif v.kind == "object":
            self.object(v, space, depth, told)
        else:
            refuse(4, v.at)

    def object(self, v, space, depth, told):
        t = v.member(b"type")
        if t is None:
            refuse(5, v.at)
        if t.kind != "string":
            self.schema(t, space, depth, told)
        elif t.inside == b"record":
            self.record(v, space, depth, told)
        elif t.inside == b"enum":
            self.enum(v, space, depth, told)
        elif t.inside == b"fixed":
            self.fixed(v, space, depth, told)
        elif t.inside == b"array":
            self.part(v, "array", b"items", 27, space, depth, told)
        elif t.inside == b"map":
            self.part(v, "map", b"values", 28, space, depth, told)
        else:
            self.plain(t, space, depth, told, decimal(v) if t.inside == b"bytes" else (0, 0, 0))

    def plain(self, s, space, depth, told, note=(0, 0, 0)):
        if s.inside in PRIMITIVES:
            kind = s.inside.decode()
            told(("kind", kind))
            self.row(kind, depth, s.at, b"", 0, *note)
            return
        must_keep(is_name, s)
        full = full_name(s.inside, space)
        refuse_unless(len(full) <= LONGEST_STRING, 9, s.at)
        told(("name", full))
        self.row("reference", depth, s.at, full)

    def union(self, v, space, depth, told):
        told(("kind", "union"))
        self.row("union", depth, v.at)
        seen = set()
        for member in v.inside:
            def told_here(what, member=member):
                refuse_unless(what != ("kind", "union") and what not in seen, 19, member.at)
                seen.add(what)
            self.schema(member, space, depth + 1, told_here)

    def part(self, v, kind, key, number, space, depth, told):
        told(("kind", kind))
        self.row(kind, depth, v.at)
        inner = v.member(key)
        if inner is None:
            refuse(number, v.at)
        self.schema(inner, space, depth + 1, nobody)

    def definition(self, v, kind, space, depth, told, *numbers):
        """The name, 19 and the aliases; the definition's own namespace."""
        name = v.member(b"name")
        refuse_unless(name is not None and name.kind == "string", 6, v.at)
        must_keep(is_name, name)
        given = v.member(b"namespace")
        if b"." not in name.inside and given is not None and given.kind == "string":
            must_keep(is_namespace, given)
            space = given.inside
        full = full_name(name.inside, space)
        refuse_unless(last_part(full) not in RESERVED, 8, name.at)
        refuse_unless(len(full) <= LONGEST_STRING, 9, name.at)
        told(("name", full))
        self.row(kind, depth, name.at, full, *numbers)
        own = space_of(full)
        for alias in aliases(v):
            must_keep(is_name, alias)
            known_as = full_name(alias.inside, own)
            refuse_unless(last_part(known_as) not in RESERVED, 8, alias.at)
            refuse_unless(len(known_as) <= LONGEST_STRING, 9, alias.at)
            self.row("alias", depth + 1, alias.at, known_as)
        return own

    def record(self, v, space, depth, told):
        own = self.definition(v, "record", space, depth, told)
        fields = v.member(b"fields")
        refuse_unless(fields is not None and fields.kind == "array", 10, v.at)
        objects = [f for f in fields.inside if f.kind == "object"]
        for f in objects:
            self.field(f, own, depth + 1)
        taken = set()
        for f in objects:
            name = f.member(b"name")
            refuse_unless(name.inside not in taken, 11, name.at)
            taken.add(name.inside)
            taken.update(a.inside for a in aliases(f))

    def field(self, f, space, depth):
        name = f.member(b"name")
        refuse_unless(name is not None and name.kind == "string", 6, f.at)
        own = len(self.rows)
        self.simple("field", name, depth)
        for alias in aliases(f):
            self.simple("field-alias", alias, depth + 1)
        default = f.member(b"default")
        if default is not None:
            refuse_unless(default.end - default.at <= LONGEST_STRING, 48, default.at)
            self.rows[own] = self.rows[own]._replace(at=default.at, default=self.text[default.at:default.end])
        t = f.member(b"type")
        refuse_unless(t is not None, 5, f.at)
        self.schema(t, space, depth + 1, nobody)

    def simple(self, kind, s, depth):
        must_keep(is_simple, s)
        refuse_unless(len(s.inside) <= LONGEST_STRING, 9, s.at)
        self.row(kind, depth, s.at, s.inside)

    def enum(self, v, space, depth, told):
        self.definition(v, "enum", space, depth, told)
        symbols = v.member(b"symbols")
        refuse_unless(symbols is not None and symbols.kind == "array", 12, v.at)
        for s in symbols.inside:
            refuse_unless(s.kind == "string", 13, s.at)
        seen = set()
        for s in symbols.inside:
            self.simple("symbol", s, depth + 1)
            refuse_unless(s.inside not in seen, 14, s.at)
            seen.add(s.inside)
        default = v.member(b"default")
        if default is not None:
            refuse_unless(default.kind == "string", 15, default.at)
            refuse_unless(default.inside in seen, 16, default.at)

    def fixed(self, v, space, depth, told):
        size = v.member(b"size")
        refuse_unless(size is not None, 17, v.at)
        refuse_unless(size_of(size) is not None, 18, size.at)
        self.definition(v, "fixed", space, depth, told, size_of(size), *decimal(v, size_of(size)))


def nobody(what):
    """No union's member: there is no 19."""


def aliases(v):
    """Those of a definition or field; what is not an array of strings counts as absent."""
    given = v.member(b"aliases")
    if given is None or given.kind != "array" or any(a.kind != "string" for a in given.inside):
        return []
    return given.inside


# ---- Decimals

def most_digits(n):
    """The largest whole p for which 10^p is at most 2^(8n - 1) - 1, the highest number of n bytes, n at least 1."""
    p = 0
    while 10 ** (p + 1) <= 2 ** (8 * n - 1) - 1:
        p += 1
    return p


LIMITS = [most_digits(n) for n in range(1, 17)]
assert LIMITS == [2, 4, 6, 9, 11, 14, 16, 18, 21, 23, 26, 28, 31, 33, 35, 38], "the sixteen numbers of request A10"


def limit(size):
    """The highest precision over a fixed: size 0 allows none, above 16 it stays that of 16."""
    if size == 0:
        return 0
    return LIMITS[size - 1] if size <= 16 else LIMITS[-1]


def decimal(v, size=None):
    """Note, precision and scale of an object whose own type is the string bytes or fixed; a fixed's size is given."""
    logical = v.member(b"logicalType")
    if logical is None or logical.kind != "string" or logical.inside != b"decimal":
        return 0, 0, 0
    precision, scale = v.member(b"precision"), v.member(b"scale")
    if precision is None:
        return 2, 0, 0
    if size_of(precision) is None:
        return 3, 0, 0
    if scale is not None and size_of(scale) is None:
        return 4, 0, 0
    p, s = size_of(precision), 0 if scale is None else size_of(scale)
    if p == 0:
        return 5, 0, 0
    if p < s:
        return 6, 0, 0
    if size is not None and p > limit(size):
        return 7, 0, 0
    return 1, p, s


def declaration(text):
    """The rows of a text; raises Refused."""
    found = scan.scan(text)
    if found is not None:
        refuse(*found)
    top, end = value_at(text, skip(text, 0))
    assert skip(text, end) == len(text)
    walk = Walk(text)
    walk.schema(top, b"", 0, nobody)
    return walk.rows


# ---- stdin and stdout

def row_line(r):
    return "row %s %d %d %d %d %d %d %s %d %s" % (r.kind, r.depth, r.position, r.size, r.note, r.precision, r.scale, r.string.hex() or "-", r.at, r.default.hex() or "-")


def string_bytes(rows):
    """Each kept string takes its length, a default too."""
    return sum(len(r.string) + len(r.default) for r in rows)


def answer(text):
    try:
        rows = declaration(text)
    except Refused as r:
        return ["refused %d %d" % r.args]
    count = string_bytes(rows)
    lines = [] if len(rows) > MOST_ROWS or count > MOST_BYTES else [row_line(r) for r in rows]
    return lines + ["end %d %d" % (len(rows), count)]


def main(where):
    import declaration_texts
    cases = declaration_texts.all_cases()
    counts = collections.Counter()
    labels, seen, lines, answers = set(), set(), [], []
    for c in cases:
        assert c.label not in labels, ("two texts of one label", c.label)
        labels.add(c.label)
        if c.text in seen:
            raise AssertionError(("a text given twice", c.label))
        seen.add(c.text)
        got = answer(c.text)
        declaration_texts.judge(c, got)
        counts[int(got[0].split()[1]) if got[0].startswith("refused") else 0] += 1
        lines.append(c.text.hex() or "-")
        answers.append("\n".join(got))
        if where == "cases":
            print("%-60s %s" % (c.label, got[0] if got[0].startswith("refused") else got[-1]))
    print(len(cases), "texts;", "accepted", counts[0], "; refused by number:", {n: counts[n] for n in sorted(counts) if n}, file=sys.stderr)
    for n in list(range(2, 20)) + [27, 28, 48]:
        assert counts[n] >= 6, ("fewer than six", n)
    stdin = "\n".join(lines) + "\n"
    assert len(cases) >= 450 and len(stdin) < 1400000, (len(cases), len(stdin))
    if where != "cases":
        os.makedirs(where, exist_ok=True)
        open(os.path.join(where, "stdin"), "w").write(stdin)
        open(os.path.join(where, "stdout"), "w").write("\n".join(answers) + "\n")


if __name__ == "__main__":
    main(sys.argv[1])
