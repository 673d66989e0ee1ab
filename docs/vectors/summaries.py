#!/usr/bin/env python3
"""A second reading of request A1 of 02: summaries in Avro's single-object encoding, walked by the rows of a set.

Written from request A1 and from documents 01 and 02 alone. Texts are read by declaration.py; canonical text, fingerprint and the memory of a set
are those of replay.py, well-formedness is that of wellformed.py. It prints nothing. Three lines are added to those of replay.py:

    summary ROOM HEX        a summary into a list of ROOM numbers, at most 8,192, each 170 before:
                            ok PLACE COUNT N N .., or refused NUMBER PLACE POSITION N N ..; the N are the whole list afterwards
    find HEX                the place of a declaration by the eight bytes of its fingerprint, lowest first: ok PLACE, or refused 20 0 0, or refused 41 0 0
    datum PLACE ROOM HEX    a datum without marker and fingerprint, by the declaration at a place: ok COUNT N N .., or refused NUMBER PLACE POSITION N N ..

`summary`, `find` and `datum` answer such a line for the texts of a set; `Machine` is replay.py's machine with the three lines.

The walk is a plain recursion over trees of rows. A datum has at most 4,096 steps, and a visit takes one or two calls.
"""
import os
import re
import sys

sys.path.insert(0, os.path.dirname(os.path.abspath(__file__)))
import replay
from replay import No

sys.setrecursionlimit(40000)

MARKER, HEADER = b"\xc3\x01", 10
MOST_STEPS, MOST_ROOM = 4096, 8192
INT, LONG = (5, 32), (10, 64)      # groups, bits


# ---- the set: a tree for each declaration, and every definition of the set by its full name

class Node:
    def __init__(self, row):
        self.row, self.kind, self.under = row, row.kind, []

    def data(self):
        """What is under a row and has a datum: aliases have none, and symbols are no rows of the walk."""
        return [n for n in self.under if n.kind not in ("alias", "field-alias", "symbol")]


def tree(rows):
    """The root of a declaration; the row of depth d is under the last one of depth d - 1."""
    last = {}
    for r in rows:
        last[r.depth] = Node(r)
        if r.depth:
            last[r.depth - 1].under.append(last[r.depth])
    return last[0]


class Set:
    def __init__(self, declarations):
        self.roots = [tree(rows) for rows in declarations]
        self.prints = [replay.lowest_first(replay.rabin(replay.canonical(rows))) for rows in declarations]
        self.defined = {}
        for root in self.roots:
            self.enter(root)

    def enter(self, node):
        if node.kind in ("record", "enum", "fixed"):
            self.defined[node.row.string] = node
        for n in node.under:
            self.enter(n)

    def find(self, eight):
        """The earliest place of a fingerprint, None where there is none."""
        return self.prints.index(eight) if eight in self.prints else None


# ---- the walk

class Walk:
    """A datum in `data` from `at` on, by the declaration at a place. `offsets` has what the caller is to get."""

    def __init__(self, known, place, data, at, most=MOST_STEPS):
        self.known, self.place, self.data, self.at, self.most = known, place, data, at, most
        self.steps, self.offsets = 0, []

    def refuse(self, number, position):
        raise No(number, self.place, position)

    def whole(self):
        self.visit(self.known.roots[self.place])
        if self.at < len(self.data):
            self.refuse(46, self.at)
        self.offsets.append(self.at)

    def step(self):
        """45 comes before anything of the item is read, also at the end of input."""
        if self.steps == self.most:
            self.refuse(45, self.at)
        self.steps += 1

    def bytes(self, n):
        if n > len(self.data) - self.at:
            self.refuse(42, len(self.data))
        self.at += n
        return self.data[self.at - n:self.at]

    def number(self, width):
        """Groups of seven bits, the lowest first, the top bit set while more follow; then zig-zag."""
        groups, bits = width
        first, total = self.at, 0
        for i in range(groups):
            b = self.bytes(1)[0]
            total += (b & 127) << (7 * i)
            if b < 128:
                break
        else:
            self.refuse(43, first)
        if total >> bits:
            self.refuse(43, first)
        return total // 2 if total % 2 == 0 else -(total + 1) // 2

    def counted(self):
        """A string's or key's or bytes' length, and so many bytes."""
        first = self.at
        length = self.number(LONG)
        if length < 0:
            self.refuse(43, first)
        self.bytes(length)

    def chosen(self, count):
        """A branch or a symbol out of so many."""
        first = self.at
        n = self.number(INT)
        if not 0 <= n < count:
            self.refuse(44, first)
        return n

    def visit(self, node):
        self.step()
        kind = node.kind
        if kind == "boolean":
            first = self.at
            if self.bytes(1)[0] > 1:
                self.refuse(44, first)
        elif kind == "int":
            self.number(INT)
        elif kind == "long":
            self.number(LONG)
        elif kind == "float":
            self.bytes(4)
        elif kind == "double":
            self.bytes(8)
        elif kind in ("bytes", "string"):
            self.counted()
        elif kind == "fixed":
            self.bytes(node.row.size)
        elif kind == "enum":
            self.chosen(sum(n.kind == "symbol" for n in node.under))
        elif kind == "reference":
            self.visit(self.known.defined[node.row.string])
        elif kind == "record":
            for field in node.data():
                self.visit(field)
        elif kind == "field":
            self.offsets.append(self.at)
            (of,) = node.data()
            self.visit(of)
        elif kind == "union":
            members = node.data()
            n = self.chosen(len(members))
            self.offsets.append(self.at)
            self.visit(members[n])
        elif kind in ("array", "map"):
            (of,) = node.data()
            while self.block(kind == "map", of):
                pass
        else:
            assert kind == "null", kind

    def block(self, keys, of):
        """A block with its header; whether there is another one."""
        self.step()
        count = self.number(LONG)
        if count == 0:
            return False
        size = None
        if count < 0:
            size_at = self.at
            size = self.number(LONG)
        first = self.at
        for _ in range(abs(count)):
            if keys:
                self.counted()
            self.visit(of)
        if size is not None and self.at - first != size:
            self.refuse(57, size_at)
        return True


# ---- the calls, on the declarations of a well-formed set (lists of rows)

def given(out, offsets, place):
    """29, or the offsets in a lent list, whose rest stays."""
    if len(out) < len(offsets):
        raise No(29, place, len(offsets))
    out[:len(offsets)] = offsets
    return len(offsets)


def read_summary(known, s, out):
    """(place, count)"""
    if s[:1] != MARKER[:1]:
        raise No(40, 0, 0)
    if len(s) == 1:
        raise No(40, 0, 1)
    if s[:2] != MARKER:
        raise No(40, 0, 0)
    if len(s) < HEADER:
        raise No(42, 0, len(s))
    place = known.find(s[2:HEADER])
    if place is None:
        raise No(41, 0, 2)
    walk = Walk(known, place, s, HEADER)
    walk.whole()
    return place, given(out, walk.offsets, 0)


def read_datum(known, place, s, out):
    if place >= len(known.roots):
        raise No(21, place, 0)
    walk = Walk(known, place, s, 0)
    walk.whole()
    return given(out, walk.offsets, place)


# ---- the lines

def numbers(out):
    return "".join(" %d" % n for n in out)


def summary_line(known, room, s):
    """`known` is a set, or None where memory is not well formed."""
    out = [replay.UNTOUCHED] * room
    try:
        if known is None:
            raise No(20, 0, 0)
        return "ok %d %d" % read_summary(known, s, out) + numbers(out)
    except No as n:
        return replay.no_line(n) + numbers(out)


def find_line(known, eight):
    if known is None:
        return "refused 20 0 0"
    place = known.find(eight)
    return "refused 41 0 0" if place is None else "ok %d" % place


def datum_line(known, place, room, s):
    out = [replay.UNTOUCHED] * room
    try:
        if known is None:
            raise No(20, place, 0)
        return "ok %d" % read_datum(known, place, s, out) + numbers(out)
    except No as n:
        return replay.no_line(n) + numbers(out)


def set_of(texts):
    """The set that texts make, put at the end of an empty one in turn."""
    m = replay.Machine()
    for place, t in enumerate(texts):
        m.put(place, t)
    return Set(replay.decoded(m.memory))


def summary(texts, room, s):
    return summary_line(set_of(texts), room, s)


def find(texts, eight):
    return find_line(set_of(texts), eight)


def datum(texts, place, room, s):
    return datum_line(set_of(texts), place, room, s)


def steps_of(known, place, s, at=0):
    """How many steps a good datum has, however many."""
    walk = Walk(known, place, s, at, most=None)
    walk.whole()
    return walk.steps


NUMBER, BYTES = "([0-9]+)", "(-|(?:[0-9a-f]{2})+)"
FORMS = [(re.compile(form.replace("N", NUMBER).replace("H", BYTES)), name) for form, name in (("summary N H", "summary"), ("find H", "find"), ("datum N N H", "datum"))]


class Machine(replay.Machine):
    def __init__(self):
        super().__init__()
        self.known = (None, None)

    def set(self):
        """The set that is lent now, None where memory is not well formed."""
        lent = bytes(self.lent())
        if self.known[0] != lent:
            good = replay.wellformed.well_formed(lent)
            self.known = lent, Set(replay.decoded(lent)) if good else None
        return self.known[1]

    def line(self, line):
        for form, name in FORMS:
            m = form.fullmatch(line)
            if m:
                return [self.asked(name, *m.groups())]
        return super().line(line)

    def asked(self, name, *words):
        data = b"" if words[-1] == "-" else bytes.fromhex(words[-1])
        given = [int(w) for w in words[:-1]]
        if any(n > replay.MOST_NUMBER for n in given) or (given and given[-1] > MOST_ROOM) or (name == "find" and len(data) != 8):
            return "what?"
        if name == "summary":
            return summary_line(self.set(), given[0], data)
        if name == "find":
            return find_line(self.set(), data)
        return datum_line(self.set(), given[0], given[1], data)
