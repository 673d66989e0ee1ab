#!/usr/bin/env python3
"""Answers a script of calls on a set, by a second reading of document 01.

    python3 docs/vectors/replay.py < script > answers

Written from document 01 (its sections Rabin, Numbers returned, The set and Canonical text), requests A4 and A6 of 02 and docs/LAYOUT.md. Texts
are read by declaration.py; whether memory is a well-formed set is decided by wellformed.py, whether a default fits by fitting.py. The lines of
a script:

    memory N                    the calls are lent the first N bytes of memory from now on; ok
    fill BYTE                   every byte of memory is set to BYTE; ok
    poke AT HEX                 bytes are written into memory at AT; ok
    open                        ok DECLARATIONS ROWS BYTES, or refused NUMBER PLACE POSITION
    put PLACE HEX               the same
    name PLACE ROW              ok HEX, or refused ..
    canonical PLACE OFFSET ROOM ok LENGTH HEX, or refused .. HEX: into a buffer of ROOM bytes, each 170 before; HEX is all of it
    fingerprint PLACE           ok SIGNED HEX, or refused ..
    rows PLACE                  row KIND DEPTH POSITION SIZE NOTE PRECISION SCALE HEX AT HEX for each row, and end; or refused .. The last two
                                words are the position of a field's default and its text, 0 and - where there is none
    scan HEX                    ok, or refused NUMBER 0 POSITION
    digest                      digest HEX: the fingerprint of the bytes lent

Numbers are decimal and below 2^64, bytes are in lowercase hexadecimal digits, no bytes are `-`. Any other line is answered `what?`.
"""
import os
import re
import struct
import sys

sys.path.insert(0, os.path.dirname(os.path.abspath(__file__)))
sys.setrecursionlimit(20000)
import declaration
import fitting
import scan
import wellformed
from declaration import Refused, Row, string_bytes

LENGTH, MOST_DECLARATIONS = 51266, 32
MEMORY, MOST_ROOM, UNTOUCHED = LENGTH + 64, 131072, 170
MOST_NUMBER = 2 ** 64 - 1


# ---- Rabin

EMPTY = 0xC15D213AA4D7A795


def entry(i):
    for _ in range(8):
        i = (i >> 1) ^ (EMPTY if i & 1 else 0)
    return i


TABLE = [entry(i) for i in range(256)]


def rabin(data):
    """The state as an unsigned number."""
    state, table = EMPTY, TABLE
    for b in data:
        state = (state >> 8) ^ table[(state ^ b) & 255]
    return state


def signed(state):
    return state - (1 << 64) if state >> 63 else state


def lowest_first(state):
    return state.to_bytes(8, "little")


assert TABLE[0] == 0 and TABLE[128] == EMPTY and signed(EMPTY) == -4513414715797952619
assert rabin(b"\x95") == 0x00C15D213AA4D7A7 and rabin(b"\x15") == 0xC19C7C1B9E737032
assert signed(rabin(b"hello world")) == 2906301498937520992 and lowest_first(rabin(b"hello world")).hex() == "60335ba6d0415528"


# ---- memory: docs/LAYOUT.md

NUMBERS = {"null": 1, "boolean": 2, "int": 3, "long": 4, "float": 5, "double": 6, "bytes": 7, "string": 8, "reference": 16, "array": 24, "map": 25, "union": 26,
           "record": 32, "enum": 33, "fixed": 34, "field": 40, "symbol": 41, "alias": 48, "field-alias": 49}
KINDS = {v: k for k, v in NUMBERS.items()}


def encoded(declarations):
    header = struct.pack("<H", len(declarations)) + b"".join(struct.pack("<H", len(d)) for d in declarations)
    rows, strings = b"", b""
    for r in (r for d in declarations for r in d):
        assert r.size == 0 if r.kind == "field" else r.at == 0
        rows += struct.pack("<BBHHBBHQQQ", NUMBERS[r.kind], r.note, r.depth, r.position, len(r.string), len(r.default), len(strings), r.size + r.at, r.precision, r.scale)
        strings += r.string + r.default
    return header.ljust(66, b"\0") + rows.ljust(34816, b"\0") + strings.ljust(16384, b"\0")


def decoded(memory):
    """The declarations of a well-formed memory, each a list of rows."""
    counts = struct.unpack_from("<33H", memory)
    out, i = [], 0
    for count in counts[1:1 + counts[0]]:
        rows = []
        for _ in range(count):
            kind, note, depth, position, length, more, start, size, precision, scale = struct.unpack_from("<BBHHBBHQQQ", memory, 66 + 34 * i)
            start += 34882
            string, default = bytes(memory[start:start + length]), bytes(memory[start + length:start + length + more])
            size, at = (0, size) if KINDS[kind] == "field" else (size, 0)
            rows.append(Row(KINDS[kind], depth, position, string, size, note, precision, scale, at, default))
            i += 1
        out.append(rows)
    return out


# ---- The set

class No(Exception):
    """A refusal: number, place, position."""


DEFINITIONS = ("record", "enum", "fixed")


def check_from(declarations, place):
    """23 to 26 and then 47 for each declaration from the place on, in turn."""
    for k in range(place, len(declarations)):
        so_far = [r for d in declarations[:k + 1] for r in d]
        if len(so_far) > declaration.MOST_ROWS:
            raise No(23, k, 0)
        if string_bytes(so_far) > declaration.MOST_BYTES:
            raise No(24, k, 0)
        defined = {r.string for d in declarations[:k] for r in d if r.kind in DEFINITIONS}
        for r in declarations[k]:
            if r.kind in DEFINITIONS:
                if r.string in defined:
                    raise No(25, k, r.position)
                defined.add(r.string)
            elif r.kind == "reference" and r.string not in defined:
                raise No(26, k, r.position)
        if any(r.default for r in declarations[k]):
            first = len(so_far) - len(declarations[k])
            types = fitting.Types((r.kind, r.depth, r.string, r.size, r.default) for r in so_far)
            for i, r in enumerate(declarations[k], first):
                if r.default and not types.default_fits(i):
                    raise No(47, k, r.at)


def counts(declarations):
    rows = [r for d in declarations for r in d]
    return len(declarations), len(rows), string_bytes(rows)


def rows_of_text(text, place):
    try:
        return declaration.declaration(text)
    except Refused as r:
        raise No(r.args[0], place, r.args[1])


def well_formed(memory, place):
    """The declarations of a memory, or 20."""
    if not wellformed.well_formed(memory):
        raise No(20, place, 0)
    return decoded(memory)


def at_place(memory, place):
    """The rows of a declaration: 20, then 21."""
    ds = well_formed(memory, place)
    if place >= len(ds):
        raise No(21, place, 0)
    return ds[place]


# ---- Canonical text

def canonical(rows):
    text, rest = canonical_of(rows, 0)
    assert rest == len(rows)
    return text


def canonical_of(rows, i):
    """The canonical text of the schema whose first row is number i, and the number of the row behind it."""
    r, inner = rows[i], rows[i].depth + 1
    i += 1
    while r.kind != "field" and i < len(rows) and rows[i].depth == inner and rows[i].kind == "alias":
        i += 1

    def parts():
        nonlocal i
        while i < len(rows) and rows[i].depth == inner:
            yield rows[i]

    if r.kind == "reference":
        return quoted(r.string), i
    if r.kind == "union":
        out = []
        for _ in parts():
            text, i = canonical_of(rows, i)
            out.append(text)
        return b"[" + b",".join(out) + b"]", i
    if r.kind in ("array", "map"):
        text, i = canonical_of(rows, i)
        return b'{"type":"' + r.kind.encode() + (b'","items":' if r.kind == "array" else b'","values":') + text + b"}", i
    if r.kind not in DEFINITIONS:
        return quoted(r.kind.encode()), i
    start = b'{"name":' + quoted(r.string) + b',"type":"' + r.kind.encode() + b'",'
    if r.kind == "fixed":
        return start + b'"size":%d}' % r.size, i
    out = []
    if r.kind == "enum":
        for s in parts():
            out.append(quoted(s.string))
            i += 1
        return start + b'"symbols":[' + b",".join(out) + b"]}", i
    for f in parts():
        i += 1
        while rows[i].kind == "field-alias":
            i += 1
        text, i = canonical_of(rows, i)
        out.append(b'{"name":' + quoted(f.string) + b',"type":' + text + b"}")
    return start + b'"fields":[' + b",".join(out) + b"]}", i


def quoted(s):
    return b'"' + s + b'"'


# ---- the script

def hexed(b):
    return bytes(b).hex() or "-"


def no_line(n):
    return "refused %d %d %d" % n.args


class Machine:
    def __init__(self):
        self.memory, self.n, self.cache = bytearray(MEMORY), LENGTH, (None, None)

    def lent(self):
        return self.memory[:self.n]

    # the calls

    def open(self):
        if self.n != LENGTH:
            raise No(20, 0, 0)
        self.memory[:LENGTH] = bytes(LENGTH)
        return (0, 0, 0)

    def put(self, place, text):
        """The text's rows become the declaration at the place; the place equal to the count is a new one."""
        ds = well_formed(self.lent(), place)
        if place > len(ds):
            raise No(21, place, 0)
        if place == len(ds) == MOST_DECLARATIONS:
            raise No(22, MOST_DECLARATIONS, 0)
        after = ds[:place] + [rows_of_text(text, place)] + ds[place + 1:]
        check_from(after, place)
        self.memory[:LENGTH] = encoded(after)
        return counts(after)

    def name(self, place, row):
        rows = at_place(self.lent(), place)
        if row >= len(rows) or rows[row].kind not in DEFINITIONS + ("alias", "reference"):
            raise No(21, place, 0)
        return rows[row].string

    def canonical(self, place, offset, buffer):
        text = canonical(at_place(self.lent(), place))
        if offset > len(buffer) or len(buffer) - offset < len(text):
            raise No(29, place, len(text))
        buffer[offset:offset + len(text)] = text
        return len(text)

    def fingerprint(self, place):
        return rabin(canonical(at_place(self.lent(), place)))

    def digest(self):
        lent = bytes(self.lent())
        if self.cache[0] != lent:
            self.cache = lent, rabin(lent)
        return self.cache[1]

    # the lines

    def line(self, line):
        """The answers to a line, a list."""
        words = line.split(" ")
        f = LINES.get(words[0])
        if f is None or len(words) != 1 + len(f[0]):
            return ["what?"]
        given = []
        for kind, w in zip(f[0], words[1:]):
            if kind == "n" and re.fullmatch("[0-9]+", w) and int(w) <= MOST_NUMBER:
                given.append(int(w))
            elif kind == "h" and (w == "-" or re.fullmatch("([0-9a-f]{2})+", w)):
                given.append(b"" if w == "-" else bytes.fromhex(w))
            else:
                return ["what?"]
        try:
            return f[1](self, *given)
        except No as n:
            return [no_line(n)]

    def do_memory(self, n):
        if n > MEMORY:
            return ["what?"]
        self.n = n
        return ["ok"]

    def do_fill(self, b):
        if b > 255:
            return ["what?"]
        self.memory[:] = bytes([b]) * MEMORY
        return ["ok"]

    def do_poke(self, at, data):
        if at + len(data) > MEMORY:
            return ["what?"]
        self.memory[at:at + len(data)] = data
        return ["ok"]

    def do_open(self):
        return ["ok %d %d %d" % self.open()]

    def do_put(self, place, text):
        return ["ok %d %d %d" % self.put(place, text)]

    def do_name(self, place, row):
        return ["ok " + hexed(self.name(place, row))]

    def do_canonical(self, place, offset, room):
        if room > MOST_ROOM:
            return ["what?"]
        buffer = bytearray([UNTOUCHED]) * room
        try:
            return ["ok %d %s" % (self.canonical(place, offset, buffer), hexed(buffer))]
        except No as n:
            return [no_line(n) + " " + hexed(buffer)]

    def do_fingerprint(self, place):
        state = self.fingerprint(place)
        return ["ok %d %s" % (signed(state), lowest_first(state).hex())]

    def do_rows(self, place):
        return [declaration.row_line(r) for r in at_place(self.lent(), place)] + ["end"]

    def do_scan(self, text):
        found = scan.scan(text)
        return ["ok" if found is None else "refused %d 0 %d" % found]

    def do_digest(self):
        return ["digest " + lowest_first(self.digest()).hex()]


LINES = {"memory": ("n", Machine.do_memory), "fill": ("n", Machine.do_fill), "poke": ("nh", Machine.do_poke), "open": ("", Machine.do_open), "put": ("nh", Machine.do_put),
         "name": ("nn", Machine.do_name), "canonical": ("nnn", Machine.do_canonical), "fingerprint": ("n", Machine.do_fingerprint), "rows": ("n", Machine.do_rows),
         "scan": ("h", Machine.do_scan), "digest": ("", Machine.do_digest)}


def main():
    machine = Machine()
    for line in sys.stdin.read().split("\n")[:-1]:
        for answer in machine.line(line):
            print(answer)


if __name__ == "__main__":
    main()
