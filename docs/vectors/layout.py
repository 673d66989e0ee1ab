#!/usr/bin/env python3
"""Writes a set's memory from docs/LAYOUT.md alone, and prints it in hex."""
import struct

NUMBER = dict(null=1, boolean=2, int=3, long=4, float=5, double=6, bytes=7, string=8, reference=16, array=24, map=25,
              union=26, record=32, enum=33, fixed=34, field=40, symbol=41, alias=48, field_alias=49)


def row(kind, depth, position, string=b"", size=0, note=0, precision=0, scale=0, default=b""):
    return kind, depth, position, string, size, note, precision, scale, default


SET = [
    [
        row("record", 0, 26, b"a.R"),
        row("alias", 1, 41, b"a.Old"),
        row("field", 1, 300, b"x"),
        row("field_alias", 2, 310, b"y"),
        row("int", 2, 320),
        row("field", 1, 400, b"u", size=773, default=b"[ null ]"),
        row("union", 2, 410),
        row("null", 3, 411),
        row("boolean", 3, 418),
        row("long", 3, 428),
        row("float", 3, 435),
        row("double", 3, 443),
        row("bytes", 3, 460, note=1, precision=0x0102030405060708, scale=0x0102),
        row("string", 3, 500),
        row("array", 3, 520),
        row("map", 4, 540),
        row("fixed", 5, 560, b"a.F", size=2**32 + 5, note=6),
        row("reference", 3, 600, b"a.R"),
    ],
    [
        row("enum", 0, 32767, b"E"),
        row("symbol", 1, 25, b"NORTH"),
        row("symbol", 513, 32766, b"SOUTH"),
    ],
]


def memory(declarations):
    header = struct.pack("<H", len(declarations)) + b"".join(struct.pack("<H", len(d)) for d in declarations)
    rows, strings = b"", b""
    for kind, depth, position, string, size, note, precision, scale, default in (r for d in declarations for r in d):
        rows += struct.pack("<BBHHBBHQQQ", NUMBER[kind], note, depth, position, len(string), len(default), len(strings), size, precision, scale)
        strings += string + default
    return header.ljust(66, b"\0") + rows.ljust(34 * 1024, b"\0") + strings.ljust(16384, b"\0")


def read(m):
    """The set that m holds, or None where m says something that no set can."""
    count, = struct.unpack_from("<H", m, 0)
    if count > 32:
        return None
    sizes = struct.unpack_from(f"<{count}H", m, 2)
    if sum(sizes) > 1024:
        return None
    names = {n: k for k, n in NUMBER.items()}
    declarations, at = [], 66
    for n in sizes:
        declarations.append([])
        for _ in range(n):
            kind, note, depth, position, length, more, start, size, precision, scale = struct.unpack_from("<BBHHBBHQQQ", m, at)
            if kind not in names or start + length + more > 16384:
                return None
            end = 34882 + start + length
            string, default = m[34882 + start:end], m[end:end + more]
            declarations[-1].append(row(names[kind], depth, position, string, size, note, precision, scale, default))
            at += 34
    return declarations


def is_encoding(m):
    declarations = read(m)
    return declarations is not None and memory(declarations) == m


POKES = [(0, 3), (2, 17), (65, 128), (66, 9), (72, 4), (74, 1), (73, 1), (243, 7), (242, 2), (780, 1), (34881, 1), (51265, 255), (66, 40), (69, 5), (34882, 255), (34900, 255)]


def main():
    m = memory(SET)
    assert len(m) == 51266
    cuts = [0] + list(range(32, len(m), 34)) + [len(m)]
    for a, b in zip(cuts, cuts[1:]):
        if any(m[a:b]):
            print(f"{a:04x} {m[a:b].hex()}")
    for at, byte in POKES:
        print(f"{at:04x}{byte:02x} {'yes' if is_encoding(m[:at] + bytes([byte]) + m[at + 1:]) else 'no'}")


main()
