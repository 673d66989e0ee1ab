#!/usr/bin/env python3
"""Texts for the scan, and what it must find: crates/scan_run/stdin and stdout.

Run at the root of the repository, with no arguments: python3 docs/vectors/scan.py

The reader below is written from RFC 8259, RFC 3629 and document 01, and from nothing else: a reader by descent that knows at
each place the set of bytes that some JSON text has there. So the first byte outside the set is refusal 2. Every answer is
tried against Python's own json module and its UTF-8 decoder: a text is accepted by both or by neither, the bytes before a
fault can be completed to a text that Python accepts, and with the byte at the fault none of the same completions is accepted;
a bracket that is refused as the 65th stands in 64 open ones and could be closed.
"""
import itertools
import json
import random
import sys

LONGEST, DEEPEST = 32768, 64


class Fault(Exception):
    pass


# ---- the reader

class Reader:
    def __init__(self, text):
        self.text, self.at, self.depth = text, 0, 0

    def peek(self):
        return self.text[self.at] if self.at < len(self.text) else None

    def fail(self, number=2):
        raise Fault(number, self.at)

    def one_of(self, allowed):
        b = self.peek()
        if b is None or b not in allowed:
            self.fail()
        self.at += 1
        return b

    def spaces(self):
        while self.peek() in (0x20, 0x09, 0x0A, 0x0D):
            self.at += 1

    def whole(self):
        self.spaces()
        self.value()
        self.spaces()
        if self.peek() is not None:
            self.fail()

    def value(self):
        b = self.peek()
        if b is None:
            self.fail()
        c = chr(b)
        if c in "[{":
            if self.depth == DEEPEST:
                self.fail(3)
            self.at += 1
            self.depth += 1
            (self.array if c == "[" else self.object)()
            self.depth -= 1
        elif c == '"':
            self.at += 1
            self.string()
        elif c in "-0123456789":
            self.number()
        elif c in "tfn":
            for x in {"t": b"true", "f": b"false", "n": b"null"}[c]:
                self.one_of([x])
        else:
            self.fail()

    def array(self):
        self.spaces()
        if self.peek() == ord("]"):
            self.at += 1
            return
        while True:
            self.spaces()
            self.value()
            self.spaces()
            if self.one_of(b",]") == ord("]"):
                return

    def object(self):
        self.spaces()
        if self.peek() == ord("}"):
            self.at += 1
            return
        while True:
            self.spaces()
            self.one_of(b'"')
            self.string()
            self.spaces()
            self.one_of(b":")
            self.spaces()
            self.value()
            self.spaces()
            if self.one_of(b",}") == ord("}"):
                return

    def digits(self):
        self.one_of(b"0123456789")
        while self.peek() is not None and self.peek() in b"0123456789":
            self.at += 1

    def number(self):
        if self.peek() == ord("-"):
            self.at += 1
        if self.peek() == ord("0"):
            self.at += 1
        else:
            self.one_of(b"123456789")
            while self.peek() is not None and self.peek() in b"0123456789":
                self.at += 1
        if self.peek() == ord("."):
            self.at += 1
            self.digits()
        if self.peek() in (ord("e"), ord("E")):
            self.at += 1
            if self.peek() in (ord("+"), ord("-")):
                self.at += 1
            self.digits()

    HEX = b"0123456789abcdefABCDEF"

    def string(self):
        while True:
            b = self.peek()
            if b is None or b < 0x20:
                self.fail()
            self.at += 1
            if b == 0x22:
                return
            if b == 0x5C:
                self.escape()
            elif b >= 0x80:
                self.at -= 1
                self.utf8()

    def escape(self):
        if self.one_of(b'"\\/bfnrtu') != ord("u"):
            return
        if self.unit(range(0, 0xDC00), range(0xE000, 0x10000)) in range(0xD800, 0xDC00):
            self.one_of(b"\\")
            self.one_of(b"u")
            self.unit(range(0xDC00, 0xE000))

    # four digits whose number lies in one of the ranges: a digit is allowed where some number of the ranges goes on so
    def unit(self, *ranges):
        n = 0
        for place in (3, 2, 1, 0):
            allowed = []
            for x in self.HEX:
                low = (n * 16 + int(chr(x), 16)) << (4 * place)
                high = low + (1 << (4 * place)) - 1
                if any(low < r.stop and r.start <= high for r in ranges):
                    allowed.append(x)
            n = n * 16 + int(chr(self.one_of(allowed)), 16)
        return n

    # RFC 3629, section 3: a character's number, its length by the number, no surrogates, none beyond 10FFFF
    def utf8(self):
        lead = self.peek()
        for bits, low, high, more in ((0xC0, 0x80, 0x7FF, 1), (0xE0, 0x800, 0xFFFF, 2), (0xF0, 0x10000, 0x10FFFF, 3)):
            mark = {1: 0xE0, 2: 0xF0, 3: 0xF8}[more]
            if lead & mark == bits:
                break
        else:
            self.fail()
        ranges = [(low, high)] if more != 2 else [(0x800, 0xD7FF), (0xE000, 0xFFFF)]

        def possible(n, left):
            first, last = n << (6 * left), (n << (6 * left)) + (1 << (6 * left)) - 1
            return any(first <= h and l <= last for l, h in ranges)

        n = lead & ~mark & 0xFF
        if not possible(n, more):
            self.fail()
        self.at += 1
        for left in range(more - 1, -1, -1):
            b = self.peek()
            if b is None or b & 0xC0 != 0x80 or not possible(n * 64 + (b & 0x3F), left):
                self.fail()
            n = n * 64 + (b & 0x3F)
            self.at += 1


def scan(text):
    """None, or (number, position)."""
    if len(text) > LONGEST:
        return 1, LONGEST
    try:
        Reader(text).whole()
    except Fault as f:
        return f.args
    return None


# ---- Python's reading, for comparison

def surrogates(v):
    if isinstance(v, str):
        return any(0xD800 <= ord(c) < 0xE000 for c in v)
    if isinstance(v, list):
        return any(surrogates(x) for x in v)
    return False


def python_accepts(text):
    def bad(name):
        raise ValueError(name)

    try:
        v = json.loads(text.decode("utf-8"), parse_constant=bad, parse_int=len, parse_float=len,
                       object_pairs_hook=lambda ps: [x for p in ps for x in p])
    except (ValueError, RecursionError):
        return False
    return not surrogates(v)


# what may complete a text: the rest of a string or a number or a word, then what closes the brackets
INSIDE = [b"", b'"', b'0"', b'00"', b'000"', b'0000"', b'\\udc00"', b'0\\udc00"', b'00\\udc00"', b'c00"', b'dc00"', b'udc00"', b'n"',
          b'u0000"', b"0", b"ue", b"rue", b"e", b"alse", b"lse", b"se", b"ull", b"ll", b"l", b'""', b'\x80"', b'\x80\x80"', b'\x80\x80\x80"',
          b'\xa0\x80"', b'\x90\x80\x80"', b'\xbf"', b'\xbf\x80"']


# the brackets that a beginning of a text leaves open, by reading strings over
def closers(text):
    open_, inside, skip = [], False, False
    for b in text:
        c = chr(b)
        if skip:
            skip = False
        elif inside:
            skip, inside = c == "\\", c != '"'
        elif c == '"':
            inside = True
        elif c in "[{":
            open_.append("]" if c == "[" else "}")
        elif c in "]}" and open_:
            open_.pop()
    return "".join(reversed(open_)).encode()


def completions(text):
    rest = closers(text)
    for x in INSIDE:
        for y in (b"", b":0", b'"":0', b"0"):
            yield x + y + rest


def compare(text, found):
    p = found[1] if found else None
    if found and found[0] == 3:
        assert text[p] in b"[{" and len(closers(text[:p])) == DEEPEST, text
        assert any(python_accepts(text[:p + 1] + c) for c in completions(text[:p + 1])), ("no completion", text[:p + 1])
        return
    assert python_accepts(text) == (found is None), (text, found)
    if found:
        assert any(python_accepts(text[:p] + c) for c in completions(text[:p])), ("no completion", text[:p])
        if p < len(text):
            assert not any(python_accepts(text[:p + 1] + c) for c in completions(text[:p + 1])), ("completion", text[:p + 1])


# ---- the texts

def string(x):
    return b'"' + x + b'"'


# a beginning for each place of a text at which another set of bytes may come
PLACES = [
    b"", b" ", b"[", b"[ ", b"[1", b"[1 ", b"[1,", b"[1, ", b"{", b"{ ", b'{"k"', b'{"k" ', b'{"k":', b'{"k": ', b'{"k":1', b'{"k":"" ', b'{"k":"",', b'{"k":"", ',
    b"1 ", b'""', b"[]", b"t", b"tr", b"tru", b"true", b"f", b"fa", b"fal", b"fals", b"n", b"nu", b"nul",
    b"-", b"0", b"-0", b"7", b"1.", b"1.2", b"0.0", b"1e", b"1E", b"1e+", b"1e-", b"1e5",
    b'"', b'"a', b'{"', b'"\\', b'"\\u', b'"\\u0', b'"\\u00', b'"\\u000', b'"\\uD', b'"\\ud', b'"\\ud7', b'"\\ud8', b'"\\uDB0', b'"\\ud800', b'"\\ud800\\', b'"\\ud800\\u',
    b'"\\ud800\\ud', b'"\\ud800\\uDc', b'"\\ud800\\udC0', b'"\xc2', b'"\xdf', b'"\xe0', b'"\xe0\xa0', b'"\xe1', b'"\xe1\x80', b'"\xed', b'"\xed\x9f', b'"\xef', b'"\xef\xbf',
    b'"\xf0', b'"\xf0\x90', b'"\xf0\x90\x80', b'"\xf1', b'"\xf3\x80', b'"\xf4', b'"\xf4\x8f', b'"\xf4\x8f\xbf',
]

# the bytes at the edges of the classes that the grammar has
EDGES = sorted({0, 8, 9, 10, 11, 12, 13, 14, 31, 32, 33, 34, 35, 42, 43, 44, 45, 46, 47, 48, 49, 50, 55, 56, 57, 58, 59, 64, 65, 66, 67, 68, 69, 70, 71, 90, 91, 92, 93, 94,
                96, 97, 98, 99, 100, 101, 102, 103, 108, 110, 114, 115, 116, 117, 122, 123, 124, 125, 126, 127, 128, 143, 144, 159, 160, 191, 192, 193, 194, 223, 224, 225,
                236, 237, 238, 239, 240, 241, 243, 244, 245, 247, 248, 255})

FULL = (b' \t\r\n{ "a\\"\\\\\\/\\b\\f\\n\\r\\t" : [ true , false,null ,-0 , 10.250e+3,1E-2, 0.5 , 7 ] ,"\\u00e9\\uD83D\\ude00\\uFFFF\\ud7ff":{"":{} , "n":[[ ],[{}]]},\n'
        b'"\xc3\xa9\xe0\xa4\x85\xed\x9f\xbf\xee\x80\x80\xef\xbf\xbf\xf0\x9f\x98\x80\xf4\x8f\xbf\xbf\x7f":"x"} \n')


def nested(kinds):
    """The opening brackets for a string of [ and {, and what closes them."""
    opening = b"".join(b"[" if k == "[" else b'{"":' for k in kinds)
    return opening, b"".join(b"]" if k == "[" else b"}" for k in reversed(kinds))


def mixtures(n):
    yield "[" * n
    yield "{" * n
    yield ("[{" * n)[:n]
    yield ("{[" * n)[:n]
    yield "[" * (n - 1) + "{"
    yield "{" * (n - 1) + "["
    yield "{" + "[" * (n - 1)
    yield "[" + "{" * (n - 1)
    rng = random.Random(n)
    for _ in range(4):
        yield "".join(rng.choice("[{") for _ in range(n))


def texts():
    yield from (b"", b" ", b" \t\n\r", b"\xef\xbb\xbf1", b"\xff\xfe1\x00", b"null", b" null ", b"nul", b"nulL", b"NaN", b"Infinity", b"-Infinity", b"'a'", b"1 2", b"[1]2", b"//", b"\x00")
    # each place, and after it nothing, or a byte at the edge of a class
    for place in PLACES:
        yield place
        for b in EDGES:
            yield place + bytes([b])
    # every truncation of a text that has all features
    yield from (FULL[:i] for i in range(len(FULL) + 1))
    # numbers
    for s in ("0", "-0", "00", "01", "-01", "-", "+1", "1.", ".1", "1.e1", "1e", "1e+", "1E-", "1e1.5", "0e0", "0.0E+00", "12345678901234567890123456789", "1e400", "-1.5e-7", "0x1", "1_0", "--1"):
        yield s.encode()
        yield b"[" + s.encode() + b"]"
    # every boundary of UTF-8: characters, and sequences that are none
    for n in (0x7F, 0x80, 0x7FF, 0x800, 0xFFF, 0x1000, 0xCFFF, 0xD000, 0xD7FF, 0xE000, 0xFFFD, 0xFFFE, 0xFFFF, 0x10000, 0x3FFFF, 0x40000, 0xFFFFF, 0x100000, 0x10FFFF):
        yield string(chr(n).encode())
        for i in range(1, len(chr(n).encode())):
            yield string(chr(n).encode()[:i])
    seconds = (0x7F, 0x80, 0x8F, 0x90, 0x9F, 0xA0, 0xBF, 0xC0)
    for lead in (0x80, 0xBF, 0xC0, 0xC1, 0xC2, 0xDF, 0xE0, 0xE1, 0xEC, 0xED, 0xEE, 0xEF, 0xF0, 0xF1, 0xF3, 0xF4, 0xF5, 0xF7, 0xF8, 0xFF):
        more = 1 if lead < 0xE0 else 2 if lead < 0xF0 else 3
        for second in seconds:
            for tails in itertools.product((0x7F, 0x80, 0xBF, 0xC0), repeat=more - 1):
                yield string(bytes((lead, second) + tails))
    # every boundary of surrogates, alone and in pairs
    units = ("d7ff", "D800", "dbff", "DbFf", "dc00", "DFFF", "dFfF", "e000", "0000", "ffff")
    for a in units:
        yield string(b"\\u" + a.encode())
        for b in units:
            yield string(b"\\u" + a.encode() + b"\\u" + b.encode())
        for b in (b"x", b"\\n", b"\\U", b"\\udc0", b"\\udc0g", b"\xf0\x90\x80\x80"):
            yield string(b"\\u" + a.encode() + b)
    # nesting 63, 64, 65: the innermost bracket empty, a value in it, and a bracket where none may stand
    for n in (63, 64, 65):
        for kinds in mixtures(n):
            opening, closing = nested(kinds)
            yield opening + b"1" + closing
            yield opening + closing
            yield opening + b"1"
            yield opening
            yield opening + b"1," + b"[" + closing
            yield opening + b"1[" + closing
            yield opening + b"1{" + closing
            yield opening + b" [" + closing
            yield opening + b" {" + closing
    # the 65th bracket behind values, and behind brackets that were closed
    deep, closing = nested("[" * 63)
    for s in (b"[],[]", b"[[]]", b"[],[[]]", b'{"":[]}', b'[],{"":{}}', b'{"":1},{"" [', b'{[', b'{{', b'[]]', b"[1 [", b'["",{', b'{"":0,[', b'{"":0,"":['):
        yield deep + s + closing
        yield deep + s
    # the longest text, one that is a byte longer, and one more with a fault that is not looked at
    yield string(b"a" * (LONGEST - 2))
    yield string(b"a" * (LONGEST - 1))
    yield b"x" + b" " * LONGEST
    # texts of a small alphabet, by a generator of fixed seed
    rng = random.Random(8259)
    for _ in range(600):
        yield bytes(rng.choice(b'[]{}",:01-.eE+tfn \\u/d8c\xc3\xa9') for _ in range(rng.randint(1, 9)))
    for _ in range(120):
        t = bytearray(FULL)
        for _ in range(rng.randint(1, 3)):
            i = rng.randrange(len(t))
            t[i:i + rng.randint(0, 2)] = bytes(rng.choice(FULL) for _ in range(rng.randint(0, 2)))
        yield bytes(t)


def main():
    seen, lines, answers, count = set(), [], [], {}
    for t in texts():
        if t in seen:
            continue
        seen.add(t)
        found = scan(t)
        if len(t) <= 2000:
            compare(t, found)
        lines.append(t.hex() or "-")
        answers.append("ok" if found is None else "refused %d %d" % found)
        count[found[0] if found else "ok"] = count.get(found[0] if found else "ok", 0) + 1
    open("crates/scan_run/stdin", "w").write("\n".join(lines) + "\n")
    open("crates/scan_run/stdout", "w").write("\n".join(answers) + "\n")
    print(len(lines), "texts:", count, file=sys.stderr)


if __name__ == "__main__":
    main()
