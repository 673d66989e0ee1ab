#!/usr/bin/env python3
"""Wrong readings of request A1, each of which the script of summaries.py's answers must tell from the right one.

    python3 docs/vectors/summaries_wrong.py            at the root of the repository; about three minutes

A wrong reading is a changed piece of the text of summaries.py. The script crates/summaries_run/stdin is answered by each of them; the number of lines that
then differ from stdout is printed, with the shortest of them, and a wrong reading that no line shows stops the run. Lines about other things are not asked again.
"""
import os
import sys
import types

sys.path.insert(0, os.path.dirname(os.path.abspath(__file__)))
import summaries

HERE = os.path.dirname(os.path.abspath(__file__))
SOURCE = open(os.path.join(HERE, "summaries.py")).read()

SIZE_END = """        if size is not None and self.at - first != size:
            self.refuse(57, size_at)
"""
WRONG = [
    ("4,095 steps", "MOST_STEPS, MOST_ROOM = 4096", "MOST_STEPS, MOST_ROOM = 4095"),
    ("4,097 steps", "MOST_STEPS, MOST_ROOM = 4096", "MOST_STEPS, MOST_ROOM = 4097"),
    ("a block is skipped by its size", "        first = self.at\n        for _ in range(abs(count)):", "        first = self.at\n        if size is not None and size >= 0:\n            self.bytes(size)\n            return True\n        for _ in range(abs(count)):"),
    ("a block size is not asked", SIZE_END, ""),
    ("57 at the count", SIZE_END, SIZE_END.replace("57, size_at", "57, first_at")),
    ("57 at the block's end", SIZE_END, SIZE_END.replace("57, size_at", "57, self.at")),
    ("57 at the block's first item", SIZE_END, SIZE_END.replace("57, size_at", "57, first")),
    ("57 only where the size is too small", SIZE_END, SIZE_END.replace("!= size", "> size")),
    ("57 only where the size is too large", SIZE_END, SIZE_END.replace("!= size", "< size")),
    ("57 before the items where the size is past the end", "            size = self.number(LONG)\n", "            size = self.number(LONG)\n            if not 0 <= size <= len(self.data) - self.at:\n                self.refuse(57, size_at)\n"),
    ("a negative size is 43", "            size = self.number(LONG)\n", "            size = self.number(LONG)\n            if size < 0:\n                self.refuse(43, size_at)\n"),
    ("a size past the end is 42", "            size = self.number(LONG)\n", "            size = self.number(LONG)\n            if size > len(self.data) - self.at:\n                self.refuse(42, len(self.data))\n"),
    ("no size behind a negative count", "        if count < 0:\n", "        if False:\n"),
    ("an int of ten groups", "INT, LONG = (5, 32), (10, 64)", "INT, LONG = (10, 32), (10, 64)"),
    ("an int of any value", "INT, LONG = (5, 32), (10, 64)", "INT, LONG = (5, 35), (10, 64)"),
    ("a long of any value", "INT, LONG = (5, 32), (10, 64)", "INT, LONG = (5, 32), (10, 70)"),
    ("a long of nine groups", "INT, LONG = (5, 32), (10, 64)", "INT, LONG = (5, 32), (9, 64)"),
    ("an int of 31 bits", "INT, LONG = (5, 32), (10, 64)", "INT, LONG = (5, 31), (10, 64)"),
    ("a long of 63 bits", "INT, LONG = (5, 32), (10, 64)", "INT, LONG = (5, 32), (10, 63)"),
    ("numbers in shortest form alone", "        if total >> bits:", "        if total >> bits or (b == 0 and i):"),
    ("a number too long asks for one group more", "        else:\n            self.refuse(43, first)\n", "        else:\n            self.bytes(1)\n            self.refuse(43, first)\n"),
    ("43 at the number's last byte", "        if total >> bits:\n            self.refuse(43, first)", "        if total >> bits:\n            self.refuse(43, self.at - 1)"),
    ("no zig-zag", "return total // 2 if total % 2 == 0 else -(total + 1) // 2", "return total"),
    ("a branch or symbol is a long", "        n = self.number(INT)\n", "        n = self.number(LONG)\n"),
    ("a branch or symbol below 0 is 43", "        if not 0 <= n < count:", "        if n < 0:\n            self.refuse(43, first)\n        if not 0 <= n < count:"),
    ("one branch or symbol more", "0 <= n < count", "0 <= n <= count"),
    ("44 behind the number", "            self.refuse(44, first)\n        return n", "            self.refuse(44, self.at)\n        return n"),
    ("a length is an int", "        length = self.number(LONG)", "        length = self.number(INT)"),
    ("a length below 0 is none", "        if length < 0:\n            self.refuse(43, first)\n        self.bytes(length)", "        self.bytes(max(0, length))"),
    ("a length below 0 is 42", "        if length < 0:\n            self.refuse(43, first)", "        if length < 0:\n            self.refuse(42, len(self.data))"),
    ("a count is an int", "        count = self.number(LONG)", "        count = self.number(INT)"),
    ("a cut item stands at its first byte", "            self.refuse(42, len(self.data))\n        self.at += n", "            self.refuse(42, self.at)\n        self.at += n"),
    ("booleans are not asked", "if self.bytes(1)[0] > 1:", "if self.bytes(1)[0] > 255:"),
    ("a boolean of 2", "if self.bytes(1)[0] > 1:", "if self.bytes(1)[0] > 2:"),
    ("a reference is no step", "            self.visit(self.known.defined[node.row.string])", "            self.steps -= 1\n            self.visit(self.known.defined[node.row.string])"),
    ("a field is no step", "            self.offsets.append(self.at)\n            (of,) = node.data()", "            self.steps -= 1\n            self.offsets.append(self.at)\n            (of,) = node.data()"),
    ("a union is no step", "            members = node.data()\n", "            members = node.data()\n            self.steps -= 1\n"),
    ("a closing header is no step", "        if count == 0:\n            return False", "        if count == 0:\n            self.steps -= 1\n            return False"),
    ("no header is a step", '        """A block with its header; whether there is another one."""\n        self.step()\n', ""),
    ("a key is a step", "            if keys:\n", "            if keys:\n                self.step()\n"),
    ("45 before the key", "            if keys:\n", "            if keys:\n                self.step()\n                self.steps -= 1\n"),
    ("45 not at the end of input", "        if self.steps == self.most:\n", "        if self.steps == self.most and self.at == len(self.data):\n            self.refuse(42, self.at)\n        if self.steps == self.most:\n"),
    ("aliases are visited", '("alias", "field-alias", "symbol")]', '("field-alias", "symbol")]'),
    ("offsets of items", "                self.counted()\n            self.visit(of)", "                self.counted()\n            self.offsets.append(self.at)\n            self.visit(of)"),
    ("an offset of the root", "        self.visit(self.known.roots[self.place])\n        if", "        self.offsets.append(self.at)\n        self.visit(self.known.roots[self.place])\n        if"),
    ("no offset of a branch", "            self.offsets.append(self.at)\n            self.visit(members[n])", "            self.visit(members[n])"),
    ("the branch's offset is its index's", "            n = self.chosen(len(members))\n            self.offsets.append(self.at)\n", "            self.offsets.append(self.at)\n            n = self.chosen(len(members))\n"),
    ("no offset of the end", "            self.refuse(46, self.at)\n        self.offsets.append(self.at)", "            self.refuse(46, self.at)"),
    ("bytes may be left over", "        if self.at < len(self.data):", "        if False:"),
    ("46 at the end", "            self.refuse(46, self.at)", "            self.refuse(46, len(self.data))"),
    ("29 before 46", "        if self.at < len(self.data):", "        if self.at < len(self.data) and len(self.offsets) < 3:"),
    ("29 with the declaration's place", "return place, given(out, walk.offsets, 0)", "return place, given(out, walk.offsets, place)"),
    ("29 without the end", "raise No(29, place, len(offsets))", "raise No(29, place, len(offsets) - 1)"),
    ("29 one too early", "    if len(out) < len(offsets):", "    if len(out) <= len(offsets):"),
    ("offsets are written before 29", "    if len(out) < len(offsets):\n", "    out[:] = (offsets + out[len(offsets):])[:len(out)]\n    if len(out) < len(offsets):\n"),
    ("the rest of the list is cleared", "    out[:len(offsets)] = offsets\n", "    out[:] = offsets + [0] * (len(out) - len(offsets))\n"),
    ("the last of two places", "return self.prints.index(eight) if eight in self.prints else None", "return max((i for i, p in enumerate(self.prints) if p == eight), default=None)"),
    ("definitions of the same declaration alone", "self.visit(self.known.defined[node.row.string])", "self.visit(self.known.defined[node.row.string]) if node.row.string in self.own() else self.refuse(42, self.at)"),
    ("a cut marker is at 0", "raise No(40, 0, 1)", "raise No(40, 0, 0)"),
    ("a wrong second byte is at 1", "    if s[:2] != MARKER:\n        raise No(40, 0, 0)", "    if s[:2] != MARKER:\n        raise No(40, 0, 1)"),
    ("the second byte is not asked", "    if s[:2] != MARKER:\n        raise No(40, 0, 0)", ""),
    ("a wrong single byte is cut", "    if s[:1] != MARKER[:1]:\n        raise No(40, 0, 0)\n    if len(s) == 1:", "    if len(s) == 1:\n        raise No(40, 0, 1)\n    if s[:1] != MARKER[:1]:\n        raise No(40, 0, 0)\n    if len(s) == 1:"),
    ("a cut fingerprint is 41", "        raise No(42, 0, len(s))", "        raise No(41, 0, 2)"),
    ("a cut fingerprint is 40", "        raise No(42, 0, len(s))", "        raise No(40, 0, len(s))"),
    ("41 at 0", "        raise No(41, 0, 2)", "        raise No(41, 0, 0)"),
    ("highest byte first", "known.find(s[2:HEADER])", "known.find(s[2:HEADER][::-1])"),
    ("seven bytes of the fingerprint", "return self.prints.index(eight) if eight in self.prints else None", "return next((i for i, p in enumerate(self.prints) if p[:7] == eight[:7]), None)"),
    ("20 after 40", "        if known is None:\n            raise No(20, 0, 0)\n        return \"ok %d %d\"", "        if known is None and s[:1] != MARKER[:1]:\n            raise No(40, 0, 0)\n        if known is None:\n            raise No(20, 0, 0)\n        return \"ok %d %d\""),
    ("a datum's 20 has place 0", "            raise No(20, place, 0)", "            raise No(20, 0, 0)"),
    ("a datum's 21 has place 0", "        raise No(21, place, 0)", "        raise No(21, 0, 0)"),
    ("an offset of a summary counts from the datum", "    walk = Walk(known, place, s, HEADER)", "    s = s[HEADER:]\n    walk = Walk(known, place, s, 0)"),
    ("maps are arrays", 'self.block(kind == "map", of)', "self.block(False, of)"),
    ("one block alone", '            while self.block(kind == "map", of):\n                pass', '            self.block(kind == "map", of)'),
    ("a float has 8 bytes", "            self.bytes(4)", "            self.bytes(8)"),
    ("counts of 32 bits", "for _ in range(abs(count)):", "for _ in range(abs(count) % 2 ** 32):"),
    ("-2^63 is no count", "for _ in range(abs(count)):", "for _ in range(abs(count) % 2 ** 63):"),
    ("a fixed of 32 bits", "self.bytes(node.row.size)", "self.bytes(node.row.size % 2 ** 32)"),
    ("strings are UTF-8", "        self.bytes(length)\n\n", "        try:\n            self.bytes(length).decode()\n        except UnicodeDecodeError:\n            self.refuse(43, first)\n\n"),
    ("a length of 32 bits", "        self.bytes(length)\n\n", "        self.bytes(length % 2 ** 32)\n\n"),
]

OWN = '''
    def own(self):
        seen, todo = set(), [self.known.roots[self.place]]
        while todo:
            n = todo.pop()
            if n.kind in ("record", "enum", "fixed"):
                seen.add(n.row.string)
            todo += n.under
        return seen
'''


def changed(old, new):
    assert SOURCE.count(old) >= 1, old
    source = SOURCE.replace(old, new)
    source = source.replace("        self.step()\n        count = ", "        self.step()\n        first_at = self.at\n        count = ")
    source = source.replace("\n    def refuse(self", OWN + "\n    def refuse(self", 1)
    m = types.ModuleType("wrong")
    m.__file__ = os.path.join(HERE, "summaries.py")
    exec(compile(source, "wrong", "exec"), m.__dict__)
    return m


def main():
    lines = open("crates/summaries_run/stdin").read().split("\n")[:-1]
    answers = open("crates/summaries_run/stdout").read().split("\n")[:-1]
    assert len(lines) == len(answers)
    # the sets of the script are made once
    asked, machine, sets, i = [], summaries.Machine(), {}, 0
    for line, answer in zip(lines, answers):
        word = line.split(" ")[0]
        if word not in ("summary", "find", "datum"):
            if word != "digest":
                assert machine.line(line) == [answer]
            continue
        if answer == "what?":
            continue
        lent = bytes(machine.lent())
        if lent not in sets:
            sets[lent] = summaries.replay.decoded(lent) if summaries.replay.wellformed.well_formed(lent) else None
        asked.append((lent, line, answer))
    for label, old, new in WRONG:
        m = changed(old, new)
        known = {lent: None if ds is None else m.Set(ds) for lent, ds in sets.items()}
        wrong = m.Machine()
        differ = []
        for lent, line, answer in asked:
            wrong.set = lambda: known[lent]
            try:
                got = wrong.line(line)[0]
            except Exception as e:
                got = type(e).__name__
            if got != answer:
                differ.append((line, answer, got))
        assert differ, ("no line shows it", label)
        line, answer, got = min(differ, key=lambda d: len(d[0]))
        print("%5d  %s: %s -> %s, not %s" % (len(differ), label, line[:100], answer[:50], got[:50]))


if __name__ == "__main__":
    main()
