#!/usr/bin/env python3
"""Does a field's default fit its type? A second reading of the table in request A6 of 02, over the text that is kept.

The value is read by Python's json. A number stays the token that it is, and of equal keys the last counts. Value and type are walked
together; each pair of a value and a row is decided once.
"""
import json
import re

WHOLE = re.compile(r"-?[0-9]+")
DEFINITIONS = ("record", "enum", "fixed")


class Number(str):
    """A number as it is written."""


def value_of(text):
    """The value of a text that is one JSON value."""
    return json.loads(text.decode("utf-8"), parse_int=Number, parse_float=Number, object_pairs_hook=dict)


def whole(v, bits):
    """A whole number of so many bits: no fraction, no exponent."""
    return isinstance(v, Number) and WHOLE.fullmatch(v) is not None and -2 ** (bits - 1) <= int(v) < 2 ** (bits - 1)


def is_string(v):
    return isinstance(v, str) and not isinstance(v, Number)


def is_bytes(v):
    """A string whose code points are bytes."""
    return is_string(v) and all(ord(c) < 256 for c in v)


PLAIN = {
    "null": lambda v: v is None,
    "boolean": lambda v: v is True or v is False,
    "int": lambda v: whole(v, 32),
    "long": lambda v: whole(v, 64),
    "float": lambda v: isinstance(v, Number),
    "double": lambda v: isinstance(v, Number),
    "string": is_string,
    "bytes": is_bytes,
}


class Types:
    """Rows of one declaration or of several, one behind the other, each as (kind, depth, string, size, default): one preorder tree for
    each declaration, and each reference defined."""

    def __init__(self, rows):
        self.rows, self.parts, self.defined = list(rows), [], {}
        path = []
        for i, (kind, depth, string, _, _) in enumerate(self.rows):
            del path[depth:]
            if path:
                self.parts[path[-1]].append(i)
            path.append(i)
            self.parts.append([])
            if kind in DEFINITIONS:
                self.defined[string] = i

    def part(self, i, *kinds):
        """The parts of a row that are of these kinds; without kinds those that are no aliases."""
        return [p for p in self.parts[i] if (self.rows[p][0] in kinds if kinds else "alias" not in self.rows[p][0])]

    def type_of(self, field):
        """A field's type is its last part."""
        return self.parts[field][-1]

    def default_fits(self, field):
        """Does the default of a field fit its type?"""
        value = value_of(self.rows[field][4])
        return self.fits(value, self.type_of(field), {})

    def fits(self, v, i, known):
        # the whole value lives as long as known does, so its parts are told apart by where they are
        key = id(v), i
        if key not in known:
            known[key] = self.decided(v, i, known)
        return known[key]

    def decided(self, v, i, known):
        kind, _, string, size, _ = self.rows[i]
        if kind in PLAIN:
            return PLAIN[kind](v)
        if kind == "fixed":
            return is_bytes(v) and len(v) == size
        if kind == "enum":
            return is_string(v) and v.encode("utf-8") in [self.rows[s][2] for s in self.part(i, "symbol")]
        if kind == "array":
            return isinstance(v, list) and all(self.fits(x, self.part(i)[0], known) for x in v)
        if kind == "map":
            return isinstance(v, dict) and all(self.fits(x, self.part(i)[0], known) for x in v.values())
        if kind == "record":
            return isinstance(v, dict) and all(self.field_fits(v, f, known) for f in self.part(i, "field"))
        if kind == "union":
            return any(self.fits(v, m, known) for m in self.part(i))
        assert kind == "reference"
        return self.fits(v, self.defined[string], known)

    def field_fits(self, v, f, known):
        """The member of that name fits, or there is none and the field has a default, whatever it is."""
        _, _, name, _, default = self.rows[f]
        name = name.decode("ascii")
        return self.fits(v[name], self.type_of(f), known) if name in v else default != b""
