#!/usr/bin/env python3
"""The list that crates/name_run must write, from document 01's "Names" by Python's own regular expressions.

    python3 docs/vectors/names.py > crates/name_run/stdout

A line for every string of 0 to 4 bytes over a 1 _ . C3 A9: the string; whether it is a simple name, a name, a namespace;
its full names in the namespaces "", "n" and "n.m". Bytes in hex, none as `-`, and so is a full name of what is no name.
"""
import itertools
import re

SIMPLE = rb"[A-Za-z_][A-Za-z0-9_]*"
DOTTED = SIMPLE + rb"(?:\." + SIMPLE + rb")*"


def is_simple(s):
    return re.fullmatch(SIMPLE, s) is not None


def is_name(s):
    return re.fullmatch(rb"\.?" + SIMPLE + rb"|" + DOTTED, s) is not None


def is_namespace(s):
    return re.fullmatch(rb"(?:" + DOTTED + rb")?", s) is not None


def full_name(namespace, name):
    if name.startswith(b"."):
        return name[1:]
    return b".".join([namespace, name]) if namespace and name.count(b".") == 0 else name


def hexed(s):
    return s.hex() or "-"


for n in range(5):
    for symbols in itertools.product((0x61, 0x31, 0x5F, 0x2E, 0xC3, 0xA9), repeat=n):
        s = bytes(symbols)
        flags = [str(int(test(s))) for test in (is_simple, is_name, is_namespace)]
        fulls = [hexed(full_name(ns, s)) if is_name(s) else "-" for ns in (b"", b"n", b"n.m")]
        print(hexed(s), *flags, *fulls)
