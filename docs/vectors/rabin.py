#!/usr/bin/env python3
"""Fingerprints by the fingerprint64 of the Avro 1.12.0 specification ("Schema Fingerprints"), one line each: signed number, eight bytes
lowest first. The inputs are those of crates/rabin_run. Python's numbers have no width, so the state is kept below 2^64 by hand.

    python3 docs/vectors/rabin.py > crates/rabin_run/stdout
"""
EMPTY = 0xC15D213AA4D7A795


def table_entry(i):
    fp = i
    for _ in range(8):
        fp = (fp >> 1) ^ (EMPTY if fp & 1 else 0)
    return fp


TABLE = [table_entry(i) for i in range(256)]


def fingerprint64(buf):
    fp = EMPTY
    for b in buf:
        fp = (fp >> 8) ^ TABLE[(fp ^ b) & 0xFF]
    return fp


inputs = [b"", b"\x95", b"\x15", b"hello world"]
inputs += [bytes([b]) for b in range(256)]
inputs += [bytes(i % 256 for i in range(1000))]
for buf in inputs:
    fp = fingerprint64(buf)
    print(fp - 2**64 if fp >> 63 else fp, fp.to_bytes(8, "little").hex())
