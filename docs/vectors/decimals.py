#!/usr/bin/env python3
"""Which precisions of a decimal over `fixed` Apache Avro's own readers take, beside the limits of request A10.

    python3 docs/vectors/decimals.py          at the root of the repository

Java is Debian's libavro-java 1.8.2 (Decimals.java), Python Debian's python3-avro 1.11.1, run by /usr/bin/python3. For each size from
0 to 20 and some higher ones: is a decimal of precision 1 to 320 taken? It prints a line for each size, the largest precision that each
takes, and stops where one of the sizes from 0 to 16 is not as the reader of declaration.py has it, or where a smaller precision than
the largest is not taken. Then for single texts what each says, `PRECISION SCALE`, `plain` where there is no decimal, or `refused`.
"""
import os
import subprocess
import sys

sys.path.insert(0, os.path.dirname(os.path.abspath(__file__)))
import canonical
import declaration

SIZES = list(range(21)) + [32, 64, 128, 129, 256, 268435456, 268435457, 536870913, 2147483647]
PRECISIONS = range(1, 321)
PYTHON = r"""
import sys
import warnings
import avro.schema

warnings.simplefilter("ignore")
for line in sys.stdin:
    try:
        s = avro.schema.parse(line)
        decimal = isinstance(s, (avro.schema.FixedDecimalSchema, avro.schema.BytesDecimalSchema))
        print("%d %d" % (s.precision, s.scale) if decimal else "plain")
    except Exception:
        print("refused")
"""
SINGLE = (
    '{"type":"fixed","name":"F","size":17,"logicalType":"decimal","precision":39}',
    '{"type":"fixed","name":"F","size":17,"logicalType":"decimal","precision":41}',
    '{"type":"fixed","name":"F","size":1,"logicalType":"decimal","precision":3}',
    '{"type":"fixed","name":"F","size":536870913,"logicalType":"decimal","precision":3}',
    '{"type":"fixed","name":"F","size":4294967297,"logicalType":"decimal","precision":38}',
    '{"type":"bytes","logicalType":"decimal","precision":1000}',
    '{"type":"bytes","logicalType":"decimal","precision":2147483648}',
)


def over(size, precision):
    return '{"type":"fixed","name":"F","size":%d,"logicalType":"decimal","precision":%d}' % (size, precision)


def asked(command, texts):
    run = subprocess.run(command, input="\n".join(texts) + "\n", stdout=subprocess.PIPE, stderr=subprocess.DEVNULL, text=True, check=True)
    return run.stdout.splitlines()


def main():
    os.makedirs(canonical.CLASSES, exist_ok=True)
    subprocess.run(["javac", "-cp", canonical.JARS, "-d", canonical.CLASSES, os.path.join(canonical.HERE, "Decimals.java")], check=True)
    readers = {"Java": ["java", "-cp", canonical.CLASSES + ":" + canonical.JARS, "Decimals"], "Python": ["/usr/bin/python3", "-c", PYTHON]}
    texts = [over(n, p) for n in SIZES for p in PRECISIONS]
    most = {}
    for name, command in readers.items():
        said = asked(command, texts)
        assert len(said) == len(texts), name
        for n in SIZES:
            taken = [p for p in PRECISIONS if said[SIZES.index(n) * len(PRECISIONS) + p - 1] == "%d 0" % p]
            assert taken == list(range(1, len(taken) + 1)), (name, n)
            most[name, n] = len(taken)
            assert n > 16 or len(taken) == declaration.limit(n), (name, n)
    print("size  here  Java  Python (320: all that were tried)")
    for n in SIZES:
        print("%d  %d  %d  %d" % (n, declaration.limit(n), most["Java", n], most["Python", n]))
    for text, java, python in zip(SINGLE, *(asked(command, SINGLE) for command in readers.values())):
        print("%s  Java: %s, Python: %s" % (text, java, python))


if __name__ == "__main__":
    main()
