#!/usr/bin/env python3
"""Which of the texts of crates/schema_run/stdin avro-c accepts, beside the model of replay.py that puts each into an empty set.

    gcc -O2 -o target/avro_c docs/vectors/avro_c.c -lavro
    python3 docs/vectors/avro_c.py target/avro_c        (at the root of the repository; `list` behind it prints the texts)
"""
import collections
import os
import subprocess
import sys

HERE = os.path.dirname(os.path.abspath(__file__))


def run(command, script):
    return subprocess.run(command, input=script, capture_output=True, text=True, check=True).stdout.split("\n")


def main(program, show):
    texts = open("crates/schema_run/stdin").read().split("\n")[:-1]
    theirs = run([program], "".join(t + "\n" for t in texts))
    ours = run([sys.executable, os.path.join(HERE, "replay.py")], "".join("open\nput 0 %s\n" % t for t in texts))[1::2]
    count = collections.Counter()
    for text, we, they in zip(texts, ours, theirs):
        we = "ok" if we.startswith("ok") else "refused " + we.split()[1]
        count[we, they] += 1
        if show and we.split()[0] != they:
            print(we, "| avro-c", they, "|", "" if text == "-" else bytes.fromhex(text)[:200])
    alike = sum(n for (we, they), n in count.items() if we.split()[0] == they)
    print(len(texts), "texts:", alike, "alike, of them", count["ok", "ok"], "accepted;", count["ok", "refused"], "refused by avro-c alone")
    print("accepted by avro-c alone:", ", ".join("%d with %s" % (n, we.split()[1]) for (we, they), n in count.most_common() if we != "ok" and they == "ok"))


main(sys.argv[1], "list" in sys.argv)
