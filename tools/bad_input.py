#!/usr/bin/env python3
"""Hands odd and bad input to the built programs ponybluster and replay, and compares what they print.

    tools/bad_input.py [ponybluster|replay]     after `rt run` of the programs; last line `N agree, M differ`
"""
import pathlib
import subprocess
import sys

import limits
from image import as_bytes, words

ROOT = pathlib.Path(__file__).resolve().parent.parent
MOST_SCRATCH = 262144
MOST_WORDS = 65536


def example(name):
    return (ROOT / "examples" / (name + ".img")).read_bytes(), (ROOT / "examples" / (name + ".reply.txt")).read_text()


def ponybluster():
    """(title, standard input, what is printed)"""
    for name in ("primer", "primer_fixed"):
        yield (name, *example(name))
    yield "no input", b"", "1 0 0 0 0\n"
    for n in (1, 2, 3, 7):
        yield "%d bytes" % n, bytes(n), "18 0 %d 0 0\n" % n
    for n in (4, 76):
        yield "%d bytes" % n, bytes(n), "1 0 %d 0 0\n" % (n // 4)
    for n in (80, 32764, 32768):
        yield "%d bytes" % n, bytes(n), "1 0 0 0 0\n"
    for n in (32769, 32770, 32772, 65536, 1000000):
        yield "%d bytes" % n, bytes(n), "18 0 32769 0 0\n"


def replay():
    field = words(limits.FIELD_A)
    good = as_bytes([0, 4, limits.NEEDED, len(field), *field])
    yield "no input", b"", ""
    yield "one case", good, "0 0 0 0 4 1\n"
    yield "no words", as_bytes([0, 0, 0, 0]), "1 0 0 0 0 1\n"
    yield "a lookup of no words", as_bytes([1, 0, 0, 0]), "0\n"
    yield "as much as there is room for", as_bytes([0, 0, MOST_SCRATCH, MOST_WORDS, *[0] * MOST_WORDS]), "1 0 0 0 0 1\n"
    yield "more scratch", good + as_bytes([0, 0, MOST_SCRATCH + 1, 0]) + good, "0 0 0 0 4 1\nlimit\n"
    yield "a longer image", good + as_bytes([0, 0, 0, MOST_WORDS + 1, *[0] * (MOST_WORDS + 1)]) + good, "0 0 0 0 4 1\nlimit\n"
    yield "a length of NONE", as_bytes([0, 0, 0, 4294967295]), "limit\n"


def main(names):
    agree = differ = 0
    for name in names:
        for title, given, wanted in {"ponybluster": ponybluster, "replay": replay}[name]():
            ran = subprocess.run([ROOT / "tools/program", name], input=given, stdout=subprocess.PIPE)
            if ran.returncode == 0 and ran.stdout == wanted.encode():
                agree += 1
            else:
                differ += 1
                print("%s, %s: status %d, printed %r, wanted %r" % (name, title, ran.returncode, ran.stdout[:200], wanted))
    print("%d agree, %d differ" % (agree, differ))
    return 1 if differ else 0


if __name__ == "__main__":
    sys.exit(main(sys.argv[1:] or ["ponybluster", "replay"]))
