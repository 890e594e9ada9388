#!/usr/bin/env python3
"""Writes the stored cases of the program replay: what it reads, and what it must print.

    tools/store_replay.py VECTORS [FOLDER]

VECTORS has the files specimens.txt, generated.txt, damaged.txt (lines `work scratch kind operation a b used : words`) and lookup.txt
(lines `set start length : words`). The cases of tools/limits.py come after them. FOLDER gets the files stdin and stdout; it is
crates/replay, if that is there, and otherwise nothing is written.

stdin, little-endian words: `0, work, scratch, n, n words` (a check) or `1, set, 0, n, n words` (a lookup). stdout, a line each:
`kind operation a b used kept`, kept being 1 always; or a lookup's length and words.
"""
import collections
import pathlib
import sys

import limits
from image import as_bytes
from vectors import vectors

MOST_SCRATCH = 262144
MOST_WORDS = 65536


def fits(scratch, ws):
    return scratch <= MOST_SCRATCH and len(ws) <= MOST_WORDS


class Store:
    def __init__(self):
        self.stdin, self.stdout, self.kinds = [], [], collections.Counter()

    def add(self, head, ws, answer):
        self.stdin.append(as_bytes([*head, len(ws), *ws]))
        self.stdout.append(" ".join(map(str, answer)) + "\n")

    def checks(self, name, cases):
        """Cases (work, scratch, reply, words), those that fit."""
        stored = left_out = 0
        for work, scratch, reply, ws in cases:
            if fits(scratch, ws):
                self.add([0, work, scratch], ws, [*reply, 1])
                self.kinds[reply[0]] += 1
                stored += 1
            else:
                left_out += 1
        print("%s: %d checks stored, %d too large" % (name, stored, left_out))

    def lookups(self, name, cases):
        """Cases (set, start, length, words), those that fit."""
        stored = left_out = 0
        for part, start, length, ws in cases:
            if fits(0, ws):
                self.add([1, part, 0], ws, [length, *ws[start : start + length]])
                stored += 1
            else:
                left_out += 1
        print("%s: %d lookups stored, %d too large" % (name, stored, left_out))


def main(folder, out=None):
    store = Store()
    for name in ("specimens.txt", "generated.txt", "damaged.txt"):
        lines = vectors(pathlib.Path(folder) / name)
        store.checks(name, ((numbers[0], numbers[1], numbers[2:], ws) for numbers, ws in lines))
    store.checks("limits", ((work, scratch, reply, ws) for _, work, scratch, reply, ws in limits.cases()))
    lines = vectors(pathlib.Path(folder) / "lookup.txt")
    store.lookups("lookup.txt", ((*numbers, ws) for numbers, ws in lines))
    print("checks by kind: " + ", ".join("%d: %d" % pair for pair in sorted(store.kinds.items())))

    place = pathlib.Path(out) if out else pathlib.Path(__file__).resolve().parent.parent / "crates/replay"
    if place.is_dir():
        (place / "stdin").write_bytes(b"".join(store.stdin))
        (place / "stdout").write_text("".join(store.stdout))
        print("written: %d bytes to read, %d lines to print" % (sum(map(len, store.stdin)), len(store.stdout)))
    else:
        print("nothing written: there is no crate replay yet, and no other folder was named")


if __name__ == "__main__":
    if len(sys.argv) not in (2, 3):
        sys.exit(__doc__)
    main(*sys.argv[1:])
