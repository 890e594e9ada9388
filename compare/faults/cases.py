#!/usr/bin/env python3
"""Writes cases for guard.c: those of crates/replay, and damaged images by seed with the oracle's answers where its folder is given.

    compare/faults/cases.py [--oracle FOLDER] [N]
    compare/faults/cases.py --deep                  for stack.c: the images of tools/limits.py that nest deepest
"""
import argparse
import struct
import sys
from pathlib import Path

sys.path.insert(0, str(Path(__file__).resolve().parent.parent))
sys.path.insert(0, str(Path(__file__).resolve().parent.parent / "oracle"))
import compare as with_oracle  # noqa: E402
import programs  # noqa: E402


def stored():
    """The checks among the stored cases of replay: work, scratch, reply, words."""
    data = (programs.ROOT / "crates/replay/stdin").read_bytes()
    lines = (programs.ROOT / "crates/replay/stdout").read_text().splitlines()
    at = 0
    for line in lines:
        form, work, scratch, n = struct.unpack_from("<4I", data, at)
        words = struct.unpack_from("<%dI" % n, data, at + 16)
        at += 16 + 4 * n
        if form == 0:
            yield work, scratch, [int(w) for w in line.split()[:5]], words


def deep():
    """Fields in each other, one and to the limit; then with lists and with objects to the limit below them. All fit the door."""
    sys.path.insert(0, str(programs.ROOT / "tools"))
    import image
    import limits

    for made, used in ((limits.nested(1), 8), (limits.nested(128), 516),
                       (limits.deepest(limits.LIST_VALUE), 518), (limits.deepest(limits.OBJECT_VALUE), 518)):
        yield 600, image.scratch_needed(made, 600), [0, 0, 0, 0, used], image.words(made)


def more(folder, n):
    """Damaged images by seed, with what the oracle answers."""
    import random

    check, gen = programs.from_folder(folder, "check", "gen")
    for seed in range(n):
        words = with_oracle.damaged(gen, seed)
        work, scratch = with_oracle.budget(random.Random(seed + 1), check, words)
        yield work, scratch, check.reply(words, work, scratch), words


def main():
    parser = argparse.ArgumentParser(description=__doc__, formatter_class=argparse.RawDescriptionHelpFormatter)
    parser.add_argument("n", type=int, nargs="?", default=20000)
    parser.add_argument("--oracle", type=Path, default=programs.ROOT.parent / "shared/oracle")
    parser.add_argument("--deep", action="store_true")
    given = parser.parse_args()
    cases = list(deep() if given.deep else stored())
    print("%d %s cases" % (len(cases), "deep" if given.deep else "stored"), file=sys.stderr)
    if not given.deep and (given.oracle / "check.py").exists():
        cases += more(given.oracle, given.n)
        print("and %d damaged images, seeds 0 to %d" % (given.n, given.n - 1), file=sys.stderr)
    for work, scratch, reply, words in cases:
        sys.stdout.buffer.write(programs.as_bytes([work, scratch, *reply, len(words), *words]))


if __name__ == "__main__":
    main()
