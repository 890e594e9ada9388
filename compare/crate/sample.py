#!/usr/bin/env python3
"""Replays a stored sample of the crate's answers against the proved program. It needs python3 and the program replay, and no Rust.

    compare/crate/sample.py                 replays compare/crate/sample.txt; exit 1 where an answer differs
    compare/crate/sample.py --write         writes that file: needs target/compare/crate_driver (compare/crate/build.sh) too

A line is `diagnostics : equal fields : words of the image`. The diagnostics are all those of the crate that kinds 5 and 9 to 16 stand for,
as `kind.operation.a.b`, or `-` where it has none; `r=s` says that to the crate the field of row r is one with that of the lower row s.
"""
import collections
import random
import sys
from pathlib import Path

sys.path.insert(0, str(Path(__file__).resolve().parent.parent))
import programs  # noqa: E402
from judge import COUNTED, is_among, judge  # noqa: E402

SAMPLE = Path(__file__).resolve().parent / "sample.txt"
WORK = 1000
SEEDS, OF_A_KIND, MOST_WORDS = 12000, 50, 200
# The documents that first show each mistake of compare/crate/mutants.py beside the crate, whatever their size.
TELLING = [0, 4, 6, 7, 8, 9, 12, 23, 31, 33, 34, 39, 44, 62, 81, 91, 116, 118, 145, 155, 192, 234, 281, 359, 369, 390, 427, 476, 577]


def documents():
    """Planted documents by seed: those that tell, and small ones."""
    import documents
    import plants

    for seed in range(SEEDS):
        what = documents.PLANTS[seed % len(documents.PLANTS)]
        words = documents.pack(plants.planted(random.Random(seed), what))
        if seed in TELLING or len(words) <= MOST_WORDS:
            yield seed, words


def write():
    programs.need_driver()
    seeds, images = zip(*documents())
    cases = [programs.case(words, WORK) for words in images]
    kept, kinds = [], collections.Counter()
    for seed, words, reply, (said, others, _, _, classes, _) in zip(seeds, images, programs.replies(cases), programs.diagnostics(cases)):
        if judge(words, reply, said, others, classes) is None and (seed in TELLING or kinds[reply[0]] < OF_A_KIND):
            kinds[reply[0]] += 1
            parts = [".".join(map(str, one)) for one in said if one[0] in COUNTED] or ["-"]
            same = ["%d=%d" % (r, c) for r, c in enumerate(classes) if c != programs.NONE and c != r]
            kept.append("%s : %s : %s\n" % (" ".join(parts), " ".join(same), " ".join(map(str, words))))
    SAMPLE.write_text("".join(kept))
    print("%d cases written; by kind: %s" % (len(kept), dict(sorted(kinds.items()))))


def stored():
    """(diagnostics, the least equal row of each selection, words) of each line."""
    for line in SAMPLE.read_text().splitlines():
        said, same, image = line.split(":")
        words = [int(w) for w in image.split()]
        classes = list(range(words[12]))
        for pair in same.split():
            row, least = pair.split("=")
            classes[int(row)] = int(least)
        yield [[int(n) for n in one.split(".")] for one in said.split() if one != "-"], classes, words


def replay():
    cases = list(stored())
    kinds, bad = collections.Counter(), 0
    answers = programs.replies([programs.case(words, WORK) for _, _, words in cases])
    for (said, classes, words), reply in zip(cases, answers):
        kinds[reply[0]] += 1
        if not is_among(reply, said, classes) or reply[5] != 1:
            bad += 1
            print("the crate says %s, the answer is %s\n    %s" % (
                said, reply, programs.vector(words, WORK, programs.scratch_needed(words, WORK), reply[:5])))
    print("the crate's stored answers: %d cases, %d differ; by kind: %s" % (
        len(cases), bad, ", ".join("%d: %d" % pair for pair in sorted(kinds.items()))))
    return 1 if bad or not cases else 0


if __name__ == "__main__":
    programs.need_replay()
    sys.exit(write() if sys.argv[1:] == ["--write"] else replay())
