#!/usr/bin/env python3
"""The proved program beside the oracle, a second implementation in Python, on random images: all five numbers, and the scratch afterwards.

    compare/oracle/compare.py [N] [FROM] [--oracle FOLDER] [--only NAME]

FOLDER (default ../shared/oracle) has the oracle check.py, and gen.py. Streams, each with the seeds FROM (default 0) to FROM + N - 1
(N is 100000 by default):
    documents    those of compare/plants.py
    images       by construction, beyond what documents give: odd names, shared ranges, empty sets, fields without sets
    damaged      images with words changed, rows swapped, dropped, doubled or put in, cut off or lengthened; and noise
    deep         documents about as deep as is allowed (N / 50 of them)
    lookups      the lookup of a set's selections, on images and damaged images (N / 5)
The budget is ample, or at, one below or one above what the oracle charges, or random, 0 or too large; the scratch is what is needed, one
word short, or more. Counts by kind are printed, and the first disagreement as a vector line. Exit 0 where there is none.
Needs the program replay (`rt run` in crates/replay).
"""
import argparse
import collections
import random
import sys
import time
from pathlib import Path

sys.path.insert(0, str(Path(__file__).resolve().parent.parent))
import documents  # noqa: E402
import plants  # noqa: E402
import programs  # noqa: E402

AMPLE = 4000
BATCH = 2000


def planted(_gen, seed):
    return documents.pack(plants.planted(random.Random(seed), documents.PLANTS[seed % len(documents.PLANTS)]))


def deep(_gen, seed):
    rng = random.Random(seed)
    document = documents.Document(rng)
    for _ in range(rng.choice([1, 1, 2])):
        plants.near_a_limit(document)
    documents.drop_unreached(document)
    documents.declare(document)
    return documents.pack(document)


def image(gen, seed):
    return gen.ImageMaker(random.Random(seed), small=seed % 2 == 0, variables=seed % 3 != 0, size=90 if seed % 10 == 1 else None).words()


def damaged(gen, seed):
    rng = random.Random(seed)
    if seed % 20 == 0:
        return [word & programs.NONE for word in gen.noise_tables(rng).words()]
    if seed % 20 == 1:
        return [rng.choice([0, 1, 20, rng.randrange(64), rng.getrandbits(32)]) for _ in range(rng.randrange(60))]
    words = gen.ImageMaker(rng, small=seed % 3 != 0).words() if seed % 4 else planted(gen, seed)
    for _ in range(rng.choice([1, 1, 1, 2, 3])):
        if not has_its_rows(words):  # an earlier damage broke the header
            return words
        words = gen.damage_word(rng, words) if rng.random() < 0.7 else gen.damage_rows(rng, words)
    return words


def has_its_rows(words):
    """Whether the header's counts and offsets are those of so many words."""
    at = 20
    for table, width in enumerate(programs.WIDTHS):
        if len(words) < 20 or words[3 + 2 * table] != at:
            return False
        at += words[2 + 2 * table] * width
    return at == len(words)


STREAMS = {"documents": planted, "images": image, "damaged": damaged, "deep": deep, "lookups": None}


def budget(rng, check, words):
    """A budget and a scratch that go to the edges of this image."""
    if check.header_fault(words) is not None:
        return rng.choice([0, 50, 1000001]), rng.choice([0, 20, 5000])
    used = check.reply(words, AMPLE, 1 << 40)[4]
    work = rng.choice([AMPLE, AMPLE, used, used, max(0, used - 1), used + 1, rng.randint(0, used + 3), 0])
    if rng.random() < 0.01:
        work = rng.choice([1000001, programs.NONE])
    needed = min(programs.scratch_needed(words, work), programs.MOST_SCRATCH - 16)
    return work, max(0, needed + rng.choice([0, 0, 0, 0, 0, -1, 1, 7]))


class Count:
    def __init__(self):
        self.kinds, self.bad, self.first, self.began = collections.Counter(), 0, None, time.time()

    def note(self, kind, expected, got, line):
        self.kinds[kind] += 1
        if expected != got:
            self.bad += 1
            self.first = self.first or "expected %s, got %s\n    %s" % (expected, got, line())

    def show(self, name, first, last):
        kinds = ", ".join("%s: %d" % pair for pair in sorted(self.kinds.items()))
        print("%s, seeds %d to %d: %d cases, %d disagreements, %d seconds; by kind %s" % (
            name, first, last, sum(self.kinds.values()), self.bad, time.time() - self.began, kinds), flush=True)
        if self.first:
            print("    first disagreement: " + self.first, flush=True)


def checks(count, check, gen, make, seeds):
    images = [make(gen, seed) for seed in seeds]
    heads = [budget(random.Random(seed + 1), check, words) for seed, words in zip(seeds, images)]
    answers = programs.replies([programs.case(words, *head) for words, head in zip(images, heads)])
    for words, (work, scratch), got in zip(images, heads, answers):
        expected = (*check.reply(words, work, scratch), 1)
        count.note(expected[0], expected, got, lambda: programs.vector(words, work, scratch, expected[:5]))


def lookups(count, check, gen, seeds):
    images = [(damaged if seed % 2 else image)(gen, seed) for seed in seeds]
    sets = [random.Random(seed).choice([0, 1, 2, 3, 5, 8, programs.NONE]) for seed in seeds]
    cases = [programs.as_bytes([1, s, 0, len(words), *words]) for s, words in zip(sets, images)]
    for s, words, got in zip(sets, images, programs.replies(cases)):
        start, length = check.lookup(words, s)
        expected = (length, *words[start : start + length])
        count.note("empty" if length == 0 else "a part", expected, got, lambda: "%d %d %d : %s" % (s, start, length, " ".join(map(str, words))))


def run(name, check, gen, first, n):
    count = Count()
    for at in range(first, first + n, BATCH):
        seeds = range(at, min(at + BATCH, first + n))
        if name == "lookups":
            lookups(count, check, gen, seeds)
        else:
            checks(count, check, gen, STREAMS[name], seeds)
    count.show(name, first, first + n - 1)
    return count.bad


def main():
    parser = argparse.ArgumentParser(description=__doc__, formatter_class=argparse.RawDescriptionHelpFormatter)
    parser.add_argument("n", type=int, nargs="?", default=100000)
    parser.add_argument("start", type=int, nargs="?", default=0)
    parser.add_argument("--oracle", type=Path, default=programs.ROOT.parent / "shared/oracle")
    parser.add_argument("--only", choices=STREAMS)
    given = parser.parse_args()
    programs.need_replay()
    check, gen = programs.from_folder(given.oracle, "check", "gen")
    parts = {"deep": 50, "lookups": 5}
    names = [given.only] if given.only else list(STREAMS)
    bad = sum(run(name, check, gen, given.start, max(1, given.n // parts.get(name, 1))) for name in names)
    return 1 if bad else 0


if __name__ == "__main__":
    sys.exit(main())
