#!/usr/bin/env python3
"""Random documents by seed through the proved program and through the crate, compared in the domain where both must agree (docs/DIFFERENCES.md).

    compare/crate/compare.py [N] [FROM] [--large L] [--images K] [--texts M] [--oracle FOLDER]

N documents (default 100000) of compare/plants.py with the seeds FROM (default 0) to FROM + N - 1; with seeds from 0 on L large ones (default
0) of some hundreds of selections, K images that the generator of FOLDER (default ../shared/oracle) makes without a row fault, odd ones that
no document gives among them, and M documents that it writes as GraphQL text and packs, which needs graphql-core 3.
Needs the program replay (`rt run` in crates/replay) and target/compare/crate_driver (`compare/crate/build.sh`). Exit 0 where
nothing differs.
"""
import argparse
import collections
import random
import sys
from pathlib import Path

sys.path.insert(0, str(Path(__file__).resolve().parent.parent))
import documents  # noqa: E402
import plants  # noqa: E402
import programs  # noqa: E402
from judge import COUNTED, is_among, judge  # noqa: E402

WORK = 4000
MOST = 1000000
BATCH = 2000
NAMES = {0: "nothing", 5: "cycle", 9: "unused fragment", 10: "no input type", 11: "repeated name", 12: "unused variable",
         13: "usage not allowed", 14: "shape", 15: "field name", 16: "arguments"}


def planted(seed, large=False):
    what = documents.PLANTS[seed % len(documents.PLANTS)]
    return documents.pack(plants.planted(random.Random(seed), what, large))


def images(folder):
    """A maker of images by construction, by seed."""
    (gen,) = programs.from_folder(folder, "gen")
    return lambda seed: gen.ImageMaker(random.Random(seed), small=seed % 2 == 0, variables=seed % 3 != 0, size=90 if seed % 10 == 1 else None).words()


def texts(folder):
    """A maker of images from random GraphQL texts, by seed."""
    gen, pack = programs.from_folder(folder, "gen", "pack")
    from graphql import build_schema, parse

    def made(seed):
        schema, text = gen.random_document(random.Random(seed), null_defaults=seed % 4 == 0)
        return pack.pack(build_schema(schema), parse(text, no_location=True)).words

    return made


class Shape:
    """What a document has that the comparison is about."""

    def __init__(self, words):
        self.image = programs.tables(words)
        self.operations, self.sets = len(self.image["operations"]), self.image["sets"]
        self.set_of, self.holder = [], list(range(len(self.sets)))
        for s, (_, _, count) in enumerate(self.sets):
            self.set_of += [s] * count
        for r, row in enumerate(self.image["selections"]):
            if row[0] != 1 and row[6] != programs.NONE:
                self.holder[row[6]] = self.holder[self.set_of[r]]
        self.spreads = [(self.holder[self.set_of[r]], self.operations + row[6]) for r, row in enumerate(self.image["selections"]) if row[0] == 1]

    def parents(self, a, b):
        words = ["object" if self.image["types"][self.sets[self.set_of[r]][0]][1] == 1 else "abstract" for r in (a, b)]
        return " and ".join(sorted(words, reverse=True))

    def apart(self, a, b):
        """How many spreads lie between the definitions in which two selections stand, on the shortest way."""
        start, end = (self.holder[self.set_of[r]] for r in (a, b))
        near = {start: 0}
        waiting = [start]
        for here in waiting:
            for one, other in self.spreads + [(y, x) for x, y in self.spreads]:
                if one == here and other not in near:
                    near[other] = near[here] + 1
                    waiting.append(other)
        return near[end]

    def directive_variables(self):
        rows = [w[2:4] for w in self.image["operations"]] + self.image["fragments"] + [w[7:9] for w in self.image["selections"]]
        return any(self.image["values"][a][0] == 6 for first, count in rows for a in range(first, first + count))


def told(said, classes):
    """What the crate says, operations left out and equal fields as one."""
    return {(k, a, b) if k < 14 else (k, classes[a], classes[b]) for k, _, a, b in said}


class Table:
    def __init__(self):
        self.kinds, self.said, self.outside, self.whole = (collections.Counter() for _ in range(4))
        self.marks, self.bad, self.documents, self.first = collections.Counter(), 0, 0, None

    def note(self, words, reply, said, others, whole, whole_others, classes, first):
        self.documents += 1
        self.kinds[reply[0]] += 1
        self.said.update({k for k, _, _, _ in said if k in COUNTED})
        self.mark(words, reply)
        verdict = judge(words, reply, said, others, classes)
        self.tell(verdict, self.outside, words, reply, said)
        if reply[0] in (14, 15, 16) and verdict is None:
            same = is_among(reply, [one for one in first if one[1] == reply[1]], classes)
            self.marks["conflicts that are %s the crate lists in that operation" % ("the first that" if same else "not the first that")] += 1
        if whole is None:
            self.whole["not run: the document agrees with no schema of the shim's"] += 1
            return
        if not any(k == 5 for k, _, _, _ in said):
            self.marks["documents without a cycle on which both ways of the crate say %s" % (
                "the same" if told(said, classes) == told(whole, classes) else "DIFFERENT THINGS")] += 1
        verdict = judge(words, reply, whole, whole_others, classes, with_operation=False)
        if reply[0] == 5 and verdict == ("differs", None):
            by = "another fragment of a cycle" if any(k == 5 for k, _, _, _ in whole) else "none: no operation reaches it"
            verdict = "outside", "a cycle; by its own way the crate names " + by
        self.tell(verdict, self.whole, words, reply, whole)

    def tell(self, verdict, counter, words, reply, said):
        counter["the same" if verdict is None else verdict[1] or "DIFFERS"] += 1
        if verdict == ("differs", None):
            self.bad += 1
            self.first = self.first or "%s\n    the crate says: %s" % (
                programs.vector(words, MOST, programs.scratch_needed(words, MOST), reply[:5]), said)

    def mark(self, words, reply):
        shape = Shape(words)
        spread = collections.Counter(f for _, f in shape.spreads)
        self.marks["documents with several operations"] += shape.operations > 1
        self.marks["documents with a fragment that is spread more than once"] += any(n > 1 for n in spread.values())
        self.marks["documents with a variable in a directive"] += shape.directive_variables()
        if reply[0] >= 14 and reply[0] <= 16:
            self.marks["conflicts %d fragments apart" % shape.apart(*reply[2:4])] += 1
            if reply[0] > 14:
                self.marks["names or arguments, parents %s" % shape.parents(*reply[2:4])] += 1

    def show(self):
        print("kind  rule               replies  documents where the crate says it")
        for kind in sorted(set(self.kinds) | set(self.said)):
            print("%4d  %-18s %7d  %s" % (kind, NAMES.get(kind, ""), self.kinds[kind], self.said[kind] if kind in COUNTED else "-"))
        for name, counter in (("its functions called one by one", self.outside), ("its own way through the document", self.whole)):
            print("against the crate, %s:" % name)
            for text, count in counter.most_common():
                print("%9d  %s" % (count, text))
        for text, count in sorted(self.marks.items()):
            print("%9d  %s" % (count, text))
        print("%d documents, %d disagreements" % (self.documents, self.bad))
        if self.first:
            print("first disagreement, as a vector line:\n" + self.first)


def compare(table, make, seeds, batch=BATCH, work=WORK):
    for at in range(seeds.start, seeds.stop, batch):
        images = [make(seed) for seed in range(at, min(at + batch, seeds.stop))]
        cases = [programs.case(words, min(work, programs.most_work(words))) for words in images]
        for words, reply, said in zip(images, programs.replies(cases), programs.diagnostics(cases)):
            table.note(words, reply, *said)


def main():
    parser = argparse.ArgumentParser(description=__doc__, formatter_class=argparse.RawDescriptionHelpFormatter)
    parser.add_argument("n", type=int, nargs="?", default=100000)
    parser.add_argument("start", type=int, nargs="?", default=0)
    parser.add_argument("--large", type=int, default=0)
    parser.add_argument("--images", type=int, default=0)
    parser.add_argument("--texts", type=int, default=0)
    parser.add_argument("--oracle", type=Path, default=programs.ROOT.parent / "shared/oracle")
    given = parser.parse_args()
    programs.need_replay()
    programs.need_driver()
    table = Table()
    parts = [("documents of compare/plants.py", planted, range(given.start, given.start + given.n), {}),
             ("large documents", lambda seed: planted(seed, True), range(given.large), {"batch": 200, "work": 20000})]
    if given.images:
        parts.append(("images by construction", images(given.oracle), range(given.images), {}))
    if given.texts:
        parts.append(("random GraphQL texts", texts(given.oracle), range(given.texts), {}))
    for name, make, seeds, how in parts:
        if seeds:
            print("%s, seeds %d to %d" % (name, seeds[0], seeds[-1]), flush=True)
            compare(table, make, seeds, **how)
    table.show()
    return 1 if table.bad else 0


if __name__ == "__main__":
    sys.exit(main())
