#!/usr/bin/env python3
"""Runs the smallest input of each known difference, and the edges of the crate's limits, through the proved program and the crate.

    compare/crate/differences.py

Prints for each what the proved program answers (kind operation a b) and what the crate says: by its functions called one by one, and by
its own way through the document. Exit 1 where that is not what docs/DIFFERENCES.md rests on, which is stored beside each case here.
Needs the program replay (`rt run` in crates/replay) and target/compare/crate_driver (`compare/crate/build.sh`).
"""
import sys
from pathlib import Path

sys.path.insert(0, str(Path(__file__).resolve().parent.parent))
import programs  # noqa: E402
import limits  # noqa: E402
from image import words as image_words  # noqa: E402
from written import INTEGER, LEAF, QUERY, TEXT, argument, chain, document, down, field, inlines, integers, nested, spread, variable  # noqa: E402

F = field(1)
WORK = 20000


def lists(*pair):
    return document([[field(1, arguments=[argument(integers(*v), place=(2, LEAF))]) for v in pair]])


def usage(variables, value, place, default=0):
    return document([[field(1, arguments=[argument(value, place=place, default=default)])]], variables=variables)


CASES = [
    # title, image, ours, the crate's functions, the crate's own way
    ("a null default, place Int!", usage([(90, LEAF, 1)], variable(90), (1, INTEGER)), "0 0 0 0", "-", "-"),
    ("no default, place Int!", usage([(90, LEAF, 0)], variable(90), (1, INTEGER)), "13 0 0 0", "13 0 0 0", "13 0 0 0"),
    ("[$v], $v: String, place [Int]", usage([(90, (0, TEXT), 0)], (7, [variable(90)]), (2, LEAF)), "0 0 0 0", "-", "UnsupportedValueType"),
    ("[$v], $v: [Int], place [Int]", usage([(90, (2, LEAF), 0)], (7, [variable(90)]), (2, LEAF)), "0 0 0 0", "-", "-"),
    ("$v not defined", usage([], variable(90), LEAF), "0 0 0 0", "-", "UndefinedVariable"),
    ("B spreads A, no operation spreads either", document([[F]], [[F], [spread(0)]]), "9 0 0 0", "9 0 0 0, 9 0 1 0", "9 0 0 0, 9 0 1 0"),
    ("a conflict in an unused fragment", document([[F]], [[field(1, 5), field(2, 5)]]), "9 0 0 0", "9 0 0 0", "9 0 0 0"),
    ("[1] and [1, 2]", lists((1,), (1, 2)), "16 0 0 1", "-", "-"),
    ("[] and [1]", lists((), (1,)), "16 0 0 1", "-", "-"),
    ("[1], [1, 2] and [1, 3]: not first", lists((1,), (1, 2), (1, 3)), "16 0 0 1", "-", "-"),
    ("[1, 2], [1] and [1, 3]: the third", lists((1, 2), (1,), (1, 3)), "16 0 0 1", "16 0 0 2", "16 0 0 2"),
    ("an unused fragment spreads itself", document([[F]], [[spread(0)]]), "5 0 0 0", "5 0 0 0, 9 0 0 0", "9 0 0 0"),
    ("A and B spread each other, the operation B", document([[spread(1)]], [[spread(1)], [spread(0)]]), "5 0 0 0", "5 0 0 0, 5 0 1 0", "5 0 1 0"),
    ("a ring of 100 fragments", document([[spread(0)]], chain(100, [spread(0)])(0)), "5 0 0 0", "5 0 (100 times)", "5 0 0 0"),
    ("a ring of 101 fragments", document([[spread(0)]], chain(101, [spread(0)])(0)), "5 0 0 0", "DeeplyNestedType", "DeeplyNestedType"),
    ("a chain of 100 fragments", document([[spread(0)]], chain(100, [F])(0)), "0 0 0 0", "-", "-"),
    ("a chain of 101 fragments", document([[spread(0)]], chain(101, [F])(0)), "6 0 0 0", "DeeplyNestedType", "DeeplyNestedType"),
    ("a chain of 101 behind a fragment seen", document([[spread(0)]], [[spread(2), spread(1)], [spread(2)]] + chain(99, [F])(2)), "6 0 0 0", "-", "-"),
    ("a chain of 101 that is unused", document([[F]], chain(101, [F])(0)), "6 0 0 0", "9 0 (101 times), DeeplyNestedType", "9 0 (101 times)"),
    ("500 links", document([inlines(499, F)]), "0 0 0 0", "-", "-"),
    ("501 links", document([inlines(500, F)]), "7 0 0 0", "RecursionError, RecursionLimitError", "RecursionError, RecursionLimitError"),
    ("501 links behind a fragment seen", document([[spread(0), down(2, spread(0))]], [inlines(498, F)]), "7 0 0 0", "-", "-"),
    ("128 nested field sets", document([nested(128, F)]), "0 0 0 0", "-", "-"),
    ("129 nested field sets", document([nested(129, F)]), "8 0 0 0", "RecursionLimitError", "RecursionLimitError"),
    ("129 behind a list that was seen", document([[down(3, spread(0)), down(4, down(5, spread(0)))]], [nested(127, F)]), "8 0 0 0", "-", "-"),
    ("129 nested, and a conflict beside them", document([nested(129, F) + [field(1, 5), field(3, 5)]]), "8 0 0 0",
     "15 0 1 2, RecursionLimitError", "15 0 1 2, RecursionLimitError"),
    ("129 nested, and a conflict below them", document([nested(129, field(1, 5), field(3, 5))]), "8 0 0 0", "RecursionLimitError", "RecursionLimitError"),
    ("a usage in a fragment of two operations", document([[spread(0)], [spread(0)]], [[field(1, arguments=[argument(variable(90), place=(1, INTEGER))])]],
     [[(90, LEAF, 0)], [(90, LEAF, 0)]]), "13 0 0 0", "13 0 0 0, 13 1 0 0", "13 0 0 0"),
    ("a conflict in a fragment of two operations", document([[spread(0)], [spread(0)]], [[field(1, 5), field(2, 5)]]), "15 0 2 3",
     "15 0 2 3, 15 1 2 3", "15 0 2 3"),
    ("two unused variables", document([[F]], variables=[(90, LEAF, 0), (91, LEAF, 0)]), "12 0 0 0", "12 0 0 0, 12 0 1 0", "12 0 0 0, 12 0 1 0"),
    ("a repeated name, unused", document([[F]], variables=[(90, LEAF, 0), (90, LEAF, 0)]), "11 0 1 0", "11 0 1 0, 12 0 1 0", "11 0 1 0, 12 0 1 0"),
    ("a composite field without a set", document([[field(2, ref=(0, QUERY))]]), "0 0 0 0", "-", "MissingSubselection"),
    ("a field with 65 arguments", image_words(limits.arguments(65)), "4 0 5 0", "-", "-"),
    ("65 levels of values", image_words(limits.levels(65)), "4 0 7 63", "-", "-"),
    ("an object with 257 members", image_words(limits.members(257)), "4 0 7 0", "-", "-"),
    ("three fields, two conflicts", document([[field(1, 5), field(2, 5), field(3, 5)]]), "15 0 0 1", "15 0 0 1, 15 0 0 2", "15 0 0 1, 15 0 0 2"),
]


def shown(said, others):
    """Diagnostics as text; many of one kind as a number."""
    if said is None:
        return "not run"
    parts, kinds = [], [one[0] for one in said]
    for kind in sorted(set(kinds)):
        if kinds.count(kind) > 10:
            parts.append("%d 0 (%d times)" % (kind, kinds.count(kind)))
        else:
            parts += [" ".join(map(str, one)) for one in said if one[0] == kind]
    return ", ".join(parts + others) or "-"


def main():
    programs.need_replay()
    programs.need_driver()
    cases = [programs.case(words, WORK) for _, words, *_ in CASES]
    unlike = 0
    for (title, words, *stored), reply, said in zip(CASES, programs.replies(cases), programs.diagnostics(cases)):
        now = [" ".join(map(str, reply[:4])), shown(*said[:2]), shown(*said[2:4])]
        print("%s\n    here: %s\n    the crate's functions: %s\n    the crate's own way: %s" % (title, *now))
        if now != stored:
            unlike += 1
            print("    NOT AS STORED: %s\n    %s" % (stored, programs.vector(words, WORK, programs.scratch_needed(words, WORK), reply[:5])))
    print("%d cases, %d not as stored" % (len(CASES), unlike))
    return 1 if unlike else 0


if __name__ == "__main__":
    sys.exit(main())
