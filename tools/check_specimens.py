#!/usr/bin/env python3
"""Writes the specimens of the whole check: among them a budget over the limit and three on the walk's order, each with its budget, its scratch and
the five numbers of its reply.

    tools/check_specimens.py > crates/query/specs/Specimens.antt

What each must reply is said here by hand; that the definition replies so is proved in antt, by computation.
"""
from image import INLINE, FIELD, INT, INTERFACE, LIST, LIST_VALUE, NAMED, NONE, NON_NULL, OBJECT, OBJECT_VALUE, SCALAR, SPREAD, words

OPERATION = (0, 0, 0, 0)
FRAGMENT = (0, 0)


def field(response, name, reference, target=NONE, arguments=(0, 0)):
    return (FIELD, response, name, reference, *arguments, target, 0, 0)


def spread(fragment):
    return (SPREAD, 0, 0, 0, 0, 0, fragment, 0, 0)


def inline(target):
    return (INLINE, 0, 0, 0, 0, 0, target, 0, 0)


def query(*fields, **more):
    """One operation on an object, with these fields; references: a scalar, a list of it, that scalar non-null."""
    return {
        "types": [(10, SCALAR), (11, OBJECT)],
        "references": [(NAMED, 0), (LIST, 0), (NON_NULL, 0)],
        "operations": [OPERATION],
        "sets": [(1, 0, len(fields))],
        "selections": list(fields),
        **more,
    }


def compared(left, right, members):
    """`{f(v: left) f(v: right)}`: two values, each a kind with its first member and count, and the members behind them."""
    values = [(kind, NONE, first, count) for kind, first, count in (left, right)]
    fields = field(20, 20, 0, arguments=(0, 1)), field(20, 20, 0, arguments=(1, 1))
    return query(*fields, arguments=[(30, 1, 0), (30, 1, 0)], values=values + [(INT, key, atom, 0) for key, atom in members])


def pets(inner, cat, dog, references):
    """`{pet {..inner} }` on interface Pet, with a field on Cat and one on Dog by inlines; the last reference is Pet's."""
    n = len(inner)
    return {
        "types": [(10, SCALAR), (11, OBJECT), (12, OBJECT), (13, INTERFACE), (14, OBJECT)],
        "references": references,
        "operations": [OPERATION],
        "sets": [(4, 0, 1), (3, 1, n), (1, 1 + n, 1), (2, 2 + n, 1)],
        "selections": [field(20, 20, len(references) - 1, 1), *inner, cat, dog],
    }


FIELD_A = {
    "types": [(10, SCALAR), (11, OBJECT)],
    "references": [(NAMED, 0)],
    "operations": [OPERATION],
    "sets": [(1, 0, 1)],
    "selections": [field(20, 20, 0)],
}

SHARED = {
    "types": [(10, SCALAR), (11, OBJECT), (12, OBJECT)],
    "references": [(NAMED, 0), (NAMED, 1)],
    "operations": [OPERATION],
    "fragments": [FRAGMENT],
    "sets": [(2, 0, 2), (1, 2, 1), (1, 3, 1), (1, 4, 1)],
    "selections": [field(20, 20, 1, 2), field(21, 21, 1, 3), field(22, 22, 0), spread(0), spread(0)],
}

CYCLE = {
    "types": [(11, OBJECT)],
    "operations": [OPERATION],
    "fragments": [FRAGMENT, FRAGMENT],
    "sets": [(0, 0, 0), (0, 0, 1), (0, 1, 1)],
    "selections": [spread(1), spread(1)],
}

INNER = {
    "types": [(10, SCALAR), (11, OBJECT), (12, OBJECT)],
    "references": [(NAMED, 0), (NAMED, 1)],
    "operations": [OPERATION],
    "sets": [(2, 0, 2), (1, 2, 1), (1, 3, 1)],
    "selections": [field(20, 20, 1, 1), field(20, 20, 1, 2), field(21, 22, 0), field(21, 23, 0)],
}

# the inline on Dog stands before that on Cat
DOG_THEN_CAT = {
    "types": [(10, SCALAR), (11, OBJECT), (12, OBJECT), (13, INTERFACE), (14, OBJECT)],
    "references": [(NAMED, 0), (NAMED, 3)],
    "operations": [OPERATION],
    "sets": [(4, 0, 1), (3, 1, 2), (2, 3, 2), (1, 5, 2)],
    "selections": [field(20, 20, 1, 1), inline(2), inline(3), field(21, 23, 0), field(21, 22, 0), field(21, 22, 0), field(21, 23, 0)],
}

PAIR_OVER_PAIR = {**INNER, "selections": [field(20, 24, 1, 1), field(20, 25, 1, 2), field(21, 22, 0), field(21, 23, 0)]}

SHAPE_OVER_SHAPE = {
    **INNER,
    "references": [(NAMED, 0), (NAMED, 1), (NON_NULL, 0), (NON_NULL, 1)],
    "selections": [field(20, 20, 1, 1), field(20, 20, 3, 2), field(21, 22, 0), field(21, 22, 2)],
}

BOTH = [inline(2), inline(3)]
LEAF_AND_PET = [(NAMED, 0), (NAMED, 3)]
LISTS = (LIST_VALUE, 2, 1), (LIST_VALUE, 3, 2), [(NONE, 1), (NONE, 1), (NONE, 2)]
OBJECTS = (OBJECT_VALUE, 2, 2), (OBJECT_VALUE, 4, 2), [(50, 1), (51, 2), (51, 2), (50, 1)]

# title, image, budget, scratch, then kind, operation, a, b, used
CASES = [
    ("no rows at all", {}, 0, 4096, (0, 0, 0, 0, 0)),
    ("one word of scratch too few", {}, 0, 4095, (3, 0, 4096, 0, 0)),
    ("a budget over the limit", {}, 1000001, 4096, (2, 0, 1000001, 0, 0)),
    ("`{a}`", FIELD_A, 4, 4224, (0, 0, 0, 0, 4)),
    ("`{a}` with one unit too few", FIELD_A, 3, 4224, (17, 0, 0, 0, 2)),
    ("`{a{...F} b{...F}}`, F `{c}`", SHARED, 100, 5152, (0, 0, 0, 0, 12)),
    ("fragment 0 spreads 1, 1 spreads 1", CYCLE, 100, 5152, (5, 0, 1, 0, 0)),
    ("`[1]` against `[1,2]`", compared(*LISTS), 100, 5152, (16, 0, 0, 1, 6)),
    ("`{x:1,y:2}` against `{y:2,x:1}`", compared(*OBJECTS), 100, 5184, (0, 0, 0, 0, 6)),
    ("`n: name` on Cat, `n: nick` on Dog, one leaf type", pets(BOTH, field(21, 22, 0), field(21, 23, 0), LEAF_AND_PET), 100, 5168, (0, 0, 0, 0, 10)),
    (
        "a third `n: name` on interface Pet: the Dog field and the Pet field",
        pets([*BOTH, field(21, 22, 0)], field(21, 22, 0), field(21, 23, 0), LEAF_AND_PET),
        100,
        5184,
        (15, 0, 5, 3, 12),
    ),
    ("String against String!", query(field(20, 21, 0), field(20, 22, 2)), 100, 5056, (14, 0, 0, 1, 3)),
    (
        "two different object types",
        pets(BOTH, field(21, 22, 0), field(21, 23, 1), [(NAMED, 1), (NAMED, 2), (NAMED, 3)]),
        100,
        5184,
        (0, 0, 0, 0, 10),
    ),
    ("`{a{x:p} a{x:q}}`, one leaf type: the inner fields", INNER, 100, 5120, (15, 0, 2, 3, 12)),
    ("`n: nick n: name` on Dog, then both on Cat: Dog's subgroup comes first", DOG_THEN_CAT, 100, 5200, (15, 0, 3, 4, 14)),
    ("`{a:p{x:r} a:q{x:s}}`: the outer pair comes first", PAIR_OVER_PAIR, 100, 5104, (15, 0, 0, 1, 9)),
    ("`{a{x} a{x}}`, T and T!, String and String!: the outer pair comes first", SHAPE_OVER_SHAPE, 100, 5136, (14, 0, 0, 1, 3)),
]

HEAD = """-- Specimens of the whole check, among them a budget over the limit and three on the walk's order: images, budgets, scratch, and the five
-- numbers of each reply. Written by tools/check_specimens.py. Assumes nothing.
use Rattle.std.specs.Prelude.{ℕ, List, [], ◌∷◌}
use Rattle.selection.specs.declared.arena.Reply.{Reply}
use Rattle.query.specs.Reply.{answer}

pub record Specimen : Type 0 where
  pub image : List ℕ
  pub work : ℕ
  pub long : ℕ
  pub replies : Reply

abbrev pub specimens : List Specimen
specimens =
"""


def line(title, image, work, long, reply):
    text = " ∷ ".join([str(w) for w in words(image)] + ["[]"])
    shown = "answer %d %d %d %d %d" % reply
    return "    -- %s\n    record { image = %s; work = %d; long = %d; replies = %s } ∷\n" % (title, text, work, long, shown)


if __name__ == "__main__":
    print(HEAD + "".join(line(*case) for case in CASES) + "    []")
