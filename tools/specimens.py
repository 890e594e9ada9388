#!/usr/bin/env python3
"""Writes the row check's specimens: images, what the row check shows of each, and where the selections of one set stand.

    tools/specimens.py > crates/rows/specs/Specimens.antt

An image is described table by table. A damaged one is a base image with some words changed, and is written so: `changed whole 21 6`. What each
must show is said here by hand; that the definitions agree is proved in antt, by computation. tools/row_mutants.py asks whether each condition of
the row rules is noticed by one of them.
"""
from image import (
    BOOLEAN, ENUM, FIELD, INLINE, INPUT, INT, INTERFACE, LIST_VALUE, NAMED, NONE, NON_NULL, NON_NULL_LIST, NULL, OBJECT,
    OBJECT_VALUE, SCALAR, SPREAD, TABLES, UNION, VARIABLE, longer, words,
)

FIELD_A = {
    "types": [(10, SCALAR), (11, OBJECT)],
    "references": [(NAMED, 0)],
    "operations": [(0, 0, 0, 0)],
    "sets": [(1, 0, 1)],
    "selections": [(FIELD, 20, 20, 0, 0, 0, NONE, 0, 0)],
}

# query ($v: S! = "") @d(z: $v) { a(x: [7, null], y: {p: true, q: []})  b { e } ...F }   fragment F on I { ... on O @d(z: $v) { f }  c }
WHOLE = {
    "types": [(10, SCALAR), (11, OBJECT), (12, INTERFACE), (13, INPUT)],
    "references": [(NAMED, 0), (NAMED, 1), (NON_NULL_LIST, 1), (NON_NULL, 0), (NAMED, 3)],
    "operations": [(0, 1, 2, 1)],
    "fragments": [(3, 0)],
    "sets": [(1, 0, 3), (2, 3, 2), (1, 5, 1), (1, 6, 1)],
    "selections": [
        (FIELD, 20, 20, 0, 0, 2, NONE, 2, 0),
        (FIELD, 21, 21, 2, 2, 0, 2, 2, 0),
        (SPREAD, 0, 0, 0, 0, 0, 0, 2, 0),
        (INLINE, 0, 0, 0, 0, 0, 3, 2, 1),
        (FIELD, 22, 22, 3, 0, 0, NONE, 0, 0),
        (FIELD, 23, 23, 0, 0, 0, NONE, 0, 0),
        (FIELD, 24, 24, 0, 0, 0, NONE, 0, 0),
    ],
    "arguments": [(30, 0, 0), (31, 4, 1), (32, 0, 0)],
    "values": [
        (LIST_VALUE, NONE, 3, 2),
        (OBJECT_VALUE, NONE, 5, 2),
        (VARIABLE, NONE, 40, 0),
        (INT, NONE, 7, 0),
        (NULL, NONE, 0, 0),
        (BOOLEAN, 50, 1, 0),
        (LIST_VALUE, 51, 7, 0),
    ],
    "variables": [(40, 3, 1)],
}

INLINES = {
    "types": [(11, OBJECT), (12, UNION), (13, ENUM), (14, SCALAR)],
    "operations": [(0, 0, 0, 0)],
    "sets": [(0, 0, 2), (1, 2, 0), (0, 2, 0)],
    "selections": [(INLINE, 0, 0, 0, 0, 0, 1, 0, 0), (INLINE, 0, 0, 0, 0, 0, 2, 0, 0)],
}

# the images that others are made of
BASES = {"small": FIELD_A, "whole": WHOLE, "inlines": INLINES}
SAYS = {
    "small": "the specimen `{a}`",
    "whole": "a query with a row of every kind",
    "inlines": "an operation on an object, whose set has two inlines that own a set each, the first on a union",
}


class Changed:
    """A base image with some of its words changed."""

    def __init__(self, base, *changes):
        self.base, self.changes = base, changes

    def words(self):
        out = words(BASES[self.base])
        for at, word in self.changes:
            out[at] = word
        return out

    def text(self):
        text = self.base
        for at, word in self.changes:
            text = "changed %s %d %d" % ("(%s)" % text if " " in text else text, at, word)
        return text


def changed(base, table, row, column, word):
    """A base image with one word of a row changed."""
    rows = BASES[base][table]
    at = words(BASES[base])[3 + 2 * TABLES.index(table)] + row * len(rows[row]) + column
    return Changed(base, (at, word))


class Long:
    """A long image that antt builds: a function of the written file at a number, and the words that it must give."""

    def __init__(self, name, n, arguments, values):
        field = (FIELD, 20, 20, 0, 0, len(arguments), NONE, 0, 0)
        self.name, self.n, self.image = name, n, {**FIELD_A, "selections": [field], "arguments": arguments, "values": values}

    def words(self):
        return words(self.image)

    def text(self):
        return "%s %d" % (self.name, self.n)


def with_arguments(n):
    return Long("with_arguments", n, [(30 + i, 0, 0) for i in range(n)], [(INT, NONE, 7, 0)] * n)


def with_members(n):
    return Long("with_members", n, [(30, 0, 0)], [(OBJECT_VALUE, NONE, 1, n)] + [(INT, 50 + i, 7, 0) for i in range(n)])


def with_levels(n):
    return Long("with_levels", n, [(30, 0, 0)], [(LIST_VALUE, NONE, 1 + i, 1) for i in range(n - 1)] + [(LIST_VALUE, NONE, n, 0)])


def one_list(first, count):
    """An argument whose value is a list, and two more values."""
    values = [(LIST_VALUE, NONE, first, count), (INT, NONE, 1, 0), (INT, NONE, 2, 0)]
    return {"types": [(10, SCALAR)], "references": [(NAMED, 0)], "arguments": [(30, 0, 0)], "values": values}


def words_of(image):
    return image if isinstance(image, list) else words(image) if isinstance(image, dict) else image.words()


# title, image or words, then kind, a, b, and for one set its number and the place of its selections
CASES = [
    ("no rows at all", {}, (0, 0, 0), (0, 20, 0)),
    ("`{a}`", Changed("small"), (0, 0, 0), (0, 33, 9)),
    ("a query with a row of every kind", Changed("whole"), (0, 0, 0), (1, 83, 18)),
    ("there is no such set", Changed("whole"), (0, 0, 0), (4, 159, 0)),
    ("sets under an object and under a union", Changed("inlines"), (0, 0, 0), (0, 41, 18)),
    # the header
    ("no words", [], (1, 0, 0), (0, 0, 0)),
    ("one word too few for a header", words(FIELD_A)[:19], (1, 19, 0), (0, 19, 0)),
    ("edition 0", Changed("small", (0, 0), (1, 7)), (1, 0, 0), (0, 42, 0)),
    ("an edition that is not yet", Changed("small", (0, 2)), (1, 0, 0), (0, 42, 0)),
    ("the total is not the length", Changed("small", (1, 41)), (1, 1, 0), (0, 42, 0)),
    ("one type too many", Changed("small", (2, 4097)), (1, 2, 0), (0, 42, 0)),
    ("a count of NONE", Changed("small", (18, NONE)), (1, 18, 0), (0, 42, 0)),
    ("the first offset", Changed("small", (3, 21)), (1, 3, 0), (0, 42, 0)),
    ("a wrong count shows as the next offset", Changed("small", (10, 2)), (1, 13, 0), (0, 42, 0)),
    ("only the last end is wrong", Changed("small", (18, 1)), (1, 20, 0), (0, 42, 0)),
    # types and type references
    ("a type's kind", changed("whole", "types", 0, 1, 6), (4, 0, 0), (0, 56, 27)),
    ("type names that do not ascend", changed("whole", "types", 1, 0, 10), (4, 0, 1), (0, 56, 27)),
    ("a reference's kind", changed("whole", "references", 2, 0, 4), (4, 1, 2), (0, 56, 27)),
    ("a named child that is no type", changed("whole", "references", 3, 1, 4), (4, 1, 3), (0, 56, 27)),
    ("a list of itself", changed("whole", "references", 2, 1, 2), (4, 1, 2), (0, 56, 27)),
    # operations and fragments
    ("an operation's variables", changed("whole", "operations", 0, 1, 2), (4, 2, 0), (0, 56, 27)),
    ("an operation's directives", changed("whole", "operations", 0, 2, NONE), (4, 2, 0), (0, 56, 27)),
    ("an operation without its set", {"operations": [(0, 0, 0, 0)]}, (4, 2, 0), (0, 24, 0)),
    ("a fragment's directives", changed("whole", "fragments", 0, 0, 4), (4, 3, 0), (0, 56, 27)),
    ("a fragment without its set", {"types": [(11, OBJECT)], "operations": [(0, 0, 0, 0)], "fragments": [(0, 0)], "sets": [(0, 0, 0)]}, (4, 3, 0), (0, 31, 0)),
    # sets
    ("a parent that is a scalar", changed("inlines", "sets", 1, 0, 3), (4, 4, 1), (0, 41, 18)),
    ("a parent that is an enum", changed("inlines", "sets", 1, 0, 2), (4, 4, 1), (0, 41, 18)),
    ("a parent that is no type, though what is read there is composite", changed("whole", "sets", 3, 0, 5), (4, 4, 3), (0, 56, 27)),
    ("a gap between two sets", changed("whole", "sets", 1, 1, 4), (4, 4, 1), (1, 92, 18)),
    ("two sets that share a selection", changed("whole", "sets", 1, 1, 2), (4, 4, 1), (1, 74, 18)),
    ("a set past the selections", changed("whole", "sets", 3, 2, 2), (4, 4, 3), (3, 159, 0)),
    # selections
    ("a selection's kind", changed("whole", "selections", 0, 0, 3), (4, 5, 0), (0, 56, 27)),
    ("a field's reference", changed("whole", "selections", 0, 3, 5), (4, 5, 0), (0, 56, 27)),
    ("a field of an input type", changed("whole", "selections", 0, 3, 4), (4, 5, 0), (0, 56, 27)),
    ("a leaf that owns a set", changed("whole", "selections", 0, 6, 2), (4, 5, 0), (0, 56, 27)),
    ("a field's arguments", changed("whole", "selections", 0, 5, 4), (4, 5, 0), (0, 56, 27)),
    ("two arguments of one name", changed("whole", "arguments", 1, 0, 30), (4, 5, 0), (0, 56, 27)),
    ("64 arguments", with_arguments(64), (0, 0, 0), (0, 33, 9)),
    ("65 arguments", with_arguments(65), (4, 5, 0), (0, 33, 9)),
    ("a selection's directives", changed("whole", "selections", 3, 8, 2), (4, 5, 3), (0, 56, 27)),
    ("a set number that is too high", changed("whole", "selections", 1, 6, 3), (4, 5, 1), (0, 56, 27)),
    ("a set number that is too low", changed("inlines", "selections", 1, 6, 1), (4, 5, 1), (0, 41, 18)),
    ("an inline without a set", changed("whole", "selections", 3, 6, NONE), (4, 5, 3), (0, 56, 27)),
    ("a parent unlike the field's innermost type", changed("whole", "sets", 2, 0, 2), (4, 5, 1), (0, 56, 27)),
    ("a spread of no fragment", changed("whole", "selections", 2, 6, 1), (4, 5, 2), (0, 56, 27)),
    ("a spread with a response name", changed("whole", "selections", 2, 1, 9), (4, 5, 2), (0, 56, 27)),
    ("a spread with a name", changed("whole", "selections", 2, 2, 9), (4, 5, 2), (0, 56, 27)),
    ("an inline with a type", changed("whole", "selections", 3, 3, 1), (4, 5, 3), (0, 56, 27)),
    ("a spread with a first argument", changed("whole", "selections", 2, 4, 1), (4, 5, 2), (0, 56, 27)),
    ("an inline with an argument count", changed("whole", "selections", 3, 5, 1), (4, 5, 3), (0, 56, 27)),
    (
        "an inline that stands in the set it owns",
        {"types": [(11, OBJECT)], "operations": [(0, 0, 0, 0)], "sets": [(0, 0, 0), (0, 0, 1)], "selections": [(INLINE, 0, 0, 0, 0, 0, 1, 0, 0)]},
        (4, 5, 0),
        (1, 32, 9),
    ),
    (
        "an inline whose set is not there",
        {"types": [(11, OBJECT)], "operations": [(0, 0, 0, 0)], "sets": [(0, 0, 1)], "selections": [(INLINE, 0, 0, 0, 0, 0, 1, 0, 0)]},
        (4, 5, 0),
        (0, 29, 9),
    ),
    # arguments
    ("an argument's reference", changed("whole", "arguments", 0, 1, 5), (4, 6, 0), (0, 56, 27)),
    ("an argument's default", changed("whole", "arguments", 1, 2, 2), (4, 6, 1), (0, 56, 27)),
    ("an argument without a value", {"types": [(10, SCALAR)], "references": [(NAMED, 0)], "arguments": [(30, 0, 0)]}, (4, 6, 0), (0, 27, 0)),
    # values
    ("a value's kind", changed("whole", "values", 6, 0, 9), (4, 7, 6), (0, 56, 27)),
    ("an argument's value with a key", changed("whole", "values", 0, 1, 5), (4, 7, 0), (0, 56, 27)),
    ("null's atom", changed("whole", "values", 4, 2, 1), (4, 7, 4), (0, 56, 27)),
    ("boolean's atom", changed("whole", "values", 5, 2, 2), (4, 7, 5), (0, 56, 27)),
    ("a count where there are no members", changed("whole", "values", 3, 3, 1), (4, 7, 3), (0, 56, 27)),
    ("a list that claims a row before the next", changed("whole", "values", 0, 2, 2), (4, 7, 0), (0, 56, 27)),
    ("a list that claims a row behind the next", one_list(2, 1), (4, 7, 0), (0, 39, 0)),
    ("an empty list that begins before the next", changed("whole", "values", 6, 2, 6), (4, 7, 6), (0, 56, 27)),
    ("an empty list that begins behind the next", one_list(2, 0), (4, 7, 0), (0, 39, 0)),
    ("an empty list in a row that nobody claimed", {"values": [(LIST_VALUE, NONE, 0, 0)]}, (4, 7, 0), (0, 24, 0)),
    ("a list past the values", changed("whole", "values", 6, 3, 1), (4, 7, 6), (0, 56, 27)),
    ("a list that claims itself", {"values": [(LIST_VALUE, NONE, 0, 1)]}, (4, 7, 0), (0, 24, 0)),
    ("a list's member with a key", changed("whole", "values", 3, 1, 5), (4, 7, 0), (0, 56, 27)),
    ("an object's member without a key", changed("whole", "values", 5, 1, NONE), (4, 7, 1), (0, 56, 27)),
    ("two members of one key", changed("whole", "values", 6, 1, 50), (4, 7, 1), (0, 56, 27)),
    ("256 members", with_members(256), (0, 0, 0), (0, 33, 9)),
    ("257 members", with_members(257), (4, 7, 0), (0, 33, 9)),
    ("64 levels of values", with_levels(64), (0, 0, 0), (0, 33, 9)),
    ("65 levels of values", with_levels(65), (4, 7, 63), (0, 33, 9)),
    # variables
    ("a variable's reference", changed("whole", "variables", 0, 1, 5), (4, 8, 0), (0, 56, 27)),
    ("a variable's default", changed("whole", "variables", 0, 2, 2), (4, 8, 0), (0, 56, 27)),
    # what is left unclaimed
    ("a set that nothing owns", longer(FIELD_A, "sets", (1, 1, 0)), (4, 4, 2), (1, 45, 0)),
    ("a selection in no set", longer(FIELD_A, "selections", FIELD_A["selections"][0]), (4, 5, 2), (0, 33, 9)),
    ("a value that nothing claims", {"values": [(INT, NONE, 8, 0)]}, (4, 7, 1), (0, 24, 0)),
]

HEAD = """-- Images, what the row check shows of each, and where the selections of one set stand: specimens of the tables, and a damaged
-- image for each condition of the row rules; for each limit an image that just keeps it and one past it. One condition has no image of its
-- own: that a leaf owns no set follows from two others. Written by tools/specimens.py. Assumes nothing.
use Rattle.std.specs.Prelude.{ℕ, zero, suc, ◌+◌, ◌-◌, ◌*◌, List, [], ◌∷◌, ◌++◌, set}

pub record Specimen : Type 0 where
  pub image : List ℕ
  -- what kind 1 or 4 shows; all 0 where there is no fault
  pub kind : ℕ
  pub a : ℕ
  pub b : ℕ
  -- a set, and its selections' first word and length
  pub set : ℕ
  pub start : ℕ
  pub words : ℕ

-- an image with the word at a place changed
abbrev pub changed : List ℕ → (at word : ℕ) → List ℕ
changed image at word = set image at word

-- so many rows, each made of its number, which is counted from some number on
abbrev pub rows_of : (n from : ℕ) → (ℕ → List ℕ) → List ℕ
rows_of zero from row = []
rows_of (suc n) from row = row from ++ rows_of n (suc from) row

-- `{a}` with so many arguments and values, whose rows follow
abbrev pub field_with : (n m : ℕ) → List ℕ → List ℕ
field_with n m rows =
    1 ∷ (42 + 3 * n + 4 * m) ∷ 2 ∷ 20 ∷ 1 ∷ 24 ∷ 1 ∷ 26 ∷ 0 ∷ 30 ∷ 1 ∷ 30 ∷ 1 ∷ 33 ∷ n ∷ 42 ∷ m ∷ (42 + 3 * n) ∷ 0 ∷ (42 + 3 * n + 4 * m) ∷
    10 ∷ 0 ∷ 11 ∷ 1 ∷ 0 ∷ 0 ∷ 0 ∷ 0 ∷ 0 ∷ 0 ∷ 1 ∷ 0 ∷ 1 ∷ 0 ∷ 20 ∷ 20 ∷ 0 ∷ 0 ∷ n ∷ 4294967295 ∷ 0 ∷ 0 ∷ rows

-- a field with n arguments
abbrev pub with_arguments : ℕ → List ℕ
with_arguments n = field_with n n (rows_of n 30 (λ i. i ∷ 0 ∷ 0 ∷ []) ++ rows_of n 0 (λ i. 2 ∷ 4294967295 ∷ 7 ∷ 0 ∷ []))

-- an argument whose value is an object of n members
abbrev pub with_members : ℕ → List ℕ
with_members n = field_with 1 (1 + n) (30 ∷ 0 ∷ 0 ∷ 8 ∷ 4294967295 ∷ 1 ∷ n ∷ rows_of n 50 (λ i. 2 ∷ i ∷ 7 ∷ 0 ∷ []))

-- an argument whose value is lists in each other, n levels of them; the innermost is empty
abbrev pub with_levels : ℕ → List ℕ
with_levels n = field_with 1 n (30 ∷ 0 ∷ 0 ∷ (rows_of (n - 1) 1 (λ i. 7 ∷ 4294967295 ∷ i ∷ 1 ∷ []) ++ (7 ∷ 4294967295 ∷ n ∷ 0 ∷ [])))

"""


def antt(ws):
    return " ∷ ".join([str(w) for w in ws] + ["[]"])


def base(name, image):
    """A base image: a line for the header, one for each table, and one for each row of the wide tables."""
    lines = [words(image)[:20]]
    for table in TABLES:
        rows = image.get(table, [])
        lines += rows if table in ("selections", "values") else [[word for row in rows for word in row]] if rows else []
    text = " ∷\n    ".join(" ∷ ".join(map(str, line)) for line in lines)
    return "-- %s\nabbrev pub %s : List ℕ\n%s =\n    %s ∷ []\n\n" % (SAYS[name], name, name, text)


def line(title, image, shown, place):
    text = image.text() if hasattr(image, "text") else antt(words_of(image))
    fields = zip(("kind", "a", "b", "set", "start", "words"), shown + place)
    return "    -- %s\n    record { image = %s; %s } ∷\n" % (title, text, "; ".join("%s = %d" % f for f in fields))


if __name__ == "__main__":
    bases = "".join(base(*pair) for pair in BASES.items())
    print(HEAD + bases + "abbrev pub specimens : List Specimen\nspecimens =\n" + "".join(line(*case) for case in CASES) + "    []")
