#!/usr/bin/env python3
"""Packs primer.graphql by hand, row by row: how a document becomes an image.

    examples/primer.py [FOLDER]     writes primer.img and primer.rows.txt (default: beside this file)
"""
import pathlib
import sys

HERE = pathlib.Path(__file__).resolve().parent
sys.path.insert(0, str(HERE.parent / "tools"))
from image import ENUM, ENUM_VALUE, FIELD, NAMED, NONE, NON_NULL, OBJECT, SCALAR, SPREAD, STRING, VARIABLE, as_bytes, words

# A name or an atom is a number; which one is free, but two numbers are equal exactly where the texts are. Types come first, in
# ascending order, since table 0 wants its names so.
NAMES = """Font Glyph Int Point Query Side String
    font name glyph letter width anchor side x y pos tone ABOVE BELOW "ẹ" """.split()


def name(text):
    return 1 + NAMES.index(text)


TYPES = [
    (name("Font"), OBJECT),  # 0
    (name("Glyph"), OBJECT),  # 1
    (name("Int"), SCALAR),  # 2
    (name("Point"), OBJECT),  # 3
    (name("Query"), OBJECT),  # 4
    (name("Side"), ENUM),  # 5
    (name("String"), SCALAR),  # 6
]
FONT, GLYPH, INT, POINT, QUERY, SIDE, TEXT = range(7)

REFERENCES = [
    (NAMED, FONT),  # 0: Font
    (NAMED, GLYPH),  # 1: Glyph
    (NAMED, POINT),  # 2: Point
    (NON_NULL, INT),  # 3: Int!
    (NON_NULL, TEXT),  # 4: String!
    (NON_NULL, SIDE),  # 5: Side!
]

# variable first, count; directive argument first, count
OPERATIONS = [(0, 1, 0, 0)]  # 0: query Primer($font: String!)

# directive argument first, count
FRAGMENTS = [
    (0, 0),  # 0: fragment Mark
    (0, 0),  # 1: fragment Tone
]

# parent type, first selection, count. The operations' sets come first, then the fragments', then those of fields in the order of
# their rows.
SETS = [
    (QUERY, 0, 1),  # 0: query Primer
    (GLYPH, 1, 2),  # 1: fragment Mark
    (GLYPH, 3, 1),  # 2: fragment Tone
    (FONT, 4, 2),  # 3: below font (selection 0)
    (POINT, 6, 2),  # 4: below pos in Tone (selection 3)
    (GLYPH, 8, 2),  # 5: below glyph (selection 5)
    (POINT, 10, 2),  # 6: below pos in Primer (selection 8)
]

# What the selection is; then kind, response name, field name, type reference, argument first, count, target (the set that a field
# owns, the fragment that a spread names), directive argument first, count.
SELECTIONS = [
    # set 0
    ("font(name: $font), in query Primer", (FIELD, name("font"), name("font"), 0, 0, 1, 3, 0, 0)),  # 0
    # set 1
    ("width, in fragment Mark", (FIELD, name("width"), name("width"), 3, 0, 0, NONE, 0, 0)),  # 1
    ("...Tone, in fragment Mark", (SPREAD, 0, 0, 0, 0, 0, 1, 0, 0)),  # 2
    # set 2
    ("pos: anchor(side: ABOVE), in fragment Tone", (FIELD, name("pos"), name("anchor"), 2, 1, 1, 4, 0, 0)),  # 3
    # set 3
    ("name, in query Primer", (FIELD, name("name"), name("name"), 4, 0, 0, NONE, 0, 0)),  # 4
    ('glyph(letter: "ẹ"), in query Primer', (FIELD, name("glyph"), name("glyph"), 1, 2, 1, 5, 0, 0)),  # 5
    # set 4
    ("x, in fragment Tone", (FIELD, name("x"), name("x"), 3, 0, 0, NONE, 0, 0)),  # 6
    ("y, in fragment Tone", (FIELD, name("y"), name("y"), 3, 0, 0, NONE, 0, 0)),  # 7
    # set 5
    ("pos: anchor(side: BELOW), in query Primer", (FIELD, name("pos"), name("anchor"), 2, 3, 1, 6, 0, 0)),  # 8
    ("...Mark, in query Primer", (SPREAD, 0, 0, 0, 0, 0, 0, 0, 0)),  # 9
    # set 6
    ("x, in query Primer", (FIELD, name("x"), name("x"), 3, 0, 0, NONE, 0, 0)),  # 10
    ("y, in query Primer", (FIELD, name("y"), name("y"), 3, 0, 0, NONE, 0, 0)),  # 11
]

# name, type reference of the place, whether the place has a default. Argument a's value is value row a.
ARGUMENTS = [
    (name("name"), 4, 0),  # 0: font(name: ..)
    (name("side"), 5, 0),  # 1: anchor(side: ..) in Tone
    (name("letter"), 4, 0),  # 2: glyph(letter: ..)
    (name("side"), 5, 0),  # 3: anchor(side: ..) in Primer
]

# kind, key (NONE: no member of an object), atom, count
VALUES = [
    (VARIABLE, NONE, name("font"), 0),  # 0: $font
    (ENUM_VALUE, NONE, name("ABOVE"), 0),  # 1
    (STRING, NONE, name('"ẹ"'), 0),  # 2
    (ENUM_VALUE, NONE, name("BELOW"), 0),  # 3
]

# name, type reference, whether it has a default
VARIABLES = [(name("font"), 4, 0)]  # 0: $font: String!

PRIMER = {
    "types": TYPES,
    "references": REFERENCES,
    "operations": OPERATIONS,
    "fragments": FRAGMENTS,
    "sets": SETS,
    "selections": [row for _, row in SELECTIONS],
    "arguments": ARGUMENTS,
    "values": VALUES,
    "variables": VARIABLES,
}
TEXTS = [text for text, _ in SELECTIONS]


def write(stem, image, texts):
    """The image, and beside it what each selection row is in the document."""
    folder = pathlib.Path(sys.argv[1]) if len(sys.argv) > 1 else HERE
    (folder / (stem + ".img")).write_bytes(as_bytes(words(image)))
    lines = ["%d %s\n" % numbered for numbered in enumerate(texts)]
    (folder / (stem + ".rows.txt")).write_text("".join(lines), encoding="utf-8")


if __name__ == "__main__":
    write("primer", PRIMER, TEXTS)
