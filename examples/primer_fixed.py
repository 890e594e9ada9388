#!/usr/bin/env python3
"""Packs primer_fixed.graphql: primer.graphql's rows, with another response name in selection row 3.

    examples/primer_fixed.py [FOLDER]     writes primer_fixed.img and primer_fixed.rows.txt (default: beside this file)
"""
from primer import PRIMER, TEXTS, name, write
from image import changed

FIXED = changed(PRIMER, "selections", 3, 1, name("tone"))
TEXTS_FIXED = TEXTS[:3] + [TEXTS[3].replace("pos:", "tone:")] + TEXTS[4:]

if __name__ == "__main__":
    write("primer_fixed", FIXED, TEXTS_FIXED)
