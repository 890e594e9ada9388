#!/usr/bin/env python3
"""Writes the stored cases of the Rust host's tests: cases of all kinds, the shortest of each.

    tools/store_host_cases.py VECTORS > hosts/rust/tests/cases.bin

VECTORS has the files specimens.txt, generated.txt, damaged.txt and door.txt; the cases of tools/limits.py are taken too. A stored
case is `form, budget, scratch, kind, operation, a, b, used, n, image`: form 0 is the door on n bytes (the words that they spell, then
the bytes left over), form 1 the check on n words with so much lent scratch. Each number w is stored as w + 1 at 32 bits, seven bits
to a byte, low ones first, with 128 added to all bytes but the last: so small words and NONE take one byte.
"""
import pathlib
import struct
import sys

import limits
from vectors import lines, vectors

MOST_BYTES = 2048
DOORS_OF_A_KIND = 3
CHECKS_OF_A_KIND = 2
MOST_SCRATCH = 65536


def packed(number):
    number = (number + 1) % 2**32
    out = []
    while number >= 128:
        out.append(number % 128 + 128)
        number //= 128
    return bytes(out + [number])


def shortest(cases, most):
    """The shortest cases of each kind, so many at most; a case is its numbers before n, and the image."""
    out = {}
    for case in sorted(cases, key=lambda c: len(c[1])):
        of_kind = out.setdefault(case[0][3], [])
        if len(of_kind) < most:
            of_kind.append(case)
    return [case for kind in sorted(out) for case in out[kind]]


def doors(folder):
    for (budget, reply_bytes, _, *reply), text in lines(folder / "door.txt"):
        zeros = text.startswith("zeros ")
        image = bytes(int(text[6:])) if zeros else bytes.fromhex(text)
        if reply_bytes == 20 and len(image) <= MOST_BYTES:
            yield [0, budget, 0, *reply], image


def checks(folder):
    for name in ("specimens.txt", "generated.txt", "damaged.txt"):
        for (work, scratch, *reply), ws in vectors(folder / name):
            if scratch <= MOST_SCRATCH:
                yield [1, work, scratch, *reply], ws
    for _, work, scratch, reply, ws in limits.cases():
        yield [1, work, scratch, *reply], ws


def main(folder):
    folder = pathlib.Path(folder)
    cases = shortest(doors(folder), DOORS_OF_A_KIND) + shortest(checks(folder), CHECKS_OF_A_KIND)
    for head, image in cases:
        numbers = image
        if head[0] == 0:
            n = len(image) // 4
            numbers = struct.unpack_from("<%dI" % n, image) + tuple(image[4 * n :])
        sys.stdout.buffer.write(b"".join(map(packed, [*head, len(image), *numbers])))
    kinds = sorted({head[3] for head, _ in cases})
    print("%d cases, of kinds %s" % (len(cases), " ".join(map(str, kinds))), file=sys.stderr)


if __name__ == "__main__":
    if len(sys.argv) != 2:
        sys.exit(__doc__)
    main(sys.argv[1])
