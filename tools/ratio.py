#!/usr/bin/env python3
"""Counts the instructions of a check of each image of tools/door_images.py, beside those of another program that does the same check.

    tools/ratio.py COMMAND..                    prints `title rows reply ours theirs ratio`
    tools/ratio.py --vectors FOLDER COMMAND..   the vectors of kinds 0 and 14 to 17 in FOLDER's specimens.txt and generated.txt, as one
                                                input: prints `cases rows used ours theirs ratio`

`rt run` in crates/replay has built `replay` before. COMMAND reads cases of the check as `replay` does, from standard input, and prints
the same lines. Each case has the scratch that the door gives and the largest budget that this scratch allows. Counted as tools/measure.py
does it.
"""
import sys

from counting import REPLAY, of_one, output
from door_images import IMAGES
from image import as_bytes, scratch_needed
from store_replay import fits
from vectors import vectors
from worst_images import case, rows

SCRATCH = 16384
TOO_MUCH = 1000001


def counted(command, image, work):
    """A check of the image, less one that is refused for its budget."""
    return of_one(command, case(image, work, SCRATCH)) - of_one(command, case(image, TOO_MUCH, SCRATCH))


def images(other):
    for build in IMAGES:
        image = build()
        work = (SCRATCH - scratch_needed(image, 0)) // 8
        given = case(image, work, SCRATCH)
        ours = output(REPLAY, given)
        assert ours == output(other, given), build.__name__
        a, b = counted(REPLAY, image, work), counted(other, image, work)
        print(build.__name__, rows(image), *ours.decode().split(), a, b, "%.2f" % (a / b), flush=True)


def stored(folder, other):
    cases = [v for name in ("specimens.txt", "generated.txt") for v in vectors(f"{folder}/{name}")]
    cases = [(head, ws) for head, ws in cases if head[2] in (0, 14, 15, 16, 17) and fits(head[1], ws)]

    def together(budget):
        return b"".join(as_bytes([0, budget or head[0], head[1], len(ws), *ws]) for head, ws in cases)

    given, refused = together(None), together(TOO_MUCH)
    ours = output(REPLAY, given)
    assert ours == output(other, given) == b"".join(b"%d %d %d %d %d 1\n" % tuple(head[2:]) for head, ws in cases)
    a, b = (of_one(command, given) - of_one(command, refused) for command in (REPLAY, other))
    all_rows = sum(ws[2 * table + 2] for head, ws in cases for table in range(9))
    print(len(cases), all_rows, sum(head[6] for head, ws in cases), a, b, "%.2f" % (a / b))


def main(arguments):
    if arguments[0] == "--vectors":
        stored(arguments[1], arguments[2:])
    else:
        images(arguments)


if __name__ == "__main__":
    main(sys.argv[1:])
