#!/usr/bin/env python3
"""Counts the x86-64 instructions of a check of each image of tools/worst_images.py, as tools/counting.py does it.

    tools/measure.py [TITLE..]      prints `title size rows work kind operation a b used instructions`

`rt run` in crates/replay has built `replay` before.

The budget is what the check uses, the scratch what that budget needs. The count is that of a run of two such cases less that of a run
of one; taken off in the same way is a case that is refused for its budget (kind 2), which costs what `replay` does around a check.
"""
import sys

from counting import REPLAY, of_one, output
from image import scratch_needed
from worst_images import IMAGES, MOST_SCRATCH, case, most_work, rows


def reply(given):
    """The last reply that `replay` prints, without `kept`, which must be 1."""
    out = output(REPLAY, given).split()
    assert out[-1] == b"1", out
    return [int(word) for word in out[-6:-1]]


def measured(image):
    """The budget, the reply and the instructions of a check."""
    used = reply(case(image, most_work(image), MOST_SCRATCH))[4]
    scratch = scratch_needed(image, used)
    given, refused = case(image, used, scratch), case(image, 1000001, scratch)
    assert reply(refused) == [2, 0, 1000001, 0, 0]
    return used, reply(given), of_one(REPLAY, given) - of_one(REPLAY, refused)


def main(titles):
    for title, build, sizes in IMAGES:
        for size in sizes if not titles or title in titles else ():
            image = build(size)
            used, got, count = measured(image)
            print(title, size, rows(image), used, *got, count, flush=True)


if __name__ == "__main__":
    main(sys.argv[1:])
