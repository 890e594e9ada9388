#!/usr/bin/env python3
"""Times the check beside another one that does the same, on this machine, in turn in one process.

    tools/times.py LIBRARY OTHER            the images of tools/door_images.py, each with the scratch that the door gives and the largest budget
                                            that this allows: prints `title rows`, then what tools/times_host.c prints
    tools/times.py --hostile LIBRARY OTHER [TITLE..]    those of HOSTILE and AT_THE_DOOR in tools/worst_images.py, with the budget that is used
                                                        and the scratch that this needs: prints `title size rows bytes`, then the same

LIBRARY is the door's static library, which tools/native_library.sh writes. OTHER is a static library that exports `void other_check(const
uint32_t *image, size_t image_words, uint32_t budget, size_t scratch_words, uint32_t *reply)`; what it must be linked with besides stands in
the variable LINK.
"""
import os
import pathlib
import subprocess
import sys
import tempfile

from door_images import IMAGES
from image import NONE, as_bytes, scratch_needed, words
from worst_images import AT_THE_DOOR, HOSTILE, rows

HERE = pathlib.Path(__file__).resolve().parent
DOOR_SCRATCH = 16384


def case(image, work, scratch):
    ws = words(image)
    return as_bytes([work, scratch, len(ws), *ws])


def run(host, given):
    return subprocess.run([host], input=given, capture_output=True, check=True).stdout.decode().split()


def door_images(host):
    for build in IMAGES:
        image = build()
        work = (DOOR_SCRATCH - scratch_needed(image, 0)) // 8
        print(build.__name__, rows(image), *run(host, case(image, work, DOOR_SCRATCH)), flush=True)


def hostile(host, titles):
    for title, build, sizes in HOSTILE + AT_THE_DOOR:
        for size in sizes if not titles or title in titles else ():
            image = build(*size)
            given = case(image, NONE, scratch_needed(image, 0))
            print(title, "x".join(map(str, size)), rows(image), 4 * len(words(image)), *run(host, given), flush=True)


def main(given):
    wants_hostile = given[0] == "--hostile"
    library, other, *titles = given[wants_hostile:]
    with tempfile.TemporaryDirectory() as folder:
        host = folder + "/times_host"
        link = os.environ.get("LINK", "-lpthread -ldl -lm").split()
        subprocess.run(["cc", "-O2", "-o", host, str(HERE / "times_host.c"), library, other, *link], check=True)
        hostile(host, titles) if wants_hostile else door_images(host)


if __name__ == "__main__":
    main(sys.argv[1:])
