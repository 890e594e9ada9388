#!/usr/bin/env python3
"""Counts the instructions of a check of images at the very limits of the tables of selections, arguments and values, as
tools/counting.py does it.

    tools/measure_limits.py LIBRARY [COMPILER]      prints `title size rows reply instructions`

LIBRARY is the door's static library, which tools/native_library.sh writes. `replay` does not take images so large: tools/limits_host.c
lends the scratch. The count is that of three calls less that of two, with the budget that the check uses and the scratch that this needs.
"""
import pathlib
import subprocess
import sys
import tempfile

from counting import NATIVE, instructions, output
from image import as_bytes, scratch_needed, words
from worst_images import arguments, lists, names, rows, same

IMAGES = [("names", names, 8192), ("same", same, 8192), ("arguments", arguments, 8192), ("lists", lists, 16384)]
HERE = pathlib.Path(__file__).resolve().parent


def case(image, work):
    ws = words(image)
    return as_bytes([work, scratch_needed(image, work), len(ws), *ws])


def reply(host, given):
    return output([host, "1"], given).decode().split()


def main(library, compiler="cc" if NATIVE else "x86_64-linux-gnu-gcc"):
    with tempfile.TemporaryDirectory() as folder:
        host = folder + "/limits_host"
        subprocess.run([compiler, "-O2", "-static", "-o", host, str(HERE / "limits_host.c"), library], check=True)
        for title, build, size in IMAGES:
            image = build(size)
            given = case(image, int(reply(host, case(image, 100000))[4]))
            count = instructions([host, "3"], given) - instructions([host, "2"], given)
            print(title, size, rows(image), *reply(host, given), count, flush=True)


if __name__ == "__main__":
    main(*sys.argv[1:])
