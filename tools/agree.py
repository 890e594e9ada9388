#!/usr/bin/env python3
"""Runs the program `replay` over its stored cases and prints how many of its answers are the stored ones; exit 0 where all are.

`rt ci`, or `rt run` in crates/replay, has built the program before. The stored answers are those of the open vectors and of the limits
(tools/store_replay.py).
"""
import pathlib
import subprocess

ROOT = pathlib.Path(__file__).resolve().parent.parent
STORED = ROOT / "crates/replay"


def main():
    given = (STORED / "stdin").read_bytes()
    answers = subprocess.run([ROOT / "tools/program", "replay"], input=given, capture_output=True, check=True).stdout.splitlines()
    stored = (STORED / "stdout").read_bytes().splitlines()
    agree = sum(a == b for a, b in zip(answers, stored))
    print("replay: %d of %d stored answers agree" % (agree, max(len(stored), len(answers))))
    return agree == len(stored) == len(answers)


if __name__ == "__main__":
    raise SystemExit(0 if main() else 1)
