#!/usr/bin/env python3
"""Writes the oracle's images of the texts of compare/peers, for the desk's tests: a JSON line for each text, its name and its words.

    desk/compare/store_images.py ORACLE > desk/stored/images.jsonl

ORACLE is the folder with pack.py, which needs graphql-core 3.
"""
import json
import pathlib
import sys

sys.dont_write_bytecode = True
PEERS = pathlib.Path(__file__).resolve().parents[2] / "compare/peers"


def main(oracle):
    sys.path.insert(0, oracle)
    import pack

    schema = (PEERS / "schema.graphql").read_text(encoding="utf-8")
    for block in (PEERS / "texts.txt").read_text(encoding="utf-8").split("== ")[1:]:
        head, text = block.split("\n", 1)
        print(json.dumps({"name": head.split("|")[0].strip(), "words": pack.pack(schema, text).words}, separators=(",", ":")))


if __name__ == "__main__":
    if len(sys.argv) != 2:
        sys.exit(__doc__)
    main(sys.argv[1])
