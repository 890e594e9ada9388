#!/usr/bin/env python3
"""Documents with what the oracle makes of them, a JSON line for each, for against_oracle.mjs.

    desk/compare/oracle_cases.py ORACLE COUNT SEED

ORACLE is the folder with gen.py, pack.py and check.py; it needs graphql-core 3. A line has the schema, the text, the oracle's image and its
reply, and of each cause the line and column of the node that it names.
"""
import json
import random
import sys

sys.dont_write_bytecode = True
WORK = 4000


def places(packed, reply):
    """Where the nodes stand that a reply names."""
    kind, _, a, b, _ = reply
    rows = {5: packed.fragment_nodes, 9: packed.fragment_nodes, 13: packed.argument_nodes, 14: packed.selection_nodes, 15: packed.selection_nodes,
            16: packed.selection_nodes}
    rows.update({kind: packed.variable_nodes for kind in (10, 11, 12)})
    if kind not in rows:
        return []
    named = [a, b] if kind >= 14 else [a]
    tokens = [rows[kind][row].loc.start_token for row in named]
    return [[token.line, token.column] for token in tokens]


def main(oracle, count, seed):
    sys.path.insert(0, oracle)
    import check
    import gen
    import pack
    from image import scratch_for

    for i in range(int(count)):
        schema, text = gen.random_document(random.Random(f"{seed} {i}"), null_defaults=i % 4 == 0)
        case = {"name": f"{seed} {i}", "schema": schema, "text": text}
        try:
            packed = pack.pack(schema, text)
        except pack.PackError as error:
            print(json.dumps({**case, "no_image": str(error)}))
            continue
        reply = check.reply(packed.words, WORK, scratch_for(packed.words, WORK))
        print(json.dumps({**case, "words": packed.words, "reply": reply, "places": places(packed, reply)}))


if __name__ == "__main__":
    if len(sys.argv) != 4:
        sys.exit(__doc__)
    main(*sys.argv[1:])
