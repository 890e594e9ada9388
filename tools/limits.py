#!/usr/bin/env python3
"""Images at the limits of the check and one past them, each with the reply that it must get.

    tools/limits.py     prints them in the form of the vector files, `work scratch kind operation a b used : words`
"""
from image import (
    FIELD, INLINE, INT, LIST_VALUE, NAMED, NONE, OBJECT, OBJECT_VALUE, SCALAR, SPREAD, scratch_needed, words,
)

WORK = 1000
# a scalar and an object; references to each
LEAF, COMPOSITE = 0, 1
BASE = {"types": [(1, SCALAR), (2, OBJECT)], "references": [(NAMED, 0), (NAMED, 1)], "operations": [(0, 0, 0, 0)]}


def leaf(arguments=0):
    return (FIELD, 3, 3, LEAF, 0, arguments, NONE, 0, 0)


def lined_up(selections, **others):
    """A document of sets that have one selection each, set i selection i."""
    return {**BASE, **others, "sets": [(1, i, 1) for i in range(len(selections))], "selections": selections}


def chain(n):
    """The operation spreads fragment 0, each fragment spreads the next, and the last has a leaf."""
    spreads = [(SPREAD, 0, 0, 0, 0, 0, i, 0, 0) for i in range(n)]
    return lined_up(spreads + [leaf()], fragments=[(0, 0)] * n)


def links(n):
    """Inline fragments in each other, and a leaf: n links in all."""
    return lined_up([(INLINE, 0, 0, 0, 0, 0, i, 0, 0) for i in range(1, n)] + [leaf()])


def nested(n):
    """Fields in each other: n sets of fields below the top set."""
    return lined_up([(FIELD, 3, 3, COMPOSITE, 0, 0, i, 0, 0) for i in range(1, n + 1)] + [leaf()])


def arguments(n):
    """A field with n arguments."""
    return lined_up([leaf(n)], arguments=[(10 + i, LEAF, 0) for i in range(n)], values=[(INT, NONE, i, 0) for i in range(n)])


def levels(n):
    """An argument whose value is lists in each other, n levels of them; the innermost is empty."""
    lists = [(LIST_VALUE, NONE, i, 1) for i in range(1, n)] + [(LIST_VALUE, NONE, n, 0)]
    return lined_up([leaf(1)], arguments=[(10, LEAF, 0)], values=lists)


def members(n):
    """An argument whose value is an object of n members."""
    return lined_up([leaf(1)], arguments=[(10, LEAF, 0)], values=[(OBJECT_VALUE, NONE, 1, n)] + [(INT, 10 + i, i, 0) for i in range(n)])


def operations(n):
    """So many operations, each with an empty set."""
    return {**BASE, "operations": [(0, 0, 0, 0)] * n, "sets": [(1, 0, 0)] * n}


def deepest(holder):
    """128 nested sets of fields; the innermost has two equal fields, each with an argument of 64 levels of this kind of value, list or object."""
    image = nested(128)
    key = NONE if holder == LIST_VALUE else 10
    heads = [(holder, NONE if level == 1 else key, 2 * level + i, level < 64) for level in range(1, 65) for i in range(2)]
    values = [(kind, at, first if some else 128, int(some)) for kind, at, first, some in heads]
    fields = [(FIELD, 3, 3, LEAF, i, 1, NONE, 0, 0) for i in range(2)]
    return {
        **image, "arguments": [(10, LEAF, 0)] * 2, "values": values, "sets": image["sets"][:-1] + [(1, 128, 2)],
        "selections": image["selections"][:-1] + fields,
    }


FIELD_A = lined_up([leaf()])
NEEDED = scratch_needed(FIELD_A, WORK)

# title, image, reply
ROOMY = [
    ("chain of 100 fragments", chain(100), (0, 0, 0, 0, 4)),
    ("chain of 101 fragments", chain(101), (6, 0, 0, 0, 0)),
    ("500 links", links(500), (0, 0, 0, 0, 4)),
    ("501 links", links(501), (7, 0, 0, 0, 0)),
    ("128 nested sets of fields", nested(128), (0, 0, 0, 0, 516)),
    ("129 nested sets of fields", nested(129), (8, 0, 0, 0, 0)),
    ("64 arguments", arguments(64), (0, 0, 0, 0, 4)),
    ("65 arguments", arguments(65), (4, 0, 5, 0, 0)),
    ("64 levels of values", levels(64), (0, 0, 0, 0, 4)),
    ("65 levels of values", levels(65), (4, 0, 7, 63, 0)),
    ("256 members", members(256), (0, 0, 0, 0, 4)),
    ("257 members", members(257), (4, 0, 7, 0, 0)),
    ("64 operations", operations(64), (0, 0, 0, 0, 128)),
    ("65 operations", operations(65), (1, 0, 6, 0, 0)),
]
# title, image, work, scratch, reply
TIGHT = [
    ("scratch just enough", FIELD_A, WORK, NEEDED, (0, 0, 0, 0, 4)),
    ("scratch one word short", FIELD_A, WORK, NEEDED - 1, (3, 0, NEEDED, 0, 0)),
    ("no budget", FIELD_A, 0, NEEDED, (17, 0, 0, 0, 0)),
    ("budget just enough", FIELD_A, 4, NEEDED, (0, 0, 0, 0, 4)),
    ("budget one unit short", FIELD_A, 3, NEEDED, (17, 0, 0, 0, 2)),
    ("the largest budget", FIELD_A, 1000000, NEEDED, (3, 0, scratch_needed(FIELD_A, 1000000), 0, 0)),
    ("a budget too large", FIELD_A, 1000001, NEEDED, (2, 0, 1000001, 0, 0)),
    ("a budget of NONE", FIELD_A, NONE, 0, (2, 0, NONE, 0, 0)),
]


def cases():
    """(title, work, scratch, reply, words) of each."""
    for title, image, reply in ROOMY:
        yield title, WORK, scratch_needed(image, WORK), reply, words(image)
    for title, image, work, scratch, reply in TIGHT:
        yield title, work, scratch, reply, words(image)


def main():
    for title, work, scratch, reply, ws in cases():
        print("# %s\n%s : %s" % (title, " ".join(map(str, (work, scratch, *reply))), " ".join(map(str, ws))))


if __name__ == "__main__":
    main()
