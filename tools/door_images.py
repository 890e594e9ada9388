"""Fourteen documents that need nearly all of the scratch that the door gives, as images: a shape of query each.

Sets are nested lists of selections: a field as ("field", name, reference, arguments, set or None), a spread as ("spread", fragment),
an inline fragment as ("inline", parent, set).
"""
import random

from image import FIELD, INLINE, INT, INTERFACE, NAMED, NONE, OBJECT, SCALAR, SPREAD, VARIABLE

LEAF, QUERY, FACE, FIRST_OBJECT = 0, 1, 2, 3


def leaf(name, arguments=()):
    return ("field", 1000 + name, LEAF, arguments, None)


def field(name, below):
    return ("field", 1000 + name, QUERY, (), below)


def document(operations, fragments=(), variables=(), objects=0):
    """The tables of a document; its sets are numbered in the order in which they are met."""
    kinds = [SCALAR, OBJECT, INTERFACE] + [OBJECT] * objects
    sets = [(QUERY, below) for below in operations] + [(QUERY, below) for below in fragments]
    image = {"types": [(100 + i, kind) for i, kind in enumerate(kinds)], "references": [(NAMED, i) for i in range(len(kinds))],
             "operations": [(0, len(variables) if i == 0 else 0, 0, 0) for i in range(len(operations))],
             "fragments": [(0, 0)] * len(fragments), "sets": [], "selections": [], "arguments": [], "values": [], "variables": list(variables)}
    at = 0
    while at < len(sets):
        parent, below = sets[at]
        at += 1
        image["sets"].append((parent, len(image["selections"]), len(below)))
        for selection in below:
            image["selections"].append(row(image, sets, selection))
    return image


def row(image, sets, selection):
    """The row of a selection; its own set goes to the end of the sets, its arguments to that of their table."""
    if selection[0] == "spread":
        return (SPREAD, 0, 0, 0, 0, 0, selection[1], 0, 0)
    if selection[0] == "inline":
        sets.append(selection[1:])
        return (INLINE, 0, 0, 0, 0, 0, len(sets) - 1, 0, 0)
    _, name, reference, arguments, below = selection
    first = len(image["arguments"])
    for argument, kind, atom in arguments:
        image["arguments"].append((argument, 0, 0))
        image["values"].append((kind, NONE, atom, 0))
    if below is None:
        return (FIELD, name, name, reference, first, len(arguments), NONE, 0, 0)
    sets.append((reference, below))
    return (FIELD, name, name, reference, first, len(arguments), len(sets) - 1, 0, 0)


def spread(fragment):
    return ("spread", fragment)


def shared_fragments():
    """Many fields that spread the same few fragments, in several orders."""
    rng = random.Random(1)
    orders = [rng.sample(range(8), 4) for _ in range(8)]
    return document([[field(i, [spread(f) for f in orders[i % 8]]) for i in range(56)]], [[leaf(100 * f + i) for i in range(6)] for f in range(8)])


def flat_names():
    """One set of different names."""
    return document([[leaf(i * 7919 % 100003) for i in range(372)]])


def nested():
    """A deep tower."""
    below = [leaf(1)]
    for _ in range(122):
        below = [leaf(2), field(3, below)]
    return document([below])


def flat_repeated():
    """One set of a few names, over and over."""
    return document([[leaf(i % 12) for i in range(372)]])


def flat_objects():
    """One name under many object types."""
    return document([[("inline", FIRST_OBJECT + i, [leaf(1)]) for i in range(100)] + [leaf(i) for i in range(2, 60)]], objects=100)


def flat_faces():
    """Names under a dozen object types and an interface."""
    names = lambda: [leaf(j) for j in range(12)]
    return document([[("inline", FIRST_OBJECT + i, names()) for i in range(12)] + [("inline", FACE, names()) for _ in range(10)]], objects=12)


def shared_front():
    """Known lists of one length that differ at their ends only, each met over and over."""
    fragments = [[leaf(i) for i in range(20)]] + [[leaf(100 + i)] for i in range(6)]
    return document([[field(i, [spread(0), spread(1 + i % 6)]) for i in range(88)]], fragments)


def doubling(n=56):
    """Each fragment spreads the next twice, below two fields."""
    return document([[spread(0)]], [[field(1, [spread(i + 1)]), field(2, [spread(i + 1)])] for i in range(n - 1)] + [[leaf(3)]])


def doubling_back(n=56):
    """The same, numbered the other way round."""
    return document([[spread(n - 1)]], [[leaf(3)]] + [[field(1, [spread(i - 1)]), field(2, [spread(i - 1)])] for i in range(1, n)])


def two_towers():
    """Two towers side by side under one name."""
    one, other = [leaf(1), leaf(1)], [leaf(1)]
    for _ in range(50):
        one, other = [leaf(2), field(3, one)], [leaf(2), field(3, other), leaf(4)]
    return document([[one[1], other[1], leaf(9)]])


def with_arguments():
    """Fields with three arguments."""
    return document([[leaf(i % 10, [(500 + j, INT, 600 + j) for j in range(3)]) for i in range(85)]])


def with_variables():
    """Fields that use variables."""
    fields = [leaf(i, [(500, VARIABLE, 700 + i % 30), (501, INT, 5)]) for i in range(120)]
    return document([fields], variables=[(700 + v, 0, 0) for v in range(30)])


def many_operations():
    """Operations that share a fragment."""
    return document([[leaf(i), field(99, [spread(0)])] for i in range(52)], [[leaf(50 + i) for i in range(3)]])


def screens():
    """A query of some screens: nested fields, a few fragments here and there, some objects and arguments."""
    rng = random.Random(7)

    def some(depth):
        out = [leaf(200 + rng.randrange(40)) for _ in range(rng.randrange(2, 5))]
        out += [spread(rng.randrange(6)) for _ in range(rng.randrange(0, 3))]
        if depth:
            out += [field(300 + rng.randrange(6), some(depth - 1)) for _ in range(rng.randrange(1, 4))]
            if rng.random() < 0.4:
                out.append(("inline", FIRST_OBJECT + rng.randrange(6), some(depth - 1)))
        return out

    fragments = [[leaf(10 * f + i, [(500, INT, 600)] if i == 0 else []) for i in range(5)] for f in range(6)]
    return document([[spread(f) for f in range(6)] + some(3)], fragments, objects=6)


IMAGES = [shared_fragments, flat_names, nested, flat_repeated, flat_objects, flat_faces, shared_front, doubling, doubling_back, two_towers,
          with_arguments, with_variables, many_operations, screens]
