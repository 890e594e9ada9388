#!/usr/bin/env python3
"""Large images, one or more for each limit of the check that a check's time could grow with, each in three sizes.

    tools/worst_images.py                       prints `title size rows words`, one line for each
    tools/worst_images.py TITLE SIZE WORK       writes that case, with that budget, as the program `replay` reads it

An image for `replay` has at most 65,536 words, and a check there at most 262,144 words of scratch. So the largest size is the limit
of the table where that fits, and otherwise a size that does. The images of HOSTILE are made to take long for their size, and have sizes of
several numbers: tools/times.py times them, with scratch that a host lends.
"""
import sys

from image import (
    FIELD, INLINE, INT, INTERFACE, LIST, LIST_VALUE, NAMED, NONE, OBJECT, OBJECT_VALUE, SCALAR, SPREAD, TABLES, VARIABLE, as_bytes, scratch_needed, words,
)

MOST_SCRATCH = 262144
# a scalar and an object; references to each
LEAF, COMPOSITE = 0, 1
BASE = {"types": [(1, SCALAR), (2, OBJECT)], "references": [(NAMED, 0), (NAMED, 1)], "operations": [(0, 0, 0, 0)]}


def leaf(name=3, first=0, count=0):
    return (FIELD, name, name, LEAF, first, count, NONE, 0, 0)


def spread(fragment):
    return (SPREAD, 0, 0, 0, 0, 0, fragment, 0, 0)


def document(sets, **others):
    """A document of these sets, each a list of its selections."""
    rows, first = [], 0
    for selections in sets:
        rows.append((1, first, len(selections)))
        first += len(selections)
    return {**BASE, **others, "sets": rows, "selections": [s for selections in sets for s in selections]}


def later(n, each):
    """n fragments: each spreads as many of those after it as `each` says, the operation the first."""
    sets = [[spread(0)]] + [[spread(j) for j in range(i + 1, min(n, i + 1 + each))] for i in range(n)]
    return document(sets, fragments=[(0, 0)] * n)


def spreads(n):
    """n fragments that each spread the 13 after it: no cycle, a chain of n."""
    return later(n, 13)


def tiers(n):
    """n fragments in 100 tiers or fewer, each fragment spreading all of the next tier: the longest chain is as many as the tiers."""
    wide = -(-n // 100)
    tier = lambda t: range(t * wide, min(n, (t + 1) * wide))
    sets = [[spread(j) for j in tier(0)]] + [[spread(j) for j in tier(i // wide + 1)] for i in range(n)]
    return document(sets, fragments=[(0, 0)] * n)


def loop(n):
    """n fragments, each spreading the next, the last itself: only the last reaches itself."""
    return document([[spread(0)]] + [[spread(min(i + 1, n - 1))] for i in range(n)], fragments=[(0, 0)] * n)


def dense_loop(n):
    """As `spreads`, and the last fragment spreads itself."""
    image = later(n, 13)
    first, count = image["sets"][-1][1:]
    return {**image, "sets": image["sets"][:-1] + [(1, first, count + 1)], "selections": image["selections"] + [spread(n - 1)]}


def two_loops(n):
    """As `dense-loop`, and one more fragment that spreads itself, which nothing else reaches."""
    image = dense_loop(n - 1)
    own = (1, len(image["selections"]), 1)
    return {**image, "fragments": [(0, 0)] * n, "sets": image["sets"] + [own], "selections": image["selections"] + [spread(n - 1)]}


def heavy_loop(n):
    """512 fragments as in `loop`; the last has n fields besides."""
    ways = [[spread(i + 1)] for i in range(511)]
    return document([[spread(0)]] + ways + [[leaf()] * n + [spread(511)]], fragments=[(0, 0)] * 512)


def forward(n):
    """A chain of n fragments, each spreading the next row."""
    return document([[spread(0)]] + [[spread(i + 1)] for i in range(n - 1)] + [[leaf()]], fragments=[(0, 0)] * n)


def backward(n):
    """A chain of n fragments, each spreading the row before."""
    return document([[spread(n - 1)], [leaf()]] + [[spread(i)] for i in range(n - 1)], fragments=[(0, 0)] * n)


def low_first(n, fields):
    """A chain as in `backward`, its last fragment with so many equal fields; the operation spreads all fragments, lowest first."""
    top = [spread(i) for i in range(n)]
    return document([top, [leaf()] * fields] + [[spread(i)] for i in range(n - 1)], fragments=[(0, 0)] * n)


def ordered(n):
    """A chain of n fragments that are all met in the order that helps least."""
    return low_first(n, 1)


def rounds(n):
    """Such a chain of 100 fragments, and n equal fields."""
    return low_first(100, n)


def owners(n, owner):
    """n sets: a top set of n - 1 selections that own one each, of which every fourth has a field."""
    return document([[owner(i) for i in range(1, n)]] + [[leaf()] if i % 4 == 0 else [] for i in range(1, n)])


def inline(i):
    return (INLINE, 0, 0, 0, 0, 0, i, 0, 0)


def composite(i):
    return (FIELD, 10 + i, 3, COMPOSITE, 0, 0, i, 0, 0)


def inlines(n):
    """n sets, owned by inlines."""
    return owners(n, inline)


def objects(n):
    """n sets, owned by fields with different response names."""
    return owners(n, composite)


def parents(n):
    """n fields with one response name, each under an object type of its own."""
    image = document([[inline(i) for i in range(1, n + 1)]] + [[leaf()]] * n)
    own = [(1 + i, *image["sets"][i][1:]) for i in range(1, n + 1)]
    return {**image, "types": BASE["types"] + [(2 + i, OBJECT) for i in range(1, n + 1)], "sets": image["sets"][:1] + own}


def prefixes(n):
    """n fields with sets whose lists are 100 common fields, by a fragment, and then one of their own."""
    top = [composite(1 + i) for i in range(1, n + 1)]
    common = [leaf(10 + i) for i in range(100)]
    return document([top, common] + [[spread(0), inline(1 + n + i)] for i in range(1, n + 1)] + [[leaf()]] * n, fragments=[(0, 0)])


def ends(n):
    """n fields with sets whose lists are a common first field, one of their own, and a common last field, so that all have one key."""
    top = [composite(2 + i) for i in range(1, n + 1)]
    own = [[spread(0), inline(2 + n + i), spread(1)] for i in range(1, n + 1)]
    return document([top, [leaf(10)], [leaf(11)]] + own + [[leaf()]] * n, fragments=[(0, 0), (0, 0)])


def operations(n):
    """n operations that spread one fragment of 100 fields with different response names."""
    return document([[spread(0)]] * n + [[leaf(10 + i) for i in range(100)]], operations=[(0, 0, 0, 0)] * n, fragments=[(0, 0)])


def names(n):
    """One set of n fields with different response names."""
    return document([[leaf(10 + i) for i in range(n)]])


def same(n):
    """One set of n equal fields."""
    return document([[leaf()] * n])


def used_variables(n, times, name=lambda i: 10 + i):
    """n variables with different names, each the value of so many arguments, the last variable first."""
    total = n * times
    fields = [leaf(10 + i, 64 * i, min(64, total - 64 * i)) for i in range(-(-total // 64))]
    return document(
        [fields], operations=[(0, n, 0, 0)], variables=[(name(i), LEAF, 0) for i in range(n)],
        arguments=[(10 + i, LEAF, 0) for i in range(total)], values=[(VARIABLE, NONE, name(n - 1 - i % n), 0) for i in range(total)])


def variables(n):
    """n variables, each used once."""
    return used_variables(n, 1)


def uses(n):
    """n variables, each used seven times."""
    return used_variables(n, 7)


def bits(n):
    """n variables, each used once, whose names agree in all bits but the ten highest, so that the search for one is long."""
    return used_variables(n, 1, lambda i: i << 22)


def arguments(n):
    """Equal fields of 64 arguments, n in all; each field names them in the order opposite to that of the field before."""
    order = lambda i: i % 64 if i // 64 % 2 == 0 else 63 - i % 64
    fields = [leaf(3, 64 * i, 64) for i in range(n // 64)]
    return document(
        [fields], arguments=[(10 + order(i), LEAF, 0) for i in range(n)], values=[(INT, NONE, order(i), 0) for i in range(n)])


def two_fields(values):
    """Two equal fields with an argument each; the first two values are those of the arguments."""
    return document([[leaf(3, 0, 1), leaf(3, 1, 1)]], arguments=[(10, LEAF, 0)] * 2, values=values)


def lists(n):
    """Two equal fields, and n values: for each field 62 lists in each other, the innermost with all the rest of its values."""
    wide = n // 2 - 62
    nests = [(LIST_VALUE, NONE, 2 * level + i, 1) for level in range(1, 62) for i in range(2)]
    ends = [(LIST_VALUE, NONE, 124 + wide * i, wide) for i in range(2)]
    return two_fields(nests + ends + [(INT, NONE, i, 0) for _ in range(2) for i in range(wide)])


def members(n):
    """Two equal fields, each with a list of n objects of 256 members, which the second field gives in the opposite order."""
    heads = [(OBJECT_VALUE, NONE, 2 + 2 * n + 256 * i, 256) for i in range(2 * n)]
    keys = [k if i < n else 255 - k for i in range(2 * n) for k in range(256)]
    return two_fields([(LIST_VALUE, NONE, 2 + n * i, n) for i in range(2)] + heads + [(INT, 10 + k, k, 0) for k in keys])


# title, how it is built, the sizes
IMAGES = [
    ("spreads", spreads, (128, 256, 512)),
    ("tiers", tiers, (100, 200, 400)),
    ("loop", loop, (128, 256, 512)),
    ("dense-loop", dense_loop, (128, 256, 512)),
    ("two-loops", two_loops, (128, 256, 512)),
    ("heavy-loop", heavy_loop, (1500, 3000, 6000)),
    ("forward", forward, (25, 50, 100)),
    ("backward", backward, (25, 50, 100)),
    ("ordered", ordered, (25, 50, 100)),
    ("rounds", rounds, (1600, 3200, 6400)),
    ("operations", operations, (16, 32, 64)),
    ("inlines", inlines, (1024, 2048, 4096)),
    ("objects", objects, (1024, 2048, 4096)),
    ("parents", parents, (700, 1400, 2800)),
    ("prefixes", prefixes, (25, 50, 100)),
    ("ends", ends, (320, 640, 1280)),
    ("names", names, (1792, 3584, 7168)),
    ("same", same, (1792, 3584, 7168)),
    ("variables", variables, (256, 512, 1024)),
    ("uses", uses, (256, 512, 1024)),
    ("bits", bits, (256, 512, 1024)),
    ("arguments", arguments, (1920, 3840, 7680)),
    ("lists", lists, (3840, 7680, 15360)),
    ("members", members, (7, 14, 28)),
]


# ---- images that take long for their size


def towers(depth):
    """References to a scalar through so many levels of lists, in two towers; the last two references are their tops."""
    return [(NAMED, 0), (NAMED, 0)] + [(LIST, i) for i in range(2 * depth - 2)]


def typed(name, reference):
    return (FIELD, name, 3, reference, 0, 0, NONE, 0, 0)


def deep_types(fields, depth):
    """Fields of different names, whose type is so many levels of lists: each field's innermost type is looked for."""
    return document([[typed(10 + i, depth - 1) for i in range(fields)]], references=[(NAMED, 0)] + [(LIST, i) for i in range(depth - 1)])


def deep_shapes(fields, depth):
    """Fields of one name, whose types are two towers: each field's type is compared with the first one's, level by level."""
    top = 2 * depth - 1
    return document([[typed(3, top - (i == 0)) for i in range(fields)]], references=towers(depth))


def usage(number, arguments, depth):
    """Operations that each have so many arguments with one variable in all; its type and that of the places are two towers."""
    top = 2 * depth - 1
    spreads = [[(SPREAD, 0, 0, 0, 0, 0, 0, 0, arguments)]] * number
    return document(
        spreads + [[leaf()]], references=towers(depth), operations=[(0, 1, 0, 0)] * number, fragments=[(0, 0)],
        arguments=[(10 + i, top - 1, 0) for i in range(arguments)], values=[(VARIABLE, NONE, 99, 0)] * arguments, variables=[(99, top, 0)])


def shared_arguments(fields):
    """Fields of different names that all have the same 64 arguments: whose names are compared pairwise, for each field."""
    given = [(10 + i, LEAF, 0) for i in range(64)]
    return document([[leaf(10 + i, 0, 64) for i in range(fields)]], arguments=given, values=[(INT, NONE, 5, 0)] * 64)


def one_sum(lists, number=1):
    """Fields whose lists have three rows each, no two lists alike, and one sum, so one key; so many operations spread them all."""
    singles = 500
    ways = ((a, b, 750 - a - b) for a in range(singles) for b in range(singles))
    picks = [way for way, _ in zip((w for w in ways if 0 <= w[2] < singles and len(set(w)) == 3), range(lists))]
    tops = [[spread(0), spread(1)]] + [[spread(0)]] * (number - 1)
    shared = number + 2 + singles
    fragments = [[composite(shared + i) for i in range(lists)], [spread(2 + i) for i in range(singles)]] + [[leaf(100000 + i)] for i in range(singles)]
    below = [[spread(2 + i) for i in pick] for pick in picks]
    return document(tops + fragments + below, operations=[(0, 0, 0, 0)] * number, fragments=[(0, 0)] * (2 + singles))


def alike(objects, members):
    """Two arguments of one name with the same value: an object of so many members, or a list of such objects."""
    lists = [(LIST_VALUE, NONE, 2 + objects * i, objects) for i in range(2)] if objects > 1 else []
    first = len(lists) + 2 * objects
    heads = [(OBJECT_VALUE, NONE, first + members * i, members) for i in range(2 * objects)]
    return {"arguments": [(10, LEAF, 0)] * 2, "values": lists + heads + [(INT, 100 + k, 5, 0) for _ in heads for k in range(members)]}


def many_fields(fields, objects, members):
    """Equal fields, whose arguments are two values that are long to compare: the first field is compared with each other."""
    return document([[leaf(3, min(i, 1), 1) for i in range(fields)]], **alike(objects, members))


def faces(kinds, fields, objects, members, number=1):
    """One name under so many object types and, so many times, under an interface: each object's field is compared with all of these."""
    first = number + 1
    sets = [[spread(0)]] * number + [[inline(first + i) for i in range(kinds + 1)]] + [[leaf(3, 0, 1)]] * kinds + [[leaf(3, 1, 1)] * fields]
    image = document(sets, references=[(NAMED, 0)], operations=[(0, 0, 0, 0)] * number, fragments=[(0, 0)], **alike(objects, members))
    parents = [1] * first + [3 + i for i in range(kinds)] + [2]
    types = BASE["types"] + [(3, INTERFACE)] + [(4 + i, OBJECT) for i in range(kinds)]
    return {**image, "types": types, "sets": [(parent, *row[1:]) for parent, row in zip(parents, image["sets"])]}


# title, how it is built, the sizes
HOSTILE = [
    ("deep-types", deep_types, ((2048, 2048), (4096, 4096), (8192, 8192))),
    ("deep-shapes", deep_shapes, ((2048, 1024), (4096, 2048), (8192, 4096))),
    ("usage", usage, ((16, 2048, 1024), (32, 4096, 2048), (64, 8192, 4096))),
    ("shared-arguments", shared_arguments, ((2048,), (4096,), (8192,))),
    ("one-sum", one_sum, ((400,), (800,), (1600,), (1600, 37))),
    ("many-fields", many_fields, ((1000, 31, 256), (2000, 31, 256), (4000, 31, 256))),
    ("faces", faces, ((510, 1000, 1, 1), (1020, 2000, 1, 1), (2040, 4000, 1, 1), (2040, 4000, 1, 1, 64), (15, 15, 31, 256), (30, 30, 31, 256))),
]
# the longest that was found for the door: with a budget that just suffices, and with a budget of 1000
AT_THE_DOOR = [("faces", faces, ((38, 94, 1, 187), (13, 36, 1, 69, 10)))]


def rows(image):
    return sum(len(image.get(name, [])) for name in TABLES)


def most_work(image):
    """The largest budget for which the image's scratch is no more than `replay` gives."""
    return (MOST_SCRATCH - scratch_needed(image, 0)) // 8


def case(image, work, scratch):
    """A case as `replay` reads it."""
    ws = words(image)
    return as_bytes([0, work, scratch, len(ws), *ws])


def main(given):
    if given:
        image = {title: build for title, build, _ in IMAGES}[given[0]](int(given[1]))
        sys.stdout.buffer.write(case(image, int(given[2]), scratch_needed(image, int(given[2]))))
        return
    for title, build, sizes in IMAGES:
        for size in sizes:
            print(title, size, rows(build(size)), len(words(build(size))))


if __name__ == "__main__":
    main(sys.argv[1:])
