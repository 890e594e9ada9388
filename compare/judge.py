"""The rule for equal runs: a reply beside what the crate says, in the domain or outside of it by a cause that is named."""
from programs import tables

LIMITS = {"RecursionError", "RecursionLimitError", "DeeplyNestedType"}
COUNTED = (5, *range(9, 17))


def same_value(values, left, right, zipped):
    """Whether two values are the same: as the crate has it, whose zip ends with the shorter list, or with the tail."""
    a, b = values[left], values[right]
    if a[0] != b[0] or a[0] != 7 and a[3] != b[3]:
        return False
    if a[0] == 7:
        return (zipped or a[3] == b[3]) and all(same_value(values, a[2] + i, b[2] + i, zipped) for i in range(min(a[3], b[3])))
    if a[0] == 8:
        keys = {values[b[2] + i][1]: b[2] + i for i in range(b[3])}
        return all(values[m][1] in keys and same_value(values, m, keys[values[m][1]], zipped) for m in range(a[2], a[2] + a[3]))
    return a[2] == b[2]


def same_arguments(image, left, right, zipped):
    a, b = image["selections"][left], image["selections"][right]
    places = {image["arguments"][i][0]: i for i in range(b[4], b[4] + b[5])}
    names = [image["arguments"][i][0] for i in range(a[4], a[4] + a[5])]
    return sorted(names) == sorted(places) and all(
        same_value(image["values"], a[4] + i, places[name], zipped) for i, name in enumerate(names))


def unlike_lists_alone(words, left, right):
    """Whether two fields' arguments differ, and only by the length of lists."""
    image = tables(words)
    return same_arguments(image, left, right, True) and not same_arguments(image, left, right, False)


def is_among(reply, said, classes, with_operation=True):
    kind, operation, a, b = reply[:4]

    def key(one):
        k, o, x, y = one
        place = (classes[x], classes[y]) if k >= 14 else (x, y)
        return (k, o if with_operation and k >= 10 else 0, *place)

    if kind == 0:
        return not said
    return key((kind, operation, a, b)) in {key(one) for one in said}


def judge(words, reply, said, others, classes, with_operation=True):
    """None where both agree in the domain; else ("outside", cause) or ("differs", None)."""
    agree = is_among(reply, said, classes, with_operation)
    kind = reply[0]
    if kind in (6, 7, 8):
        return "outside", "kind %d" % kind
    if kind == 17:
        return "outside", "the budget ran out"
    if LIMITS & set(others):
        return "outside", "the crate reports a limit; %s" % ("the answer is among its diagnostics" if agree else "the answer is not among them")
    if agree:
        return None
    if kind == 16 and unlike_lists_alone(words, reply[2], reply[3]):
        return "outside", "lists of unlike length: 16 here, the same to the crate"
    return "differs", None
