"""Documents written by hand, as images: a small fixed schema, and a few words to build trees with."""
from types import SimpleNamespace

from documents import ENUM, FIELD, INLINE, INPUT, INT, INTERFACE, LIST, OBJECT, SCALAR, SPREAD, VARIABLE, Selection, Set, core_of, pack

# Query, Other (objects), Any (interface), Int, String (scalars), E (enum), In (input object)
QUERY, OTHER, ANY, INTEGER, TEXT, CHOICE, INNER = range(7)
KINDS = [OBJECT, OBJECT, INTERFACE, SCALAR, SCALAR, ENUM, INPUT]
LEAF = (0, INTEGER)


def field(name, response=None, ref=LEAF, arguments=(), below=None, directives=()):
    target = None
    if below is not None:
        target = Set(core_of(ref))
        target.selections = list(below)
    return Selection(FIELD, target, response or name, name, ref, arguments, directives)


def down(name, *below):
    """A field of Query that leads to Query, and what is selected there."""
    return field(name, ref=(0, QUERY), below=below)


def spread(fragment):
    return Selection(SPREAD, fragment)


def inline(*below, on=QUERY):
    target = Set(on)
    target.selections = list(below)
    return Selection(INLINE, target)


def argument(value, name=20, place=LEAF, default=0):
    return name, place, default, value


def integers(*atoms):
    return LIST, [(INT, a) for a in atoms]


def variable(name):
    return VARIABLE, name


def document(operations, fragments=(), variables=()):
    """The image of operations and fragments on Query, each a list of selections; `variables` are the first operation's, or each one's."""
    def holder(selections):
        top = Set(QUERY)
        top.selections = list(selections)
        return top

    each = list(variables) if variables and isinstance(variables[0], list) else [list(variables)] + [[]] * len(operations)
    made = SimpleNamespace(schema=SimpleNamespace(kinds=KINDS))
    made.operations = [[holder(o), [], v] for o, v in zip(operations, each)]
    made.fragments = [[holder(f), []] for f in fragments]
    return pack(made)


def chain(n, last):
    """n fragments from number `first` on, each spread in the one before."""
    return lambda first: [[spread(first + i + 1)] for i in range(n - 1)] + [last]


def inlines(n, *last):
    """Inline fragments in each other, n of them, and what is in the last."""
    selections = list(last)
    for _ in range(n):
        selections = [inline(*selections)]
    return selections


def nested(n, *last):
    """Fields in each other, n of them, and what is selected in the last."""
    selections = list(last)
    for _ in range(n):
        selections = [down(2, *selections)]
    return selections
