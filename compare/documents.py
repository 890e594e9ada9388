"""Random documents by seed, as images: schemas, operations, shared fragments, variables, and conflicts planted near and far.

A document is made as a tree that agrees with its schema and is then packed. Without a plant it is mostly right: a response name stands for
one field with one list of arguments. A plant adds one fault, or what only looks like one.
"""
import sys
from pathlib import Path

sys.path.insert(0, str(Path(__file__).resolve().parent.parent / "tools"))
from image import ENUM, FIELD, INLINE, INPUT, INTERFACE, NONE, OBJECT, SCALAR, SPREAD, UNION, words  # noqa: E402

sys.setrecursionlimit(10000)
PLANTS = ["none", "cycle", "unused fragment", "object variable", "repeated variable", "unused variable", "variable of another type",
          "shape", "name", "arguments", "unlike lists", "looks like a conflict"]
TYPENAME = 10  # a field that every composite type has, of one leaf type and not null
NULLISH, BOOLEAN, INT, FLOAT, STRING, ENUM_VALUE, VARIABLE, LIST, OBJECT_VALUE = range(9)


class Set:
    def __init__(self, parent):
        self.parent, self.selections = parent, []


class Selection:
    """A field (with the type reference of its definition), a spread or an inline fragment."""

    def __init__(self, kind, target=None, response=0, name=0, ref=None, arguments=(), directives=()):
        self.kind, self.target, self.response, self.name, self.ref = kind, target, response, name, ref
        self.arguments, self.directives = list(arguments), list(directives)


class Schema:
    """Types by row; a field is a type reference and its arguments, each with a place. References are (kind, type row or reference)."""

    def __init__(self, rng):
        self.rng = rng
        kinds = [OBJECT] * rng.randint(2, 4) + [INTERFACE] * rng.randint(1, 2) + [UNION] * rng.randint(0, 1) + [SCALAR, SCALAR, ENUM, INPUT]
        rng.shuffle(kinds)
        self.kinds = kinds
        self.leaves = [t for t, k in enumerate(kinds) if k in (SCALAR, ENUM)]
        self.inputs = self.leaves + [kinds.index(INPUT)]
        self.objects, self.interfaces = self.of(OBJECT), self.of(INTERFACE)
        self.composites = self.objects + self.interfaces + self.of(UNION)
        self.wrappers = rng.choice([0, 0.1, 0.4])
        self.fields = {t: {} for t in self.composites}
        for t in self.interfaces + self.objects:
            for name in rng.sample(range(1, 9), rng.randint(2, 4)):
                self.fields[t][name] = self.definition()
        for t in self.objects:
            for i in self.interfaces:
                if rng.random() < 0.6:
                    self.fields[t].update(self.fields[i])
        for t in self.composites:
            self.fields[t][TYPENAME] = ((1, self.leaves[0]), {})

    def of(self, kind):
        return [t for t, k in enumerate(self.kinds) if k == kind]

    def reference(self, core):
        rng, ref = self.rng, (0, core)
        if rng.random() < self.wrappers:
            ref = rng.choice([(1, core), (2, (0, core)), (3, (1, core)), (2, (2, (0, core)))])
        return ref

    def definition(self, core=None):
        rng = self.rng
        if core is None:
            core = rng.choice(self.leaves) if rng.random() < 0.5 else rng.choice(self.composites)
        names = rng.sample(range(20, 24), rng.choice([0, 0, 1, 1, 2]))
        return self.reference(core), {n: (self.place(), rng.choice([0, 0, 1])) for n in names}

    def place(self):
        core = self.rng.choice(self.inputs)
        return self.rng.choice([(0, core), (0, core), (1, core), (2, (0, core)), (2, (1, core)), (3, (1, core))])


def core_of(ref):
    return ref[1] if ref[0] < 2 else core_of(ref[1])


def below(selection_set):
    """A set and all sets below it that belong to its selections."""
    yield selection_set
    for s in selection_set.selections:
        if isinstance(s.target, Set):
            yield from below(s.target)


class Document:
    """Operations and fragments as [set, directives]; an operation also has variables (name, reference, default)."""

    def __init__(self, rng, large=False):
        self.rng, self.schema = rng, Schema(rng)
        self.responses, self.next_name = {}, 100
        self.wild = rng.choice([0, 0, 0, 0.05, 0.3])
        self.variable_rate, self.directive_rate = rng.choice([0, 0.2, 0.5]), rng.choice([0, 0.1, 0.4])
        self.room = rng.randint(4, 30) if rng.random() < 0.97 else 120
        if large:
            self.room = rng.randint(200, 2000)
        self.fragments, self.variable_types = [None] * (rng.randint(5, 25) if large else rng.choice([0, 1, 2, 3, 5])), {}
        for f in reversed(range(len(self.fragments))):
            self.fragments[f] = [self.set(rng.choice(self.schema.composites), 0, f), self.directives()]
        roots = rng.sample(self.schema.objects, 2)
        self.operations = []
        for _ in range(rng.randint(1, 8) if large else rng.choice([1, 1, 1, 2, 3])):
            self.operations.append([self.set(rng.choice([roots[0], roots[0], roots[1]]), 0, -1), self.directives(), []])

    def fresh(self):
        self.next_name += 1
        return self.next_name

    def response(self, name, arguments, ref):
        if self.rng.random() < self.wild:
            return self.rng.randrange(1, 6)
        return self.responses.setdefault((name, repr(arguments), ref), name if not arguments else 30 + len(self.responses))

    def set(self, parent, depth, holder):
        made = Set(parent)
        for _ in range(self.rng.choice([1, 2, 2, 3, 4])):
            made.selections.append(self.selection(parent, depth, holder))
        return made

    def selection(self, parent, depth, holder):
        rng = self.rng
        self.room -= 1
        pick = rng.random()
        if pick < 0.2 and holder + 1 < len(self.fragments):
            return Selection(SPREAD, rng.randrange(holder + 1, len(self.fragments)), directives=self.directives())
        fields = self.schema.fields[parent].items()
        fields = {n: d for n, d in fields if n != TYPENAME and (self.room > 0 and depth < 5 or core_of(d[0]) in self.schema.leaves)}
        if rng.random() < 0.02:
            return self.field(parent, TYPENAME, depth, holder)
        if pick < 0.35 and self.room > 0 and depth < 6 or not fields:
            # At the bottom of things there is a type with a leaf, made one if need be.
            inner = rng.choice(self.schema.objects)
            if self.room <= 0:
                self.schema.fields[inner].setdefault(9, ((0, self.schema.leaves[0]), {}))
                made = self.set(inner, depth + 1, holder)
            else:
                made = self.set(rng.choice(self.schema.composites), depth + 1, holder)
            return Selection(INLINE, made, directives=self.directives())
        return self.field(parent, rng.choice(sorted(fields)), depth, holder)

    def field(self, parent, name, depth, holder):
        ref, places = self.schema.fields[parent][name]
        arguments = self.arguments(places)
        target = None if core_of(ref) in self.schema.leaves else self.set(core_of(ref), depth + 1, holder)
        return Selection(FIELD, target, self.response(name, arguments, ref), name, ref, arguments, self.directives())

    def arguments(self, places):
        return [(n, place, default, self.value(place, default)) for n, (place, default) in places.items() if self.rng.random() < 0.6]

    def directives(self):
        if self.rng.random() >= self.directive_rate:
            return []
        place = self.schema.place()
        return [(self.rng.choice([24, 25]), place, 0, self.value(place, 0))]

    def value(self, place, default, level=0):
        """A value for a place; a variable is named by the type that fits there, and so is one name of one type."""
        rng = self.rng
        if rng.random() < self.variable_rate:
            fits = (place[0] & 2, place[1]) if default and rng.random() < 0.5 else place
            return VARIABLE, self.variable_types.setdefault((fits, rng.random() < 0.3), 200 + len(self.variable_types))
        if rng.random() < 0.05:
            return NULLISH, 0
        if place[0] >= 2:
            return LIST, [self.value(place[1], 0, level + 1) for _ in range(2)]
        kind = self.schema.kinds[core_of(place)]
        if kind == INPUT:
            keys = rng.sample([50, 51, 52], rng.choice([0, 1, 2]) if level < 3 else 0)
            return OBJECT_VALUE, [(k, self.value((0, rng.choice(self.schema.inputs)), 0, level + 1)) for k in keys]
        return (ENUM_VALUE, rng.choice([60, 61])) if kind == ENUM else (rng.choice([INT, INT, STRING, FLOAT, BOOLEAN]), rng.choice([0, 1]))


def variables_in(value):
    kind, inside = value
    if kind == VARIABLE:
        yield inside
    elif kind >= LIST:
        for member in inside:
            yield from variables_in(member if kind == LIST else member[1])


def spread_in(selection_set):
    return [s.target for some in below(selection_set) for s in some.selections if s.kind == SPREAD]


def reached(document, selection_set):
    """The fragments that a set reaches."""
    found, waiting = set(), spread_in(selection_set)
    while waiting:
        f = waiting.pop()
        if f not in found:
            found.add(f)
            waiting += spread_in(document.fragments[f][0])
    return found


def used_names(document, operation):
    """The names of variables that an operation uses."""
    parts = [operation] + [document.fragments[f] for f in sorted(reached(document, operation[0]))]
    lists = [part[1] for part in parts]
    for part in parts:
        for some in below(part[0]):
            lists += [arguments for s in some.selections for arguments in (s.arguments, s.directives)]
    return sorted({name for arguments in lists for argument in arguments for name in variables_in(argument[3])})


def declare(document):
    """Gives each operation the variables that it uses, with types that fit."""
    types = {name: place for (place, _), name in document.variable_types.items()}
    for operation in document.operations:
        for name in used_names(document, operation):
            if document.rng.random() >= 0.02:
                ref, default = types[name], 0
                if document.rng.random() < 0.3 and ref[0] in (1, 3):
                    ref, default = (ref[0] - 1, ref[1]), 1
                operation[2].append((name, ref, default))


def drop_unreached(document):
    """Leaves only fragments that some operation reaches, numbered anew; the order stays."""
    kept = sorted(set().union(*(reached(document, o[0]) for o in document.operations)))
    for holder in document.operations + [document.fragments[f] for f in kept]:
        for some in below(holder[0]):
            for s in some.selections:
                if s.kind == SPREAD:
                    s.target = kept.index(s.target)
    document.fragments = [document.fragments[f] for f in kept]


class Packer:
    """From a document's tree to the tables of an image."""

    def __init__(self, document):
        self.document, self.references, self.arguments = document, {}, []
        schema = document.schema
        self.tables = {"types": [[10 + t, k] for t, k in enumerate(schema.kinds)], "operations": [], "fragments": [], "sets": [], "selections": [],
                       "variables": []}

    def reference(self, ref):
        key = (ref[0], ref[1] if ref[0] < 2 else self.reference(ref[1]))
        return self.references.setdefault(key, len(self.references))

    def range_of(self, arguments):
        first = len(self.arguments)
        self.arguments += arguments
        return [first, len(arguments)]

    def definitions(self):
        for _, directives, variables in self.document.operations:
            first = len(self.tables["variables"])
            self.tables["variables"] += [[name, self.reference(ref), default] for name, ref, default in variables]
            self.tables["operations"].append([first, len(variables)] + self.range_of(directives))
        for _, directives in self.document.fragments:
            self.tables["fragments"].append(self.range_of(directives))

    def sets(self):
        """Sets in the order of their numbers: operations, fragments, then what selections own, in row order."""
        waiting = [holder[0] for holder in self.document.operations + self.document.fragments]
        rows = self.tables["selections"]
        for some in waiting:
            self.tables["sets"].append([some.parent, len(rows), len(some.selections)])
            for s in some.selections:
                target = s.target if s.kind == SPREAD else NONE
                if isinstance(s.target, Set):
                    target = len(waiting)
                    waiting.append(s.target)
                field = [s.response, s.name, self.reference(s.ref)] + self.range_of(s.arguments) if s.kind == FIELD else [0] * 5
                rows.append([s.kind] + field + [target] + self.range_of(s.directives))

    def values(self):
        """Arguments and their values; members follow in the order in which they are claimed."""
        self.tables["arguments"] = [[name, self.reference(place), default] for name, place, default, _ in self.arguments]
        waiting = [(NONE, value) for _, _, _, value in self.arguments]
        rows = self.tables["values"] = []
        for key, (kind, inside) in waiting:
            if kind < LIST:
                rows.append([kind, key, inside, 0])
            else:
                rows.append([kind, key, len(waiting), len(inside)])
                waiting += [(NONE, v) for v in inside] if kind == LIST else inside


def pack(document):
    """The image's words."""
    packer = Packer(document)
    packer.definitions()
    packer.sets()
    packer.values()
    packer.tables["references"] = [list(key) for key in packer.references]
    return words(packer.tables)
