"""Plants one fault, or what only looks like one, in a random document."""
from documents import (BOOLEAN, ENUM_VALUE, FIELD, INLINE, INT, LIST, OBJECT_VALUE, SPREAD, STRING, TYPENAME, VARIABLE, Document, Selection, Set,
                       below, core_of, declare, drop_unreached)

EARLY = ["shape", "name", "arguments", "unlike lists", "looks like a conflict"]


def add(rng, selection_set, selection):
    selection_set.selections.insert(rng.randint(0, len(selection_set.selections)), selection)


def step(document, selection_set, inner, hops):
    """A set below this one with another parent, by way of so many new fragments or of an inline fragment."""
    rng = document.rng
    for _ in range(hops):
        made = Set(rng.choice([inner, inner, rng.choice(document.schema.composites)]))
        add(rng, selection_set, Selection(SPREAD, len(document.fragments), directives=document.directives()))
        document.fragments.append([made, []])
        selection_set = made
    if selection_set.parent != inner:
        made = Set(inner)
        add(rng, selection_set, Selection(INLINE, made))
        selection_set = made
    return selection_set


def site(document, top, path, parent, hops):
    """The set that a path of fields (response, name, holder, type) leads to, some of its steps by way of fragments."""
    rng, selection_set = document.rng, top
    for response, name, holder, core in path:
        now = rng.randint(0, hops)
        hops -= now
        selection_set = step(document, selection_set, holder, now)
        field = Selection(FIELD, Set(core), response, name, (0, core))
        add(rng, selection_set, field)
        selection_set = field.target
    return step(document, selection_set, parent, hops)


def path_of(document, split):
    """Fields that lead down, by new names; and the same for a second way, which may go by other parents and other types."""
    rng, schema, one, other = document.rng, document.schema, [], []
    for _ in range(rng.choice([0, 0, 1, 1, 2])):
        response = name = document.fresh()
        holder, core = rng.choice(schema.objects + schema.interfaces), rng.choice(schema.composites)
        holder2, core2 = holder, core
        if rng.random() < split:
            holder2, core2 = rng.choice(schema.objects + schema.interfaces), rng.choice(schema.composites)
            if holder2 == holder:
                core2 = core
        for h, c in ((holder, core), (holder2, core2)):
            schema.fields[h][name] = ((0, c), {})
        one.append((response, name, holder, core))
        other.append((response, name, holder2, core2))
    return one, other


def unlike_values(rng, what):
    """Two values that differ, or that differ only in their length as lists, or that are the same in another order."""
    one, two = (INT, 1), (rng.choice([INT, STRING]), rng.choice([0, 2]))
    if what == "unlike lists":
        short = [one] * rng.randint(0, 2)
        pair = [(LIST, short), (LIST, short + [two] * rng.randint(1, 2))]
    elif what == "same":
        keys = rng.sample([50, 51, 52], 2)
        pair = [(OBJECT_VALUE, [(keys[0], one), (keys[1], two)]), (OBJECT_VALUE, [(keys[1], two), (keys[0], one)])]
    else:
        pair = rng.choice([[one, two], [(BOOLEAN, 0), (BOOLEAN, 1)], [(INT, 1), (STRING, 1)], [(STRING, 0), (STRING, 1)],
                           [(ENUM_VALUE, 60), (ENUM_VALUE, 61)], [(LIST, [one, two]), (LIST, [two, one])],
                           [(OBJECT_VALUE, [(50, one)]), (OBJECT_VALUE, [(51, one)])], [(OBJECT_VALUE, [(50, one)]), (OBJECT_VALUE, [])]])
    if rng.random() < 0.3:
        wrap = rng.choice([lambda v: (LIST, [v]), lambda v: (OBJECT_VALUE, [(53, v)])])
        pair = [wrap(v) for v in pair]
    rng.shuffle(pair)
    return pair


def definitions(document, what):
    """The two fields: names, references and arguments."""
    rng, schema = document.rng, document.schema
    core = rng.choice(schema.leaves)
    name, refs, arguments = document.fresh(), [(0, core)] * 2, [[], []]
    names = [name, name]
    if what == "shape":
        other = rng.choice([t for t in schema.leaves if t != core])
        others = [[(0, core), (1, core)], [(0, core), (2, (0, core))], [(0, core), (0, other)], [(0, core), (0, rng.choice(schema.composites))],
                  [(2, (0, core)), (2, (0, other))], [(2, (0, core)), (2, (1, core))], [(3, (0, core)), (2, (0, core))]]
        refs = rng.choice(others)
        if rng.random() < 0.5:
            names[1] = document.fresh()
    elif what == "name":
        names[1] = document.fresh()
    elif what in ("arguments", "unlike lists", "same"):
        place = (0, rng.choice(schema.inputs))
        arguments = [[(20, place, 0, v)] for v in unlike_values(rng, what)]
        more, drop = (21, place, 0, (INT, 1)), rng.random()
        if what == "arguments" and drop < 0.3:
            arguments[rng.randint(0, 1)] = [] if drop < 0.2 else [more]
        elif drop < 0.5:
            arguments = [arguments[0] + [more], [more] + arguments[1]]
        if drop > 0.9:  # over 20 arguments, which the crate looks up otherwise
            many = [(n, place, 0, (INT, 1)) for n in range(300, 300 + rng.choice([18, 20, 40]))]
            arguments = [some + rng.sample(many, len(many)) for some in arguments]
    return list(zip(names, refs, arguments))


def with_typename(document, fields):
    """The first of the two fields as the one that every type has, the second of its type."""
    ref = (1, document.schema.leaves[0])
    return [(TYPENAME, ref, []), (fields[1][0], ref, [])]


def third(document, paths, parents, fields):
    """One field more of that response name, in front or behind: one of the two again, or another one, on some parent."""
    rng = document.rng
    paths.append(rng.choice(paths))
    parents.append(rng.choice(document.schema.objects + document.schema.interfaces))
    name, ref, arguments = rng.choice([f for f in fields if f[0] != TYPENAME])
    fields.append((rng.choice([name, document.fresh()]), ref, rng.choice([arguments, []])))
    if rng.random() < 0.5:
        for some in (paths, parents, fields):
            some.insert(0, some.pop())


def conflict(document, what):
    """Two fields of one response name at two sites below one operation, zero to three fragments from it each."""
    rng, schema = document.rng, document.schema
    top = rng.choice(document.operations)[0]
    looks = what == "looks like a conflict"
    if looks and rng.random() < 0.1:
        two_orders(document)
    if looks:
        what = rng.choice(["name", "arguments", "same"])
    response = document.fresh()
    paths = list(path_of(document, 0.6 if looks else 0.2))
    parents = [rng.choice(schema.objects + schema.interfaces)] * 2
    if looks and what != "same":
        parents = rng.sample(schema.objects, 2)
    elif rng.random() < 0.5:
        parents[1] = rng.choice(schema.interfaces)
    rng.shuffle(parents)
    fields = definitions(document, what)
    if what == "name" and rng.random() < 0.2:
        parents[0], fields = rng.choice(schema.composites), with_typename(document, fields)
    if rng.random() < 0.3:
        third(document, paths, parents, fields)
    sites = [site(document, top, path, parent, rng.choice([0, 0, 1, 2, 3])) for path, parent in zip(paths, parents)]
    for selection_set, (name, ref, arguments) in zip(sites, fields):
        fields_there = schema.fields[selection_set.parent]
        if fields_there.get(name, (ref,))[0] != ref:  # a field has one type
            name = document.fresh()
        fields_there.setdefault(name, (ref, {}))[1].update({n: (p, d) for n, p, d, _ in arguments})
        core = core_of(ref)
        target = Set(core) if core in schema.composites else None
        if target is not None:
            schema.fields[core].setdefault(9, ((0, schema.leaves[0]), {}))
            inner = schema.objects[0] if core not in schema.objects + schema.interfaces else core
            schema.fields[inner].setdefault(9, ((0, schema.leaves[0]), {}))
            step(document, target, inner, 0).selections.append(Selection(FIELD, None, 9, 9, schema.fields[inner][9][0]))
        add(rng, selection_set, Selection(FIELD, target, response, name, ref, arguments))


def two_orders(document):
    """Two fields whose sets spread the same fragments, in one order and in the other."""
    rng, core = document.rng, document.rng.choice(document.schema.objects)
    last = len(document.fragments)
    for _ in range(2):
        made = Set(core)
        made.selections.append(Selection(FIELD, None, document.fresh(), TYPENAME, document.schema.fields[core][TYPENAME][0]))
        document.fragments.append([made, []])
    top = rng.choice(document.operations)[0]
    for order in ((last, last + 1), (last + 1, last)):
        name = document.fresh()
        field = Selection(FIELD, Set(core), name, name, (0, core))
        field.target.selections += [Selection(SPREAD, f) for f in order]
        add(rng, top, field)


def near_a_limit(document):
    """A chain of fragments, inline fragments in each other or fields in each other, about as long as is allowed."""
    rng, some = document.rng, a_set_on_the_first_object(document)
    core = document.schema.objects[0]
    leaf = Selection(FIELD, None, TYPENAME, TYPENAME, document.schema.fields[core][TYPENAME][0])
    length, how = rng.randint(-3, 2), rng.choice(["chain", "links", "nested"])
    name = document.fresh()
    for _ in range({"chain": 100, "links": 499, "nested": 128}[how] + length):
        made = Set(core)
        if how == "chain":
            add(rng, some, Selection(SPREAD, len(document.fragments)))
            document.fragments.append([made, []])
        else:
            add(rng, some, Selection(INLINE, made) if how == "links" else Selection(FIELD, made, name, name, (0, core)))
        some = made
    some.selections.append(leaf)


def a_set_on_the_first_object(document):
    """The set of an operation, or one below it on the type of the first object."""
    top = document.rng.choice(document.operations)[0]
    if top.parent != document.schema.objects[0]:
        return step(document, top, document.schema.objects[0], 0)
    return top


def cycle(document):
    rng = document.rng
    if not document.fragments:
        document.fragments.append([Set(rng.choice(document.schema.composites)), []])
        if rng.random() < 0.8:
            add(rng, document.operations[0][0], Selection(SPREAD, 0))
    f = rng.randrange(len(document.fragments))
    ring = [f] + rng.sample(range(len(document.fragments)), rng.randint(0, min(3, len(document.fragments))))
    for here, there in zip(ring, ring[1:] + ring[:1]):
        add(rng, rng.choice(list(below(document.fragments[here][0]))), Selection(SPREAD, there))


def unused_fragment(document):
    rng = document.rng
    for _ in range(rng.choice([1, 1, 2])):
        inner = rng.choice(document.schema.objects + document.schema.interfaces)
        made = document.set(inner, 3, len(document.fragments))
        if document.fragments and rng.random() < 0.5:
            add(rng, made, Selection(SPREAD, rng.randrange(len(document.fragments))))
        document.fragments.append([made, []])


def a_variable(document, what):
    """Faults of variables, in an operation that has some; it is given one if need be."""
    rng, schema = document.rng, document.schema
    operation = rng.choice(document.operations)
    if not operation[2]:
        place = schema.place()
        operation[1].append((24, place, 0, (VARIABLE, 299)))
        operation[2].append((299, place, 0))
    at = rng.randrange(len(operation[2]))
    name, ref, default = operation[2][at]
    if what == "object variable":
        if rng.random() < 0.3:  # where only a list names it, no rule on usage asks for it
            name = 297
            operation[1].append((25, (2, ref), 0, (LIST, [(VARIABLE, name)])))
            operation[2].append((name, ref, 0))
            at = len(operation[2]) - 1
        operation[2][at] = (name, rng.choice([(0, t) for t in schema.composites] + [(2, (1, schema.objects[0]))]), 0)
    elif what == "repeated variable":
        operation[2].insert(rng.randint(at, len(operation[2])), (name, ref, default))
    elif what == "unused variable":
        used = {v[0] for v in operation[2]}
        elsewhere = [v for o in document.operations for v in o[2] if v[0] not in used]
        operation[2].insert(rng.randint(0, len(operation[2])), rng.choice(elsewhere) if elsewhere and rng.random() < 0.7 else (298, ref, default))
    else:
        inner = (ref[0], (ref[1][0] ^ 1, ref[1][1])) if ref[0] >= 2 else ref
        item = ref[1] if ref[0] >= 2 else (2, ref)
        other = rng.choice([schema.place(), (ref[0] ^ 1, ref[1]), inner, item, (0, rng.choice(schema.inputs))])
        operation[2][at] = (name, other, rng.choice([0, 1, default]))


def planted(rng, what, large=False):
    """A document with one plant."""
    document = Document(rng, large)
    if what in EARLY:
        conflict(document, what)
    elif what == "none" and rng.random() < 0.05:
        near_a_limit(document)
    drop_unreached(document)
    declare(document)
    if what == "cycle":
        cycle(document)
    elif what == "unused fragment":
        unused_fragment(document)
    elif what not in EARLY and what != "none":
        a_variable(document, what)
    if rng.random() < 0.1:
        a_variable(document, rng.choice(["object variable", "repeated variable", "unused variable", "variable of another type"]))
    if rng.random() < 0.5:
        rng.shuffle(document.operations)
    return document
