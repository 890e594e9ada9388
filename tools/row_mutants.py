#!/usr/bin/env python3
"""Asks whether the row check's specimens notice each condition of the row rules.

    tools/row_mutants.py        prints how many there are and those that no specimen notices; status 1 if one of these is not excused here

The row rules are written here once more, each condition under a name. A mutant leaves one condition out, or moves one limit by
one, up or down. A specimen notices it if the mutant shows something else than the specimen says.
"""
import sys

from image import FIELD, INLINE, INPUT, LIST, LIST_VALUE, NONE, NULL, BOOLEAN, OBJECT, OBJECT_VALUE, SPREAD, UNION
from specimens import CASES, words_of

WIDTHS = (2, 2, 4, 2, 3, 9, 3, 4, 3)
TYPES, REFERENCES, OPERATIONS, FRAGMENTS, SETS, SELECTIONS, ARGUMENTS, VALUES, VARIABLES = range(9)
# this follows from two others, so that no image can tell: the set would have a leaf for its parent, or another parent than its field's type
FOLLOWS = {"a leaf owns no set"}


class Rows:
    def __init__(self, ws, mutant=None):
        self.words, self.mutant, self.asked = ws, mutant, set()
        self.tables = [[ws[o + w * i : o + w * i + w] for i in range(n)] for w, n, o in zip(WIDTHS, ws[2::2], ws[3::2])]
        self.count = [len(t) for t in self.tables]

    def ask(self, name, holds):
        self.asked.add(name)
        return holds or name == self.mutant

    def limit(self, name, number):
        self.asked |= {name + " -1", name + " +1"}
        return number + {name + " -1": -1, name + " +1": 1}.get(self.mutant, 0)

    def same(self, name, left, right):
        return self.ask(name + ", too low", left >= right) and self.ask(name + ", too high", left <= right)

    def within(self, name, first, count, table):
        return self.ask(name, first + count <= self.count[table])

    def cell(self, table, row, column):
        """As the image is read: whatever stands there, and 0 past its end."""
        at = self.words[3 + 2 * table] + WIDTHS[table] * row + column
        return self.words[at] if at < len(self.words) else 0

    def kind_of(self, row):
        return self.cell(TYPES, row, 1)

    def is_composite(self, kind):
        return self.limit("the first composite kind", OBJECT) <= kind <= self.limit("the last composite kind", UNION)

    def innermost(self, row):
        while LIST <= self.cell(REFERENCES, row, 0):
            if self.cell(REFERENCES, row, 1) >= row:
                return NONE
            row = self.cell(REFERENCES, row, 1)
        return self.cell(REFERENCES, row, 1)

    def type_rule(self, r, row):
        return self.ask("a type's kind", row[1] <= self.limit("the last type kind", INPUT)) and self.ask(
            "type names ascend", r == 0 or self.tables[TYPES][r - 1][0] < row[0] + self.limit("names ascend strictly", 0))

    def reference_rule(self, r, row):
        child = "a list's child is earlier", row[1] < self.limit("a list's child", r)
        if row[0] < LIST:
            child = "a named child is a type", row[1] < self.limit("a named child", self.count[TYPES])
        return self.ask("a reference's kind", row[0] <= self.limit("the last reference kind", 3)) and self.ask(*child)

    def operation_rule(self, r, row):
        return (self.within("an operation's variables", row[0], row[1], VARIABLES) and self.within("an operation's directives", row[2], row[3], ARGUMENTS)
                and self.ask("an operation's set", r < self.count[SETS]))

    def fragment_rule(self, r, row):
        before = 0 if self.ask("fragments' sets come after the operations'", False) else self.count[OPERATIONS]
        return self.within("a fragment's directives", *row, ARGUMENTS) and self.ask("a fragment's set", before + r < self.count[SETS])

    def set_rule(self, r, row):
        start = sum(self.tables[SETS][r - 1][1:]) if r else 0
        return (self.ask("a parent is a type", row[0] < self.count[TYPES]) and self.ask("a parent is composite", self.is_composite(self.kind_of(row[0])))
                and self.same("a set's first selection", row[1], start) and self.within("a set's selections", *row[1:], SELECTIONS))

    def owns(self, row):
        return row[0] == INLINE or row[0] == FIELD and row[6] != NONE

    def field_rule(self, row):
        kind, names = self.kind_of(self.innermost(row[3])), [a[0] for a in self.tables[ARGUMENTS][row[4] : row[4] + row[5]]]
        return (self.ask("a field's reference", row[3] < self.count[REFERENCES]) and self.ask("no field of an input type", kind != INPUT)
                and self.ask("a leaf owns no set", self.is_composite(kind) or row[6] == NONE)
                and self.ask("most arguments", row[5] <= self.limit("most arguments", 64)) and self.within("a field's arguments", row[4], row[5], ARGUMENTS)
                and self.ask("argument names are distinct", len(set(names)) == len(names)))

    def selection_rule(self, r, row):
        blank = all([self.ask("word %d of a spread or an inline" % i, row[i] == 0) for i in range(1, 6)]) if row[0] != FIELD else True
        by_kind = {FIELD: lambda: self.field_rule(row), SPREAD: lambda: self.ask("a spread's fragment", row[6] < self.count[FRAGMENTS]) and blank, INLINE: lambda: blank}
        return (self.within("a selection's directives", row[7], row[8], ARGUMENTS) and by_kind.get(row[0], lambda: self.ask("a selection's kind", False))()
                and (not self.owns(row) or self.owned_rule(r, row)))

    def owned_rule(self, r, row):
        owned = self.count[OPERATIONS] + self.count[FRAGMENTS] + sum(map(self.owns, self.tables[SELECTIONS][:r]))
        home = [s for s, (_, first, count) in enumerate(self.tables[SETS]) if first <= r < first + count]
        return (self.same("an owned set's number", row[6], owned) and self.ask("an owned set is a row", row[6] < self.count[SETS])
                and self.ask("an owned set comes after its owner's", not home or row[6] > self.limit("an owned set after", home[0]))
                and (row[0] == INLINE or self.ask("an owned set's parent", self.cell(SETS, row[6], 0) == self.innermost(row[3]))))

    def argument_rule(self, r, row):
        return (self.ask("an argument's reference", row[1] < self.count[REFERENCES]) and self.ask("an argument's default", row[2] <= self.limit("an argument's default", 1))
                and self.ask("an argument's value", r < self.count[VALUES]))

    def level(self, r):
        if r < self.count[ARGUMENTS]:
            return 1
        return next((1 + self.level(u) for u in range(r) if self.tables[VALUES][u][0] >= LIST_VALUE and 0 <= r - self.tables[VALUES][u][2] < self.tables[VALUES][u][3]), 0)

    def value_rule(self, r, row):
        own = self.ask("an argument's value has no key", r >= self.count[ARGUMENTS] or row[1] == NONE)
        kind = self.ask("a value's kind", row[0] <= self.limit("the last value kind", OBJECT_VALUE))
        return kind and own and (self.claim_rule(r, row) and self.keys_rule(row) if row[0] >= LIST_VALUE else self.atom_rule(row))

    def atom_rule(self, row):
        return (self.ask("atoms have no members", row[3] == 0) and self.ask("null's atom", row[0] != NULL or row[2] == 0)
                and self.ask("boolean's atom", row[0] != BOOLEAN or row[2] <= self.limit("boolean's atom", 1)))

    def claim_rule(self, r, row):
        unclaimed = self.count[ARGUMENTS] + sum(v[3] for v in self.tables[VALUES][:r] if v[0] >= LIST_VALUE)
        return (self.ask("claimed rows lie after", row[3] == 0 or r < unclaimed) and self.ask("so for empty ones", row[3] > 0 or r < unclaimed)
                and (self.same("the next unclaimed row", row[2], unclaimed) if row[3] else self.same("the same of empty ones", row[2], unclaimed))
                and self.within("members are values", row[2], row[3], VALUES)
                and self.ask("no members at the deepest level", self.level(r) < self.limit("the deepest level", 64) or row[3] == 0))

    def keys_rule(self, row):
        keys = [v[1] for v in self.tables[VALUES][row[2] : row[2] + row[3]]]
        if row[0] == LIST_VALUE:
            return self.ask("list members have no key", all(k == NONE for k in keys))
        return (self.ask("most members", row[3] <= self.limit("most members", 256)) and self.ask("object members have a key", NONE not in keys)
                and self.ask("keys are distinct", len(set(keys)) == len(keys)))

    def variable_rule(self, r, row):
        return self.ask("a variable's reference", row[1] < self.count[REFERENCES]) and self.ask("a variable's default", row[2] <= self.limit("a variable's default", 1))

    def fault(self):
        """Table and row, or None."""
        rules = (self.type_rule, self.reference_rule, self.operation_rule, self.fragment_rule, self.set_rule, self.selection_rule, self.argument_rule,
                 self.value_rule, self.variable_rule)
        for table, rule in enumerate(rules):
            for r, row in enumerate(self.tables[table]):
                if not rule(r, row):
                    return table, r
        owned = self.count[OPERATIONS] + self.count[FRAGMENTS] + sum(map(self.owns, self.tables[SELECTIONS]))
        listed = sum(self.tables[SETS][-1][1:]) if self.tables[SETS] else 0
        claimed = self.count[ARGUMENTS] + sum(v[3] for v in self.tables[VALUES] if v[0] >= LIST_VALUE)
        for table, n in ((SETS, owned), (SELECTIONS, listed), (VALUES, claimed)):
            if not self.ask("nothing unclaimed in table %d" % table, self.count[table] <= n):
                return table, self.count[table]
        return None


def shown(ws, mutant=None):
    rows = Rows(ws, mutant)
    found = rows.fault()
    return ((4, *found) if found else (0, 0, 0)), rows.asked


def main():
    cases = [(title, words_of(image), says) for title, image, says, _ in CASES if says[0] != 1]
    names = set()
    for title, ws, says in cases:
        got, asked = shown(ws)
        assert got == says, (title, got, says)
        names |= asked
    unseen = sorted(n for n in names if all(shown(ws, n)[0] == says for _, ws, says in cases))
    print("%d conditions and limits; not noticed: %s" % (len(names), "; ".join(unseen) or "none"))
    return 1 if set(unseen) - FOLLOWS else 0


if __name__ == "__main__":
    sys.exit(main())
