#!/usr/bin/env python3
"""Does the generator find mistakes? Each is seeded by itself into a copy of an ordinary implementation, and documents are put to it.

    compare/crate/mutants.py [N] [--oracle FOLDER]

FOLDER (default ../shared/oracle) has the implementation check.py and mutants.py, a list of mistakes that look right; those in kinds 5 to 16
are tried here, and some of this file's own. Two numbers are printed for each: the first seed below N (default 6000) of compare/plants.py
whose document shows it beside the crate, compared as compare/crate/compare.py does, and the first that shows it beside the proved program's
reply. A mistake in charges, in which of several true causes is named first, or that the crate makes too, cannot show beside the crate. One
that makes the implementation fail or run on is found.
Needs the program replay (`rt run` in crates/replay) and target/compare/crate_driver (`compare/crate/build.sh`). Exit 1 where
one is not found.
"""
import argparse
import ast
import random
import signal
import sys
import types
from pathlib import Path

sys.path.insert(0, str(Path(__file__).resolve().parent.parent))
import documents  # noqa: E402
import plants  # noqa: E402
import programs  # noqa: E402
from judge import judge  # noqa: E402

WORK = 4000
LOOK_RIGHT = ["neighbours in shape groups", "neighbours in parent groups", "abstract fields a group of their own", "cycle: lowest that reaches one",
              "known lists shared between passes"]
FIRST = "cycle: lowest that reaches one"
# limits are run in differences.py, budgets and unseen sets in compare/oracle; the last two fail in Python, and stand below as OWN
ELSEWHERE = ["chain", "links", "leaf field no link", "empty field sets nest", "inlines nest", "8 before 7", "two charges", "budget", "charge after",
             "empty sets met", "sets met by fields within", "values: tail of lists", "known lists shared between operations"]
OWN = {
    "own: 12 takes names of all operations": (
        "first, count = query.operations[operation][:2]\n    return range(first, first + count)",
        "return range(0, sum(o[1] for o in query.operations[:operation + 1]))"),
    "own: shape looks at the outer wrapper only": ("        left_ref, right_ref = left_child, right_child\n", "        return True\n"),
    "own: only two fields of a group": (
        "for other in group[1:]:\n                if not same_shape", "for other in group[1:2]:\n                if not same_shape"),
    "own: only the first subgroup": (
        "for group in subgroups_by_parent(self.query, name_group):", "for group in subgroups_by_parent(self.query, name_group)[:1]:"),
    "own: the first field's set alone goes down": (
        "        sets = own_sets(self.query, fields)\n        if sets:", "        sets = own_sets(self.query, fields)[:1]\n        if sets:"),
    "own: only the first operation": (
        "for operation in range(len(query.operations)):\n        fault", "for operation in range(min(1, len(query.operations))):\n        fault"),
    "own: inlines of another type are passed over": (
        "                queue.append(row[6])\n", "                queue += [row[6]] if query.set_parent[row[6]] == query.set_parent[queue[at]] else []\n"),
    "own: fragments of fragments are passed over": (
        "            elif row[6] not in seen_fragments:", "            elif row[6] not in seen_fragments and queue[at] < len(query.operations):"),
    "own: parents compared by the set of the operation": ("return self.set_parent[self.standing[selection]]", "return self.set_parent[0]"),
    "own: atoms of enums and strings ignored": (
        "return left_first == right_first\n\n\ndef same_arguments",
        "return left_first == right_first or left_kind in (V_ENUM, V_STRING)\n\n\ndef same_arguments"),
    "own: lists compared up to the shorter one": (
        "left_count != right_count:\n        return False\n    if left_kind == V_LIST:\n        return all(same_value(query, left_first + i, right_first + i)"
        " for i in range(left_count))",
        "left_kind != V_LIST and left_count != right_count:\n        return False\n    if left_kind == V_LIST:\n        return all(same_value(query, left_first + i,"
        " right_first + i) for i in range(min(left_count, right_count)))"),
    "own: known lists kept over operations": (
        "                self.known = set()\n",
        "                self.known = self.__dict__.setdefault('kept', {}).setdefault(compare_groups.__name__, set())\n"),
    "own: 9 names the highest": (
        "for f in range(len(query.fragments)):\n        if query.fragment_set(f)",
        "for f in reversed(range(0, len(query.fragments), 2)):\n        if query.fragment_set(f)"),
}


def planted(seed):
    what = documents.PLANTS[seed % len(documents.PLANTS)]
    return documents.pack(plants.planted(random.Random(seed), what))


def unseen_by_the_crate(name):
    """Mistakes that name another true cause, only charge otherwise, or are the crate's own: what they say is among its diagnostics."""
    return name.startswith((
        "unreached: spread", "unreached before", "11 and 10", "13 before 12", "13: highest row", "used 0", "10 to 13 of all",
        "known lists by content", "known lists never", "known lists free", "fields below", "groups first", "all names", "parent pass first",
        "abstract fields also", "expand: fragments each", "own: lists compared up to", "own: known lists kept"))


def mistakes(folder):
    """Name, old text and new text of each; read from the list as it is written."""
    tree = ast.parse((folder / "mutants.py").read_text())
    listed = next(ast.literal_eval(n.value) for n in tree.body if isinstance(n, ast.Assign) and n.targets[0].id == "MUTANTS")
    names = list(listed)
    chosen = {n: listed[n] for n in names[names.index(FIRST):] if not n.startswith(tuple(ELSEWHERE))}
    return {**{n: chosen[n] for n in LOOK_RIGHT}, **chosen, **OWN}


def mutant(source, old, new):
    if old not in source:
        sys.exit("not in check.py: %r" % old)
    module = types.ModuleType("mutant")
    exec(compile(source.replace(old, new), "mutant", "exec"), module.__dict__)
    return module


def answer(module, words):
    """The mutant's reply; None where it fails or runs on."""
    signal.alarm(2)
    try:
        return module.reply(words, WORK, programs.scratch_needed(words, WORK))
    except Exception:
        return None
    finally:
        signal.alarm(0)


def hunt(module, known):
    """The first seeds that show the mutant beside the crate and beside the reply; None where there is none."""
    by_crate = by_reply = None
    for seed, (words, reply, (said, others, _, _, classes, _)) in enumerate(known):
        now = answer(module, words)
        if now == reply[:5]:
            continue
        by_reply = seed if by_reply is None else by_reply
        if now is None or judge(words, now, said, others, classes) == ("differs", None):
            return seed, by_reply
    return by_crate, by_reply


def out_of_time(*_):
    raise TimeoutError


def main():
    parser = argparse.ArgumentParser(description=__doc__, formatter_class=argparse.RawDescriptionHelpFormatter)
    parser.add_argument("n", type=int, nargs="?", default=6000)
    parser.add_argument("--oracle", type=Path, default=programs.ROOT.parent / "shared/oracle")
    given = parser.parse_args()
    programs.need_replay()
    programs.need_driver()
    if not (given.oracle / "check.py").exists():
        programs.missing("check.py and mutants.py in %s" % given.oracle)
    signal.signal(signal.SIGALRM, out_of_time)
    sys.setrecursionlimit(20000)
    images = [planted(seed) for seed in range(given.n)]
    cases = [programs.case(words, WORK) for words in images]
    known = list(zip(images, programs.replies(cases), programs.diagnostics(cases)))
    source, missed = (given.oracle / "check.py").read_text(), []
    print("seeds 0 to %d\nby crate  by reply  mistake" % (given.n - 1))
    for name, (old, new) in mistakes(given.oracle).items():
        by_crate, by_reply = hunt(mutant(source, old, new), known)
        print("%8s  %8s  %s%s" % (by_crate, by_reply, name, " (looks right)" if name in LOOK_RIGHT else ""), flush=True)
        if by_reply is None or by_crate is None and not unseen_by_the_crate(name):
            missed.append(name)
    print("%d mistakes, not found: %s" % (len(mistakes(given.oracle)), missed or "none"))
    return 1 if missed else 0


if __name__ == "__main__":
    sys.exit(main())
