#!/usr/bin/env python3
"""The texts of this folder through graphql-core 3, the crate, the oracle and the proved program: a table of what each says.

    compare/peers/run.py [--oracle FOLDER]

FOLDER (default ../shared/oracle) has the oracle check.py and pack.py, which packs texts and needs graphql-core 3 (tried with 3.2.8). Needs
the program replay (`rt run` in crates/replay); the crate's column needs target/compare/crate_driver (`compare/crate/build.sh`) and is empty
without it. texts.txt has for each text its name, the rule it is about, and the kind that the proved program must answer. Exit 1 where
that, or the oracle, differs.
"""
import argparse
import sys
from pathlib import Path

HERE = Path(__file__).resolve().parent
sys.path.insert(0, str(HERE.parent))
import programs  # noqa: E402

WORK = 1000
REASONS = {"conflicting types": 14, "are different fields": 15, "differing arguments": 16}


def texts():
    """(name, rule, kind, text) of each."""
    for block in (HERE / "texts.txt").read_text().split("== ")[1:]:
        head, text = block.split("\n", 1)
        name, rule, kind = (part.strip() for part in head.split("|"))
        yield name, rule, int(kind), text


def core_says(graphql, schema, document):
    """The kinds that graphql-core's rules stand for, by rule and, for merging, by what its message says."""
    rules = {5: graphql.NoFragmentCyclesRule, 9: graphql.NoUnusedFragmentsRule, 10: graphql.VariablesAreInputTypesRule,
             11: graphql.UniqueVariableNamesRule, 12: graphql.NoUnusedVariablesRule, 13: graphql.VariablesInAllowedPositionRule}
    said = {kind for kind, rule in rules.items() if graphql.validate(schema, document, [rule])}
    for error in graphql.validate(schema, document, [graphql.OverlappingFieldsCanBeMergedRule]):
        said |= {kind for words, kind in REASONS.items() if words in error.message}
    return said


def shown(kinds):
    return " ".join(map(str, sorted(kinds))) or "-"


def mark(kind, others):
    """What a row shows: all agree that the kind is there, or that nothing is; or who says otherwise."""
    unlike = [name for name, said in others.items() if said is not None and (kind not in said if kind else said)]
    return "" if not unlike else "otherwise: " + ", ".join(unlike)


def main():
    parser = argparse.ArgumentParser(description=__doc__, formatter_class=argparse.RawDescriptionHelpFormatter)
    parser.add_argument("--oracle", type=Path, default=programs.ROOT.parent / "shared/oracle")
    given = parser.parse_args()
    programs.need_replay()
    check, pack = programs.from_folder(given.oracle, "check", "pack")
    import graphql

    schema = graphql.build_schema((HERE / "schema.graphql").read_text())
    cases = list(texts())
    parsed = [graphql.parse(text) for *_, text in cases]
    images = [pack.pack(schema, document).words for document in parsed]
    given_cases = [programs.case(words, WORK) for words in images]
    replies = programs.replies(given_cases)
    crate = [{one[0] for one in said[0]} for said in programs.diagnostics(given_cases)] if programs.DRIVER.exists() else [None] * len(cases)
    print("graphql-core %s%s" % (graphql.version, "" if programs.DRIVER.exists() else "; missing: target/compare/crate_driver"))
    print("%-58s %-12s %-10s %-7s %-5s" % ("text", "graphql-core", "crate", "oracle", "here"))
    bad = 0
    for (name, rule, kind, _), document, words, reply, said in zip(cases, parsed, images, replies, crate):
        core, oracle = core_says(graphql, schema, document), check.reply(words, WORK, programs.scratch_needed(words, WORK))
        bad += reply[0] != kind or tuple(reply[:5]) != tuple(oracle)
        print("%-58s %-12s %-10s %-7d %-5d %s" % (
            name, shown(core), "" if said is None else shown(said), oracle[0], reply[0], mark(reply[0], {"graphql-core": core, "the crate": said})))
    print("%d texts; the proved program and the oracle are not as stored on %d" % (len(cases), bad))
    return 1 if bad else 0


if __name__ == "__main__":
    sys.exit(main())
