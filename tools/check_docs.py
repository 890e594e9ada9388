#!/usr/bin/env python3
"""The documents name what there is: each `crates/..`, `tools/..` or `docs/..` path that README.md or docs/*.md writes between
backquotes exists, and a file of crates/ has each name that a document says stands there. Each must-fail edit, those of the gate and those of the folder
edits, is named in docs/STATEMENTS.md, and each edit named there is a file. The text that an edit replaces stands exactly once in its file."""
import pathlib
import re
import sys

from try_edits import edited, edits_of

ROOT = pathlib.Path(__file__).resolve().parent.parent
PATH = re.compile(r"`((?:crates|tools|docs|hosts|examples|compare|edits|desk)/[\w./*-]+|\.ci/run|NOTICE|crates\.txt)`")
EDIT = re.compile(r"`([a-z_0-9]+\.edit)`")
# names and where they stand, as in: `a`, `b` and `c` in `crates/x/specs/Y.antt`, or with the file in brackets
PLACED = re.compile(r"((?:`[^`\n]+`(?:, | and |, and )?)+)\s*(?:\(|in\s+)`(crates/[\w/]+\.(?:antt|rt))`")
QUOTED = re.compile(r"`([^`\n]+)`")


def misplaced(page, text):
    """The names that a page says stand in a file of crates/ and that do not."""
    for names, file in PLACED.findall(text):
        there = (ROOT / file).read_text() if (ROOT / file).exists() else ""
        for name in QUOTED.findall(names):
            word = re.split(r"::|\.", re.split(r"[ (]", name)[0])[-1]
            if "/" not in name and not re.search(r"(?<![\w'])%s(?![\w'])" % re.escape(word), there):
                yield f"{page.name}: no {name} in {file}"


def main():
    pages = [ROOT / "README.md", *sorted((ROOT / "docs").glob("*.md"))]
    wrong = []
    for page in pages:
        text = page.read_text()
        wrong += [f"{page.name}: no {name}" for name in PATH.findall(text) if not list(ROOT.glob(name.rstrip("/")))]
        wrong += misplaced(page, text)
    there = {p.name for folder in ("crates/*/must-fail", "edits/*") for p in ROOT.glob(folder + "/*.edit")}
    named = set(EDIT.findall((ROOT / "docs/STATEMENTS.md").read_text()))
    wrong += [f"STATEMENTS.md does not name {e}" for e in sorted(there - named)]
    wrong += [f"STATEMENTS.md names {e}, which is not there" for e in sorted(named - there)]
    for crate in ROOT.glob("crates/*"):
        for edit in edits_of(ROOT, crate.name):
            try:
                edited(crate, edit)
            except (ValueError, OSError) as says:
                wrong.append(str(says))
    print("\n".join(wrong) or "%d pages, %d edits" % (len(pages), len(there)))
    return 1 if wrong else 0


sys.exit(main())
