#!/usr/bin/env python3
"""Brings the names of this repository's own definitions and lemmas to Rattle's spelling: words in snake case, no dash, no inner capital.

usage: python3 tools/respell.py     at the top of the repository, once, after the kit's port.py

A name is changed where it is defined in a file of specs/ or proofs/ (a definition, a lemma, a field, a constructor), and wherever it is cited: in
specs/, in proofs/, in the clauses and comments of src/, and in the edits. Types and modules keep their names, and so do functions of src/ and the
names of goals. Where two names fall together, the one with a dash gets `_lem` (TOGETHER has the other cases).
"""
import glob
import re
import sys

# Names that would fall together with another one: (folder, name, new name). The last one that fits is taken.
TOGETHER = [
    ("crates/door/proofs", "no_words", "no_words_lem"),
    ("crates/selection/proofs", "sets_below", "sets_below_lem"),
    ("crates/variable/proofs", "range_at", "range_at_lem"),
    ("crates", "lentBack", "lent_back_with"),
    ("crates", "up-from", "up_from_lem"),
    ("crates", "row-in", "row_in_lem"),
    ("crates", "name-at", "name_at_lem"),
    ("crates", "key-at", "key_at_lem"),
    ("crates", "kind-of", "kind_of_lem"),
    ("crates", "first-at", "first_at_lem"),
    ("crates", "at-start", "at_start_lem"),
]
BREAKS = "\\s(){}\\[\\].;,`\"λ"
TOKEN = re.compile(f"[^{BREAKS}]+")
DEFINED = re.compile(
    r"(?m)^ *(?:abbrev +)?(?:unfoldable +)?(?:pub +)?(?:data +|record +)?([^\s:(){}λ=.]+) *(?:[({][^\n]*)?: "
)


def read(path):
    with open(path, encoding="utf-8") as f:
        return f.read()


def snake(name):
    if name[0].isupper():
        return name
    name = name.replace("getD", "get_or").replace("-", "_")
    return re.sub(r"(?<=[a-z0-9])([A-Z])", lambda m: "_" + m.group(1).lower(), name)


def defined(texts):
    """The names that files of specs/ and proofs/ define, but for the answers to goals."""
    own, goals = set(), set()
    for path, text in texts.items():
        if not path.endswith(".antt"):
            continue
        for m in DEFINED.finditer(text):
            line = text[m.start() : text.find("\n", m.start())]
            if re.match(r" *(--|(let|in|where) )", line):
                continue
            if "tie." in line or "goal." in line or m.group(1).endswith("_spec"):
                goals.add(m.group(1))
            else:
                own.add(m.group(1))
    return own - goals


def table(texts):
    own = defined(texts)
    fixed = {name for _, name, _ in TOGETHER}
    new = {}
    for name in sorted(own):
        if name not in fixed and snake(name) != name:
            new[name] = snake(name)
    for name in [n for n in new if "-" in n]:
        if any(o != name and (new.get(o, o) == new[name]) for o in own if o in new or "-" not in o and o == snake(o)):
            new[name] += "_lem"
    places = {}
    for name, to in new.items():
        places.setdefault(to, []).append(name)
    for to, names in places.items():
        if len(names) > 1:
            sys.exit(f"respell: {names} fall together as {to}")
    return new


def main():
    files = [p for p in glob.glob("crates/**/*", recursive=True) if p.endswith((".antt", ".rt")) and "/out/" not in p]
    edits = glob.glob("crates/*/must-fail/*.edit") + glob.glob("edits/*/*.edit")
    texts = {p: read(p) for p in sorted(files)}
    new = table(texts)
    changed = 0
    for path in sorted(files + edits):
        old = read(path)
        under = "crates/" + path.split("/")[1] + "/proofs" if path.startswith("edits/") else path
        here = dict(new)
        for folder, name, to in TOGETHER:
            if under.startswith(folder):
                here[name] = to
        text = TOKEN.sub(lambda m: here.get(m.group(), m.group()), old)
        if text != old:
            with open(path, "w", encoding="utf-8") as f:
                f.write(text)
            changed += 1
    print(f"respell: {len(new) + len(TOGETHER)} names, {changed} files")


main()
