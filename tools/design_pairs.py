"""Sets side by side what differs from a commit: python3 tools/design_pairs.py COMMIT functions|laws

Functions of crates/*/src with `pub`, by crate and name (a method by its own name), with their clauses; and the names of proofs/ (but for those in
the folders of functions), by crate and file, at any indentation, private ones too, but none that is local to a proof: those whose statement's text
differs from the commit's, those that moved to another file of their crate's proofs/ or specs/, and those that went. The last lines count them.
"""
import re
import subprocess
import sys


def git(*words):
    return subprocess.run(["git", *words], capture_output=True, text=True, check=True).stdout


def files(commit, part, ending):
    """(crate, path, text) of the files of a part of each crate, in the tree or at a commit."""
    names = git("ls-tree", "-r", "--name-only", commit, "crates") if commit else git("ls-files", "crates")
    for name in names.split():
        words = name.split("/")
        if words[2] == part and name.endswith(ending):
            yield words[1], name, git("show", f"{commit}:{name}") if commit else open(name, encoding="utf-8").read()


def flat(text):
    return re.sub(r",? ?\)", ")", re.sub(r"\( ", "(", re.sub(r"\s+", " ", text))).strip()


def functions(commit):
    """{(crate, name): [signature and clauses]} of the public functions."""
    found = {}
    for crate, name, text in files(commit, "src", ".rt"):
        text = "\n".join(line for line in text.splitlines() if not line.strip().startswith("//"))
        for m in re.finditer(r"^ *pub (?:extern \"C\" )?fn (\w+).*?(?=^ *\{\n)", text, re.M | re.S):
            found.setdefault((crate, m.group(1)), []).append(flat(m.group(0)))
    return found


HEAD = re.compile(r"( *)((?:(?:abbrev|unfoldable|pub|record|data) )*)([^\s:(){}]+)(?= :(?: |$))")
TYPE = re.compile(r"( *)((?:(?:abbrev|unfoldable|pub) )*(?:record|data) )([^\s:(){}]+)")


def declared(text):
    """(name, whether it is pub, statement) of each name that a file declares, fields and constructors among them."""
    lines = [line.rstrip() for line in text.splitlines() if line.strip() and not line.strip().startswith("--")]
    found, blocks, head = [], [], False
    for i, line in enumerate(lines):
        indent = len(line) - len(line.lstrip())
        if head:  # a head of more than one line
            head = not line.endswith("where")
            continue
        while blocks and indent <= blocks[-1][0]:
            blocks.pop()
        if line.strip().startswith("module "):
            blocks.append((indent, "module", True))
            head = not line.endswith("where")
            continue
        at = blocks[-1] if blocks else (-2, "module", True)
        of_type = TYPE.match(line)
        m = of_type or HEAD.match(line)
        if m and at[1] != "proof" and indent == at[0] + 2:
            public = "pub " in m.group(2) or at[1] == "data" and at[2]
            end = next((k for k in range(i + 1, len(lines)) if len(lines[k]) - len(lines[k].lstrip()) <= indent), len(lines))
            # of a type's statement its head alone: its fields are names of their own
            if of_type:
                end = next(k for k in range(i, end) if lines[k].endswith("where")) + 1
            found.append((m.group(3), public, flat("\n".join(lines[i:end]))))
        if of_type and at[1] != "proof":
            blocks.append((indent, "data" if "data " in m.group(2) else "record", "pub " in m.group(2)))
            head = not line.endswith("where")
        elif line.endswith(" where") or line.strip() == "where":
            blocks.append((indent, "proof", False))
    return found


def laws(commit, part="proofs"):
    """{(crate, file, name): [(whether it is pub, statement)]}"""
    found = {}
    for crate, name, text in files(commit, part, ".antt"):
        if len(name.split("/")) == 4:
            for law, public, statement in declared(text):
                found.setdefault((crate, f"{part}/{name.split('/')[3]}", law), []).append((public, statement))
    return found


def compared(old, new):
    for key in sorted(old):
        if key not in new:
            yield key, old[key], None
        elif sorted(old[key]) != sorted(new[key]):
            yield key, [t for t in old[key] if t not in new[key]], [t for t in new[key] if t not in old[key]]


def print_functions(commit):
    for (crate, name), old, new in compared(functions(commit), functions(None)):
        print(f"{crate} {name}: gone" if new is None else f"{crate} {name}")
        for t in old:
            print("    -", t)
        for t in new or []:
            print("    +", t)


def print_laws(commit):
    old, new = laws(commit), laws(None)
    before, now = {**old, **laws(commit, "specs")}, {**new, **laws(None, "specs")}
    counts = {}

    def count(crate, public, what):
        for key in ((crate, public, what), ("all", public, what)):
            counts[key] = counts.get(key, 0) + 1

    for (crate, file, name), was, has in compared(old, new):
        public = any(public for public, _ in was)
        mark = "" if public else " (private)"
        # another file of the crate that has the name now, as pub, and had it not
        to = [key for key in now if (key[0], key[2]) == (crate, name) and key not in before and now[key][0][0]]
        if has is None and to:
            what, has = "moved", now[to[0]]
            if sorted(t for _, t in was) != sorted(t for _, t in has):
                count(crate, public, "changed")
            else:
                was, has = [], []
            print(f"{crate} {file} {name}{mark}: moved to {to[0][1]}")
        else:
            what = "went" if has is None else "changed"
            closed = has is not None and public and not any(public for public, _ in new[crate, file, name])
            print(f"{crate} {file} {name}{mark}{': gone' if has is None else ', no longer pub' if closed else ''}")
        count(crate, public, what)
        for _, t in was:
            print("    -", t)
        for _, t in has or []:
            print("    +", t)
    for crate in sorted({key[0] for key in counts if key[0] != "all"}) + ["all"]:
        told = [f"{what} {counts.get((crate, True, what), 0)} and {counts.get((crate, False, what), 0)} private" for what in ("went", "moved", "changed")]
        print(f"{crate}: {', '.join(told)}")


def main(commit, kind):
    (print_functions if kind == "functions" else print_laws)(commit)


if __name__ == "__main__":
    main(*sys.argv[1:3])
