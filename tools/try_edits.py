#!/usr/bin/env python3
"""Tries the must-fail edits, those of the gate and those of the folder edits: the prover must refuse each, and at a fact.

    tools/try_edits.py [CRATE..] [--edit NAME] [--of edits|must-fail] [--copy FOLDER]

Without names all crates that have edits are taken, and all their edits; --edit takes those of one name, --of those of one of the two folders. They
are tried in a copy of crates/ outside the repository: `rt check` must prove the crate there as it stands, and is then run with each edit. The copy is
a temporary folder, or the one that --copy names, which is kept: a later run with it begins with what this one proved. A line for each edit says where
it is refused, and the last line counts.

An edit counts if an error is a fact that no longer holds: in a proof that still fits, or where the prover itself does not prove a goal. It fails where
- the crate is still proved with it (NOT REFUSED),
- a text that it replaces does not stand once in its file, or the changed text is not compiled or read (BAD EDIT),
- there is no such error (NO FACT). A proof file that cites a name, a field or a goal that is no longer there shows that the edit changed the code's
  shape, and nothing of the contract; so do its other errors, and a goal beside it that is not proved, but for one of which the prover says that it is
  false at some values,
- the prover met a limit of its own and gave no verdict (LIMIT), or nothing is known (NOT TRIED).
"""
import argparse
import collections
import contextlib
import pathlib
import re
import shutil
import subprocess
import sys
import tempfile
import time

ROOT = pathlib.Path(__file__).resolve().parent.parent
FOLDERS = ("edits", "must-fail")
REFUSED = "refused at a fact"
# an error with its further lines, or a note of a goal that is left: what says so, path, line, text
ERROR = re.compile(r"^(note: )?(?:\./)?(\S+?):(\d+):\d+: ((?:error: |it is not proved).*(?:\n  .*)*)", re.M)
# what a proof says that no longer fits, and what only follows from another error
GONE = re.compile(r"is not in scope|exports no such name|has no field|has no `|binders, but its type has room")
FOLLOWS = re.compile(r"which was (not admitted|rejected)")
FALSE_AT = re.compile(r"allow values at which")
UNREAD = re.compile(r"is not in scope|has no field|is no name|operand is missing|expected the end|cannot continue")
LIMIT = re.compile(r"antt ran out of|outgrew the memory limit|stopped at the step limit")
QUOTED = re.compile(r"`[^`]*`")


def crates_listed(root):
    lines = (line.strip() for line in (root / "crates.txt").read_text().splitlines())
    return [re.split(r"[\s:]", line)[0] for line in lines if line and not line.startswith("#")]


def edits_of(root, crate, folders=FOLDERS):
    places = {"edits": f"edits/{crate}/*.edit", "must-fail": f"crates/{crate}/must-fail/*.edit"}
    return sorted((edit for folder in folders for edit in root.glob(places[folder])), key=lambda edit: edit.name)


def edited(folder, edit):
    """The files of a crate's folder that an edit changes, as they were and as they become. A text to replace must stand there once."""
    were, are, file, old = {}, {}, None, None
    for line in edit.read_text().splitlines():
        if line.startswith("file: "):
            file = folder / line[6:]
            were.setdefault(file, file.read_text())
            are.setdefault(file, were[file])
        elif line.startswith("old: "):
            old = line[5:]
        elif line.startswith("new:"):
            if file is None or old is None:
                raise ValueError("%s/%s: a new text stands before its file or the text that it replaces" % (folder.name, edit.name))
            if are[file].count(old) != 1:
                raise ValueError("%s/%s: a text that it replaces stands %d times in %s" % (folder.name, edit.name, are[file].count(old), file.name))
            are[file] = are[file].replace(old, line[4:].removeprefix(" "))
    return were, are


def copy_crates(copy):
    """The crates as they stand, over those of the run before; what that run proved, in out, stays."""
    for folder in (copy / "crates").glob("*"):
        for old in folder.iterdir():
            if old.name != "out":
                shutil.rmtree(old) if old.is_dir() else old.unlink()
    shutil.copytree(ROOT / "crates", copy / "crates", ignore=shutil.ignore_patterns("out", "must-fail"), dirs_exist_ok=True)
    for name in ("crates.txt", "HANDLES"):
        if (ROOT / name).exists():
            shutil.copy(ROOT / name, copy / name)


def proof_of(error):
    """The folder of a function's proof; of lemmas, which do not follow the code's shape, the one place."""
    path, line = error[1:3]
    return path.rsplit("/", 1)[0] if path.count("/") > 1 else f"{path}:{line}"


def is_unread(path, text, changed):
    """Whether an error says that an edited text could not be read, where an edit that only makes a statement false reads well."""
    if not text.startswith("error: ") or path not in changed and not path.startswith(("src/", "specs/")):
        return False
    return not re.match(r"error: `[^`]*`: ", text) or bool(UNREAD.search(QUOTED.sub("", text)))


def judged(status, out, changed):
    """What is wrong with the try of an edit, if anything is, and where it was refused."""
    if status == 0:
        return "NOT REFUSED", ""
    errors = ERROR.findall(out)
    said = lambda error: "%s:%s, %s" % (*error[1:3], " ".join(error[3].split())[:160])
    if status == 3 and LIMIT.search(out):
        return "LIMIT", LIMIT.search(out).group()
    unread = [e for e in errors if is_unread(e[1], e[3], changed)]
    if unread or "\nlogic=not-proved" not in out:
        return "BAD EDIT" if status == 1 else "NOT TRIED", said(unread[0]) if unread else out[:400]
    gone = {proof_of(e) for e in errors if not e[0] and GONE.search(e[3].split("\n")[0])}
    for error in errors:
        note, _, _, text = error
        if FOLLOWS.search(text):
            continue
        if (FALSE_AT.search(text) or not gone) if note else proof_of(error) not in gone:
            return None, said(error)
    return "NO FACT", said(errors[0]) if errors else out[-400:]


def check(folder):
    run = subprocess.run(["rt", "check"], cwd=folder, stdin=subprocess.DEVNULL, stdout=subprocess.PIPE, stderr=subprocess.STDOUT, text=True, errors="replace")
    return run.returncode, run.stdout


def try_edit(folder, edit):
    try:
        were, are = edited(folder, edit)
    except (ValueError, OSError) as says:
        return "BAD EDIT", str(says).split(".edit: ")[-1]
    try:
        for file, text in are.items():
            file.write_text(text)
        status, out = check(folder)
    finally:
        for file, text in were.items():
            file.write_text(text)
    return judged(status, out, {str(file.relative_to(folder)) for file in were})


def try_edits(folder, edits):
    """Tries these edits of a crate; how many there are of each outcome."""
    crate, outcomes, began = folder.name, collections.Counter(), time.time()
    status, out = check(folder)
    if status:
        print(f"{crate}: NOT PROVED as it stands, so its {len(edits)} edits were not tried:\n{out[-2000:]}", flush=True)
        return collections.Counter({"NOT TRIED": len(edits)})
    print("%s: proved as it stands (%d s)" % (crate, time.time() - began), flush=True)
    for edit in edits:
        began = time.time()
        wrong, where = try_edit(folder, edit)
        outcomes[wrong or REFUSED] += 1
        print("%s/%s: %s %s (%d s)" % (crate, edit.stem, f"{wrong}:" if wrong else "refused at", where, time.time() - began), flush=True)
    return outcomes


def main(args):
    listed = crates_listed(ROOT)
    unknown = set(args.crates) - set(listed)
    if unknown:
        sys.exit("crates.txt lists no crate " + ", ".join(sorted(unknown)))
    wanted = {}
    for crate in listed:
        edits = [e for e in edits_of(ROOT, crate, [args.of] if args.of else FOLDERS) if args.edit in (None, e.stem)]
        if edits and (not args.crates or crate in args.crates):
            wanted[crate] = edits
    if not wanted:
        sys.exit("there is no such edit")
    outcomes = collections.Counter()
    with contextlib.ExitStack() as room:
        copy = pathlib.Path(args.copy or room.enter_context(tempfile.TemporaryDirectory(prefix="edits-"))).resolve()
        if copy == ROOT or ROOT in copy.parents:
            sys.exit("the copy must lie outside the repository")
        copy.mkdir(parents=True, exist_ok=True)
        copy_crates(copy)
        for crate, edits in wanted.items():
            outcomes += try_edits(copy / "crates" / crate, edits)
    print("%d edits: %s" % (sum(outcomes.values()), ", ".join("%d %s" % (n, outcome) for outcome, n in outcomes.most_common())))
    return 0 if set(outcomes) == {REFUSED} else 1


if __name__ == "__main__":
    parser = argparse.ArgumentParser()
    parser.add_argument("crates", nargs="*")
    parser.add_argument("--edit")
    parser.add_argument("--of", choices=FOLDERS)
    parser.add_argument("--copy")
    sys.exit(main(parser.parse_args()))
