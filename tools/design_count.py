"""Counts the places of docs/DESIGN-PASS.md in crates/*/src, here or at a commit: python3 tools/design_count.py [COMMIT] [--list POINT]"""
import re
import subprocess
import sys

LOOP = re.compile(r"^( *)while [^\n]*\{\n(.*?)^\1\}", re.M | re.S)


def lines_of(text, pattern):
    return [line.strip() for line in text.splitlines() if re.search(pattern, line)]


def own_enums(text):
    """Enums with a variant that holds nothing and one that holds numbers alone: the shape of Option or Result."""
    found = []
    for name, body in re.findall(r"^(?:pub(?:\(crate\))? )?enum (\w+) \{\n(.*?)^\}", text, re.M | re.S):
        variants = [v.strip() for v in body.splitlines() if v.strip() and not v.strip().startswith("//")]
        if any(re.fullmatch(r"(Good|Not|Nowhere|None),", v) for v in variants):
            found.append(name)
    return found


def flag_fields(text):
    found = []
    for body in re.findall(r"^(?:pub(?:\(crate\))? )?struct \w+ \{\n(.*?)^\}", text, re.M | re.S):
        found += lines_of(body, r": bool,$")
    return found


def hand_counted(text):
    """`while` loops that step a number by one, up or down."""
    return [m.group(0).splitlines()[0].strip() for m in LOOP.finditer(text) if re.search(r"^ *\w+ [+-]= 1;$|^ *rounds -= 1;$", m.group(2), re.M)]


def number_for_none(text):
    """Comments of functions that give a count, an end or NONE where there is nothing to give."""
    return lines_of(text, r"^// .*(where (there is )?none( is| does)?|or NONE|; NONE)")


POINTS = {
    "1 own enums": own_enums,
    "1 flags beside a value": flag_fields,
    "1 a number for none": number_for_none,
    "1 kinds as numbers": lambda t: lines_of(t, r"^(pub )?const (OBJECT|INPUT_OBJECT|FIELD|SPREAD|INLINE|NULL|BOOLEAN|VARIABLE|LIST_VALUE|OBJECT_VALUE|EVERY_PARENT|ONE_PARENT|ABSTRACT_PARENT|BEGUN|LED|\w+_OF_\w+): u32"),
    "1 tests of kinds as numbers": lambda t: lines_of(t, r"kind\w*(\(.*\))? (==|!=|<|<=) \w|(==|<=|<) (\w+_)?kind\b|\w <= \w*kind\(|if kind ==|^    kind (==|<=) |(BEGUN|LED)\b.*[,;]$"),
    "1 refusals as numbers": lambda t: lines_of(t, r"(Wrong|By)\(\d+,|refusal\(\d|kind: \d+,|return 1[4-6];|^ +1[4-6]$|kind = 17;|kind != 0|By\(1,"),
    "3 loops counted by hand": hand_counted,
    "3 all while loops": lambda t: lines_of(t, r"^ *while "),
    "4 conversions and comparisons by hand": lambda t: lines_of(t, r"fn (is_same|least|most|word_of\(a|bytes_of|and|print_number|print_next|span_length)\b"),
    "7 switches on a step": lambda t: lines_of(t, r"\bshape: bool\b|\bif shape\b|, (true|false)\)$|, (true|false), LEVELS"),
    "bools by return": lambda t: lines_of(t, r"return (true|false);"),
}


def sources(commit):
    """Each source file by crate: the tree's, or a commit's."""
    if commit:
        names = subprocess.run(["git", "ls-tree", "-r", "--name-only", commit, "crates"], capture_output=True, text=True, check=True).stdout.split()
        read = lambda n: subprocess.run(["git", "show", f"{commit}:{n}"], capture_output=True, text=True, check=True).stdout
    else:
        names = subprocess.run(["git", "ls-files", "crates"], capture_output=True, text=True, check=True).stdout.split()
        read = lambda n: open(n, encoding="utf-8").read()
    return [(n.split("/")[1], n, read(n)) for n in names if "/src/" in n and n.endswith(".rt")]


def main(args):
    wanted = None
    if "--list" in args:
        at = args.index("--list")
        wanted = args[at + 1]
        args = args[:at] + args[at + 2:]
    files = sources(args[0] if args else None)
    for point, count in POINTS.items():
        if wanted and not point.startswith(wanted):
            continue
        by_crate = {}
        for crate, name, text in files:
            for place in count(text):
                by_crate.setdefault(crate, []).append((name, place))
        shown = ", ".join(f"{crate} {len(places)}" for crate, places in by_crate.items())
        print(f"{point}: {sum(map(len, by_crate.values()))} ({shown})")
        if wanted:
            for places in by_crate.values():
                for name, place in places:
                    print(f"    {name}: {place}")


if __name__ == "__main__":
    main(sys.argv[1:])
