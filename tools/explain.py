#!/usr/bin/env python3
"""Says in one plain sentence what the five numbers of a reply mean.

    tools/explain.py IMAGE KIND OPERATION A B USED

For a conflict (kinds 14 to 16) it also shows the two fields as they stand in the document, if a file NAME.rows.txt lies beside the
image NAME.img: a line for each selection row, its number and its text.
"""
import pathlib
import struct
import sys

CONFLICTS = (14, 15, 16)
TABLES = ["types", "type references", "operations", "fragments", "sets", "selections", "arguments", "values", "variables"]

SENTENCES = {
    0: "Nothing is wrong: each name in the answer stands for one thing ({used} units of work used).",
    1: "This is not an image: its header is wrong {header}.",
    2: "The budget of {a} units is more than a check may be given (1,000,000).",
    3: "The check needs {a} words of scratch for this image and budget, more than there are; a host can lend more by check_query_lent.",
    4: "The image breaks a rule of its tables: {row}.",
    5: "Fragment {a} spreads itself, directly or by way of other fragments.",
    6: "From fragment {a} on, more than 100 fragments follow one another, each spread in the one before.",
    7: "Operation {operation} goes more than 500 steps deep (each field, spread and inline fragment is a step).",
    8: "Operation {operation} nests more than 128 levels of fields.",
    9: "Fragment {a} is used by no operation.",
    10: "Variable {a}, in operation {operation}, has a type that no variable can have: an object, an interface or a union.",
    11: "Variable {a}, in operation {operation}, has the name of an earlier one.",
    12: "Variable {a} is defined in operation {operation}, and nothing there uses it.",
    13: "Argument {a} is given a variable that does not fit there, in operation {operation}.",
    14: "Conflict in operation {operation}: selection rows {a} and {b} answer to one name, with types of different shape.",
    15: "Conflict in operation {operation}: selection rows {a} and {b} answer to one name, and are different fields.",
    16: "Conflict in operation {operation}: selection rows {a} and {b} answer to one name, with different arguments.",
    17: "The budget ran out in operation {operation} after {used} units: nothing is known of what was left.",
    18: "These bytes are no image: there are {bytes}, which is no multiple of 4 or over 32,768.",
}


def header_place(length, a):
    if length < 20:
        return "(it has only %d words, and a header has 20)" % length
    return "at its end (the last table ends elsewhere)" if a == 20 else "at word %d" % a


def row_place(words, table, row):
    name = TABLES[table] if table < len(TABLES) else "table %d" % table
    if words[2 + 2 * table : 3 + 2 * table] == (row,):
        return "some of its %s belong to nothing" % name
    return "row %d of its %s (table %d)" % (row, name, table)


def sentence(data, kind, operation, a, b, used):
    """`data` is the image's bytes."""
    if kind not in SENTENCES:
        return "There is no reply of kind %d." % kind
    words = struct.unpack_from("<%dI" % (len(data) // 4), data)
    return SENTENCES[kind].format(
        operation=operation,
        a=a,
        b=b,
        used=used,
        bytes=len(data),
        header=header_place(len(words), a),
        row=row_place(words, a, b) if kind == 4 else "",
    )


def texts(image):
    """The text of each selection row, where there is a file that tells."""
    path = image.with_suffix(".rows.txt")
    if not path.is_file():
        return {}
    lines = (line.split(maxsplit=1) for line in path.read_text(encoding="utf-8").splitlines())
    return {int(part[0]): part[1] for part in lines if len(part) == 2}


def main():
    image = pathlib.Path(sys.argv[1])
    reply = [int(word) for word in sys.argv[2:7]]
    print(sentence(image.read_bytes(), *reply))
    known = texts(image) if reply[0] in CONFLICTS else {}
    for row in reply[2:4]:
        if row in known:
            print("    row %d: %s" % (row, known[row]))


if __name__ == "__main__":
    if len(sys.argv) != 7:
        sys.exit(__doc__)
    main()
