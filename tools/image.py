"""Builds images of edition 1: the numbers that rows are made of, and the way from tables to words and bytes.

An image is described table by table: a dictionary from a table's name to its rows, each row as many words as the table is wide. A
table that is not named has no rows.
"""
import struct

NONE = 4294967295
SCALAR, OBJECT, INTERFACE, UNION, ENUM, INPUT = range(6)
NAMED, NON_NULL, LIST, NON_NULL_LIST = range(4)
FIELD, SPREAD, INLINE = range(3)
NULL, BOOLEAN, INT, FLOAT, STRING, ENUM_VALUE, VARIABLE, LIST_VALUE, OBJECT_VALUE = range(9)
TABLES = ["types", "references", "operations", "fragments", "sets", "selections", "arguments", "values", "variables"]


def words(image):
    """The image's words: header, then the tables one after the other."""
    tables = [image.get(name, []) for name in TABLES]
    body = [word for table in tables for row in table for word in row]
    header, at = [1, 20 + len(body)], 20
    for table in tables:
        header += [len(table), at]
        at += sum(len(row) for row in table)
    return header + body


def changed(image, table, row, column, word):
    """The image with one word of a row changed."""
    rows = [list(r) for r in image[table]]
    rows[row][column] = word
    return {**image, table: rows}


def longer(image, table, row):
    """The image with one row more at the end of a table."""
    return {**image, table: image.get(table, []) + [row]}


def scratch_needed(image, work):
    """The words of scratch that a check of this image needs."""
    return 8 * work + 16 * sum(len(image.get(name, [])) for name in TABLES) + 4096


def as_bytes(ws):
    """Words as they are stored: four bytes each, the low one first."""
    return struct.pack("<%dI" % len(ws), *ws)
