#!/usr/bin/env python3
"""Makes databases with sqlite3, cuts the records of a table out of the files, and prints them as rows of the tables in
crates/record_tests: the record's bytes, what sqlite3 says of its values, and the record with serial types 8 and 9 written as
type 1 (nothing where there are none). With the word `order` it prints records in the order that sqlite3's ORDER BY gives.

Nothing here is taken from this repository's own code: the values and the order are sqlite3's answers.
"""
import os
import sqlite3
import sys
import tempfile

from vectors import literal


def varint(data, at):
    number = 0
    for k in range(9):
        byte = data[at + k]
        if k == 8:
            return number << 8 | byte, at + 9
        number = number << 7 | byte & 127
        if byte < 128:
            return number, at + k + 1


class File:
    def __init__(self, path):
        self.data = open(path, "rb").read()
        size = int.from_bytes(self.data[16:18], "big")
        self.size = 65536 if size == 1 else size
        self.usable = self.size - self.data[20]

    def page(self, number):
        return self.data[(number - 1) * self.size : number * self.size]

    def payload(self, page, at, length):
        most = self.usable - 35
        if length <= most:
            return page[at : at + length]
        least = (self.usable - 12) * 32 // 255 - 23
        local = least + (length - least) % (self.usable - 4)
        local = local if local <= most else least
        out = page[at : at + local]
        following = int.from_bytes(page[at + local : at + local + 4], "big")
        while len(out) < length:
            chained = self.page(following)
            out += chained[4 : 4 + min(self.usable - 4, length - len(out))]
            following = int.from_bytes(chained[:4], "big")
        return out

    def records(self, root):
        """The rowid and the record of each row of a table, in rowid order."""
        page = self.page(root)
        start = 100 if root == 1 else 0
        count = int.from_bytes(page[start + 3 : start + 5], "big")
        inner = page[start] == 5
        head = start + (12 if inner else 8)
        for k in range(count):
            at = int.from_bytes(page[head + 2 * k : head + 2 * k + 2], "big")
            if inner:
                yield from self.records(int.from_bytes(page[at : at + 4], "big"))
                continue
            length, at = varint(page, at)
            rowid, at = varint(page, at)
            yield rowid, self.payload(page, at, length)
        if inner:
            yield from self.records(int.from_bytes(page[start + 8 : start + 12], "big"))


def spelled(number):
    groups = [number & 127]
    while number > 127:
        number >>= 7
        groups.insert(0, number & 127 | 128)
    return bytes(groups)


def body_size(serial):
    return (0, 1, 2, 3, 4, 6, 8, 8, 0, 0)[serial] if serial < 10 else (serial - 12) // 2


def without_constants(record):
    """The record with each 8 and 9 as type 1."""
    header, at = varint(record, 0)
    serials, body, kinds, bodies = [], header, [], []
    while at < header:
        serial, at = varint(record, at)
        serials.append(serial)
    for serial in serials:
        size = body_size(serial)
        kinds.append(spelled(1 if serial in (8, 9) else serial))
        bodies.append(bytes([serial - 8]) if serial in (8, 9) else record[body : body + size])
        body += size
    if not any(serial in (8, 9) for serial in serials):
        return b""
    return record[: len(spelled(header))] + b"".join(kinds) + b"".join(bodies)


def told(connection, columns, rowid):
    """What sqlite3 says of a row's values."""
    parts = []
    for column in columns:
        kind, quoted = connection.execute(
            "SELECT typeof(%s), CASE typeof(%s) WHEN 'integer' THEN %s ELSE hex(%s) END FROM t WHERE rowid = ?" % ((column,) * 4), (rowid,)
        ).fetchone()
        parts.append({"null": "null", "integer": "integer %s", "text": "text %s", "blob": "blob %s"}[kind] % (() if kind == "null" else (quoted,)))
    return ", ".join(parts)


def made(path, page_size, columns, rows):
    connection = sqlite3.connect(path)
    connection.execute("PRAGMA page_size = %d" % page_size)
    connection.execute("CREATE TABLE t(%s)" % ", ".join(columns))
    for row in rows:
        connection.execute("INSERT INTO t VALUES (%s)" % ", ".join("?" * len(columns)), row)
    connection.commit()
    return connection


EDGES = [1 << 7, 1 << 15, 1 << 23, 1 << 31, 1 << 47, 1 << 63]
INTEGERS = [0, 1, 2, -1] + [n for edge in EDGES for n in (edge - 1, -edge)] + [n for edge in EDGES[:-1] for n in (edge, -edge - 1)]
TEXTS = ["", "Ada", "it's", "a\0b", "\u00e9\u20ac", b"", b"\0", b"\xff\x00\x7f", "x" * 57, "x" * 58, b"y" * 58, b"y" * 59]


def vectors(folder):
    groups = {
        "integers": (512, ["a"], [(n,) for n in INTEGERS]),
        "texts_and_blobs": (4096, ["a"], [(text,) for text in TEXTS]),
        "rows": (1024, ["a", "b", "c"], [(None, "Ada", 1815), (None, None, None), (0, 1, -2), ("", b"", 300), (1 << 40, "z", b"\x01\x02")]),
        "long": (512, ["a", "b"], [(7, "p" * 480), (None, b"q" * 490)]),
        "wide": (65536, ["c%d" % k for k in range(140)], [[None] * 140, [k - 70 for k in range(140)]]),
    }
    for name, (page_size, columns, rows) in groups.items():
        path = os.path.join(folder, name + ".db")
        connection = made(path, page_size, columns, rows)
        root = connection.execute("SELECT rootpage FROM sqlite_schema WHERE name = 't'").fetchone()[0]
        print("// " + name)
        for rowid, record in File(path).records(root):
            print("(%s, %s, %s)," % (literal(record), literal(told(connection, columns, rowid).encode()), literal(without_constants(record))))


def order(folder):
    values = [None, -1 << 63, -129, -1, 0, 1, 2, 300, (1 << 63) - 1, "", "\0", "A", "Ab", "B", "a", "\u00e9", b"", b"\0", b"A", b"a", b"\xff"]
    singles = made(os.path.join(folder, "values.db"), 4096, ["a"], [(value,) for value in reversed(values)])
    pairs = made(os.path.join(folder, "pairs.db"), 4096, ["a", "b"], [(b, a) for a in (None, 5, "a", b"\1") for b in (-3, "x", None)])
    for name, connection, keys in (("values", singles, "a"), ("pairs", pairs, "a, b")):
        root = connection.execute("SELECT rootpage FROM sqlite_schema WHERE name = 't'").fetchone()[0]
        records = dict(File(os.path.join(folder, name + ".db")).records(root))
        print("// " + name)
        for (rowid,) in connection.execute("SELECT rowid FROM t ORDER BY " + keys):
            print(literal(records[rowid]) + ",")


if __name__ == "__main__":
    with tempfile.TemporaryDirectory() as where:
        (order if sys.argv[1:] == ["order"] else vectors)(where)
