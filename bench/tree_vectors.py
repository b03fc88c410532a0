#!/usr/bin/env python3
"""Trees of a table and of an index that the real sqlite3 wrote, for the tests of crates/tree_read_tests.

    python3 bench/tree_vectors.py > crates/tree_read_tests/src/stock.rt

A table of nine rows with the rowids 10 to 90 and one of no rows are written with pages of 512 bytes, so that the first has an interior root over leaves.
The fifth row's text ends in an overflow page. The index has nine entries, each one figure many times and a rowid, of which the fifth one's text ends in an
overflow page. Pages from 2 on are told whole.
"""
import os
import sqlite3
import struct
import tempfile

from vectors import literal

ROWS = [(10 * k, 7 * k, ("%03d " % k) * (150 if k == 5 else 25)) for k in range(1, 10)]

ENTRIES = [(k, str(k) * (300 if k == 5 else 56)) for k in range(1, 10)]

# what src/scans.rt scans of the index
SCANS = [
    ("1", range(1, 10)),
    ("c >= '%s' AND c <= '7'" % ("3" * 56), range(3, 7)),
    ("(c, rowid) >= ('%s', 8) AND c <= '%s'" % ("7" * 56, "9" * 56), range(8, 10)),
    ("c >= '4'", range(4, 10)),
]


def main():
    with tempfile.TemporaryDirectory() as folder:
        path = os.path.join(folder, "tree.db")
        db = sqlite3.connect(path)
        db.execute("PRAGMA page_size = 512")
        db.execute("CREATE TABLE t(a INTEGER, b TEXT)")
        db.execute("CREATE TABLE u(a INTEGER)")
        db.executemany("INSERT INTO t(rowid, a, b) VALUES(?, ?, ?)", ROWS)
        db.execute("CREATE TABLE v(c TEXT)")
        db.execute("CREATE INDEX w ON v(c)")
        db.executemany("INSERT INTO v(rowid, c) VALUES(?, ?)", ENTRIES)
        db.commit()
        assert db.execute("PRAGMA integrity_check").fetchone() == ("ok",)
        roots = [row[0] for row in db.execute("SELECT rootpage FROM sqlite_schema ORDER BY name")]
        assert db.execute("SELECT rowid, a, b FROM t ORDER BY rowid").fetchall() == ROWS
        for where, numbers in SCANS:
            assert db.execute("SELECT rowid FROM v WHERE %s ORDER BY c, rowid" % where).fetchall() == [(k,) for k in numbers]
        db.close()
        data = open(path, "rb").read()
    pages = [data[at:at + 512] for at in range(0, len(data), 512)]
    assert roots[:2] == [2, 3]
    index = roots[3]
    assert pages[1][0] == 5 and pages[2][0] == 13
    assert pages[index - 1][0] == 2 and pages[roots[2] - 1][0] == 5
    root = pages[1]
    count = struct.unpack_from(">H", root, 3)[0]
    cells = [struct.unpack_from(">H", root, 12 + 2 * k)[0] for k in range(count)]
    children = [(struct.unpack_from(">I", root, at)[0], root[at + 4]) for at in cells]
    right = struct.unpack_from(">I", root, 8)[0]
    print("// Written by bench/tree_vectors.py from what the real sqlite3 wrote.")
    print()
    print("/// Pages 2 to %d of a database. Page 2 is the root of a table of nine rows, of which these are the children, each with its greatest rowid:" % len(pages))
    print("/// %s, and right of them %d. Page 3 is the root of a table of no rows, and page %d" % (", ".join("%d to %d" % child for child in children), right, index))
    print("/// that of an index of nine entries.")
    print("pub const PAGES: [&[u8; 512]; %d] = [" % (len(pages) - 1))
    for page in pages[1:]:
        print("    %s," % literal(page))
    print("];")


if __name__ == "__main__":
    main()
