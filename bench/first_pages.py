#!/usr/bin/env python3
"""Prints the first 100 bytes of a database of 16 pages before and after a commit of SQLite's that changes another page, as the
constants of crates/engine_tests/src/first_page.rt."""
import os
import sqlite3
import tempfile

path = os.path.join(tempfile.mkdtemp(), "db")
db = sqlite3.connect(path, isolation_level=None)
db.execute("PRAGMA page_size = 512")
db.execute("CREATE TABLE t(a INTEGER PRIMARY KEY, b TEXT)")
row = 0
while os.path.getsize(path) < 16 * 512:
    row += 1
    db.execute("INSERT INTO t VALUES (?, ?)", (row, "x" * 100))
before = open(path, "rb").read(512)
db.execute("UPDATE t SET b = ? WHERE a = ?", ("y" * 100, row))
after = open(path, "rb").read(512)
assert os.path.getsize(path) == 16 * 512
assert before[100:] == after[100:]
for name, page in (("BEFORE", before), ("AFTER", after)):
    text = "".join("\\x%02x" % byte for byte in page[:100])
    print("const %s: &[u8; 100] = b\"%s\";" % (name, text))
