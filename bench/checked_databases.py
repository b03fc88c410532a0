#!/usr/bin/env python3
"""Writes the databases that examples/check has checked, each as a packed text, and prints what SQLite itself counts in them: pages, trees (page 1's, and
that of each row of sqlite_schema with a root), and free pages.

    python3 bench/checked_databases.py
"""

import base64
import gzip
import os
import sqlite3
import tempfile

FOLDER = os.path.join(os.path.dirname(__file__), "..", "examples", "databases")


def indexed(db):
    """A table with an index: rows of several sizes, some of which need chains, and of which most are deleted again."""
    db.execute("PRAGMA page_size = 512")
    db.execute("CREATE TABLE t(a INTEGER PRIMARY KEY, b TEXT)")
    db.execute("CREATE INDEX i ON t(b)")
    for a in range(1, 121):
        db.execute("INSERT INTO t VALUES (?, ?)", (a, "%03d" % (a * 7 % 121) * (400 if a % 40 == 0 else a % 30)))
    db.execute("DELETE FROM t WHERE a > 20 AND a % 4 <> 0")


def viewed(db):
    """A table and a view, which has no tree."""
    db.execute("PRAGMA page_size = 4096")
    db.execute("CREATE TABLE t(a)")
    db.execute("CREATE VIEW v AS SELECT a FROM t")


def count(db):
    pages = db.execute("PRAGMA page_count").fetchone()[0]
    trees = 1 + db.execute("SELECT count(*) FROM sqlite_master WHERE rootpage > 0").fetchone()[0]
    free = db.execute("PRAGMA freelist_count").fetchone()[0]
    assert db.execute("PRAGMA integrity_check").fetchone()[0] == "ok"
    return "pages %d trees %d free %d" % (pages, trees, free)


def main():
    os.makedirs(FOLDER, exist_ok=True)
    for make in (indexed, viewed):
        with tempfile.TemporaryDirectory() as folder:
            path = os.path.join(folder, "db")
            db = sqlite3.connect(path)
            make(db)
            db.commit()
            print(make.__name__, count(db))
            db.close()
            with open(path, "rb") as file:
                packed = gzip.compress(file.read(), 9, mtime=0)
        with open(os.path.join(FOLDER, make.__name__ + ".base64"), "wb") as file:
            file.write(base64.encodebytes(packed))


main()
