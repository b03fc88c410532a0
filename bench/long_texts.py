#!/usr/bin/env python3
"""Writes one text of SQL of at most so many bytes: long_texts.py KIND BYTES. Without words it writes the kinds."""
import sys


def listed(front, item, back, size):
    """As many items with commas between as the size holds."""
    times = (size - len(front) - len(back) + 1) // (len(item) + 1)
    return front + ",".join([item] * times) + back


def one(front, piece, back, size):
    """The piece again and again."""
    return front + piece * ((size - len(front) - len(back)) // len(piece)) + back


NESTED = "(" * 100 + "1" + ")" * 100

KINDS = {
    # a hundred brackets, again and again
    "brackets": lambda size: listed("SELECT ", NESTED, "", size),
    # a row of values in each round
    "rows": lambda size: listed("INSERT INTO t VALUES ", "(1,'a',NULL)", "", size),
    "literal": lambda size: one("SELECT '", "a", "'", size),
    "quotes": lambda size: one("SELECT '", "''", "'", size),
    "blob": lambda size: one("SELECT x'", "00", "'", size),
    "digits": lambda size: one("SELECT ", "0", "1", size),
    "spaces": lambda size: one("SELECT", " ", "1", size),
    "integers": lambda size: listed("SELECT ", "1", "", size),
    # a hundred operators deep, again and again
    "sums": lambda size: listed("SELECT ", "a" + "+a" * 100, "", size),
    "signs": lambda size: listed("SELECT ", "-" * 100 + "a", "", size),
    "nots": lambda size: listed("SELECT ", "NOT " * 100 + "a", "", size),
    # 2,000 columns, with names that fill the text
    "columns": lambda size: "CREATE TABLE t(" + ",".join(["c" * ((size - 20) // 2000 - 1)] * 2000) + ")",
    # faults at the end
    "open quote": lambda size: one("SELECT '", "a", "", size),
    "open brackets": lambda size: listed("SELECT ", NESTED, ",", size),
    "odd blobs": lambda size: one("SELECT ", "x'0' ", "", size),
}

if len(sys.argv) == 1:
    print("\n".join(KINDS))
else:
    text = KINDS[sys.argv[1]](int(sys.argv[2]))
    assert len(text) <= int(sys.argv[2])
    sys.stdout.write(text)
