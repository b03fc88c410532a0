#!/usr/bin/env python3
"""Writes so many statements of ordinary shapes, one a line, which both SQLite and Rogzamunt take."""
import sys

SHAPES = (
    "INSERT INTO t VALUES (%(i)d, %(j)d, 'it''s %(i)d', x'00ff%(i)08x')",
    "INSERT INTO t (a, b, c) VALUES (%(i)d, %(j)d, 'a plain text of some length'), (%(j)d, -%(i)d, NULL)",
    "SELECT a, b FROM t WHERE a = %(i)d",
    "SELECT t.a, u.b AS second FROM t JOIN u ON t.a = u.a WHERE t.b > %(j)d AND NOT u.b = %(i)d ORDER BY t.a DESC LIMIT 10 OFFSET %(j)d",
    "SELECT b, COUNT(*), SUM(a + %(i)d * 2), MAX(a) FROM t WHERE a IS NOT NULL GROUP BY b ORDER BY COUNT(*), b",
    "UPDATE t SET b = b + %(i)d, c = 'changed' WHERE a >= %(j)d AND a < %(i)d",
    "DELETE FROM t WHERE a = %(i)d OR b <> %(j)d",
    "CREATE TABLE name_%(i)d (id INTEGER PRIMARY KEY, label TEXT NOT NULL, \"a quoted name\" BLOB)",
)

count = int(sys.argv[1])
sys.stdout.write("".join(SHAPES[i % len(SHAPES)] % {"i": i, "j": i * 7919 % 10007} + "\n" for i in range(count)))
