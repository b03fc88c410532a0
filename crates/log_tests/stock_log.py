#!/usr/bin/env python3
"""Makes a log with the command sqlite3, sums it frame by frame as SQLite's documents say, and shows its bytes that aren't 0.

This is how the log in src/log_headers.rt was made; salts are random, so each log is another one. Run by hand.
"""
import os
import re
import struct
import subprocess
import tempfile

MADE_BY = "PRAGMA page_size=512; PRAGMA journal_mode=WAL; CREATE TABLE t(a);\n"


def made_log():
    """The log's bytes, copied while the database is open: it is removed when the last connection closes."""
    with tempfile.TemporaryDirectory() as folder:
        database, copy = os.path.join(folder, "db"), os.path.join(folder, "copy")
        script = MADE_BY + ".shell cp %s-wal %s\n" % (database, copy)
        subprocess.run(["sqlite3", database], input=script, text=True, check=True, stdout=subprocess.DEVNULL)
        with open(copy, "rb") as log:
            return log.read()


def summed(words, start):
    first, second = start
    for one, other in zip(words[::2], words[1::2]):
        first = (first + one + second) % 2**32
        second = (second + other + first) % 2**32
    return first, second


def main():
    log = made_log()
    order = ">" if struct.unpack_from(">I", log)[0] & 1 else "<"
    page_size, = struct.unpack_from(">I", log, 8)

    def words(start, end):
        return struct.unpack("%s%dI" % (order, (end - start) // 4), log[start:end])

    sums = summed(words(0, 24), (0, 0))
    assert sums == struct.unpack_from(">2I", log, 24), "header"
    print("%d bytes, header summed to %08x %08x" % (len(log), *sums))
    for at in range(32, len(log), 24 + page_size):
        sums = summed(words(at + 24, at + 24 + page_size), summed(words(at, at + 8), sums))
        assert sums == struct.unpack_from(">2I", log, at + 16), "frame at %d" % at
        print("frame at %d summed to %08x %08x" % (at, *sums))
    for row in re.finditer(rb"[^\0](?:\0{0,11}[^\0])*", log):
        print(row.start(), row.group())


main()
