#!/usr/bin/env python3
"""Makes databases and logs with the command sqlite3 and prints the fields of their headers beside their bytes, as rows for tests.

Each database has a page size of its own. Trunks, free pages and reserved bytes aren't 0: a table is filled and dropped, and
`.filectrl reserve_bytes` sets the reserve. Salts of logs are random, so each run gives other logs. Run by hand.
"""
import os
import struct
import subprocess
import tempfile

SIZES = [512, 1024, 2048, 4096, 8192, 16384, 32768, 65536]


def run(database, script):
    subprocess.run(["sqlite3", database], input=script, text=True, check=True, stdout=subprocess.DEVNULL)


def database_header(folder, size, reserve):
    """The first 100 bytes of a database, its length, and the free pages that sqlite3 itself counts."""
    database = os.path.join(folder, "db%d" % size)
    run(database, "PRAGMA page_size=%d;\n.filectrl reserve_bytes %d\nVACUUM;\n"
        "CREATE TABLE a(x); CREATE TABLE b(x); INSERT INTO b VALUES (zeroblob(%d)); DROP TABLE b;\n"
        % (size, reserve, (2 + SIZES.index(size)) * size))
    free = subprocess.run(["sqlite3", database, "PRAGMA freelist_count; PRAGMA page_count; PRAGMA page_size; PRAGMA schema_version;"],
                          text=True, check=True, capture_output=True).stdout.split()
    with open(database, "rb") as file:
        data = file.read()
    return data[:100], len(data), free


def log_header(folder, size):
    """The header of a log, copied while its database is open."""
    database, copy = os.path.join(folder, "log%d" % size), os.path.join(folder, "copy%d" % size)
    run(database, "PRAGMA page_size=%d; PRAGMA journal_mode=WAL; CREATE TABLE t(a);\n.shell cp %s-wal %s\n" % (size, database, copy))
    with open(copy, "rb") as file:
        return file.read()[:32]


def text(data):
    return "".join("\\x%02x" % byte for byte in data)


def main():
    with tempfile.TemporaryDirectory() as folder:
        for size in SIZES:
            head, length, told = database_header(folder, size, 8 * (SIZES.index(size) + 1) % 33)
            print("database of page size", size, "length", length, "free, pages, page size, schema version", told)
            print("  reserved", head[20], "trunk", struct.unpack_from(">I", head, 32)[0], "change", struct.unpack_from(">I", head, 24)[0])
            print("   bytes 0 to 15: ", text(head[:16]))
            print("   bytes 16 to 39:", text(head[16:40]))
            print("   bytes 40 to 99:", text(head[40:]))
        for size in SIZES:
            head = log_header(folder, size)
            print("log of page size", size, "salts and sums", struct.unpack_from(">4I", head, 16))
            print("  ", text(head))


main()
