#!/usr/bin/env python3
"""A freelist that the real sqlite3 wrote, for the tests of crates/freelist_tests.

    python3 bench/freelist_vectors.py > crates/freelist_tests/src/stock.rt

A table of long texts is written with pages of 512 bytes, and its rows are deleted, so that its pages are free. The first trunk has as many leaves as
sqlite3 puts into one, and the second one has the others. The trunks are told whole, and beside them the numbers of the free pages in the order of the list.
"""
import os
import sqlite3
import struct
import tempfile

from vectors import literal


def main():
    with tempfile.TemporaryDirectory() as folder:
        path = os.path.join(folder, "free.db")
        db = sqlite3.connect(path)
        db.execute("PRAGMA page_size = 512")
        db.execute("CREATE TABLE t(a TEXT)")
        db.executemany("INSERT INTO t VALUES(?)", [("x" * 60000,), ("y" * 3000,)])
        db.commit()
        db.execute("DELETE FROM t")
        db.commit()
        assert db.execute("PRAGMA integrity_check").fetchone() == ("ok",)
        count = db.execute("PRAGMA freelist_count").fetchone()[0]
        last = db.execute("PRAGMA page_count").fetchone()[0]
        db.close()
        data = open(path, "rb").read()
    pages = [data[at:at + 512] for at in range(0, len(data), 512)]
    assert len(pages) == last and len(pages[0]) == 512
    first, told = struct.unpack_from(">II", pages[0], 32)
    assert told == count
    trunks, numbers, trunk = [], [], first
    while trunk != 0:
        following, leaves = struct.unpack_from(">II", pages[trunk - 1], 0)
        trunks.append(trunk)
        numbers.append(trunk)
        numbers += struct.unpack_from(">%dI" % leaves, pages[trunk - 1], 8)
        trunk = following
    assert len(trunks) == 2 and len(numbers) == count
    assert sorted(numbers) == list(range(3, last + 1))
    print("// Written by bench/freelist_vectors.py from what the real sqlite3 wrote.")
    print()
    print("/// The number of the last page.")
    print("pub const LAST: u32 = %d;" % last)
    print()
    print("/// The numbers of the trunks in their order.")
    print("pub const TRUNKS: [u32; 2] = [%d, %d];" % tuple(trunks))
    print()
    print("/// The bytes of the trunks.")
    print("pub const BYTES: [&[u8; 512]; 2] = [")
    for trunk in trunks:
        print("    %s," % literal(pages[trunk - 1]))
    print("];")
    print()
    print("/// The free pages in the order of the list, so many as the header says.")
    print("pub const FREE: [u32; %d] = [" % count)
    for at in range(0, count, 16):
        print("    %s," % ", ".join("%d" % number for number in numbers[at:at + 16]))
    print("];")


if __name__ == "__main__":
    main()
