#!/usr/bin/env python3
"""An overflow chain that the real sqlite3 wrote, for the tests of crates/chain_tests.

    python3 bench/chain_vectors.py > crates/chain_tests/src/stock.rt

A table of one row with a long text is written with pages of 512 bytes, so that the end of the text stands in two overflow pages. The
pages are told whole, and beside them the end of the text as this script made it.
"""
import os
import sqlite3
import struct
import tempfile

from vectors import literal

TEXT = " ".join("%04d" % k for k in range(1, 211))


def main():
    with tempfile.TemporaryDirectory() as folder:
        path = os.path.join(folder, "chain.db")
        db = sqlite3.connect(path)
        db.execute("PRAGMA page_size = 512")
        db.execute("CREATE TABLE t(a TEXT)")
        db.execute("INSERT INTO t VALUES(?)", (TEXT,))
        db.commit()
        assert db.execute("PRAGMA integrity_check").fetchone() == ("ok",)
        db.close()
        data = open(path, "rb").read()
    pages = [data[at:at + 512] for at in range(0, len(data), 512)]
    assert len(pages) == 4
    links = [struct.unpack_from(">I", page, 0)[0] for page in pages]
    assert links[2:] == [4, 0]
    payload = 3 + len(TEXT)  # the header: its size in one byte, the type in two
    least = (512 - 12) * 32 // 255 - 23
    stored = least + (payload - least) % 508
    stored = stored if stored <= 512 - 35 else least
    end = TEXT[stored - 3:]
    assert (pages[2][4:] + pages[3][4:])[:len(end)] == end.encode()
    print("// Written by bench/chain_vectors.py from what the real sqlite3 wrote.")
    print()
    print("/// Pages 3 and 4 of a database whose page 2 has a row of which the end is in these.")
    print("pub const LINKS: [&[u8; 512]; 2] = [")
    for page in pages[2:]:
        print("    %s," % literal(page))
    print("];")
    print()
    print("/// The end of the text.")
    print("pub const END: &[u8; %d] = %s;" % (len(end), literal(end.encode())))


main()
