#!/usr/bin/env python3
"""A database with trees of three levels, for the tests of crates/tree_drop_tests.

    python3 bench/drop_vectors.py > crates/tree_drop_tests/src/stock.rt

sqlite3 itself writes a tree of three levels over many pages alone. So the pages are laid here, by the file format's page, and the real sqlite3 says that the file
is in order, which rows it has, and which pages each tree has with its overflow pages. The pages from 2 on are told whole; what no cell has is filled with dots.
"""
import os
import sqlite3
import struct
import tempfile

from vectors import literal

SIZE = 512
COUNT = 21

TEXTS = {1: "r" * 1200, 2: "two", 3: "three", 4: "f" * 700}

# of u, by rowid, and of the index on it, whose first and last long texts end in overflow pages
NAMES = {1: "a", 2: "c" * 200, 3: "e", 4: "g", 5: "i", 6: "k", 7: "m" * 200}


def varint(n):
    out = [n & 127]
    n >>= 7
    while n:
        out.insert(0, 128 | n & 127)
        n >>= 7
    return bytes(out)


def record(*values):
    types, body = b"", b""
    for value in values:
        if value is None:
            types += b"\0"
        elif isinstance(value, int):
            types += b"\1"
            body += struct.pack(">b", value)
        else:
            types += varint(13 + 2 * len(value))
            body += value.encode()
    assert len(types) < 127
    return bytes([len(types) + 1]) + types + body


pages = {}


def stored(payload, most, chain):
    """the bytes that a cell stores of a payload, whose rest goes into a chain of these pages"""
    if len(payload) <= most:
        assert not chain
        return payload
    least = (SIZE - 12) * 32 // 255 - 23
    local = least + (len(payload) - least) % (SIZE - 4)
    if local > most:
        local = least
    rest = payload[local:]
    for k, page in enumerate(chain):
        following = chain[k + 1] if k + 1 < len(chain) else 0
        pages[page] = struct.pack(">I", following) + rest[:SIZE - 4].ljust(SIZE - 4, b".")
        rest = rest[SIZE - 4:]
    assert not rest
    return payload[:local] + struct.pack(">I", chain[0])


def lay(page, kind, cells, right=None):
    head = 100 if page == 1 else 0
    room = bytearray(b"." * SIZE)
    at, places = SIZE, []
    for cell in cells:
        cell = cell.ljust(4, b"\0")
        at -= len(cell)
        room[at:at + len(cell)] = cell
        places.append(at)
    front = bytes([kind]) + struct.pack(">HHHB", 0, len(cells), at, 0)
    if right is not None:
        front += struct.pack(">I", right)
    front += b"".join(struct.pack(">H", place) for place in places)
    assert head + len(front) <= at
    room[head:head + len(front)] = front
    pages[page] = bytes(room)


def row(rowid, payload, chain=()):
    return varint(len(payload)) + varint(rowid) + stored(payload, SIZE - 35, chain)


def entry(payload, chain=(), left=None):
    front = b"" if left is None else struct.pack(">I", left)
    return front + varint(len(payload)) + stored(payload, (SIZE - 12) * 64 // 255 - 23, chain)


def name(rowid):
    return record(NAMES[rowid], rowid)


def make():
    schema = [
        ("table", "t", "t", 2, "CREATE TABLE t(b TEXT)"),
        ("table", "u", "u", 12, "CREATE TABLE u(c TEXT)"),
        ("index", "v", "u", 13, "CREATE INDEX v ON u(c)"),
    ]
    lay(1, 13, [row(k + 1, record(*values)) for k, values in enumerate(schema)])
    header = b"SQLite format 3\0" + struct.pack(">HBBBBBB", SIZE, 1, 1, 0, 64, 32, 32) + struct.pack(">IIIIII", 1, COUNT, 0, 0, 1, 4) + bytes(8)
    header += struct.pack(">I", 1) + bytes(36 - 4) + struct.pack(">II", 1, 3040001)
    header = header.ljust(100, b"\0")
    assert len(header) == 100
    pages[1] = header + pages[1][100:]
    # t: a root over two pages, each over two leaves
    lay(2, 5, [struct.pack(">I", 4) + varint(2)], 3)
    lay(4, 5, [struct.pack(">I", 8) + varint(1)], 5)
    lay(3, 5, [struct.pack(">I", 7) + varint(3)], 6)
    lay(8, 13, [row(1, record(TEXTS[1]), (10, 9))])
    lay(5, 13, [row(2, record(TEXTS[2]))])
    lay(7, 13, [row(3, record(TEXTS[3]))])
    lay(6, 13, [row(4, record(TEXTS[4]), (11,))])
    # u
    lay(12, 13, [row(k, record(NAMES[k])) for k in NAMES])
    # v: the same, with an entry in each page
    lay(13, 2, [entry(name(4), left=15)], 14)
    lay(15, 2, [entry(name(2), (20,), left=19)], 16)
    lay(14, 2, [entry(name(6), left=18)], 17)
    lay(19, 10, [entry(name(1))])
    lay(16, 10, [entry(name(3))])
    lay(18, 10, [entry(name(5))])
    lay(17, 10, [entry(name(7), (21,))])


def main():
    make()
    with tempfile.TemporaryDirectory() as folder:
        path = os.path.join(folder, "drop.db")
        with open(path, "wb") as file:
            file.write(b"".join(pages[k] for k in range(1, COUNT + 1)))
        db = sqlite3.connect(path)
        assert db.execute("PRAGMA integrity_check").fetchall() == [("ok",)], db.execute("PRAGMA integrity_check").fetchall()
        assert dict(db.execute("SELECT rowid, b FROM t")) == TEXTS
        assert dict(db.execute("SELECT rowid, c FROM u")) == NAMES
        assert db.execute("SELECT rowid FROM u INDEXED BY v ORDER BY c").fetchall() == [(k,) for k in NAMES]
        trees = {tree: sorted(page for (page,) in db.execute("SELECT pageno FROM dbstat WHERE name = ?", (tree,))) for tree in "tuv"}
        db.close()
    print("// Written by bench/drop_vectors.py, which asks the real sqlite3.")
    print()
    print("/// Pages 2 to %d of a database in order, by what sqlite3 says. Page 2 is the root of a table of four rows, with the pages" % COUNT)
    print("/// %s, page 12 that of a table of seven rows," % ", ".join(map(str, trees["t"])))
    print("/// and page 13 that of an index on it, with the pages")
    print("/// %s." % ", ".join(map(str, trees["v"])))
    assert trees["u"] == [12]
    print("pub const PAGES: [&[u8; 512]; %d] = [" % (COUNT - 1))
    for page in range(2, COUNT + 1):
        print("    %s," % literal(pages[page]))
    print("];")


if __name__ == "__main__":
    main()
