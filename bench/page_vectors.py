#!/usr/bin/env python3
"""Pages that the real sqlite3 wrote, and what they hold, for the tests of crates/page_tests.

    python3 bench/page_vectors.py > crates/page_tests/src/stock.rt

Python's sqlite3 module writes databases of several page sizes, with and without reserved bytes, with rows, indexes, deletes
(freeblocks and fragments) and overflow. Each chosen page is decoded by the plain decoder below, which follows the page
"Database File Format" alone, and is checked against SQLite itself: the dbstat table where it is compiled in, and the values
of rowids. A page is stored in hexadecimal with its zeros counted; of what it holds there are the kind, the count of cells, the right
child, the free bytes, and a checksum over all fields of all cells.
"""
import os
import sqlite3
import struct
import subprocess
import tempfile

KINDS = {2: "IndexInner", 5: "TableInner", 10: "IndexLeaf", 13: "TableLeaf"}


def varint(page, at):
    number = 0
    for k in range(8):
        byte = page[at + k]
        number = number << 7 | byte & 127
        if byte < 128:
            return number, k + 1
    return number << 8 | page[at + 8], 9


def cell(page, usable, flag, start):
    """left, rowid, payload size, stored bytes, overflow page, size in the page"""
    at, left, rowid, payload = start, 0, 0, 0
    if flag < 10:
        left = struct.unpack_from(">I", page, at)[0]
        at += 4
    if flag != 5:
        payload, n = varint(page, at)
        at += n
    if flag in (5, 13):
        rowid, n = varint(page, at)
        at += n
    most = usable - 35 if flag == 13 else (usable - 12) * 64 // 255 - 23
    least = (usable - 12) * 32 // 255 - 23
    stored, overflow = payload, 0
    if payload > most:
        stored = least + (payload - least) % (usable - 4)
        if stored > most:
            stored = least
        overflow = struct.unpack_from(">I", page, at + stored)[0]
    end = at + stored + (4 if overflow else 0)
    if rowid >= 1 << 63:
        rowid -= 1 << 64
    return left, rowid, payload, page[at:at + stored], overflow, max(4, end - start)


def decode(page, usable, first):
    head = 100 if first else 0
    flag, block, count, content, fragments = struct.unpack_from(">BHHHB", page, head)
    pointers = head + (12 if flag < 10 else 8)
    right = struct.unpack_from(">I", page, head + 8)[0] if flag < 10 else 0
    starts = [struct.unpack_from(">H", page, pointers + 2 * i)[0] for i in range(count)]
    cells = [cell(page, usable, flag, start) for start in starts]
    free = usable - pointers - 2 * count - sum(c[5] for c in cells)
    gap = (content or 65536) - pointers - 2 * count
    blocks = 0
    while block:
        following, size = struct.unpack_from(">HH", page, block)
        blocks += size
        block = following
    assert free == gap + blocks + fragments, "the free bytes are the gap, the freeblocks and the fragments"
    return flag, cells, right, free, blocks, fragments


def mix(total, number):
    """a checksum of numbers modulo 2^32"""
    return (total * 31 + number) % (1 << 32)


def checksum(cells):
    total = 0
    for left, rowid, payload, stored, overflow, size in cells:
        for number in (left, rowid % (1 << 32), payload % (1 << 32), len(stored), overflow, size):
            total = mix(total, number)
        for byte in stored:
            total = mix(total, byte)
    return total


def packed(page):
    """the bytes in hexadecimal; a zero byte is followed by how many zeros stand there, in 2 bytes"""
    text, at = "", 0
    while at < len(page):
        if page[at]:
            text += "%02x" % page[at]
            at += 1
            continue
        end = at
        while end < len(page) and page[end] == 0 and end - at < 65535:
            end += 1
        text += "00%04x" % (end - at)
        at = end
    return text


def build(path, size, reserved):
    """an empty database; the command line shell alone can set the count of reserved bytes"""
    subprocess.run(["sqlite3", path, f".filectrl reserve_bytes {reserved}", f"PRAGMA page_size = {size}", "PRAGMA auto_vacuum = 0", "CREATE TABLE seed(x)", "DROP TABLE seed"],
                   check=True, stdout=subprocess.DEVNULL)
    db = sqlite3.connect(path, isolation_level=None)
    assert db.execute("PRAGMA page_size").fetchone()[0] == size
    with open(path, "rb") as file:
        assert file.read(21)[20] == reserved
    return db


def fill(db, rows, length, deletes):
    """rows whose values are mostly zeros, so that their pages can be stored in short"""
    db.execute("CREATE TABLE t(k INTEGER PRIMARY KEY, name BLOB, body BLOB)")
    db.execute("CREATE INDEX t_name ON t(name)")
    db.execute("BEGIN")
    for k in range(1, rows + 1):
        name = struct.pack(">H", k * 37 % 65536) + bytes(k * 29 % (length // 3))
        db.execute("INSERT INTO t VALUES(?, ?, ?)", (k * 7 - 300, name, bytes(k * 13 % length)))
    db.execute("COMMIT")
    for k in range(1, rows + 1):
        if deletes and k % deletes == 0:
            db.execute("DELETE FROM t WHERE k = ?", (k * 7 - 300,))


def pages_of(path, size):
    with open(path, "rb") as file:
        data = file.read()
    return [data[i:i + size] for i in range(0, len(data), size)]


def tree_pages(db, pages, usable):
    """the page numbers of all b-trees, by walking from the roots"""
    roots = [1] + [row[0] for row in db.execute("SELECT rootpage FROM sqlite_schema WHERE rootpage > 0")]
    seen, todo = [], list(roots)
    while todo:
        number = todo.pop(0)
        page = pages[number - 1]
        seen.append(number)
        flag, cells, right, *_ = decode(page, usable, number == 1)
        if flag < 10:
            todo += [c[0] for c in cells] + [right]
    return seen


def checked_with_sqlite(db, number, decoded, usable):
    """where dbstat is compiled in: the count of cells, the payload and the unused bytes of the page"""
    try:
        row = db.execute("SELECT ncell, payload, unused FROM dbstat WHERE pageno = ?", (number,)).fetchone()
    except sqlite3.OperationalError:
        return False
    flag, cells, right, free, *_ = decoded
    assert row[0] == len(cells), (number, row, len(cells))
    assert row[1] == sum(len(c[3]) for c in cells), (number, row)
    assert row[2] == free, (number, row, free)
    return True


def chosen(db, pages, usable, wanted):
    """page 1 and a few pages of each kind, those with freeblocks, fragments and overflow first"""
    by_kind, picked = {}, [(0, 1, decode(pages[0], usable, True))]
    for number in tree_pages(db, pages, usable):
        decoded = decode(pages[number - 1], usable, number == 1)
        if number == 1:
            continue
        flag, cells, right, free, blocks, fragments = decoded
        worth = (blocks > 0) + (fragments > 0) + any(c[4] for c in cells)
        by_kind.setdefault(flag, []).append((-worth, number, decoded))
    for flag in sorted(by_kind):
        picked += sorted(by_kind[flag], key=lambda entry: entry[:2])[:wanted]
    return [(number, decoded) for _, number, decoded in picked]


PAGES = [
    # page size, reserved bytes, rows, longest body, every which row is deleted, pages of each kind
    (512, 0, 600, 700, 3, 3),
    (512, 32, 600, 700, 4, 3),
    (1024, 0, 500, 1500, 5, 2),
    (4096, 255, 900, 5000, 7, 1),
    (65536, 0, 900, 9000, 9, 1),
]


def main():
    folder = tempfile.mkdtemp()
    print("// Pages that the real sqlite3 wrote, with what it says they hold. Made by bench/page_vectors.py; not edited by hand.")
    print("use page_form::Kind;")
    print()
    print("use crate::vectors::Stock;")
    count = 0
    for size, reserved, rows, length, deletes, wanted in PAGES:
        path = os.path.join(folder, "%d_%d.db" % (size, reserved))
        db = build(path, size, reserved)
        fill(db, rows, length, deletes)
        pages = pages_of(path, size)
        for number, decoded in chosen(db, pages, size - reserved, wanted):
            flag, cells, right, free, blocks, fragments = decoded
            assert checked_with_sqlite(db, number, decoded, size - reserved)
            count += 1
            print()
            print("/// Page %d of a file of page size %d with %d reserved bytes: %d bytes in freeblocks, %d in fragments, %d cells with overflow." %
                  (number, size, reserved, blocks, fragments, sum(1 for c in cells if c[4])))
            print("pub const PAGE_%d: Stock = Stock {" % count)
            print("    usable: %d," % (size - reserved))
            print("    first: %s," % ("true" if number == 1 else "false"))
            print("    kind: Kind::%s," % KINDS[flag])
            print("    cells: %d," % len(cells))
            print("    right: %d," % right)
            print("    free: %d," % free)
            print("    sum: %d," % checksum(cells))
            print('    text: b"%s",' % packed(pages[number - 1]))
            print("};")


if __name__ == "__main__":
    main()
