#!/usr/bin/env python3
"""A small database that the real sqlite3 wrote, and damages of it with the fault that each makes, for the tests of crates/tree_check_tests.

    python3 bench/check_vectors.py > crates/tree_check_tests/src/stock.rt      (`rt fmt` there afterwards)

The database has pages of 512 bytes, two tables and an index of two levels, chains and a freelist. The counts are sqlite3's own. Where its pages are is read
by the plain decoder of page_vectors.py. The fault of each damage is worked by hand from the public format and the order of the walk: page 1's header, the
freelist, page 1's tree, then the trees of the roots in the order of their rows, each depth first; a leaf's chains before the order of its rowids, an interior
page's rowids before its children. `examples/stock_files.py` writes the same damages to files and runs the program over them.
"""
import os
import sqlite3
import struct
import tempfile

from page_vectors import decode
from vectors import literal

SIZE = 512


def u16(page, at):
    return struct.unpack_from(">H", page, at)[0]


def u32(page, at):
    return struct.unpack_from(">I", page, at)[0]


def b16(number):
    return struct.pack(">H", number)


def b32(number):
    return struct.pack(">I", number)


# Faults, as crates/check_spec names them.
def at_page(page, at):
    return "Page", (("page", page), ("at", at))


def schema(rowid):
    return "Schema", (("rowid", rowid),)


def order(page, cell):
    return "Order", (("page", page), ("cell", cell))


def twice(page):
    return "Twice", (("page", page),)


def lost(page):
    return "Lost", (("page", page),)


def as_rust(fault):
    return "CheckFault::%s { %s }" % (fault[0], ", ".join("%s: %d" % field for field in fault[1]))


def as_text(fault):
    """What users are told."""
    numbers = tuple(number for _, number in fault[1])
    return {"Page": "page %d at %d", "Schema": "schema row %d", "Order": "order page %d cell %d", "Twice": "twice page %d", "Lost": "lost page %d"}[fault[0]] % numbers


def text(k):
    return ("%03d " % k) * {3: 150, 5: 400, 10: 150}.get(k, 20)


def write(path):
    """Writes the database and gives what sqlite3 says of it: the counts of pages, free pages and trees, and the roots."""
    db = sqlite3.connect(path)
    db.execute("PRAGMA page_size = %d" % SIZE)
    db.execute("PRAGMA secure_delete = ON")
    db.execute("CREATE TABLE t(a INTEGER, b TEXT)")
    db.execute("CREATE INDEX w ON t(b)")
    db.execute("CREATE TABLE u(a TEXT)")
    db.executemany("INSERT INTO t(rowid, a, b) VALUES(?, ?, ?)", [(10 * k, 7 * k, text(k)) for k in range(1, 15)])
    db.executemany("INSERT INTO u(rowid, a) VALUES(?, ?)", [(k, "%d" % k * 200) for k in range(1, 5)])
    db.execute("CREATE TABLE x(c BLOB)")
    db.execute("INSERT INTO x VALUES(zeroblob(2000))")
    db.commit()
    db.execute("DELETE FROM t WHERE rowid IN (20, 110)")
    db.execute("DROP TABLE x")
    db.commit()
    assert db.execute("PRAGMA integrity_check").fetchone() == ("ok",)
    count = db.execute("PRAGMA page_count").fetchone()[0]
    free = db.execute("PRAGMA freelist_count").fetchone()[0]
    roots = dict(db.execute("SELECT name, rootpage FROM sqlite_master"))
    db.close()
    return count, free, len(roots) + 1, roots


class Cell:
    """A cell of a page of a tree: its place in the page, and what it holds."""

    def __init__(self, start, parts):
        self.start = start
        self.left, self.rowid, self.payload, _, self.overflow, self.size = parts
        # a table's leaf, with sizes and rowids of one byte: where these stand
        self.overflow_at = start + self.size - 4


class Stock:
    """The database, with the places in it that are damaged."""

    def __init__(self, data, roots):
        self.pages = [data[at:at + SIZE] for at in range(0, len(data), SIZE)]
        self.count = len(self.pages)
        self.roots = roots
        self.trunk = u32(self.page(1), 32)
        self.free = u32(self.page(1), 36)
        self.leaves = [u32(self.page(self.trunk), 8 + 4 * i) for i in range(u32(self.page(self.trunk), 4))]

    def page(self, number):
        return self.pages[number - 1]

    def cells(self, number):
        page, first = self.page(number), number == 1
        at = (100 if first else 0) + (12 if page[100 if first else 0] < 10 else 8)
        return [Cell(u16(page, at + 2 * i), parts) for i, parts in enumerate(decode(page, SIZE, first)[1])]

    def right(self, number):
        return u32(self.page(number), 8)

    def links(self, first):
        found = []
        while first:
            found.append(first)
            first = u32(self.page(first), 0)
        return found


def change(page, at, data):
    """A change of bytes of a page."""
    return page, at, bytes(data)


def damages(stock):
    """The damages: what is told of each in the table, the changes, the fault that is met first on the walk, and, where the program sees it earlier, as it
    opens the file, its words."""
    rows = []

    def row(what, fault, *changes, opening=None):
        rows.append((what, changes, fault, opening))

    count, free, trunk, leaves = stock.count, stock.free, stock.trunk, stock.leaves
    header(row, count, free, trunk, leaves)
    freelist(row, stock)
    first_page(row, stock)
    schema_rows(row, stock)
    children(row, stock)
    places(row, stock)
    texts(row, stock)
    chains(row, stock)
    orders(row, stock)
    return rows


def header(row, count, free, trunk, leaves):
    row("the versions are none", at_page(1, 28), change(1, 18, [9]), opening="versions 9 1")
    row("the header counts a page more", at_page(1, 28), change(1, 28, b32(count + 1)), opening="missing page %d" % (count + 1))
    # a file with a page fewer: the leaf of the trunk that is the last page is out of range then
    row("the header counts a page less", at_page(1, 28), change(1, 28, b32(count - 1)), opening=as_text(at_page(trunk, 8 + 4 * leaves.index(count))))
    row("the first trunk is behind the last page", at_page(1, 32), change(1, 32, b32(count + 1)))
    row("the first trunk is page 1", at_page(1, 32), change(1, 32, b32(1)))
    row("there is no first trunk", at_page(1, 36), change(1, 32, b32(0)))
    row("a free page is counted too many", at_page(1, 36), change(1, 36, b32(free + 1)))
    row("a free page is counted too few", at_page(1, 36), change(1, 36, b32(free - 1)))
    row("no free page is counted", at_page(1, 36), change(1, 36, b32(0)))


def freelist(row, stock):
    trunk, leaves, count = stock.trunk, stock.leaves, stock.count
    used = stock.cells(stock.roots["t"])[0].left
    row("the next trunk is out of range", at_page(trunk, 0), change(trunk, 0, b32(count + 1)))
    row("the next trunk is page 1", at_page(trunk, 0), change(trunk, 0, b32(1)))
    row("a trunk leads to itself", twice(trunk), change(trunk, 0, b32(trunk)))
    row("a trunk leads to its own leaf", twice(leaves[0]), change(trunk, 0, b32(leaves[0])))
    # 512 bytes have room for 126 numbers of leaves behind the first eight bytes
    row("a trunk has more leaves than room", at_page(trunk, 4), change(trunk, 4, b32(127)))
    # the number behind the last one is 0
    row("a trunk has as many leaves as room", at_page(trunk, 8 + 4 * len(leaves)), change(trunk, 4, b32(126)))
    row("a leaf of a trunk is 0", at_page(trunk, 8), change(trunk, 8, b32(0)))
    row("a leaf of a trunk is out of range", at_page(trunk, 12), change(trunk, 12, b32(count + 1)))
    row("a leaf of a trunk is page 1", at_page(trunk, 12), change(trunk, 12, b32(1)))
    row("a leaf is listed twice", twice(leaves[0]), change(trunk, 12, b32(leaves[0])))
    row("a trunk lists itself", twice(trunk), change(trunk, 8, b32(trunk)))
    # told when the tree comes to the page
    row("a leaf of a trunk is a page of a tree", twice(used), change(trunk, 8, b32(used)))
    gone = leaves[-2:]
    row("two leaves are left out, the least is told", lost(min(gone)), change(trunk, 4, b32(len(leaves) - 2)), change(1, 36, b32(stock.free - 2)))
    row("the freelist is left out", lost(min(leaves + [trunk])), change(1, 32, b32(0) + b32(0)))


def first_page(row, stock):
    row("page 1 has no kind", at_page(1, 100), change(1, 100, [7]))
    # without their rowids, three bytes, the cells are an index's; those bytes are told as fragments
    row("page 1 is an index", at_page(1, 100), change(1, 100, [10]), change(1, 107, [3]))
    row("page 1 has too many cells", at_page(1, 103), change(1, 103, b16(203)))
    row("the content of page 1 starts in its pointers", at_page(1, 105), change(1, 105, b16(113)))
    row("a pointer of page 1 is before the content", at_page(1, 110), change(1, 110, b16(120)))
    row("page 1 has other fragments", at_page(1, 107), change(1, 107, [2]))


def schema_rows(row, stock):
    first, count = stock.page(1), stock.count
    rows = stock.cells(1)
    # a row: the sizes of payload and rowid in a byte each, then the record: its header's size, and the types of type, name, table, root and text
    records = [cell.start + 2 for cell in rows]
    t, w, u = records
    # the bytes of the values follow: type, name, table and the root's one byte
    root_of_t = t + first[t] + len("tablett")
    root_of_w = w + first[w] + len("indexwt")
    root_of_u = u + first[u] + len("tableuu")
    assert [first[at] for at in (root_of_t, root_of_w, root_of_u)] == [stock.roots[name] for name in "twu"]
    assert all(first[at] == 6 and first[at + 5] < 128 for at in records)
    row("a schema row is no record, its header too long", schema(1), change(1, t, [99]))
    row("a schema row is no record, a type that isn't allowed", schema(2), change(1, w + 4, [10]))
    row("a schema row is no record, its values too short", schema(3), change(1, u + 5, [first[u + 5] + 2]))
    # eight bytes for the root, and seven fewer for the text behind it
    row("a schema row has a float", schema(1), change(1, t + 4, [7, first[t + 5] - 14]))
    row("a schema row's type is NULL", schema(2), change(1, w + 1, [0]))
    row("a schema row's name is a blob", schema(2), change(1, w + 2, [first[w + 2] - 1]))
    row("a schema row's table is an integer", schema(3), change(1, u + 3, [1]))
    row("a schema row's root is a text", schema(1), change(1, t + 4, [15]))
    row("a schema row's root is a blob", schema(1), change(1, t + 4, [14]))
    row("a schema row's text is a blob", schema(3), change(1, u + 5, [first[u + 5] - 1]))
    row("a root is behind the last page", schema(1), change(1, root_of_t, [count + 1]))
    row("a root is page 1", schema(2), change(1, root_of_w, [1]))
    row("a root is negative", schema(3), change(1, root_of_u, [255]))
    row("a root is named twice", twice(stock.roots["t"]), change(1, root_of_u, [stock.roots["t"]]))
    row("a root is a free page", twice(stock.leaves[0]), change(1, root_of_w, [stock.leaves[0]]))
    row("a root is a page of a chain", twice(stock.links(chained(stock)[1].overflow)[0]), change(1, root_of_u, [stock.links(chained(stock)[1].overflow)[0]]))
    row("a root isn't named", lost(stock.roots["u"]), change(1, root_of_u, [0]))
    # its root and its other leaf are in no place then
    row("a leaf is named as the root", lost(stock.roots["u"]), change(1, root_of_u, [stock.right(stock.roots["u"])]))


def chained(stock):
    """The leaf of t in which the row with three pages of a chain stands, and its cell."""
    root = stock.roots["t"]
    for leaf in [cell.left for cell in stock.cells(root)] + [stock.right(root)]:
        for cell in stock.cells(leaf):
            if cell.overflow and len(stock.links(cell.overflow)) == 3:
                return leaf, cell
    raise AssertionError("no chain of three pages")


def children(row, stock):
    t, w, count = stock.roots["t"], stock.roots["w"], stock.count
    one, two = stock.cells(t)
    row("the right child is out of range", at_page(t, 8), change(t, 8, b32(count + 1)))
    row("the right child is 0", at_page(t, 8), change(t, 8, b32(0)))
    row("the right child is page 1", at_page(t, 8), change(t, 8, b32(1)))
    row("a child is out of range", at_page(t, two.start), change(t, two.start, b32(count + 1)))
    row("a child is 0", at_page(t, one.start), change(t, one.start, b32(0)))
    row("a child is page 1", at_page(t, one.start), change(t, one.start, b32(1)))
    # numbers are looked at before any child is
    row("the right child and a child are out of range", at_page(t, 8), change(t, 8, b32(0)), change(t, one.start, b32(0)))
    row("a child leads back to its root", twice(t), change(t, one.start, b32(t)))
    row("the right child leads back to its root", twice(t), change(t, 8, b32(t)))
    row("a child is a free page", twice(stock.leaves[1]), change(t, two.start, b32(stock.leaves[1])))
    row("two children are one", twice(one.left), change(t, two.start, b32(one.left)))
    cell = stock.cells(w)[0]
    row("the right child of an index is out of range", at_page(w, 8), change(w, 8, b32(count + 1)))
    row("a child of an index is out of range", at_page(w, cell.start), change(w, cell.start, b32(count + 1)))
    row("a child of an index is a page of a table", twice(one.left), change(w, cell.start, b32(one.left)))


def places(row, stock):
    t, w, u = (stock.roots[name] for name in "twu")
    one, two = stock.cells(t)
    index_leaf = stock.cells(w)[0].left
    table_leaf = stock.cells(u)[0].left
    index_cell = stock.cells(w)[1]
    row("an index's leaf stands under a table", at_page(index_leaf, 0), change(t, two.start, b32(index_leaf)))
    row("an index's root stands under a table", at_page(w, 0), change(t, one.start, b32(w)))
    row("a table's leaf stands under an index", at_page(table_leaf, 0), change(w, index_cell.start, b32(table_leaf)))
    row("a table's root stands under an index", at_page(u, 0), change(w, index_cell.start, b32(u)))
    # the first leaf of t is one level below the root, so no interior page is
    row("an interior page stands beside leaves", at_page(u, 0), change(t, two.start, b32(u)))
    # u's leaves, whose rowids are small, are two levels below t's root then, and the next leaf is one
    row("a leaf is less deep than the first", at_page(two.left, 0), change(t, one.start, b32(u)))
    # all of the content is the gap then
    none = b16(0) + b16(0) + b16(SIZE) + bytes(1)
    row("a leaf has no cell", at_page(stock.right(t), 0), change(stock.right(t), 1, none))
    row("an index's leaf has no cell", at_page(stock.right(w), 0), change(stock.right(w), 1, none))
    row("an interior page has no cell", at_page(t, 0), change(t, 1, none))
    row("an index's interior page has no cell", at_page(w, 0), change(w, 1, none))


def texts(row, stock):
    t = stock.roots["t"]
    leaf = stock.cells(t)[0].left
    page, cells = stock.page(leaf), stock.cells(leaf)
    block = u16(page, 1)
    size = u16(page, block + 2)
    assert block and u16(page, block) == 0 and page[7] == 0
    row("a page has no kind", at_page(t, 0), change(t, 0, [7]))
    row("a page has more cells than room for pointers", at_page(leaf, 3), change(leaf, 3, b16(253)))
    row("the content starts in the pointers", at_page(leaf, 5), change(leaf, 5, b16(8 + 2 * len(cells) - 1)))
    row("the content starts behind the page", at_page(leaf, 5), change(leaf, 5, b16(SIZE + 1)))
    row("a pointer is before the content", at_page(leaf, 10), change(leaf, 10, b16(u16(page, 5) - 1)))
    # the last cell of the page, of which one byte more would be stored
    last = max(cells, key=lambda cell: cell.start)
    assert last.start + last.size == SIZE and page[last.start] < 100
    row("a cell ends behind the page", at_page(leaf, last.start), change(leaf, last.start, [page[last.start] + 1]))
    row("a freeblock is before the content", at_page(leaf, 16), change(leaf, 1, b16(16)))
    row("a freeblock starts at the page's end", at_page(leaf, SIZE - 1), change(leaf, 1, b16(SIZE - 1)))
    row("a freeblock has three bytes", at_page(leaf, block), change(leaf, block + 2, b16(3)))
    row("a freeblock ends behind the page", at_page(leaf, block), change(leaf, block + 2, b16(SIZE - block + 1)))
    row("a freeblock leads to itself", at_page(leaf, block), change(leaf, block, b16(block)))
    row("a freeblock leads back", at_page(leaf, block - 4), change(leaf, block, b16(block - 4)))
    row("a freeblock leads out of the page", at_page(leaf, 600), change(leaf, block, b16(600)))
    # the first byte that both have is the one behind its end
    row("a freeblock goes into a cell", at_page(leaf, block + size), change(leaf, block + 2, b16(size + 1)))
    row("two pointers lead to one cell", at_page(leaf, cells[0].start), change(leaf, 10, b16(cells[0].start)))
    row("a fragment byte is counted too many", at_page(leaf, 7), change(leaf, 7, [1]))
    row("there are no freeblocks, but their bytes are", at_page(leaf, 7), change(leaf, 1, b16(0)))
    # sixty-one bytes would be one too many, though the gap begins so much earlier
    wide = stock.right(t)
    row("there are too many fragment bytes", at_page(wide, 7), change(wide, 5, b16(u16(stock.page(wide), 5) - 61) + bytes([61])))


def chains(row, stock):
    t, w, count = stock.roots["t"], stock.roots["w"], stock.count
    leaf, cell = chained(stock)
    page = stock.page(leaf)
    one, two, three = stock.links(cell.overflow)
    free = stock.leaves[2]
    row("a chain's first page is out of range", at_page(leaf, cell.overflow_at), change(leaf, cell.overflow_at, b32(count + 1)))
    row("a chain's first page is 0", at_page(leaf, cell.overflow_at), change(leaf, cell.overflow_at, b32(0)))
    row("a chain's first page is page 1", at_page(leaf, cell.overflow_at), change(leaf, cell.overflow_at, b32(1)))
    row("a chain's first page is free", twice(free), change(leaf, cell.overflow_at, b32(free)))
    row("a chain's first page is its own leaf", twice(leaf), change(leaf, cell.overflow_at, b32(leaf)))
    row("a chain leads out of range", at_page(one, 0), change(one, 0, b32(count + 1)))
    row("a chain leads to page 1", at_page(one, 0), change(one, 0, b32(1)))
    row("a chain ends too early", at_page(two, 0), change(two, 0, b32(0)))
    row("a chain doesn't end", at_page(three, 0), change(three, 0, b32(one)))
    row("a chain's last page leads out of range", at_page(three, 0), change(three, 0, b32(count + 1)))
    row("a chain leads back", twice(one), change(two, 0, b32(one)))
    row("a chain leads to the freelist", twice(free), change(one, 0, b32(free)))
    row("a chain leads to a root", twice(t), change(two, 0, b32(t)))
    # the last page, which leads nowhere, comes in the second's place, where one more is to come
    row("a chain leaves a page out", at_page(three, 0), change(one, 0, b32(three)))
    # a payload of one page less is stored in as many bytes, and its second page is the last one
    less = cell.payload - (SIZE - 4)
    assert page[cell.start] >= 128 and less >= 128
    row("a payload is shorter than its chain", at_page(two, 0), change(leaf, cell.start, [128 | less >> 7, less & 127]))
    more = cell.payload + SIZE - 4
    row("a payload is longer than its chain", at_page(three, 0), change(leaf, cell.start, [128 | more >> 7, more & 127]))
    entry = next(c for c in stock.cells(w) if c.overflow and len(stock.links(c.overflow)) == 1)
    link = entry.overflow
    row("the chain of an index's interior page is out of range", at_page(w, entry.overflow_at), change(w, entry.overflow_at, b32(count + 1)))
    row("the chain of an index's interior page doesn't end", at_page(link, 0), change(link, 0, b32(free)))
    row("an index and its table have one chain", twice(one), change(w, entry.overflow_at, b32(one)))
    under = next(c for c in stock.cells(stock.cells(w)[0].left) if c.overflow)
    last = stock.links(under.overflow)[-1]
    row("the chain of an index's leaf doesn't end", at_page(last, 0), change(last, 0, b32(last)))


def orders(row, stock):
    t = stock.roots["t"]
    one, two = stock.cells(t)
    first, second = stock.cells(one.left), stock.cells(two.left)
    right = stock.right(t)

    def rowid_at(page, cell):
        """where the one byte of the rowid stands, behind the size of the payload"""
        at = cell.start + (2 if stock.page(page)[cell.start] >= 128 else 1)
        assert stock.page(page)[at] == cell.rowid < 128
        return at

    # the root's cells have four bytes of a child and one of a rowid
    assert [stock.page(t)[cell.start + 4] for cell in (one, two)] == [one.rowid, two.rowid]
    row("two rowids are the same", order(one.left, 1), change(one.left, rowid_at(one.left, first[1]), [first[0].rowid]))
    row("a rowid is below the one before", order(one.left, 2), change(one.left, rowid_at(one.left, first[2]), [first[0].rowid + 1]))
    row("a rowid is above the bound", order(one.left, len(first) - 1), change(one.left, rowid_at(one.left, first[-1]), [one.rowid + 1]))
    row("a first rowid isn't above the bound to its left", order(two.left, 0), change(two.left, rowid_at(two.left, second[0]), [one.rowid]))
    row("two rowids of an interior page are the same", order(t, 1), change(t, two.start + 4, [one.rowid]))
    row("the rowids of an interior page fall", order(t, 1), change(t, 12, b16(two.start) + b16(one.start)))
    below = first[2].rowid - 1
    row("an interior rowid is below the leaf's", order(one.left, 2), change(t, one.start + 4, [below]))
    above = second[0].rowid
    row("an interior rowid is one of the next leaf's", order(two.left, 0), change(t, one.start + 4, [above]))
    # the chains of a leaf come before the order of its rowids
    leaf, cell = chained(stock)
    assert leaf == one.left
    row("a chain and then the order are at fault", at_page(cell.overflow, 0), change(cell.overflow, 0, b32(0)), change(leaf, rowid_at(leaf, first[1]), [first[0].rowid]))
    row("rowids of the last leaf are below its left bound", order(right, 0), change(t, two.start + 4, [127]))


def stock_database():
    """The database and the counts of its pages, free pages and trees."""
    with tempfile.TemporaryDirectory() as folder:
        path = os.path.join(folder, "check.db")
        count, free, trees, roots = write(path)
        with open(path, "rb") as file:
            stock = Stock(file.read(), roots)
    assert stock.count == count and stock.free == free == len(stock.leaves) + 1
    return stock, (count, free, trees)


def eight_bytes(stock, page, at, data):
    """The change as eight bytes of the page."""
    start = min(at, SIZE - 8)
    old = stock.page(page)[start:start + 8]
    assert at - start + len(data) <= 8
    return page, start, old[:at - start] + data + old[at - start + len(data):]


def main():
    stock, (count, free, trees) = stock_database()
    rows = damages(stock)
    print("// Written by bench/check_vectors.py from what the real sqlite3 wrote.")
    print()
    print("use tree_check::{CheckFault, Count};")
    print()
    print("/// The pages of a database.")
    print("pub const PAGES: [&[u8; %d]; %d] = [" % (SIZE, count))
    for page in stock.pages:
        print("    %s," % literal(page))
    print("];")
    print()
    print("/// What it has.")
    print("pub const COUNT: Count = Count {\n    pages: %d,\n    trees: %d,\n    free: %d,\n};" % (count, trees, free))
    print()
    print("/// Eight bytes of a page, which stand there in place of its own. Page 0 is none.")
    print("#[derive(Clone, Copy)]")
    print("pub struct Edit {\n    pub page: u32,\n    pub at: usize,\n    pub bytes: [u8; 8],\n}")
    print()
    print("/// No change.")
    print("pub const NONE: Edit = Edit {\n    page: 0,\n    at: 0,\n    bytes: [0; 8],\n};")
    print()
    print("/// What is damaged, and the fault that is met first.")
    print("pub struct Row {\n    pub one: Edit,\n    pub two: Edit,\n    pub fault: CheckFault,\n}")
    print()
    print("pub const ROWS: &[Row] = &[")
    for what, changes, fault, _ in rows:
        assert 1 <= len(changes) <= 2
        edits = ["Edit { page: %d, at: %d, bytes: [%s] }" % (page, at, ", ".join(map(str, data))) for page, at, data in (eight_bytes(stock, *c) for c in changes)]
        edits += ["NONE"] * (2 - len(edits))
        print("    // %s" % what)
        print("    Row { one: %s, two: %s, fault: %s }," % (edits[0], edits[1], as_rust(fault)))
    print("];")


if __name__ == "__main__":
    main()
