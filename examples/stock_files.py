#!/usr/bin/env python3
"""Runs `check` on databases that the real sqlite3 writes, and on damages of one, and compares the replies.

    python3 examples/stock_files.py PROGRAM              runs `PROGRAM check FILE` on each file in a temporary folder; --list tells each file
    python3 examples/stock_files.py --write FOLDER       writes each file that stands alone and its reply beside it, as FILE.stdout

Nothing is stored: Python's sqlite3 writes the files each time. What a sound file has is what sqlite3 says of it: `page_count`, `freelist_count`, and one more
tree than rows of the schema with a root; `integrity_check` has to find it sound. Where sqlite3 has the table dbstat, the pages of all trees and the free
ones have to be all pages. What a refused or a damaged file is refused for is worked by hand from the public format: for damages in bench/check_vectors.py.
The program may change no byte of a file that it refuses, and leave no other beside it. Of a sound one it writes its own versions, and the count of changes and
of pages, and nothing else: with SQLite's versions back in place sqlite3 has to find the file as it was. A second check has to tell the same.
"""
import os
import random
import shutil
import struct
import subprocess
import sys
import tempfile

sys.path.insert(0, os.path.join(os.path.dirname(os.path.abspath(__file__)), os.pardir, "bench"))
try:
    import sqlite3
    import check_vectors
except ImportError as why:
    sys.exit("nothing can be checked: this python3 lacks what writes databases (%s)" % why)

COMMAND = shutil.which("sqlite3")
PAGE_SIZES = [512 << k for k in range(8)]

SOUND = []
REFUSED = []


def sound(name, page_size=4096, reserved=0):
    """A file that sqlite3 fills by the function, which takes a connection."""
    def add(fill):
        SOUND.append((name, page_size, reserved, fill))
        return fill
    return add


def refused(name, reply):
    """A file that the function writes at a path, which may give the reply in place of this one."""
    def add(write):
        REFUSED.append((name, reply, write))
        return write
    return add


# Databases

def connect(path):
    db = sqlite3.connect(path, isolation_level=None)
    db.execute("PRAGMA synchronous = OFF")
    return db


def read(path):
    with open(path, "rb") as file:
        return file.read()


def patch(path, at, data):
    with open(path, "r+b") as file:
        file.seek(at)
        file.write(data)


def begin(path, page_size, reserved):
    """An empty database of this page size, which keeps so many bytes at the end of each page."""
    if reserved and COMMAND:
        words = "PRAGMA page_size = %d;\n.filectrl reserve_bytes %d\nPRAGMA user_version = 1;\nVACUUM;\n" % (page_size, reserved)
        subprocess.run([COMMAND, path], input=words.encode(), stdout=subprocess.DEVNULL, check=False)
    if not (os.path.exists(path) and read(path)[20:21] == bytes([reserved])):
        if os.path.exists(path):
            os.remove(path)
        db = connect(path)
        db.execute("PRAGMA page_size = %d" % page_size)
        db.execute("PRAGMA user_version = 1")
        db.close()
        # the reserved bytes, and the start of the content of page 1, which has no cell
        patch(path, 20, bytes([reserved]))
        patch(path, 105, struct.pack(">H", (page_size - reserved) % 65536))
    data = read(path)
    assert len(data) == page_size and data[20] == reserved


def bytes_of(order, count):
    return order.getrandbits(8 * count).to_bytes(count, "big")


def many(db, statement, rows):
    db.execute("BEGIN")
    db.executemany(statement, rows)
    db.execute("COMMIT")


# Files that are sound

def of_every_kind(db):
    """Tables with and without rowids, views, triggers, and indexes of every kind; rows with chains; free pages."""
    page_size = db.execute("PRAGMA page_size").fetchone()[0]
    db.executescript("""
        CREATE TABLE people(id INTEGER PRIMARY KEY AUTOINCREMENT, name TEXT NOT NULL, born INTEGER, note BLOB);
        CREATE TABLE words(word TEXT PRIMARY KEY, count INTEGER, part TEXT) WITHOUT ROWID;
        CREATE TABLE pairs(a INTEGER, b INTEGER, c REAL, PRIMARY KEY(a, b)) WITHOUT ROWID;
        CREATE TABLE empty(a, b UNIQUE, c);
        CREATE UNIQUE INDEX people_name ON people(name, id);
        CREATE INDEX people_old ON people(born) WHERE born < 1900;
        CREATE INDEX people_lower ON people(lower(name), length(note));
        CREATE INDEX words_count ON words(count DESC);
        CREATE VIEW young AS SELECT * FROM people WHERE born > 2000;
        CREATE TRIGGER counted AFTER INSERT ON people BEGIN
            INSERT INTO words VALUES(new.name, 1, NULL) ON CONFLICT(word) DO UPDATE SET count = count + 1;
        END;
    """)
    note = b"note" * (page_size // 2)
    many(db, "INSERT INTO people(name, born, note) VALUES(?, ?, ?)",
         [("name %d" % (k * 37 % 101), 1800 + k, note[:k * k % len(note)] if k % 7 else None) for k in range(240)])
    many(db, "INSERT INTO pairs VALUES(?, ?, ?)", [(k % 13, k, k / 3) for k in range(300)])
    db.execute("CREATE TABLE gone(a)")
    many(db, "INSERT INTO gone VALUES(?)", [(note,)] * 12)
    db.execute("DROP TABLE gone")
    db.execute("DELETE FROM people WHERE id % 5 = 0")
    db.execute("ANALYZE")


for size in PAGE_SIZES:
    for kept in (0, 1, 8, 32):
        sound("pages of %d bytes, %d of them reserved" % (size, kept), size, kept)(of_every_kind)


@sound("user_version alone")
def user_version(db):
    db.execute("PRAGMA user_version = 13")


@sound("user_version alone, pages of 65536 bytes", 65536)
def user_version_wide(db):
    db.execute("PRAGMA user_version = 13")


@sound("the only table dropped")
def all_dropped(db):
    db.execute("CREATE TABLE t(a)")
    db.execute("DROP TABLE t")


@sound("empty tables and indexes", 1024)
def empty_tables(db):
    db.executescript("CREATE TABLE a(x UNIQUE); CREATE TABLE b(x PRIMARY KEY) WITHOUT ROWID; CREATE INDEX c ON a(x) WHERE x > 1; CREATE VIEW d AS SELECT 1")


@sound("one row")
def one_row(db):
    db.executescript("CREATE TABLE t(a); INSERT INTO t VALUES('one')")


@sound("values of every type", 1024)
def every_type(db):
    db.execute("CREATE TABLE t(a, b, c)")
    db.execute("CREATE INDEX i ON t(b, c, a)")
    values = [None, 0, 1, -1, 127, 128, -129, 32767, 32768, 8388607, 8388608, 2**31, 2**47, 2**63 - 1, -2**63, 0.0, -1.5, 1e300, "", "text", b"", b"\0\xff"]
    many(db, "INSERT INTO t VALUES(?, ?, ?)", [(a, b, "x" * len(str(a))) for a in values for b in values])


def long_rows(db):
    db.execute("CREATE TABLE t(a INTEGER PRIMARY KEY, b BLOB)")
    many(db, "INSERT INTO t VALUES(?, ?)", [(k, bytes([k]) * size) for k, size in enumerate([1 << 20, 3 << 20, 0, (1 << 20) + 1, 70000, 5])])


for size in (512, 4096, 65536):
    sound("rows of up to 3 MiB in pages of %d bytes" % size, size)(long_rows)


@sound("texts of 1 MiB in an index", 1024)
def long_entries(db):
    db.execute("CREATE TABLE t(a TEXT PRIMARY KEY) WITHOUT ROWID")
    db.execute("CREATE TABLE u(a TEXT UNIQUE)")
    for table in "tu":
        many(db, "INSERT INTO %s VALUES(?)" % table, [(("%d" % k) * (1 << 20 if k == 3 else 100 * k),) for k in range(10)])


def each_length(db):
    """Rows and entries of each length about those at which a chain begins or gets a page more."""
    usable = db.execute("PRAGMA page_size").fetchone()[0] - read_reserved(db)
    db.execute("CREATE TABLE t(a BLOB)")
    db.execute("CREATE INDEX i ON t(a)")
    most, least = (usable - 12) * 64 // 255 - 23, (usable - 12) * 32 // 255 - 23
    marks = [most, usable - 35, least + usable - 4, most + usable - 4, usable - 35 + usable - 4, 2 * (usable - 4) + least]
    many(db, "INSERT INTO t VALUES(zeroblob(?))", [(length,) for mark in marks for length in range(max(0, mark - 12), mark + 12)])


def read_reserved(db):
    return read(db.execute("PRAGMA database_list").fetchone()[2])[20]


for size, kept in ((512, 0), (512, 32), (1024, 1), (4096, 0)):
    sound("lengths at which chains begin, pages of %d bytes, %d reserved" % (size, kept), size, kept)(each_length)


def levels(path, root):
    """How many levels the tree of a root has, by the format: down the first children to a leaf."""
    data = read(path)
    size = struct.unpack_from(">H", data, 16)[0]
    size = 65536 if size == 1 else size
    count = 1
    while True:
        at = (root - 1) * size
        head = at + 100 if root == 1 else at
        if data[head] in (10, 13):
            return count
        assert data[head] in (2, 5)
        cells, pointer = struct.unpack_from(">H", data, head + 3)[0], struct.unpack_from(">H", data, head + 12)[0]
        root = struct.unpack_from(">I", data, at + pointer if cells else head + 8)[0]
        count += 1


def is_deep(db, name, least):
    path, root = db.execute("PRAGMA database_list").fetchone()[2], db.execute("SELECT rootpage FROM sqlite_master WHERE name = ?", (name,)).fetchone()[0]
    assert levels(path, root) >= least, "the tree of %s has %d levels" % (name, levels(path, root))


@sound("a table of five levels", 512)
def deep_table(db):
    # a leaf for each row, and 33 children of an interior page, whose rowids take nine bytes
    db.execute("CREATE TABLE t(a)")
    many(db, "INSERT INTO t(rowid, a) VALUES(?, zeroblob(460))", [(k - (1 << 62),) for k in range(38000)])
    is_deep(db, "t", 5)


@sound("a table without rowids and an index of six levels", 512)
def deep_index(db):
    # four or five entries fill a page
    db.execute("CREATE TABLE t(a TEXT PRIMARY KEY, b INTEGER) WITHOUT ROWID")
    db.execute("CREATE TABLE u(a TEXT)")
    db.execute("CREATE INDEX i ON u(a)")
    order = random.Random(5)
    keys = ["%05d%s" % (k, "x" * 85) for k in range(8000)]
    order.shuffle(keys)
    many(db, "INSERT INTO t VALUES(?, 1)", [(key,) for key in keys])
    many(db, "INSERT INTO u VALUES(?)", [(key,) for key in keys])
    is_deep(db, "t", 6)
    is_deep(db, "i", 6)


@sound("deep trees of which most was deleted", 512)
def thinned(db):
    deep_index(db)
    order = random.Random(6)
    for table in "tu":
        many(db, "DELETE FROM %s WHERE a = ?" % table, [("%05d%s" % (k, "x" * 85),) for k in range(8000) if order.random() < 0.9])


@sound("rows put in and taken out at random", 1024)
def worn(db):
    order = random.Random(7)
    db.execute("CREATE TABLE t(a INTEGER PRIMARY KEY, b BLOB)")
    db.execute("CREATE INDEX i ON t(b)")
    db.execute("BEGIN")
    for _ in range(6000):
        key = order.randrange(1500)
        if order.random() < 0.55:
            db.execute("INSERT OR REPLACE INTO t VALUES(?, ?)", (key, bytes_of(order, order.choice([3, 20, 90, 400, 1500]))))
        else:
            db.execute("DELETE FROM t WHERE a = ?", (key,))
    db.execute("COMMIT")


@sound("small changes of length, which leave fragments", 512)
def fragments(db):
    order = random.Random(8)
    db.execute("CREATE TABLE t(a INTEGER PRIMARY KEY, b TEXT)")
    many(db, "INSERT INTO t VALUES(?, ?)", [(k, "x" * 30) for k in range(300)])
    many(db, "UPDATE t SET b = ? WHERE a = ?", [("y" * order.randrange(24, 34), order.randrange(300)) for _ in range(6000)])


@sound("rowids negative and extreme", 512)
def extreme_rowids(db):
    order = random.Random(9)
    db.execute("CREATE TABLE t(a TEXT)")
    keys = [sign * ((1 << k) - less) for k in range(63) for sign in (1, -1) for less in (0, 1)] + [2**63 - 1, -2**63, 2**63 - 2, -2**63 + 1]
    keys = sorted(set(keys))
    order.shuffle(keys)
    many(db, "INSERT INTO t(rowid, a) VALUES(?, ?)", [(key, "row %d" % key) for key in keys])


@sound("rowids that fall", 512)
def falling_rowids(db):
    db.execute("CREATE TABLE t(a TEXT)")
    many(db, "INSERT INTO t(rowid, a) VALUES(?, ?)", [(-k, "x" * 40) for k in range(2000)])


@sound("a freelist of several trunks", 512)
def several_trunks(db):
    # 120 leaves fill a trunk
    db.execute("CREATE TABLE kept(a)")
    db.execute("CREATE TABLE t(a)")
    many(db, "INSERT INTO t VALUES(zeroblob(400))", [()] * 700)
    db.execute("INSERT INTO kept VALUES(1)")
    db.execute("DROP TABLE t")
    assert db.execute("PRAGMA freelist_count").fetchone()[0] > 600


@sound("free pages that weren't wiped", 1024)
def not_wiped(db):
    db.execute("PRAGMA secure_delete = OFF")
    db.execute("CREATE TABLE t(a)")
    many(db, "INSERT INTO t VALUES(?)", [("text" * 400,)] * 300)
    db.execute("DELETE FROM t WHERE rowid % 3 > 0")


@sound("a trunk without a leaf")
def one_free(db):
    db.executescript("CREATE TABLE t(a); CREATE TABLE u(a); DROP TABLE t")
    assert db.execute("PRAGMA freelist_count").fetchone()[0] == 1


@sound("free pages taken again", 512)
def taken_again(db):
    several_trunks(db)
    db.execute("CREATE TABLE u(a)")
    many(db, "INSERT INTO u VALUES(zeroblob(900))", [()] * 200)


@sound("vacuumed", 1024)
def vacuumed(db):
    worn(db)
    db.execute("DELETE FROM t WHERE a % 4")
    db.execute("VACUUM")
    assert db.execute("PRAGMA freelist_count").fetchone()[0] == 0


@sound("vacuumed to another page size", 1024)
def vacuumed_to(db):
    worn(db)
    db.execute("PRAGMA page_size = 8192")
    db.execute("VACUUM")
    assert db.execute("PRAGMA page_size").fetchone()[0] == 8192


@sound("AUTOINCREMENT", 1024)
def autoincrement(db):
    db.execute("CREATE TABLE t(a INTEGER PRIMARY KEY AUTOINCREMENT, b)")
    many(db, "INSERT INTO t(b) VALUES(?)", [(k,) for k in range(500)])
    db.execute("DELETE FROM t WHERE a > 100")
    assert db.execute("SELECT seq FROM sqlite_sequence").fetchone() == (500,)


@sound("sqlite_stat1", 1024)
def analyzed(db):
    worn(db)
    db.execute("ANALYZE")
    assert db.execute("SELECT count(*) FROM sqlite_stat1").fetchone()[0] > 0


@sound("a schema of three levels", 512)
def many_tables(db):
    db.execute("BEGIN")
    for k in range(500):
        db.execute("CREATE TABLE table_%d(a, b UNIQUE)" % k)
    db.execute("COMMIT")
    assert levels(db.execute("PRAGMA database_list").fetchone()[2], 1) >= 3


@sound("schema rows that go on in chains", 512)
def long_schema(db):
    for k in (1, 20, 40, 44, 45, 46, 60, 400, 1900):
        db.execute("CREATE TABLE t%d(%s)" % (k, ", ".join("column_%d" % i for i in range(k))))
    db.execute("CREATE VIEW v AS SELECT '%s'" % ("long " * 20000))
    db.execute("CREATE TABLE %s(a)" % ("name" * 300))
    db.execute("CREATE INDEX i ON t1(column_0) WHERE column_0 IN (%s)" % ", ".join(map(str, range(300))))


@sound("page 1 with one child and no cell", 512)
def only_child(db):
    """Where rows fill a leaf so far that page 1 with its 100 bytes less has no room for them, it stays above them without a cell."""
    path, order, names = db.execute("PRAGMA database_list").fetchone()[2], random.Random(0), []
    for k in range(4000):
        if names and order.random() < 0.5:
            db.execute("DROP TABLE " + names.pop(order.randrange(len(names))))
        else:
            names.append("t%d" % k)
            db.execute("CREATE TABLE t%d(%s)" % (k, "a" * order.randrange(1, 60)))
        if read(path)[100:105] == b"\5\0\0\0\0":
            return
    raise AssertionError("page 1 always had a cell or was a leaf")


@sound("the oldest schema format", 1024)
def old_format(db):
    path = db.execute("PRAGMA database_list").fetchone()[2]
    db.close()
    patch(path, 44, struct.pack(">I", 1))
    db = connect(path)
    worn(db)
    db.close()
    assert read(path)[44:48] == b"\0\0\0\1"


@sound("a file longer than its pages", 1024)
def longer(db):
    worn(db)
    path = db.execute("PRAGMA database_list").fetchone()[2]
    db.close()
    with open(path, "ab") as file:
        file.write(bytes(10000))


@sound("a count of pages that another writer left", 1024)
def old_count(db):
    """Writers before the count stood in the header left it as it was: then the file's length counts."""
    worn(db)
    path = db.execute("PRAGMA database_list").fetchone()[2]
    db.close()
    patch(path, 28, struct.pack(">I", 2))
    patch(path, 92, struct.pack(">I", 0))


@sound("a journal that was kept", 1024)
def kept_journal(db):
    db.execute("PRAGMA journal_mode = PERSIST")
    worn(db)


@sound("a journal that was cut to nothing", 1024)
def cut_journal(db):
    db.execute("PRAGMA journal_mode = TRUNCATE")
    worn(db)


@sound("SQLite's log mode, closed", 1024)
def log_mode(db):
    db.execute("PRAGMA journal_mode = WAL")
    worn(db)
    path = db.execute("PRAGMA database_list").fetchone()[2]
    db.close()
    assert read(path)[18:20] == b"\2\2" and not os.path.exists(path + "-wal")


@sound("an empty log beside", 1024)
def empty_log(db):
    worn(db)
    with open(db.execute("PRAGMA database_list").fetchone()[2] + "-wal", "wb"):
        pass


@sound("reserved bytes of any content", 1024, 32)
def any_reserved(db):
    worn(db)
    path = db.execute("PRAGMA database_list").fetchone()[2]
    db.close()
    for end in range(1024, os.path.getsize(path) + 1, 1024):
        patch(path, end - 32, bytes_of(random.Random(end), 32))


@sound("changes that were rolled back", 1024)
def rolled_back(db):
    worn(db)
    db.execute("BEGIN")
    db.execute("DELETE FROM t")
    db.execute("CREATE TABLE u(a)")
    db.execute("ROLLBACK")


@sound("a column added and a table renamed", 1024)
def altered(db):
    db.execute("CREATE TABLE t(a, b)")
    many(db, "INSERT INTO t VALUES(?, ?)", [(k, "x" * k) for k in range(200)])
    db.execute("ALTER TABLE t ADD COLUMN c DEFAULT 7")
    db.execute("ALTER TABLE t RENAME TO renamed")
    many(db, "INSERT INTO renamed VALUES(?, ?, ?)", [(k, "y", "z" * k) for k in range(200)])


@sound("virtual tables", 1024)
def virtual_tables(db):
    """Rows of the schema whose root is 0, beside the tables in which they keep what they have."""
    made = 0
    for text in ("CREATE VIRTUAL TABLE v1 USING fts5(a)", "CREATE VIRTUAL TABLE v2 USING fts4(a)", "CREATE VIRTUAL TABLE v3 USING rtree(id, a, b)"):
        try:
            db.execute(text)
            made += 1
        except sqlite3.OperationalError:
            print("  not every kind of virtual table: this sqlite3 refuses `%s`" % text)
    for k in (1, 2):
        if db.execute("SELECT count(*) FROM sqlite_master WHERE name = 'v%d'" % k).fetchone()[0]:
            many(db, "INSERT INTO v%d VALUES(?)" % k, [("word%d other word %d" % (i, i % 7),) for i in range(300)])


# Files that are refused as a whole

@refused("auto_vacuum full", None)
def auto_vacuum(path, mode=1):
    db = connect(path)
    db.execute("PRAGMA auto_vacuum = %d" % mode)
    of_every_kind(db)
    db.close()
    # the greatest root, which such a file alone names; its maps of pointers are pages of no tree
    largest = struct.unpack_from(">I", read(path), 52)[0]
    assert largest > 0 and struct.unpack_from(">I", read(path), 64)[0] == mode - 1
    return "auto-vacuum %d" % largest


@refused("auto_vacuum incremental", None)
def incremental(path):
    return auto_vacuum(path, 2)


@refused("UTF-16, the least significant byte first", "encoding 2")
def utf16le(path):
    db = connect(path)
    db.execute("PRAGMA encoding = 'UTF-16le'")
    of_every_kind(db)


@refused("UTF-16, the most significant byte first", "encoding 3")
def utf16be(path):
    db = connect(path)
    db.execute("PRAGMA encoding = 'UTF-16be'")
    of_every_kind(db)


@refused("SQLite's log mode, with a log left", "wal mode")
def log_left(path):
    db = connect(path)
    db.execute("PRAGMA journal_mode = WAL")
    db.execute("PRAGMA wal_autocheckpoint = 0")
    db.executescript("CREATE TABLE t(a); INSERT INTO t VALUES(1)")
    keep(path, db, "-wal")


@refused("a hot journal", "hot journal")
def hot_journal(path):
    db = connect(path)
    db.execute("PRAGMA cache_size = 5")
    of_every_kind(db)
    db.execute("BEGIN")
    db.execute("UPDATE people SET note = zeroblob(3000)")
    keep(path, db, "-journal")


def keep(path, db, beside):
    """The files as they are while a connection has them open."""
    held, other = read(path), read(path + beside)
    assert other[:1] not in (b"", b"\0")
    db.execute("ROLLBACK") if db.in_transaction else None
    db.close()
    for name, data in ((path, held), (path + beside, other)):
        with open(name, "wb") as file:
            file.write(data)


def stock(path, length=None, *changes):
    """The small database of check_vectors.py, cut to a length, with changes of bytes."""
    data = bytearray(b"".join(STOCK.pages))
    for at, new in changes:
        data[at:at + len(new)] = new
    with open(path, "wb") as file:
        file.write(data[:length])


@refused("a text", "not a database")
def a_text(path):
    with open(path, "w") as file:
        file.write("SQLite format 3 is what a database begins with.\n" * 20)


REFUSED += [
    ("99 bytes", "not a database", lambda path: stock(path, 99)),
    # page 1 isn't whole
    ("100 bytes", "missing page 1", lambda path: stock(path, 100)),
    ("a page and a byte", "missing page 2", lambda path: stock(path, 513)),
    ("the last byte is cut off", "missing page %d", lambda path: stock(path, -1)),
    ("the last page is cut off", "missing page %d", lambda path: stock(path, -512)),
    ("other fractions of a payload", "not a database", lambda path: stock(path, None, (22, b"\x10"))),
    ("a page size of 513", "page size 513", lambda path: stock(path, None, (16, b"\2\1"))),
    ("versions 4 and 4", "versions 4 4", lambda path: stock(path, None, (18, b"\4\4"))),
    # 512 bytes less 33 are fewer than 480
    ("33 bytes reserved of 512", "reserved 33", lambda path: stock(path, None, (20, b"\x21"))),
    ("schema format 5", "format 5", lambda path: stock(path, None, (47, b"\5"))),
    # 2^21 pages of 512 bytes are 2^30 bytes
    ("a page more than 2^30 bytes have", "too large 2097153", lambda path: stock(path, None, (28, struct.pack(">I", 2097153)))),
]


def filled(path, fill, page_size=512):
    """A database that is filled by a function, its bytes page by page, from page 1 on."""
    begin(path, page_size, 0)
    db = connect(path)
    fill(db)
    db.close()
    data = read(path)
    return [None] + [data[at:at + page_size] for at in range(0, len(data), page_size)]


def number(page, at):
    return struct.unpack_from(">I", page, at)[0]


@refused("the last trunk leads back to the first", None)
def trunks_in_a_circle(path):
    pages = filled(path, several_trunks)
    first = trunk = number(pages[1], 32)
    while number(pages[trunk], 0):
        trunk = number(pages[trunk], 0)
    assert trunk != first
    patch(path, (trunk - 1) * 512, struct.pack(">I", first))
    return "twice page %d" % first


@refused("the first trunk is the last one", None)
def trunks_left_out(path):
    pages = filled(path, several_trunks)
    patch(path, (number(pages[1], 32) - 1) * 512, bytes(4))
    # fewer pages come than the header counts
    return "page 1 at 36"


@refused("the last trunk lists a page that the first one lists", None)
def trunks_share(path):
    pages = filled(path, several_trunks)
    first = trunk = number(pages[1], 32)
    while number(pages[trunk], 0):
        trunk = number(pages[trunk], 0)
    patch(path, (trunk - 1) * 512 + 8, pages[first][8:12])
    return "twice page %d" % number(pages[first], 8)


@refused("the right child of page 1 is out of range", "page 1 at 108")
def right_of_first(path):
    pages = filled(path, many_tables)
    assert pages[1][100] == 5
    patch(path, 108, struct.pack(">I", len(pages)))


@refused("a child of page 1 is out of range", None)
def child_of_first(path):
    pages = filled(path, many_tables)
    cell = struct.unpack_from(">H", pages[1], 112)[0]
    patch(path, cell, bytes(4))
    return "page 1 at %d" % cell


@refused("the right child of page 1 is page 1's first child", None)
def children_of_first(path):
    pages = filled(path, many_tables)
    child = pages[1][struct.unpack_from(">H", pages[1], 112)[0]:][:4]
    patch(path, 108, child)
    return "twice page %d" % struct.unpack(">I", child)[0]


@refused("the chain of a schema row ends too early", None)
def schema_chain(path):
    def fill(db):
        db.execute("CREATE TABLE t(%s)" % ", ".join("column_%d" % i for i in range(200)))
    pages = filled(path, fill)
    # the one row's cell ends with its chain's first page
    first = number(pages[1], 508)
    assert number(pages[first], 0)
    patch(path, (first - 1) * 512, bytes(4))
    return "page %d at 0" % first


@refused("a tree with a page 41 levels below its root", "page 43 at 0")
def too_deep(path):
    """Page 1 names one table, whose root is page 2. Pages 2 to 43 are interior ones, each with one cell and under the one before; the last of them is the
    one that is too deep. No page is looked at before it that is so."""
    db = connect(path)
    db.execute("PRAGMA page_size = 512")
    db.execute("CREATE TABLE t(a)")
    db.close()
    first = bytearray(read(path)[:512])
    first[28:32] = struct.pack(">I", 44)
    pages = [bytes(first)]
    for page in range(2, 44):
        front = bytes([5]) + struct.pack(">HHHB", 0, 1, 507, 0) + struct.pack(">IH", 44, 507)
        pages.append(front + bytes(507 - len(front)) + struct.pack(">IB", min(page + 1, 44), 5))
    pages.append(bytes([13]) + struct.pack(">HHHB", 0, 0, 512, 0) + bytes(504))
    with open(path, "wb") as file:
        file.write(b"".join(pages))


def damaged(path, changes):
    stock(path, None, *[((page - 1) * check_vectors.SIZE + at, data) for page, at, data in changes])


# What sqlite3 says of a file

def has_dbstat(db):
    try:
        db.execute("SELECT count(*) FROM dbstat").fetchone()
        return True
    except sqlite3.OperationalError:
        return False


def pages_of_trees(db, path):
    """How many pages each tree has, by the table dbstat: of Python's sqlite3, or of the command."""
    query = "SELECT name, count(*) FROM dbstat GROUP BY name"
    if has_dbstat(db):
        return dict(db.execute(query))
    if not COMMAND:
        return None
    told = subprocess.run([COMMAND, path, query], stdout=subprocess.PIPE, stderr=subprocess.DEVNULL, check=False)
    return dict((line.rsplit("|", 1)[0], int(line.rsplit("|", 1)[1])) for line in told.stdout.decode().splitlines()) if told.returncode == 0 else None


def facts(path):
    """The counts of pages, trees and free pages as sqlite3 tells them, and whether dbstat was asked. It looks at a copy, so nothing of the file changes."""
    copy = path + ".copy"
    shutil.copyfile(path, copy)
    db = connect(copy)
    assert db.execute("PRAGMA integrity_check").fetchall() == [("ok",)], "sqlite3 finds the file unsound"
    pages = db.execute("PRAGMA page_count").fetchone()[0]
    free = db.execute("PRAGMA freelist_count").fetchone()[0]
    trees = db.execute("SELECT count(*) FROM sqlite_master WHERE rootpage > 0").fetchone()[0] + 1
    sizes = pages_of_trees(db, copy)
    if sizes is not None:
        assert len(sizes) == trees and sum(sizes.values()) + free == pages, "the pages of all trees and the free ones aren't all"
    db.close()
    for beside in ("", "-wal", "-shm", "-journal"):
        if os.path.exists(copy + beside):
            os.remove(copy + beside)
    return pages, trees, free, sizes is not None


# The runs

def rows(folder):
    """Each file: its name, its path, and the reply and the status that it must get."""
    for name, page_size, reserved, fill in SOUND:
        path = new_path(folder, name)
        begin(path, page_size, reserved)
        db = connect(path)
        fill(db)
        db.close()
        data = read(path)
        assert data[20] == reserved
        pages, trees, free, sized = facts(path)
        TOLD["sized"] += sized
        TOLD["sound"] += 1
        yield name, path, "pages %d trees %d free %d" % (pages, trees, free), 0
    for name, reply, write in REFUSED:
        path = new_path(folder, name)
        reply = write(path) or reply
        yield name, path, "database refused: " + (reply.replace("%d", str(STOCK.count))), 6
    path = new_path(folder, "an empty file")
    stock(path, 0)
    # a new database gets one page, and with it one tree
    yield "an empty file", path, "pages 1 trees 1 free 0", 0
    path = new_path(folder, "the small database")
    stock(path)
    yield "the small database", path, "pages %d trees %d free %d" % (STOCK_COUNTS[0], STOCK_COUNTS[2], STOCK_COUNTS[1]), 0
    for name, changes, fault, opening in check_vectors.damages(STOCK):
        path = new_path(folder, name)
        damaged(path, changes)
        yield name, path, "database refused: " + (opening or check_vectors.as_text(fault)), 6


def new_path(folder, name):
    """A path in a folder of its own."""
    TOLD["files"] += 1
    inside = os.path.join(folder, "%03d" % TOLD["files"])
    os.mkdir(inside)
    return os.path.join(inside, "db")


def files_in(folder):
    return {name: read(os.path.join(folder, name)) for name in os.listdir(folder)}


def check(program, path):
    done = subprocess.run([program, "check", path], stdin=subprocess.DEVNULL, stdout=subprocess.PIPE, stderr=subprocess.PIPE, timeout=120, check=False)
    return done.stdout.decode(errors="replace"), done.returncode


def settled(path, before):
    """What is wrong with the files of a sound database that was opened, or None. Its header has the versions of two logs, a change more, and the count of
    its pages."""
    now = files_in(os.path.dirname(path))
    old, new = before["db"], now["db"]
    if sorted(set(now) | {"db-wal", "db-wal2"}) != sorted(now) or set(now) - set(before) - {"db-wal", "db-wal2"}:
        return "its files are " + ", ".join(sorted(now))
    if not old:
        return None
    if new[18:20] != b"\3\3":
        return "its versions aren't those of two logs"
    parts = [(0, 18), (20, 24), (32, 92), (100, None)]
    if len(old) != len(new) or any(old[start:end] != new[start:end] for start, end in parts):
        return "other bytes of it were changed"
    return None


def with_versions(path):
    """A copy of the database alone, with SQLite's versions."""
    copy = path + ".ours"
    shutil.copyfile(path, copy)
    patch(copy, 18, b"\1\1")
    return copy


def fault_of_run(program, path, reply, status):
    """What is wrong with what the program tells of a file and leaves of it, or None."""
    inside = os.path.dirname(path)
    before = files_in(inside)
    wanted = (reply + "\n", status)
    said = check(program, path)
    if said != wanted:
        return "%r and status %d, in place of %r and status %d" % (said + wanted)
    if status != 0:
        return None if files_in(inside) == before else "its files were changed: " + ", ".join(sorted(files_in(inside)))
    wrong = settled(path, before)
    if wrong:
        return wrong
    if check(program, path) != wanted:
        return "a second check tells other than the first"
    told = facts(with_versions(path))
    return None if reply == "pages %d trees %d free %d" % told[:3] else "sqlite3 finds %d pages, %d trees and %d free pages afterwards" % told[:3]


def run(program, tell):
    passed = failed = 0
    with tempfile.TemporaryDirectory() as folder:
        for name, path, reply, status in rows(folder):
            wrong = fault_of_run(program, path, reply, status)
            passed += wrong is None
            failed += wrong is not None
            if wrong or tell:
                print("%s: %s" % (name, wrong or reply))
            shutil.rmtree(os.path.dirname(path))
    if TOLD["sized"] < TOLD["sound"]:
        print("the pages of each tree were summed up for %d of %d files: neither Python's sqlite3 nor a command `sqlite3` has dbstat" % (TOLD["sized"], TOLD["sound"]))
    print("sqlite3 %s: %d files passed, %d failed" % (sqlite3.sqlite_version, passed, failed))
    return failed == 0 and passed > 150


def write_all(target):
    """Writes each file that stands alone, and its reply beside it."""
    os.makedirs(target, exist_ok=True)
    with tempfile.TemporaryDirectory() as folder:
        for name, path, reply, _ in rows(folder):
            if os.listdir(os.path.dirname(path)) == ["db"]:
                plain = "".join(letter if letter.isalnum() else "_" for letter in name)
                place = os.path.join(target, "%03d_%s" % (TOLD["files"], plain))
                shutil.move(path, place)
                with open(place + ".stdout", "w") as file:
                    file.write(reply + "\n")
            else:
                print("%s: not written, since it has other files beside it" % name)
            shutil.rmtree(os.path.dirname(path))
    return True


def main(words):
    if len(words) == 2 and words[0] == "--write":
        return write_all(words[1])
    tell = "--list" in words
    words = [word for word in words if word != "--list"]
    if len(words) != 1 or not os.access(words[0], os.X_OK):
        print("the program isn't there: python3 examples/stock_files.py PROGRAM")
        return False
    return run(words[0], tell)


TOLD = {"files": 0, "sized": 0, "sound": 0}
STOCK, STOCK_COUNTS = check_vectors.stock_database()

if __name__ == "__main__":
    sys.exit(0 if main(sys.argv[1:]) else 1)
