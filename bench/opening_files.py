#!/usr/bin/env python3
"""Prints the files of databases that the tests of crates/opening_tests open, and what has to be seen of them and left of them.

    python3 bench/opening_files.py crates/opening_tests/src

writes files.rt, seen.rt and left.rt there (`rt fmt` afterwards).

The database files are SQLite's own (module sqlite3), or are laid by the page "Database File Format" of its documentation; logs follow that
page under "WAL File Format" and "Checksum Algorithm". What an opening refuses, sees and writes is computed here by the rules that
docs/FORMAT.md and docs/DECISIONS.md tell, in the plainest way: whole files, whole maps. Each row's answer is also written out by hand, and
the two have to agree. Nothing here is taken from the repository's code.
"""
import os
import sqlite3
import struct
import sys
import tempfile

from vectors import checksum, literal

BIG, LITTLE, OWN, STOCK_VERSION = 0x377F0683, 0x377F0682, 93021000, 3007000
LAST = 4_000_000_000
WORDS = [101, 102, 103]


# ---- laying files

def log_header(generation, salt1, salt2, page_size=512, version=OWN, magic=BIG):
    head = struct.pack(">6I", magic, version, page_size, generation, salt1, salt2)
    return head + struct.pack(">2I", *checksum(">" if magic == BIG else "<", (0, 0), head))


def log(generation, frames, salt1=6, salt2=11, page_size=512, version=OWN):
    """A log with these frames: page number, size after the commit or 0, the page."""
    data = log_header(generation, salt1, salt2, page_size, version)
    sums = checksum(">", (0, 0), data[:24])
    for page, size, body in frames:
        head = struct.pack(">2I", page, size)
        sums = checksum(">", checksum(">", sums, head), body)
        data += head + struct.pack(">4I", salt1, salt2, *sums) + body
    return data


def put(data, *pieces):
    for at, piece in pieces:
        data = data[:at] + piece + data[at + len(piece):]
    return data


def number(n):
    return struct.pack(">I", n)


def header(pages, versions=(3, 3), page_size=512):
    """The first 100 bytes of page 1 of a database that this program lays."""
    return put(bytes(100), (0, b"SQLite format 3\0"), (16, struct.pack(">H", 1 if page_size == 65536 else page_size)), (18, bytes(versions)), (21, b"\x40\x20\x20"),
               (24, number(1)), (28, number(pages)), (44, number(4)), (56, number(1)), (92, number(1)))


def first_page(pages, fill, versions=(3, 3)):
    return header(pages, versions) + bytes([fill]) * 412


def page(fill, size=512):
    return bytes([fill]) * size


def new_pages(kind, page_size=512):
    if kind == "Pages":
        return [header(16) + bytes(page_size - 100)] + [bytes(page_size)] * 15
    leaf = b"\x0d" + bytes(4) + struct.pack(">H", page_size % 65536) + b"\0"
    return [header(1) + leaf + bytes(page_size - 108)]


# ---- what SQLite itself writes

def stock():
    """A database of three pages in rollback mode, the same in log mode, and that log's header with salts of ours."""
    path = os.path.join(tempfile.mkdtemp(), "db")
    db = sqlite3.connect(path, isolation_level=None)
    db.execute("PRAGMA page_size = 512")
    db.execute("CREATE TABLE t(a)")
    db.execute("CREATE TABLE u(a)")
    db.execute("INSERT INTO t VALUES (1)")
    plain = open(path, "rb").read()
    db.execute("PRAGMA journal_mode = WAL")
    db.execute("INSERT INTO u VALUES (2)")
    logged, wal = open(path, "rb").read(), open(path + "-wal", "rb").read()
    magic, version, size, generation, salt1, salt2 = struct.unpack(">6I", wal[:24])
    assert wal[:32] == log_header(generation, salt1, salt2, size, version, magic) and version == STOCK_VERSION
    db.close()
    assert len(plain) == len(logged) == 3 * 512 and plain[18:20] == b"\1\1" and logged[18:20] == b"\2\2"
    return plain, logged, log_header(generation, 1, 2, size, version, magic)


def is_sound(data):
    """Whether SQLite finds nothing wrong with this database, once it has the versions that SQLite reads."""
    path = os.path.join(tempfile.mkdtemp(), "db")
    open(path, "wb").write(put(data, (18, b"\1\1")))
    return sqlite3.connect(path).execute("PRAGMA integrity_check").fetchall() == [("ok",)]


# ---- what is seen

def is_size(n):
    return 512 <= n <= 65536 and n & (n - 1) == 0


def front(data, which):
    """None; or ("foreign", version, at); or ("ours", page size, generation, salt-1)."""
    if len(data) < 32:
        return None
    magic, version, size, generation, salt1, salt2, s0, s1 = struct.unpack(">8I", data[:32])
    if magic not in (BIG, LITTLE) or (s0, s1) != checksum(">" if magic == BIG else "<", (0, 0), data[:24]):
        return None
    if version != OWN:
        return "foreign", version, 4
    if not is_size(size):
        return "foreign", version, 8
    if not (1 <= generation <= LAST and generation % 2 == which % 2):
        return "foreign", version, 12
    return "ours", size, generation, salt1


def accepted(data, which):
    start = front(data, which)
    if start is None or start[0] != "ours":
        return []
    size, order, sums, at, frames, good = start[1], ">" if data[3] == 0x83 else "<", None, 32, [], 0
    sums = checksum(order, (0, 0), data[:24])
    while at + 24 + size <= len(data):
        head, body = data[at:at + 24], data[at + 24:at + 24 + size]
        sums = checksum(order, checksum(order, sums, head[:8]), body)
        if head[:4] == bytes(4) or head[8:16] != data[16:24] or struct.unpack(">2I", head[16:]) != sums:
            break
        frames.append((*struct.unpack(">2I", head[:8]), body))
        at += 24 + size
        if frames[-1][1]:
            good = len(frames)
    return frames[:good]


def generation_of(start):
    return start[2] if start and start[0] == "ours" else 0


def size_in(first):
    size = struct.unpack(">H", first[16:18])[0]
    return 65536 if size == 1 else size


def size_named(first, length):
    size = size_in(first)
    named = struct.unpack(">I", first[28:32])[0]
    return named if named and first[24:28] == first[92:96] else length // size


def refused(first, length):
    """Why a header is refused, as the fault's own name, or None."""
    if len(first) < 100 or first[:16] != b"SQLite format 3\0" or first[21:24] != b"\x40\x20\x20":
        return "NotADb"
    size = struct.unpack(">H", first[16:18])[0]
    if not is_size(size_in(first)):
        return "PageSize(%d)" % size
    size = size_in(first)
    if first[18] != first[19] or first[18] not in (1, 2, 3):
        return "Versions(%d, %d)" % (first[18], first[19])
    for at, name, most in ((56, "Utf16", 1), (52, "AutoVacuum", 0)):
        n = struct.unpack(">I", first[at:at + 4])[0]
        if n > most:
            return "%s(%d)" % (name, n)
    if size - first[20] < 480:
        return "Reserved(%d)" % first[20]
    n = struct.unpack(">I", first[44:48])[0]
    if n > 4:
        return "Format(%d)" % n
    if size_named(first, length) * size > 2**30:
        return "TooLarge { pages: %d }" % size_named(first, length)
    return None


def foreign(which, at):
    return "ForeignLog { file: File::Log%d, at: %d }" % (which, at)


def look(main, one, two, hot, new_size):
    """A fault's name; or (is new, pages, page size, bytes in use, pages that page 1 names, byte 100), and the map."""
    fronts, held = [front(one, 1), front(two, 2)], [accepted(one, 1), accepted(two, 2)]
    order = (0, 1) if generation_of(fronts[0]) < generation_of(fronts[1]) else (1, 0)
    frames = held[order[0]] + held[order[1]]
    is_new = not main and not frames
    pages = {n: body for n, size, body in frames}
    first = pages.get(1, main)
    versions = tuple(first[18:20])
    newest = max(map(generation_of, fronts))
    if not is_new:
        if refused(first[:100], len(main)):
            return "Header(HeaderFault::%s)" % refused(first[:100], len(main))
        if versions == (2, 2) and fronts[0] and fronts[0][:2] == ("foreign", STOCK_VERSION):
            return "WalMode"
    if hot:
        return "HotJournal"
    for which in (1, 2):
        if fronts[which - 1] and fronts[which - 1][0] == "foreign":
            return foreign(which, fronts[which - 1][2])
    size = new_size if is_new else size_in(first)
    for which in (1, 2):
        if held[which - 1] and fronts[which - 1][1] != size:
            return foreign(which, 8)
    then = newest
    if is_new or versions != (3, 3):
        then = newest + 2 + (newest + 1) % 2
    if then + 2 + then % 2 + 1 > LAST:
        return foreign(1 + order[1], 12)
    if is_new:
        return (True, 0, size, size, 0, 0), []
    count = frames[-1][1] if frames else size_named(first, len(main))
    whole = []
    for n in range(1, max(1, count) + 1):
        if n not in pages and n * size > len(main):
            return "Missing { page: %d }" % n
        whole.append(pages.get(n, main[(n - 1) * size:n * size]))
    named = size_named(first, max(len(main), count * size))
    return (False, count, size, size - first[20], named, whole[0][100]), whole


# ---- what is written

def settle(main, one, two, kind):
    """The three files afterwards, log 1's generation, and how many writes and syncs of Main, log 1 and log 2 there were."""
    words, writes, syncs, logs = list(WORDS), [0, 0, 0], [0, 0, 0], [one, two]
    (is_new, _, size, *_), whole = look(main, one, two, False, 512)
    main_size = len(whole)
    held = sorted({n for log_of in ((one, 1), (two, 2)) for n, _, _ in accepted(*log_of) if n <= main_size})

    def write(numbers):
        nonlocal main
        for n in numbers:
            main = put(main.ljust((n - 1) * size, b"?"), ((n - 1) * size, whole[n - 1]))
        writes[0] += len(numbers)
        syncs[0] += 1

    def begin(which, generation):
        start = front(logs[which - 1], which)
        salt1 = (start[3] + 1) % 2**32 if start else 1
        logs[which - 1] = put(logs[which - 1], (0, log_header(generation, salt1, words.pop(0), size)))
        writes[which] += 1
        syncs[which] += 1

    for which in (1, 2):
        syncs[which] += logs[which - 1] != b""
    if accepted(one, 1) or accepted(two, 2):
        write(held)
    newest = max(generation_of(front(one, 1)), generation_of(front(two, 2)))
    if is_new or whole[0][18:20] != b"\3\3":
        newest += 2 + (newest + 1) % 2
        begin(1, newest)
        if is_new:
            whole = new_pages(kind)
            numbers = list(range(1, len(whole) + 1))
        else:
            whole[0] = put(whole[0], (18, b"\3\3"))
            numbers = [1]
        salts = struct.unpack(">2I", logs[0][16:24])
        frames = [(n, len(whole) if n == numbers[-1] else 0, whole[n - 1]) for n in numbers]
        logs[0] = put(logs[0], (0, log(newest, frames, *salts, size)))
        writes[1] += len(numbers)
        syncs[1] += 1
        write(numbers)
    even = newest + 2 + newest % 2
    gens = [generation_of(front(logs[0], 1)), generation_of(front(logs[1], 2))]
    for which in (1, 2) if gens[0] < gens[1] else (2, 1):
        begin(which, even if which == 2 else even + 1)
    return main, logs, even + 1, writes, syncs


# ---- rows

# Letters, digits, and what stands between the words of a CREATE text.
WRITTEN = bytes(byte for byte in range(128) if chr(byte).isalnum() or byte in b" (),")


def spelled(data):
    return literal(data, WRITTEN)


def runs(data):
    """The bytes as pieces, each with so many of one byte behind it."""
    out, at, begun = [], 0, 0
    while at < len(data):
        end = at
        while end < len(data) and data[end] == data[at]:
            end += 1
        if end - at >= 12 or end == len(data):
            out.append("(%s, %d, %d)" % (spelled(data[begun:at]), end - at, data[at]))
            begun = end
        at = end
    return "&[%s]" % ", ".join(out)


FILES, LINES, ARMS = {}, [], []


def name(text, called, data):
    """Gives these bytes a name; a constant has them."""
    assert data not in FILES.values()
    FILES[called] = data
    constant = "".join("_" + c if c.isupper() and at else c for at, c in enumerate(called)).upper()
    LINES.append("/// %s\nconst %s: Runs = %s;\n" % (text, constant, runs(data)))
    ARMS.append("Named::%s => %s," % (called, constant))
    return data


def shown(data):
    return next("Named::" + called for called, held in FILES.items() if held == data)


LOOKS = []


def sees(text, by_hand, main, one=b"", two=b"", hot=False, puts=(), cut=0):
    changed = put(main, *puts)
    changed = changed[:len(changed) - cut]
    found = look(changed, one, two, hot, 4096)
    found = found if isinstance(found, str) else found[0]
    assert found == by_hand, (text, found, by_hand)
    told = "Err(LookFault::%s)" % found if isinstance(found, str) else "Ok((%s, [%d, %d, %d, %d], %d))" % (str(found[0]).lower(), *found[1:])
    given = [("main", shown(main), "Named::Empty"), ("puts", "&[%s]" % ", ".join("(%d, %s)" % (at, spelled(piece)) for at, piece in puts), "&[]"),
             ("cut", str(cut), "0"), ("one", shown(one), "Named::Empty"), ("two", shown(two), "Named::Empty"), ("hot", str(hot).lower(), "false"), ("told", told, "")]
    LOOKS.append("// %s\nLook { %s, ..NOTHING }," % (text, ", ".join("%s: %s" % (field, value) for field, value, usual in given if value != usual)))


SETTLES = []


def leaves(text, by_hand, main, one=b"", two=b"", kind="Pages", sound=False):
    after, logs, generation, writes, syncs = settle(main, one, two, kind)
    told, whole = look(after, *logs, False, 512)
    if main or accepted(one, 1) or accepted(two, 2):
        before = look(main, one, two, False, 512)[1]
        assert whole == [put(before[0], (18, b"\3\3"))] + before[1:]
    else:
        assert whole == new_pages(kind)
    assert (generation, writes, syncs) == by_hand, (text, generation, writes, syncs)
    assert not sound or is_sound(after)
    SETTLES.append("// %s\nSettled { main: %s, one: %s, two: %s, kind: StoreKind::%s, after: %s, header1: *%s, header2: *%s, generation: %d, "
                   "writes: %s, syncs: %s, told: (%s, [%d, %d, %d, %d], %d) }," % (
                       text, shown(main), shown(one), shown(two), kind, shown(after), spelled(logs[0][:32]), spelled(logs[1][:32]),
                       generation, writes, syncs, str(told[0]).lower(), *told[1:]))
    return after


def main():
    plain, logged, stock_log = stock()
    # what depends on SQLite's release is left out: its number at 96
    plain, logged = put(plain, (96, bytes(4))), put(logged, (96, bytes(4)))
    assert is_sound(plain)
    name("No bytes.", "Empty", b"")
    name("A database of three pages that SQLite wrote, in rollback mode.", "Stock", plain)
    name("The same with versions 3, 3.", "Ours", put(plain, (18, b"\3\3")))
    name("The same in SQLite's own log mode.", "Logged", logged)
    name("The header of SQLite's own log.", "StockLog", stock_log)
    store = name("A page store of 16 pages.", "Store", b"".join(new_pages("Pages")))
    name("A new database of tables.", "NewTables", new_pages("Tables")[0])
    three = name("Three pages, of which page 1 names three.", "Three", first_page(3, 1) + page(2) + page(3))
    widest = name("One page of 65,536 bytes.", "Widest", header(1, page_size=65536) + b"\x05" + bytes(65435))
    zeros = name("A hundred zero bytes.", "Zeros", bytes(100))
    frames = [(1, 0, first_page(4, 50)), (4, 4, page(54)), (2, 0, page(52)), (4, 4, page(55)), (3, 0, page(59))]
    newer = name("Log 1 of generation 5: page 1, which names four pages, page 4, page 2 and page 4 again, each page 4 at the end of a commit of four "
                 "pages; then page 3, which no commit has.", "Newer", log(5, frames))
    older = name("The same as generation 3.", "Older", log(3, frames))
    second = name("Log 2 of generation 4: page 6 at the end of a commit of six pages, then page 1, which names three, and page 2.", "Second",
                  log(4, [(6, 6, page(46)), (1, 0, first_page(3, 40)), (2, 3, page(42))], 0xFFFFFFFF, 5))
    name("What Newer over Second makes of Three.", "NewerMap", first_page(4, 50) + page(52) + page(3) + page(55))
    name("What Second over Older makes of it.", "SecondMap", first_page(3, 40) + page(42) + page(3))
    migrating = name("Log 1 of generation 5: page 1 with SQLite's versions, which names four pages, and page 4.", "Migrating",
                     log(5, [(1, 0, first_page(4, 5, (1, 1))), (4, 4, page(6))]))
    name("What it makes of Stock, with versions 3, 3.", "Migrated", first_page(4, 5) + plain[512:] + page(6))
    only2 = name("Log 1 with page 2 alone.", "OnlyPage2", log(5, [(2, 2, page(2))]))
    grown = name("Log 1 with page 4 alone.", "Grown", log(5, [(4, 4, page(7))]))
    to5 = name("Log 1 with page 2 at the end of a commit of five pages.", "ToPage5", log(5, [(2, 5, page(7))]))
    wide1 = name("Log 1 with a frame of 1,024 bytes.", "Wide1", log(5, [(2, 3, page(7, 1024))], page_size=1024))
    wide2 = name("Log 2 with one.", "Wide2", log(4, [(2, 3, page(7, 1024))], page_size=1024))
    wide = name("A header for such pages alone.", "WideBare", log(5, [], page_size=1024))
    bare = lambda generation, page_size=512, version=OWN: log(generation, [], page_size=page_size, version=version)
    bare9, bare8 = name("Generation 9, and no frames.", "Bare9", bare(9)), name("Generation 8.", "Bare8", bare(8))
    others = [name("Generation 4.", "Bare4", bare(4)), name("Generation 5.", "Bare5", bare(5))]
    no_gen = name("Generation 0.", "Bare0", bare(0))
    great = [name("Generation 4,000,000,001.", "Great1", bare(LAST + 1)), name("Generation 4,000,000,002.", "Great2", bare(LAST + 2))]
    sizes = [name("Generation %d, and pages of 768 bytes." % n, "Size%d" % n, bare(n, 768)) for n in (4, 5)]
    versions = [name("The same with a version of its own.", "Version%d" % n, bare(n, 768, OWN + 1)) for n in (4, 5)]
    last = {less: name("Generation {:,}.".format(LAST - less), "Last%d" % less, bare(LAST - less)) for less in (0, 3, 4, 6, 7)}
    fine = (False, 3, 512, 512, 3, 13)

    def bad(**kinds):
        at = {"text": (0, b"s"), "size": (16, b"\3\0"), "versions": (18, b"\1\2"), "utf16": (56, number(2)), "vacuum": (52, number(3)),
              "reserved": (20, b"\x21"), "format": (44, number(5)), "large": (28, number(2097153))}
        return tuple(at[kind] for kind in kinds)

    head = "Header(HeaderFault::%s)"
    causes = [("text", "NotADb", "another text"), ("size", "PageSize(768)", "768 is no page size"), ("versions", "Versions(1, 2)", "versions 1 and 2"),
              ("utf16", "Utf16(2)", "UTF-16"), ("vacuum", "AutoVacuum(3)", "auto-vacuum"), ("reserved", "Reserved(33)", "479 bytes in use"),
              ("format", "Format(5)", "schema format 5"), ("large", "TooLarge { pages: 2097153 }", "one page above 2^30 bytes")]
    sees("nothing there yet", (True, 0, 4096, 4096, 0, 0), b"")
    sees("headers alone beside an empty database", (True, 0, 4096, 4096, 0, 0), b"", bare9, bare8)
    sees("a database of SQLite's", fine, plain)
    sees("480 bytes in use", (False, 3, 512, 480, 3, 13), plain, puts=((20, b"\x20"),))
    sees("the size doesn't count, since the change counter went on", fine, plain, puts=((28, number(9)), (92, number(0))))
    sees("a page store", (False, 16, 512, 512, 16, 0), store, bare9, bare8)
    sees("a page of 65,536 bytes", (False, 1, 65536, 65536, 1, 5), widest)
    sees("SQLite's own log mode with no log", fine, logged)
    sees("a log of another page size with no frames", fine, plain, wide)
    sees("the newer log 1 has the last page 1, and ends the map", (False, 4, 512, 512, 4, 50), three, newer, second)
    sees("the newer log 2 does", (False, 3, 512, 512, 3, 40), three, older, second)
    sees("log 1 alone makes the map greater", (False, 4, 512, 512, 4, 50), three, newer)
    sees("page 1 names another size than was recovered", (False, 4, 512, 512, 3, 1), three, grown)
    sees("its page 3 is in no commit", "Missing { page: 3 }", b"", newer)
    sees("too few bytes", head % "NotADb", zeros, cut=50)
    sees("zero bytes", head % "NotADb", zeros)
    sees("a log without page 1 beside an empty database", head % "NotADb", b"", only2)
    for k, (kind, fault, text) in enumerate(causes):
        sees(text, head % fault, plain, puts=bad(**{kind: 1}))
        if k + 1 < len(causes):
            sees("the same with all later causes", head % fault, plain, stock_log, wide2, True, puts=bad(**{later[0]: 1 for later in causes[k:]}), cut=1)
    sees("SQLite's own log mode", "WalMode", logged, stock_log)
    sees("and a hot journal", "WalMode", logged, stock_log, wide2, True)
    sees("a hot journal", "HotJournal", plain, hot=True)
    sees("a hot journal beside nothing", "HotJournal", b"", hot=True)
    sees("a hot journal and foreign logs", "HotJournal", plain, stock_log, stock_log, True)
    sees("SQLite's own log beside another mode", foreign(1, 4), plain, stock_log)
    sees("and as log 2", foreign(2, 4), logged, b"", stock_log)
    for which in (1, 2):
        at = lambda data: (data, b"") if which == 1 else (b"", data)
        sees("a foreign version, and nothing else right", foreign(which, 4), plain, *at(versions[which - 1]))
        sees("a foreign page size", foreign(which, 8), plain, *at(sizes[which - 1]))
        sees("the other log's generation", foreign(which, 12), plain, *at(others[which - 1]))
        sees("no generation", foreign(which, 12), plain, *at(no_gen))
        sees("a generation that is too great", foreign(which, 12), plain, *at(great[which - 1]))
    sees("log 1 is told before log 2", foreign(1, 12), plain, others[0], sizes[1])
    sees("a foreign log 2 before frames of another page size", foreign(2, 12), plain, wide1, others[1])
    sees("frames of another page size in log 1", foreign(1, 8), plain, wide1)
    sees("in both", foreign(1, 8), plain, wide1, wide2)
    sees("in log 2, and no whole page 3", foreign(2, 8), plain, bare9, wide2, cut=1)
    sees("no generation left", foreign(2, 12), store, b"", last[0])
    sees("nor a whole page 16", foreign(2, 12), store, bare9, last[0], cut=1)
    sees("no generation left after log 1", foreign(1, 12), store, last[3], bare8)
    sees("the last one that leaves some", (False, 16, 512, 512, 16, 0), store, b"", last[4])
    sees("a commit of its own needs more", foreign(2, 12), plain, b"", last[6])
    sees("the last one that leaves enough for it", fine, plain, last[7])
    sees("so does a new database", foreign(2, 12), b"", b"", last[6])
    sees("page 16 isn't whole", "Missing { page: 16 }", store, cut=1)
    sees("the file ends inside page 3", "Missing { page: 3 }", plain, cut=200)
    sees("inside page 1", "Missing { page: 1 }", plain, cut=1200)
    sees("a commit names more pages than there are", "Missing { page: 4 }", three, to5)

    leaves("a new page store", (7, [16, 18, 1], [1, 3, 1]), b"")
    leaves("a new database of tables", (7, [1, 3, 1], [1, 3, 1]), b"", kind="Tables", sound=True)
    leaves("a new page store beside headers alone", (15, [16, 18, 1], [1, 4, 2]), b"", bare9, bare8)
    after = leaves("a database of SQLite's", (7, [1, 3, 1], [1, 3, 1]), plain, kind="Tables", sound=True)
    assert after == put(plain, (18, b"\3\3"))
    leaves("one with frames in log 1, whose page 1 has SQLite's versions", (11, [3, 3, 1], [2, 4, 1]), plain, migrating, kind="Tables")
    leaves("frames in both logs, of which log 1 is newer", (9, [3, 1, 1], [1, 2, 2]), three, newer, second)
    leaves("of which log 2 is newer", (7, [2, 1, 1], [1, 2, 2]), three, older, second)
    leaves("a page store with bare logs", (13, [0, 1, 1], [0, 2, 2]), store, bare9, bare8)
    leaves("a page store without logs", (3, [0, 1, 1], [0, 1, 1]), store)

    arms = "\n".join(ARMS)
    variants = "\n".join("%s," % called for called in FILES)
    write("files.rt", "// Files of databases.", "use crate::trial::Runs;\n", "%s\n%s" % (FILE_USES % (variants, arms), "\n".join(LINES)))
    write("seen.rt", "// What a look has to see.", LOOK_USES, "pub const LOOKS: &[Look] = &[\n%s\n];" % "\n".join(LOOKS))
    write("left.rt", "// What settling has to leave.", LEFT_USES, "pub const SETTLES: &[Settled] = &[\n%s\n];" % "\n".join(SETTLES))


FILE_USES = """/// A file.
#[derive(Clone, Copy)]
pub enum Named {
%s
}

/// Its bytes.
pub fn runs_of(named: Named) -> Runs {
    match named {
%s
    }
}
"""
LOOK_USES = """use crate::files::Named;
use crate::trial::Told;
use db_header::HeaderFault;
use disk_face::File;
use recover::LookFault;

/// Files of which Main gets other bytes at some places and is cut by so many at its end, and what is seen of them.
#[derive(Clone, Copy)]
pub struct Look {
    pub main: Named,
    pub puts: &'static [(usize, &'static [u8])],
    pub cut: usize,
    pub one: Named,
    pub two: Named,
    pub hot: bool,
    pub told: Result<Told, LookFault>,
}

const NOTHING: Look = Look { main: Named::Empty, puts: &[], cut: 0, one: Named::Empty, two: Named::Empty, hot: false, told: Err(LookFault::Disk) };
"""
LEFT_USES = """use crate::files::Named;
use crate::trial::Told;
use recover::StoreKind;

/// Files; what is left of Main and at the front of the logs once they are settled, and the generation of log 1; how many writes and syncs of
/// Main, log 1 and log 2 there were; and what is seen then.
#[derive(Clone, Copy)]
pub struct Settled {
    pub main: Named,
    pub one: Named,
    pub two: Named,
    pub kind: StoreKind,
    pub after: Named,
    pub header1: [u8; 32],
    pub header2: [u8; 32],
    pub generation: u32,
    pub writes: [usize; 3],
    pub syncs: [usize; 3],
    pub told: Told,
}
"""


def write(file, head, uses, body):
    with open(os.path.join(sys.argv[1], file), "w") as out:
        out.write("%s `bench/opening_files.py` writes it.\n%s\n%s\n" % (head, uses, body))


main()
