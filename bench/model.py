"""Runs the program that stands in model.program beside ordered maps, and has SQLite check what it wrote: see bench/model.

model.py PROGRAM FOLDER STEPS SEED PAGE_SIZE RESERVED
"""
import os
import shutil
import sqlite3
import subprocess
import sys

MASK = 2**64 - 1


class Dice:
    def __init__(self, seed):
        self.state = seed

    def below(self, bound):
        self.state = (self.state * 6364136223846793005 + 1442695040888963407) & MASK
        return (self.state >> 32) % bound


def rowid_of(key):
    number = key - 10_000
    return number if key % 3 == 0 else number * 922_337_203_685_477


def text_of(large, key, long):
    if long % 100 == 7:
        size = 20 * large * long // 1000
    elif long % 16 == 3:
        size = 3 * large * long // 1000
    else:
        size = long % 100
    return chr(ord("a") + (key + long) % 26) * size


def entry_of(large, key):
    size = {0: large * (key // 8 % 16) // 16, 1: 40, 2: large // 8}.get(key % 8, 3)
    return ("%05d" % (key * 7919 % 20_011) + chr(ord("a") + key % 26) * size, key)


def step(rows, entries, large, number, dice):
    """The answer of a step, as the program tells it."""
    deed, is_row, key, long = dice.below(10), dice.below(2) == 0, dice.below(20_000), dice.below(1000)
    most_put = 6 if number // 20_000 % 2 == 0 else 3
    if is_row:
        held, name, value = rows, rowid_of(key), text_of(large, key, long)
    else:
        held, (name, value) = entries, entry_of(large, key)
    if deed < most_put:
        if name in held:
            return 2
        held[name] = value
        return 1
    if deed < 9:
        return 3 if held.pop(name, None) is not None else 4
    if name not in held:
        return 5
    return 6 + (len(value) + (ord(value[-1]) if value else 0) if is_row else 0)


def begin(path, page_size, reserved):
    """A database with an empty table and an empty index, and their roots."""
    script = ".filectrl reserve_bytes %d\n" % reserved if reserved else ""
    script += "PRAGMA page_size = %d;\nVACUUM;\n" % page_size
    script += "CREATE TABLE t (id INTEGER PRIMARY KEY, v TEXT);\n"
    script += "CREATE TABLE w (k TEXT PRIMARY KEY, n INTEGER) WITHOUT ROWID;\n"
    subprocess.run(["sqlite3", path], input=script, text=True, check=True, stdout=subprocess.DEVNULL)
    with open(path, "rb") as file:
        header = file.read(100)
    assert header[20] == reserved, "reserved bytes: %d" % header[20]
    with sqlite3.connect(path) as made:
        roots = dict(made.execute("SELECT name, rootpage FROM sqlite_schema"))
    made.close()
    return roots["t"], roots["w"]


def as_stock(path, last):
    """Page 1 as a stock database of so many pages has it: nothing was committed, so these fields are as they were."""
    with open(path, "r+b") as file:
        header = bytearray(file.read(100))
        header[18] = header[19] = 1
        header[28:32] = last.to_bytes(4, "big")
        header[92:96] = header[24:28]
        file.seek(0)
        file.write(header)


def compare(path, rows, entries):
    """What SQLite says of the pages as a file."""
    read = sqlite3.connect(path)
    said = read.execute("PRAGMA integrity_check").fetchall()
    assert said == [("ok",)], said[:5]
    assert read.execute("SELECT id, v FROM t ORDER BY id").fetchall() == sorted(rows.items()), "rows"
    assert read.execute("SELECT k, n FROM w ORDER BY k").fetchall() == sorted(entries.items()), "entries"
    free = read.execute("PRAGMA freelist_count").fetchone()[0]
    read.close()
    return free


def main():
    program, folder = sys.argv[1:3]
    steps, seed, page_size, reserved = map(int, sys.argv[3:7])
    path, dump = folder + "/model", folder + "/dump"
    for name in os.listdir(folder):
        if name.startswith(("model", "dump")):
            os.unlink(folder + "/" + name)
    table, index = begin(path, page_size, reserved)
    words = [program, path, str(table), str(index), str(steps), str(seed), dump]
    run = subprocess.Popen(words, stdin=subprocess.PIPE, stdout=subprocess.PIPE, text=True, bufsize=1)
    rows, entries, dice, total = {}, {}, Dice(seed), 0
    most = {"rows": 0, "entries": 0, "pages": 0, "free": 0}
    for number in range(steps):
        total = (total * 31 + step(rows, entries, page_size, number, dice)) % 1_000_000_007
        if number % 1000 == 999:
            line = run.stdout.readline().split()
            assert line[:2] == [str(number + 1), str(total)], (line, number + 1, total)
            shutil.copy(dump, dump + ".read")
            as_stock(dump + ".read", int(line[2]))
            free = compare(dump + ".read", rows, entries)
            now = {"rows": len(rows), "entries": len(entries), "pages": int(line[2]), "free": free}
            most = {name: max(most[name], now[name]) for name in most}
            run.stdin.write("\n")
            run.stdin.flush()
    assert run.wait() == 0
    print("pages of %d bytes, %d reserved, seed %d: %d steps agree; at most %d rows, %d entries, %d pages, %d of them free; in the end %d rows, %d entries"
          % (page_size, reserved, seed, steps, most["rows"], most["entries"], most["pages"], most["free"], len(rows), len(entries)))


main()
