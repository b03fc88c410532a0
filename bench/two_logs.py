#!/usr/bin/env python3
"""Prints the logs that the tests of crates/pair_tests expect, as Rust constants.

    python3 bench/two_logs.py > crates/pair_tests/src/logs.rt

It follows the page "Database File Format" of SQLite's documentation under "WAL File Format" and "Checksum Algorithm" alone; the
version number, and that the sequence number holds a generation, are this project's own. Nothing here is taken from the repository's code.
"""
import struct

from vectors import checksum, literal

BIG, LITTLE, VERSION = 0x377F0683, 0x377F0682, 93021000


class Log:
    """A log that is written: its header, and frames behind it."""

    def __init__(self, magic, page_size, generation, salt1, salt2):
        self.order = ">" if magic == BIG else "<"
        self.page_size, self.salts = page_size, (salt1, salt2)
        head = struct.pack(">6I", magic, VERSION, page_size, generation, salt1, salt2)
        self.sums = checksum(self.order, (0, 0), head)
        self.header = head + struct.pack(">2I", *self.sums)
        self.heads = []

    def add(self, page, size, fill):
        head = struct.pack(">2I", page, size)
        self.sums = checksum(self.order, checksum(self.order, self.sums, head), bytes([fill]) * self.page_size)
        self.heads.append(head + struct.pack(">4I", *self.salts, *self.sums))
        return self


def constant(name, text, data):
    print("/// %s\npub const %s: [u8; %d] = *%s;\n" % (text, name, len(data), literal(data, plain=b"")))


def main():
    print("// Logs that a plain program in another language wrote: `bench/two_logs.py`.\n")
    first = Log(BIG, 512, 3, 6, 11).add(1, 0, 7).add(2, 2, 8)
    constant("FIRST_HEADER", "The header of log 1 of generation 3, with salts 6 and 11, for pages of 512 bytes.", first.header)
    constant("FIRST_HEAD", "What stands before page 1, which 7 fills.", first.heads[0])
    constant("SECOND_HEAD", "What stands before page 2 behind it, which 8 fills, at the end of a commit of 2 pages.", first.heads[1])
    second = Log(LITTLE, 512, 2, 0xFFFFFFFF, 5).add(4, 6, 5)
    constant("LITTLE_HEADER", "The header of log 2 of generation 2, with salts 2^32-1 and 5: its words are summed least byte first.", second.header)
    constant("LITTLE_HEAD", "What stands before page 4 in that log, which 5 fills, at the end of a commit of 6 pages.", second.heads[0])
    third = Log(BIG, 512, 4, 0, 9).add(3, 3, 9)
    constant("NEXT_HEADER", "The header of log 2 after those of generations 3 and 2, with second salt 9.", third.header)
    constant("NEXT_HEAD", "What stands before page 3 behind it, which 9 fills, at the end of a commit of 3 pages.", third.heads[0])
    wide = Log(BIG, 65536, 3, 1, 5).add(3, 3, 6)
    constant("WIDE_HEADER", "The header of log 1 of generation 3, with salts 1 and 5, for pages of 65,536 bytes.", wide.header)
    constant("WIDE_HEAD", "What stands before page 3 in that log, which 6 fills, at the end of a commit of 3 pages.", wide.heads[0])
    other = Log(BIG, 65536, 2, 1, 5)
    constant("WIDE_OTHER", "The header of log 2 of generation 2, with salts 1 and 5, for pages of 65,536 bytes.", other.header)


main()
