#!/usr/bin/env python3
"""Writes a script of so many blocks of BEGIN, READ, WRITE and COMMIT lines of one session."""
import sys

blocks = int(sys.argv[1])
lines = ["1: BEGIN\n1: READ %d\n1: WRITE %d %d\n1: COMMIT\n" % (2 + i % 15, 2 + (i + 7) % 15, i % 256) for i in range(blocks)]
sys.stdout.write("".join(lines))
