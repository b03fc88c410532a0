"""What the scripts that write vectors for tests share: bytes as Rust writes them, and the checksum of a log."""
import struct

# The bytes that a byte string may have as they are: what can be printed, but the quote and the backslash.
PRINTED = bytes(byte for byte in range(32, 127) if byte not in b'"\\')


def literal(data, plain=PRINTED):
    """The bytes as a byte string of Rust's, those of `plain` as they are and the others as two hexadecimal digits each."""
    return 'b"%s"' % "".join(chr(byte) if byte in plain else "\\x%02x" % byte for byte in data)


def checksum(order, sums, data):
    """The checksum of a log behind these bytes, which goes on from the two sums, over words of this byte order: the page "Database File
    Format" of SQLite's documentation, "Checksum Algorithm"."""
    s0, s1 = sums
    words = struct.unpack("%s%dI" % (order, len(data) // 4), data)
    for x, y in zip(words[::2], words[1::2]):
        s0 = (s0 + x + s1) % 2**32
        s1 = (s1 + y + s0) % 2**32
    return s0, s1
