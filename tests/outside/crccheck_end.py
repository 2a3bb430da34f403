"""Compares check sequences and frames, as `ppp checks` prints them, with CRC-16/X-25 of the package crccheck; nothing of ours is called.

Prints how many lists of data there were, or the first that differs.
"""

import sys

from crccheck.crc import Crc16X25

FLAG = b"\x7e"
ESCAPED = (b"\x7e\x7d", b"\x7e\x7d\x11\x13")  # by the level


def framed(level, octets):
    """Octets between flags, each that the level escapes as 7D and itself with bit 5 changed."""
    body = b"".join(bytes((0x7D, x ^ 0x20)) if x in ESCAPED[level] else bytes((x,)) for x in octets)
    return FLAG + body + FLAG


def compare(line):
    """The length of a list of data; -1 where ours are not what they are to be."""
    digits, sequence, *frames = line.split()
    data = b"" if digits == "-" else bytes.fromhex(digits)
    check = Crc16X25.calc(data)
    wanted = [framed(level, data + check.to_bytes(2, "little")) for level in (0, 1)] if data else []
    same = int(sequence, 16) == check and [bytes.fromhex(frame) for frame in frames] == wanted
    return len(data) if same else -1


def main():
    lengths = []
    for line in sys.stdin:
        lengths.append(compare(line))
        if lengths[-1] < 0:
            sys.exit(f"list {len(lengths)} differs: {line[:200].strip()}")
    print(f"{len(lengths)} lists of data, {sum(lengths)} octets, lengths {min(lengths)} to {max(lengths)}", end="")


main()
