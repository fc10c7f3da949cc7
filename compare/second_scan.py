#!/usr/bin/env python3
"""compare/second_scan.py MARKER TOLERANCE LENGTH [FROM COUNT] < CAPTURE

A second scan, written from document 02, order 5, and from what is asked of captures of any length, and not from crates/capture_scanning. It writes what the program
`scan` has to write. It holds the capture whole.
"""

import sys


def meetings(capture, marker, tolerance, length):
    """Every position at which the marker is met, with both distances, in order."""
    # "Bits count from the top of each byte, and the marker's top bit comes first."
    bits = bin(int.from_bytes(b"\x01" + capture, "big"))[3:]
    near = {}
    for p in range(len(bits) - 31):
        distance = (int(bits[p : p + 32], 2) ^ marker).bit_count()
        if distance <= tolerance:
            near[p] = distance
    # "the 32 bits at p and the 32 bits at p + L each differ from the marker in at most t bits, with both distances"
    return [(p, near[p], near[p + length]) for p in near if p + length in near]


def scan(capture, marker, tolerance, length, start=0, count=None):
    """The lines, for a capture from byte `start` on: positions that begin in `count` bytes of it, all where none is given."""
    # "8 tolerance above 8; 9 L outside 64 to 65,536", 10 where the whole capture is shorter than L + 32 bits, 11 where nothing is met, in that order.
    if tolerance > 8:
        return "refused 8\n"
    if not 64 <= length <= 65536:
        return "refused 9\n"
    if 8 * (start + len(capture)) < length + 32:
        return "refused 10\n"
    found = [m for m in meetings(capture, marker, tolerance, length) if count is None or m[0] < 8 * count]
    lines = ["position %d distances %d %d\n" % (8 * start + p, first, second) for p, first, second in found]
    return "".join(lines) + "refused %d\n" % (0 if found else 11)


if __name__ == "__main__":
    numbers = [int(word) for word in sys.argv[2:]]
    sys.stdout.write(scan(sys.stdin.buffer.read(), int(sys.argv[1], 16), *numbers))
