#!/usr/bin/env python3
"""compare/second_finder.py MARKER TOLERANCE LENGTH < BUFFER

A second marker finder, written from document 02, order 5, and not from crates/finder. It writes what the program `marker` has to write.
"""

import sys


def find(buffer, marker, tolerance, length):
    """(position, first distance, second distance), or the number of a refusal."""
    # "Refusals: 8 tolerance above 8; 9 L outside 64 to 65,536; 10 buffer above 65,536 bytes or shorter than L + 32 bits; 11 none; in that order."
    if tolerance > 8:
        return 8
    if not 64 <= length <= 65536:
        return 9
    if len(buffer) > 65536 or 8 * len(buffer) < length + 32:
        return 10
    # "Bits count from the top of each byte, and the marker's top bit comes first."
    bits = "".join(format(byte, "08b") for byte in buffer)

    def distance(p):
        return (int(bits[p : p + 32], 2) ^ marker).bit_count()

    # "answer the smallest bit position p such that the 32 bits at p and the 32 bits at p + L each differ from the marker in at most t bits, with both
    # distances. .. Refused as "none" exactly when no such p has both windows inside the buffer."
    for p in range(len(bits) - length - 32 + 1):
        first = distance(p)
        if first <= tolerance:
            second = distance(p + length)
            if second <= tolerance:
                return p, first, second
    return 11


def written(answer):
    if isinstance(answer, int):
        return "refused %d\n" % answer
    return "position %d\ndistances %d %d\nrefused 0\n" % answer


if __name__ == "__main__":
    sys.stdout.write(written(find(sys.stdin.buffer.read(), int(sys.argv[1], 16), int(sys.argv[2]), int(sys.argv[3]))))
