"""A second mender, written from document 02, order 10: it tries every bit of a block.

It shares nothing with the crates. What stands in quotation marks is document 02. `python3 compare/second_mender.py < RECORDING` writes what the program `mend` has
to write.

The check of a block with one bit flipped is worked out from the check of the block, since the division is linear: what a flipped bit adds is the remainder of that
bit alone. So 4,096 flips are 4,096 additions.
"""

import sys
from functools import lru_cache

from second_recorder import BLOCK, check

BITS = 8 * BLOCK


def flipped(block, bit):
    """ "bit 0 is the top bit of byte 0" """
    changed = bytearray(block)
    changed[bit // 8] ^= 128 >> bit % 8
    return bytes(changed)


def wrong_by(block):
    """The check that bytes 0..509 have, less the one that stands in 510..511: 0 where it holds."""
    return check(block[:-2]) ^ int.from_bytes(block[-2:], "big")


@lru_cache(maxsize=None)
def added():
    """What a flip of each bit adds to that."""
    zeros = bytes(BLOCK)
    return [wrong_by(flipped(zeros, bit)) ^ wrong_by(zeros) for bit in range(BITS)]


def bits_that_mend(block):
    """Every bit whose flip brings the block to a right check."""
    wrong = wrong_by(block)
    return [bit for bit, adds in enumerate(added()) if adds == wrong]


def bits_one_by_one(block):
    """The same with no such argument: every bit is flipped, and the whole check is made."""
    return [bit for bit in range(BITS) if check.__wrapped__(flipped(block, bit)[:-2]) == int.from_bytes(flipped(block, bit)[-2:], "big")]


def mended(file):
    """What is written to standard output, and the lines for standard error."""
    # "Refusals: 13 as above"
    if not file or len(file) % BLOCK or len(file) > 37 * BLOCK:
        return b"", ["refused 13"]
    written, lines = b"", []
    for number in range(len(file) // BLOCK):
        block = file[BLOCK * number : BLOCK * (number + 1)]
        # "One whose check holds is kept. One that a single flipped bit brings to a right check gets that bit put back."
        if wrong_by(block):
            bits = bits_that_mend(block)
            if not bits:
                # "The tool writes the blocks up to the first that is neither, then names that block"
                return written, lines + ["block %d not mended" % number]
            lines.append("block %d bit %d" % (number, bits[0]))
            block = flipped(block, bits[0])
        written += block
    return written, lines


if __name__ == "__main__":
    output, said = mended(sys.stdin.buffer.read())
    sys.stdout.buffer.write(output)
    sys.stderr.write("".join(line + "\n" for line in said))
