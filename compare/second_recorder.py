"""A second recorder and a second replay, written from document 02, order 8, over the second calculator.

They share nothing with the crates. What stands in quotation marks is document 02. `python3 compare/second_recorder.py record < LIST` writes the recording of a
list, `python3 compare/second_recorder.py replay < RECORDING` what the program `replay` has to write, and `python3 compare/second_recorder.py show < RECORDING`
what the program `show` has to write.
"""

import sys
from functools import lru_cache

from calculator import LAYOUT, START, Step, after, list_refusals, read_instructions, refusals

BLOCK, RECORD, STEP = 512, 64, 32

# "(0 i32, 1 i64, 2 f32, 3 f64, no other)"
KINDS = ["i32", "i64", "f32", "f64"]

# "polynomial x^16 + x^12 + x^5 + 1", without its top term
POLYNOMIAL = 1 << 12 | 1 << 5 | 1


@lru_cache(maxsize=200000)
def check(data):
    """ "start all ones, top bit first, no final xor": the division, bit by bit."""
    register = 0xFFFF
    for byte in data:
        for place in range(7, -1, -1):
            out = register >> 15 ^ byte >> place & 1
            register = register << 1 & 0xFFFF ^ (POLYNOMIAL if out else 0)
    return register


def sealed(body):
    """ "stored high byte first, over bytes 0..509" """
    return body + check(body).to_bytes(2, "big")


def narrow(kind):
    return KINDS[kind].endswith("32")


def record_of(instructions, data, number, state):
    """The record of a step, the list's first being number 1, and the state after it; None where it is refused."""
    step = Step(*LAYOUT.unpack(data))
    found = instructions.get(step.operation)
    refused = refusals(found, step, state.kind)
    following = None if refused else after(found, step, number, state)
    left = following or state
    vector = left.registers[step.destination] if following and found.gives == "vector" else 0
    # "the 32-byte step, the 16-byte vector written (zeros if none), refusal number, scalar kind after it .., six zeros, scalar bits in 8 bytes. A 32-bit scalar
    # fills the low four of the 8 bytes and the rest are zero." "scalar bits are little-endian"
    marks = bytes([refused[0] if refused else 0, KINDS.index(left.kind)])
    return data + vector.to_bytes(16, "little") + marks + bytes(6) + left.bits.to_bytes(8, "little"), following


def packed(records):
    """ "blocks of 512 bytes: 0..1 block number from 0; 2 record count; 3 zero; records of 64 bytes from byte 4, at most seven; zeros to byte 509" """
    file = b""
    for number, first in enumerate(range(0, len(records), 7)):
        held = records[first : first + 7]
        file += sealed((number.to_bytes(2, "little") + bytes([len(held), 0]) + b"".join(held)).ljust(BLOCK - 2, b"\0"))
    return file


def recorded(instructions, list_data):
    """The recording of a list, or the line that says why there is none."""
    if list_refusals(list_data, 0, 256):
        return "refused 1"
    if not list_data:
        return "the list is empty"
    records, state = [], START
    for at in range(0, len(list_data), STEP):
        record, state = record_of(instructions, list_data[at : at + STEP], len(records) + 1, state)
        records.append(record)
        if state is None:
            break
    return packed(records)


def record_rules(record, is_last):
    refused, kind = record[48], record[49]
    return [
        # "A refusal number other than 0 may stand only in the last record of the file"
        is_last or refused == 0,
        kind < len(KINDS),
        not any(record[50:56]),
        kind >= len(KINDS) or not narrow(kind) or not any(record[60:]),
    ]


def records_of(blocks):
    return [block[4 + RECORD * i : 4 + RECORD * (i + 1)] for block in blocks for i in range(block[2])]


def is_laid(blocks):
    """ "any other rule of the layout" """
    for number, block in enumerate(blocks):
        is_last = number == len(blocks) - 1
        # "All blocks but the last hold seven records, the last one to seven"
        if int.from_bytes(block[:2], "little") != number or block[2] not in (range(1, 8) if is_last else [7]) or block[3]:
            return False
        if any(block[4 + RECORD * block[2] : BLOCK - 2]):
            return False
    records = records_of(blocks)
    # "the file at most 256"
    return len(records) <= 256 and all(all(record_rules(record, i == len(records) - 1)) for i, record in enumerate(records))


def replayed(instructions, file):
    """The line that a replay writes."""
    # "13 length zero, no multiple of 512 or above 37 blocks; 14 a check fails; 15 any other rule of the layout; in that order"
    if not file or len(file) % BLOCK or len(file) > 37 * BLOCK:
        return "refused 13"
    blocks = [file[at : at + BLOCK] for at in range(0, len(file), BLOCK)]
    if any(sealed(block[:-2]) != block for block in blocks):
        return "refused 14"
    if not is_laid(blocks):
        return "refused 15"
    # "A replay starts from zero registers and i32 0"
    state = START
    for number, record in enumerate(records_of(blocks), 1):
        expected, state = record_of(instructions, record[:STEP], number, state)
        if record != expected:
            return "record %d" % number
    return "agrees"


def left_line(record):
    """What a record says that its step left: the vector, the scalar by its kind, highest digit first, 8 or 16 digits, and the refusal."""
    bits = int.from_bytes(record[56:], "little")
    digits = "%08x" % bits if narrow(record[49]) else "%016x" % bits
    return "  vector %s s %s %s refused %d" % (record[32:48].hex(), KINDS[record[49]], digits, record[48])


def shown(instructions, file):
    """The lines that the program `show` writes of a file."""
    # here, since the second assembler reads the suite's rows, and nothing else of this file needs them
    from second_assembler import line_of

    answer, lines, state = replayed(instructions, file), [], START
    if not answer.startswith("refused"):
        for number, record in enumerate(records_of([file[at : at + BLOCK] for at in range(0, len(file), BLOCK)]), 1):
            expected, following = record_of(instructions, record[:STEP], number, state)
            state = following or state
            lines += ["record %d: %s" % (number, line_of(record[:STEP]).decode()), left_line(record)]
            if record != expected:
                lines += ["  the definition gives", left_line(expected)]
    return lines + [answer]


if __name__ == "__main__":
    given = sys.stdin.buffer.read()
    if sys.argv[1:] == ["record"]:
        made = recorded(read_instructions(), given)
        if isinstance(made, str):
            sys.exit(made)
        sys.stdout.buffer.write(made)
    elif sys.argv[1:] == ["show"]:
        print("\n".join(shown(read_instructions(), given)))
    else:
        print(replayed(read_instructions(), given))
