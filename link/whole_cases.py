"""What link/whole.c and the examples of a scan are asked and what they have to answer, for link/check: the examples; and at the limits and for each refusal what documents 01 and
02 say, which is what stands in quotation marks. The words are those of the programs (examples/run). No field of an answer is 0 or false in all of them.
"""
import re, sys
from pathlib import Path
from typing import NamedTuple

HERE = Path(__file__).resolve().parent.parent

sys.path.insert(0, str(HERE / "compare"))

# Written from document 02, and not from the programs.
from second_mender import flipped
from second_recorder import BLOCK, packed
from second_scan import scan

EXAMPLES = HERE / "examples"

# Document 01's own two steps: v128.const of the bytes 0 to 15 into 1, then i8x16.popcnt from 1 into 2.
STEPS = (EXAMPLES / "popcnt.steps").read_bytes()

CONST, POPCNT = STEPS[:32], STEPS[32:]

# What makes the second of them a step that is refused with each number of document 01's table, as bytes by their places in the step.
REFUSED_STEPS = {
    2: {0: 0},  # v128.load: "a load or a store"
    3: {2: 16},  # the destination is 16: "a used register number above 15"
    4: {0: 21, 6: 16},  # i8x16.extract_lane_s: "Lane 15 of i8x16 passes, 16 does not"
    5: {0: 13, 31: 32},  # i8x16.shuffle: "Index 31 passes, 32 does not"
    6: {0: 18},  # i64x2.splat reads an i64, and the scalar is i32 0
}

# 256 steps that are all the first, by leases: place and limit, the line of each lease, the steps done, the number beside the register. Order 12: "Stopped at the limit with
# steps left, it answers "paused" and where, counted from the list's start; a list with no step left has ended."
LEASES = [
    ("0 255", b"steps 255 paused 255\nsteps 1 ended\n", 256, 256),
    ("255 256", b"steps 1 ended\n", 1, 256),
    ("256 0", b"steps 0 ended\n", 0, 0),
    ("0 0", b"steps 0 paused 0\n", 0, 0),
]

# Lists that are refused as a whole: so many bytes of such steps, place and limit, the number. "8,191, 8,193 and 8,224 are refused" (document 01); "17 limit above 256, tested
# before 1; 19 a place to take up from that is above the list's number of steps, tested after 1" (order 12). 4,294,967,296 would pass where only its low 32 bits came through.
REFUSED_LISTS = [
    (33, "9 257", 17),
    (64, "0 4294967296", 17),
    (33, "9 256", 1),
    (8191, "0 256", 1),
    (8193, "0 256", 1),
    (8224, "0 256", 1),
    (64, "3 256", 19),
    (64, "4294967296 256", 19),
]

# The finder over so many zero bytes: "8 tolerance above 8; 9 L outside 64 to 65,536; 10 buffer above 65,536 bytes or shorter than L + 32 bits; 11 none; in that order"
# (order 5). A tolerance of 65,536 and a length of 65,600 would pass where only their low 16 bits came through.
MARKERS = [
    ("000000ff 8 64", 12, b"position 0\ndistances 8 8\nrefused 0\n"),
    ("00000000 0 65536", 65536, b"position 0\ndistances 0 0\nrefused 0\n"),
    ("00000000 9 63", 12, b"refused 8\n"),
    ("00000000 65536 64", 12, b"refused 8\n"),
    ("00000000 8 63", 11, b"refused 9\n"),
    ("00000000 8 65600", 65537, b"refused 9\n"),
    ("00000000 8 65", 12, b"refused 10\n"),
    ("00000000 8 64", 65537, b"refused 10\n"),
    ("000001ff 8 64", 12, b"refused 11\n"),
]

# Scans of frames, many bytes of zeros and the frames once more, and of a capture that is too short for the longest frame. With a tolerance of 16, and with a
# length of 63, some would be met where it was not refused.
SCANS = ["1acffc1d 2 8192", "00000000 0 64", "00000000 8 65536", "ffffffff 0 70", "1acffc1d 16 64", "00000000 2 63"]

PIECES = (1, 7, 1000, 8197, 65536)

# One lane of a row's result, of the lanes of both rows (document 01, "Lane rules").
ROWS = {"add": lambda x, y: (x + y) % 256, "xor": lambda x, y: x ^ y, "popcnt": lambda x, y: x.bit_count()}

# "the file at most 256": the record of the first step, so many times. "the 16-byte vector written", no refusal, i32, six zeros, scalar bits 0 (order 8).
RECORD_OF_CONST = CONST + bytes(range(16)) + bytes(16)

LONGEST = packed([RECORD_OF_CONST] * 256)


class Case(NamedTuple):
    """What link/whole.c is asked, what it reads, and what it has to write to standard output and to standard error."""

    words: str
    given: bytes
    written: bytes
    said: bytes = b""


def listing(done, writer, refused):
    """What is listed where the first of document 01's steps alone has written, last as the step of this number, or has not been done where that is 0."""
    register = b"r01 %s %d\n" % (bytes(range(16)).hex().encode(), writer) if writer else b""
    return b"steps %d\n%ss i32 00000000\nrefused %d\n" % (done, register, refused)


def lists():
    """Lists with what is listed of them."""
    for steps in sorted(EXAMPLES.glob("*.steps")):
        yield steps.read_bytes(), steps.with_suffix(".expected").read_bytes()
    # "8,192 bytes pass"; "an empty list does 0 steps with 0"
    yield 256 * CONST, listing(256, 256, 0)
    yield b"", listing(0, 0, 0)
    for refused, changes in REFUSED_STEPS.items():
        yield CONST + bytes(changes.get(place, byte) for place, byte in enumerate(POPCNT)), listing(1, 1, refused)


def leases(given, listed, limit):
    """The lines of a list's leases: each does "the smaller of the limit and the steps before a refusal or the end. Stopped at the limit with steps left, it answers "paused" and
    where"; "If the next step would have been refused, that shows only when it is taken up again" (order 12)."""
    done, refused = (int(re.search(word + rb" (\d+)\n", listed)[1]) for word in (b"steps", b"refused"))
    at, lines = 0, b""
    while done - at >= limit and len(given) // 32 - at > limit:
        at += limit
        lines += b"steps %d paused %d\n" % (limit, at)
    return lines + b"steps %d %s\n" % (done - at, b"refused %d" % refused if refused else b"ended")


def list_cases():
    for given, listed in lists():
        yield Case("steps", given, listed)
        for limit in (256, 1):
            yield Case("lease 0 %d" % limit, given, leases(given, listed, limit) + listed)
    for lease in sorted(EXAMPLES.glob("*.lease")):
        words, wanted = lease.read_bytes().split(b"\n", 1)
        yield Case(words.decode(), lease.with_suffix(".steps").read_bytes(), wanted)
    for words, lines, done, writer in LEASES:
        yield Case("lease " + words, 256 * CONST, lines + listing(done, writer, 0))


def held(how, refused, writers):
    """What is written of a run that does nothing, from the state of `held` in link/whole.c with these numbers beside its registers."""
    registers = (b"r%02d %s %d\n" % (i, bytes(range(16 * i, 16 * i + 16)).hex().encode(), writer) for i, writer in enumerate(writers))
    return b"steps 0 %s\nsteps 0\n%ss f64 fff4000000000001\nrefused %d\n" % (how, b"".join(registers), refused)


def held_cases():
    writers = range(256, 240, -1)
    # "0 steps, state as given" (document 01, of 1); "with either, nothing done" (order 12, of 17 and 19)
    for size, words, refused in REFUSED_LISTS:
        yield Case("held " + words, (257 * CONST)[:size], held(b"refused %d" % refused, refused, writers))
    # "A run resets all of them to 0 as it starts" (order 1); "taking up above place 0 does not reset them" (order 12)
    yield Case("held 0 0", STEPS, held(b"paused 0", 0, 16 * [0]))
    yield Case("held 1 0", STEPS, held(b"paused 1", 0, writers))
    yield Case("held 2 0", STEPS, held(b"ended", 0, writers))


def marker_cases():
    for arguments in sorted(EXAMPLES.glob("*.arguments")):
        yield Case("marker " + arguments.read_text(), arguments.with_suffix(".capture").read_bytes(), arguments.with_suffix(".expected").read_bytes())
    for words, zeros, wanted in MARKERS:
        yield Case("marker " + words, bytes(zeros), wanted)


def fold_cases():
    """ "18 more than 16 links, then 5 for an index above 31" (order 13). No link leaves a; links of zeros leave its byte 0, sixteen times."""
    for chain in sorted(EXAMPLES.glob("*.chain")):
        yield Case("fold", chain.read_bytes(), chain.with_suffix(".fold").read_bytes())
    above = bytes(16) + b"\x20"
    yield Case("fold", b"", b"indices 000102030405060708090a0b0c0d0e0f\nrefused 0\n")
    yield Case("fold", bytes(16 * 17), b"indices 00000000000000000000000000000000\nrefused 0\n")
    yield Case("fold", 17 * above, b"refused 18\n")
    yield Case("fold", bytes(15 * 17) + above, b"refused 5\n")


def record_cases():
    """A buffer that is one byte too short gets nothing, nor does a list with no step or one that is refused with 1 (document 01)."""
    for recording in sorted(EXAMPLES.glob("*.recording")):
        steps, file = recording.with_suffix(".steps"), recording.read_bytes()
        if steps.exists():
            yield Case("record %d" % len(file), steps.read_bytes(), file)
            yield Case("record %d" % (len(file) - 1), steps.read_bytes(), b"", b"record: no room\n")
    yield Case("record 18944", 256 * CONST, LONGEST)
    yield Case("record 18943", 256 * CONST, b"", b"record: no room\n")
    yield Case("record 18944", b"", b"", b"the list is empty\n")
    for size in (33, 8224):
        yield Case("record 18944", (257 * CONST)[:size], b"", b"refused 1\n")


def replay_cases():
    """ "13 length zero, no multiple of 512 or above 37 blocks; 14 a check fails; 15 any other rule of the layout; in that order" (order 8)."""
    for recording in sorted(EXAMPLES.glob("*.recording")):
        yield Case("replay", recording.read_bytes(), recording.with_suffix(".replay").read_bytes())
    wrong = CONST + bytes(32)
    yield Case("replay", LONGEST, b"agrees\n")
    yield Case("replay", packed([RECORD_OF_CONST] * 255 + [wrong]), b"record 256\n")
    for file in (b"", LONGEST[:511], LONGEST + LONGEST[:BLOCK]):
        yield Case("replay", file, b"refused 13\n")
    second = LONGEST[BLOCK : 2 * BLOCK]
    yield Case("replay", second + bytes(BLOCK), b"refused 14\n")
    yield Case("replay", second, b"refused 15\n")


def mend_cases():
    """Order 10."""
    for damaged in sorted(EXAMPLES.glob("*.damaged")):
        yield Case("mend 18944", damaged.read_bytes(), damaged.with_suffix(".mended").read_bytes(), damaged.with_suffix(".said").read_bytes())
    # "a block sent with a right check and one bit flipped, anywhere in the 4,096, comes out as sent": one in each block, the first bit to the last
    blocks = [(number, LONGEST[BLOCK * number : BLOCK * (number + 1)], 4095 * number // 36) for number in range(37)]
    arrived = b"".join(flipped(block, bit) for number, block, bit in blocks)
    yield Case("mend 18944", arrived, LONGEST, b"".join(b"block %d bit %d\n" % (number, bit) for number, block, bit in blocks))
    # "One whose check holds is kept"; "one with two flipped is never altered"
    yield Case("mend 18944", LONGEST, LONGEST)
    yield Case("mend 18944", flipped(flipped(LONGEST, 7), 4000), b"", b"block 0 not mended\n")
    # "13 as above; 16 output buffer shorter than the input, tested after 13, nothing written"
    for file in (b"", LONGEST[:511], LONGEST + LONGEST[:BLOCK]):
        yield Case("mend 0", file, b"", b"refused 13\n")
    yield Case("mend 18943", arrived, b"", b"refused 16\n")


def scan_cases():
    """What the examples of a scan are asked, in pieces of several sizes."""
    frames = (EXAMPLES / "frames.capture").read_bytes()
    for capture in (frames + bytes(30000) + frames, bytes(8195)):
        for words in SCANS:
            marker, tolerance, length = words.split()
            wanted = scan(capture, int(marker, 16), int(tolerance), int(length)).encode()
            for piece in PIECES:
                yield Case("%s %d" % (words, piece), capture, wanted)


def row_cases():
    """ "Equal, element by element, to the single operation. An empty row is fine. Refusals: 12 when the two rows differ in length or a row of halves is odd, nothing written."
    (order 6)"""
    given = (EXAMPLES / "frames.capture").read_bytes()
    for mode, size in (("row", 8), ("vectors", 16)):
        half = len(given) // (2 * size)
        for name, lane in ROWS.items():
            for first, second in ((half, half), (0, 0), (4, 6), (6, 4), (3, 3)):
                other = first if name == "popcnt" else second
                refused = 12 if first != other or mode == "row" and first % 2 else 0
                row, behind = given[: size * first], given[size * first :]
                left = row if refused else bytes(map(lane, row, behind))
                yield Case("%s %s %d %d" % (mode, name, first, other), given, left + behind, b"refused %d\n" % refused)


def cases():
    for of_a_function in (list_cases, held_cases, marker_cases, fold_cases, record_cases, replay_cases, mend_cases, row_cases):
        yield from of_a_function()
