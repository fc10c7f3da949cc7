"""A second calculator, written from document 01 ("The calculator (added)", "Lane rules"), document 02's orders and the standard's list of instruction
numbers.

It shares nothing with the crates. A vector is the number of its 128 bits; N is the width of a lane, as in the standard. What stands in quotation
marks is document 01, or document 02 where an order is named. `python3 compare/calculator.py < LIST` writes what the program `lanes` has to write for the
list, and with a place and a limit as arguments what the program `lease` has to write.

The list of instruction numbers is the file that the variable OPCODES names (default: standard/opcodes.tsv in ../shared beside the repository, or in
the folder that SHARED names).
"""

import csv
import math
import os
import re
import struct
import sys
from fractions import Fraction
from pathlib import Path
from typing import NamedTuple

REPOSITORY = Path(__file__).resolve().parent.parent


class Instruction(NamedTuple):
    """An instruction that has a calculator step."""

    number: int
    name: str
    # How many vectors it takes.
    sources: int
    # "Fields that an operation does not use are ignored": 256 there, which every byte is below.
    lane_count: int
    # The kind of the scalar that it reads, or "-".
    reads: str
    has_indices: bool
    # "vector", or the kind of the scalar that it sets.
    gives: str


# "0..1 operation, the standard's number after the 0xFD prefix; 2 destination; 3, 4, 5 sources a, b, c; 6 lane; 7 mark (0 lane by lane, anything else
# packed); [..] 12..15 ignored; 16..31 the constant of v128.const or the sixteen shuffle indices." "Bytes 8..11 are ignored." (order 2)
class Step(NamedTuple):
    operation: int
    destination: int
    a: int
    b: int
    c: int
    lane: int
    mark: int
    ignored: bytes
    constant: bytes


# "A step is 32 bytes"; "Numbers are little-endian."
LAYOUT = struct.Struct("<H6B8s16s")

# "The vector operands, in the standard's order, are a, b, c"
SOURCES = ("a", "b", "c")


# "State: 16 registers and one scalar." "Each register shall carry, beside its vector, the number of the step that last wrote it in this run, 1 to 256,
# or 0 if none." (order 1)
class State(NamedTuple):
    registers: tuple
    writers: tuple
    kind: str
    bits: int


# "starts from zero registers and scalar i32 0"
START = State((0,) * 16, (0,) * 16, "i32", 0)


class Ending(NamedTuple):
    state: State
    # "The count is the number of steps before the refused one, or all." "the smaller of the limit and the steps before a refusal or the end" (order 12)
    done: int
    # Every refusal that holds for the list or for the refused step, the one that is given first; none where neither is refused.
    refusals: list
    # Where it is paused, "counted from the list's start" (order 12), or None.
    paused: int = None


# What the list of instruction numbers says of an instruction that has a step: the document that gives it one. It tells the operands of document 01's; those
# of an order's take so many vectors and give one.
STEPS = {"document 01": None, "order 4": 2, "order 11": 2, "order 14": 1}

# "laneselect (as bitselect)" has a mask, and the second of "both dots" adds a third vector (order 11).
THREE_SOURCES = re.compile(r".*\.relaxed_(laneselect|dot_i8x16_i7x16_add_s)")


def read_instructions():
    """The instructions that have a calculator step, by their numbers."""
    shared = Path(os.environ.get("SHARED") or REPOSITORY.parent / "shared")
    path = Path(os.environ.get("OPCODES") or shared / "standard" / "opcodes.tsv")
    try:
        rows = csv.DictReader(path.read_text().splitlines(), delimiter="\t")
    except OSError as error:
        sys.exit("no list of instruction numbers (the variable OPCODES can name it): %s" % error)
    return {int(row["number"]): instruction_of(row) for row in rows if row.get("calculator step") in STEPS}


def instruction_of(row):
    sources = STEPS[row["calculator step"]]
    if THREE_SOURCES.fullmatch(row["name"]):
        sources = 3
    if sources is not None:
        return Instruction(int(row["number"]), row["name"], sources, 256, "-", False, "vector")
    return Instruction(
        number=int(row["number"]),
        name=row["name"],
        sources=int(row["vector sources"]),
        lane_count=256 if row["lane count"] == "-" else int(row["lane count"]),
        # "a shift step with a scalar that is not i32 gives 6" (order 2)
        reads="i32" if row["count field"] == "step" else row["scalar read"],
        has_indices=row["constant field"] == "indices",
        gives=row["result"].removeprefix("scalar "),
    )


# Lanes.


def lanes(N, vector):
    # "Lane i of width w bits is bits w·i to w·i+w−1."
    return [(vector >> (N * i)) % 2**N for i in range(128 // N)]


def joined(N, numbers):
    """The vector of these lanes, each taken modulo 2^N."""
    return sum((number % 2**N) << (N * i) for i, number in enumerate(numbers))


def signed(N, i):
    return i if i < 2 ** (N - 1) else i - 2**N


def sat_u(N, i):
    return min(max(i, 0), 2**N - 1)


def sat_s(N, i):
    return min(max(i, -(2 ** (N - 1))), 2 ** (N - 1) - 1)


def truth(holds):
    # "Comparison: all ones or all zeros." Modulo 2^N, -1 is all ones.
    return -1 if holds else 0


def float_of(N, bits):
    # Python compares floats as the standard does: "With a NaN only "not equal" is true. −0 equals +0."
    return struct.unpack({32: "<f", 64: "<d"}[N], bits.to_bytes(N // 8, "little"))[0]


# Floats. A pattern of N bits is a sign, a field for the exponent and M digits; a finite one is a sign and a fraction of whole numbers.

DIGITS = {32: 23, 64: 52}

# "here every NaN result is the positive quiet one" (order 4)
NAN = {32: 0x7FC00000, 64: 0x7FF8000000000000}


def bias(N):
    return 2 ** (N - DIGITS[N] - 2) - 1


def infinity(N):
    return (2 * bias(N) + 1) << DIGITS[N]


def magnitude(N, z):
    return z % 2 ** (N - 1)


def is_negative(N, z):
    return z >= 2 ** (N - 1)


def is_nan(N, z):
    return magnitude(N, z) > infinity(N)


def is_infinite(N, z):
    return magnitude(N, z) == infinity(N)


def size(N, z):
    """The magnitude of a finite pattern, as a fraction."""
    M = DIGITS[N]
    field, digits = magnitude(N, z) >> M, z % 2**M
    return Fraction(digits + (2**M if field else 0)) * Fraction(2) ** (max(field, 1) - bias(N) - M)


def exact(N, z):
    """The number that a finite pattern stands for."""
    return -size(N, z) if is_negative(N, z) else size(N, z)


def with_sign(N, negative, z):
    return z + negative * 2 ** (N - 1)


def rounded(N, negative, number):
    """The pattern nearest to a number of this sign and magnitude, a tie to the even one."""
    if number == 0:
        return with_sign(N, negative, 0)
    M = DIGITS[N]
    power = number.numerator.bit_length() - number.denominator.bit_length()
    power -= Fraction(2) ** power > number
    power = max(power, 1 - bias(N))
    # Python rounds a fraction to the even neighbour at a tie. Patterns stand in the order of their numbers, so a carry runs on into the field.
    digits = round(number / Fraction(2) ** (power - M))
    return with_sign(N, negative, min(digits + ((power + bias(N) - 1) << M), infinity(N)))


def fadd(N, z1, z2):
    if is_nan(N, z1) or is_nan(N, z2):
        return NAN[N]
    signs = is_negative(N, z1), is_negative(N, z2)
    if is_infinite(N, z1) or is_infinite(N, z2):
        if is_infinite(N, z1) and is_infinite(N, z2) and signs[0] != signs[1]:
            return NAN[N]
        return z1 if is_infinite(N, z1) else z2
    total = exact(N, z1) + exact(N, z2)
    # The sum of zeros of one sign has it; any other sum that is zero is +0.
    return rounded(N, total < 0 or (total == 0 and all(signs)), abs(total))


def fmul(N, z1, z2):
    negative = is_negative(N, z1) != is_negative(N, z2)
    if is_nan(N, z1) or is_nan(N, z2):
        return NAN[N]
    if is_infinite(N, z1) or is_infinite(N, z2):
        return NAN[N] if 0 in (magnitude(N, z1), magnitude(N, z2)) else with_sign(N, negative, infinity(N))
    return rounded(N, negative, size(N, z1) * size(N, z2))


def fdiv(N, z1, z2):
    negative = is_negative(N, z1) != is_negative(N, z2)
    if is_nan(N, z1) or is_nan(N, z2) or (is_infinite(N, z1) and is_infinite(N, z2)) or (magnitude(N, z1) == magnitude(N, z2) == 0):
        return NAN[N]
    if is_infinite(N, z1) or magnitude(N, z2) == 0:
        return with_sign(N, negative, infinity(N))
    if is_infinite(N, z2):
        return with_sign(N, negative, 0)
    return rounded(N, negative, size(N, z1) / size(N, z2))


def place(N, z):
    """The place of a number that is no NaN, "−0 below +0" (order 4)."""
    return -magnitude(N, z) - 1 if is_negative(N, z) else magnitude(N, z)


def chosen(N, choose, z1, z2):
    # "give NaN if either input is one" (order 4)
    if is_nan(N, z1) or is_nan(N, z2):
        return NAN[N]
    return choose(z1, z2, key=lambda z: place(N, z))


def integral(N, direction, z):
    """A float rounded to a whole number; the sign stays, of a result that is zero too."""
    if is_nan(N, z):
        return NAN[N]
    if is_infinite(N, z):
        return z
    return rounded(N, is_negative(N, z), Fraction(abs(direction(exact(N, z)))))


def cast(M, N, z):
    """The number of a pattern of M bits, rounded to N bits."""
    if is_nan(M, z):
        return NAN[N]
    if is_infinite(M, z):
        return with_sign(N, is_negative(M, z), infinity(N))
    return rounded(N, is_negative(M, z), size(M, z))


def truncated(M, N, hold, z):
    """A float of M bits cut toward zero and held to a range of N bits: "NaN gives 0" (order 14)."""
    if is_nan(M, z):
        return 0
    if is_infinite(M, z):
        return hold(N, -(2**N) if is_negative(M, z) else 2**N)
    return hold(N, math.trunc(exact(M, z)))


# What the instructions make of one lane of each source. `joined` takes the result modulo 2^N.
INTEGER = {
    # "Add, subtract, multiply, negate, abs: modulo 2^w. Abs of −128 in 8 bits is −128."
    "add": lambda N, i1, i2: i1 + i2,
    "sub": lambda N, i1, i2: i1 - i2,
    "mul": lambda N, i1, i2: i1 * i2,
    "neg": lambda N, i: -i,
    "abs": lambda N, i: abs(signed(N, i)),
    # "Saturating: the exact sum or difference, held to the signed or unsigned range (8 and 16 bits only)."
    "add_sat_s": lambda N, i1, i2: sat_s(N, signed(N, i1) + signed(N, i2)),
    "add_sat_u": lambda N, i1, i2: sat_u(N, i1 + i2),
    "sub_sat_s": lambda N, i1, i2: sat_s(N, signed(N, i1) - signed(N, i2)),
    "sub_sat_u": lambda N, i1, i2: sat_u(N, i1 - i2),
    "min_s": lambda N, i1, i2: min(signed(N, i1), signed(N, i2)),
    "min_u": lambda N, i1, i2: min(i1, i2),
    "max_s": lambda N, i1, i2: max(signed(N, i1), signed(N, i2)),
    "max_u": lambda N, i1, i2: max(i1, i2),
    # "Average: (a + b + 1) divided by 2, rounded down, unsigned, 8 and 16 bits."
    "avgr_u": lambda N, i1, i2: (i1 + i2 + 1) // 2,
    # "q15mulr: the floor of (x·y + 16384) / 32768, held to −32768..32767."
    "q15mulr_sat_s": lambda N, i1, i2: sat_s(N, (signed(N, i1) * signed(N, i2) + 16384) // 32768),
    # "popcnt counts the one bits of each 8-bit lane."
    "popcnt": lambda N, i: bin(i).count("1"),
    "eq": lambda N, i1, i2: truth(i1 == i2),
    "ne": lambda N, i1, i2: truth(i1 != i2),
    "lt_s": lambda N, i1, i2: truth(signed(N, i1) < signed(N, i2)),
    "lt_u": lambda N, i1, i2: truth(i1 < i2),
    "gt_s": lambda N, i1, i2: truth(signed(N, i1) > signed(N, i2)),
    "gt_u": lambda N, i1, i2: truth(i1 > i2),
    "le_s": lambda N, i1, i2: truth(signed(N, i1) <= signed(N, i2)),
    "le_u": lambda N, i1, i2: truth(i1 <= i2),
    "ge_s": lambda N, i1, i2: truth(signed(N, i1) >= signed(N, i2)),
    "ge_u": lambda N, i1, i2: truth(i1 >= i2),
}

FLOAT = {
    # "Float neg and abs touch the sign bit only, of a NaN too."
    "neg": lambda N, z: z ^ 2 ** (N - 1),
    "abs": lambda N, z: z % 2 ** (N - 1),
    "eq": lambda N, z1, z2: truth(float_of(N, z1) == float_of(N, z2)),
    "ne": lambda N, z1, z2: truth(float_of(N, z1) != float_of(N, z2)),
    "lt": lambda N, z1, z2: truth(float_of(N, z1) < float_of(N, z2)),
    "gt": lambda N, z1, z2: truth(float_of(N, z1) > float_of(N, z2)),
    "le": lambda N, z1, z2: truth(float_of(N, z1) <= float_of(N, z2)),
    "ge": lambda N, z1, z2: truth(float_of(N, z1) >= float_of(N, z2)),
    # "pmin is b where b < a, else a. pmax is b where a < b, else a. Result bits are those of the chosen lane."
    "pmin": lambda N, z1, z2: z2 if float_of(N, z2) < float_of(N, z1) else z1,
    "pmax": lambda N, z1, z2: z2 if float_of(N, z1) < float_of(N, z2) else z1,
    "add": fadd,
    "sub": lambda N, z1, z2: fadd(N, z1, z2 ^ 2 ** (N - 1)),
    "mul": fmul,
    "div": fdiv,
    "min": lambda N, z1, z2: chosen(N, min, z1, z2),
    "max": lambda N, z1, z2: chosen(N, max, z1, z2),
    # "ceil, floor, trunc and nearest" (order 14)
    "ceil": lambda N, z: integral(N, math.ceil, z),
    "floor": lambda N, z: integral(N, math.floor, z),
    "trunc": lambda N, z: integral(N, math.trunc, z),
    "nearest": lambda N, z: integral(N, round, z),
}

# "Shift: the count is taken modulo the lane width [by the caller]. shr_s is the floor of the signed lane over 2^count."
SHIFT = {
    "shl": lambda N, i, count: i << count,
    "shr_u": lambda N, i, count: i >> count,
    "shr_s": lambda N, i, count: signed(N, i) // 2**count,
}

# What the instructions of shape v128 make of all 128 bits at once.
WHOLE = {
    "not": lambda i: ~i % 2**128,
    "and": lambda i1, i2: i1 & i2,
    "andnot": lambda i1, i2: i1 & ~i2,
    "or": lambda i1, i2: i1 | i2,
    "xor": lambda i1, i2: i1 ^ i2,
    # "bitselect takes its mask from c"
    "bitselect": lambda i1, i2, mask: (i1 & mask) | (i2 & ~mask),
    "any_true": lambda i: int(i != 0),
}

# An instruction that reads lanes of another width than it gives: the action, the width and the sign of the lanes that it reads.
OTHER_WIDTH = re.compile(r"(narrow|extend_low|extend_high|extmul_low|extmul_high|extadd_pairwise|dot)_i(\d+)x\d+_([su])")


def from_other_width(N, action, M, sign, vectors):
    """The lanes of N bits that come of lanes of M bits."""
    if action == "narrow":
        # "Narrowing reads input lanes as signed for both kinds, then holds them to the signed or the unsigned range. The first vector gives the low
        # lanes."
        hold = {"s": sat_s, "u": sat_u}[sign]
        return [hold(N, signed(M, i)) for vector in vectors for i in lanes(M, vector)]
    operands = [[signed(M, i) if sign == "s" else i for i in lanes(M, vector)] for vector in vectors]
    # "Extend and extended multiply take the low or high half of the lanes; the products are exact."
    if action.endswith("_low"):
        operands = [operand[: 64 // M] for operand in operands]
    if action.endswith("_high"):
        operands = [operand[64 // M :] for operand in operands]
    # Of a single operand these are its lanes.
    products = [math.prod(factors) for factors in zip(*operands)]
    if action in ("extadd_pairwise", "dot"):
        # "Dot: lane i is x(2i)·y(2i) + x(2i+1)·y(2i+1) modulo 2^32, signed."
        return [low + high for low, high in zip(products[0::2], products[1::2])]
    return products


# An instruction that reads lanes of another format than it gives: the action, the width of the lanes that it reads, and the sign.
OTHER_FORMAT = re.compile(r"(trunc_sat|convert|convert_low|demote|promote_low)_[if](\d+)x\d+(?:_([su]))?(?:_zero)?")


def from_other_format(N, action, M, sign, vector):
    """The lanes of N bits that come of lanes of M bits in another format (order 14). Where there are fewer, the upper ones are zero."""
    taken = lanes(M, vector)[: 128 // N]
    if action == "trunc_sat":
        return [truncated(M, N, {"s": sat_s, "u": sat_u}[sign], z) for z in taken]
    if action.startswith("convert"):
        numbers = [signed(M, i) if sign == "s" else i for i in taken]
        return [rounded(N, number < 0, Fraction(abs(number))) for number in numbers]
    return [cast(M, N, z) for z in taken]


# "each as the Rust chooses: the plain operation" (order 11)
PLAIN = {"relaxed_swizzle": "swizzle", "relaxed_q15mulr_s": "q15mulr_sat_s", "relaxed_min": "min", "relaxed_max": "max"}


def relaxed_dot(a, b):
    """The signed 16-bit lanes of a relaxed dot: "signed bytes with sums modulo 2^16" (order 11)."""
    products = [signed(8, i1) * signed(8, i2) for i1, i2 in zip(lanes(8, a), lanes(8, b))]
    return [signed(16, (low + high) % 2**16) for low, high in zip(products[0::2], products[1::2])]


def new_lanes(N, shape, operation, step, bits, vectors):
    """The lanes that an instruction gives, of a shape with lanes of N bits."""
    operation = PLAIN.get(operation, operation)
    if operation == "splat":
        # "For 8- and 16-bit lanes the low bits of an i32 are used."
        return [bits] * (128 // N)
    if operation == "replace_lane":
        replaced = lanes(N, vectors[0])
        replaced[step.lane] = bits
        return replaced
    if operation == "shuffle":
        # "Shuffle: indices 0 to 15 name the first vector, 16 to 31 the second."
        both = lanes(8, vectors[0]) + lanes(8, vectors[1])
        return [both[index] for index in step.constant]
    if operation == "swizzle":
        # "Swizzle: an index of 16 to 255 gives 0."
        padded = lanes(8, vectors[0]) + [0] * 240
        return [padded[index] for index in lanes(8, vectors[1])]
    if operation == "relaxed_laneselect":
        # "laneselect (as bitselect)" (order 11)
        return lanes(N, WHOLE["bitselect"](*vectors))
    if operation == "relaxed_dot_i8x16_i7x16_s":
        return relaxed_dot(*vectors)
    if operation == "relaxed_dot_i8x16_i7x16_add_s":
        sums = relaxed_dot(*vectors[:2])
        return [low + high + i for low, high, i in zip(sums[0::2], sums[1::2], lanes(32, vectors[2]))]
    if operation in SHIFT:
        # "shift steps take [the count] from the scalar, read as unsigned 32 bits" (order 2)
        return [SHIFT[operation](N, i, bits % N) for i in lanes(N, vectors[0])]
    other = OTHER_WIDTH.fullmatch(operation)
    if other:
        return from_other_width(N, other[1], int(other[2]), other[3], vectors)
    other = OTHER_FORMAT.fullmatch(operation)
    if other:
        return from_other_format(N, other[1], int(other[2]), other[3], vectors[0])
    lane_operation = (FLOAT if shape[0] == "f" else INTEGER)[operation]
    return [lane_operation(N, *operands) for operands in zip(*(lanes(N, vector) for vector in vectors))]


def new_scalar(N, operation, step, vector):
    """The bits of the scalar that an instruction sets, of a shape with lanes of N bits."""
    if operation == "all_true":
        return int(all(lanes(N, vector)))
    if operation == "bitmask":
        # "Bitmask: bit i is the sign bit of lane i, all higher bits zero."
        return joined(1, [i >> (N - 1) for i in lanes(N, vector)])
    extracted = lanes(N, vector)[step.lane]
    return signed(N, extracted) % 2**32 if operation == "extract_lane_s" else extracted


def result(instruction, step, state):
    """The vector, or the bits of the scalar, that an instruction gives."""
    shape, operation = instruction.name.split(".")
    vectors = [state.registers[getattr(step, source)] for source in SOURCES[: instruction.sources]]
    if operation == "const":
        return int.from_bytes(step.constant, "little")
    if shape == "v128":
        return WHOLE[operation](*vectors)
    N = int(shape[1:].split("x")[0])
    if instruction.gives == "vector":
        return joined(N, new_lanes(N, shape, operation, step, state.bits, vectors))
    return new_scalar(N, operation, step, vectors[0])


# Steps.


def used_registers(instruction):
    """The fields of a step that name a register."""
    # "The destination is used only where the result is a vector."
    destination = ("destination",) if instruction.gives == "vector" else ()
    return SOURCES[: instruction.sources] + destination


def refusals(instruction, step, kind):
    """The refusals that hold for a step while the scalar is of this kind, lowest first: "Checked in the order 1 to 7"."""
    if instruction is None:
        # "operation number without a calculator step: not carried over, a load or a store, or no instruction"
        return [2]
    held = {
        # "a used register number above 15"
        3: any(getattr(step, field) > 15 for field in used_registers(instruction)),
        # "lane not below the lane count"
        4: step.lane >= instruction.lane_count,
        # "a shuffle index above 31"
        5: instruction.has_indices and max(step.constant) > 31,
        # "scalar of the wrong kind"
        6: instruction.reads not in ("-", kind),
    }
    return [number for number, holds in held.items() if holds]


def after(instruction, step, number, state):
    """The state after a step that is not refused, the list's first being number 1."""
    given = result(instruction, step, state)
    if instruction.gives != "vector":
        return state._replace(kind=instruction.gives, bits=given)
    registers, writers = list(state.registers), list(state.writers)
    registers[step.destination] = given
    writers[step.destination] = number
    return state._replace(registers=tuple(registers), writers=tuple(writers))


def list_refusals(data, place, limit):
    """The refusals that hold for a list, the one that is given first: "17 limit above 256, tested before 1; 19 [..] tested after 1" (order 12)."""
    held = {
        17: limit > 256,
        # "list length not a multiple of 32, or above 8,192"
        1: len(data) % 32 != 0 or len(data) > 8192,
        # "a place to take up from that is above the list's number of steps"
        19: place > len(data) // 32,
    }
    return [number for number, holds in held.items() if holds]


def run(instructions, data, place=0, limit=256, state=START):
    """What a list leaves that is taken up at a place under a limit (order 12)."""
    refused = list_refusals(data, place, limit)
    if refused:
        # "0 steps, state as given"; "with either, nothing done"
        return Ending(state, 0, refused)
    if place == 0:
        # "A run resets all of them to 0 as it starts" (order 1); "taking up above place 0 does not reset them" (order 12)
        state = state._replace(writers=(0,) * 16)
    steps = [Step(*fields) for fields in LAYOUT.iter_unpack(data)]
    for at in range(place, len(steps)):
        if at - place == limit:
            return Ending(state, at - place, [], at)
        found = instructions.get(steps[at].operation)
        refused = refusals(found, steps[at], state.kind)
        if refused:
            return Ending(state, at - place, refused)
        state = after(found, steps[at], at + 1, state)
    # "a list with no step left has ended"
    return Ending(state, len(steps) - place, [])


def leased(instructions, data, place, limit):
    """What the program `lease` writes: a line for each call, then the listing with the counts added up."""
    written, done, state = "", 0, START
    while True:
        ending = run(instructions, data, place, limit, state)
        done += ending.done
        state = ending.state
        if ending.refusals:
            how = "refused %d" % ending.refusals[0]
        else:
            how = "ended" if ending.paused is None else "paused %d" % ending.paused
        written += "steps %d %s\n" % (ending.done, how)
        if ending.paused is None or limit == 0:
            return written + listing(ending._replace(done=done))
        place = ending.paused


def listing(ending):
    """What the program writes."""
    registers, writers, kind, bits = ending.state
    # "`steps` and the count; one line for each register that is not all zero, lowest number first (`r` and two decimal digits, a space, then 16
    # bytes in hex, byte 0 first); `s`, the kind and the bits in hex, highest digit first, 8 or 16 digits; `refused` and the number." The step's number "in
    # decimal at the end of each register line, after a space" (order 1).
    written = ["steps %d" % ending.done]
    for number, (vector, writer) in enumerate(zip(registers, writers)):
        if vector:
            written.append("r%02d %s %d" % (number, vector.to_bytes(16, "little").hex(), writer))
    written += ["s %s %0*x" % (kind, int(kind[1:]) // 4, bits)]
    written += ["refused %d" % (ending.refusals[0] if ending.refusals else 0)]
    return "\n".join(written) + "\n"


if __name__ == "__main__":
    numbers = [int(argument) for argument in sys.argv[1:]]
    written = leased(read_instructions(), sys.stdin.buffer.read(), *numbers) if numbers else listing(run(read_instructions(), sys.stdin.buffer.read()))
    sys.stdout.write(written)
