"""Step lists, refused ones among them, made at random over all instructions: what compare/lists, leases, recordings, mending and texts run. Who wants the same
lists in every run sets random.seed."""

import itertools
import random
import struct

from calculator import LAYOUT, REPOSITORY, Step, joined, used_registers

# The refusals of a step, alone and as they can hold together. A number that has no step uses no field, so 2 stays alone.
FAULTS = [(2,), (3,), (4,), (5,), (6,), (3, 4), (3, 5), (3, 6), (4, 6), (3, 4, 6)]

# A shape whose lanes are as wide as a scalar of the kind.
SHAPES = {"i32": "i32x4", "i64": "i64x2", "f32": "f32x4", "f64": "f64x2"}

# Where lists that differ are kept, and how many.
KEPT, KEEP = REPOSITORY / "compare" / "out", 3


# Values.


def integer_corners(N):
    quarter, half, full = 2 ** (N - 2), 2 ** (N - 1), 2**N
    return [0, 1, 2, quarter, quarter + 1, half - 1, half, half + 1, full - 2, full - 1]


def signed_ends(N):
    return [2 ** (N - 1) - 1, 2 ** (N - 1)]


def float_corners(N):
    """Both signs of zero, of the ends of subnormals and normals, 1, infinity, and NaNs quiet and signalling with small and large payloads."""
    fraction_bits = {32: 23, 64: 52}[N]
    top, half = 2 ** (N - 1 - fraction_bits) - 1, 2 ** (fraction_bits - 1)
    signs = 0, 2 ** (N - 1)
    exponents = 0, 1, top // 2, top - 1, top
    fractions = 0, 1, half - 1, half, half + 1, 2 * half - 1
    return [sign + (exponent << fraction_bits) + fraction for sign in signs for exponent in exponents for fraction in fractions]


def float_quarters(N):
    """Floats that are whole numbers, halves and quarters, and those around the ends of the integers of 32 bits."""
    numbers = [quarter / 4 for quarter in range(-40, 41)] + [sign * (2.0**power + off) for sign in (1, -1) for power in (24, 31, 32) for off in (-1, -0.5, 0, 0.5, 1)]
    return [int.from_bytes(struct.pack({32: "<f", 64: "<d"}[N], number), "little") for number in numbers]


# What the lanes of a vector are chosen from, with their width: corner values, floats, places for swizzle, counts for shifts, single bits, any bits.
LANES = [(N, corners(N)) for N in (8, 16, 32, 64) for corners in (integer_corners, signed_ends)]
LANES += [(N, floats(N)) for N in (32, 64) for floats in (float_corners, float_quarters)]
LANES += [(8, range(32)), (32, range(130)), (128, [0] + [1 << i for i in range(128)]), (32, range(2**32))]


def vector_of(N, choices):
    return joined(N, [random.choice(choices) for _ in range(128 // N)]).to_bytes(16, "little")


def any_vector():
    return vector_of(*random.choice(LANES))


def any_indices():
    return bytes(random.randrange(32) for _ in range(16))


def any_byte():
    return random.randrange(256)


def any_register():
    return random.choice((random.randrange(16), any_byte()))


def not_below(limit):
    """A byte that is not below a limit, often the limit itself."""
    return random.choice((limit, 255, random.randrange(limit, 256)))


# Steps.


def any_step(number):
    """A step with this operation and anything in its fields."""
    return Step(
        operation=number,
        destination=any_register(),
        a=any_register(),
        b=any_register(),
        c=any_register(),
        lane=any_byte(),
        mark=random.choice((0, 1, 255)),
        ignored=random.randbytes(8),
        constant=any_vector(),
    )


def step_of(instruction, registers=16):
    """A step that no refusal but 6 can meet, with used registers below a number. The fields that are not used hold anything."""
    step = any_step(instruction.number)
    used = {field: random.randrange(registers) for field in used_registers(instruction)}
    constant = any_indices() if instruction.has_indices else step.constant
    return step._replace(lane=random.randrange(instruction.lane_count), constant=constant, **used)


def can_hold(instruction, faults):
    """Whether these refusals of a step can hold for an instruction."""
    possible = {3: True, 4: instruction.lane_count < 256, 5: instruction.has_indices, 6: instruction.reads != "-"}
    return all(possible[number] for number in faults)


def any_kind(instruction, wrong=False):
    """A kind of scalar that an instruction accepts, or one that it refuses."""
    return random.choice([kind for kind in SHAPES if (instruction.reads in ("-", kind)) != wrong])


def spoiled(instruction, faults):
    """A step for which exactly these of the refusals 3, 4 and 5 hold."""
    step = step_of(instruction)
    if 3 in faults:
        step = step._replace(**{random.choice(used_registers(instruction)): not_below(16)})
    if 4 in faults:
        step = step._replace(lane=not_below(instruction.lane_count))
    if 5 in faults:
        place = random.randrange(16)
        step = step._replace(constant=step.constant[:place] + bytes([not_below(32)]) + step.constant[place + 1 :])
    return step


def encoded(steps):
    return b"".join(LAYOUT.pack(*step) for step in steps)


# Lists.


class Maker:
    """Makes lists of steps over all instructions."""

    def __init__(self, instructions):
        self.all = list(instructions.values())
        self.by_name = {each.name: each for each in self.all}
        # From 256 on many would name an instruction if their high byte were not read.
        self.numbers_without_step = [number for number in range(512) if number not in instructions]
        self.const = self.by_name["v128.const"]
        # By the kind of the scalar: the instructions that do not refuse it. About a quarter is v128.const, so that the values stay mixed.
        self.accepting = {kind: [each for each in self.all if each.reads in ("-", kind)] + [self.const] * 60 for kind in SHAPES}

    def extract(self, kind, registers=16):
        """A step that leaves a scalar of this kind."""
        return step_of(self.by_name[SHAPES[kind] + ".extract_lane"], registers)

    def accepted(self, count):
        """So many steps, none of them refused."""
        steps, kind = [], "i32"
        for _ in range(count):
            instruction = random.choice(self.accepting[kind])
            steps.append(step_of(instruction))
            if instruction.gives != "vector":
                kind = instruction.gives
        return steps

    def in_view(self, instruction, N, choices):
        """Eight results of an instruction, each left in a register of its own, most of them for lanes of one choice."""
        constants = [vector_of(N, choices) for _ in range(6)] + [any_vector(), any_vector()]
        steps = [step_of(self.const)._replace(destination=register, constant=constant) for register, constant in enumerate(constants)]
        for register in range(8, 16):
            if instruction.reads != "-":
                steps.append(self.extract(instruction.reads, registers=8))
            steps.append(step_of(instruction, registers=8)._replace(destination=register))
            if instruction.gives != "vector":
                steps.append(step_of(self.by_name[SHAPES[instruction.gives] + ".splat"])._replace(destination=register))
        return steps

    def scalar_left(self, kind, value):
        """A list that leaves this scalar, so that it is written."""
        N = int(kind[1:])
        return [step_of(self.const)._replace(destination=0, constant=vector_of(N, [value])), self.extract(kind, registers=1)]

    def around(self, *steps):
        """Steps in the middle of a list; those after them show when the run goes on for too long."""
        return self.accepted(random.randrange(100)) + list(steps) + self.accepted(random.randrange(1, 100))

    def refused(self, faults):
        """A list with a step in its middle for which exactly these refusals hold."""
        if faults == (2,):
            return self.around(any_step(random.randrange(512, 65536)))
        instruction = random.choice([each for each in self.all if can_hold(each, faults)])
        return self.around(self.extract(any_kind(instruction, 6 in faults)), spoiled(instruction, faults))

    def refused_for_register(self, instruction, field, register):
        """A list with a step in its middle that names a register above 15."""
        return self.around(self.extract(any_kind(instruction)), step_of(instruction)._replace(**{field: register}))

    def of_length(self, length):
        """So many bytes of steps. In half of the lists the first would be refused with 2, and 1 comes before 2."""
        first = random.choice((step_of(self.const), any_step(self.numbers_without_step[0])))
        steps = encoded([first] + self.accepted(255))
        return (steps * (length // len(steps) + 1))[:length]

    def lists(self):
        for instruction, (N, choices) in itertools.product(self.all, LANES):
            yield encoded(self.in_view(instruction, N, choices))
        for kind, corners in itertools.product(SHAPES, (integer_corners, float_corners)):
            for value in corners(int(kind[1:])):
                yield encoded(self.scalar_left(kind, value))
        for count in range(257):
            yield encoded(self.accepted(count))
        for faults in FAULTS * 40:
            yield encoded(self.refused(faults))
        for number in self.numbers_without_step:
            yield encoded(self.around(any_step(number)))
        for instruction in self.all:
            # Each of the high bits alone.
            for field, register in itertools.product(used_registers(instruction), (16, 32, 64, 128)):
                yield encoded(self.refused_for_register(instruction, field, register))
        uneven = [32 * random.randrange(256) + random.randrange(1, 32) for _ in range(40)]
        for length in [*range(1, 32), *uneven, 8191, 8193, 8223, 8224, 8225, 8256, 16384, 65536, 100000]:
            yield self.of_length(length)
        for count in range(100):
            yield encoded(any_step(random.randrange(276)) for _ in range(count))
            yield random.randbytes(32 * count)


def remarked(data):
    """The list with every mark changed: 0 to 1 or 255, anything else to 0."""
    changed = bytearray(data)
    for place in range(7, len(data), 32):
        changed[place] = 0 if data[place] else random.choice((1, 255))
    return bytes(changed)


def counts(counter):
    return ", ".join("%s: %d" % each for each in sorted(counter.items()))
