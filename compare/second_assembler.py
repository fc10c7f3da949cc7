"""A second assembler and disassembler of step lists, written from the grammar of docs/GUIDE.md in another language. Which operations there are, and what each
takes, comes from the published test suite's rows (asserts.tsv) and the standard's list of numbers (opcodes.tsv), in ../shared beside the repository or in the
folder that the variable SHARED names."""
import os, re
from pathlib import Path

SHARED = Path(os.environ.get("SHARED") or Path(__file__).resolve().parent.parent.parent / "shared")
REASONS = {
    1: "no such name",
    2: "register expected, r0 to r15",
    3: "lane expected, 0 to 255",
    4: "byte expected, two hex digits",
    5: "mark expected, 1 to 255",
    6: "too much on the line",
    7: "above 256 steps",
    8: "above 65536 bytes",
}
BLANK = rb"[ \t\r]"
REGISTER, NUMBER, BYTE = (re.compile(BLANK + b"*" + word) for word in (rb"r([0-9]+)(?=[ \t\r]|$)", rb"([0-9]+)(?=[ \t\r]|$)", rb"([0-9a-fA-F]{2})"))
PACKED = re.compile(BLANK + rb"+packed(?=[ \t\r]|$)")


def operations():
    """By name: the number, and the places of the step's bytes that its line has: registers, lanes, bytes."""
    found = {}
    for row in open(SHARED / "suite" / "asserts.tsv"):
        row = row.rstrip("\n").split("\t")
        name, number, lane, immediate, vectors, result, pointer = row[1], int(row[2]), row[3], row[4], row[5:8], row[9], row[10]
        if pointer != "-":
            found[name] = (number, [], [], [])
            continue
        sources = 3 - vectors.count("-")
        scalar = re.match("[if](32|64):", result)
        registers = list(range(3 if scalar else 2, 3 + sources))
        found[name] = (number, registers, [6] if lane != "-" else [], list(range(16, 32)) if immediate != "-" else [])
    return found


OPERATIONS = operations()
NAMES = {form[0]: name for name, form in OPERATIONS.items()}


def step_of(statement):
    """The step of a statement, as 32 bytes; or the number of a reason."""
    word = re.match(rb"[^ \t\r]*", statement)[0]
    at, step = len(word), bytearray(32)

    def take(pattern, places, low, high, base, reason):
        nonlocal at
        for place in places:
            found = pattern.match(statement, at)
            if not found or not low <= int(found[1], base) <= high:
                return reason
            step[place], at = int(found[1], base), found.end()

    if word == b"step":
        wrong = take(BYTE, range(32), 0, 255, 16, 4)
        return wrong or (6 if statement[at:].strip(b" \t\r") else step)
    if word.decode("latin-1") not in OPERATIONS:
        return 1
    number, registers, lanes, constant = OPERATIONS[word.decode()]
    step[0:2] = number.to_bytes(2, "little")
    wrong = take(REGISTER, registers, 0, 15, 10, 2) or take(NUMBER, lanes, 0, 255, 10, 3) or take(BYTE, constant, 0, 255, 16, 4)
    if wrong:
        return wrong
    packed = PACKED.match(statement, at)
    if packed:
        at, step[7] = packed.end(), 1
        if statement[at:].strip(b" \t\r"):
            wrong = take(NUMBER, [7], 1, 255, 10, 5)
    return wrong or (6 if statement[at:].strip(b" \t\r") else step)


def complaint(line, reason):
    return b"assemble: line %d: %s\n" % (line, REASONS[reason].encode())


def assemble(text):
    """What `assemble` writes to standard output and to standard error."""
    if len(text) > 65536:
        return b"", complaint(text[:65536].count(b"\n") + 1, 8)
    steps = []
    for line, words in enumerate(text.split(b"\n"), 1):
        statement = re.split(rb"#|;;", words, maxsplit=1)[0].strip(b" \t\r")
        if not statement:
            continue
        step = step_of(statement)
        if isinstance(step, int):
            return b"", complaint(line, step)
        if len(steps) == 256:
            return b"", complaint(line, 7)
        steps.append(bytes(step))
    return b"".join(steps), b""


def grouped(part):
    return b"".join(b" " + part[at : at + 4].hex().encode() for at in range(0, len(part), 4))


def line_of(step):
    """The plain line where the number has a name, its registers are at most 15 and every byte that it does not use is 0; else the whole step."""
    number = int.from_bytes(step[:2], "little")
    if number in NAMES:
        _, registers, lanes, constant = OPERATIONS[NAMES[number]]
        used = {0, 1, 7, *registers, *lanes, *constant}
        if all(step[place] <= 15 for place in registers) and not any(step[place] for place in range(32) if place not in used):
            words = NAMES[number].encode() + b"".join(b" r%d" % step[place] for place in registers) + b"".join(b" %d" % step[place] for place in lanes)
            mark = b"" if step[7] == 0 else b" packed" if step[7] == 1 else b" packed %d" % step[7]
            return words + (grouped(step[16:]) if constant else b"") + mark
    return b"step" + grouped(step)


def disassemble(data):
    """What `disassemble` writes to standard output and to standard error."""
    if len(data) % 32 or len(data) > 8192:
        return b"", b"refused 1\n"
    return b"".join(b"%s # %d\n" % (line_of(data[at : at + 32]).ljust(64), at // 32 + 1) for at in range(0, len(data), 32)), b""
