"""What an exported function does, in words, for link/header. The promise's formula stands after them in the header; these explain it and promise nothing."""
import re

LANES = {
    "i8x16": "sixteen 8-bit lanes", "i16x8": "eight 16-bit lanes", "i32x4": "four 32-bit lanes", "i64x2": "two 64-bit lanes",
    "f32x4": "four float lanes", "f64x2": "two double lanes",
}

SIGNS = {"s": "signed", "u": "unsigned", None: ""}

# By a pattern of the name behind the prefix. T stands for a shape of lanes, which {T} names in words and {T2} where it is the second; {sign} is signed or
# unsigned by the name's ending.
RULES = [
    (r"T_splat", "Every one of the {T} is the lowest bits of the number, as many as a lane has."),
    (r"T_extract_lane(?:_([su]))?", "The lane at a number of {T}, {as_sign}as its bits."),
    (r"T_replace_lane", "The vector with one of its {T} replaced by the bits."),
    (r"T_shuffle", "Sixteen bytes picked from two vectors: indices 0 to 15 name the bytes of the first, 16 to 31 those of the second."),
    (r"T_swizzle", "The bytes of the first vector picked by those of the second; an index of 16 or more gives 0."),
    (r"T_relaxed_swizzle", "As i8x16_swizzle."),
    (r"T_add", "The sums of {T}{wraps}."),
    (r"T_sub", "The differences, first minus second, of {T}{wraps}."),
    (r"T_mul", "The products of {T}{wraps}."),
    (r"T_div", "The quotients, first by second, of {T}{wraps}."),
    (r"T_neg", "The negations of {T}{negates}."),
    (r"T_abs", "The absolute values of {T}{absolutes}."),
    (r"T_popcnt", "How many bits are one, in each of {T}."),
    (r"T_(add|sub)_sat_([su])", "The {sat} of {T}, {sign}, held to the range."),
    (r"T_(min|max)_([su])", "The {least} of each two of {T}, {sign}."),
    (r"T_(min|max)", "The {least} of each two of {T}; -0 is below +0, and a NaN on either side gives the positive quiet NaN."),
    (r"T_relaxed_(min|max)", "As the one without relaxed."),
    (r"T_p(min|max)", "Of each two of {T} the second where it is {beyond} than the first, else the first, bit for bit."),
    (r"T_avgr_u", "(a + b + 1) / 2 of each two of {T}, unsigned, rounded down."),
    (r"T_q15mulr_sat_s", "(a * b + 16384) / 32768, rounded down, of each two of {T}, signed, held to -32768 to 32767."),
    (r"T_relaxed_q15mulr_s", "As i16x8_q15mulr_sat_s."),
    (r"T_(eq|ne|lt|le|gt|ge)(?:_([su]))?", "All ones in each of {T} where the first is {relation} the second{by_sign}, else zeros."),
    (r"T_shl", "Each of {T} shifted left by the count modulo the lane's width."),
    (r"T_shr_([su])", "Each of {T} shifted right by the count modulo the lane's width; {fill} come in."),
    (r"v128_and", "Bitwise and."),
    (r"v128_or", "Bitwise or."),
    (r"v128_xor", "Bitwise exclusive or."),
    (r"v128_andnot", "The bits of the first that the second has not."),
    (r"v128_not", "Every bit flipped."),
    (r"v128_bitselect", "A bit of the first where the third has a one there, else the second's."),
    (r"T_relaxed_laneselect", "As v128_bitselect."),
    (r"v128_any_true", "Whether any bit is one."),
    (r"T_all_true", "Whether none of {T} is zero."),
    (r"T_bitmask", "Bit i is the top bit of lane i of {T}."),
    (r"T_extend_(low|high)_T_([su])", "The {half} half of {T2}, {sign}, each widened to twice its bits."),
    (r"T_extmul_(low|high)_T_([su])", "The exact products of the {half} halves of {T2}, {sign}, in {T}."),
    (r"T_extadd_pairwise_T_([su])", "The exact sums of neighbours among {T2}, {sign}, in {T}."),
    (r"T_narrow_T_([su])", "The {T2} of both vectors, read as signed, held to the {sign} range of half their bits; the first vector gives the low lanes."),
    (r"T_dot_T_s", "The sums of two neighbouring products of {T2}, signed, modulo 2^32."),
    (r"T_relaxed_dot_T_i7x16_s", "The sums of two neighbouring products of {T2}, signed, modulo 2^16."),
    (r"T_relaxed_dot_T_i7x16_add_s", "The sums of four neighbouring products of {T2}, signed, each two modulo 2^16, and of the third vector's lane, modulo 2^32."),
    (r"T_(ceil|floor|trunc|nearest)", "{T} rounded to whole numbers: {toward}."),
    (r"T_convert_T_([su])", "The {T2}, {sign}, as floats, the nearest, ties to even."),
    (r"T_convert_low_T_([su])", "The low two of {T2}, {sign}, as doubles."),
    (r"T_trunc_sat_T_([su])", "The {T2} without their fractions as {sign} integers, held to the range; a NaN gives 0."),
    (r"T_trunc_sat_T_([su])_zero", "The {T2} without their fractions as {sign} integers, held to the range, and two zeros above; a NaN gives 0."),
    (r"T_promote_low_T", "The low two of {T2} as doubles."),
    (r"T_demote_T_zero", "The {T2} as floats, the nearest, ties to even, and two zeros above."),
    (r"v128_low(\d+)_zero", "The number in the low bits, and zeros above."),
    (r"v128_widen(\d+)x(\d)_([su])", "The {2} lanes of {1} bits in the number, {sign}, each widened to twice its bits."),
    (r"v128_load(_at)?", "Sixteen bytes, low byte first."),
    (r"v128_load(\d+)_zero(_at)?", "{1} bits, low byte first, and zeros above."),
    (r"v128_load(\d+)_splat(_at)?", "{1} bits, low byte first, in every lane."),
    (r"v128_load(\d+)x(\d)_([su])(_at)?", "Eight bytes as {2} lanes of {1} bits, {sign}, each widened to twice its bits."),
    (r"v128_load(\d+)_lane(_at)?", "The vector with the lane at a number replaced by {1} bits of the memory."),
    (r"v128_store(_at)?", "Writes the vector as sixteen bytes, low byte first."),
    (r"v128_store(\d+)_lane(_at)?", "Writes the lane of {1} bits at a number, low byte first."),
]

WORDS = {
    "min": "smaller", "max": "larger", "low": "low", "high": "high", "ceil": "up", "floor": "down", "trunc": "toward zero", "nearest": "to the nearest, ties to even",
    "eq": "equal to", "ne": "not equal to", "lt": "less than", "le": "at most", "gt": "greater than", "ge": "at least", "add": "sums", "sub": "differences",
}

# Before the words, by the prefix.
PREFIXES = {
    "packed_": "By the packed form. ", "value_": "The vector alone, 0 where it is refused. ", "row_": "Of a whole row, in place. ", "vector_row_": "Of a whole row, in place. ",
}


def is_float(shape):
    return shape.startswith("f")


def filled(text, shapes, groups):
    shape = shapes[0] if shapes else ""
    sign = next((SIGNS[g] for g in groups if g in ("s", "u")), "")
    word = next((WORDS[g] for g in groups if g in WORDS), "")
    modulo = "" if not shape or is_float(shape) else ", modulo 2^" + shape[1 : shape.index("x")]
    return text.format(
        *[""] + [g or "" for g in groups],
        T=LANES.get(shape, ""),
        T2=LANES.get(shapes[-1], "") if shapes else "",
        sign=sign,
        as_sign=sign + ", " if sign else "",
        by_sign=", read as " + sign if sign else "",
        wraps=", each rounded once; a NaN is the positive quiet one" if is_float(shape) else modulo,
        negates=", which flips the sign bit alone" if is_float(shape) else modulo,
        absolutes=", which clears the sign bit alone" if is_float(shape) else modulo,
        sat=word, least=word, beyond=word, relation=word, toward=word, half=word,
        fill="copies of the top bit" if sign == "signed" else "zeros",
    )


def words(name):
    """The sentence of a function's name behind gatulefo_."""
    prefix = next((p for p in sorted(PREFIXES, key=len, reverse=True) if name.startswith(p)), "")
    bare = name.removeprefix(prefix)
    shapes = re.findall(r"[if]\d+x\d+", re.sub(r"i7x16|v128_\w+", "", bare))
    plain = re.sub(r"(?<![a-z0-9])(i8x16|i16x8|i32x4|i64x2|f32x4|f64x2)", "T", bare)
    for pattern, text in RULES:
        found = re.fullmatch(pattern, plain)
        if found:
            said = filled(text, shapes, found.groups())
            return PREFIXES.get(prefix, "") + said[0].upper() + said[1:]
    raise SystemExit("link/words: no words for gatulefo_" + name)
