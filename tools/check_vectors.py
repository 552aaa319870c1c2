#!/usr/bin/env python3
"""Works the answers of crates/vectors/stdin out anew, by whole-number arithmetic. Run at the top of the repository:

    python3 tools/check_vectors.py

It shares no code and no definition with the crates: patterns are read as IEEE 754 and the rule of thousandths lay them
down, and the root of the exact sum or difference of squares is rounded once, to nearest, ties to even. A line `=` has to
be that answer, and a line `x` has to be another. It prints how many are so, and fails where one is not.
"""
import sys
from math import isqrt

# precision, top exponent less the least, width of the fraction field, of the exponent field
BINARY = {"d": (53, 2045, 52, 11), "s": (24, 253, 23, 8)}
NAN = {"d": 0x7FF8 << 48, "s": 0x7FC00000, "m": 0x80000000}
INFINITY = {"d": 0x7FF0 << 48, "s": 0x7F800000, "m": 0x7FFFFFFF}


def read(form, pattern):
    """The kind of a pattern, and of a finite one the magnitude in units of the least exponent."""
    if form == "m":
        if pattern == NAN["m"]:
            return "quiet", 0
        if pattern in (0x7FFFFFFF, 0x80000001):
            return "infinite", 0
        return "finite", abs(pattern - (pattern >> 31 << 32))
    _, _, fraction_bits, exponent_bits = BINARY[form]
    ones = (1 << exponent_bits) - 1
    fraction, exponent = pattern & ((1 << fraction_bits) - 1), pattern >> fraction_bits & ones
    if exponent == ones:
        return ("infinite" if not fraction else "quiet" if fraction >> (fraction_bits - 1) else "signalling"), 0
    return "finite", (fraction + (1 << fraction_bits)) << (exponent - 1) if exponent else fraction


def write(form, radicand):
    """The pattern of the root of a radicand, rounded once."""
    precision, span = (31, 0) if form == "m" else BINARY[form][:2]
    largest = 2**31 - 2 if form == "m" else (2**precision - 1) << span
    unit = max(0, (radicand.bit_length() + 1) // 2 - precision)
    twice = isqrt(4 * radicand >> 2 * unit)
    k, tie = twice // 2, twice * twice << 2 * unit == 4 * radicand
    k += twice % 2 and not (tie and k % 2 == 0)
    length = k << unit
    if length > largest:
        return INFINITY[form]
    if form == "m":
        return length
    fraction_bits = BINARY[form][2]
    exponent = max(0, length.bit_length() - precision)
    return (exponent << fraction_bits) + (length >> exponent)


def answer(operation, form, patterns):
    kinds, sides = zip(*(read(form, it) for it in patterns))
    if operation == "L":
        if "quiet" in kinds or "signalling" in kinds or kinds[1] == "infinite":
            return NAN[form]
        if kinds[0] == "infinite":
            return INFINITY[form]
        return NAN[form] if sides[0] < sides[1] else write(form, sides[0] ** 2 - sides[1] ** 2)
    if "signalling" in kinds:
        return NAN[form]
    if "infinite" in kinds:
        return INFINITY[form]
    return NAN[form] if "quiet" in kinds else write(form, sum(it**2 for it in sides))


def main():
    with open("crates/vectors/stdin", encoding="ascii") as f:
        lines = [it for it in f.read().splitlines() if not it.startswith("#")]
    wrong = 0
    for call, known in zip(lines[::2], lines[1::2]):
        operation, form, *fields = call.split()
        mark, pattern = known.split()[:2]
        if (answer(operation, form, [int(it, 16) for it in fields]) == int(pattern, 16)) != (mark == "="):
            print(f"not so: {call} {known}")
            wrong += 1
    print(f"{len(lines) // 2 - wrong} of {len(lines) // 2} vectors are as they say")
    sys.exit(1 if wrong or not lines else 0)


main()
