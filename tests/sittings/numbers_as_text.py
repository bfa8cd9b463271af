#!/usr/bin/env python3.11
"""Checks the model's text of numbers against the rule, in whole numbers alone.

    numbers_as_text.py [COUNT]

Each text has to read back as its number, no shorter digits may do so, of those as short none may be nearer, of two that
are equally near it has to be the one whose last digit is even, and it has to be laid out by the rule.
"""

import math
import re
import struct
import sys
from fractions import Fraction

sys.dont_write_bytecode = True  # leave nothing beside the scripts

import model
from dice import Dice

TEXT = re.compile(r"(0|[1-9][0-9]*)(\.[0-9]*[1-9])?|([1-9])(\.[0-9]*[1-9])?e(-?[1-9][0-9]*)", re.ASCII)


def half_ways(x):
    """What lies half way to the floats below and above x > 0, and whether those two numbers still read as x."""
    above = math.nextafter(x, math.inf)
    gap = Fraction(above) - Fraction(x) if above != math.inf else Fraction(x) - Fraction(math.nextafter(x, 0.0))
    low = (Fraction(x) + Fraction(math.nextafter(x, 0.0))) / 2
    bits = struct.unpack(">Q", struct.pack(">d", x))[0]
    return low, Fraction(x) + gap / 2, bits % 2 == 0


def fewest_digits(x):
    """The whole number n without a zero at its end, and the exponent t, of which n * 10^t is the decimal of x > 0."""
    exact = Fraction(x)
    low, high, ends = half_ways(x)
    t = math.floor(math.log10(x)) + 2  # no single digit reads back from so far above
    while True:
        unit = Fraction(10) ** t
        below = exact // unit
        near = [n for n in (below, below + 1) if low < n * unit < high or ends and n * unit in (low, high)]
        near = [n for n in near if n > 0]
        if near:
            n = max(near, key=lambda n: (-abs(n * unit - exact), n % 2 == 0))
            while n % 10 == 0:
                n, t = n // 10, t + 1
            return n, t
        t -= 1


def check(x):
    text = model.number_text(x)
    assert model.number_text(-x) == "-" + text, text
    assert float(text) == x, text
    found = TEXT.fullmatch(text)
    assert found is not None, text
    n, t = fewest_digits(x)
    with_exponent = x < Fraction(1, 10**5) or x >= 10**16
    assert (found[5] is not None) == with_exponent, text
    whole, part = (found[3], found[4]) if with_exponent else (found[1], found[2])
    part = (part or ".")[1:]
    assert Fraction(int(whole + part)) * Fraction(10) ** (int(found[5] or 0) - len(part)) == n * Fraction(10) ** t, text


def ways(dice):
    """A number above 0: any bits, a decimal, a binary fraction, one near a power of 2 or of 10."""
    way = dice.below(6)
    if way == 0:
        return struct.unpack(">d", struct.pack(">Q", dice.word() >> 1))[0]
    if way == 1:
        return dice.between(1, 10**7) / 10 ** dice.between(0, 12)
    if way == 2:
        return dice.part()
    if way == 3:
        return dice.between(1, 2**53) / 2.0 ** dice.between(0, 80)
    near = 2.0 ** dice.between(-1074, 1023) if way == 4 else float(f"1e{dice.between(-323, 308)}")
    for _ in range(dice.below(4)):
        near = math.nextafter(near, dice.pick((0.0, math.inf)))
    return near


def main(count):
    known = {0.0: "0", -0.0: "-0", 1e-5: "0.00001", 1e16: "1e16", 1.5e16: "1.5e16", 1e-7: "1e-7", 5e-324: "5e-324"}
    known |= {100.0: "100", 9999999999999998.0: "9999999999999998", 0.79016876220703125: "0.7901687622070312"}
    known |= {math.inf: "inf", -math.inf: "-inf", 9.999999999999999e-6: "9.999999999999999e-6"}
    assert all(model.number_text(x) == text for x, text in known.items() if x != 0)
    assert [model.number_text(x) for x in (0.0, -0.0, math.nan)] == ["0", "-0", "nan"]
    dice, checked = Dice(1847), 0
    while checked < count:
        x = ways(dice)
        if 0 < x < math.inf:
            check(x)
            checked += 1
    print(f"checked {checked}")


if __name__ == "__main__":
    main(int(sys.argv[1]) if sys.argv[1:] else 5000)
