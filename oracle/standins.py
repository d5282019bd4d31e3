#!/usr/bin/env python3
"""Document 01, "Number work", written a second time, from the document alone.

Reads case lists on standard input, works out every answer again and prints how many cases of
each function it compared and how many differ. Exit status 1 where any does.

Roundings, remainders, k and all work in 32 bits are done over exact fractions; the rounded
64-bit steps of the sums are Python's floats, and the root in them is math.sqrt, both IEEE's.
"""

import math
import struct
import sys
from collections import Counter
from fractions import Fraction

NAN = "nan"
PI64 = math.pi  # the 64-bit float nearest pi; Origin: document 01, "Number work"
TWO_PI = 2.0 * PI64
HALF_PI = PI64 / 2.0

# prec, least exponent of a last place, greatest exponent of a last place
# Origin: IEEE 754-2019, table 3.5
BINARY32 = (24, -149, 104)
BINARY64 = (53, -1074, 971)


# ---- values: NAN, ("inf", sign), or (sign, Fraction of the magnitude)

def decode(bits, width):
    fraction_bits, exponent_bits = (23, 8) if width == 32 else (52, 11)
    sign = bits >> (width - 1)
    exponent = (bits >> fraction_bits) % (1 << exponent_bits)
    fraction = bits % (1 << fraction_bits)
    if exponent == (1 << exponent_bits) - 1:
        return NAN if fraction else ("inf", sign)
    least = -149 if width == 32 else -1074
    if exponent == 0:
        return (sign, fraction * Fraction(2) ** least)
    return (sign, (fraction + (1 << fraction_bits)) * Fraction(2) ** (least + exponent - 1))


def encode(value, width):
    """The word of a value that the format holds."""
    digits = width // 4
    fraction_bits, top = (23, 255) if width == 32 else (52, 2047)
    if value == NAN:
        return NAN
    if value[0] == "inf":
        return "%0*x" % (digits, (value[1] << (width - 1)) + (top << fraction_bits))
    sign, magnitude = value
    units = magnitude / Fraction(2) ** (-149 if width == 32 else -1074)
    assert units.denominator == 1
    units, exponent = units.numerator, 1
    while units >= 1 << (fraction_bits + 1):
        assert units % 2 == 0
        units, exponent = units // 2, exponent + 1
    bits = units + ((exponent - 1) << fraction_bits)
    return "%0*x" % (digits, (sign << (width - 1)) + bits)


def rounded(sign, magnitude, form):
    """The format's value nearest to a fraction, ties to even, or an infinity."""
    prec, least, greatest = form
    if magnitude == 0:
        return (sign, Fraction(0))
    last = floor_log2(magnitude) - prec + 1
    last = max(last, least)
    place = Fraction(2) ** last
    whole, rest = divmod(magnitude / place, 1)
    if rest > Fraction(1, 2) or (rest == Fraction(1, 2) and whole % 2 == 1):
        whole += 1
    if whole * place >= Fraction(2) ** (greatest + prec):
        return ("inf", sign)
    return (sign, whole * place)


def floor_log2(x):
    guess = x.numerator.bit_length() - x.denominator.bit_length()
    return guess if Fraction(2) ** guess <= x else guess - 1


def finite(value):
    return value != NAN and value[0] != "inf"


def signed(value):
    return -value[1] if value[0] else value[1]


def of_signed(x, form):
    return rounded(int(x < 0), abs(x), form)


# ---- 64-bit floats of Python for the rounded steps

def to_float(value):
    if value == NAN:
        return math.nan
    if value[0] == "inf":
        return -math.inf if value[1] else math.inf
    return struct.unpack(">d", bytes.fromhex(encode(value, 64)))[0]


def of_float(x):
    return decode(struct.unpack(">Q", struct.pack(">d", x))[0], 64)


def narrowed(value):
    return rounded(value[0], value[1], BINARY32) if finite(value) else value


# ---- maximum, minimum, clamp, fourth power, remainder

def greater(a, b):
    """a > b of two values that are no NaN."""
    rank = lambda v: (1 - 2 * v[1], 0) if v[0] == "inf" else (0, signed(v))
    return rank(a) > rank(b)


def is_zero(value):
    return finite(value) and value[1] == 0


def maximum(a, b):
    if a == NAN:
        return b
    if b == NAN:
        return a
    if is_zero(a) and is_zero(b):
        return (0, Fraction(0))
    return a if greater(a, b) else b


def minimum(a, b):
    if a == NAN:
        return b
    if b == NAN:
        return a
    return b if greater(a, b) else a


def clamped(x):
    zero, one = (0, Fraction(0)), (0, Fraction(1))
    if x == NAN:
        return x
    if greater(zero, x):
        return zero
    return one if greater(x, one) else x


def squared(x, form):
    if x == NAN:
        return x
    if x[0] == "inf":
        return ("inf", 0)
    return rounded(0, x[1] * x[1], form)


def remainder(x, m):
    """Exact, with the dividend's sign."""
    if NAN in (x, m) or x[0] == "inf" or is_zero(m):
        return NAN
    if m[0] == "inf":
        return x
    return (x[0], x[1] % m[1])


def rem_euclid(x, m, form):
    r = remainder(x, m)
    if r == NAN or r[0] == 0 or r[1] == 0:
        return r
    if m[0] == "inf":
        return m
    return of_signed(signed(r) + signed(m), form)


# ---- sine, cosine, arctangent

def sign_of(i):
    return -1 if i % 2 else 1


def quotient_once(numerator, denominator):
    value = rounded(int(numerator < 0), Fraction(abs(numerator), denominator), BINARY64)
    return to_float(value)


SINE = [quotient_once(sign_of(i), math.factorial(2 * i + 1)) for i in range(0, 8 + 1)]
COSINE = [quotient_once(sign_of(i), math.factorial(2 * i)) for i in range(0, 8 + 1)]
ARCTANGENT = [quotient_once(sign_of(i), 2 * i + 1) for i in range(0, 7 + 1)]


def summed(z, coefficients):
    total = coefficients[-1]
    for c in coefficients[-2::-1]:
        total = c + z * total
    return total


def sine_and_cosine(value):
    if not finite(value):
        return NAN, NAN
    r = to_float(remainder(value, of_float(TWO_PI)))
    k = math.floor(Fraction(r / HALF_PI) + Fraction(1, 2))
    y = r - float(k) * HALF_PI
    z = y * y
    s, c = y * summed(z, SINE), summed(z, COSINE)
    sines, cosines = [s, c, -s, -c], [c, -s, -c, s]
    return of_float(sines[k % 4]), of_float(cosines[k % 4])


def arctangent(q):
    for _ in range(3):
        q = q / (1.0 + math.sqrt(1.0 + q * q))
    z = q * q
    return 8.0 * (q * summed(z, ARCTANGENT))


def atan2(y, x):
    if NAN in (y, x):
        return NAN
    tall, wide = abs(to_float(y)), abs(to_float(x))
    if tall <= wide:
        angle = arctangent(0.0 if wide == 0.0 else tall / wide)
    else:
        angle = HALF_PI - arctangent(wide / tall)
    if sign_bit(x):
        angle = PI64 - angle
    if sign_bit(y):
        angle = -angle
    return of_float(angle)


def sign_bit(value):
    return int(value != NAN and (value[1] if value[0] == "inf" else value[0]) == 1)


def root(value, form):
    if value == NAN or is_zero(value):
        return value
    if sign_bit(value):
        return NAN
    if value[0] == "inf":
        return value
    # The whole root of the value times 4^shift, with one more digit that tells what is left over.
    shift = form[0] + 4 - floor_log2(value[1]) // 2
    scaled = value[1] * Fraction(4) ** shift
    whole = math.isqrt(scaled.numerator // scaled.denominator)
    sticky = 0 if whole * whole == scaled else 1
    return rounded(0, Fraction(2 * whole + sticky) / Fraction(2) ** (shift + 1), form)


def magnitude_of(value):
    if value == NAN:
        return value
    return ("inf", 0) if value[0] == "inf" else (0, value[1])


# ---- the functions of the lists

def whole(form):
    return lambda n: rounded(0, Fraction(n), form)


def power4(x):
    return squared(squared(x, BINARY32), BINARY32)


def pair32(v):
    return tuple(narrowed(part) for part in sine_and_cosine(v))


# name: widths of the arguments (0 for a whole number), width of the results (1 for a boolean), answer
FUNCTIONS = {
    "widen": ([32], 64, lambda v: v),
    "narrow": ([64], 32, narrowed),
    "f32_from_u64": ([0], 32, whole(BINARY32)),
    "f64_from_u64": ([0], 64, whole(BINARY64)),
    "sqrt32": ([32], 32, lambda v: root(v, BINARY32)),
    "sqrt64": ([64], 64, lambda v: root(v, BINARY64)),
    "max32": ([32, 32], 32, maximum),
    "max64": ([64, 64], 64, maximum),
    "min32": ([32, 32], 32, minimum),
    "clamp": ([32], 32, clamped),
    "abs32": ([32], 32, magnitude_of),
    "abs64": ([64], 64, magnitude_of),
    "powi4": ([32], 32, power4),
    "rem_euclid32": ([32, 32], 32, lambda x, m: rem_euclid(x, m, BINARY32)),
    "rem_euclid64": ([64, 64], 64, lambda x, m: rem_euclid(x, m, BINARY64)),
    "is_finite32": ([32], 1, lambda v: int(finite(v))),
    "is_finite64": ([64], 1, lambda v: int(finite(v))),
    "sign_bit32": ([32], 1, sign_bit),
    "sign_bit64": ([64], 1, sign_bit),
    "sin64": ([64], 64, lambda v: sine_and_cosine(v)[0]),
    "cos64": ([64], 64, lambda v: sine_and_cosine(v)[1]),
    "sin_cos64": ([64], 64, sine_and_cosine),
    "sin32": ([32], 32, lambda v: pair32(v)[0]),
    "cos32": ([32], 32, lambda v: pair32(v)[1]),
    "sin_cos32": ([32], 32, pair32),
    "atan64": ([64], 64, lambda v: of_float(arctangent(to_float(v)))),
    "atan2": ([64, 64], 64, atan2),
}
PAIRS = {"sin_cos64", "sin_cos32"}


def answer(name, words):
    widths, result, function = FUNCTIONS[name]
    values = [decode(int(w, 16), width) if width else int(w, 16) for w, width in zip(words, widths)]
    results = function(*values)
    results = results if name in PAIRS else [results]
    return [str(r) if result == 1 else encode(r, result) for r in results]


def main():
    compared, differing = Counter(), Counter()
    for number, line in enumerate(sys.stdin, 1):
        if line.startswith("#"):
            continue
        name, *words = line.rstrip("\n").split(" ")
        count = len(FUNCTIONS[name][0])
        expected = answer(name, words[:count])
        compared[name] += 1
        if expected != words[count:]:
            differing[name] += 1
            if sum(differing.values()) <= 20:
                print(f"line {number}: {line.rstrip()}: {' '.join(expected)} by document 01")
    for name in compared:
        print(f"{name}: {compared[name]} compared, {differing[name]} differ")
    return 1 if differing else 0


if __name__ == "__main__":
    sys.exit(main())
