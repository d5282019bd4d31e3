#!/usr/bin/env python3
"""Document 01, "A row" and malformed, and the source's ramp and mixed gain, written a second time.

Reads a list of rows or ramps on standard input, works out every answer again and prints how
many cases of each function it compared and how many differ. Exit status 1 where any does. The
records of `layout` lines are taken from the lists of layouts that are named as arguments; rows
of layouts that are not in them are counted as skipped.

A 32-bit step is Python's 64-bit step, narrowed: sums, products, quotients and roots of 24
digits keep enough of 53 that rounding twice gives what rounding once does.
"""

import math
import sys
from collections import Counter
from ctypes import c_float
from functools import lru_cache
from struct import pack, unpack

NAN = math.nan
INF = math.inf
PI64 = math.pi  # the 64-bit float nearest pi; Origin: document 01, "Number work"


def single(x):
    return c_float(x).value


def of_word(word):
    return unpack(">f", bytes.fromhex(word))[0]


def word_of(x):
    return "nan" if x != x else pack(">f", x).hex()


# ---- number work

TAU, HALF_TURN = single(2.0 * PI64), single(PI64 / 2.0)
# Origin: vbap.rs lines 52, 57, 152, 493 and 574.
PLANAR, INSIDE, LEAST = single(0.0873), single(1e-6), single(1e-12)


def add(a, b):
    return single(a + b)


def mul(a, b):
    return single(a * b)


def div(a, b):
    if b == 0.0:
        if a == 0.0 or a != a:
            return NAN
        return math.copysign(INF, a) * math.copysign(1.0, b)
    return single(a / b)


def root(a):
    if a != a or a < 0.0:
        return NAN
    return single(math.sqrt(a))


def maximum(a, b):
    if a != a or b != b:
        return b if a != a else a
    if a == 0.0 and b == 0.0:
        return 0.0
    return a if a > b else b


def minimum(a, b):
    if a != a or b != b:
        return b if a != a else a
    return b if b < a else a


def clamp(x):
    return 0.0 if x < 0.0 else 1.0 if x > 1.0 else x


def fourth(x):
    return mul(mul(x, x), mul(x, x))


def rem_euclid(x, m):
    if x != x or math.isinf(x):
        return NAN
    r = math.fmod(x, m)
    return add(r, m) if r < 0.0 else r


def summed(z, terms):
    total = terms[-1]
    for t in reversed(terms[:-1]):
        total = t + z * total
    return total


SINE = [(-1) ** i / math.factorial(2 * i + 1) for i in range(9)]
COSINE = [(-1) ** i / math.factorial(2 * i) for i in range(9)]


@lru_cache(maxsize=None)
def sine_and_cosine_of(word):
    v = of_word(word)
    if not math.isfinite(v):
        return NAN, NAN
    r = math.fmod(v, 2.0 * PI64)
    q = r / (PI64 / 2.0)
    k = next(k for k in range(-5, 6) if k - 0.5 <= q < k + 0.5)
    y = r - k * (PI64 / 2.0) if k else r
    s, c = y * summed(y * y, SINE), summed(y * y, COSINE)
    sine, cosine = [(s, c), (c, -s), (-s, -c), (-c, s)][k % 4]
    return single(sine), single(cosine)


def sine_and_cosine(v):
    return sine_and_cosine_of(pack(">f", v).hex())


# ---- records

class Words:
    def __init__(self, words):
        self.words, self.at = words, 0

    def take(self):
        self.at += 1
        return self.words[self.at - 1]

    def whole(self):
        return int(self.take(), 16)

    def floats(self, n):
        return [of_word(self.take()) for _ in range(n)]

    def wholes(self, n):
        return [self.whole() for _ in range(n)]

    def listed(self, one):
        return [one() for _ in range(self.whole())]


class Record:
    def __init__(self, w):
        self.outputs, self.kind, self.mono = w.wholes(3)
        self.pairs = w.listed(lambda: (w.floats(2), w.wholes(2), w.floats(4) if w.whole() else None))
        self.slots = w.listed(w.whole)
        self.real = w.listed(lambda: (w.whole(), w.floats(3)))
        self.tris = w.listed(lambda: (w.wholes(3), w.floats(9)))
        self.imag = w.listed(lambda: w.listed(w.whole))

    def malformed(self):
        if max(self.outputs, len(self.real), len(self.pairs), len(self.slots)) > 40:
            return True
        if len(self.tris) > 80 or len(self.imag) > 14 or any(len(n) > 40 for n in self.imag):
            return True
        slots, points = [], []
        if self.kind == 1:
            slots = [self.mono]
        elif self.kind == 2:
            slots = [s for p in self.pairs for s in p[1]] + self.slots
        elif self.kind == 3:
            slots = [s for s, _ in self.real] + [s for n in self.imag for s in n]
            points = [p for t in self.tris for p in t[0]]
        return any(s >= self.outputs for s in slots) or any(p >= len(self.real) + len(self.imag) for p in points)


# ---- a row

def spread_of(el):
    t = clamp(div(add(abs(el), -PLANAR), add(HALF_TURN, -PLANAR)))
    s = sine_and_cosine(mul(t, HALF_TURN))[0]
    return mul(s, s)


def pair_gains(pair, az):
    (start, gap), _, law = pair
    if law is not None:
        sa, ca = sine_and_cosine(az)
        return [maximum(add(mul(law[i], sa), mul(law[i + 1], -ca)), 0.0) for i in (0, 2)]
    t = clamp(div(rem_euclid(add(az, -start), TAU), gap))
    t4, u4 = fourth(t), fourth(add(1.0, -t))
    s, c = sine_and_cosine(mul(div(t4, add(t4, u4)), HALF_TURN))
    return [maximum(c, 0.0), maximum(s, 0.0)]


def planar_row(p, az, el, out):
    if not p.pairs:
        return
    inside = [q for q in p.pairs if rem_euclid(add(az, -q[0][0]), TAU) <= add(q[0][1], INSIDE)]
    pair = inside[0] if inside else p.pairs[-1]
    ga, gb = pair_gains(pair, az)
    norm = root(add(mul(ga, ga), mul(gb, gb)))
    if not norm > LEAST:
        return
    a, b = pair[1]
    if a < len(out):
        out[a] = div(ga, norm)
    if b < len(out):
        out[b] = add(out[b], div(gb, norm))
    w = spread_of(el)
    if w > 0.0 and p.slots:
        share = div(w, float(len(p.slots)))
        for s in p.slots:
            if s < len(out):
                out[s] = root(add(mul(mul(add(1.0, -w), out[s]), out[s]), share))


def product(m, s):
    return add(add(mul(m[0], s[0]), mul(m[1], s[1])), mul(m[2], s[2]))


def hull_row(p, az, el, out):
    (sa, ca), (se, ce) = sine_and_cosine(az), sine_and_cosine(el)
    s = [mul(sa, ce), se, mul(-ca, ce)]
    best, corners, gains = -INF, None, None
    for idx, m in p.tris:
        g = [product(m[i:i + 3], s) for i in (0, 3, 6)]
        least = minimum(minimum(g[0], g[1]), g[2])
        if least > best:
            best, corners, gains = least, idx, g
    if corners is None:
        return nearest_row(p, s, out)
    imaginary = [0.0] * 14
    for point, g in zip(corners, gains):
        g = maximum(g, 0.0)
        if point >= len(p.real):
            imaginary[point - len(p.real)] = add(imaginary[point - len(p.real)], g)
        elif p.real[point][0] < len(out):
            out[p.real[point][0]] = add(out[p.real[point][0]], g)
    for slots, g in zip(p.imag, imaginary):
        if g > 0.0 and slots:
            share = div(g, root(float(len(slots))))
            for o in slots:
                if o < len(out):
                    out[o] = add(out[o], share)
    scale(out)


def scale(out):
    power = 0.0
    for g in out:
        power = add(power, mul(g, g))
    if power > LEAST:
        times = div(1.0, root(power))
        out[:] = [mul(g, times) for g in out]


def nearest_row(p, s, out):
    best, place = -INF, 0
    for n, (_, d) in enumerate(p.real):
        v = product(d, s)
        if v > best:
            best, place = v, n
    if place < len(p.real) and p.real[place][0] < len(out):
        out[p.real[place][0]] = 1.0


def row(p, az, el, length):
    out = [0.0] * min(p.outputs, length)
    az, el = [x if math.isfinite(x) else 0.0 for x in (az, el)]
    if p.kind == 1 and p.mono < len(out):
        out[p.mono] = 1.0
    elif p.kind == 2:
        planar_row(p, az, el, out)
    elif p.kind == 3:
        hull_row(p, az, el, out)
    return out


# ---- cases: the expected words, behind the arguments

def gains_answer(p, words):
    w = Words(words)
    (az, el), length = w.floats(2), w.whole()
    if p.malformed():
        return w.at, ["b", "0"]
    filled = [(i, word_of(g)) for i, g in enumerate(row(p, az, el, length)) if word_of(g) != "00000000"]
    return w.at, ["0", "%x" % len(filled)] + [x for i, g in filled for x in ("%x" % i, g)]


def outputs_answer(p, words):
    return 0, ["b", "0"] if p.malformed() else ["0", "%x" % p.outputs]


def ramp_answer(words):
    w = Words(words)
    dst, src = w.floats(w.whole()), w.floats(w.whole())
    g0, g1 = w.floats(2)
    n = min(len(dst), len(src))
    step = div(add(g1, -g0), single(max(n, 1)))
    for i in range(n):
        gain = g1 if g0 == g1 else add(g0, mul(step, single(i + 1)))
        dst[i] = add(dst[i], mul(src[i], gain))
    return w.at, [word_of(x) for x in dst]


def mixed_answer(words):
    a, b, dot, t = [of_word(x) for x in words[:4]]
    t = clamp(t)
    u = add(1.0, -t)
    gain = add(a, mul(add(b, -a), t))
    square = add(add(mul(u, u), mul(t, t)), mul(mul(mul(2.0, t), u), clamp(dot)))
    return 4, [word_of(div(gain, root(maximum(square, LEAST))))]


def known_layouts(paths):
    known = {}
    for path in paths:
        for line in open(path):
            words = line.split()
            if words[0] == "new":
                numbers = int(words[1], 16)
                end = 3 + numbers + int(words[2 + numbers], 16)
                known[" ".join(words[1:end])] = words[end:]
    return known


def main():
    known, counts, different, p = known_layouts(sys.argv[1:]), Counter(), 0, None
    for number, line in enumerate(sys.stdin, 1):
        name, *words = line.split()
        if name == "#":
            continue
        if name == "layout":
            record = known.get(" ".join(words))
            p = Record(Words(record[2:])) if record else None
        elif name == "record":
            p = Record(Words(words))
        elif p is None and name in ("gains", "num_outputs"):
            counts["skipped " + name] += 1
        else:
            counts[name] += 1
            of_record = {"gains": gains_answer, "num_outputs": outputs_answer}
            at, answer = of_record[name](p, words) if name in of_record else ANSWERS[name](words)
            if words[at:] != answer:
                different += 1
                if different <= 5:
                    print("line %d: %s got %s" % (number, line.strip()[:300], " ".join(answer)[:300]))
    print(", ".join("%s %d" % c for c in counts.items()), "different", different)
    return 1 if different else 0


ANSWERS = {"ramp_add": ramp_answer, "normalized_lerp_gain": mixed_answer}

if __name__ == "__main__":
    sys.exit(main())
