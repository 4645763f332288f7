#!/usr/bin/env python3
"""The numbers of the guess at a root: the rows of `SQUARES`, `INVERSES` and `ROOTS` in crate guess, and the coefficients of its
`near_root`.

The numbers from a half to 2 fall into 256 stretches, by the exponent's last bit and the first seven digits. Of each, the number
taken is the square of one with 26 digits, so that both are doubles; of those near the stretch's middle, the one whose inverse
a double meets best. The polynomial meets ((1 + v)^(1/2) - 1) / v at five points in the range that is left for v.
"""
import math
import struct
from decimal import Decimal, getcontext
from fractions import Fraction

getcontext().prec = 60
START, DIGITS, STRETCHES = 0x3FE0_0000_0000_0000, 45, 256
SCALE, TRIED = 1 << 25, 400


def double(pattern):
    return struct.unpack("<d", struct.pack("<Q", pattern))[0]


def ends(i):
    return double(START + (i << DIGITS)), double(START + ((i + 1) << DIGITS))


def node(i):
    """The square, its inverse rounded, and its root."""
    low, high = ends(i)
    middle = round(math.sqrt((low + high) / 2) * SCALE)
    found = []
    for k in range(middle - TRIED, middle + TRIED + 1):
        square = Fraction(k, SCALE) ** 2
        inverse = float(1 / square)
        found.append((abs(Fraction(inverse) * square - 1), square, inverse, Fraction(k, SCALE)))
    _, square, inverse, root = min(found)
    assert Fraction(float(square)) == square and Fraction(float(root)) == root
    return square, inverse, root


def cosine(x):
    term, total, n = Decimal(1), Decimal(1), 0
    while abs(term) > Decimal(10) ** -58:
        n += 2
        term *= -x * x / (n * (n - 1))
        total += term
    return total


def polynomial(f, low, high, degree):
    """The coefficients of the polynomial that meets f at the Chebyshev points from low to high."""
    pi = Decimal("3.14159265358979323846264338327950288419716939937510582097494459")
    n = degree + 1
    xs = [(low + high) / 2 + (high - low) / 2 * cosine(pi * (2 * k + 1) / (2 * n)) for k in range(n)]
    c = [f(x) for x in xs]
    for j in range(1, n):
        for i in range(n - 1, j - 1, -1):
            c[i] = (c[i] - c[i - 1]) / (xs[i] - xs[i - j])
    p = [Decimal(0)] * n
    for i in range(n - 1, -1, -1):
        p = [(p[k - 1] if k else Decimal(0)) - xs[i] * p[k] for k in range(n)]
        p[0] += c[i]
    return p


def main():
    nodes = [node(i) for i in range(STRETCHES)]
    for name, part in ("SQUARES", 0), ("INVERSES", 1), ("ROOTS", 2):
        print(name)
        for numbers in nodes:
            print(f"    {float(numbers[part])!r},")
    reach = float(max(abs(Fraction(end) / nodes[i][0] - 1) for i in range(STRETCHES) for end in ends(i)))
    # not quite even about 0, so that no point is 0 itself
    low, high = -Decimal(reach) - Decimal("1e-9"), Decimal(reach) * Decimal("1.0001") + Decimal("1e-9")
    print("v within", reach)
    print(*(float(c) for c in polynomial(lambda x: ((1 + x).sqrt() - 1) / x, low, high, 4)))


main()
