#!/usr/bin/env python3
"""Makes the vectors of the elementary functions, crates/vectors/data/vectors, and the program's crates/vectors/stdout.

Usage, from the repository's root: tools/vectors.py [--check]. --check writes nothing and fails where a file differs.

The answers are computed from the text of ../shared/01-scope.md, "Elementary functions", and of Q-4 of
../shared/02-change-requests.md, which alters sinh, and from nothing of the Rattle code: each operation is done exactly, on
Python's fractions, and rounded once by `rounded` below. No float of Python's takes part in an answer; they are used only to
choose inputs and to check `rounded` against the machine's own arithmetic (`check_machine`).
"""
import math
import random
import struct
import sys
from fractions import Fraction
from math import isqrt

SIGN, INFINITY, NAN = 1 << 63, 0x7FF0 << 48, 0x7FF8 << 48


# ---- binary64: a pattern to its sign and exact size, and an exact size to the nearest pattern, ties to even
def is_nan(b):
    return b & ~SIGN > INFINITY


def is_infinite(b):
    return b & ~SIGN == INFINITY


def sign(b):
    return b >> 63


def size(b):
    field, digits = b >> 52 & 0x7FF, b & (1 << 52) - 1
    return Fraction(digits, 1 << 1074) if field == 0 else Fraction((1 << 52) + digits) * Fraction(2) ** (field - 1075)


def value(b):
    return -size(b) if sign(b) else size(b)


def nearest_whole(q):
    """The whole number nearest to the fraction q, ties to even."""
    low = q.numerator // q.denominator
    rest = q - low
    return low + (rest > Fraction(1, 2) or (rest == Fraction(1, 2) and low % 2 == 1))


def rounded(s, q):
    """The pattern with the sign s of the value nearest to the fraction q, which is not negative."""
    if q == 0:
        return s << 63
    e = q.numerator.bit_length() - q.denominator.bit_length()
    while Fraction(2) ** e > q:
        e -= 1
    while Fraction(2) ** (e + 1) <= q:
        e += 1
    unit = max(e, -1022) - 52
    n = nearest_whole(q / Fraction(2) ** unit)
    if n >= 1 << 53:
        n, unit = n >> 1, unit + 1
    if unit > 971:
        return s << 63 | INFINITY
    return s << 63 | (n if n < 1 << 52 else (unit + 1075 << 52) + n - (1 << 52))


def neg(a):
    return a if is_nan(a) else a ^ SIGN


def add(a, b):
    if is_nan(a) or is_nan(b) or (is_infinite(a) and is_infinite(b) and a != b):
        return NAN
    if is_infinite(a) or is_infinite(b):
        return a if is_infinite(a) else b
    q = value(a) + value(b)
    return rounded(1 if q < 0 else 0, abs(q)) if q else (sign(a) & sign(b)) << 63


def sub(a, b):
    return add(a, neg(b))


def mul(a, b):
    s = sign(a) ^ sign(b)
    if is_nan(a) or is_nan(b):
        return NAN
    if is_infinite(a) or is_infinite(b):
        other = b if is_infinite(a) else a
        return NAN if other & ~SIGN == 0 else s << 63 | INFINITY
    return rounded(s, size(a) * size(b))


def div(a, b):
    s = sign(a) ^ sign(b)
    if is_nan(a) or is_nan(b) or (is_infinite(a) and is_infinite(b)):
        return NAN
    if is_infinite(a):
        return s << 63 | INFINITY
    if is_infinite(b):
        return s << 63
    if b & ~SIGN == 0:
        return NAN if a & ~SIGN == 0 else s << 63 | INFINITY
    return rounded(s, size(a) / size(b))


def whole(n):
    return rounded(1 if n < 0 else 0, Fraction(abs(n)))


def below(a, b):
    """a < b"""
    if is_nan(a) or is_nan(b):
        return False
    def key(x):
        return (math.inf if not sign(x) else -math.inf) if is_infinite(x) else value(x)
    return key(a) < key(b)


# ---- 01 "Elementary functions"; sinh by 02's Q-4 too
ONE, TWO, HALF = 0x3FF0 << 48, 0x4000 << 48, 0x3FE0 << 48
LN_2, LN_2_HIGH, LN_2_LOW = 0x3FE62E42FEFA39EF, 0x3FE62E42FEE00000, 0x3DEA39EF35793C76


def nearest(a):
    """Nearest whole number, ties to even, of a finite a."""
    n = nearest_whole(size(a))
    return -n if sign(a) else n


def horner(s, coefficients):
    rest = coefficients[-1]
    for c in reversed(coefficients[:-1]):
        rest = add(c, mul(s, rest))
    return rest


def over_factorial(k):
    return div(ONE, whole(math.factorial(k)))


def sqrt(x):
    if is_nan(x) or x & ~SIGN == 0 or x == INFINITY:
        return NAN if is_nan(x) else x
    if sign(x):
        return NAN
    # |x| is n * 4 ** e, with so many digits in n that the whole part of its root has 54 or more; one more digit says whether that is all of it.
    q, e = size(x), 0
    while q.denominator != 1 or q < 1 << 120:
        q, e = q * 4, e - 1
    root = isqrt(q.numerator)
    inexact = root * root != q.numerator
    return rounded(0, Fraction(2 * root + inexact, 2) * Fraction(2) ** e)


def turn(x):
    if is_nan(x) or is_infinite(x) or size(x) > 128:
        return None
    q = nearest(mul(x, 0x3FE45F306DC9C883))
    r = sub(sub(x, mul(whole(q), 0x3FF921FB54400000)), mul(whole(q), 0x3DD0B4611A626331))
    s = mul(r, r)
    def alternating(first):
        return [neg(over_factorial(first + 2 * i)) if i % 2 == 0 else over_factorial(first + 2 * i) for i in range(8)]
    big_s = add(r, mul(mul(r, s), horner(s, alternating(3))))
    big_c = add(ONE, mul(s, horner(s, alternating(2))))
    return q % 4, big_s, big_c


def sin(x):
    t = turn(x)
    return NAN if t is None else [t[1], t[2], neg(t[1]), neg(t[2])][t[0]]


def cos(x):
    t = turn(x)
    return NAN if t is None else [t[2], neg(t[1]), neg(t[2]), t[1]][t[0]]


def tan(x):
    return div(sin(x), cos(x))


def exp(x):
    if is_nan(x):
        return NAN
    if below(whole(709), x):
        return INFINITY
    if below(x, whole(-708)):
        return 0
    k = nearest(div(x, LN_2))
    r = sub(sub(x, mul(whole(k), LN_2_HIGH)), mul(whole(k), LN_2_LOW))
    return mul(horner(r, [over_factorial(j) for j in range(14)]), rounded(0, Fraction(2) ** k))


def pow10(y):
    return exp(mul(y, 0x40026BB1BBB55516))


def ln(x):
    if is_nan(x) or (sign(x) and x & ~SIGN):
        return NAN
    if x & ~SIGN == 0:
        return SIGN | INFINITY
    if x == INFINITY:
        return x
    m, e = size(x), 0
    while m >= 2:
        m, e = m / 2, e + 1
    while m < 1:
        m, e = m * 2, e - 1
    m = rounded(0, m)
    if below(0x3FF6A09E667F3BCD, m):
        m, e = mul(m, HALF), e + 1
    f = div(sub(m, ONE), add(m, ONE))
    s = mul(f, f)
    p = horner(s, [div(ONE, whole(k)) for k in range(1, 22, 2)])
    return add(mul(whole(e), LN_2_HIGH), add(mul(mul(TWO, f), p), mul(whole(e), LN_2_LOW)))


def sinh(a):
    if below(absolute(a), ONE):
        s = mul(a, a)
        p = horner(s, [over_factorial(k) for k in range(3, 18, 2)])
        return add(a, mul(mul(a, s), p))
    return mul(sub(exp(a), exp(neg(a))), HALF)


def cosh(a):
    return mul(add(exp(a), exp(neg(a))), HALF)


def arcsinh(x):
    return ln(add(x, sqrt(add(mul(x, x), ONE))))


def absolute(x):
    return NAN if is_nan(x) else x & ~SIGN


def max_zero(x):
    return x if below(0, x) else 0


FUNCTIONS = [sqrt, absolute, max_zero, sin, cos, tan, exp, pow10, ln, sinh, cosh, arcsinh]
NAMES = ["sqrt", "abs", "max_zero", "sin", "cos", "tan", "exp", "pow10", "ln", "sinh", "cosh", "arcsinh"]


# ---- the inputs
def of(x):
    return struct.unpack("<Q", struct.pack("<d", x))[0]


def around(*patterns):
    return [b + d for b in patterns for d in (-1, 0, 1)]


def inputs():
    everywhere = [0, SIGN, 1, SIGN | 1, (1 << 52) - 1, 1 << 52, ONE, SIGN | ONE, HALF, SIGN | HALF, INFINITY - 1, SIGN | INFINITY - 1,
                  INFINITY, SIGN | INFINITY, NAN, SIGN | INFINITY | 1]
    angles = around(of(128.0), of(-128.0)) + around(*[of(k * math.pi / 4) for k in (1, 2, 3, 4, 5, 6, 7, 8, -1, -3, -5)])
    angles += [of(x) for x in (1.0, 2.0, 3.0, -2.0, 100.0, 1e-9, 1e-300, 129.0, -1e300)]
    powers = around(of(709.0), of(-708.0), of(0.34657359027997264), of(-0.34657359027997264), of(1.0397207708399179))
    powers += [of(x) for x in (2.0, -1.0, 10.0, 700.0, -700.0, 710.0, -709.0, 1e-20, 308.0, -307.0)]
    tens = around(of(709.0 / 2.302585092994046), of(-708.0 / 2.302585092994046)) + [of(x) for x in (0.1, 0.05, 4.0, -4.0, 31.0, 308.5)]
    logs = around(0x3FF6A09E667F3BCD, ONE, TWO) + [of(x) for x in (10.0, 0.1, 1e-308, 5e-324, 3e-310, 1e308, -1.0, 2.718281828459045)]
    roots = around(TWO, of(4.0), of(0.1)) + [of(x) for x in (9.0, 0.25, 1e-320, 5e-310, 1e308, -1.0, -1e-310, 1.5, 2.0 ** 1023)] + [(1 << 51) + 1, 2, 3]
    hyper = around(of(709.0), of(-709.0), of(708.0)) + [of(x) for x in (0.1, -0.3, 1e-10, 20.0, -20.0, 1e154, 1e-160)]
    # For 02's Q-4: about 1, where sinh's rule changes, and below.
    small = around(ONE, of(2.0 ** -27)) + [1, 2, 3, (1 << 52) - 1, 1 << 52]
    small += [of(x) for x in (0.001, 0.01, 0.03, 0.1, 0.2, 0.25, 0.3, 0.4, 0.5, 0.6, 0.7, 0.8, 0.9, 0.95, 0.999, 1.5)]
    # The nearest to 1 where the old rule would show; then those where 1/5! or 1/7! with its last bit one higher or lower, or a term more, would.
    small += [ONE - 4, 0x3FEC92908796332C, 0x3FEFFC81FE83923D, 0x3FEEF829C844AF31, 0x3FEF43E3013CB500]
    small = [s | b for b in small for s in (0, SIGN)]
    own = {sqrt: roots, absolute: [of(-3.5)], max_zero: [of(-3.5), of(3.5)], sin: angles, cos: angles, tan: angles, exp: powers, pow10: tens,
           ln: logs, sinh: hyper + small, cosh: hyper + small, arcsinh: hyper}
    dice = random.Random(1)
    for place, f in enumerate(FUNCTIONS):
        more = [of(dice.uniform(-20.0, 20.0)) for _ in range(4)] + [dice.getrandbits(62) for _ in range(4)]
        for b in everywhere + own[f] + more:
            yield place, b


def check_machine():
    """`rounded` agrees with the machine's arithmetic at random patterns."""
    dice = random.Random(2)
    def of_bits(b):
        return struct.unpack("<d", struct.pack("<Q", b))[0]
    for _ in range(20000):
        a, b = dice.getrandbits(64), dice.getrandbits(64)
        if dice.random() < 0.5:
            b = a ^ dice.getrandbits(54)
        x, y = of_bits(a), of_bits(b)
        for mine, theirs in ((add(a, b), x + y), (mul(a, b), x * y), (sub(a, b), x - y), (div(a, b), x / y if y else None)):
            if theirs is not None:
                assert is_nan(mine) if theirs != theirs else mine == of(theirs), (hex(a), hex(b))
        if x >= 0:
            assert sqrt(a) == of(math.sqrt(x)), hex(a)


def listed(rows):
    """The list: a line with the number of vectors, and a line for each. Every number is 16 hexadecimal digits."""
    return "".join(" ".join(f"{n:016X}" for n in line) + "\n" for line in [[len(rows)]] + rows)


def main():
    check_machine()
    rows = [(p, b, FUNCTIONS[p](b)) for p, b in dict.fromkeys(inputs())]
    text = "".join(f"{NAMES[p]} {b:016x} {r:016x}\n" for p, b, r in rows) + f"{len(rows)} vectors, {len(rows)} agree\n"
    files = {"crates/vectors/data/vectors": listed(rows), "crates/vectors/stdout": text}
    for path, content in files.items():
        if "--check" in sys.argv:
            if open(path).read() != content:
                sys.exit(f"{path} is not what tools/vectors.py makes")
        else:
            open(path, "w").write(content)
    print(f"{len(rows)} vectors")


if __name__ == "__main__":
    main()
