#!/usr/bin/env python3
"""What the program fit_lines must answer, computed from the definitions alone. It shares nothing with the program.

    python3 tests/fit_lines_expected.py < crates/fit_lines/stdin > crates/fit_lines/stdout

`rt ci` runs the program on that stdin and compares. It takes under a minute.

The mark of the line a, b, r at k is (a k + r) / b rounded down; the line generates a code when at each place k mark k+1 less mark k is
the length there. Adding b to r adds 1 to every mark and changes no length, so r from 0 to b-1 is enough. Then the mark at 0 is 0, and
the line generates the code when its mark at k is y[k], the sum of the first k lengths, for k from 0 to n.

Whether any line does, with b however large: it says y[k] <= s k + t < y[k] + 1 with s = a/b and t = r/b, and fractions s and t have a
common denominator. For a given s some t serves exactly when y[i] - s i < y[j] + 1 - s j for all i and j, which bounds s below by
(y[i] - y[j] - 1) / (i - j) for j < i and above by (y[j] - y[i] + 1) / (j - i) for i < j, both strictly. So a line exists exactly when the
greatest lower bound is below the least upper bound.

Which line, where one exists: b = 1, 2, .. in turn without an end, each a that the last mark allows (it is y[n] for some r from 0 to b-1,
so b y[n] - (b-1) <= a n <= b y[n] + b-1), each r from 0 to b-1, and every mark tried. The first b with a line is the answer's, and the
script stops if that b has two lines.
"""
import re
import sys
from fractions import Fraction

MOST = 512
LONGEST = 400


def sums(code):
    y = [0]
    for length in code:
        y.append(y[-1] + length)
    return y


def greatest(fractions):
    p, q = fractions[0]
    for u, v in fractions:
        if u * q > p * v:
            p, q = u, v
    return Fraction(p, q)


def exists(y):
    pairs = [(j, i) for i in range(len(y)) for j in range(i)]
    lower = greatest([(y[i] - y[j] - 1, i - j) for j, i in pairs])
    upper = -greatest([(-(y[i] - y[j] + 1), i - j) for j, i in pairs])
    return lower < upper


def generates(a, b, r, y):
    for k, mark in enumerate(y):
        if (a * k + r) // b != mark:
            return False
    return True


def least(y):
    n = len(y) - 1
    b = 0
    while True:
        b += 1
        low = -((b - 1 - b * y[n]) // n)
        high = (b * y[n] + b - 1) // n
        found = [(a, b, r) for a in range(low, high + 1) for r in range(b) if generates(a, b, r, y)]
        if found:
            assert len(found) == 1, found
            return found[0]


def fit(code):
    if not 1 <= len(code) <= MOST or max(code) > LONGEST:
        return [6, 0, 0, 0]
    y = sums(code)
    if not exists(y):
        return [7, 0, 0, 0]
    return [0, *least(y)]


def unfold(a, b, r, count, room=MOST):
    if not (1 <= b <= MOST and r < b and a <= LONGEST * b):
        return [10]
    if not 1 <= count <= MOST:
        return [6]
    if min(room, MOST) < count:
        return [11]
    return [0] + [(a * (k + 1) + r) // b - (a * k + r) // b for k in range(count)]


def answer(line):
    if not re.fullmatch(rb'(fit|unfold)( +[0-9]+)* *', line):
        return 'not a request'
    word, *digits = line.split()
    # int() has a limit on digits, which leading zeros would count for
    numbers = [int(x.lstrip(b'0') or b'0') for x in digits]
    if word == b'fit':
        values = fit(numbers)
    elif len(numbers) in (4, 5):
        values = unfold(*numbers)
    else:
        return 'not a request'
    return ' '.join(str(x) for x in values)


def main():
    lines = sys.stdin.buffer.read().split(b'\n')
    if lines[-1] == b'':
        lines.pop()
    for line in lines:
        print(answer(line))


main()
