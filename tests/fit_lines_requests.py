#!/usr/bin/env python3
"""The requests that the program fit_lines is run on.

    python3 tests/fit_lines_requests.py > crates/fit_lines/stdin

tests/fit_lines_expected.py then computes the answers.
"""
import itertools
import sys

JULIAN = [31, 28, 31, 30, 31, 30, 31, 31, 30, 31, 30, 31]


def unfolded(a, b, r, count):
    marks = [(a * k + r) // b for k in range(count + 1)]
    return [y - x for x, y in zip(marks, marks[1:])]


def fit(code):
    return ' '.join(['fit'] + [str(x) for x in code])


def unfold(*numbers):
    return ' '.join(['unfold'] + [str(x) for x in numbers])


def worked_examples():
    for code in [
        [31],
        [31, 30],
        [31, 30, 31, 30, 31, 31],
        [30, 29] * 5 + [30, 30],
        [31, 31, 30, 30],
        [28, 30],
        [],
        [400] * 512,
        [30] * 513,
        [401],
    ]:
        yield fit(code)


def calendars():
    leap = JULIAN[:1] + [29] + JULIAN[2:]
    for months in JULIAN, leap:
        for first in 0, 2, 8, 9:
            yield fit(months[first:] + months[:first])
    yield fit(JULIAN[2:] + JULIAN[:1])
    for last in 5, 6:
        yield fit([30] * 12 + [last])
    yield fit([30] * 8 + [5] + [30] * 4)
    for last in 29, 30:
        yield fit([30, 29] * 5 + [30, last])
    for days in 4, 5:
        yield fit([19] * 18 + [days, 19])
    for first in 30, 31:
        yield fit([first] + [31] * 5 + [30] * 6)
    for second, third in (29, 29), (29, 30), (30, 30):
        for rest in [29, 0], [30, 29]:
            yield fit([30, second, third, 29, 30] + rest + [30, 29] * 3)
    # lengths of years, in days, and of Hebrew years in months
    yield fit([365, 365, 365, 366] * 7)
    yield fit([366 if y % 4 == 0 and y % 100 or y % 400 == 0 else 365 for y in range(1, 401)])
    yield fit([355 if (11 * y + 14) % 30 < 11 else 354 for y in range(1, 31)])
    yield fit([355 if (11 * y + 14) % 30 < 11 else 354 for y in range(1, 121)])
    yield fit([13 if (7 * y + 1) % 19 < 7 else 12 for y in range(1, 20)])
    yield fit([13 if (7 * y + 1) % 19 < 7 else 12 for y in range(1, 401)])


def lines():
    for a, b, r in [
        (61, 2, 0), (61, 2, 1), (92, 3, 1), (153, 5, 2), (306, 10, 4), (211, 7, 6), (325, 11, 5), (367, 12, 8), (1461, 4, 3),
        (0, 1, 0), (400, 1, 0), (1, 13, 0), (1, 13, 12), (12, 13, 5), (7, 19, 1), (235, 19, 1), (10631, 30, 14), (800, 4, 3),
    ]:
        for count in sorted({1, 2, b - 1, b, b + 1, 2 * b, 60} - {0}):
            yield fit(unfolded(a, b, r, count))


def long_lines():
    for a, b, r, count in [
        (7499, 254, 100, 300), (7499, 254, 100, 512), (158, 255, 0, 509), (99, 256, 255, 256), (99, 256, 255, 257), (30 * 257 + 100, 257, 3, 512),
        (191, 509, 508, 512), (400 * 509 - 1, 509, 17, 509), (1, 511, 0, 511), (1, 511, 510, 512), (197, 512, 0, 512), (315, 512, 511, 512),
        (511, 512, 256, 512), (204799, 512, 1, 512), (12345, 512, 77, 511), (10631, 360, 14, 360), (1, 512, 511, 512), (1, 512, 0, 511), (5, 3, 1, 512),
    ]:
        yield fit(unfolded(a, b, r, count))


def spoiled_at_the_last():
    for a, b, r, count in [
        (153, 5, 2, 11), (325, 11, 5, 24), (235, 19, 1, 60), (30, 1, 0, 512), (0, 1, 0, 512), (197, 512, 0, 512), (7499, 254, 100, 511),
        (61, 2, 1, 300), (99, 256, 255, 512), (10631, 30, 14, 120),
    ]:
        code = unfolded(a, b, r, count)
        for last in code[-1] + 1, max(code[-1] - 1, 0), code[-1] + 2:
            yield fit(code[:-1] + [last])


def extremes():
    for n in range(1, 7):
        for code in itertools.product([0, 1], repeat=n):
            yield fit(code)
    for code in [
        [0] * 512, [1] * 512, [0] * 511 + [1], [1] + [0] * 511, [0] * 256 + [1] + [0] * 255, [0, 1] * 256, [1, 0] * 255 + [1, 1],
        [0] * 255 + [1] + [0] * 255 + [1], [0] * 254 + [1] + [0] * 256 + [1], [0, 1] * 255 + [1, 1], [0, 400], [400, 0], [399, 400], [400, 399],
        [400] * 511 + [399], [399] + [400] * 511, [0, 2], [0, 1, 2], [1, 2, 1, 1, 2], [3, 2, 3, 3, 2, 3, 2], [3, 2, 2, 3, 3], [5, 5, 4, 5, 5, 4, 5, 4],
        [2, 1, 1, 1, 2, 1, 1, 2, 1, 1, 1], [2, 1, 1, 1, 2, 1, 2],
    ]:
        yield fit(code)


def fit_limits():
    for code in [
        [400] * 513, [401] * 513, [0] * 514, [30, 29] * 300, [1] * 2000, [401] + [400] * 511, [400] * 511 + [401], [400] * 255 + [401] + [400] * 256,
        [31, 401, 33], [31, 30, 29, 401], [2**32 + 31], [2**63], [2**64 - 1], [2**64], [2**64 + 31], [10**19 + 31], [10**40], [31, 2**64 + 30],
    ]:
        yield fit(code)
    yield 'fit 0031 000030'
    yield 'fit 00000000000000000000000000000000000031'
    yield 'fit  31   30 '
    yield 'fit '
    yield 'fit 31 ' + ' ' * 17000 + '30'
    yield 'fit ' + '0' * 17000 + '31 30'


def unfold_limits():
    yield unfold(153, 5, 2, 6)
    yield unfold(325, 11, 5, 12)
    for b in 0, 1, 511, 512, 513:
        for r in sorted({0, max(b - 1, 0), b, b + 1}):
            yield unfold(30 * b, b, r, 3)
        for a in 0, 400 * b, 400 * b + 1, 1:
            yield unfold(a, b, 0, 3)
    for count in 0, 1, 2, 511, 512, 513, 2**63, 2**64, 2**64 + 6:
        yield unfold(153, 5, 2, count)
        yield unfold(153, 5, 5, count)
    for line in (204800, 512, 511), (204799, 512, 511), (197, 512, 0), (0, 512, 511):
        yield unfold(*line, 512)
    for big in 2**32, 2**63, 2**64 - 1, 2**64, 2**64 + 5, 10**30:
        for at in range(3):
            line = [153, 5, 2]
            line[at] = big
            yield unfold(*line, 6)
    for count, room in [(6, 5), (6, 6), (6, 7), (1, 0), (0, 0), (512, 511), (512, 512), (512, 513), (513, 512), (513, 0), (6, 2**64 + 5), (6, 2**64)]:
        yield unfold(153, 5, 2, count, room)
        yield unfold(153, 5, 5, count, room)
    yield 'unfold  0153 05  2 006 '
    # more answers to one reading than the output buffer holds
    for r in range(20):
        yield unfold(204799 - r, 512, 511, 512)


def malformed():
    yield from [
        '', ' ', '31 30', 'fi', 'fitt', 'fits 31', 'Fit 31', 'FIT 31', ' fit 31', 'fit31', 'fit\t31', 'fit 31\r', 'fit 31, 30', 'fit -31', 'fit +31',
        'fit 31.0', 'fit 0x1f', 'fit 31 x', 'fit x 31', 'fit 3/1', 'fit 3:1', 'fit 31 30 fit', 'fit fit', 'tif 31', 'f it 31', 'fit\u00e9 31',
        'fit 3\u0661', '\u00e9', '\x01fit 31', 'fit\x7f', 'unfol 153 5 2 6', 'unfolds 153 5 2 6', 'unfolded', 'Unfold 153 5 2 6', 'unfold153 5 2 6',
        'unfold', 'unfold 153', 'unfold 153 5', 'unfold 153 5 2', 'unfold 153 5 2 6 5 4', 'unfold 153 5 2 x', 'unfold 153 5 2 6 x', 'unfold 153,5,2,6',
        'unfold fit', 'fit unfold', 'x' * 17000, 'fit ' + 'x' * 17000, 'unfold ' + '1 ' * 600, 'not a request',
    ]


def main():
    parts = [worked_examples, calendars, lines, long_lines, spoiled_at_the_last, extremes, fit_limits, unfold_limits, malformed]
    requests = [line for part in parts for line in part()]
    # the last line has no newline
    sys.stdout.buffer.write('\n'.join(requests + [fit([31, 30, 31, 30, 31, 31])]).encode())


main()
