#!/usr/bin/env python3
"""The requests that the program dates is run on.

    python3 tests/dates_requests.py > crates/dates/stdin

tests/dates_expected.py then computes the answers.
"""
import sys

NUMBERS = list(range(1, 16)) + [18]
BIG = [2**63 - 1, 2**63, 2**63 + 1, 2**64 - 6, 2**64 - 1, 2**64, 2**64 + 14, 2**64 + 180, 2**65 + 14, 10**19 + 14, 10**20 + 14, 10**40, 10**4000]


def request(*numbers):
    return ' '.join(map(str, numbers))


def year_of(calendar, year):
    return request(calendar, year)


def worked_examples():
    yield from ['2451545', '11 2000 1 1', '11 2000 1 1 6', '11 2000 1 1 5']
    for calendar, year in [(14, 180), (18, 5784), (18, 5785), (4, 1), (14, 156), (14, 157), (7, 20000), (15, 1879), (11, 2000), (11, 1900)]:
        yield year_of(calendar, year)


def first_and_last_years():
    for calendar in NUMBERS:
        first = -4712 if calendar in (10, 11) else 1
        for year in [first - 1, first, first + 1, first + 2, first + 3, 19996, 19997, 19998, 19999, 20000, 20001]:
            yield year_of(calendar, year)


def leap_years():
    """Common and leap years of each rule: fourth years, years of a century, years about 0, a cycle of thirty, every kind of Hebrew year."""
    for calendar in 5, 6, 7, 8, 9:
        for year in 3, 99, 100, 1999, 2000, 2003:
            yield year_of(calendar, year)
    for calendar in 10, 11:
        for year in -4700, -401, -400, -101, -100, -5, -4, -3, -1, 0, 1, 4, 100, 400, 1582, 1700, 2000, 2023, 2024, 2100, 4000:
            yield year_of(calendar, year)
    for calendar in 12, 13:
        for year in range(1, 32):
            yield year_of(calendar, year)
    for year in 55, 56, 57, 156, 256, 356, 456, 556, 2156:
        yield year_of(14, year)
    for year in 22, 122, 222, 322, 1822, 1878, 1879, 1922, 2022, 3922:
        yield year_of(15, year)
    for year in range(5756, 5794):
        yield year_of(18, year)
    # the end of the Republican calendar is no matter here
    for year in 13, 14, 15, 16:
        yield year_of(7, year)


def refusals():
    for calendar in 0, 16, 17, 19, 20, 255, 256, 256 + 14, 2**32 + 14:
        for year in -20000, 1, 20001:
            yield year_of(calendar, year)
    for calendar in NUMBERS:
        for year in -4713, -2**31, 2**31, 2**32 + 180:
            yield year_of(calendar, year)


def huge_numbers():
    for number in BIG:
        yield year_of(number, 180)
        yield year_of(14, number)
        yield year_of(10, -number)
        yield year_of(number, number)
    yield '9' * 17000 + ' 180'
    yield '14 ' + '9' * 17000
    yield '10 -' + '9' * 17000


def days():
    """Where calendars begin and end, and numbers that a narrower type, or a sum that wraps, would take for a day."""
    for day in 0, 37, 38, 347997, 347998, 1448638, 1607709, 1607739, 1724221, 1749995, 1825030, 1922868, 1948439, 1948440, 1952063, 1952068:
        yield request(day)
    for day in 2375839, 2375840, 2380687, 2380688, 2394646, 2394647, 2460204, 5373483, 5373484, 5373485, 2**31, 2**32 + 2451545:
        yield request(day)
    for day in range(2451604, 2451611):
        yield request(day)
    for day in BIG + [2**64 + 2451545]:
        yield request(day)
    yield from ['14', '14 ', '02451545', '2451545' + ' ' * 300, '0' * 300 + '2451545', '9' * 17000]


# the last of the loose days, or a day that only leap years have
DATES = [
    (1, 2748, 13, 5), (2, 1449, 13, 5), (3, 1369, 13, 5), (4, 1369, 9, 5), (5, 1991, 13, 6), (6, 1715, 13, 6), (7, 11, 13, 6), (8, 2311, 6, 29),
    (9, 2311, 5, 29), (10, 2000, 2, 29), (11, 2000, 2, 29), (12, 1420, 12, 30), (13, 1420, 12, 30), (14, 156, 19, 5), (15, 1922, 1, 31), (18, 5784, 6, 30),
]
# the last dates of all
LAST_DATES = [(7, 14, 4, 10), (10, 9999, 10, 19), (11, 9999, 12, 31), (18, 13760, 2, 28)]
WEEKDAYS = list(range(10)) + [256 + 6, 2**32 + 6, 2**64 - 1, 2**64 + 6, 10**40]


def dates():
    """A date with no weekday, with each of the week and with numbers that are none."""
    for date in DATES + LAST_DATES:
        yield request(*date)
        for weekday in WEEKDAYS:
            yield request(*date, weekday)
    for calendar in NUMBERS:
        first = request(calendar, -4712 if calendar in (10, 11) else 1, 1, 1)
        yield first
        for weekday in range(1, 9):
            yield f'{first} {weekday}'
    # a week
    for day in range(3, 10):
        yield request(11, 2024, 6, day, day - 2)
        yield request(11, 2024, 6, day, day - 1)
    for number in BIG:
        yield request(number, 2000, 1, 1, 6)
        yield request(11, number, 1, 1, 6)
        yield request(11, -number, 1, 1, 6)
        yield request(11, 2000, number, 1, 6)
        yield request(11, 2000, 1, number, 6)
        yield request(11, 2000, 1, 1, number)


REFUSED_DATES = [
    (0, 2000, 1, 1), (16, 2000, 1, 1), (17, 20001, 14, 40), (19, 2000, 1, 1), (256 + 11, 2000, 1, 1), (2**32 + 11, 2000, 1, 1),
    (10, -4713, 12, 31), (11, 20001, 1, 1), (11, 20001, 0, 0), (4, 0, 1, 1), (18, -1, 1, 1), (11, 2**32 + 2000, 1, 1),
    (11, 2000, 0, 1), (11, 2000, 13, 0), (18, 5785, 7, 1), (18, 5785, 14, 1), (14, 180, 21, 1), (11, 2000, 2**32 + 1, 1),
    (11, 2000, 1, 0), (11, 1900, 2, 29), (11, 20000, 2, 30), (7, 14, 4, 31), (7, 14, 13, 6), (14, 157, 19, 5), (11, 2000, 1, 2**32 + 1),
    (7, 14, 4, 11), (7, 14, 13, 5), (7, 20000, 1, 1), (11, 10000, 1, 1), (11, 20000, 2, 29), (10, 9999, 10, 20), (18, 13760, 2, 29), (18, 20000, 1, 1),
]


def refused_dates():
    """Refused for what they are, whatever weekday is handed in with them."""
    for date in REFUSED_DATES:
        yield request(*date)
        for weekday in 0, 1, 6, 9, 2**64 - 1:
            yield request(*date, weekday)


def forms():
    yield from [
        '14  180', '14 180 ', '14   180   ', '014 0180', '00000000000000000000000000000014 00000000000000000000000000000180', '10 -0', '10 -1', '10 -004712',
        '10 -0004713', '011 -000', '4 -1', '14 ' + ' ' * 17000 + '180', '14 180' + ' ' * 17000, '0' * 17000 + '14 180', '14 ' + '0' * 17000 + '180',
        '10 -' + '0' * 17000 + '4', '11  2000   1 1', '11 2000 1 1 ', '11 2000 1 1   6  ', '011 02000 01 01 06', '11 2000 1 1 00', '10 -4712 1 1', '10 -4712 1 1 1',
        '10 -0 1 1 4', '11 ' + '0' * 300 + '2000 1 1 6', '11 2000 1 1 ' + '0' * 300 + '6', '11 2000 1 1' + ' ' * 17000 + '6', '11 2000 1 1 6' + ' ' * 300,
        '11 2000 1 1 ' + '9' * 300,
    ]


def malformed():
    yield from [
        '', ' ', '-', ' 14 180', '  14 180', '14 180 1', '14 180 x', '14 180 -', '14 180 -1', '14 -', '14 - ', '14 - 180', '14 --180', '14 -180-',
        '14 1-80', '14 -1-80', '14-180', '14- 180', '-14 180', '- 14 180', '+14 180', '14 +180', '14\t180', '14 180\t', '14 180\r', '14,180', '14, 180',
        '14/180', '14 18/0', '14 18:0', '14 180.0', '14.0 180', '1e1 180', '0x0e 180', '14 0x80', '14 18O', 'x', 'x 180', '14 x', '14 x180', '14x 180',
        'fit 31 30', 'bahai 180', '14 180;', '"14 180"', '\u00e9', '14 \u0661\u0668\u0660', '14\u00a0180', '\ufeff14 180', '\x0014 180', '14\x00180', '14 180\x00',
        '14 \u2212180', '\x7f', 'x' * 17000, '14 ' + 'x' * 17000, '14 180 ' + ' ' * 17000 + '1', '14 180 180' * 2000, 'not a request', 'refused 1', '365 days',
        '-2451545', ' 2451545', '2451545 x', '2451545x', '2451545-', '2451545 -', '+2451545', '11 2000 1', '11 2000 1 ', '11 -2000 1', '11 2000 1 1 6 1',
        '11 2000 1 1 6 ' + ' ' * 300 + '1', '11 2000 1 1 6 1 1', '11 2000 1 1 ' * 20, '-11 2000 1 1', '11 2000 -1 1', '11 2000 1 -1', '11 2000 1 1 -6',
        '11 2000 1 1 -', '11 2000 1 1-', '11 2000 1 - 1', '11 - 2000 1 1', '11 --2000 1 1', '11 -2000- 1 1', '11 2000-1-1', '11 2000/1/1', '11\t2000\t1\t1',
        '11 2000 1 1 6\r', '11 2000 1 1 Saturday', '11 refused 17', '11 2000 1 1 6.', ' 11 2000 1 1 6', '11 2000 1 x 6', '11 2000 1 1 6 -',
    ]


def many_answers():
    """More answers to one reading than the output buffer holds."""
    for year in range(1, 121):
        yield year_of(14, year)
    for day in range(2451545, 2451555):
        yield request(day)


def main():
    parts = [worked_examples, first_and_last_years, leap_years, refusals, huge_numbers, days, dates, refused_dates, forms, malformed, many_answers]
    requests = [line for part in parts for line in part()]
    # the last line has no newline
    sys.stdout.buffer.write('\n'.join(requests + [year_of(18, 5785)]).encode())


main()
