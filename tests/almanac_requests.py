#!/usr/bin/env python3
"""The requests that the program almanac is run on.

    python3 tests/almanac_requests.py > crates/almanac/stdin

tests/almanac_expected.py then computes the answers.
"""
import itertools
import sys

NAMES = {
    1: 'egyptian', 2: 'armenian', 3: 'khwarizmian', 4: 'persian', 5: 'ethiopian', 6: 'coptic', 7: 'republican', 8: 'macedonian', 9: 'syrian', 10: 'julian',
    11: 'gregorian', 12: 'islamic-a', 13: 'islamic-b', 14: 'bahai', 15: 'saka', 18: 'hebrew',
}
FIRST_DAYS = {
    1: 1448638, 2: 1922868, 3: 1952068, 4: 1952063, 5: 1724221, 6: 1825030, 7: 2375840, 8: 1607709, 9: 1607739, 10: 0, 11: 38, 12: 1948439, 13: 1948440,
    14: 2394647, 15: 1749995, 18: 347998,
}
WEEK = ['monday', 'tuesday', 'wednesday', 'thursday', 'friday', 'saturday', 'sunday']
NO_CALENDARS = [0, 16, 17, 19, 20, 255, 256 + 11, 2**32 + 11, 2**64 - 1, 2**64, 2**64 + 11, 10**40]
# numbers that a narrower type, or a sum that wraps, would take for others
BIG = [2**63 - 1, 2**63, 2**63 + 1, 2**64 - 6, 2**64 - 1, 2**64, 2**64 + 14, 2**64 + 180, 2**65 + 14, 10**19 + 14, 10**20 + 14, 10**40, 10**1000]
LONG = 17000


def request(*tokens):
    return ' '.join(map(str, tokens))


def first_year(calendar):
    return -4712 if calendar in (10, 11) else 1


def mixed(name):
    return ''.join(c.upper() if i % 2 else c for i, c in enumerate(name))


# ---- lines and codes

JULIAN = [31, 28, 31, 30, 31, 30, 31, 31, 30, 31, 30, 31]


def unfolded(a, b, r, count):
    marks = [(a * k + r) // b for k in range(count + 1)]
    return [y - x for x, y in zip(marks, marks[1:])]


def fit(code):
    return request('fit', *code)


def unfold(*numbers):
    return request('unfold', *numbers)


def worked_codes():
    for code in [
        [31],
        [31, 30],
        [31, 30, 31, 30, 31, 31],
        [30, 29] * 5 + [30, 30],
        [31, 31, 30, 30],
        [28, 30],
        [],
        [400] * 512,
        [30] * 513,
        [401],
    ]:
        yield fit(code)


def codes_of_calendars():
    leap = JULIAN[:1] + [29] + JULIAN[2:]
    for months in JULIAN, leap:
        for first in 0, 2, 8, 9:
            yield fit(months[first:] + months[:first])
    yield fit(JULIAN[2:] + JULIAN[:1])
    for last in 5, 6:
        yield fit([30] * 12 + [last])
    yield fit([30] * 8 + [5] + [30] * 4)
    for last in 29, 30:
        yield fit([30, 29] * 5 + [30, last])
    for days in 4, 5:
        yield fit([19] * 18 + [days, 19])
    for first in 30, 31:
        yield fit([first] + [31] * 5 + [30] * 6)
    for second, third in (29, 29), (29, 30), (30, 30):
        for rest in [29, 0], [30, 29]:
            yield fit([30, second, third, 29, 30] + rest + [30, 29] * 3)
    # lengths of years, in days, and of Hebrew years in months
    yield fit([365, 365, 365, 366] * 7)
    yield fit([366 if y % 4 == 0 and y % 100 or y % 400 == 0 else 365 for y in range(1, 401)])
    yield fit([355 if (11 * y + 14) % 30 < 11 else 354 for y in range(1, 31)])
    yield fit([355 if (11 * y + 14) % 30 < 11 else 354 for y in range(1, 121)])
    yield fit([13 if (7 * y + 1) % 19 < 7 else 12 for y in range(1, 20)])
    yield fit([13 if (7 * y + 1) % 19 < 7 else 12 for y in range(1, 401)])


def lines():
    for a, b, r in [
        (61, 2, 0), (61, 2, 1), (92, 3, 1), (153, 5, 2), (306, 10, 4), (211, 7, 6), (325, 11, 5), (367, 12, 8), (1461, 4, 3),
        (0, 1, 0), (400, 1, 0), (1, 13, 0), (1, 13, 12), (12, 13, 5), (7, 19, 1), (235, 19, 1), (10631, 30, 14), (800, 4, 3),
    ]:
        for count in sorted({1, 2, b - 1, b, b + 1, 2 * b, 60} - {0}):
            yield fit(unfolded(a, b, r, count))


def long_lines():
    for a, b, r, count in [
        (7499, 254, 100, 300), (7499, 254, 100, 512), (158, 255, 0, 509), (99, 256, 255, 256), (99, 256, 255, 257), (30 * 257 + 100, 257, 3, 512),
        (191, 509, 508, 512), (400 * 509 - 1, 509, 17, 509), (1, 511, 0, 511), (1, 511, 510, 512), (197, 512, 0, 512), (315, 512, 511, 512),
        (511, 512, 256, 512), (204799, 512, 1, 512), (12345, 512, 77, 511), (10631, 360, 14, 360), (1, 512, 511, 512), (1, 512, 0, 511), (5, 3, 1, 512),
    ]:
        yield fit(unfolded(a, b, r, count))


def spoiled_at_the_last():
    for a, b, r, count in [
        (153, 5, 2, 11), (325, 11, 5, 24), (235, 19, 1, 60), (30, 1, 0, 512), (0, 1, 0, 512), (197, 512, 0, 512), (7499, 254, 100, 511),
        (61, 2, 1, 300), (99, 256, 255, 512), (10631, 30, 14, 120),
    ]:
        code = unfolded(a, b, r, count)
        for last in code[-1] + 1, max(code[-1] - 1, 0), code[-1] + 2:
            yield fit(code[:-1] + [last])


def extremes():
    for n in range(1, 7):
        for code in itertools.product([0, 1], repeat=n):
            yield fit(code)
    for code in [
        [0] * 512, [1] * 512, [0] * 511 + [1], [1] + [0] * 511, [0] * 256 + [1] + [0] * 255, [0, 1] * 256, [1, 0] * 255 + [1, 1],
        [0] * 255 + [1] + [0] * 255 + [1], [0] * 254 + [1] + [0] * 256 + [1], [0, 1] * 255 + [1, 1], [0, 400], [400, 0], [399, 400], [400, 399],
        [400] * 511 + [399], [399] + [400] * 511, [0, 2], [0, 1, 2], [1, 2, 1, 1, 2], [3, 2, 3, 3, 2, 3, 2], [3, 2, 2, 3, 3], [5, 5, 4, 5, 5, 4, 5, 4],
        [2, 1, 1, 1, 2, 1, 1, 2, 1, 1, 1], [2, 1, 1, 1, 2, 1, 2],
    ]:
        yield fit(code)


def fit_limits():
    for code in [
        [400] * 513, [401] * 513, [0] * 514, [30, 29] * 300, [1] * 2000, [401] + [400] * 511, [400] * 511 + [401], [400] * 255 + [401] + [400] * 256,
        [31, 401, 33], [31, 30, 29, 401], [2**32 + 31], [2**63], [2**64 - 1], [2**64], [2**64 + 31], [10**19 + 31], [10**40], [31, 2**64 + 30],
    ]:
        yield fit(code)
    yield 'fit 0031 000030'
    yield 'fit 00000000000000000000000000000000000031'
    yield 'fit  31   30 '
    yield 'fit '
    yield 'fit 31 ' + ' ' * LONG + '30'
    yield 'fit ' + '0' * LONG + '31 30'
    # one after a refusal, and one of no request after what is refused
    yield fit([31])
    yield fit([30] * 513 + ['x'])
    yield fit([30] * 512 + ['x'])
    yield fit([401, 30, '-1'])
    yield fit([31])


def unfold_limits():
    yield unfold(153, 5, 2, 6)
    yield unfold(325, 11, 5, 12)
    for b in 0, 1, 511, 512, 513:
        for r in sorted({0, max(b - 1, 0), b, b + 1}):
            yield unfold(30 * b, b, r, 3)
        for a in 0, 400 * b, 400 * b + 1, 1:
            yield unfold(a, b, 0, 3)
    for count in 0, 1, 2, 511, 512, 513, 2**63, 2**64, 2**64 + 6:
        yield unfold(153, 5, 2, count)
        yield unfold(153, 5, 5, count)
    for line in (204800, 512, 511), (204799, 512, 511), (197, 512, 0), (0, 512, 511):
        yield unfold(*line, 512)
    for big in 2**32, 2**63, 2**64 - 1, 2**64, 2**64 + 5, 10**30:
        for at in range(3):
            line = [153, 5, 2]
            line[at] = big
            yield unfold(*line, 6)
    for count, room in [
        (6, 5), (6, 6), (6, 7), (1, 0), (0, 0), (512, 511), (512, 512), (512, 513), (513, 512), (513, 0), (513, 513), (600, 2**64 - 1), (6, 2**64 + 5),
        (6, 2**64),
    ]:
        yield unfold(153, 5, 2, count, room)
        yield unfold(153, 5, 5, count, room)
    # the room of the request before is no longer there
    yield unfold(153, 5, 2, 6, 5)
    yield unfold(153, 5, 2, 6)
    yield 'unfold  0153 05  2 006 '
    # more answers to one reading than the output buffer holds
    for r in range(20):
        yield unfold(204799 - r, 512, 511, 512)


# ---- years


def months(calendar, year):
    return request('months', calendar, year)


def worked_years():
    for calendar, year in [(14, 180), (18, 5784), (18, 5785), (4, 1), (14, 156), (14, 157), (7, 20000), (15, 1879), (11, 2000), (11, 1900)]:
        yield months(calendar, year)
    yield 'months hebrew 5787'


def first_and_last_years():
    """Days go to 5373484, years to 20000: of the last years the first day is refused."""
    for calendar, name in NAMES.items():
        first = first_year(calendar)
        for year in [first - 1, first, first + 1, first + 2, first + 3, 19999, 20000, 20001]:
            yield months(calendar, year)
        for year in first - 1, first, 10000, 20000, 20001:
            yield months(name, year)
    # the years of the last day and those after them; the Republican calendar's end
    for calendar, year in [
        (10, 9999), (11, 9999), (11, 10000), (18, 13760), (18, 13761), (14, 8156), (14, 8157), (15, 9921), (15, 9922), (1, 10753), (1, 10754), (1, 10755),
    ]:
        yield months(calendar, year)
    for year in 13, 14, 15, 16:
        yield months('republican', year)


def leap_years():
    """Common and leap years of each rule: fourth years, years of a century, years about 0, a cycle of thirty, every kind of Hebrew year."""
    for calendar in 5, 6, 7, 8, 9:
        for year in 3, 99, 100, 1999, 2000, 2003:
            yield months(calendar, year)
    for calendar in 10, 11:
        for year in -4700, -401, -400, -101, -100, -5, -4, -3, -1, 0, 1, 4, 100, 400, 1582, 1700, 2000, 2023, 2024, 2100, 4000:
            yield months(calendar, year)
    for year in range(1, 32):
        yield months(12, year)
        yield months('islamic-b', year)
    for year in 55, 56, 57, 156, 256, 356, 456, 556, 2156:
        yield months(14, year)
    for year in 22, 122, 222, 322, 1822, 1878, 1879, 1922, 2022, 3922:
        yield months(15, year)
    for year in range(5756, 5794):
        yield months(18, year)
    for name in NAMES.values():
        for year in 11, 12:
            yield months(name, year)


def refused_years():
    for calendar in NO_CALENDARS:
        for year in -20000, 1, 20001:
            yield months(calendar, year)
    for calendar in NAMES:
        for year in -4713, -2**31, 2**31, 2**32 + 180:
            yield months(calendar, year)


def huge_years():
    for number in BIG:
        yield months(number, 180)
        yield months(14, number)
        yield months(10, -number)
        yield months(number, number)
    yield months('9' * LONG, 180)
    yield months(10, '-' + '9' * LONG)


def easters():
    for year in [
        -1, 0, 1, 2, 4, 325, 1582, 1583, 1609, 1700, 1818, 1886, 1943, 1954, 1961, 1981, 2000, 2008, 2011, 2024, 2025, 2026, 2027, 2038, 2049, 2076, 2106, 2285,
        4200, 7453, 8201, 9998, 9999, 10000, 20000, 20001, -4712, 2**32 + 2000, -2**32 + 2000, 2**63 - 1, 2**63, 2**64 + 2000, -2**63, -2**63 - 1,
        -2**64 + 2000, 10**40, -10**40,
    ]:
        yield request('easter', year)
    yield from ['easter -0', 'easter 002027', 'easter -002027', 'EASTER 2027', 'Easter\t2027\r', 'easter ' + '0' * 300 + '2027']


# ---- days


def days_in_all():
    """Where calendars begin and end."""
    for day in 0, 37, 38, 347997, 347998, 1448638, 1607709, 1607739, 1724221, 1749995, 1825030, 1922868, 1948439, 1948440, 1952063, 1952068:
        yield request('day', day)
    for day in 2375839, 2375840, 2380687, 2380688, 2394646, 2394647, 2460204, 2461360, 5373483, 5373484, 5373485, 2**31, 2**32 + 2451545:
        yield request('day', day)
    for day in range(2451604, 2451611):
        yield request('day', day)
    for day in BIG + [2**64 + 2451545]:
        yield request('day', day)
    yield from ['day 14', 'day 14 ', 'day 02451545', 'day 2451545' + ' ' * 300, 'day ' + '0' * 300 + '2451545', 'day ' + '9' * LONG]


def days_in_one():
    for calendar, name in NAMES.items():
        first = FIRST_DAYS[calendar]
        around = [first - 1] if first else []
        for day in around + [
            0, first, first + 365, first + 366, 2380687, 2380688, 2461360, 5373483, 5373484, 5373485, 2**32 + 2451545, 2**63, 2**64 - 1, 2**64, 10**40,
        ]:
            yield request('day', day, calendar)
        for day in around + [first, 2380687, 2380688, 2451604, 2461360, 5373484, 5373485, 2**64]:
            yield request('day', day, name)
        for written in name.upper(), name.capitalize(), mixed(name), f'0{calendar}':
            yield request('day', 2461360, written)
    for calendar in NO_CALENDARS:
        for day in 0, 2461360, 5373485, 2**64:
            yield request('day', day, calendar)
    # a week in two calendars
    for day in range(2461355, 2461363):
        yield request('day', day, 'gregorian')
        yield request('day', day, 18)


# ---- dates

# the last of the loose days, or a day that only leap years have
DATES = [
    (1, 2748, 13, 5), (2, 1449, 13, 5), (3, 1369, 13, 5), (4, 1369, 9, 5), (5, 1991, 13, 6), (6, 1715, 13, 6), (7, 11, 13, 6), (8, 2311, 6, 29),
    (9, 2311, 5, 29), (10, 2000, 2, 29), (11, 2000, 2, 29), (12, 1420, 12, 30), (13, 1420, 12, 30), (14, 156, 19, 5), (15, 1922, 1, 31), (18, 5784, 6, 30),
]
# the last dates of all
LAST_DATES = [(7, 14, 4, 10), (10, 9999, 10, 19), (11, 9999, 12, 31), (18, 13760, 2, 28)]
WEEKDAYS = list(range(10)) + [256 + 6, 2**32 + 6, 2**64 - 1, 2**64 + 6, 10**40]
REFUSED_DATES = [
    (0, 2000, 1, 1), (16, 2000, 1, 1), (17, 20001, 14, 40), (19, 2000, 1, 1), (256 + 11, 2000, 1, 1), (2**32 + 11, 2000, 1, 1),
    (10, -4713, 12, 31), (11, 20001, 1, 1), (11, 20001, 0, 0), (4, 0, 1, 1), (18, -1, 1, 1), (11, 2**32 + 2000, 1, 1),
    (11, 2000, 0, 1), (11, 2000, 13, 0), (18, 5785, 7, 1), (18, 5785, 14, 1), (14, 180, 21, 1), (11, 2000, 2**32 + 1, 1),
    (11, 2000, 1, 0), (11, 1900, 2, 29), (11, 20000, 2, 30), (7, 14, 4, 31), (7, 14, 13, 6), (14, 157, 19, 5), (11, 2000, 1, 2**32 + 1),
    (7, 14, 4, 11), (7, 14, 13, 5), (7, 20000, 1, 1), (11, 10000, 1, 1), (11, 20000, 2, 29), (10, 9999, 10, 20), (18, 13760, 2, 29), (18, 20000, 1, 1),
]


def named(calendar, *rest):
    return (NAMES.get(calendar, calendar), *rest)


def date(*tokens):
    return request('date', *tokens)


def dates():
    """A date with no weekday, with each of the week and with numbers that are none."""
    yield from [date(11, 2000, 1, 1), date(11, 2000, 1, 1, 6), date(11, 2000, 1, 1, 5)]
    for some in DATES + LAST_DATES:
        yield date(*some)
        yield date(*named(*some))
        for weekday in WEEKDAYS:
            yield date(*some, weekday)
        for weekday in WEEK:
            yield date(*named(*some), weekday)
    for calendar, name in NAMES.items():
        first = first_year(calendar), 1, 1
        yield date(calendar, *first)
        for weekday in range(1, 9):
            yield date(calendar, *first, weekday)
        for written in name.upper(), name.capitalize(), mixed(name):
            yield date(written, *first)
    # a week
    for day in range(3, 10):
        yield date(11, 2024, 6, day, day - 2)
        yield date(11, 2024, 6, day, day - 1)
        name = WEEK[day - 3]
        for written in name, name.upper(), name.capitalize(), mixed(name):
            yield date('gregorian', 2024, 6, day, written)
        yield date('gregorian', 2024, 6, day, WEEK[day - 4])
    for number in BIG:
        yield date(number, 2000, 1, 1, 6)
        yield date(11, number, 1, 1, 6)
        yield date(11, -number, 1, 1, 6)
        yield date(11, 2000, number, 1, 6)
        yield date(11, 2000, 1, number, 6)
        yield date(11, 2000, 1, 1, number)


def refused_dates():
    """Refused for what they are, whatever weekday is handed in with them."""
    for some in REFUSED_DATES:
        yield date(*some)
        for weekday in 0, 1, 6, 9, 2**64 - 1:
            yield date(*some, weekday)
        yield date(*named(*some), 'Wednesday')


def dates_in_all():
    for rest in ['all', 'ALL', 'aLL', '7 all', 'sunday all', 'SUNDAY All', '0 all', '00 ALL']:
        yield date('gregorian', 2026, 11, 15, rest)
    for rest in ['6 all', 'monday all', '8 all', f'{2**64} all', 'Saturday ALL']:
        yield date('gregorian', 2026, 11, 15, rest)
    for some in [(7, 14, 4, 10), (10, -4712, 1, 1), (11, -4712, 1, 1), (11, 9999, 12, 31), (18, 1, 1, 1)]:
        yield date(*some, 'all')
    for some in REFUSED_DATES[::3] + REFUSED_DATES[-4:]:
        yield date(*some, 'all')
        yield date(*some, 9, 'all')
    for rest in [
        'all all', 'all sunday', 'all 7', 'all x', 'sunday sunday', 'sunday 7', '7 sunday', '7 7', 'sunday all all', 'sunday all 7', 'sunday all x', 'al',
        'alls', 'all.', '"all"', 'all-', '-all', 'al all', 'x all', 'sunday x', 'sunday al', 'sunday alls', 'gregorian', 'gregorian all', '11 all all', 'a ll',
        'all 15', '- all', '-7', '-7 all', '+7',
    ]:
        yield date('gregorian', 2026, 11, 15, rest)
    yield from [
        'all', 'all date gregorian 2026 11 15', 'date all', 'date all 2026 11 15', 'date all gregorian 2026 11 15', 'date gregorian all 11 15',
        'date gregorian 2026 all 15', 'date gregorian 2026 11 all', 'date gregorian 2026 11 ALL', 'date gregorian all', 'day all', 'day 2461360 all',
        'day 2461360 gregorian all', 'months all 2026', 'months gregorian all', 'months gregorian 2026 all', 'easter all', 'easter 2027 all',
        'frame gregorian 2026 11 15 all', 'frame all 2026 11 15', 'fit all', 'fit 31 all', 'fit 31 30 all', 'unfold 153 5 2 12 all', 'unfold 153 5 2 all',
        'unfold 153 5 2 12 12 all', 'calendars all', 'answers all', 'help all',
    ]


def frames():
    for some in DATES + LAST_DATES:
        yield request('frame', *some)
        yield request('frame', *named(*some))
    for calendar, name in NAMES.items():
        yield request('frame', mixed(name), first_year(calendar), 1, 1)
    for some in REFUSED_DATES:
        yield request('frame', *named(*some))
    for number in BIG:
        yield request('frame', number, 2000, 1, 1)
        yield request('frame', 11, -number, 1, 1)
        yield request('frame', 11, 2000, number, 1)
        yield request('frame', 11, 2000, 1, number)
    yield from [
        'frame gregorian 2026 11 15', 'FRAME\tGREGORIAN\t2026\t11\t15', 'frame 11 -0 1 1', 'frame 11 2026 11 15 7', 'frame gregorian 2026 11 15 sunday',
        'frame gregorian 2026 11 15 0',
    ]


# ---- lists, and words that are none

ALONE = ['calendars', 'answers', 'help', '--help', '-h']


def lists():
    for name in ALONE:
        yield name
        for more in ['1', 'help', 'x', name, '-', '0 x']:
            yield request(name, more)
        yield name.upper() + ' ' + name
    for name in ['HELP', '--Help', '-H', 'Calendars', 'ANSWERS', ' \thelp\r', 'answers  \t ']:
        yield name


def words():
    """A request's word cut short, with a letter more, with capitals, and with bytes that are capitals but for a bit."""
    forms = {'day': '2461360', 'date': '11 2026 11 15', 'months': '11 2026', 'easter': '2027', 'frame': '11 2026 11 15', 'fit': '31 30', 'unfold': '153 5 2 6'}
    for name, rest in forms.items():
        for written in name.upper(), name.capitalize(), mixed(name):
            if name != 'day':
                yield f'{written} {rest}'
        other = name[:-1] + chr(ord(name[-1]) + 1)
        for written in name[:-1], name + name[-1], name[0] + name, name + 's', name + '-', '-' + name, '--' + name, name + rest, name + '1', other, f'"{name}"':
            yield f'{written} {rest}'
    yield 'DAY 2461360'
    yield from ['dAy 2461360 18', 'Day 5373485']
    for name in ALONE:
        for written in name[:-1], name + 's', name + '-', '-' + name, name[:-1] + '.', name + '1':
            yield written
    yield from [
        '-', '--', '---help', '--h', '-help', '?', 'exit', 'quit', 'h', 'H', 'version', '--version', 'day,2461360', 'd\u00e1y 2461360', 'not a request',
        'refused 1: no such calendar',
    ]
    # 11, 12 and 13 letters, and more
    for length in 11, 12, 13, 14, 63, 64, 65, 66, 128, 129:
        yield 'calendars'.ljust(length, 's')
        yield 'Z' * length
        yield request('day', 2461360, 'khwarizmian'.ljust(length, 'n')) if length > 11 else 'calendars-x'
        yield request('date 11 2026 11 15', 'wednesday'.ljust(length, 'y'))
        yield request('date 11 2026 11 15', 'all'.ljust(length, '-'))


def wrong_names():
    for name in list(NAMES.values()) + WEEK:
        for written in name[:-1], name + name[-1], name[1:], name[:-1] + chr(ord(name[-1]) ^ 1), name + '-', '1' + name:
            yield request('months', written, 1)
    for name in [
        'islamic', 'islamic-', 'islamic-c', 'islamic-ab', 'islamica', 'islamic_a', 'islamic--a', 'islamic a', 'mayan', 'chinese', 'bahai\u0301',
        'bah\u00e1\u00ed', 'sunday', 'g', '-', 'hebrew18', 'x-11', '11-',
    ]:
        yield request('day', 2461360, name)
        yield request('frame', name, 1, 1, 1)
    for name in ['mon', 'sun', 'sundays', 'sunda', 'sonntag', 'Sun.', 'day', 'gregorian', '7.', '7th', '-', '--', 'sunday-', 'sunday7']:
        yield date('gregorian', 2026, 11, 15, name)


# ---- forms


def blanks():
    yield from ['', ' ', '   ', '\t', '\r', ' \t\r ', '\r\r', ' ' * LONG, '\t' * 300, '\r' * 300]
    for form in ['day 2451545 11', 'date 11 2000 1 1', 'months 14 180', 'easter 2027', 'frame 11 2000 1 1', 'fit 31 30', 'unfold 153 5 2 6', 'calendars x']:
        yield form.replace(' ', '\t')
        yield form.replace(' ', '\r')
        yield form.replace(' ', ' \t\r  ')
        yield form + '\r'
        yield '   ' + form
        yield '\t \r' + form + ' \t '
    yield from [
        'day 2451545 11' + ' ' * LONG, ' ' * LONG + 'day 2451545 11', 'day' + ' \t\r' * 6000 + '2451545 11', 'date 11 2000 1 1' + ' ' * LONG + '6',
        'months 14 180 ' + ' ' * LONG + '1', 'day 2451545' + ' ' * 300 + '11', 'date 11 2000 1 1 6 ' + ' ' * 300 + '1', 'date 11 2000 1 1 6' + '\t' * 300,
    ]
    # no blanks
    for byte in ['\x0b', '\x0c', '\x00', '\x1f', '\x7f', '\u00a0', '\u2003', '\ufeff', ',', '/', '.', ';', '_']:
        yield f'day{byte}2451545'
        yield f'day 2451545{byte}11'
        yield f'{byte}day 2451545 11'
        yield f'day 2451545 11{byte}'
        yield byte


def numbers():
    """The same number written otherwise, and what is none."""
    yield from [
        'months 14  180', 'months 14 180 ', 'months 014 0180', 'months 00000000000000000000000000000014 00000000000000000000000000000180', 'months 10 -0',
        'months 10 -1', 'months 10 -004712', 'months 10 -0004713', 'months 011 -000', 'months 4 -1', 'months ' + '0' * LONG + '14 180',
        'months 14 ' + '0' * LONG + '180', 'months 10 -' + '0' * LONG + '4', 'date 011 02000 01 01 06', 'date 11 2000 1 1 00', 'date 10 -4712 1 1',
        'date 10 -4712 1 1 1', 'date 10 -0 1 1 4', 'date 11 ' + '0' * 300 + '2000 1 1 6', 'date 11 2000 1 1 ' + '0' * 300 + '6',
        'date 11 2000 1 1 ' + '9' * 300, 'day 0', 'day 00 10', 'day 2451545 0000000000000000000000000000000000000000000000000000000000000000000000000011',
        'day 18446744073709551615 11', 'day 18446744073709551616 11', 'day 1844674407370955161500000 11', 'day 18446744073709551654 11',
        'day 36893488147421554777 11', 'easter -9223372036854775808', 'easter 9223372036854775808',
    ]
    for number in [
        '-1', '-0', '-', '--1', '1-', '1-1', '+1', '1.0', '1,', '1e1', '0x1', '1x', 'x1', 'x', '1:', '1/', ':', '/', '1\u0661', '\u0661', '\u2212' '1', '1_0',
        "1'", '\x11', '\x10', 'q', '1\x00', '\x001', 'OO', 'l',
    ]:
        yield request('day', number)
        yield request('day 2451545', number)
        yield request('easter', number)
        yield request('months', number, 1)
        yield request('months 10', number)
        yield request('date 10 1', number, 1)
        yield request('date 10 1 1', number)
        yield request('date 10 1 1 1', number)
        yield request('fit', number)
        yield request('fit 31', number, 31)
        yield request('unfold 30 1 0 3', number)
    for at in range(4):
        for number in '-1', 'x':
            tokens = [153, 5, 2, 6]
            tokens[at] = number
            yield unfold(*tokens)
    yield from [
        'day hebrew', 'day hebrew 2461360', 'day sunday', 'easter gregorian', 'easter gregorian 2027', 'months 2026 gregorian', 'date 2026 11 15 gregorian',
        'date gregorian november 15', 'fit gregorian', 'unfold a b r count',
    ]


def tokens_shown():
    """What is shown of a token: 64 bytes, with a question mark for each that cannot be seen."""
    for length in 62, 63, 64, 65, 66, 127, 128, 129, 300:
        for letter in 'x', '9':
            yield letter * length
            yield request('calendars', letter * length)
        yield request('day', 'x' * length)
        yield request('date 11 2026', '-' * length, 15)
        yield request('easter', '-' + 'y' * (length - 1))
        yield request('fit 31', '1' * (length - 1) + 'x')
    yield from ['x' * LONG, '9' * LONG, request('calendars', '9' * LONG), request('easter', '-' + 'y' * LONG), request('fit 31', '1' * LONG + 'x')]
    for end in '\x00', '\x1f', '\x7f', '\u00e9', '~', '"', '\\', '?', '..', '!', '\x1b[2J':
        for before in 0, 1, 61, 62, 63, 64:
            yield 'z' * before + end
            yield request('day', 'z' * before + end + 'z')
    yield bytes(b for b in range(1, 256) if b not in (9, 10, 13, 32))
    yield b'day ' + bytes(b for b in range(33, 127))
    yield b'day ' + bytes(range(127, 256)) + b' x'
    yield b'\xe4\xe1\xf9 2461360'
    yield b'day \xb2\xb4'
    yield b'\x44\x41\x59\x80 2461360'
    # D, A, Y and digits without the bit that makes them letters and digits
    yield b'\x04\x01\x19 2461360'
    yield b'day \x12\x14\x15\x11\x15\x14\x15'
    yield b'day 2461360 g\x12egorian'
    yield b'day 2461360 islamic\x0da'
    yield b'day 2461360 islamic\x0e' + b'a'
    yield b'day 2461360 [hebrew]'
    yield b'@ay 2461360'
    yield b'd\x00ay 2461360'
    yield b'day 2461360\x00'
    yield b'day 2461360 \x00'
    yield b'\x00'
    yield b'\x00' * LONG
    yield b'\xff' * 65


def counts():
    """Too few tokens and too many, for each request, and which of several is at fault."""
    for form in ['day 2451545 11', 'date 11 2000 1 1 6', 'months 14 180', 'easter 2027', 'frame 11 2000 1 1', 'unfold 153 5 2 6 6']:
        tokens = form.split()
        for count in range(1, len(tokens)):
            if count == 2 and tokens[0] == 'day':
                continue
            yield request(*tokens[:count])
            yield request(*tokens[:count], 'x')
            yield request(*tokens[:count], 'x', 'y')
            yield request(*tokens[:count]) + '  \t'
        for more in ['1', '7', 'x', '1 1', 'x y', '1 x', '-', 'help', '1 ' * 300]:
            yield request(form, more)
    yield from [
        'day x y', 'day x 11', 'day 1 x y', 'day 1 99 x', 'day 5373485 x', 'day 5373485 99 99', 'date x y', 'date 99 x', 'date 99 20001 x',
        'date 99 20001 99 99 99 99', 'date 0 x 0 0', 'date', 'date gregorian', 'date gregorian 2026', 'date gregorian 2026 11', 'date gregorian 2026-11-15',
        'date gregorian 2026/11/15', 'date 2026 11 15', 'date 2026-11-15', 'date 15 november 2026', 'months', 'months hebrew', 'months 99', 'months 99 x',
        'months hebrew 5787 1', 'easter', 'easter 2027 11', 'easter x x', 'frame', 'frame hebrew', 'frame 99 x', 'unfold', 'unfold 153', 'unfold 0 0 0',
        'unfold 0 0 0 x', 'fit x', 'fit x y', 'fit 31 x y', 'fit 401 x', 'fit fit', 'fit unfold', 'fit 31 30 fit', 'fit 31, 30', 'fit 31 30.',
        'unfold 153,5,2,6', 'unfold fit',
    ]


def old_forms():
    """As the programs fit_lines and dates were asked; without a word a line is no request."""
    yield from [
        '2451545', '14 180', '11 2000 1 1', '11 2000 1 1 6', '14', '31 30', '14 180 1', '-14 180', '14 -180', '+14 180', '14-180', '14\t180', '14 180\r',
        '14/180', 'x 180', '14x 180', 'bahai 180', 'gregorian 2000 1 1', '"14 180"', '\u00e9', '\ufeff14 180', '\x0014 180', '14\x00180', '\x7f',
        '14 180 180' * 200, '365 days', '-2451545', ' 2451545', '11 refused 17', 'refused 17', 'fi', 'fitt', 'fits 31', ' fit 31', 'fit31', 'fit\t31',
        'fit 31\r', 'fit -31', 'fit +31', 'fit 31.0', 'fit 0x1f', 'fit 3/1', 'fit 3:1', 'tif 31', 'f it 31', 'fit\u00e9 31', 'fit 3\u0661', '\x01fit 31',
        'fit\x7f', 'unfol 153 5 2 6', 'unfolds 153 5 2 6', 'unfolded', 'Unfold 153 5 2 6', 'unfold153 5 2 6', 'unfold 153 5 2 6 5 4', 'fit ' + 'x' * 300,
        'unfold ' + '1 ' * 600,
    ]


def many_answers():
    """More answers to one reading than the output buffer holds."""
    for year in range(1, 61):
        yield months(14, year)
    for day in range(2451545, 2451555):
        yield request('day', day)
    for _ in range(4):
        yield from ['help', 'calendars', 'answers']


def main():
    parts = [
        lists, worked_codes, worked_years, dates_in_all, easters, codes_of_calendars, lines, long_lines, spoiled_at_the_last, extremes, fit_limits,
        unfold_limits, first_and_last_years, leap_years, refused_years, huge_years, days_in_all, days_in_one, dates, refused_dates, frames, words, wrong_names,
        blanks, numbers, tokens_shown, counts, old_forms, many_answers,
    ]
    requests = [line if isinstance(line, bytes) else line.encode() for part in parts for line in part()]
    # the last line has no newline
    sys.stdout.buffer.write(b'\n'.join(requests + [months('hebrew', 5785).encode()]))


main()
