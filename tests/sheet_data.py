#!/usr/bin/env python3
"""sheet_data.py: writes crates/sheet/stdin and crates/sheet/stdout, the long sheet that the gate runs and what it must give.

The verdicts are worked out here from docs/RULES.md alone, by counting: a calendar is a list of lengths for each year, and a day is found
by adding the lengths up. Nothing of the repository's code is used.

sheet_data.py --vectors FILE..    compares the calendars of this file with tables of dates (calendar, year, month, day, day number)
sheet_data.py --frames KIND N     writes about N frames to standard output, for measuring time: `years`, whole years of each calendar in
                                  their order, or `random`, dates at random in all calendars, one day in ten wrong
"""
import os
import random
import sys

LAST_DAY, LAST_YEAR = 5373484, 20000

# ---- the calendars: lengths of the positions of a year


def wandering(y):
    return [30] * 12 + [5]


def persian(y):
    return [30] * 8 + [5] + [30] * 4


def egyptian_leap(y):
    return [30] * 12 + [6 if y % 4 == 3 else 5]


def julian_months(leap):
    return [31, 29 if leap else 28, 31, 30, 31, 30, 31, 31, 30, 31, 30, 31]


def julian(y):
    return julian_months(y % 4 == 0)


def gregorian_leap(y):
    return (y % 4 == 0 and y % 100 != 0) or y % 400 == 0


def gregorian(y):
    return julian_months(gregorian_leap(y))


def from_month(first):
    def lengths(y):
        months = julian_months(y % 4 == 3)
        return months[first - 1:] + months[:first - 1]
    return lengths


def islamic(y):
    return [30, 29] * 5 + [30, 30 if (11 * y + 14) % 30 < 11 else 29]


def bahai(y):
    return [19] * 18 + [5 if gregorian_leap(y + 1844) else 4] + [19]


def saka(y):
    return [31 if gregorian_leap(y + 78) else 30] + [31] * 5 + [30] * 6


def hebrew_leap(y):
    return (7 * y + 1) % 19 < 7


def hebrew_start(y):
    months = sum(13 if hebrew_leap(i) else 12 for i in range(1, y)) if y < 40 else None
    if months is None:  # 235 months in 19 years
        whole, rest = divmod(y - 1, 19)
        months = 235 * whole + sum(13 if hebrew_leap(i) else 12 for i in range(1, rest + 1))
    parts = 5 * 1080 + 204 + months * (29 * 25920 + 12 * 1080 + 793)
    day, time = 347998 + parts // 25920, parts % 25920
    weekday = day % 7  # Monday is 0
    if time >= 18 * 1080:
        day += 1
    elif not hebrew_leap(y) and weekday == 1 and time >= 9 * 1080 + 204:
        day += 2
    elif not hebrew_leap(y) and hebrew_leap(y - 1) and weekday == 0 and time >= 15 * 1080 + 589:
        day += 1
    if day % 7 in (6, 2, 4):
        day += 1
    return day


def hebrew(y):
    total = hebrew_start(y + 1) - hebrew_start(y)
    leap = hebrew_leap(y)
    kind = total - (383 if leap else 353)
    assert kind in (0, 1, 2)
    return [30, [29, 29, 30][kind], [29, 30, 30][kind], 29, 30] + ([30, 29] if leap else [29, 0]) + [30, 29, 30, 29, 30, 29]


CALENDARS = {  # number: first year, first day, lengths
    1: (1, 1448638, wandering), 2: (1, 1922868, wandering), 3: (1, 1952068, wandering), 4: (1, 1952063, persian),
    5: (1, 1724221, egyptian_leap), 6: (1, 1825030, egyptian_leap), 7: (1, 2375840, egyptian_leap),
    8: (1, 1607709, from_month(9)), 9: (1, 1607739, from_month(10)), 10: (-4712, 0, julian), 11: (-4712, 38, gregorian),
    12: (1, 1948439, islamic), 13: (1, 1948440, islamic), 14: (1, 2394647, bahai), 15: (1, 1749995, saka), 18: (1, 347998, hebrew),
}
REPUBLICAN, REPUBLICAN_END = 7, (14, 4, 10)  # the last date; the lengths go on
starts = {}  # the first day of each year, counted from the calendar's first


def year_start(c, y):
    first, day, lengths = CALENDARS[c]
    known = starts.setdefault(c, [day])
    while len(known) <= y - first:
        known.append(known[-1] + sum(lengths(first + len(known) - 1)))
    return known[y - first]


def counted_day(c, y, m, d):
    """The day of a date that exists, counted on where it is after the calendar's end or past the last day."""
    return year_start(c, y) + sum(CALENDARS[c][2](y)[:m - 1]) + d - 1


def date_to_day(c, y, m, d):
    """The answer number and the day."""
    if c not in CALENDARS:
        return 1, 0
    first, _, lengths = CALENDARS[c]
    if y < first or y > LAST_YEAR:
        return 2, 0
    months = lengths(y)
    if m == 0 or m > len(months) or months[m - 1] == 0:
        return 3, 0
    if d == 0 or d > months[m - 1]:
        return 4, 0
    if c == REPUBLICAN and (y, m, d) > REPUBLICAN_END:
        return 17, 0
    n = counted_day(c, y, m, d)
    return (5, 0) if n > LAST_DAY else (0, n)


# ---- the sheet


def verdict(line):
    if len(line) != 16 or any(b not in b'0123456789abcdef' for b in line):
        return 8
    c, y, m, d, n = (int(line[a:e], 16) for a, e in ((0, 2), (2, 6), (6, 8), (8, 10), (10, 16)))
    number, day = date_to_day(c, y - 4712, m, d)
    return number if number else (0 if day == n else 9)


def output(data):
    lines = data.split(b'\n')
    if lines[-1] == b'':
        lines.pop()
    return b''.join(b'%02x\n' % verdict(line) for line in lines)


def frame(c, y, m, d, n):
    return b'%02x%04x%02x%02x%06x' % (c, y + 4712, m, d, n)


def dated(c, y, m, d, off=0):
    """The frame of a date with its day as counted, or with one that is off. A date that does not exist has day 0."""
    exists = date_to_day(c, y, m, d)[0] in (0, 5, 17)
    return frame(c, y, m, d, (counted_day(c, y, m, d) if exists else 0) + off)


def year_sheet(c, y):
    return [dated(c, y, m + 1, d + 1) for m, length in enumerate(CALENDARS[c][2](y)) for d in range(length)]


def random_frame(r):
    c = r.choice(sorted(CALENDARS))
    first, day, lengths = CALENDARS[c]
    y = r.randint(first, REPUBLICAN_END[0] if c == REPUBLICAN else 12000)
    months = lengths(y)
    m = r.choice([i for i, length in enumerate(months) if length]) + 1
    return dated(c, y, m, r.randint(1, months[m - 1]), r.choice([0] * 9 + [1]))


def sheet():
    r = random.Random(1)
    good = dated(11, 2000, 1, 1)
    lines = [good, b'0b1a38010125685a', b'xyz']
    # lines that are no frames
    lines += [b'', b'\r', good + b'\r', b'\r' * 16, b'\0', b'\0' * 16, good[:15] + b'\0', good.upper(), b'0B1A380101256859', b'0b1A380101256859']
    lines += [good[:15], good + b'0', b'0' + good, good[:8], good * 2, b' ' + good[1:], good[:15] + b' ', b'+' + good[1:], b'0x' + good[2:], b'-' * 16]
    lines += [good[:place] + bytes([b]) + good[place + 1:] for place in (0, 7, 15) for b in range(256) if b != 10]
    # each answer number of date to day
    lines += [frame(c, 2000, 1, 1, 2451545) for c in (0, 16, 17, 19, 20, 128, 255)]
    lines += [frame(c, y, 1, 1, 0) for c in CALENDARS for y in (-4712, -4711, 0, 1, 20000, 20001, 60823)]
    lines += [dated(c, y, m, 1) for c in CALENDARS for y in (5784, 5785) for m in (0, 1, 6, 7, 8, 12, 13, 14, 19, 20, 21, 255)]
    lines += [dated(c, y, m, d) for c in CALENDARS for y in (5784, 5785, 5786, 5787) for m in (1, 2, 6, 9, 12, 13, 19) for d in (0, 4, 5, 6, 19, 28, 29, 30, 31, 32, 255)]
    lines += [dated(11, 9999, 12, 31), dated(11, 10000, 1, 1), dated(10, -4712, 1, 1), dated(11, -4712, 1, 1), dated(10, 9999, 12, 31), dated(13, 15000, 1, 1)]
    lines += [dated(11, 1582, 10, 15), dated(10, 1582, 10, 4), dated(11, 1582, 10, 15, 1), dated(11, 2000, 2, 29), dated(11, 1900, 2, 29), dated(18, 5784, 1, 1), dated(18, 5785, 1, 1)]
    # Bahai and Saka: the extra day in 1900, which has none, and in 2000; the days after; and the day that there would be with every fourth year leap
    lines += [dated(14, 56, 19, 5), dated(14, 56, 20, 1), dated(14, 156, 19, 5), dated(14, 156, 20, 1), dated(14, 157, 1, 1), dated(14, 157, 1, 1, 1)]
    lines += [dated(15, 1822, 1, 31), dated(15, 1822, 2, 1), dated(15, 1922, 1, 31), dated(15, 1922, 2, 1), dated(15, 1879, 1, 1), dated(15, 1879, 1, 1, 15)]
    # Republican: the last date, with its day and another; later ones with their day, with another, with the last date's and with none; dates that do not exist; past the last day;
    # the last years. Ethiopian and Coptic dates go on
    lines += [dated(7, 14, 4, 9), dated(7, 14, 4, 10), dated(7, 14, 4, 10, 1), dated(7, 14, 4, 10, -1), frame(7, 14, 4, 10, 0)]
    lines += [dated(7, 14, 4, 11), dated(7, 14, 4, 11, 1), dated(7, 14, 4, 11, -1), frame(7, 14, 4, 11, 0), frame(7, 14, 4, 11, 0xffffff), dated(7, 14, 4, 30), dated(7, 14, 5, 1), dated(7, 14, 13, 5)]
    lines += [dated(7, 14, 4, 0), dated(7, 14, 4, 31), frame(7, 14, 4, 31, 2380708), dated(7, 14, 13, 6), dated(7, 14, 0, 11), dated(7, 14, 14, 11), dated(7, 15, 13, 6), dated(7, 15, 13, 7)]
    lines += [dated(7, 15, 1, 1), dated(7, 15, 1, 1, 1), dated(7, 100, 1, 1), dated(7, 8208, 2, 8), dated(7, 8208, 2, 9), dated(7, 20000, 13, 5), dated(7, 20000, 13, 6), dated(7, 20001, 1, 1)]
    lines += [dated(c, 14, 4, 11, off) for c in (5, 6) for off in (0, 1)] + year_sheet(7, 14)
    # the whole of a Gregorian and of a Hebrew year
    lines += year_sheet(11, 2024) + year_sheet(18, 5784)
    # a line of more than 64 KiB of digits, lines of no bytes, and the sheet goes on
    lines += [good, good * 4375, good] + [b''] * 6000 + [random_frame(r) for _ in range(1500)]
    lines += [bytes(r.choice(b'0123456789abcdefABCDEFg\r\0 ') for _ in range(r.choice([1, 15, 16, 16, 17, 40]))) for _ in range(200)]
    return b'\n'.join(lines + [dated(18, 5784, 13, 29)])


def main():
    if sys.argv[1:2] == ['--vectors']:
        count = 0
        for name in sys.argv[2:]:
            for row in open(name):
                if not row.startswith('#'):
                    c, y, m, d, n = map(int, row.split('\t')[:5])
                    assert date_to_day(c, y, m, d) == (0, n), row
                    count += 1
        print(count, 'dates agree')
    elif sys.argv[1:2] == ['--frames']:
        r = random.Random(2)
        if sys.argv[2] == 'years':
            some = [line for c in CALENDARS for y in (range(1, REPUBLICAN_END[0]) if c == REPUBLICAN else range(5700, 5800)) for line in year_sheet(c, y)]
        else:
            some = [random_frame(r) for _ in range(20000)]
            some = r.choices(some, k=500000)
        for _ in range(-(-int(sys.argv[3]) // len(some))):
            sys.stdout.buffer.write(b'\n'.join(some) + b'\n')
    else:
        folder = os.path.join(os.path.dirname(os.path.abspath(__file__)), '..', 'crates', 'sheet')
        data = sheet()
        answers = output(data)
        assert answers.startswith(b'00\n09\n08\n')
        assert {int(a, 16) for a in answers.split()} == {0, 1, 2, 3, 4, 5, 8, 9, 17}
        republican = [date_to_day(7, y, m, d) for y in (*range(40), 8208, 20000, 20001) for m in range(15) for d in range(32)]
        assert [n for number, n in republican if number == 0] == list(range(2375840, 2380687 + 1))
        open(os.path.join(folder, 'stdin'), 'wb').write(data)
        open(os.path.join(folder, 'stdout'), 'wb').write(answers)


main()
