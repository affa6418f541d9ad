#!/usr/bin/env python3
"""What the program dates must answer, from docs/RULES.md alone: each year's lengths as a list, years counted on from the calendar's first day, weekdays
from Python's own calendar. It shares nothing with the program.

    python3 tests/dates_requests.py > crates/dates/stdin
    python3 tests/dates_expected.py < crates/dates/stdin > crates/dates/stdout

`rt ci` runs the program on that stdin and compares.
"""
import bisect
import datetime
import functools
import re
import sys

LAST_YEAR = 20000
LAST_DAY = 5373484
# the Republican calendar's last day
LAST_REPUBLICAN = 2380687


def gregorian_leap(year):
    return year % 400 == 0 or (year % 4 == 0 and year % 100 != 0)


# ---- calendars 1 to 15: the lengths of a common and of a leap year, position by position, and which years are leap

MONTHS = [31, 28, 31, 30, 31, 30, 31, 31, 30, 31, 30, 31]
LEAP_MONTHS = [31, 29, 31, 30, 31, 30, 31, 31, 30, 31, 30, 31]
FROM_SEPTEMBER = [30, 31, 30, 31, 31, 28, 31, 30, 31, 30, 31, 31]
LEAP_FROM_SEPTEMBER = [30, 31, 30, 31, 31, 29, 31, 30, 31, 30, 31, 31]
FROM_OCTOBER = [31, 30, 31, 31, 28, 31, 30, 31, 30, 31, 31, 30]
LEAP_FROM_OCTOBER = [31, 30, 31, 31, 29, 31, 30, 31, 30, 31, 31, 30]
THIRTIES = [30, 30, 30, 30, 30, 30, 30, 30, 30, 30, 30, 30, 5]
LEAP_THIRTIES = [30, 30, 30, 30, 30, 30, 30, 30, 30, 30, 30, 30, 6]
PERSIAN = [30, 30, 30, 30, 30, 30, 30, 30, 5, 30, 30, 30, 30]
ISLAMIC = [30, 29, 30, 29, 30, 29, 30, 29, 30, 29, 30, 29]
LEAP_ISLAMIC = [30, 29, 30, 29, 30, 29, 30, 29, 30, 29, 30, 30]
BAHAI = [19, 19, 19, 19, 19, 19, 19, 19, 19, 19, 19, 19, 19, 19, 19, 19, 19, 19, 4, 19]
LEAP_BAHAI = [19, 19, 19, 19, 19, 19, 19, 19, 19, 19, 19, 19, 19, 19, 19, 19, 19, 19, 5, 19]
SAKA = [30, 31, 31, 31, 31, 31, 30, 30, 30, 30, 30, 30]
LEAP_SAKA = [31, 31, 31, 31, 31, 31, 30, 30, 30, 30, 30, 30]


def never(year):
    return False


def third_of_four(year):
    return year % 4 == 3


def fourth(year):
    return year % 4 == 0


def eleven_of_thirty(year):
    return (11 * year + 14) % 30 < 11


def bahai_leap(year):
    return gregorian_leap(year + 1844)


def saka_leap(year):
    return gregorian_leap(year + 78)


CALENDARS = {
    1: (THIRTIES, THIRTIES, never),
    2: (THIRTIES, THIRTIES, never),
    3: (THIRTIES, THIRTIES, never),
    4: (PERSIAN, PERSIAN, never),
    5: (THIRTIES, LEAP_THIRTIES, third_of_four),
    6: (THIRTIES, LEAP_THIRTIES, third_of_four),
    7: (THIRTIES, LEAP_THIRTIES, third_of_four),
    8: (FROM_SEPTEMBER, LEAP_FROM_SEPTEMBER, third_of_four),
    9: (FROM_OCTOBER, LEAP_FROM_OCTOBER, third_of_four),
    10: (MONTHS, LEAP_MONTHS, fourth),
    11: (MONTHS, LEAP_MONTHS, gregorian_leap),
    12: (ISLAMIC, LEAP_ISLAMIC, eleven_of_thirty),
    13: (ISLAMIC, LEAP_ISLAMIC, eleven_of_thirty),
    14: (BAHAI, LEAP_BAHAI, bahai_leap),
    15: (SAKA, LEAP_SAKA, saka_leap),
}

# the day of 1/1 of the first year
FIRST_DAYS = {
    1: 1448638, 2: 1922868, 3: 1952068, 4: 1952063, 5: 1724221, 6: 1825030, 7: 2375840, 8: 1607709, 9: 1607739, 10: 0, 11: 38, 12: 1948439, 13: 1948440,
    14: 2394647, 15: 1749995, 18: 347998,
}

# calendar and position of the loose days
STRIPS = {(1, 13), (2, 13), (3, 13), (4, 9), (5, 13), (6, 13), (7, 13), (14, 19)}

# ---- calendar 18

HEBREW = {
    353: [30, 29, 29, 29, 30, 29, 0, 30, 29, 30, 29, 30, 29],
    354: [30, 29, 30, 29, 30, 29, 0, 30, 29, 30, 29, 30, 29],
    355: [30, 30, 30, 29, 30, 29, 0, 30, 29, 30, 29, 30, 29],
    383: [30, 29, 29, 29, 30, 30, 29, 30, 29, 30, 29, 30, 29],
    384: [30, 29, 30, 29, 30, 30, 29, 30, 29, 30, 29, 30, 29],
    385: [30, 30, 30, 29, 30, 30, 29, 30, 29, 30, 29, 30, 29],
}
HOUR = 1080
DAY = 24 * HOUR
MONDAY, TUESDAY, WEDNESDAY, THURSDAY, FRIDAY, SATURDAY, SUNDAY = range(7)


def hebrew_leap(year):
    return (7 * year + 1) % 19 < 7


@functools.lru_cache(None)
def new_moons():
    """The first mean new moon of each year from 1 on, in parts since the beginning of day 0: the months are added one by one."""
    moment, found = 347998 * DAY + 5 * HOUR + 204, [None]
    for year in range(1, LAST_YEAR + 2):
        found.append(moment)
        for _ in range(13 if hebrew_leap(year) else 12):
            moment += 29 * DAY + 12 * HOUR + 793
    return found


def hebrew_first_day(year):
    day, time = divmod(new_moons()[year], DAY)
    if time >= 18 * HOUR:
        day += 1
    elif not hebrew_leap(year) and day % 7 == TUESDAY and time >= 9 * HOUR + 204:
        day += 2
    elif not hebrew_leap(year) and hebrew_leap(year - 1) and day % 7 == MONDAY and time >= 15 * HOUR + 589:
        day += 1
    if day % 7 in (SUNDAY, WEDNESDAY, FRIDAY):
        day += 1
    return day


# ---- years, dates and weekdays


def first_year(calendar):
    return -4712 if calendar in (10, 11) else 1


def lengths(calendar, year):
    if calendar == 18:
        return HEBREW[hebrew_first_day(year + 1) - hebrew_first_day(year)]
    common, leap, is_leap = CALENDARS[calendar]
    return leap if is_leap(year) else common


@functools.lru_cache(None)
def year_starts(calendar):
    """The first day of each year, from the first year to the one after the last."""
    found = [FIRST_DAYS[calendar]]
    for year in range(first_year(calendar), LAST_YEAR + 1):
        found.append(found[-1] + sum(lengths(calendar, year)))
    return found


# the day before 1 January of year 1, Gregorian, from which Python counts
DAY_BEFORE_YEAR_1 = 1721425
# whole weeks that lead from any earlier day to one that Python has
WEEKS = 7 * 250000


def weekday(day):
    if day <= DAY_BEFORE_YEAR_1:
        day += WEEKS
    return datetime.date.fromordinal(day - DAY_BEFORE_YEAR_1).isoweekday()


def check():
    """What is counted here against Python's Gregorian calendar, and a weekday that all know."""
    assert weekday(day_of(11, 2000, 1, 1)) == 6
    for ordinal in list(range(1, 3652060, 1009)) + [3652059]:
        other = datetime.date.fromordinal(ordinal)
        day = ordinal + DAY_BEFORE_YEAR_1
        assert date_of(11, day) == (other.year, other.month, other.day)
        assert day_of(11, other.year, other.month, other.day) == day
    # no Hebrew year begins on a Sunday, a Wednesday or a Friday
    assert {weekday(day) for day in year_starts(18) if day <= LAST_DAY} == {1, 2, 4, 6}


# ---- answers


class Refused(Exception):
    pass


def check_year(calendar, year):
    if calendar not in FIRST_DAYS:
        raise Refused(1)
    if year < first_year(calendar) or LAST_YEAR < year:
        raise Refused(2)


def day_of(calendar, year, month, day):
    check_year(calendar, year)
    found = lengths(calendar, year)
    if not 1 <= month <= len(found) or found[month - 1] == 0:
        raise Refused(3)
    if not 1 <= day <= found[month - 1]:
        raise Refused(4)
    number = year_starts(calendar)[year - first_year(calendar)] + sum(found[:month - 1]) + day - 1
    if calendar == 7 and LAST_REPUBLICAN < number:
        raise Refused(17)
    if LAST_DAY < number:
        raise Refused(5)
    return number


def date_of(calendar, day):
    if day < FIRST_DAYS[calendar] or LAST_DAY < day:
        raise Refused(5)
    if calendar == 7 and LAST_REPUBLICAN < day:
        raise Refused(17)
    starts = year_starts(calendar)
    years = bisect.bisect(starts, day) - 1
    year, rest, month = first_year(calendar) + years, day - starts[years], 1
    for length in lengths(calendar, year):
        if rest < length:
            break
        rest, month = rest - length, month + 1
    return year, month, rest + 1


def with_weekday(calendar, year, month, day, handed_in=0):
    number = day_of(calendar, year, month, day)
    if handed_in not in (0, weekday(number)):
        raise Refused(13)
    return [str(number)]


def in_calendar(calendar, day):
    try:
        return '{} {} {} {} {}'.format(calendar, *date_of(calendar, day), weekday(day))
    except Refused as why:
        return f'{calendar} refused {why}'


def in_all(day):
    return [in_calendar(calendar, day) for calendar in sorted(FIRST_DAYS)]


def position(calendar, number, days):
    if days == 0:
        return f'{number} none'
    if (calendar, number) in STRIPS:
        return f'{number} strip {days}'
    return f'{number} month {days}'


def positions(calendar, year):
    check_year(calendar, year)
    found = lengths(calendar, year)
    return [position(calendar, i + 1, days) for i, days in enumerate(found)] + [f'{sum(found)} days']


ANSWERS = {1: in_all, 2: positions, 4: with_weekday, 5: with_weekday}


def answer(line):
    numbers = line.split()
    if not re.fullmatch(rb'[0-9]+( +-?[0-9]+( +[0-9]+)*)? *', line) or len(numbers) not in ANSWERS:
        return ['not a request']
    try:
        return ANSWERS[len(numbers)](*map(int, numbers))
    except Refused as why:
        return [f'refused {why}']


def main():
    sys.set_int_max_str_digits(0)
    check()
    lines = sys.stdin.buffer.read().split(b'\n')
    if lines[-1] == b'':
        lines.pop()
    for line in lines:
        for text in answer(line):
            print(text)


main()
