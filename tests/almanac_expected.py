#!/usr/bin/env python3
"""What the program almanac must answer, from docs/RULES.md alone. It shares nothing with the program.

    python3 tests/almanac_requests.py > crates/almanac/stdin
    python3 tests/almanac_expected.py < crates/almanac/stdin > crates/almanac/stdout

`rt ci` runs the program on that stdin and compares. It takes half a minute, nearly all of it for the fits.

Requests: each has the rows of places that it may consist of, shortest first. A token is at fault where no row has a place for it and every token
before it; a request ends too soon where all tokens have places and no row is full.

Dates: each year's lengths as a list, years counted on from the calendar's first day, weekdays from Python's own calendar.

Lines: the mark of the line a, b, r at k is (a k + r) / b rounded down; the line generates a code when at each place k mark k+1 less mark k is
the length there. Adding b to r adds 1 to every mark and changes no length, so r from 0 to b-1 is enough. Then the mark at 0 is 0, and
the line generates the code when its mark at k is y[k], the sum of the first k lengths, for k from 0 to n.

Whether any line does, with b however large: it says y[k] <= s k + t < y[k] + 1 with s = a/b and t = r/b, and fractions s and t have a
common denominator. For a given s some t serves exactly when y[i] - s i < y[j] + 1 - s j for all i and j, which bounds s below by
(y[i] - y[j] - 1) / (i - j) for j < i and above by (y[j] - y[i] + 1) / (j - i) for i < j, both strictly. So a line exists exactly when the
greatest lower bound is below the least upper bound.

Which line, where one exists: b = 1, 2, .. in turn without an end, each a that the last mark allows (it is y[n] for some r from 0 to b-1,
so b y[n] - (b-1) <= a n <= b y[n] + b-1), each r from 0 to b-1, and every mark tried. The first b with a line is the answer's, and the
script stops if that b has two lines.
"""
import bisect
import datetime
import functools
import itertools
import re
import sys
from fractions import Fraction

LAST_YEAR = 20000
LAST_DAY = 5373484
# the Republican calendar's last day
LAST_REPUBLICAN = 2380687


def gregorian_leap(year):
    return year % 400 == 0 or (year % 4 == 0 and year % 100 != 0)


# ---- calendars 1 to 15: the lengths of a common and of a leap year, position by position, and which years are leap

MONTHS = [31, 28, 31, 30, 31, 30, 31, 31, 30, 31, 30, 31]
LEAP_MONTHS = [31, 29, 31, 30, 31, 30, 31, 31, 30, 31, 30, 31]
FROM_SEPTEMBER = [30, 31, 30, 31, 31, 28, 31, 30, 31, 30, 31, 31]
LEAP_FROM_SEPTEMBER = [30, 31, 30, 31, 31, 29, 31, 30, 31, 30, 31, 31]
FROM_OCTOBER = [31, 30, 31, 31, 28, 31, 30, 31, 30, 31, 31, 30]
LEAP_FROM_OCTOBER = [31, 30, 31, 31, 29, 31, 30, 31, 30, 31, 31, 30]
THIRTIES = [30, 30, 30, 30, 30, 30, 30, 30, 30, 30, 30, 30, 5]
LEAP_THIRTIES = [30, 30, 30, 30, 30, 30, 30, 30, 30, 30, 30, 30, 6]
PERSIAN = [30, 30, 30, 30, 30, 30, 30, 30, 5, 30, 30, 30, 30]
ISLAMIC = [30, 29, 30, 29, 30, 29, 30, 29, 30, 29, 30, 29]
LEAP_ISLAMIC = [30, 29, 30, 29, 30, 29, 30, 29, 30, 29, 30, 30]
BAHAI = [19, 19, 19, 19, 19, 19, 19, 19, 19, 19, 19, 19, 19, 19, 19, 19, 19, 19, 4, 19]
LEAP_BAHAI = [19, 19, 19, 19, 19, 19, 19, 19, 19, 19, 19, 19, 19, 19, 19, 19, 19, 19, 5, 19]
SAKA = [30, 31, 31, 31, 31, 31, 30, 30, 30, 30, 30, 30]
LEAP_SAKA = [31, 31, 31, 31, 31, 31, 30, 30, 30, 30, 30, 30]


def never(year):
    return False


def third_of_four(year):
    return year % 4 == 3


def fourth(year):
    return year % 4 == 0


def eleven_of_thirty(year):
    return (11 * year + 14) % 30 < 11


def bahai_leap(year):
    return gregorian_leap(year + 1844)


def saka_leap(year):
    return gregorian_leap(year + 78)


CALENDARS = {
    1: (THIRTIES, THIRTIES, never),
    2: (THIRTIES, THIRTIES, never),
    3: (THIRTIES, THIRTIES, never),
    4: (PERSIAN, PERSIAN, never),
    5: (THIRTIES, LEAP_THIRTIES, third_of_four),
    6: (THIRTIES, LEAP_THIRTIES, third_of_four),
    7: (THIRTIES, LEAP_THIRTIES, third_of_four),
    8: (FROM_SEPTEMBER, LEAP_FROM_SEPTEMBER, third_of_four),
    9: (FROM_OCTOBER, LEAP_FROM_OCTOBER, third_of_four),
    10: (MONTHS, LEAP_MONTHS, fourth),
    11: (MONTHS, LEAP_MONTHS, gregorian_leap),
    12: (ISLAMIC, LEAP_ISLAMIC, eleven_of_thirty),
    13: (ISLAMIC, LEAP_ISLAMIC, eleven_of_thirty),
    14: (BAHAI, LEAP_BAHAI, bahai_leap),
    15: (SAKA, LEAP_SAKA, saka_leap),
}

# the day of 1/1 of the first year
FIRST_DAYS = {
    1: 1448638, 2: 1922868, 3: 1952068, 4: 1952063, 5: 1724221, 6: 1825030, 7: 2375840, 8: 1607709, 9: 1607739, 10: 0, 11: 38, 12: 1948439, 13: 1948440,
    14: 2394647, 15: 1749995, 18: 347998,
}

NAMES = {
    1: 'egyptian', 2: 'armenian', 3: 'khwarizmian', 4: 'persian', 5: 'ethiopian', 6: 'coptic', 7: 'republican', 8: 'macedonian', 9: 'syrian', 10: 'julian',
    11: 'gregorian', 12: 'islamic-a', 13: 'islamic-b', 14: 'bahai', 15: 'saka', 18: 'hebrew',
}

# calendar and position of the loose days
STRIPS = {(1, 13), (2, 13), (3, 13), (4, 9), (5, 13), (6, 13), (7, 13), (14, 19)}

WEEK = ['monday', 'tuesday', 'wednesday', 'thursday', 'friday', 'saturday', 'sunday']

# ---- calendar 18

HEBREW = {
    353: [30, 29, 29, 29, 30, 29, 0, 30, 29, 30, 29, 30, 29],
    354: [30, 29, 30, 29, 30, 29, 0, 30, 29, 30, 29, 30, 29],
    355: [30, 30, 30, 29, 30, 29, 0, 30, 29, 30, 29, 30, 29],
    383: [30, 29, 29, 29, 30, 30, 29, 30, 29, 30, 29, 30, 29],
    384: [30, 29, 30, 29, 30, 30, 29, 30, 29, 30, 29, 30, 29],
    385: [30, 30, 30, 29, 30, 30, 29, 30, 29, 30, 29, 30, 29],
}
HOUR = 1080
DAY = 24 * HOUR
MONDAY, TUESDAY, WEDNESDAY, THURSDAY, FRIDAY, SATURDAY, SUNDAY = range(7)


def hebrew_leap(year):
    return (7 * year + 1) % 19 < 7


@functools.lru_cache(None)
def new_moons():
    """The first mean new moon of each year from 1 on, in parts since the beginning of day 0: the months are added one by one."""
    moment, found = 347998 * DAY + 5 * HOUR + 204, [None]
    for year in range(1, LAST_YEAR + 2):
        found.append(moment)
        for _ in range(13 if hebrew_leap(year) else 12):
            moment += 29 * DAY + 12 * HOUR + 793
    return found


def hebrew_first_day(year):
    day, time = divmod(new_moons()[year], DAY)
    if time >= 18 * HOUR:
        day += 1
    elif not hebrew_leap(year) and day % 7 == TUESDAY and time >= 9 * HOUR + 204:
        day += 2
    elif not hebrew_leap(year) and hebrew_leap(year - 1) and day % 7 == MONDAY and time >= 15 * HOUR + 589:
        day += 1
    if day % 7 in (SUNDAY, WEDNESDAY, FRIDAY):
        day += 1
    return day


# ---- years, dates and weekdays


class Refused(Exception):
    pass


def first_year(calendar):
    return -4712 if calendar in (10, 11) else 1


def lengths(calendar, year):
    if calendar == 18:
        return HEBREW[hebrew_first_day(year + 1) - hebrew_first_day(year)]
    common, leap, is_leap = CALENDARS[calendar]
    return leap if is_leap(year) else common


@functools.lru_cache(None)
def year_starts(calendar):
    """The first day of each year, from the first year to the one after the last."""
    found = [FIRST_DAYS[calendar]]
    for year in range(first_year(calendar), LAST_YEAR + 1):
        found.append(found[-1] + sum(lengths(calendar, year)))
    return found


# the day before 1 January of year 1, Gregorian, from which Python counts
DAY_BEFORE_YEAR_1 = 1721425
# whole weeks that lead from any earlier day to one that Python has
WEEKS = 7 * 250000


def weekday(day):
    if day <= DAY_BEFORE_YEAR_1:
        day += WEEKS
    return datetime.date.fromordinal(day - DAY_BEFORE_YEAR_1).isoweekday()


def check_year(calendar, year):
    if calendar not in FIRST_DAYS:
        raise Refused(1)
    if year < first_year(calendar) or LAST_YEAR < year:
        raise Refused(2)


def day_of(calendar, year, month, day, handed_in=0):
    check_year(calendar, year)
    found = lengths(calendar, year)
    if not 1 <= month <= len(found) or found[month - 1] == 0:
        raise Refused(3)
    if not 1 <= day <= found[month - 1]:
        raise Refused(4)
    number = year_starts(calendar)[year - first_year(calendar)] + sum(found[:month - 1]) + day - 1
    if calendar == 7 and LAST_REPUBLICAN < number:
        raise Refused(17)
    if LAST_DAY < number:
        raise Refused(5)
    if handed_in not in (0, weekday(number)):
        raise Refused(13)
    return number


def date_of(calendar, day):
    if calendar not in FIRST_DAYS:
        raise Refused(1)
    if day < FIRST_DAYS[calendar] or LAST_DAY < day:
        raise Refused(5)
    if calendar == 7 and LAST_REPUBLICAN < day:
        raise Refused(17)
    starts = year_starts(calendar)
    years = bisect.bisect(starts, day) - 1
    year, rest, month = first_year(calendar) + years, day - starts[years], 1
    for length in lengths(calendar, year):
        if rest < length:
            break
        rest, month = rest - length, month + 1
    return year, month, rest + 1


def easter(calendar, year):
    """Month and day."""
    if not (1 if calendar == 10 else 1583) <= year <= 9999:
        raise Refused(2)
    m, n = 15, 6
    if calendar == 11:
        s = year // 100
        r = 0 if s < 17 else (s - 17) // 25
        p, q = (s - r) // 3, s // 4
        m, n = (15 + s - p - q) % 30, (4 + s - q) % 7
    d = (19 * (year % 19) + m) % 30
    e = (2 * (year % 4) + 4 * (year % 7) + 6 * d + n) % 7
    if d == 29 and e == 6:
        return 4, 19
    if d == 28 and e == 6 and (11 * m + 11) % 30 < 19:
        return 4, 18
    return (3, 22 + d + e) if 22 + d + e <= 31 else (4, d + e - 9)


def check():
    """What is counted here against Python's Gregorian calendar, and what else all know."""
    assert weekday(day_of(11, 2000, 1, 1)) == 6
    for ordinal in list(range(1, 3652060, 1009)) + [3652059]:
        other = datetime.date.fromordinal(ordinal)
        day = ordinal + DAY_BEFORE_YEAR_1
        assert date_of(11, day) == (other.year, other.month, other.day)
        assert day_of(11, other.year, other.month, other.day) == day
    # no Hebrew year begins on a Sunday, a Wednesday or a Friday
    assert {weekday(day) for day in year_starts(18) if day <= LAST_DAY} == {1, 2, 4, 6}
    # Easter is a Sunday
    for calendar, first in (10, 1), (11, 1583):
        assert {weekday(day_of(calendar, year, *easter(calendar, year))) for year in range(first, 10000)} == {7}


# ---- lines and codes

MOST = 512
LONGEST = 400


def sums(code):
    y = [0]
    for length in code:
        y.append(y[-1] + length)
    return y


def greatest(fractions):
    p, q = fractions[0]
    for u, v in fractions:
        if u * q > p * v:
            p, q = u, v
    return Fraction(p, q)


def exists(y):
    pairs = [(j, i) for i in range(len(y)) for j in range(i)]
    lower = greatest([(y[i] - y[j] - 1, i - j) for j, i in pairs])
    upper = -greatest([(-(y[i] - y[j] + 1), i - j) for j, i in pairs])
    return lower < upper


def generates(a, b, r, y):
    for k, mark in enumerate(y):
        if (a * k + r) // b != mark:
            return False
    return True


def least(y):
    n = len(y) - 1
    b = 0
    while True:
        b += 1
        low = -((b - 1 - b * y[n]) // n)
        high = (b * y[n] + b - 1) // n
        found = [(a, b, r) for a in range(low, high + 1) for r in range(b) if generates(a, b, r, y)]
        if found:
            assert len(found) == 1, found
            return found[0]


@functools.lru_cache(None)
def fit(*code):
    if not 1 <= len(code) <= MOST or max(code) > LONGEST:
        raise Refused(6)
    y = sums(code)
    if not exists(y):
        raise Refused(7)
    return least(y)


def unfold(a, b, r, count, room=MOST):
    if not (1 <= b <= MOST and r < b and a <= LONGEST * b):
        raise Refused(10)
    if not 1 <= count <= MOST:
        raise Refused(6)
    if min(room, MOST) < count:
        raise Refused(11)
    return [(a * (k + 1) + r) // b - (a * k + r) // b for k in range(count)]


# ---- what is written

WORDS = {
    0: 'done',
    1: 'no such calendar',
    2: 'the year is out of range',
    3: 'no such month in that year',
    4: 'no such day in that month',
    5: "before the calendar's first day or after 5373484",
    6: 'not 1 to 512 lengths of 0 to 400 days',
    7: 'no line gives these lengths',
    8: 'not 16 lowercase hexadecimal digits',
    9: "another day than its date's",
    10: 'no line within the limits',
    11: 'the buffer is shorter than the count',
    13: "another weekday than the day's",
    17: "after the calendar's end",
}

HELP = '''\
almanac answers one request, given as arguments, or requests from standard
input, one a line.

Request                                       Example
day N [CALENDAR]                              day 2461360 hebrew
date CALENDAR YEAR MONTH DAY [WEEKDAY] [all]  date gregorian 2026 11 15 all
months CALENDAR YEAR                          months hebrew 5787
easter YEAR                                   easter 2027
frame CALENDAR YEAR MONTH DAY                 frame gregorian 2026 11 15
fit LENGTH ..                                 fit 31 30 31 30 31 31
unfold A B R COUNT [ROOM]                     unfold 153 5 2 12
calendars                                     calendars
answers                                       answers
help                                          help

N is a Julian day number. CALENDAR is a number or a name that calendars lists.
WEEKDAY is 1 (Monday) to 7 (Sunday) or its name; all adds the day's date in
every calendar. A minus sign may stand before YEAR. fit finds the line A, B, R
whose marks (A k + R) / B step by the lengths; unfold writes a line's lengths.
A refusal gives its answer number and why; answers lists them.'''.split('\n')


def refusal(why):
    return f'refused {why}: {WORDS[why.args[0]]}'


def labelled(calendar):
    return f'{calendar:2} {NAMES[calendar]:11}'


def day_and_weekday(day):
    return f'{day} {WEEK[weekday(day) - 1]}'


def in_calendar(calendar, day):
    try:
        return '{} {:5} {:2} {:2}'.format(labelled(calendar), *date_of(calendar, day))
    except Refused as why:
        return f'{labelled(calendar)} {refusal(why)}'


def in_all(day):
    if LAST_DAY < day:
        raise Refused(5)
    return [day_and_weekday(day)] + [in_calendar(calendar, day) for calendar in NAMES]


def in_one(day, calendar):
    return ['{} {} {} {}'.format(*date_of(calendar, day), WEEK[weekday(day) - 1])]


def answer_day(day, *calendar):
    return in_one(day, *calendar) if calendar else in_all(day)


def answer_date(calendar, year, month, day, *rest):
    number = day_of(calendar, year, month, day, *(x for x in rest if x != 'all'))
    return in_all(number) if 'all' in rest else [day_and_weekday(number)]


def position(calendar, number, days):
    kind = 'none' if days == 0 else 'strip' if (calendar, number) in STRIPS else 'month'
    return f'{number:2} {kind:5} {days:2}'


def answer_months(calendar, year):
    check_year(calendar, year)
    found = lengths(calendar, year)
    try:
        first = day_of(calendar, year, 1, 1)
    except Refused as why:
        first = refusal(why)
    return [position(calendar, i + 1, days) for i, days in enumerate(found)] + [f'first day {first}', f'days {sum(found)}']


def easter_in(calendar, year):
    try:
        date = year, *easter(calendar, year)
        return '{} {:5} {:2} {:2} {}'.format(labelled(calendar), *date, day_of(calendar, *date))
    except Refused as why:
        return f'{labelled(calendar)} {refusal(why)}'


def answer_easter(year):
    return [easter_in(10, year), easter_in(11, year)]


def answer_frame(calendar, year, month, day):
    return [f'{calendar:02x}{year + 4712:04x}{month:02x}{day:02x}{day_of(calendar, year, month, day):06x}']


def done(values):
    return ' '.join(map(str, [0, *values]))


def answer_fit(*code):
    return [done(fit(*code))]


def answer_unfold(*numbers):
    return [done(unfold(*numbers))]


def answer_calendars():
    return [f'{labelled(c)} {FIRST_DAYS[c]:7} {first_year(c):5}' for c in NAMES]


def answer_answers():
    return [f'{number:2} {words}' for number, words in WORDS.items()]


def answer_help():
    return HELP


# ---- what is read. A place answers the value of a token, or None where it does not fit


def natural(token):
    return min(int(token), 2**64 - 1) if re.fullmatch(rb'[0-9]+', token) else None


def year(token):
    return max(-2**63, min(int(token), 2**63 - 1)) if re.fullmatch(rb'-?[0-9]+', token) else None


def word(token):
    return token.lower().decode() if re.fullmatch(rb'[A-Za-z-]{1,12}', token) else None


def one_of(names):
    def place(token):
        return names.get(word(token), natural(token))
    return place


calendar = one_of({name: number for number, name in NAMES.items()})
weekday_place = one_of({name: i + 1 for i, name in enumerate(WEEK)})


def every(token):
    return 'all' if word(token) == 'all' else None


DATE = [calendar, year, natural, natural]

# the form, the rows of places (fit has one for every count of tokens), the answer
REQUESTS = {
    'day': ('day N [CALENDAR]', [[natural], [natural, calendar]], answer_day),
    'date': (
        'date CALENDAR YEAR MONTH DAY [WEEKDAY] [all]',
        [DATE, DATE + [every], DATE + [weekday_place], DATE + [weekday_place, every]],
        answer_date,
    ),
    'months': ('months CALENDAR YEAR', [[calendar, year]], answer_months),
    'easter': ('easter YEAR', [[year]], answer_easter),
    'frame': ('frame CALENDAR YEAR MONTH DAY', [DATE], answer_frame),
    'fit': ('fit LENGTH ..', None, answer_fit),
    'unfold': ('unfold A B R COUNT [ROOM]', [[natural] * 4, [natural] * 5], answer_unfold),
    'calendars': ('calendars', [[]], answer_calendars),
    'answers': ('answers', [[]], answer_answers),
    'help': ('help', [[]], answer_help),
}
REQUESTS['--help'] = REQUESTS['-h'] = REQUESTS['help']

SHOWN = 64


class NoRequest(Exception):
    pass


def shown(token):
    text = ''.join(chr(byte) if 0x20 <= byte <= 0x7e else '?' for byte in token[:SHOWN])
    return f'"{text}"' if len(token) <= SHOWN else f'"{text}.."'


def tokens_of(line):
    return re.findall(rb'[^ \t\r]+', line)


def values_of(tokens, rows, form):
    """What the tokens after the first stand for."""
    if rows is None:
        rows = [[natural] * len(tokens)]
    values = []
    for i, token in enumerate(tokens):
        read = [(row, row[i](token)) for row in rows if i < len(row)]
        read = [(row, value) for row, value in read if value is not None]
        if not read:
            raise NoRequest(f'{shown(token)}; the form is {form}')
        rows = [row for row, _ in read]
        values.append(read[0][1])
    if len(rows[0]) != len(tokens):
        raise NoRequest(f'it ends too soon; the form is {form}')
    return values


def is_request(tokens):
    return tokens != [] and word(tokens[0]) in REQUESTS


def answer(line):
    """The lines of the answer to a line of standard input."""
    tokens = tokens_of(line)
    try:
        if not is_request(tokens):
            raise NoRequest((shown(tokens[0]) if tokens else 'an empty line') + '; help lists the requests')
        form, rows, answered = REQUESTS[word(tokens[0])]
        return answered(*values_of(tokens[1:], rows, form))
    except NoRequest as why:
        return [f'not a request: {why}']
    except Refused as why:
        return [refusal(why)]


def text(lines):
    assert not any(line.endswith(' ') for line in lines)
    return ''.join(line + '\n' for line in lines).encode()


def by_arguments(*arguments):
    """What is written where the request is given by arguments, one or more."""
    line = b' '.join(arguments).replace(b'\n', b' ')
    tokens = tokens_of(line)
    return text(answer(line) + (HELP if tokens and not is_request(tokens) else []))


def lines_of(data):
    lines = data.split(b'\n')
    return lines if lines[-1] else lines[:-1]


def answers(data):
    """The answers to the lines of standard input."""
    return [text(answer(line)) for line in lines_of(data)]


def cut(data, output):
    """An output cut into the answers to each line, by how many lines they have. A fit, which takes long to find, has one."""
    rest = iter(re.findall(rb'[^\n]*\n', output))
    found = []
    for line in lines_of(data):
        fits = [word(token) for token in tokens_of(line)[:1]] == ['fit']
        found.append(b''.join(itertools.islice(rest, 1 if fits else len(answer(line)))))
    return found


# the longest numbers are of any number of digits
sys.set_int_max_str_digits(0)

if __name__ == '__main__':
    check()
    sys.stdout.buffer.write(b''.join(answers(sys.stdin.buffer.read())))
