/* The proved functions of the crates c_*, for C (C99) and C++. Link target/libijok.a, which `library/build` writes.
 *
 * An answer is a struct by value: first the answer number, 0 (IJOK_DONE) or why it is refused, then the values. A refusal has 0 in every
 * other field and changes no lent memory. So test the number before a value is used.
 *
 * Numbers. Every value of every number parameter is allowed and gets its answer: nothing is narrowed before it is tested. A negative number
 * that is passed for an unsigned parameter arrives as 2^63 or more, beyond every limit, and is refused as too large a number is, unless
 * another refusal comes first: a calendar with 1, a month or position with 3, a day of the month with 4, a day number with 5, a length of a
 * code or a count to unfold with 6, an a, b or r to unfold with 10, a weekday with 13. Years are signed, and year 0 exists.
 *
 * Memory. A slice is a pointer and then its number of elements. They must be there, aligned, and not be changed by another thread during the
 * call; a length that is not true is the one thing that cannot be refused. Nothing outside the slice is read or written. Where the length is 0
 * the pointer is not followed, and may be null.
 *
 * The functions keep nothing between calls and allocate nothing; threads may call them at the same time. */
#ifndef IJOK_H
#define IJOK_H

#include <stddef.h>
#include <stdint.h>

#ifdef __cplusplus
extern "C" {
#endif

/* The calendars. The first day is that of 1/1 of the first year.
 *
 *   number  calendar             first year   first day
 *      1    Egyptian                      1     1448638
 *      2    Armenian                      1     1922868
 *      3    Khwarizmian                   1     1952068
 *      4    Persian (Yazdegerd)           1     1952063
 *      5    Ethiopian                     1     1724221
 *      6    Coptic                        1     1825030
 *      7    Republican                    1     2375840
 *      8    Macedonian                    1     1607709
 *      9    Syrian                        1     1607739
 *     10    Julian                    -4712           0
 *     11    Gregorian                 -4712          38
 *     12    Islamic A                     1     1948439
 *     13    Islamic B                     1     1948440
 *     14    Bahai                         1     2394647
 *     15    Saka                          1     1749995
 *     18    Hebrew                        1      347998
 *
 * Leap years of 14 and 15 are by the Gregorian rule, in years Y + 1844 and Y + 78: Bahai years begin on 21 March of the Gregorian calendar, Saka years on
 * 22 March or, where they are leap, on 21 March.
 *
 * The Republican calendar ended: its last date is 14/4/10, day IJOK_REPUBLICAN_END, and later dates and days are refused 17.
 */
enum ijok_calendar {
    IJOK_EGYPTIAN = 1,
    IJOK_ARMENIAN = 2,
    IJOK_KHWARIZMIAN = 3,
    IJOK_PERSIAN = 4,
    IJOK_ETHIOPIAN = 5,
    IJOK_COPTIC = 6,
    IJOK_REPUBLICAN = 7,
    IJOK_MACEDONIAN = 8,
    IJOK_SYRIAN = 9,
    IJOK_JULIAN = 10,
    IJOK_GREGORIAN = 11,
    IJOK_ISLAMIC_A = 12,
    IJOK_ISLAMIC_B = 13,
    IJOK_BAHAI = 14,
    IJOK_SAKA = 15,
    IJOK_HEBREW = 18
};

/* A day number is the Julian day number. The last one is 31 December 9999 Gregorian. */
enum { IJOK_LAST_DAY = 5373484, IJOK_REPUBLICAN_END = 2380687 };

/* The answer numbers. Each function below says which ones it tries, in what order; the first that applies is given, and 0 where none does. */
enum ijok_answer {
    IJOK_DONE = 0,
    IJOK_UNKNOWN_CALENDAR = 1,    /* the calendar's number is not listed above; for Easter, it is not 10 or 11 */
    IJOK_YEAR_OUT_OF_RANGE = 2,   /* the year is below the calendar's first or above 20,000; for Easter, outside its years */
    IJOK_NO_SUCH_MONTH = 3,       /* a date's month is 0, above the positions, or of no days that year; a position is 0 or above the positions */
    IJOK_NO_SUCH_DAY = 4,         /* the day is 0 or beyond the month */
    IJOK_DAY_OUT_OF_RANGE = 5,    /* the day number is above IJOK_LAST_DAY or before the calendar's first day */
    IJOK_CODE_OUT_OF_LIMITS = 6,  /* no lengths, more than 512, or one above 400; a count to unfold that is not 1 to 512 */
    IJOK_NO_LINE = 7,             /* the code is within the limits, and no line generates it */
    IJOK_MALFORMED_FRAME = 8,     /* the line of a sheet is not 16 lowercase hexadecimal digits */
    IJOK_WRONG_DAY = 9,           /* the frame's date is good, and its day number differs */
    IJOK_LINE_OUT_OF_LIMITS = 10, /* the line to unfold has not b from 1 to 512, r from 0 to b - 1 and a from 0 to 400 b */
    IJOK_BUFFER_TOO_SHORT = 11,   /* the buffer has less room than the count */
    IJOK_WRONG_WEEKDAY = 13,      /* the date is good, and the weekday handed in is neither 0 nor its day's */
    IJOK_CALENDAR_ENDED = 17      /* the date exists, or the day is in range, and it lies after the calendar's end */
};

/* The weekdays. Day number 0 is a Monday, and so is every seventh day after it, in every calendar. */
enum ijok_weekday {
    IJOK_NO_WEEKDAY = 0, /* handed in: not told, and so not compared; in an answer: refused */
    IJOK_MONDAY = 1,
    IJOK_TUESDAY = 2,
    IJOK_WEDNESDAY = 3,
    IJOK_THURSDAY = 4,
    IJOK_FRIDAY = 5,
    IJOK_SATURDAY = 6,
    IJOK_SUNDAY = 7
};

/* The kinds of a position. */
enum ijok_kind {
    IJOK_NONE = 0,  /* refused, or beside answer 0 a position that this year has not */
    IJOK_MONTH = 1, /* a month */
    IJOK_STRIP = 2  /* loose days after the last month or between two months */
};

struct ijok_day {
    uint64_t number;
    uint64_t day;
};

struct ijok_date {
    uint64_t number;
    int64_t year;
    uint64_t month;
    uint64_t day;
    uint64_t weekday; /* 1 to 7, one of enum ijok_weekday; 0 only in a refusal */
};

struct ijok_position {
    uint64_t number;
    uint64_t kind; /* one of enum ijok_kind */
    uint64_t days;
};

struct ijok_easter {
    uint64_t number;
    uint64_t month;
    uint64_t day;
};

struct ijok_line {
    uint64_t number;
    uint64_t a;
    uint64_t b;
    uint64_t r;
};

/* The day number of a date. A weekday of 0 is not compared; any other that is not the day's, every one above 7 too, is refused 13, after all that is wrong
 * with the date itself. Tries 1, 2, 3, 4, 17, 5, 13. */
struct ijok_day ijok_date_to_day(uint64_t calendar, int64_t year, uint64_t month, uint64_t day, uint64_t weekday);

/* The date of a day number, with its weekday, so that all four values can be handed back to ijok_date_to_day. Tries 1, 5, 17. */
struct ijok_date ijok_day_to_date(uint64_t calendar, uint64_t day);

/* The two functions below hide the names of their structs from C++, where the types are written `struct ijok_position` and `struct ijok_easter` as in C. */
#if defined(__cplusplus) && defined(__GNUC__)
#pragma GCC diagnostic push
#pragma GCC diagnostic ignored "-Wshadow"
#endif

/* The kind and the days of a position of a year. A strip is position 13 of calendars 1, 2, 3, 5, 6 and 7, position 9 of 4 and position 19 of 14. None is
 * a position that the calendar has and this year has not: position 7 of a common Hebrew year, with answer 0 and 0 days, while a date there is refused 3.
 * Every other position is a month. Tries 1, 2, 3; an end is no matter. */
struct ijok_position ijok_position(uint64_t calendar, int64_t year, uint64_t position);

/* The date of Easter by calendar 10, in years 1 to 9,999, or 11, in years 1,583 to 9,999. Tries 1, 2. */
struct ijok_easter ijok_easter(uint64_t calendar, int64_t year);

#if defined(__cplusplus) && defined(__GNUC__)
#pragma GCC diagnostic pop
#endif

/* The line with the least denominator b that generates a code of `count` lengths: at each place k, counted from 0, the length is
 * (a(k + 1) + r)/b less (ak + r)/b, both rounded down. r is from 0 to b - 1. Tries 6, 7. */
struct ijok_line ijok_fit(const uint64_t *code, size_t count);

/* Writes the first `count` lengths that a line yields to the front of a buffer that has room for `room`, and returns the answer number. What
 * lies past the count stays; a refusal changes nothing. Tries 10, 6, 11. */
uint64_t ijok_unfold(uint64_t a, uint64_t b, uint64_t r, size_t count, uint64_t *buffer, size_t room);

/* The answer number that a sheet gives a line of `length` bytes, its newline not counted. A frame is 16 digits: calendar 2, year plus 4,712 as 4, month
 * 2, day of month 2, day number 6, high digit first; it has no weekday. 8 for any other line; for a frame tries 1, 2, 3, 4, 17, 5, 9. */
uint64_t ijok_verdict(const uint8_t *line, size_t length);

#ifdef __cplusplus
}
#endif

#endif
