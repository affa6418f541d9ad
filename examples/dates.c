/* The library from C: dates both ways, weekdays, positions, Easter, a code fitted and unfolded, a line of a sheet judged, and refusals. Prints what it asked, and
 * ends with a status that is not 0 where an answer is not as expected. examples/run builds and runs it. */
#include <inttypes.h>
#include <stdio.h>
#include <string.h>

#include "ijok.h"

static int wrong = 0;

static const char *const weekdays[] = {"refusal", "Monday", "Tuesday", "Wednesday", "Thursday", "Friday", "Saturday", "Sunday"};

static void expect(int good, const char *what) {
    if (!good) {
        printf("not as expected: %s\n", what);
        wrong = 1;
    }
}

static void dates(void) {
    struct ijok_day d = ijok_date_to_day(IJOK_GREGORIAN, 2000, 2, 29, IJOK_NO_WEEKDAY);
    struct ijok_date hebrew = ijok_day_to_date(IJOK_HEBREW, d.day);
    struct ijok_position february = ijok_position(IJOK_GREGORIAN, 2000, 2);
    struct ijok_date first = ijok_day_to_date(IJOK_JULIAN, 0);

    expect(d.number == IJOK_DONE && d.day == 2451604, "29 February 2000");
    printf("29 February 2000 is day %" PRIu64 "\n", d.day);

    expect(hebrew.number == IJOK_DONE && hebrew.year == 5760 && hebrew.month == 6 && hebrew.day == 23 && hebrew.weekday == IJOK_TUESDAY,
           "that day in the Hebrew calendar");
    printf("in the Hebrew calendar year %" PRId64 ", position %" PRIu64 ", day %" PRIu64 ", a %s\n", hebrew.year, hebrew.month, hebrew.day,
           weekdays[hebrew.weekday]);

    expect(february.number == IJOK_DONE && february.kind == IJOK_MONTH && february.days == 29, "February 2000, a month of 29 days");
    expect(first.number == IJOK_DONE && first.year == -4712 && first.month == 1 && first.day == 1 && first.weekday == IJOK_MONDAY, "day 0");
}

/* A date that is handed in with a weekday is refused where that is not its day's; what is wrong with the date itself comes first. */
static void weekday(void) {
    struct ijok_day d = ijok_date_to_day(IJOK_GREGORIAN, 2000, 1, 1, IJOK_SATURDAY);
    struct ijok_day sunday = ijok_date_to_day(IJOK_GREGORIAN, 2000, 1, 1, IJOK_SUNDAY);
    struct ijok_date last = ijok_day_to_date(IJOK_GREGORIAN, IJOK_LAST_DAY);

    expect(d.number == IJOK_DONE && d.day == 2451545, "Saturday, 1 January 2000");
    expect(sunday.number == IJOK_WRONG_WEEKDAY && sunday.day == 0, "Sunday, 1 January 2000");
    printf("Saturday, 1 January 2000 is day %" PRIu64 ", and Sunday, 1 January 2000 is refused %" PRIu64 "\n", d.day, sunday.number);

    expect(last.number == IJOK_DONE && last.year == 9999 && last.month == 12 && last.day == 31 && last.weekday == IJOK_FRIDAY, "the last day");
    expect(ijok_date_to_day(IJOK_GREGORIAN, last.year, last.month, last.day, last.weekday).day == IJOK_LAST_DAY, "its date handed back");
    printf("the last day, 31 December 9999, is a %s\n", weekdays[last.weekday]);

    expect(ijok_date_to_day(IJOK_GREGORIAN, 2000, 1, 1, 9).number == IJOK_WRONG_WEEKDAY, "weekday 9");
    expect(ijok_date_to_day(IJOK_GREGORIAN, 1900, 2, 29, 9).number == IJOK_NO_SUCH_DAY, "weekday 9 on a day that is not there");
    expect(ijok_date_to_day(IJOK_REPUBLICAN, 14, 4, 11, 9).number == IJOK_CALENDAR_ENDED, "weekday 9 after the Republican end");
}

/* A position is a month, a strip of loose days, or none in a year that lacks it, with the answer 0. */
static void positions(void) {
    struct ijok_position loose = ijok_position(IJOK_COPTIC, 3, 13);
    struct ijok_position none = ijok_position(IJOK_HEBREW, 5759, 7);
    struct ijok_position beyond = ijok_position(IJOK_HEBREW, 5759, 14);

    expect(loose.number == IJOK_DONE && loose.kind == IJOK_STRIP && loose.days == 6, "position 13 of a Coptic leap year");
    printf("position 13 of the Coptic year 3 is a strip of %" PRIu64 " days\n", loose.days);

    expect(none.number == IJOK_DONE && none.kind == IJOK_NONE && none.days == 0, "position 7 of a common Hebrew year");
    expect(ijok_date_to_day(IJOK_HEBREW, 5759, 7, 1, IJOK_NO_WEEKDAY).number == IJOK_NO_SUCH_MONTH, "a date there");
    expect(beyond.number == IJOK_NO_SUCH_MONTH && beyond.kind == IJOK_NONE && beyond.days == 0, "position 14 of a Hebrew year");
}

/* A refusal has its number, and 0 in every other field. */
static void refusals(void) {
    struct ijok_day d = ijok_date_to_day(IJOK_GREGORIAN, 1900, 2, 29, IJOK_NO_WEEKDAY);
    struct ijok_date early = ijok_day_to_date(IJOK_HEBREW, 0);
    struct ijok_day last = ijok_date_to_day(IJOK_REPUBLICAN, 14, 4, 10, IJOK_NO_WEEKDAY);
    struct ijok_day ended = ijok_date_to_day(IJOK_REPUBLICAN, 14, 4, 11, IJOK_NO_WEEKDAY);
    struct ijok_date after = ijok_day_to_date(IJOK_REPUBLICAN, IJOK_REPUBLICAN_END + 1);

    expect(d.number == IJOK_NO_SUCH_DAY && d.day == 0, "29 February 1900");
    printf("29 February 1900 is refused %" PRIu64 "\n", d.number);

    expect(early.number == IJOK_DAY_OUT_OF_RANGE && early.year == 0 && early.month == 0 && early.day == 0 && early.weekday == IJOK_NO_WEEKDAY,
           "a day before the Hebrew calendar's first");
    expect(last.number == IJOK_DONE && last.day == IJOK_REPUBLICAN_END, "the last Republican date");
    expect(ended.number == IJOK_CALENDAR_ENDED && ended.day == 0, "the Republican date after it");
    printf("14/4/10 is the last Republican date, and 14/4/11 is refused %" PRIu64 "\n", ended.number);
    expect(after.number == IJOK_CALENDAR_ENDED && after.year == 0 && after.month == 0 && after.day == 0 && after.weekday == IJOK_NO_WEEKDAY,
           "the day after the Republican end");
    expect(ijok_date_to_day(16, 2000, 1, 1, IJOK_NO_WEEKDAY).number == IJOK_UNKNOWN_CALENDAR, "calendar 16");
    expect(ijok_date_to_day(IJOK_JULIAN, -4713, 1, 1, IJOK_NO_WEEKDAY).number == IJOK_YEAR_OUT_OF_RANGE, "the year before the first");
    expect(ijok_date_to_day(IJOK_GREGORIAN, 10000, 1, 1, IJOK_NO_WEEKDAY).number == IJOK_DAY_OUT_OF_RANGE, "the day after the last");
    /* a negative number arrives as 2^63 or more */
    expect(ijok_date_to_day(IJOK_GREGORIAN, 2000, (uint64_t)-1, 1, IJOK_NO_WEEKDAY).number == IJOK_NO_SUCH_MONTH, "month -1");
    expect(ijok_date_to_day(IJOK_GREGORIAN, 2000, 1, 1, (uint64_t)-1).number == IJOK_WRONG_WEEKDAY, "weekday -1");
}

static void easter(void) {
    struct ijok_easter e = ijok_easter(IJOK_GREGORIAN, 1943);
    struct ijok_easter before = ijok_easter(IJOK_GREGORIAN, 1582);

    expect(e.number == IJOK_DONE && e.month == 4 && e.day == 25, "Easter 1943");
    printf("Easter 1943: month %" PRIu64 ", day %" PRIu64 "\n", e.month, e.day);

    expect(before.number == IJOK_YEAR_OUT_OF_RANGE && before.month == 0 && before.day == 0, "Easter 1582");
    expect(ijok_easter(IJOK_HEBREW, 2000).number == IJOK_UNKNOWN_CALENDAR, "Easter in the Hebrew calendar");
}

static void lines(void) {
    const uint64_t months[6] = {31, 30, 31, 30, 31, 31}; /* March to August */
    const uint64_t falling[4] = {31, 31, 30, 30};
    struct ijok_line l = ijok_fit(months, 6);
    struct ijok_line no_line = ijok_fit(falling, 4);
    uint64_t again[8] = {0, 0, 0, 0, 0, 0, 7, 7};

    expect(l.number == IJOK_DONE && l.a == 153 && l.b == 5 && l.r == 2, "the line of 31 30 31 30 31 31");
    printf("31 30 31 30 31 31 is the line (%" PRIu64 " k + %" PRIu64 ") / %" PRIu64 "\n", l.a, l.r, l.b);

    expect(ijok_unfold(l.a, l.b, l.r, 6, again, 8) == IJOK_DONE, "unfolding");
    expect(memcmp(again, months, sizeof months) == 0 && again[6] == 7 && again[7] == 7, "what was unfolded, and what lies past it");

    expect(no_line.number == IJOK_NO_LINE && no_line.a == 0 && no_line.b == 0 && no_line.r == 0, "the line of 31 31 30 30");
    expect(ijok_unfold(l.a, l.b, l.r, 9, again, 8) == IJOK_BUFFER_TOO_SHORT, "unfolding into a buffer that is too short");
    expect(ijok_unfold(l.a, 0, 0, 6, again, 8) == IJOK_LINE_OUT_OF_LIMITS, "unfolding with the denominator 0");
    expect(memcmp(again, months, sizeof months) == 0, "the buffer after refusals");
    /* of no elements the pointer may be null */
    expect(ijok_fit(NULL, 0).number == IJOK_CODE_OUT_OF_LIMITS, "the line of no lengths");
    expect(ijok_unfold(l.a, l.b, l.r, 6, NULL, 0) == IJOK_BUFFER_TOO_SHORT, "unfolding into no buffer");
}

static uint64_t verdict(const char *line) {
    return ijok_verdict((const uint8_t *)line, strlen(line));
}

static void sheet(void) {
    expect(verdict("0b1a380101256859") == IJOK_DONE, "a right frame");
    expect(verdict("0b1a38010125685a") == IJOK_WRONG_DAY, "a frame with another day");
    expect(verdict("xyz") == IJOK_MALFORMED_FRAME, "no frame");
    expect(ijok_verdict(NULL, 0) == IJOK_MALFORMED_FRAME, "an empty line");
    printf("0b1a380101256859 is right\n");
}

int main(void) {
    dates();
    weekday();
    positions();
    refusals();
    easter();
    lines();
    sheet();
    if (!wrong) printf("all as expected\n");
    return wrong;
}
