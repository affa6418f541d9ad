// Weekdays written out, the order of refusals with a weekday handed in, and the C library's own weekdays.
#include <time.h>

#include <cinttypes>
#include <limits>

#include "almanac.h"
#include "report.h"

namespace {

constexpr uint64_t TOP = std::numeric_limits<uint64_t>::max();

void date_to_day(uint64_t c, const Date &date, uint64_t weekday, const Fields &expected) {
    report.same(ijok_date_to_day(c, date.year, date.month, date.day, weekday), expected, "date to day, calendar %" PRIu64 ", %" PRId64 "/%" PRIu64 "/%" PRIu64 ", weekday %" PRIu64, c, date.year,
                date.month, date.day, weekday);
    report.same(with_weekday(naive_date_to_day(c, date.year, date.month, date.day), weekday), expected,
                "the naive date to day, calendar %" PRIu64 ", %" PRId64 "/%" PRIu64 "/%" PRIu64 ", weekday %" PRIu64, c, date.year, date.month, date.day, weekday);
}

// Dates with the weekdays that PHP's jddayofweek has for their days, and Python's datetime from the year 1 on, both ways; the other weekdays are refused.
void known() {
    struct Row {
        uint64_t c;
        Date date;
        int64_t day;
        uint64_t weekday;
    };
    const std::vector<Row> rows = {
        {IJOK_JULIAN, {-4712, 1, 1}, 0, MONDAY},           {IJOK_JULIAN, {-4712, 1, 2}, 1, TUESDAY},          {IJOK_JULIAN, {-4712, 1, 7}, 6, SUNDAY},
        {IJOK_JULIAN, {-4712, 1, 8}, 7, MONDAY},           {IJOK_GREGORIAN, {-4712, 1, 1}, 38, THURSDAY},     {IJOK_GREGORIAN, {1, 1, 1}, 1721426, MONDAY},
        {IJOK_JULIAN, {1582, 10, 4}, 2299160, THURSDAY},   {IJOK_GREGORIAN, {1582, 10, 15}, 2299161, FRIDAY}, {IJOK_GREGORIAN, {1858, 11, 17}, 2400001, WEDNESDAY},
        {IJOK_GREGORIAN, {1900, 1, 1}, 2415021, MONDAY},   {IJOK_GREGORIAN, {1900, 2, 28}, 2415079, WEDNESDAY}, {IJOK_GREGORIAN, {1900, 3, 1}, 2415080, THURSDAY},
        {IJOK_GREGORIAN, {1969, 7, 20}, 2440423, SUNDAY},  {IJOK_GREGORIAN, {1970, 1, 1}, 2440588, THURSDAY}, {IJOK_GREGORIAN, {2000, 1, 1}, 2451545, SATURDAY},
        {IJOK_GREGORIAN, {2000, 2, 29}, 2451604, TUESDAY}, {IJOK_GREGORIAN, {2024, 2, 29}, 2460370, THURSDAY}, {IJOK_GREGORIAN, {9999, 12, 31}, 5373484, FRIDAY},
        {IJOK_REPUBLICAN, {1, 1, 1}, 2375840, SATURDAY},   {IJOK_REPUBLICAN, {14, 4, 10}, 2380687, TUESDAY},  {IJOK_BAHAI, {1, 1, 1}, 2394647, THURSDAY},
        {IJOK_BAHAI, {157, 1, 1}, 2451625, TUESDAY},       {IJOK_SAKA, {1879, 1, 1}, 2435920, FRIDAY},        {IJOK_HEBREW, {1, 1, 1}, 347998, MONDAY},
        {IJOK_HEBREW, {5784, 1, 1}, 2460204, SATURDAY},    {IJOK_HEBREW, {5785, 1, 1}, 2460587, THURSDAY},    {IJOK_ISLAMIC_A, {1, 1, 1}, 1948439, THURSDAY},
        {IJOK_ISLAMIC_B, {1, 1, 1}, 1948440, FRIDAY},      {IJOK_COPTIC, {1, 1, 1}, 1825030, FRIDAY},         {IJOK_EGYPTIAN, {1, 1, 1}, 1448638, WEDNESDAY}};
    for (const auto &[c, date, day, weekday] : rows) {
        report.same(weekday_of(day), weekday, "the naive weekday of day %" PRId64, day);
        report.same(ijok_day_to_date(c, uint64_t(day)), ijok_date{DONE, date.year, date.month, date.day, weekday}, "day to date, calendar %" PRIu64 ", day %" PRId64, c, day);
        date_to_day(c, date, NOT_TOLD, ijok_day{DONE, uint64_t(day)});
        for (uint64_t w = MONDAY; w <= SUNDAY; ++w) date_to_day(c, date, w, w == weekday ? Fields(ijok_day{DONE, uint64_t(day)}) : WRONG_WEEKDAY);
        for (uint64_t w : {uint64_t(8), uint64_t(9), weekday + 7, weekday + 8, weekday + 256, weekday + (uint64_t(1) << 32), TOP}) date_to_day(c, date, w, WRONG_WEEKDAY);
    }
}

// What is wrong with the date itself comes first, whatever the weekday: none, each of the week, so also the one that the day would have, and beyond it.
void order() {
    struct Row {
        uint64_t c;
        Date date;
        uint64_t expected;
    };
    const std::vector<Row> rows = {
        {0, {2000, 1, 1}, UNKNOWN_CALENDAR},                   {16, {2000, 1, 1}, UNKNOWN_CALENDAR},                 {TOP, {20001, 0, 0}, UNKNOWN_CALENDAR},
        {IJOK_GREGORIAN, {-4713, 12, 31}, YEAR_OUT_OF_RANGE},  {IJOK_GREGORIAN, {20001, 1, 1}, YEAR_OUT_OF_RANGE},   {IJOK_HEBREW, {0, 1, 1}, YEAR_OUT_OF_RANGE},
        {IJOK_REPUBLICAN, {20001, 14, 0}, YEAR_OUT_OF_RANGE},  {IJOK_GREGORIAN, {2000, 0, 1}, NO_SUCH_MONTH},        {IJOK_GREGORIAN, {2000, 13, 1}, NO_SUCH_MONTH},
        {IJOK_HEBREW, {5785, 7, 1}, NO_SUCH_MONTH},            {IJOK_REPUBLICAN, {15, 14, 1}, NO_SUCH_MONTH},        {IJOK_GREGORIAN, {10000, 13, 1}, NO_SUCH_MONTH},
        {IJOK_GREGORIAN, {1900, 2, 29}, NO_SUCH_DAY},          {IJOK_GREGORIAN, {2000, 1, 0}, NO_SUCH_DAY},          {IJOK_GREGORIAN, {2000, 1, 32}, NO_SUCH_DAY},
        {IJOK_REPUBLICAN, {14, 4, 31}, NO_SUCH_DAY},           {IJOK_GREGORIAN, {10000, 1, 32}, NO_SUCH_DAY},        {IJOK_REPUBLICAN, {14, 4, 11}, AFTER_THE_END},
        {IJOK_REPUBLICAN, {15, 1, 1}, AFTER_THE_END},          {IJOK_REPUBLICAN, {8208, 2, 9}, AFTER_THE_END},       {IJOK_REPUBLICAN, {20000, 13, 5}, AFTER_THE_END},
        {IJOK_GREGORIAN, {10000, 1, 1}, DAY_OUT_OF_RANGE},     {IJOK_GREGORIAN, {20000, 12, 31}, DAY_OUT_OF_RANGE},  {IJOK_HEBREW, {20000, 13, 29}, DAY_OUT_OF_RANGE}};
    for (const auto &[c, date, expected] : rows) {
        for (uint64_t w = NOT_TOLD; w <= 16; ++w) date_to_day(c, date, w, expected);
        for (uint64_t w : {uint64_t(255), uint64_t(256), uint64_t(1) << 32, uint64_t(1) << 63, TOP}) date_to_day(c, date, w, expected);
    }
}

// The C library has Sunday as 0.
uint64_t weekday_in(const tm &t) { return t.tm_wday == 0 ? uint64_t(SUNDAY) : uint64_t(t.tm_wday); }

// Every Gregorian day: gmtime_r has the date and the weekday of a number of seconds, timegm these of a date.
void by_the_c_library() {
    constexpr int64_t EPOCH = 2440588, SECONDS = 86400;  // the day of 1 January 1970
    for (int64_t n = 0; n <= LAST_DAY; ++n) {
        const time_t seconds = (n - EPOCH) * SECONDS;
        tm there = {};
        gmtime_r(&seconds, &there);
        const uint64_t weekday = weekday_in(there);
        report.same(weekday_of(n), weekday, "the naive weekday by gmtime_r, day %" PRId64, n);
        if (n < almanac(IJOK_GREGORIAN).first_day) continue;
        const ijok_date date = {DONE, there.tm_year + int64_t(1900), uint64_t(there.tm_mon + 1), uint64_t(there.tm_mday), weekday};
        report.same(ijok_day_to_date(IJOK_GREGORIAN, uint64_t(n)), date, "the date by gmtime_r, day %" PRId64, n);
        tm back = {};
        back.tm_year = there.tm_year;
        back.tm_mon = there.tm_mon;
        back.tm_mday = there.tm_mday;
        const ijok_day day = {DONE, uint64_t(timegm(&back) / SECONDS + EPOCH)};
        report.same(ijok_date_to_day(IJOK_GREGORIAN, date.year, date.month, date.day, weekday_in(back)), day, "the day by timegm, %" PRId64 "/%" PRIu64 "/%" PRIu64, date.year, date.month, date.day);
    }
}

}  // namespace

void compare_weekdays() {
    known();
    report.line("known weekdays written out, both ways, with the other weekdays refused");

    order();
    report.line("refused dates of every kind written out, with weekdays 0 to 16 and huge ones: the number is the date's own");

    by_the_c_library();
    report.line("the weekday of every day, and every Gregorian date with its weekday, both ways, by the C library's gmtime_r and timegm");
}
