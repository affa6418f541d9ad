// Every Easter three ways: the rule of the paper written anew, and the published algorithms of Butcher and Meeus; and that it is a Sunday by counting days.
#include <cinttypes>
#include <limits>

#include "almanac.h"
#include "report.h"

namespace {

struct Feast {
    int month, day;
};

struct ijok_easter on(Feast f) { return {0, uint64_t(f.month), uint64_t(f.day)}; }

// The rule as docs/RULES.md gives it (source 001).
Feast by_constants(int year, int m, int n) {
    int a = year % 19, b = year % 4, c = year % 7;
    int d = (19 * a + m) % 30;
    int e = (2 * b + 4 * c + 6 * d + n) % 7;
    if (d == 29 && e == 6) return {4, 19};
    if (d == 28 && e == 6 && (11 * m + 11) % 30 < 19) return {4, 18};
    int march = 22 + d + e;
    return march <= 31 ? Feast{3, march} : Feast{4, d + e - 9};
}

Feast julian_rule(int year) { return by_constants(year, 15, 6); }

Feast gregorian_rule(int year) {
    int s = year / 100;
    int r = s < 17 ? 0 : (s - 17) / 25;
    int p = (s - r) / 3;
    int q = s / 4;
    return by_constants(year, (15 + s - p - q) % 30, (4 + s - q) % 7);
}

// Butcher's algorithm (Nature, 1876), as Meeus prints it, for any Gregorian year.
Feast butcher(int year) {
    int a = year % 19, b = year / 100, c = year % 100;
    int d = b / 4, e = b % 4, f = (b + 8) / 25, g = (b - f + 1) / 3;
    int h = (19 * a + b - d - g + 15) % 30;
    int i = c / 4, k = c % 4;
    int l = (32 + 2 * e + 2 * i - h - k) % 7;
    int m = (a + 11 * h + 22 * l) / 451;
    int n = h + l - 7 * m + 114;
    return {n / 31, n % 31 + 1};
}

// Meeus's algorithm for any Julian year.
Feast meeus(int year) {
    int a = year % 4, b = year % 7, c = year % 19;
    int d = (19 * c + 15) % 30;
    int e = (2 * a + 4 * b - d + 34) % 7;
    int n = d + e + 114;
    return {n / 31, n % 31 + 1};
}

void year_of(uint64_t c, int year) {
    auto got = ijok_easter(c, year);
    Feast rule = c == 10 ? julian_rule(year) : gregorian_rule(year);
    Feast other = c == 10 ? meeus(year) : butcher(year);
    report.same(got, on(rule), "Easter by the rule, calendar %" PRIu64 ", year %d", c, year);
    report.same(got, on(other), "Easter by a published algorithm, calendar %" PRIu64 ", year %d", c, year);
    const ijok_day day = naive_date_to_day(c, year, got.month, got.day);
    report.same(weekday_of(int64_t(day.day)), SUNDAY, "Easter's weekday, calendar %" PRIu64 ", year %d", c, year);
    report.same(ijok_date_to_day(c, year, got.month, got.day, SUNDAY), day, "Easter handed in as a Sunday, calendar %" PRIu64 ", year %d", c, year);
}

void refused(uint64_t c, int64_t year, uint64_t number) { report.same(ijok_easter(c, year), number, "Easter, calendar %" PRIu64 ", year %" PRId64, c, year); }

}  // namespace

void compare_easter() {
    for (int y = 1; y <= 9999; ++y) year_of(10, y);
    for (int y = 1583; y <= 9999; ++y) year_of(11, y);
    report.line("every Easter of both calendars: by the rule, by Meeus or Butcher, its weekday, and its day where it is handed in as a Sunday");

    const std::vector<int64_t> far = {std::numeric_limits<int64_t>::min(), std::numeric_limits<int64_t>::min() + 1, -(int64_t(1) << 32), -(int64_t(1) << 32) + 2000, -4712, -4711, -1,
                                      (int64_t(1) << 32) + 2000, int64_t(1) << 31, std::numeric_limits<int64_t>::max() - 1, std::numeric_limits<int64_t>::max()};
    for (uint64_t c : {10, 11}) {
        for (int64_t y : far) refused(c, y, 2);
        for (int64_t y = -30000; y < (c == 10 ? 1 : 1583); ++y) refused(c, y, 2);
        for (int64_t y = 10000; y <= 70000; ++y) refused(c, y, 2);
    }
    const uint64_t top = std::numeric_limits<uint64_t>::max();
    for (uint64_t c : std::vector<uint64_t>{0, 1, 2, 3, 4, 5, 6, 7, 8, 9, 12, 13, 14, 15, 16, 17, 18, 19, 20, 266, 267, (uint64_t(1) << 32) + 10, (uint64_t(1) << 32) + 11, uint64_t(1) << 63, top - 1, top}) {
        for (int64_t y : far) refused(c, y, 1);
        for (int64_t y = -10; y <= 10010; ++y) refused(c, y, 1);
    }
    report.line("refused Easters: years outside, calendars that are not 10 or 11");
}
