// The sixteen calendars by the naive road: the length of each position of each year, counting day by day, and weekdays stepped along with the days.
#pragma once
#include <compare>
#include <cstdint>
#include <optional>
#include <vector>

#include "../../include/ijok.h"

constexpr int64_t LAST_DAY = 5373484;
constexpr int64_t LAST_YEAR = 20000;
extern const std::vector<uint64_t> LISTED;

// The answer numbers of docs/RULES.md that dates and sheets have, written anew.
enum Answer : uint64_t {
    DONE = 0,
    UNKNOWN_CALENDAR = 1,
    YEAR_OUT_OF_RANGE = 2,
    NO_SUCH_MONTH = 3,
    NO_SUCH_DAY = 4,
    DAY_OUT_OF_RANGE = 5,
    MALFORMED_FRAME = 8,
    WRONG_DAY = 9,
    WRONG_WEEKDAY = 13,
    AFTER_THE_END = 17
};

// The weekdays; a date may be handed in without one.
enum Weekday : uint64_t { NOT_TOLD = 0, MONDAY = 1, TUESDAY = 2, WEDNESDAY = 3, THURSDAY = 4, FRIDAY = 5, SATURDAY = 6, SUNDAY = 7 };

// The kinds of a position: none, where the answer is a refusal or the year lacks the position, a month, a strip of loose days.
enum Kind : uint64_t { NONE = 0, MONTH = 1, STRIP = 2 };

struct Date {
    int64_t year;
    uint64_t month, day;

    auto operator<=>(const Date &) const = default;
};

struct Almanac {
    int64_t first_year = 0;
    int64_t first_day = 0;
    // the positions of each year from the first to 20,000, and the day on which each begins, 20,001 too
    std::vector<std::vector<int>> lengths;
    std::vector<int64_t> begins;
    // the last date, where the calendar was given up. The lengths go on after it
    std::optional<Date> end;

    const std::vector<int> &year(int64_t y) const { return lengths[y - first_year]; }
    int64_t days_of(int64_t y) const { return begins[y - first_year + 1] - begins[y - first_year]; }
    bool ends_before(const Date &date) const { return end && *end < date; }
    // The day of a date that exists, counted on past the end and the last day.
    int64_t counted(const Date &date) const;
};

// The calendar with that number, which is one of LISTED.
const Almanac &almanac(uint64_t calendar);

bool listed(uint64_t calendar);

// The weekday of a day, also after the last day, as far as the years go.
uint64_t weekday_of(int64_t day);

// With no weekday told.
ijok_day naive_date_to_day(uint64_t calendar, int64_t year, uint64_t month, uint64_t day);
// That answer where a weekday is handed in too, which is looked at last: what is refused stays as it is.
ijok_day with_weekday(const ijok_day &answer, uint64_t weekday);
struct ijok_position naive_position(uint64_t calendar, int64_t year, uint64_t position);

void compare_calendars();
void compare_weekdays();
void compare_easter();
void compare_codes();
void compare_unfolding();
void compare_lines();
void compare_sheets(const char *program);
