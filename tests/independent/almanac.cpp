// The calendars as the table of docs/RULES.md lists them, written anew: lengths of positions, and leap years by lists and cycles rather than by the code's formulas.
#include "almanac.h"

#include <map>
#include <stdexcept>

const std::vector<uint64_t> LISTED = {1, 2, 3, 4, 5, 6, 7, 8, 9, 10, 11, 12, 13, 14, 15, 18};

namespace {

using Lengths = std::vector<int>;

int64_t total(const Lengths &l) {
    int64_t sum = 0;
    for (int days : l) sum += days;
    return sum;
}

// The remainder that is not below zero.
int64_t modulo(int64_t y, int64_t n) {
    int64_t r = y % n;
    return r < 0 ? r + n : r;
}

Lengths thirties(int loose_days) {
    Lengths l(12, 30);
    l.push_back(loose_days);
    return l;
}

Lengths persian() {
    Lengths l(13, 30);
    l[8] = 5;
    return l;
}

// The Julian months, beginning with month `from` (1 is January).
Lengths julian_months(int from, bool leap) {
    const Lengths january = {31, leap ? 29 : 28, 31, 30, 31, 30, 31, 31, 30, 31, 30, 31};
    Lengths l;
    for (int k = 0; k < 12; ++k) l.push_back(january[(from - 1 + k) % 12]);
    return l;
}

bool gregorian_leap(int64_t y) {
    if (modulo(y, 400) == 0) return true;
    if (modulo(y, 100) == 0) return false;
    return modulo(y, 4) == 0;
}

// The leap years of the cycle of thirty, as tables of the calendar list them (the kind that has 16 and not 15).
Lengths islamic(int64_t y) {
    static const bool leap[31] = {false, false, true,  false, false, true,  false, true,  false, false, true,  false, false, true,  false, false,
                                  true,  false, true,  false, false, true,  false, false, true,  false, true,  false, false, true,  false};
    Lengths l;
    for (int k = 0; k < 6; ++k) {
        l.push_back(30);
        l.push_back(29);
    }
    if (leap[(y - 1) % 30 + 1]) l[11] = 30;
    return l;
}

Lengths bahai(int64_t y) {
    Lengths l(20, 19);
    l[18] = gregorian_leap(y + 1844) ? 5 : 4;
    return l;
}

Lengths saka(int64_t y) {
    Lengths l = {30, 31, 31, 31, 31, 31, 30, 30, 30, 30, 30, 30};
    if (gregorian_leap(y + 78)) l[0] = 31;
    return l;
}

Lengths plain_year(uint64_t calendar, int64_t y) {
    switch (calendar) {
        case 1:
        case 2:
        case 3:
            return thirties(5);
        case 4:
            return persian();
        case 5:
        case 6:
        case 7:
            return thirties(y % 4 == 3 ? 6 : 5);
        case 8:
            return julian_months(9, y % 4 == 3);
        case 9:
            return julian_months(10, y % 4 == 3);
        case 10:
            return julian_months(1, modulo(y, 4) == 0);
        case 11:
            return julian_months(1, gregorian_leap(y));
        case 12:
        case 13:
            return islamic(y);
        case 14:
            return bahai(y);
        default:
            return saka(y);
    }
}

// ---- the Hebrew years, from new moon to new moon in days, hours and parts

struct Moon {
    int64_t day = 347998;
    int hour = 5;
    int part = 204;

    void next() {
        part += 793;
        hour += 12;
        day += 29;
        if (part >= 1080) {
            part -= 1080;
            ++hour;
        }
        if (hour >= 24) {
            hour -= 24;
            ++day;
        }
    }

    bool at_or_after(int h, int p) const { return hour > h || (hour == h && part >= p); }
};

// The leap years of the cycle of nineteen: 3, 6, 8, 11, 14, 17 and 19.
bool hebrew_leap(int64_t y) {
    int place = int((y - 1) % 19) + 1;
    return place == 3 || place == 6 || place == 8 || place == 11 || place == 14 || place == 17 || place == 19;
}

int64_t hebrew_new_year(const Moon &moon, bool leap, bool leap_before) {
    int64_t day = moon.day;
    uint64_t weekday = weekday_of(day);
    if (moon.at_or_after(18, 0)) {
        day += 1;
    } else if (!leap && weekday == TUESDAY && moon.at_or_after(9, 204)) {
        day += 2;
    } else if (!leap && leap_before && weekday == MONDAY && moon.at_or_after(15, 589)) {
        day += 1;
    }
    weekday = weekday_of(day);
    if (weekday == SUNDAY || weekday == WEDNESDAY || weekday == FRIDAY) day += 1;
    return day;
}

Lengths hebrew_months(bool leap, int64_t days) {
    int64_t regular = leap ? 384 : 354;
    Lengths l = {30, 29, 30, 29, 30, 29, 0, 30, 29, 30, 29, 30, 29};
    if (days == regular + 1) l[1] = 30;
    if (days == regular - 1) l[2] = 29;
    if (leap) {
        l[5] = 30;
        l[6] = 29;
    }
    return l;
}

void hebrew_years(Almanac &a) {
    Moon moon;
    int64_t begins = 0, days = 0;
    for (int64_t y = 1; y <= LAST_YEAR + 1; ++y) {
        bool leap = hebrew_leap(y);
        // the year before year 1 is the nineteenth of its cycle
        int64_t here = hebrew_new_year(moon, leap, hebrew_leap(y == 1 ? 19 : y - 1));
        if (y > 1) {
            days = here - begins;
            a.lengths.push_back(hebrew_months(hebrew_leap(y - 1), days));
            if (total(a.lengths.back()) != days) throw std::logic_error("a Hebrew year of no kind");
        }
        begins = here;
        for (int month = 0; month < (leap ? 13 : 12); ++month) moon.next();
    }
}

// The strips as the change request lists them.
bool strip(uint64_t calendar, uint64_t position) {
    static const std::map<uint64_t, uint64_t> strips = {{1, 13}, {2, 13}, {3, 13}, {5, 13}, {6, 13}, {7, 13}, {4, 9}, {14, 19}};
    const auto found = strips.find(calendar);
    return found != strips.end() && found->second == position;
}

Almanac made(uint64_t calendar) {
    static const std::map<uint64_t, int64_t> first_days = {{1, 1448638}, {2, 1922868},  {3, 1952068},  {4, 1952063}, {5, 1724221}, {6, 1825030},
                                                           {7, 2375840}, {8, 1607709},  {9, 1607739},  {10, 0},      {11, 38},     {12, 1948439},
                                                           {13, 1948440}, {14, 2394647}, {15, 1749995}, {18, 347998}};
    Almanac a;
    a.first_year = calendar == 10 || calendar == 11 ? -4712 : 1;
    a.first_day = first_days.at(calendar);
    if (calendar == 18) {
        hebrew_years(a);
    } else {
        for (int64_t y = a.first_year; y <= LAST_YEAR; ++y) a.lengths.push_back(plain_year(calendar, y));
    }
    if (calendar == IJOK_REPUBLICAN) a.end = Date{14, 4, 10};
    int64_t day = a.first_day;
    for (const Lengths &l : a.lengths) {
        a.begins.push_back(day);
        day += total(l);
    }
    a.begins.push_back(day);
    return a;
}

}  // namespace

int64_t Almanac::counted(const Date &date) const {
    int64_t n = begins[date.year - first_year];
    for (uint64_t p = 1; p < date.month; ++p) n += year(date.year)[p - 1];
    return n + int64_t(date.day) - 1;
}

const Almanac &almanac(uint64_t calendar) {
    static Almanac all[19];
    Almanac &a = all[calendar];
    if (a.lengths.empty()) a = made(calendar);
    return a;
}

uint64_t weekday_of(int64_t day) {
    // day 0 is a Monday, and each day has the weekday after that of the day before
    static const std::vector<uint8_t> weekdays = [] {
        constexpr size_t DAYS = 10000000;  // more than the calendars have to the year 20,001
        std::vector<uint8_t> all;
        uint8_t weekday = MONDAY;
        while (all.size() < DAYS) {
            all.push_back(weekday);
            weekday = weekday == SUNDAY ? uint8_t(MONDAY) : uint8_t(weekday + 1);
        }
        return all;
    }();
    return weekdays.at(size_t(day));
}

bool listed(uint64_t calendar) {
    for (uint64_t c : LISTED)
        if (c == calendar) return true;
    return false;
}

struct ijok_position naive_position(uint64_t calendar, int64_t year, uint64_t position) {
    if (!listed(calendar)) return {UNKNOWN_CALENDAR, NONE, 0};
    const Almanac &a = almanac(calendar);
    if (year < a.first_year || year > LAST_YEAR) return {YEAR_OUT_OF_RANGE, NONE, 0};
    const Lengths &l = a.year(year);
    if (position < 1 || position > l.size()) return {NO_SUCH_MONTH, NONE, 0};
    const uint64_t days = uint64_t(l[position - 1]);
    return {DONE, days == 0 ? NONE : strip(calendar, position) ? STRIP : MONTH, days};
}

// A month of no days is 3 here, though asked for by itself it is none.
ijok_day naive_date_to_day(uint64_t calendar, int64_t year, uint64_t month, uint64_t day) {
    if (!listed(calendar)) return {UNKNOWN_CALENDAR, 0};
    const Almanac &a = almanac(calendar);
    if (year < a.first_year || year > LAST_YEAR) return {YEAR_OUT_OF_RANGE, 0};
    const Lengths &l = a.year(year);
    if (month < 1 || month > l.size() || l[month - 1] == 0) return {NO_SUCH_MONTH, 0};
    if (day < 1 || day > uint64_t(l[month - 1])) return {NO_SUCH_DAY, 0};
    const Date date = {year, month, day};
    if (a.ends_before(date)) return {AFTER_THE_END, 0};
    int64_t n = a.counted(date);
    if (n > LAST_DAY) return {DAY_OUT_OF_RANGE, 0};
    return {DONE, uint64_t(n)};
}

ijok_day with_weekday(const ijok_day &answer, uint64_t weekday) {
    if (answer.number || weekday == NOT_TOLD || weekday == weekday_of(int64_t(answer.day))) return answer;
    return {WRONG_WEEKDAY, 0};
}
