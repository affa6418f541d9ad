// Every day and every date of the sixteen calendars, both ways and with weekdays, every position of every year, and what is refused.
#include <cinttypes>
#include <iterator>
#include <limits>
#include <string>

#include "almanac.h"
#include "report.h"

namespace {

constexpr uint64_t TOP = std::numeric_limits<uint64_t>::max();
constexpr int64_t LEAST = std::numeric_limits<int64_t>::min();
constexpr int64_t MOST = std::numeric_limits<int64_t>::max();

const std::vector<uint64_t> UNLISTED = {0, 16, 17, 19, 20, 21, 31, 32, 64, 127, 128, 255, 256, 266, 65536 + 11, (uint64_t(1) << 32) + 11, uint64_t(1) << 63, TOP - 1, TOP};

// One comparison in each direction; answers the date that the library gives, and whether it gives a day.
ijok_date day_to_date(uint64_t c, uint64_t n, const Fields &expected) {
    ijok_date got = ijok_day_to_date(c, n);
    report.same(got, expected, "day to date, calendar %" PRIu64 ", day %" PRIu64, c, n);
    return got;
}

bool date_to_day(uint64_t c, const Date &date, uint64_t weekday, const ijok_day &expected) {
    ijok_day got = ijok_date_to_day(c, date.year, date.month, date.day, weekday);
    report.same(got, expected, "date to day, calendar %" PRIu64 ", %" PRId64 "/%" PRIu64 "/%" PRIu64 ", weekday %" PRIu64, c, date.year, date.month, date.day, weekday);
    return got.number == DONE;
}

ijok_day refusal(uint64_t number) { return {number, 0}; }

// The weekday of an answer's day; of a refusal Monday, which its day 0 has.
uint64_t right_weekday(const ijok_day &answer) { return weekday_of(int64_t(answer.day)); }

// A weekday to hand in: a number, and so many times the right one.
struct Handed {
    uint64_t plain, times = 0;

    uint64_t about(uint64_t right) const { return plain + times * right; }
};

// None, each of the week, and larger ones, among them those that are the right one or none again where high bits, eights or weeks get lost.
constexpr uint64_t WORD = uint64_t(1) << 32, HALF = uint64_t(1) << 63;
constexpr Handed HANDED[] = {{0}, {1}, {2}, {3}, {4}, {5}, {6}, {7}, {8}, {9}, {14}, {255}, {256}, {65536}, {WORD}, {HALF}, {TOP - 1}, {TOP},
                             {7, 1}, {8, 1}, {256, 1}, {65536, 1}, {WORD, 1}, {HALF, 1}, {0, TOP}};  // the last is the right one with a minus sign

// A date with one of them, where the answer without a weekday is known.
void with_handed(uint64_t c, const Date &date, const ijok_day &answer, const Handed &handed) {
    const uint64_t w = handed.about(right_weekday(answer));
    date_to_day(c, date, w, with_weekday(answer, w));
}

void with_every_weekday(uint64_t c, const Date &date, const ijok_day &answer) {
    for (const Handed &handed : HANDED) with_handed(c, date, answer, handed);
}

// With one that is drawn.
void with_some_weekday(uint64_t c, const Date &date, const ijok_day &answer) {
    static Random random{13};
    with_handed(c, date, answer, HANDED[random.next() % std::size(HANDED)]);
}

// How many days have a date. Republican: thirteen years, of which 3, 7 and 11 are leap, then three months and ten days.
uint64_t days_with_a_date(uint64_t c) {
    if (c == IJOK_REPUBLICAN) return 13 * 365 + 3 + 3 * 30 + 10;
    return uint64_t(LAST_DAY - almanac(c).first_day + 1);
}

// How much the library accepts: days, dates without a weekday, dates with the day's.
struct Accepted {
    uint64_t days = 0, dates = 0, told = 0;
};

// From the calendar's first day to the last, counted one by one: each day's date with its weekday, which is also the one after the day before's, and that date's day
// without a weekday, with it, with one that is drawn, and for every 41st, the first and the last day with all. After the end of a calendar the dates are counted on, and refused.
Accepted days_of(uint64_t c) {
    const Almanac &a = almanac(c);
    Accepted accepted;
    for (int64_t n = 0; n < a.first_day; ++n) accepted.days += day_to_date(c, n, DAY_OUT_OF_RANGE).number == DONE;
    int64_t year = a.first_year;
    uint64_t month = 1, day = 1, before = 0;
    for (int64_t n = a.first_day; n <= LAST_DAY; ++n) {
        const Date date = {year, month, day};
        const bool ended = a.ends_before(date);
        const uint64_t weekday = weekday_of(n);
        const ijok_day answer = ended ? refusal(AFTER_THE_END) : ijok_day{DONE, uint64_t(n)};
        const ijok_date got = day_to_date(c, n, ended ? Fields(AFTER_THE_END) : ijok_date{DONE, year, month, day, weekday});
        accepted.days += got.number == DONE;
        if (before && !ended) report.same(got.weekday, before == SUNDAY ? MONDAY : before + 1, "the weekday after the day before's, calendar %" PRIu64 ", day %" PRId64, c, n);
        before = got.weekday;
        accepted.dates += date_to_day(c, date, NOT_TOLD, answer);
        accepted.told += date_to_day(c, date, weekday, answer);
        with_some_weekday(c, date, answer);
        if (n % 41 == 0 || n == a.first_day || n == LAST_DAY) with_every_weekday(c, date, answer);
        // the next day: of this position, of the next one that has days, of the next year
        if (day < uint64_t(a.year(year)[month - 1])) {
            ++day;
            continue;
        }
        day = 1;
        do {
            ++month;
            if (month > a.year(year).size()) {
                month = 1;
                ++year;
            }
        } while (a.year(year)[month - 1] == 0);
    }
    return accepted;
}

void days_outside() {
    const std::vector<uint64_t> late = {LAST_DAY + 1, LAST_DAY + 2, LAST_DAY + 366, 9000000, uint64_t(1) << 31, uint64_t(1) << 32, (uint64_t(1) << 32) + 2451545, uint64_t(1) << 63, TOP - 1, TOP};
    for (uint64_t c : LISTED)
        for (uint64_t n : late) day_to_date(c, n, DAY_OUT_OF_RANGE);
    for (uint64_t c : UNLISTED) {
        for (uint64_t n : late) day_to_date(c, n, UNKNOWN_CALENDAR);
        for (uint64_t n : {0, 1, 38, 347998, 2451545, 5373484}) day_to_date(c, n, UNKNOWN_CALENDAR);
    }
}

// One comparison of a position; answers what the library says.
struct ijok_position position_is(uint64_t c, int64_t y, uint64_t p, const Fields &expected) {
    const struct ijok_position got = ijok_position(c, y, p);
    report.same(got, expected, "position, calendar %" PRIu64 ", year %" PRId64 ", position %" PRIu64, c, y, p);
    return got;
}

struct ijok_position position_at(uint64_t c, int64_t y, uint64_t p) { return position_is(c, y, p, naive_position(c, y, p)); }

// A date without a weekday, with its day's, and with one that is drawn; answers whether the library accepts the first.
bool date_at(uint64_t c, int64_t y, uint64_t m, uint64_t d) {
    const ijok_day answer = naive_date_to_day(c, y, m, d);
    date_to_day(c, {y, m, d}, right_weekday(answer), answer);
    with_some_weekday(c, {y, m, d}, answer);
    return date_to_day(c, {y, m, d}, NOT_TOLD, answer);
}

// The years at and beyond the limits.
std::vector<int64_t> odd_years(int64_t first) {
    std::vector<int64_t> years = {LEAST, LEAST + 1, LEAST + 4711, LEAST + 4712, -(int64_t(1) << 32), -65536, -20001, -20000, -4714, -4713, -4712, -4711, -401, -400, -101, -100, -5, -4, -3, -2, -1,
                                  0, 1, 2, 3, 4, 5, 13, 14, 15, 16, 1582, 1583, 1900, 2000, 9998, 9999, 10000, 10001, 13760, 13761, 19998, 19999, 20000, 20001, 20002, 24712, 24713, 65536,
                                  int64_t(1) << 31, int64_t(1) << 32, (int64_t(1) << 32) + 14, (int64_t(1) << 32) + 2000, MOST - 4712, MOST - 1, MOST};
    for (int64_t k = -3; k <= 3; ++k) years.push_back(first + k);
    return years;
}

const std::vector<uint64_t> ODD_MONTHS = {0, 1, 2, 3, 4, 5, 6, 7, 8, 9, 10, 11, 12, 13, 14, 15, 18, 19, 20, 21, 22, 31, 32, 64, 255, 256, 257, 65536, 65537,
                                          (uint64_t(1) << 32) + 1, uint64_t(1) << 63, TOP - 1, TOP};

const std::vector<uint64_t> ODD_DAYS = {0, 1, 2, 4, 5, 6, 9, 10, 11, 18, 19, 20, 27, 28, 29, 30, 31, 32, 33, 255, 256, 257, 385, 65537, (uint64_t(1) << 32) + 1, uint64_t(1) << 63, TOP - 1, TOP};

void limits_of(uint64_t c, int64_t first) {
    for (int64_t y : odd_years(first))
        for (uint64_t m : ODD_MONTHS) {
            position_at(c, y, m);
            for (uint64_t d : ODD_DAYS) with_every_weekday(c, {y, m, d}, naive_date_to_day(c, y, m, d));
        }
}

// The Republican end as the change request has it, written out: a date that does not exist is refused as such also after it, and day to date tries the range of days first.
void end_written_out() {
    const uint64_t c = IJOK_REPUBLICAN;
    const std::vector<std::pair<Date, ijok_day>> dates = {
        {{1, 1, 1}, {DONE, 2375840}},            {{14, 1, 1}, {DONE, 2380588}},            {{14, 4, 9}, {DONE, 2380686}},        {{14, 4, 10}, {DONE, 2380687}},
        {{14, 4, 11}, {AFTER_THE_END, 0}},       {{14, 4, 30}, {AFTER_THE_END, 0}},        {{14, 4, 31}, {NO_SUCH_DAY, 0}},      {{14, 4, 0}, {NO_SUCH_DAY, 0}},
        {{14, 5, 1}, {AFTER_THE_END, 0}},        {{14, 5, 0}, {NO_SUCH_DAY, 0}},           {{14, 5, 31}, {NO_SUCH_DAY, 0}},      {{14, 0, 11}, {NO_SUCH_MONTH, 0}},
        {{14, 13, 5}, {AFTER_THE_END, 0}},       {{14, 13, 6}, {NO_SUCH_DAY, 0}},          {{14, 14, 1}, {NO_SUCH_MONTH, 0}},    {{15, 1, 1}, {AFTER_THE_END, 0}},
        {{15, 13, 6}, {AFTER_THE_END, 0}},       {{15, 13, 7}, {NO_SUCH_DAY, 0}},          {{8208, 2, 8}, {AFTER_THE_END, 0}},   {{8208, 2, 9}, {AFTER_THE_END, 0}},
        {{20000, 1, 1}, {AFTER_THE_END, 0}},     {{20000, 13, 5}, {AFTER_THE_END, 0}},     {{20000, 13, 6}, {NO_SUCH_DAY, 0}},   {{20000, 14, 1}, {NO_SUCH_MONTH, 0}},
        {{20001, 1, 1}, {YEAR_OUT_OF_RANGE, 0}}, {{20001, 14, 0}, {YEAR_OUT_OF_RANGE, 0}}, {{0, 13, 5}, {YEAR_OUT_OF_RANGE, 0}}, {{MOST, 4, 11}, {YEAR_OUT_OF_RANGE, 0}}};
    for (const auto &[date, expected] : dates) {
        with_every_weekday(c, date, expected);
        report.same(naive_date_to_day(c, date.year, date.month, date.day), expected, "the naive date to day, Republican %" PRId64 "/%" PRIu64 "/%" PRIu64, date.year, date.month, date.day);
    }
    day_to_date(c, 2375839, DAY_OUT_OF_RANGE);
    day_to_date(c, 2375840, ijok_date{DONE, 1, 1, 1, SATURDAY});
    day_to_date(c, 2380686, ijok_date{DONE, 14, 4, 9, MONDAY});
    day_to_date(c, 2380687, ijok_date{DONE, 14, 4, 10, TUESDAY});
    day_to_date(c, 2380688, AFTER_THE_END);
    day_to_date(c, LAST_DAY, AFTER_THE_END);
    day_to_date(c, LAST_DAY + 1, DAY_OUT_OF_RANGE);
    day_to_date(c, TOP, DAY_OUT_OF_RANGE);
    // the calendars of the same shape have no end
    for (uint64_t other : {IJOK_ETHIOPIAN, IJOK_COPTIC}) {
        int64_t n = almanac(other).first_day + (2380688 - 2375840);
        with_every_weekday(other, {14, 4, 11}, ijok_day{DONE, uint64_t(n)});
        day_to_date(other, n, ijok_date{DONE, 14, 4, 11, weekday_of(n)});
    }
}

// How many positions of a calendar are of each kind, and how many are refused.
struct Kinds {
    uint64_t months = 0, strips = 0, nones = 0, refused = 0;

    void count(const struct ijok_position &x) { ++(x.number ? refused : x.kind == STRIP ? strips : x.kind == MONTH ? months : nones); }
    void add(const Kinds &k) {
        months += k.months;
        strips += k.strips;
        nones += k.nones;
        refused += k.refused;
    }
};

// The same for positions 0 to 21 by counting, with neither lengths nor the table of strips: a year has twelve months, a Bahai one nineteen; eight calendars have a
// strip a year; of nineteen Hebrew years seven have a thirteenth month, and in the other twelve its position is none.
Kinds predicted(uint64_t c) {
    const uint64_t years = c == IJOK_JULIAN || c == IJOK_GREGORIAN ? 4713 + 20000 : 20000;
    Kinds k = {years * (c == IJOK_BAHAI ? 19 : 12), c <= IJOK_REPUBLICAN || c == IJOK_BAHAI ? years : 0, 0, 0};
    if (c == IJOK_HEBREW) {
        const std::string cycle = "cclcclclcclcclcclcl";
        for (uint64_t y = 0; y < years; ++y) ++(cycle[y % 19] == 'l' ? k.months : k.nones);
    }
    k.refused = years * 22 - k.months - k.strips - k.nones;
    return k;
}

// Positions 0 to 21 of every year: the answers; that months have 19 days or more, strips 4 to 6 and none 0; that all days together are the year's, as counted and as
// the library's own dates of 1/1 are apart.
Kinds positions_of(uint64_t c) {
    const Almanac &a = almanac(c);
    Kinds kinds;
    ijok_day begins = ijok_date_to_day(c, a.first_year, 1, 1, NOT_TOLD);
    for (int64_t y = a.first_year; y <= LAST_YEAR; ++y) {
        uint64_t days = 0;
        for (uint64_t p = 0; p <= 21; ++p) {
            const struct ijok_position got = position_at(c, y, p);
            kinds.count(got);
            days += got.days;
            const uint64_t by_days = got.days >= 19 ? MONTH : got.days >= 4 && got.days <= 6 ? STRIP : NONE;
            report.same(got.kind, by_days, "the kind by the days, calendar %" PRIu64 ", year %" PRId64 ", position %" PRIu64, c, y, p);
        }
        report.same(days, uint64_t(a.days_of(y)), "the days of all positions, calendar %" PRIu64 ", year %" PRId64, c, y);
        const ijok_day next = ijok_date_to_day(c, y + 1, 1, 1, NOT_TOLD);
        if (next.number == DONE) report.same(days, next.day - begins.day, "the days to the next 1/1, calendar %" PRIu64 ", year %" PRId64, c, y);
        begins = next;
    }
    return kinds;
}

// What the answer for a position says of the dates there, both from the library: a refusal is theirs too, none is 3, a day that is not among its days is 4, and any
// other date has a day or lies after the last day or the end. The answer is the same with the weekday that the day has, and a refusal with any weekday.
void dates_there(uint64_t c, int64_t y, uint64_t p) {
    const struct ijok_position at = ijok_position(c, y, p);
    const auto one = [&](uint64_t d) {
        const ijok_day answer = ijok_date_to_day(c, y, p, d, NOT_TOLD);
        const uint64_t got = answer.number;
        const uint64_t weekday = got ? 9 : ijok_day_to_date(c, answer.day).weekday;
        report.same(ijok_date_to_day(c, y, p, d, weekday), answer,
                    "a date with its weekday, calendar %" PRIu64 ", %" PRId64 "/%" PRIu64 "/%" PRIu64 ", weekday %" PRIu64, c, y, p, d, weekday);
        const bool has = (at.kind == MONTH || at.kind == STRIP) && d >= 1 && d <= at.days;
        const uint64_t expected = at.number ? at.number : at.kind == NONE ? NO_SUCH_MONTH : has ? DONE : NO_SUCH_DAY;
        report.same(got == DAY_OUT_OF_RANGE || got == AFTER_THE_END ? DONE : got, expected,
                    "a date by its position, calendar %" PRIu64 ", %" PRId64 "/%" PRIu64 "/%" PRIu64, c, y, p, d);
    };
    for (uint64_t d = 0; d <= 32; ++d) one(d);
    for (uint64_t d : {(uint64_t(1) << 32) + 1, uint64_t(1) << 63, TOP}) one(d);
}

// The change request's own words and the places around them, written out.
void positions_written_out() {
    struct Row {
        uint64_t c;
        int64_t y;
        uint64_t p;
        struct ijok_position expected;
    };
    const std::vector<Row> rows = {
        {1, 1, 12, {DONE, MONTH, 30}},      {1, 1, 13, {DONE, STRIP, 5}},      {1, 1, 14, {NO_SUCH_MONTH, NONE, 0}}, {1, 1, 0, {NO_SUCH_MONTH, NONE, 0}},
        {2, 20000, 13, {DONE, STRIP, 5}},   {3, 3, 13, {DONE, STRIP, 5}},      {4, 1, 8, {DONE, MONTH, 30}},         {4, 1, 9, {DONE, STRIP, 5}},
        {4, 1, 10, {DONE, MONTH, 30}},      {4, 1, 13, {DONE, MONTH, 30}},     {4, 1, 14, {NO_SUCH_MONTH, NONE, 0}}, {5, 2, 13, {DONE, STRIP, 5}},
        {5, 3, 13, {DONE, STRIP, 6}},       {6, 3, 13, {DONE, STRIP, 6}},      {6, 4, 13, {DONE, STRIP, 5}},         {7, 3, 13, {DONE, STRIP, 6}},
        {7, 14, 4, {DONE, MONTH, 30}},      {7, 14, 13, {DONE, STRIP, 5}},     {7, 15, 13, {DONE, STRIP, 6}},        {7, 20000, 13, {DONE, STRIP, 5}},
        {7, 20000, 9, {DONE, MONTH, 30}},   {7, 20001, 13, {YEAR_OUT_OF_RANGE, NONE, 0}},                            {7, 20000, 14, {NO_SUCH_MONTH, NONE, 0}},
        {8, 1, 12, {DONE, MONTH, 31}},      {9, 3, 5, {DONE, MONTH, 29}},      {10, -4712, 2, {DONE, MONTH, 29}},    {11, 1900, 2, {DONE, MONTH, 28}},
        {11, 2000, 13, {NO_SUCH_MONTH, NONE, 0}},                              {12, 2, 12, {DONE, MONTH, 30}},       {13, 1, 12, {DONE, MONTH, 29}},
        {14, 1, 18, {DONE, MONTH, 19}},     {14, 1, 19, {DONE, STRIP, 4}},     {14, 156, 19, {DONE, STRIP, 5}},      {14, 1, 20, {DONE, MONTH, 19}},
        {14, 1, 21, {NO_SUCH_MONTH, NONE, 0}},                                 {14, 1, 13, {DONE, MONTH, 19}},       {15, 1, 12, {DONE, MONTH, 30}},
        {15, 1, 13, {NO_SUCH_MONTH, NONE, 0}},                                 {18, 1, 7, {DONE, NONE, 0}},          {18, 5759, 7, {DONE, NONE, 0}},
        {18, 5760, 7, {DONE, MONTH, 29}},   {18, 20000, 7, {DONE, NONE, 0}},   {18, 5759, 6, {DONE, MONTH, 29}},     {18, 5760, 6, {DONE, MONTH, 30}},
        {18, 5759, 13, {DONE, MONTH, 29}},  {18, 5759, 14, {NO_SUCH_MONTH, NONE, 0}},                                {18, 5760, 14, {NO_SUCH_MONTH, NONE, 0}},
        {18, 0, 7, {YEAR_OUT_OF_RANGE, NONE, 0}},                              {18, 20001, 7, {YEAR_OUT_OF_RANGE, NONE, 0}},
        {16, 1, 13, {UNKNOWN_CALENDAR, NONE, 0}},                              {0, 0, 0, {UNKNOWN_CALENDAR, NONE, 0}},
        {1, 0, 0, {YEAR_OUT_OF_RANGE, NONE, 0}},                               {1, 1, TOP, {NO_SUCH_MONTH, NONE, 0}}};
    for (const Row &row : rows) {
        position_is(row.c, row.y, row.p, row.expected);
        report.same(naive_position(row.c, row.y, row.p), row.expected, "the naive position, calendar %" PRIu64 ", year %" PRId64 ", position %" PRIu64, row.c, row.y, row.p);
    }
    for (int64_t y : {1, 5759, 20000})
        for (uint64_t d = 0; d <= 31; ++d) with_every_weekday(IJOK_HEBREW, {y, 7, d}, refusal(NO_SUCH_MONTH));
}

}  // namespace

void compare_calendars() {
    std::vector<Accepted> accepted;
    for (uint64_t c : LISTED) accepted.push_back(days_of(c));
    report.line("days 0 to 5373484 in sixteen calendars, counted one by one: day to date with its weekday, the next after the day before's, and back from each calendar's first day on, with no weekday, "
                "the day's and one of 25, every 41st, the first and the last with all; Republican ones after the end refused");

    for (size_t k = 0; k < LISTED.size(); ++k) {
        const uint64_t c = LISTED[k];
        report.same(accepted[k].days, days_with_a_date(c), "how many days have a date, calendar %" PRIu64, c);
        report.same(accepted[k].dates, days_with_a_date(c), "how many dates have a day, calendar %" PRIu64, c);
        report.same(accepted[k].told, days_with_a_date(c), "how many dates have a day with its weekday, calendar %" PRIu64, c);
    }
    report.line("how many of these days and dates each calendar accepts");

    end_written_out();
    report.line("dates and days about the Republican end, written out, the dates with all weekdays");

    uint64_t republican = 0;
    for (int64_t y = 0; y <= LAST_YEAR + 1; ++y)
        for (uint64_t m = 0; m <= 14; ++m)
            for (uint64_t d = 0; d <= 31; ++d) republican += date_at(IJOK_REPUBLICAN, y, m, d);
    report.same(republican, days_with_a_date(IJOK_REPUBLICAN), "how many Republican dates are accepted");
    report.line("Republican days 0 to 31 of positions 0 to 14, years 0 to 20001, with no weekday, the day's and one of 25, and that 4848 of them are accepted");

    days_outside();
    report.line("days beyond the last, and days in calendars that are not listed");

    positions_written_out();
    report.line("positions written out, and Hebrew dates at position 7 of common years refused 3 with all weekdays");

    std::vector<Kinds> kinds;
    for (uint64_t c : LISTED) kinds.push_back(positions_of(c));
    report.line("positions 0 to 21, every year to 20000: number, kind and days; the kind by the days; all days of a year by counting, and to the next 1/1");

    Kinds all;
    for (size_t k = 0; k < LISTED.size(); ++k) {
        const uint64_t c = LISTED[k];
        const Kinds expected = predicted(c);
        report.same(kinds[k].months, expected.months, "how many positions are months, calendar %" PRIu64, c);
        report.same(kinds[k].strips, expected.strips, "how many positions are strips, calendar %" PRIu64, c);
        report.same(kinds[k].nones, expected.nones, "how many positions are none, calendar %" PRIu64, c);
        report.same(kinds[k].refused, expected.refused, "how many positions are refused, calendar %" PRIu64, c);
        all.add(kinds[k]);
    }
    report.line(("how many of these are of each kind, in each calendar; together " + std::to_string(all.months) + " months, " + std::to_string(all.strips) + " strips, " +
                 std::to_string(all.nones) + " none (common Hebrew years), " + std::to_string(all.refused) + " refused")
                    .c_str());

    // 23 has no factor with the cycles of 4, 19, 30 and 400 years
    for (uint64_t c : LISTED)
        for (int64_t y = almanac(c).first_year - 1; y <= LAST_YEAR + 1; ++y)
            if (y % 23 == 0 || y < almanac(c).first_year + 40 || y > LAST_YEAR - 20)
                for (uint64_t p = 0; p <= 21; ++p) dates_there(c, y, p);
    for (uint64_t c : UNLISTED)
        for (uint64_t p = 0; p <= 21; ++p) dates_there(c, 1, p);
    report.line("dates by what the library says of their position: days 0 to 32 and huge ones, positions 0 to 21, every 23rd year and those about the limits; and the same answer with the weekday that the library gives");

    for (uint64_t c : LISTED)
        for (int64_t y = almanac(c).first_year; y <= LAST_YEAR; ++y)
            for (uint64_t p = 0; p <= almanac(c).year(y).size() + 1; ++p) {
                uint64_t days = naive_position(c, y, p).days;
                date_at(c, y, p, 0);
                date_at(c, y, p, 1);
                date_at(c, y, p, days);
                date_at(c, y, p, days + 1);
            }
    report.line("dates at days 0, first, last and one beyond, of every position and the places around, every year to 20000, with no weekday, the day's and one of 25");

    for (uint64_t c : LISTED) limits_of(c, almanac(c).first_year);
    for (uint64_t c : UNLISTED) limits_of(c, 1);
    report.line("dates with all 25 weekdays and positions, at and beyond every limit, calendars 0, 16, 17, 19 .. 2^64-1 among them");

    Random random{7};
    for (int k = 0; k < 2000000; ++k) {
        uint64_t c = random.one_in(8) ? random.next() : random.next() % 24;
        int64_t y = random.one_in(8) ? int64_t(random.next()) : random.between(-5000, 21000);
        uint64_t m = random.one_in(8) ? random.next() : random.next() % 24;
        uint64_t d = random.one_in(8) ? random.next() : random.next() % 40;
        uint64_t w = random.one_in(8) ? random.next() : random.next() % 10;
        date_at(c, y, m, d);
        date_to_day(c, {y, m, d}, w, with_weekday(naive_date_to_day(c, y, m, d), w));
        position_at(c, y, m);
    }
    report.line("random dates, weekdays and positions, one argument in eight of any 64 bits");
}
