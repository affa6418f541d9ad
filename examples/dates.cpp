// The library from C++: the same kinds of questions as in dates.c, with a refusal turned into an exception. Ends with a status that is not 0 where an
// answer is not as expected. examples/run builds and runs it.
#include <cstdint>
#include <cstdio>
#include <stdexcept>
#include <string>
#include <string_view>
#include <vector>

#include "ijok.h"

namespace {

struct Refused : std::runtime_error {
    std::uint64_t number;
    explicit Refused(std::uint64_t n) : std::runtime_error("refused " + std::to_string(n)), number(n) {}
};

// The answer, where it is no refusal.
template <class Answer>
Answer done(Answer x) {
    if (x.number != IJOK_DONE) throw Refused(x.number);
    return x;
}

std::vector<std::uint64_t> unfolded(const ijok_line &l, std::size_t count) {
    std::vector<std::uint64_t> lengths(count);
    if (auto number = ijok_unfold(l.a, l.b, l.r, count, lengths.data(), lengths.size()); number != IJOK_DONE) throw Refused(number);
    return lengths;
}

std::uint64_t verdict(std::string_view line) { return ijok_verdict(reinterpret_cast<const std::uint8_t *>(line.data()), line.size()); }

void expect(bool good, const char *what) {
    if (!good) throw std::runtime_error(std::string("not as expected: ") + what);
}

template <class F>
void expect_refused(std::uint64_t number, F ask, const char *what) {
    try {
        ask();
    } catch (const Refused &why) {
        expect(why.number == number, what);
        return;
    }
    expect(false, what);
}

void ask() {
    auto there = done(ijok_date_to_day(IJOK_JULIAN, 1582, 10, 4, IJOK_THURSDAY));
    expect(there.day == 2299160, "Thursday, 4 October 1582 Julian");
    auto next = done(ijok_day_to_date(IJOK_GREGORIAN, there.day + 1));
    expect(next.year == 1582 && next.month == 10 && next.day == 15 && next.weekday == IJOK_FRIDAY, "the next day, Gregorian");
    std::printf("the day after Thursday, 4 October 1582 Julian is %d-%d-%d Gregorian, weekday %d\n", int(next.year), int(next.month), int(next.day), int(next.weekday));
    // the weekday of an answer can be handed back with its date
    expect(done(ijok_date_to_day(IJOK_GREGORIAN, next.year, next.month, next.day, next.weekday)).day == there.day + 1, "that date again");

    struct ijok_position loose = done(ijok_position(IJOK_PERSIAN, 1, 9));
    expect(loose.kind == IJOK_STRIP && loose.days == 5, "position 9 of a Persian year");
    expect(done(ijok_position(IJOK_HEBREW, 5759, 7)).kind == IJOK_NONE, "position 7 of a common Hebrew year");
    std::printf("position 9 of a Persian year is a strip of %d days\n", int(loose.days));

    struct ijok_easter feast = done(ijok_easter(IJOK_JULIAN, 7453));
    expect(feast.month == 4 && feast.day == 12, "Easter 7453, Julian");
    std::printf("Easter 7453 Julian: month %d, day %d\n", int(feast.month), int(feast.day));

    const std::vector<std::uint64_t> code = {30, 29, 30, 29, 30, 29, 30, 29, 30, 29, 30, 30};
    auto line = done(ijok_fit(code.data(), code.size()));
    expect(line.a == 325 && line.b == 11 && line.r == 5, "the line of an Islamic leap year");
    expect(unfolded(line, code.size()) == code, "the code again");
    std::printf("an Islamic leap year is the line (%d k + %d) / %d\n", int(line.a), int(line.r), int(line.b));

    expect(verdict("0b1a380101256859") == IJOK_DONE && verdict("0b1a38010125685a") == IJOK_WRONG_DAY && verdict("xyz") == IJOK_MALFORMED_FRAME, "verdicts");

    expect_refused(IJOK_NO_SUCH_DAY, [] { return done(ijok_date_to_day(IJOK_ISLAMIC_B, 1, 12, 30, IJOK_NO_WEEKDAY)); }, "a day beyond the month");
    expect_refused(IJOK_WRONG_WEEKDAY, [] { return done(ijok_date_to_day(IJOK_GREGORIAN, 2000, 1, 1, IJOK_MONDAY)); }, "Monday, 1 January 2000");
    expect_refused(IJOK_UNKNOWN_CALENDAR, [] { return done(ijok_day_to_date(17, 0)); }, "calendar 17");
    expect_refused(IJOK_NO_SUCH_MONTH, [] { return done(ijok_position(IJOK_GREGORIAN, 2000, 13)); }, "position 13 of a Gregorian year");
    expect_refused(IJOK_YEAR_OUT_OF_RANGE, [] { return done(ijok_easter(IJOK_JULIAN, 0)); }, "Easter of year 0");
    expect_refused(IJOK_NO_LINE, [] { const std::uint64_t c[] = {28, 30}; return done(ijok_fit(c, 2)); }, "28 30");
    // an empty vector's data may be null
    expect_refused(IJOK_CODE_OUT_OF_LIMITS, [&] { return unfolded(line, 0); }, "a count of 0");
    expect_refused(IJOK_CODE_OUT_OF_LIMITS, [] { std::vector<std::uint64_t> none; return done(ijok_fit(none.data(), none.size())); }, "no lengths");
}

}  // namespace

int main() {
    try {
        ask();
    } catch (const std::exception &e) {
        std::printf("%s\n", e.what());
        return 1;
    }
    std::printf("all as expected\n");
}
