// Measures the exported functions and the sheet program against their peers, all in one run, and prints medians and ratios; and the almanac program alone.
// measure SHEET DIGITS FRAMES ALMANAC: the sheet program, the plain digit checker, a file to write frames to, the almanac program.
#include <fcntl.h>
#include <sys/resource.h>
#include <sys/wait.h>
#include <time.h>
#include <unistd.h>

#include <algorithm>
#include <cctype>
#include <chrono>
#include <cinttypes>
#include <cstdio>
#include <cstdlib>
#include <functional>
#include <string>
#include <vector>

#ifdef WITH_LIBHDATE
#include <hdate.h>
#endif

#include "../include/ijok.h"
#include "../tests/independent/random.h"

extern "C" ijok_line plain_fit(const uint64_t *code, size_t count);

namespace {

double nanoseconds(const timeval &v) { return double(v.tv_sec) * 1e9 + double(v.tv_usec) * 1e3; }

double processor_time(const rusage &used) { return nanoseconds(used.ru_utime) + nanoseconds(used.ru_stime); }

// Processor time of this process and of the programs that it ran, in nanoseconds: what other work on the machine takes is not counted.
double processor_time() {
    timespec t;
    clock_gettime(CLOCK_PROCESS_CPUTIME_ID, &t);
    rusage children;
    getrusage(RUSAGE_CHILDREN, &children);
    return double(t.tv_sec) * 1e9 + double(t.tv_nsec) + processor_time(children);
}

uint64_t kept;  // every result ends here, so that no call is left out

double middle(std::vector<double> times) {
    std::sort(times.begin(), times.end());
    return times[times.size() / 2];
}

// The median processor time of each way, in nanoseconds a unit, and the median over the rounds of the first's ratio to each: those of a round run one after the other, so
// that a ratio holds where the machine is shared and its speed changes.
struct Medians {
    std::vector<double> times, ratios;
};

// Several ways to do the same amount of work, measured in turn in each round.
struct Race {
    std::vector<std::function<uint64_t()>> ways;

    Medians medians(int rounds, double units) const {
        std::vector<std::vector<double>> times(ways.size());
        for (int round = -1; round < rounds; ++round)  // the first round only warms up
            for (size_t w = 0; w < ways.size(); ++w) {
                double start = processor_time();
                kept += ways[w]();
                double ns = processor_time() - start;
                if (round >= 0) times[w].push_back(ns / units);
            }
        Medians result;
        for (auto &t : times) {
            std::vector<double> ratios;
            for (size_t round = 0; round < t.size(); ++round) ratios.push_back(times[0][round] / t[round]);
            result.times.push_back(middle(t));
            result.ratios.push_back(middle(ratios));
        }
        return result;
    }
};

// ---- conversions

constexpr uint64_t LAST_DAY = 5373484;
constexpr int64_t EPOCH = 2440588;  // the day of 1 January 1970

struct Row {
    uint64_t number;
    const char *name;
    uint64_t first_day, last_day = LAST_DAY;
};

const std::vector<Row> ROWS = {{1, "Egyptian", 1448638},  {2, "Armenian", 1922868},   {3, "Khwarizmian", 1952068}, {4, "Persian", 1952063},
                               {5, "Ethiopian", 1724221}, {6, "Coptic", 1825030},     {7, "Republican", 2375840, 2380687}, {8, "Macedonian", 1607709},
                               {9, "Syrian", 1607739},    {10, "Julian", 0},          {11, "Gregorian", 38},       {12, "Islamic A", 1948439},
                               {13, "Islamic B", 1948440}, {14, "Bahai", 2394647},    {15, "Saka", 1749995},       {18, "Hebrew", 347998}};

inline ijok_date chrono_date(uint64_t n) {
    std::chrono::year_month_day d{std::chrono::sys_days{std::chrono::days{int64_t(n) - EPOCH}}};
    return {0, int(d.year()), unsigned(d.month()), unsigned(d.day()), 0};
}

inline unsigned chrono_weekday(uint64_t n) { return std::chrono::weekday{std::chrono::sys_days{std::chrono::days{int64_t(n) - EPOCH}}}.iso_encoding(); }

inline ijok_day chrono_day(int64_t year, uint64_t month, uint64_t day) {
    std::chrono::year_month_day date{std::chrono::year{int(year)}, std::chrono::month{unsigned(month)}, std::chrono::day{unsigned(day)}};
    return {0, uint64_t(std::chrono::sys_days{date}.time_since_epoch().count() + EPOCH)};
}

// As a caller of a library would reach it.
__attribute__((noinline)) ijok_date chrono_date_called(uint64_t n) {
    asm volatile("");
    return chrono_date(n);
}

__attribute__((noinline)) ijok_day chrono_day_called(int64_t year, uint64_t month, uint64_t day) {
    asm volatile("");
    return chrono_day(year, month, day);
}

// The same with the date checked, as ours checks it: 4 where the year has no such day, 5 past the last day.
inline ijok_day checked(int64_t year, uint64_t month, uint64_t day) {
    if (year < -4712 || year > 20000) return {2, 0};
    if (month < 1 || month > 12) return {3, 0};
    std::chrono::year_month_day date{std::chrono::year{int(year)}, std::chrono::month{unsigned(month)}, std::chrono::day{unsigned(day)}};
    if (day > 31 || !date.ok()) return {4, 0};
    uint64_t n = uint64_t(std::chrono::sys_days{date}.time_since_epoch().count() + EPOCH);
    if (n > LAST_DAY) return {5, 0};
    return {0, n};
}

__attribute__((noinline)) ijok_day chrono_day_checked(int64_t year, uint64_t month, uint64_t day) { return checked(year, month, day); }

// And both with the weekday: given with the date, and 13 where the one handed in is neither 0 nor the day's.
__attribute__((noinline)) ijok_date chrono_date_with_weekday(uint64_t n) {
    asm volatile("");
    ijok_date date = chrono_date(n);
    date.weekday = chrono_weekday(n);
    return date;
}

__attribute__((noinline)) ijok_day chrono_day_with_weekday(int64_t year, uint64_t month, uint64_t day, uint64_t weekday) {
    const ijok_day answer = checked(year, month, day);
    if (answer.number == 0 && weekday != 0 && weekday != chrono_weekday(answer.day)) return {13, 0};
    return answer;
}

// Every field of an answer is read.
inline uint64_t sum(const ijok_day &x) { return x.number + x.day; }
inline uint64_t sum(const ijok_date &x) { return x.number + uint64_t(x.year) + x.month + x.day + x.weekday; }
inline uint64_t sum(const ijok_line &x) { return x.number + x.a + x.b + x.r; }
inline uint64_t sum(uint64_t x) { return x; }

template <class F, class T>
std::function<uint64_t()> over(const std::vector<T> &inputs, F f) {
    return [&inputs, f] {
        uint64_t all = 0;
        for (const T &x : inputs) all += sum(f(x));
        return all;
    };
}

// Random days of a calendar's range, their dates, and their Gregorian dates by chrono.
struct Sample {
    std::vector<uint64_t> days;
    std::vector<ijok_date> dates, gregorian;
};

Sample sample(const Row &row, int count, Random &random) {
    Sample s;
    const uint64_t c = row.number;
    for (int k = 0; k < count; ++k) {
        uint64_t n = random.between(row.first_day, row.last_day);
        ijok_date date = ijok_day_to_date(c, n), by_chrono = chrono_date_with_weekday(n);
        s.days.push_back(n);
        s.dates.push_back(date);
        s.gregorian.push_back(by_chrono);
        ijok_day back = ijok_date_to_day(c, date.year, date.month, date.day, 0), told = ijok_date_to_day(c, date.year, date.month, date.day, date.weekday);
        if (date.number || back.number || back.day != n || told.number || told.day != n) std::printf("calendar %" PRIu64 " disagrees with itself on day %" PRIu64 "\n", c, n);
        if (c == 11 && (date.year != by_chrono.year || date.month != by_chrono.month || date.day != by_chrono.day)) std::printf("chrono disagrees on day %" PRIu64 "\n", n);
        if (date.weekday != by_chrono.weekday) std::printf("chrono disagrees on the weekday of day %" PRIu64 "\n", n);
    }
    return s;
}

void conversions() {
    constexpr int COUNT = 20000, ROUNDS = 201;
    std::printf("Conversions of %d random days of each calendar's range, medians of %d rounds, ns each; a ratio is the median of the rounds' ratios.\n", COUNT, ROUNDS);
    std::printf("chrono: libstdc++'s std::chrono::year_month_day and sys_days on the same days (Gregorian), behind a call as ours is; date to day with the date checked. Our dates have their weekday, chrono's here have not; none is handed in.\n\n");
    std::printf("| Calendar | day to date | chrono | ratio | date to day | chrono | ratio |\n|---|---|---|---|---|---|---|\n");
    std::vector<double> inlined_there, inlined_back, unchecked_back;
    Random random{1};
    for (const Row &row : ROWS) {
        const uint64_t c = row.number;
        const auto [days, dates, gregorian] = sample(row, COUNT, random);
        Race to_date{{over(days, [c](uint64_t n) { return ijok_day_to_date(c, n); }), over(days, [](uint64_t n) { return chrono_date_called(n); }), over(days, [](uint64_t n) { return chrono_date(n); })}};
        Race to_day{{over(dates, [c](const ijok_date &d) { return ijok_date_to_day(c, d.year, d.month, d.day, 0); }), over(gregorian, [](const ijok_date &d) { return chrono_day_checked(d.year, d.month, d.day); }),
                     over(gregorian, [](const ijok_date &d) { return chrono_day(d.year, d.month, d.day); }), over(gregorian, [](const ijok_date &d) { return chrono_day_called(d.year, d.month, d.day); })}};
        auto there = to_date.medians(ROUNDS, COUNT), back = to_day.medians(ROUNDS, COUNT);
        inlined_there.push_back(there.times[2]);
        inlined_back.push_back(back.times[2]);
        unchecked_back.push_back(back.times[3]);
        std::printf("| %s | %.1f | %.1f | %.2f | %.1f | %.1f | %.2f |\n", row.name, there.times[0], there.times[1], there.ratios[1], back.times[0], back.times[1], back.ratios[1]);
        std::fflush(stdout);
    }
    std::printf("\nchrono inlined in the loop: %.1f day to date, %.1f date to day; behind a call with nothing checked: %.1f date to day (medians over the rows).\n", middle(inlined_there), middle(inlined_back),
                middle(unchecked_back));
}

// The same in three calendars with the weekday on both sides: the date's own is handed in.
void weekdays() {
    constexpr int COUNT = 20000, ROUNDS = 201;
    std::printf("\nWith the weekday, on as many days: chrono gives it with the date too, and date to day has the right one handed in and compares it; none: ours with none handed in.\n\n");
    std::printf("| Calendar | day to date | chrono | ratio | date to day | chrono | ratio | none | ratio |\n|---|---|---|---|---|---|---|---|---|\n");
    Random random{5};
    for (const Row &row : ROWS) {
        const uint64_t c = row.number;
        if (c != IJOK_GREGORIAN && c != IJOK_ISLAMIC_A && c != IJOK_HEBREW) continue;
        const auto [days, dates, gregorian] = sample(row, COUNT, random);
        Race to_date{{over(days, [c](uint64_t n) { return ijok_day_to_date(c, n); }), over(days, [](uint64_t n) { return chrono_date_with_weekday(n); })}};
        Race to_day{{over(dates, [c](const ijok_date &d) { return ijok_date_to_day(c, d.year, d.month, d.day, d.weekday); }),
                     over(gregorian, [](const ijok_date &d) { return chrono_day_with_weekday(d.year, d.month, d.day, d.weekday); }),
                     over(dates, [c](const ijok_date &d) { return ijok_date_to_day(c, d.year, d.month, d.day, 0); })}};
        auto there = to_date.medians(ROUNDS, COUNT), back = to_day.medians(ROUNDS, COUNT);
        std::printf("| %s | %.1f | %.1f | %.2f | %.1f | %.1f | %.2f | %.1f | %.2f |\n", row.name, there.times[0], there.times[1], there.ratios[1], back.times[0], back.times[1], back.ratios[1],
                    back.times[2], back.ratios[2]);
        std::fflush(stdout);
    }
}

// ---- the Hebrew calendar against libhdate, where it is installed

#ifdef WITH_LIBHDATE
// Its months: 1 to 12, and 13 and 14 for the two Adars of a leap year. Ours: position 6 is Adar or the first Adar, 7 the second.
uint64_t position_of(int month) { return month > 12 ? uint64_t(month) - 7 : month > 6 ? uint64_t(month) + 1 : uint64_t(month); }

struct HebrewDate {
    ijok_date ours;
    int year, month, day;
};

void hebrew() {
    constexpr int COUNT = 20000, ROUNDS = 201;
    constexpr uint64_t FROM = 1715120, TO = 3300000;  // libhdate counts from the year 3744, and in 32 bits, which do not hold later days
    std::printf("\nThe Hebrew calendar against libhdate (hdate_jd_to_hdate, hdate_hdate_to_jd, which check nothing), %d random days from %" PRIu64 " to %" PRIu64 ", medians of %d rounds, ns each.\n", COUNT, FROM, TO,
                ROUNDS);
    Random random{4};
    int wrong = 0;
    std::vector<uint64_t> days;
    std::vector<HebrewDate> dates;
    for (int k = 0; k < COUNT; ++k) {
        uint64_t n = random.between(FROM, TO);
        HebrewDate date{ijok_day_to_date(18, n), 0, 0, 0};
        int here, next;
        hdate_jd_to_hdate(int(n), &date.day, &date.month, &date.year, &here, &next);
        wrong += date.ours.number || date.ours.year != date.year || date.ours.month != position_of(date.month) || date.ours.day != uint64_t(date.day);
        days.push_back(n);
        dates.push_back(date);
    }
    std::printf("libhdate disagrees on %d of these days.\n\n| Direction | ours | libhdate | ratio |\n|---|---|---|---|\n", wrong);
    auto by_libhdate = [](uint64_t n) -> uint64_t {
        int day, month, year, here, next;
        hdate_jd_to_hdate(int(n), &day, &month, &year, &here, &next);
        return uint64_t(day) + uint64_t(month) + uint64_t(year);
    };
    auto back_by_libhdate = [](const HebrewDate &d) -> uint64_t {
        int here, next;
        return uint64_t(hdate_hdate_to_jd(d.day, d.month, d.year, &here, &next));
    };
    Race to_date{{over(days, [](uint64_t n) { return ijok_day_to_date(18, n); }), over(days, by_libhdate)}};
    Race to_day{{over(dates, [](const HebrewDate &d) { return ijok_date_to_day(18, d.ours.year, d.ours.month, d.ours.day, 0); }), over(dates, back_by_libhdate)}};
    auto there = to_date.medians(ROUNDS, COUNT), back = to_day.medians(ROUNDS, COUNT);
    std::printf("| day to date | %.1f | %.1f | %.3f |\n| date to day | %.1f | %.1f | %.3f |\n", there.times[0], there.times[1], there.ratios[1], back.times[0], back.times[1], back.ratios[1]);
}
#else
void hebrew() { std::printf("\nlibhdate (Debian's libhdate-dev) is not installed: the Hebrew calendar is not measured against it.\n"); }
#endif

// ---- fits

using Code = std::vector<uint64_t>;

Code line_code(uint64_t a, uint64_t b, uint64_t r) {
    Code code;
    for (uint64_t k = 0; k < 512; ++k) code.push_back((a * (k + 1) + r) / b - (a * k + r) / b);
    return code;
}

// 512 lengths of a line with a denominator above 256, which is the least.
Code accepted(Random &random) {
    while (true) {
        uint64_t b = random.between(257, 512);
        Code code = line_code(random.between(0, 399 * b), b, random.between(0, b - 1));
        ijok_line fit = ijok_fit(code.data(), 512);
        if (fit.number == IJOK_DONE && fit.b > 256) return code;
    }
}

// The same with the last length changed so that no line generates it, though one generates the first 511.
Code refused(Random &random) {
    while (true) {
        Code code = accepted(random);
        code[511] = code[511] == 0 || random.next() % 2 ? code[511] + 1 : code[511] - 1;
        if (ijok_fit(code.data(), 511).number == IJOK_DONE && ijok_fit(code.data(), 512).number == IJOK_NO_LINE) return code;
    }
}

void fits() {
    constexpr int COUNT = 40, ROUNDS = 201;
    std::printf("\nFits of 512 lengths, %d codes of each kind, medians of %d rounds, microseconds each.\n", COUNT, ROUNDS);
    std::printf("plain: a Rust fitter that tries the denominators in turn with the band test (bench/plain_fitter.rs).\n\n");
    std::printf("| Codes | ijok_fit | plain | ratio |\n|---|---|---|---|\n");
    Random random{2};
    for (bool good : {true, false}) {
        std::vector<Code> codes;
        for (int k = 0; k < COUNT; ++k) {
            codes.push_back(good ? accepted(random) : refused(random));
            ijok_line ours = ijok_fit(codes.back().data(), 512), plain = plain_fit(codes.back().data(), 512);
            if (ours.number != plain.number || ours.a != plain.a || ours.b != plain.b || ours.r != plain.r) std::printf("the fitters disagree\n");
        }
        Race race{{over(codes, [](const Code &c) { return ijok_fit(c.data(), c.size()); }), over(codes, [](const Code &c) { return plain_fit(c.data(), c.size()); })}};
        auto t = race.medians(ROUNDS, COUNT);
        std::printf("| %s | %.1f | %.1f | %.2f |\n", good ? "accepted with a denominator above 256" : "refused only at the last length", t.times[0] / 1000, t.times[1] / 1000, t.ratios[1]);
        std::fflush(stdout);
    }
}

// ---- sheets

constexpr int FRAMES = 3000000;

void write_frame(FILE *f, uint64_t calendar, uint64_t n) {
    ijok_date d = ijok_day_to_date(calendar, n);
    std::fprintf(f, "%02" PRIx64 "%04" PRIx64 "%02" PRIx64 "%02" PRIx64 "%06" PRIx64 "\n", calendar, uint64_t(d.year + 4712), d.month, d.day, n);
}

// Right frames: Gregorian days in order, or any days of all calendars.
void write_frames(const char *file, bool ordered) {
    FILE *f = std::fopen(file, "w");
    if (!f) std::exit(2);
    Random random{3};
    for (int k = 0; k < FRAMES; ++k) {
        const Row &row = ROWS[random.next() % ROWS.size()];
        if (ordered)
            write_frame(f, 11, LAST_DAY - FRAMES + uint64_t(k));
        else
            write_frame(f, row.number, random.between(row.first_day, row.last_day));
    }
    std::fclose(f);
}

pid_t start(const char *program, int input) {
    pid_t child = fork();
    if (child == 0) {
        dup2(input, 0);
        dup2(open("/dev/null", O_WRONLY), 1);
        execl(program, program, static_cast<char *>(nullptr));
        _exit(127);
    }
    close(input);
    return child;
}

// Waits for the end of the program, and answers what it used.
rusage end(pid_t child, const char *program) {
    int status = 1;
    rusage used;
    wait4(child, &status, 0, &used);
    if (status) std::printf("%s failed\n", program);
    return used;
}

uint64_t run(const char *program, const char *file) {
    end(start(program, open(file, O_RDONLY)), program);
    return 0;
}

void sheets(const char *sheet, const char *digits, const char *file) {
    constexpr int ROUNDS = 15;
    std::printf("\nSheets: %d right frames from a file, answers to /dev/null, medians of %d runs, ns a line.\n", FRAMES, ROUNDS);
    std::printf("digits: a plain C program that looks at the digits by a byte table and at nothing else (bench/digits.c).\n\n");
    std::printf("| Frames | sheet | digits | ratio |\n|---|---|---|---|\n");
    for (bool ordered : {true, false}) {
        write_frames(file, ordered);
        Race race{{[=] { return run(sheet, file); }, [=] { return run(digits, file); }}};
        auto t = race.medians(ROUNDS, FRAMES);
        std::printf("| %s | %.1f | %.1f | %.2f |\n", ordered ? "Gregorian days in order" : "any days of all calendars", t.times[0], t.times[1], t.ratios[1]);
        std::fflush(stdout);
    }
}

// ---- requests

constexpr int REQUESTS = 1000000;

// The name by which the program knows the calendar.
std::string name(const Row &row) {
    std::string letters = row.name;
    for (char &c : letters) c = c == ' ' ? '-' : char(std::tolower(c));
    return letters;
}

// Lines of `day N CALENDAR`: Gregorian days in order, or any days of all calendars.
std::string day_requests(bool ordered) {
    std::string lines;
    Random random{4};
    for (int k = 0; k < REQUESTS; ++k) {
        const Row &row = ROWS[random.next() % ROWS.size()];
        if (ordered)
            lines += "day " + std::to_string(LAST_DAY - REQUESTS + uint64_t(k)) + " gregorian\n";
        else
            lines += "day " + std::to_string(random.between(row.first_day, row.last_day)) + " " + name(row) + "\n";
    }
    return lines;
}

// The program's own processor time on lines that come through a pipe; what this process takes to write them is not counted.
double piped(const char *program, const std::string &lines) {
    int ends[2];
    if (pipe2(ends, O_CLOEXEC)) std::exit(2);
    pid_t child = start(program, ends[0]);
    for (size_t at = 0; at < lines.size();) {
        ssize_t count = write(ends[1], lines.data() + at, lines.size() - at);
        if (count <= 0) std::exit(2);
        at += size_t(count);
    }
    close(ends[1]);
    return processor_time(end(child, program));
}

void requests(const char *almanac) {
    constexpr int ROUNDS = 15;
    std::printf("\nRequests: %d lines of `day N CALENDAR` through a pipe, answers to /dev/null, medians of %d runs, ns a line.\n\n", REQUESTS, ROUNDS);
    std::printf("| Requests | almanac |\n|---|---|\n");
    for (bool ordered : {true, false}) {
        const std::string lines = day_requests(ordered);
        std::vector<double> times;
        for (int round = 0; round < ROUNDS; ++round) times.push_back(piped(almanac, lines) / REQUESTS);
        std::printf("| %s | %.1f |\n", ordered ? "Gregorian days in order" : "any days of all calendars", middle(times));
        std::fflush(stdout);
    }
}

}  // namespace

int main(int argc, char **argv) {
    conversions();
    weekdays();
    hebrew();
    fits();
    if (argc == 5) {
        sheets(argv[1], argv[2], argv[3]);
        requests(argv[4]);
    }
    std::fprintf(stderr, "(sum of all results, so that none is left out: %" PRIu64 ")\n", kept);
    return 0;
}
