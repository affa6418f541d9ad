// Lines of a sheet against a naive verdict, and whole sheets through the program.
#include <fcntl.h>
#include <sys/wait.h>

#include <algorithm>
#include <cinttypes>
#include <iterator>
#include <string>

#include "almanac.h"
#include "guarded.h"
#include "report.h"

namespace {

// Malformed unless the line is 16 lowercase hexadecimal digits; else what date to day gives, or that the day differs.
uint64_t naive_verdict(const std::string &line) {
    if (line.size() != 16) return MALFORMED_FRAME;
    for (char c : line)
        if (!((c >= '0' && c <= '9') || (c >= 'a' && c <= 'f'))) return MALFORMED_FRAME;
    auto field = [&](size_t at, size_t digits) { return std::stoull(line.substr(at, digits), nullptr, 16); };
    ijok_day answer = naive_date_to_day(field(0, 2), int64_t(field(2, 4)) - 4712, field(6, 2), field(8, 2));
    if (answer.number) return answer.number;
    return answer.day == field(10, 6) ? DONE : WRONG_DAY;
}

// How many lines are to have each answer.
uint64_t answered[AFTER_THE_END + 1] = {};

uint64_t expected_verdict(const std::string &line) {
    uint64_t number = naive_verdict(line);
    ++answered[number];
    return number;
}

void count_anew() { std::fill(std::begin(answered), std::end(answered), 0); }

// That each answer is to be given to some line counted, so that none is lost when lines are drawn another way.
void every_answer() {
    for (uint64_t number : {DONE, UNKNOWN_CALENDAR, YEAR_OUT_OF_RANGE, NO_SUCH_MONTH, NO_SUCH_DAY, DAY_OUT_OF_RANGE, MALFORMED_FRAME, WRONG_DAY, AFTER_THE_END})
        report.same(answered[number] > 0, true, "whether any line is to have answer %" PRIu64, number);
    count_anew();
}

std::string frame(uint64_t calendar, int64_t year, uint64_t month, uint64_t day, uint64_t number) {
    char text[64];
    std::snprintf(text, sizeof text, "%02" PRIx64 "%04" PRIx64 "%02" PRIx64 "%02" PRIx64 "%06" PRIx64, calendar & 0xff, uint64_t(year + 4712) & 0xffff, month & 0xff, day & 0xff, number & 0xffffff);
    return text;
}

// A right frame: a random date of a random calendar, with its day.
std::string right_frame(Random &random) {
    while (true) {
        uint64_t c = LISTED[random.next() % LISTED.size()];
        const Almanac &a = almanac(c);
        int64_t y = random.between(a.first_year, a.end ? a.end->year : 14000);
        if (a.begins[y - a.first_year] > LAST_DAY) continue;
        uint64_t m = uint64_t(random.between(1, int64_t(a.year(y).size())));
        if (a.year(y)[m - 1] == 0) continue;
        uint64_t d = uint64_t(random.between(1, a.year(y)[m - 1]));
        ijok_day n = naive_date_to_day(c, y, m, d);
        if (n.number) continue;
        return frame(c, y, m, d, n.day);
    }
}

// The frame of a date with its day counted by the calendar's lengths, also where the date is after the calendar's end or the day after the last.
std::string counted_frame(uint64_t c, const Date &date, int64_t off = 0) {
    return frame(c, date.year, date.month, date.day, uint64_t(almanac(c).counted(date) + off));
}

// A frame of the Republican years about the end or of any year, with its day as counted on, or one day off.
std::string republican_frame(Random &random) {
    const Almanac &a = almanac(IJOK_REPUBLICAN);
    int64_t y = random.one_in(2) ? random.between(13, 15) : random.between(1, LAST_YEAR);
    uint64_t m = uint64_t(random.between(1, int64_t(a.year(y).size())));
    uint64_t d = uint64_t(random.between(1, a.year(y)[m - 1]));
    return counted_frame(IJOK_REPUBLICAN, {y, m, d}, random.one_in(3) ? random.between(-1, 1) : 0);
}

std::string any_frame(Random &random) {
    return frame(random.next() % 22, random.between(-4800, 20100), random.next() % 24, random.next() % 36, random.next());
}

std::string random_bytes(Random &random, size_t n) {
    std::string s;
    for (size_t k = 0; k < n; ++k) s += char(random.next());
    return s;
}

// A frame with something wrong: another digit, a byte that is no digit, too short, too long.
std::string damaged(std::string f, Random &random) {
    size_t at = random.next() % f.size();
    switch (random.next() % 8) {
        case 0:
        case 1:
            f[at] = "0123456789abcdef"[random.next() % 16];
            break;
        case 2:
            f[at] = char(random.next());
            break;
        case 3:
            f[at] = "/:@`gGABCDEF \r\t\0"[random.next() % 16];
            break;
        case 4:
            f.erase(at, 1);
            break;
        case 5:
            f.insert(at, 1, "0123456789abcdef"[random.next() % 16]);
            break;
        case 6:
            f.resize(random.next() % 40, '0');
            break;
        default:
            std::swap(f[at], f[random.next() % f.size()]);
    }
    return f;
}

std::string random_line(Random &random) {
    switch (random.next() % 9) {
        case 0:
        case 1:
        case 2:
            return right_frame(random);
        case 3:
        case 4:
            return damaged(right_frame(random), random);
        case 5:
            return any_frame(random);
        case 6:
            return damaged(any_frame(random), random);
        case 7:
            return republican_frame(random);
        default:
            return random_bytes(random, random.next() % 40);
    }
}

Guarded<uint8_t> &memory() {
    static Guarded<uint8_t> m(4096);
    return m;
}

void verdict(const std::string &line, bool at_end) {
    uint8_t *s = memory().copy(std::vector<uint8_t>(line.begin(), line.end()), at_end);
    report.same(ijok_verdict(s, line.size()), expected_verdict(line), "verdict on '%s'", line.c_str());
}

void quick_verdict(const std::string &line) {
    report.same(ijok_verdict(reinterpret_cast<const uint8_t *>(line.data()), line.size()), expected_verdict(line), "verdict on '%s'", line.c_str());
}

// After the end a frame is refused whatever its day, but for a date that does not exist.
void republican_frames() {
    const std::vector<std::pair<std::string, uint64_t>> lines = {
        {"071276040a24538f", DONE},          {"071276040a245390", WRONG_DAY},         {"071276040b245390", AFTER_THE_END}, {"071276040b24538f", AFTER_THE_END},
        {"071276040b000000", AFTER_THE_END}, {"071276041f2453a4", NO_SUCH_DAY},       {"0712770101245499", AFTER_THE_END}, {"073278020951fe2d", AFTER_THE_END},
        {"0760880d052440a0", AFTER_THE_END}, {"0760890101000000", YEAR_OUT_OF_RANGE}, {"061276040b1bebf6", DONE}};
    for (const auto &[line, expected] : lines) {
        report.same(ijok_verdict(reinterpret_cast<const uint8_t *>(line.data()), line.size()), expected, "verdict on '%s'", line.c_str());
        report.same(naive_verdict(line), expected, "the naive verdict on '%s'", line.c_str());
    }
    const uint64_t c = IJOK_REPUBLICAN;
    for (int64_t y = 1; y <= LAST_YEAR; ++y) {
        if ((y > 20 && y < 8206) || (y > 8210 && y < 19990)) continue;
        for (uint64_t m = 1; m <= almanac(c).year(y).size(); ++m)
            for (uint64_t d = 1; d <= uint64_t(almanac(c).year(y)[m - 1]) + 1; ++d) {
                for (int64_t off : {-1, 0, 1}) quick_verdict(counted_frame(c, {y, m, d}, off));
                quick_verdict(frame(c, y, m, d, 0));
            }
    }
}

// ---- whole sheets

std::string expected_output(const std::string &input) {
    std::string out, line;
    auto reply = [&] {
        char text[8];
        std::snprintf(text, sizeof text, "%02x\n", unsigned(expected_verdict(line)));
        out += text;
        line.clear();
    };
    for (char c : input) {
        if (c == '\n')
            reply();
        else
            line += c;
    }
    if (!line.empty()) reply();
    return out;
}

// A file of its own, gone when closed.
FILE *scratch() {
    FILE *f = std::tmpfile();
    if (!f) throw std::runtime_error("tmpfile");
    return f;
}

std::string content(FILE *f) {
    std::string s;
    std::rewind(f);
    char block[65536];
    size_t n;
    while ((n = std::fread(block, 1, sizeof block, f)) > 0) s.append(block, n);
    return s;
}

// Runs the program: its input a file, or a pipe that is filled in pieces of random length.
std::string run(const char *program, const std::string &input, bool piped, Random &random) {
    FILE *in = scratch(), *out = scratch();
    std::fwrite(input.data(), 1, input.size(), in);
    std::rewind(in);
    int ends[2];
    if (piped && pipe(ends)) throw std::runtime_error("pipe");
    std::fflush(stdout);
    pid_t child = fork();
    if (child == 0) {
        dup2(piped ? ends[0] : fileno(in), 0);
        dup2(fileno(out), 1);
        if (piped) {
            close(ends[0]);
            close(ends[1]);
        }
        execl(program, program, static_cast<char *>(nullptr));
        _exit(127);
    }
    if (child < 0) throw std::runtime_error("fork");
    if (piped) {
        close(ends[0]);
        size_t at = 0;
        while (at < input.size()) {
            size_t n = std::min(input.size() - at, size_t(random.one_in(10) ? random.between(1, 70000) : random.between(1, 200)));
            ssize_t w = write(ends[1], input.data() + at, n);
            if (w <= 0) break;
            at += size_t(w);
        }
        close(ends[1]);
    }
    int status = 0;
    waitpid(child, &status, 0);
    std::string got = content(out);
    std::fclose(in);
    std::fclose(out);
    report.same(uint64_t(status), 0, "how the program ended");
    --report.compared;
    return got;
}

void sheet(const char *program, const std::string &input, bool piped, Random &random) {
    std::string got = run(program, input, piped, random), expected = expected_output(input);
    size_t lines = expected.size() / 3;
    size_t at = 0;
    while (at < got.size() && at < expected.size() && got[at] == expected[at]) ++at;
    report.same(got == expected, true, "the program on %zu bytes, %zu lines, %s: at byte %zu of %zu written, %zu expected", input.size(), lines, piped ? "piped" : "from a file", at, got.size(),
                expected.size());
    report.compared += lines;
}

std::string random_sheet(Random &random, size_t lines, bool long_lines) {
    std::string s;
    for (size_t k = 0; k < lines; ++k) {
        if (long_lines && random.one_in(40))
            s += random.one_in(2) ? std::string(size_t(random.between(1, 200000)), "0af\r"[random.next() % 4]) : right_frame(random) + std::string(random.next() % 70000, '0');
        s += random_line(random);
        switch (random.next() % 12) {
            case 0:
                s += "\r\n";
                break;
            case 1:
                s += "\n\n";
                break;
            case 2:
                s += "\r";
                break;
            default:
                s += "\n";
        }
    }
    if (random.one_in(2) && !s.empty()) s.pop_back();
    return s;
}

}  // namespace

void compare_lines() {
    for (const char *line : {"0b1a380101256859", "0b1a38010125685a", "xyz", "", "0", "0b1a3801012568590", "0B1a380101256859", "0b1a38010125685"}) {
        verdict(line, true);
        verdict(line, false);
    }
    Random random{40};
    for (int k = 0; k < 60000; ++k) verdict(random_line(random), k % 2);
    // any byte in any place of a right frame
    for (int k = 0; k < 20; ++k) {
        std::string f = right_frame(random);
        for (size_t at = 0; at < 16; ++at)
            for (int byte = 0; byte < 256; ++byte) {
                std::string g = f;
                g[at] = char(byte);
                quick_verdict(g);
            }
    }
    for (size_t n = 0; n <= 4096; n += n < 40 ? 1 : 97) verdict(std::string(n, '0'), n % 2);
    report.same(ijok_verdict(nullptr, 0), MALFORMED_FRAME, "verdict on an empty line at a null pointer");
    every_answer();
    report.line("sheet lines in guarded memory: right, damaged, of any bytes and lengths; any byte in any place of a frame");

    for (int k = 0; k < 3000000; ++k) quick_verdict(random_line(random));
    every_answer();
    report.line("random sheet lines: right, damaged, of any bytes");

    for (uint64_t c : LISTED) {
        const Almanac &a = almanac(c);
        for (int64_t y = a.first_year; y <= LAST_YEAR; y += 13)
            for (uint64_t m = 1; m <= a.year(y).size(); ++m) {
                uint64_t days = uint64_t(a.year(y)[m - 1]);
                quick_verdict(counted_frame(c, {y, m, days}));
                quick_verdict(counted_frame(c, {y, m, days}, 1));
                quick_verdict(counted_frame(c, {y, m, days + 1}));
            }
    }
    report.line("frames of every thirteenth year of the sixteen calendars: the last day of each position, that with another day, one day more");

    republican_frames();
    report.line("Republican frames: some about the end written out; years 1 to 20, 8206 to 8210 and 19990 to 20000, each date and one day more, with its day, one off, and 0");
}

void compare_sheets(const char *program) {
    count_anew();
    Random random{50};
    for (const char *input : {"", "\n", "\n\n", "0", "0b1a380101256859\n0b1a38010125685a\nxyz\n", "0b1a380101256859\n0b1a38010125685a\nxyz", "0b1a380101256859", "\r\n",
                              "071276040a24538f\n071276040b245390\n071276041f2453a4\n"}) {
        sheet(program, input, false, random);
        sheet(program, input, true, random);
    }
    for (size_t n : {65533, 65534, 65535, 65536, 65537, 131072, 131073})
        for (const char *end : {"", "\n", "\n0b1a380101256859", "\n0b1a380101256859\n"}) sheet(program, std::string(n, 'a') + end, random.one_in(2), random);
    for (int k = 0; k < 300; ++k) sheet(program, random_sheet(random, size_t(random.between(0, 300)), k % 3 == 0), k % 2, random);
    for (int k = 0; k < 20; ++k) sheet(program, random_sheet(random, size_t(random.between(1000, 30000)), k % 4 == 0), k % 2, random);
    every_answer();
    report.line("lines and sheets through the program: random line ends, long lines, input from files and from pipes in pieces");
}
