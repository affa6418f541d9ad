// Fitting against the definition: every denominator in turn, every slope that can be, every offset. Unfolding against the marks, in guarded memory.
#include <algorithm>
#include <cinttypes>
#include <limits>
#include <string>

#include "almanac.h"
#include "guarded.h"
#include "report.h"

namespace {

using Code = std::vector<uint64_t>;
using Wide = __int128;

struct Line {
    int64_t a, b, r;
};

ijok_line answer(const Line &l) { return {0, uint64_t(l.a), uint64_t(l.b), uint64_t(l.r)}; }

Wide floor_div(Wide z, Wide b) { return z >= 0 ? z / b : -((-z + b - 1) / b); }

Wide mark(const Line &l, int64_t k) { return floor_div(Wide(l.a) * k + l.r, l.b); }

// The definition: at each place the line yields the length there.
bool generates(const Line &l, const Code &code) {
    for (size_t k = 0; k < code.size(); ++k)
        if (mark(l, int64_t(k) + 1) - mark(l, int64_t(k)) != Wide(code[k])) return false;
    return true;
}

// The same in 64 bits, for the search over every offset from 0 to b - 1: mark 0 is 0.
bool generates_small(int64_t a, int64_t b, int64_t r, const Code &code) {
    int64_t level = 0, height = r;
    for (uint64_t length : code) {
        height += a;
        int64_t next = height >= 0 ? height / b : -((-height + b - 1) / b);
        if (next - level != int64_t(length)) return false;
        level = next;
    }
    return true;
}

int64_t total(const Code &code) {
    int64_t sum = 0;
    for (uint64_t length : code) sum += int64_t(length);
    return sum;
}

// With r from 0 to b - 1 mark 0 is 0 and the last mark is the sum of the lengths, so a n + r lies from b sum to b sum + b - 1: the slopes that can be.
int64_t least_slope(int64_t b, int64_t n, int64_t sum) { return int64_t(-floor_div(-(Wide(b) * sum - (b - 1)), n)); }
int64_t most_slope(int64_t b, int64_t n, int64_t sum) { return int64_t(floor_div(Wide(b) * sum + b - 1, n)); }

struct Search {
    std::vector<Line> lines;  // all lines with the least denominator that was found
};

// Every denominator up to `most`, every slope, every offset from 0 to b - 1, each by the definition.
Search by_definition(const Code &code, int64_t most) {
    Search s;
    int64_t n = int64_t(code.size()), sum = total(code);
    for (int64_t b = 1; b <= most && s.lines.empty(); ++b)
        for (int64_t a = least_slope(b, n, sum); a <= most_slope(b, n, sum); ++a)
            for (int64_t r = 0; r < b; ++r)
                if (generates_small(a, b, r, code)) s.lines.push_back({a, b, r});
    return s;
}

// The same where the offsets are bounded by the marks instead of tried: a k + r must lie from b y to b y + b - 1, y the sum of the first k lengths.
Search by_marks(const Code &code, int64_t most) {
    Search s;
    int64_t n = int64_t(code.size()), sum = total(code);
    for (int64_t b = 1; b <= most && s.lines.empty(); ++b)
        for (int64_t a = least_slope(b, n, sum); a <= most_slope(b, n, sum); ++a) {
            int64_t low = 0, high = b - 1, y = 0;
            for (int64_t k = 1; k <= n && low <= high; ++k) {
                y += int64_t(code[k - 1]);
                low = std::max(low, b * y - a * k);
                high = std::min(high, b * y + b - 1 - a * k);
            }
            for (int64_t r = low; r <= high; ++r) s.lines.push_back({a, b, r});
        }
    return s;
}

std::string shown(const Code &code) {
    std::string text;
    for (size_t k = 0; k < code.size() && k < 40; ++k) text += std::to_string(code[k]) + " ";
    return text + "(" + std::to_string(code.size()) + " lengths)";
}

Guarded<uint64_t> &memory() {
    static Guarded<uint64_t> m(4096);
    return m;
}

ijok_line fitted(const Code &code, bool at_end = true) {
    uint64_t *s = memory().copy(code, at_end);
    ijok_line got = ijok_fit(s, code.size());
    report.same(memory().unchanged(), true, "the lent code after fitting %s", shown(code).c_str());
    --report.compared;
    return got;
}

struct Tally {
    uint64_t accepted = 0, refused = 0, steep = 0;
};

// The answer for a code within the limits.
void compare_fit(const Code &code, const Search &found, Tally &tally) {
    Fields expected = 7;
    if (found.lines.empty()) {
        ++tally.refused;
    } else {
        ++tally.accepted;
        if (found.lines[0].b > 256) ++tally.steep;
        expected = answer(found.lines[0]);
        report.same(found.lines.size(), 1, "lines with the least denominator of %s", shown(code).c_str());
        report.same(generates(found.lines[0], code), true, "the line by the definition, %s", shown(code).c_str());
        report.compared -= 2;
    }
    report.same(fitted(code), expected, "fit of %s", shown(code).c_str());
}

void tallied(const Tally &t, const std::string &kind) {
    report.compared = t.accepted + t.refused;
    report.line((kind + ": " + std::to_string(t.accepted) + " accepted, " + std::to_string(t.steep) + " of them with a denominator above 256, " + std::to_string(t.refused) + " refused").c_str());
}

// Every code of that many lengths from `low` on, of `kinds` kinds.
void every_code(size_t length, uint64_t low, uint64_t kinds, int64_t most, Tally &tally) {
    Code code(length, low);
    while (true) {
        compare_fit(code, by_definition(code, most), tally);
        size_t k = 0;
        while (k < length && code[k] == low + kinds - 1) code[k++] = low;
        if (k == length) return;
        ++code[k];
    }
}

Code unfolded(const Line &l, size_t n) {
    Code code;
    for (size_t k = 0; k < n; ++k) code.push_back(uint64_t(mark(l, int64_t(k) + 1) - mark(l, int64_t(k))));
    return code;
}

// A line whose lengths are at most 400. One in three has a large denominator; slopes are small, like months, or any.
Line random_line(Random &random) {
    int64_t b = random.one_in(3) ? random.between(257, 512) : random.one_in(4) ? random.between(513, 20000) : random.between(1, 256);
    int64_t r = random.between(0, b - 1), a;
    switch (random.next() % 4) {
        case 0:
            a = random.between(0, 2 * b);
            break;
        case 1:
            a = random.between(28 * b, 31 * b);
            break;
        case 2:
            a = random.between(0, 400 * b);
            break;
        default:
            a = random.between(398 * b, 400 * b);
    }
    return {a, b, r};
}

// The code with one length changed, by one or to any.
Code changed(Code code, size_t at, Random &random) {
    uint64_t old = code[at];
    if (random.one_in(5))
        code[at] = uint64_t(random.between(0, 400));
    else if (old == 0 || (old < 400 && random.one_in(2)))
        ++code[at];
    else
        --code[at];
    return code;
}

}  // namespace

void compare_codes() {
    Tally small;
    for (size_t n = 1; n <= 9; ++n) every_code(n, 0, 3, 40, small);
    tallied(small, "every code of 0, 1, 2 up to 9 lengths, denominators to 40 by the definition");

    Tally two;
    for (size_t n = 10; n <= 14; ++n) every_code(n, 29, 2, 30, two);
    tallied(two, "every code of 29, 30 from 10 to 14 lengths, denominators to 30 by the definition");

    Random random{20};
    Tally middle;
    for (int k = 0; k < 3000; ++k) {
        size_t n = size_t(random.between(1, 48));
        Code code = unfolded(random_line(random), n);
        if (k % 2) code = changed(code, size_t(random.between(0, int64_t(n) - 1)), random);
        compare_fit(code, by_definition(code, 3 * int64_t(n)), middle);
    }
    tallied(middle, "random codes up to 48 lengths, denominators to three times that by the definition");

    Tally lines, any, last, long_last, wide, loose;
    for (int k = 0; k < 20000; ++k) {
        size_t n = random.one_in(2) ? 512 : size_t(random.between(1, 512));
        Code code = unfolded(random_line(random), n);
        compare_fit(code, by_marks(code, 512), lines);
        Code other = changed(code, size_t(random.between(0, int64_t(n) - 1)), random);
        compare_fit(other, by_marks(other, 512), any);
        other = changed(code, n - 1, random);
        compare_fit(other, by_marks(other, 512), last);
    }
    tallied(lines, "random codes of lines up to 512 lengths");
    tallied(any, "the same with one length changed");
    tallied(last, "the same with the last length changed");

    for (int k = 0; k < 1500; ++k) {
        Line l = random_line(random);
        l.b = random.between(257, 512);
        l.r %= l.b;
        l.a = random.between(0, 400 * l.b);
        Code code = unfolded(l, 512);
        compare_fit(code, by_marks(code, 512), long_last);
        code = changed(code, 511, random);
        compare_fit(code, by_marks(code, 512), long_last);
    }
    tallied(long_last, "512 lengths of lines with denominators from 257 to 512, as they are and with the last length changed");

    for (int k = 0; k < 300; ++k) {
        Code code = changed(unfolded(random_line(random), 512), size_t(random.between(0, 511)), random);
        compare_fit(code, by_marks(code, 4096), wide);
    }
    tallied(wide, "random codes of 512 lengths, denominators to 4096");

    for (int k = 0; k < 4000; ++k) {
        Code code;
        size_t n = size_t(random.between(1, 512));
        uint64_t top = random.one_in(2) ? 400 : uint64_t(random.between(0, 400));
        for (size_t i = 0; i < n; ++i) code.push_back(random.next() % (top + 1));
        compare_fit(code, by_marks(code, 512), loose);
    }
    tallied(loose, "codes of random lengths");

    // outside the limits: no lengths, too many, a length too large anywhere
    report.same(fitted({}), 6, "fit of no lengths");
    report.same(fitted({}, false), 6, "fit of no lengths");
    report.same(ijok_fit(nullptr, 0), 6, "fit of no lengths at a null pointer");
    for (size_t n = 513; n <= 1200; ++n) report.same(fitted(Code(n, n % 401)), 6, "fit of %zu equal lengths", n);
    for (uint64_t big : {uint64_t(401), uint64_t(402), uint64_t(512), uint64_t(65536), (uint64_t(1) << 32) + 30, uint64_t(1) << 63, std::numeric_limits<uint64_t>::max() - 1, std::numeric_limits<uint64_t>::max()})
        for (size_t n : {1, 2, 3, 10, 511, 512, 513})
            for (size_t at = 0; at < n; at += n < 20 ? 1 : 51) {
                Code code(n, 30);
                code[at] = big;
                report.same(fitted(code), 6, "fit of %zu lengths, %" PRIu64 " at %zu", n, big, at);
                code.assign(n, 30);
                code[n - 1 - at] = big;
                report.same(fitted(code, false), 6, "fit of %zu lengths, %" PRIu64 " at %zu", n, big, n - 1 - at);
            }
    for (uint64_t length = 0; length <= 400; ++length)
        for (size_t n : {1, 2, 511, 512}) report.same(fitted(Code(n, length)), ijok_line{0, length, 1, 0}, "fit of %zu times %" PRIu64, n, length);
    report.line("codes at and beyond the limits, in guarded memory");
}

namespace {

uint64_t unfold_number(uint64_t a, uint64_t b, uint64_t r, uint64_t count, uint64_t room) {
    if (b < 1 || b > 512 || r >= b || a > 400 * b) return 10;
    if (count < 1 || count > 512) return 6;
    return room < count ? 11 : 0;
}

Guarded<uint64_t> &buffer() {
    static Guarded<uint64_t> m(2048);
    return m;
}

void unfold(uint64_t a, uint64_t b, uint64_t r, uint64_t count, size_t room, bool at_end) {
    uint64_t *s = buffer().slice(room, at_end);
    uint64_t number = unfold_number(a, b, r, count, room);
    uint64_t got = ijok_unfold(a, b, r, size_t(count), s, room);
    Code front;
    if (number == 0) front = unfolded({int64_t(a), int64_t(b), int64_t(r)}, count);
    const char *what = "unfold of %" PRIu64 ", %" PRIu64 ", %" PRIu64 ", count %" PRIu64 ", room %zu";
    const std::string memory = std::string("memory after ") + what;
#pragma GCC diagnostic push
#pragma GCC diagnostic ignored "-Wformat-nonliteral"
#pragma GCC diagnostic ignored "-Wformat-security"
    report.same(got, number, what, a, b, r, count, room);
    report.same(buffer().only_changed(s, front), true, memory.c_str(), a, b, r, count, room);
#pragma GCC diagnostic pop
}

}  // namespace

void compare_unfolding() {
    const uint64_t top = std::numeric_limits<uint64_t>::max();
    for (uint64_t b : {uint64_t(0), uint64_t(1), uint64_t(2), uint64_t(30), uint64_t(511), uint64_t(512), uint64_t(513), uint64_t(1024), uint64_t(1) << 32, uint64_t(1) << 63, top - 1, top})
        for (uint64_t a : {uint64_t(0), uint64_t(1), b, 30 * b, 400 * b - 1, 400 * b, 400 * b + 1, uint64_t(204800), uint64_t(204801), uint64_t(1) << 63, top - 1, top})
            for (uint64_t r : {uint64_t(0), uint64_t(1), b - 1, b, b + 1, top})
                for (uint64_t count : {uint64_t(0), uint64_t(1), uint64_t(2), uint64_t(511), uint64_t(512), uint64_t(513), (uint64_t(1) << 32) + 1, uint64_t(1) << 63, top}) {
                    for (size_t room : {0, 1, 2, 510, 511, 512, 513, 600}) unfold(a, b, r, count, room, (a + room) % 2 == 0);
                    report.same(ijok_unfold(a, b, r, size_t(count), nullptr, 0), unfold_number(a, b, r, count, 0), "unfold at a null pointer");
                }
    report.line("unfolding at and beyond every limit: the number, and the whole guarded memory");

    Random random{30};
    for (int k = 0; k < 100000; ++k) {
        int64_t b = random.between(1, 512), count = random.between(1, 512);
        size_t room = size_t(random.one_in(4) ? random.between(0, 700) : random.one_in(2) ? count : count + random.between(0, 60));
        unfold(uint64_t(random.between(0, 400 * b)), uint64_t(b), uint64_t(random.between(0, b - 1)), uint64_t(count), room, random.one_in(2));
    }
    report.line("random lines unfolded: the number, and the whole guarded memory");

    for (int k = 0; k < 20000; ++k) {
        int64_t b = random.between(1, 512), a = random.between(0, 400 * b), r = random.between(0, b - 1);
        size_t n = size_t(random.between(1, 512));
        Code code(n);
        report.same(ijok_unfold(uint64_t(a), uint64_t(b), uint64_t(r), n, code.data(), n), 0, "unfold of %" PRId64 ", %" PRId64 ", %" PRId64, a, b, r);
        ijok_line fit = ijok_fit(code.data(), n);
        Line l = {int64_t(fit.a), int64_t(fit.b), int64_t(fit.r)};
        report.same(fit.number == 0 && l.b <= b && generates(l, code), true, "the fit of what %" PRId64 ", %" PRId64 ", %" PRId64 " unfolds to", a, b, r);
    }
    report.line("unfolded and fitted again: a line of the same code, its denominator no greater");
}
