// Counts what was compared, prints the first differences, and says at the end whether all agree.
#pragma once
#include <cinttypes>
#include <cstdarg>
#include <cstdint>
#include <cstdio>
#include "../../include/ijok.h"
#include "random.h"

// The fields of an answer, its number first; a refusal is its number alone, so that every other field is compared with 0.
struct Fields {
    uint64_t values[5] = {};

    Fields(uint64_t number) : values{number} {}
    Fields(ijok_day x) : values{x.number, x.day} {}
    Fields(ijok_date x) : values{x.number, uint64_t(x.year), x.month, x.day, x.weekday} {}
    Fields(struct ijok_position x) : values{x.number, x.kind, x.days} {}
    Fields(struct ijok_easter x) : values{x.number, x.month, x.day} {}
    Fields(ijok_line x) : values{x.number, x.a, x.b, x.r} {}

    bool operator==(const Fields &) const = default;
    void print() const {
        for (uint64_t v : values) std::printf(" %" PRId64, int64_t(v));
    }
};

struct Report {
    uint64_t differences = 0;
    uint64_t compared = 0;  // since the last line

    // One comparison; where it fails, the first twenty say what was asked and what came.
    void same(const Fields &got, const Fields &expected, const char *what, ...) __attribute__((format(printf, 4, 5))) {
        ++compared;
        if (got == expected) return;
        if (++differences > 20) return;
        std::printf("DIFFERENT: ");
        va_list values;
        va_start(values, what);
        std::vprintf(what, values);
        va_end(values);
        std::printf(": got");
        got.print();
        std::printf(", expected");
        expected.print();
        std::printf("\n");
    }

    // The line of one kind of comparison.
    void line(const char *kind) {
        std::printf("%12" PRIu64 "  %s\n", compared, kind);
        std::fflush(stdout);
        compared = 0;
    }
};

extern Report report;
