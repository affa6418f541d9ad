// Compares the functions for C with implementations by the naive road that share nothing with them. Prints what it compared, one line a kind. The first
// argument names a half of the work, `calendars` or `codes`, for two runs side by side; the second is the sheet program.
#include "almanac.h"
#include "report.h"

#include <string>

Report report;

int main(int argc, char **argv) {
    const std::string half = argc > 1 ? argv[1] : "";
    if (half != "calendars" && half != "codes") {
        std::printf("no such half: calendars or codes\n");
        return 2;
    }
    if (half == "calendars") {
        compare_calendars();
        compare_weekdays();
        compare_easter();
    } else {
        compare_codes();
        compare_unfolding();
        compare_lines();
        if (argc > 2) compare_sheets(argv[2]);
    }
    if (report.differences) {
        std::printf("%" PRIu64 " differences\n", report.differences);
        return 1;
    }
    return 0;
}
