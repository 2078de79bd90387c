// Times the check alone, on two of the longest sheets there are of each edition.
#include <algorithm>
#include <chrono>
#include <cstdio>
#include <planner.h>

#include "make.hpp"

namespace {

// A comparison of two edges from the front finds their difference in the last byte, or where that has no value left in the last but one.
Longest last_bytes_differ(int clocks) {
    Longest sheet(clocks, 1, 25);
    for (size_t i = 0; i < Longest::edges; i++) {
        uint8_t *end = sheet.edge(i) + sheet.edge_bytes;
        end[-1] = uint8_t(i % 26);
        end[-2] = uint8_t(i / 26);
    }
    return sheet;
}

Longest ends_differ(int clocks) {
    Longest sheet(clocks, 1, 25);
    for (size_t i = 0; i < Longest::edges; i++) {
        sheet.edge(i)[2] = uint8_t(i % Longest::locations);
        sheet.edge(i)[3] = uint8_t(i / Longest::locations);
    }
    return sheet;
}

struct Timed {
    std::vector<uint8_t> sheet;
    double least = 1e30; // of the mean times of a run, in nanoseconds
    int refused = 0;

    void run() {
        constexpr int calls = 100;
        auto began = std::chrono::steady_clock::now();
        for (int call = 0; call < calls; call++) refused += planner_check(sheet.data(), sheet.size()) != 0;
        std::chrono::duration<double, std::nano> spent = std::chrono::steady_clock::now() - began;
        least = std::min(least, spent.count() / calls);
    }
};

// Whether every call answers 0.
bool measure(int clocks) {
    Timed late{last_bytes_differ(clocks).bytes}, early{ends_differ(clocks).bytes};
    for (int turn = 0; turn < 20000; turn++) {
        late.run();
        early.run();
    }
    std::printf("Check of the longest sheet of edition %d, %zu bytes: %.0f ns where edges differ in their last bytes, %.0f ns where they differ in "
                "source or target.\n",
                late.sheet[0], late.sheet.size(), late.least, early.least);
    return late.refused == 0 && early.refused == 0;
}

} // namespace

int main() {
    std::printf("\n");
    bool first = measure(3), second = measure(4);
    bool longest = make_longest(4).bytes.size() == PLANNER_LONGEST_SHEET;
    return first && second && longest ? 0 : 1;
}
