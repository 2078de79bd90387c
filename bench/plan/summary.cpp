#include "summary.hpp"

#include <algorithm>
#include <cmath>
#include <cstdio>

namespace {

struct Group {
    const char *name;
    int least_refusal, most_refusal;
    size_t least_nodes, most_nodes; // of the accepted
    bool four_clocks = false;
};

constexpr size_t any = size_t(-1);
constexpr size_t bench_nodes = 7; // no other sheet is so small

const Group groups[] = {
    {"accepted, all", 0, 0, 0, any},
    {"accepted, under 200 nodes", 0, 0, 0, 199},
    {"accepted, 200 to 1,799 nodes", 0, 0, 200, 1799},
    {"accepted, 1,800 nodes or more", 0, 0, 1800, any},
    {"Bench alone, 7 nodes", 0, 0, bench_nodes, bench_nodes},
    {"refused with 12", 12, 12, 0, any},
    {"refused with 13 or 14", 13, 14, 0, any},
    {"refused by the check", 2, 11, 0, any},
    {"four clocks, accepted", 0, 0, 0, any, true},
    {"four clocks, refused with 12", 12, 12, 0, any, true},
};

// The groups of up to three clocks hold no other sheets, so that they compare with times of before there were four.
bool belongs(const Group &group, const Row &row) {
    const Plan &plan = row.plan;
    if (group.four_clocks != (row.clocks == most_clocks)) return false;
    return group.least_refusal <= plan.refusal && plan.refusal <= group.most_refusal && group.least_nodes <= plan.nodes &&
           plan.nodes <= group.most_nodes;
}

void print_group(const Group &group, const std::vector<Row> &rows, double Row::*other) {
    std::vector<double> logs;
    double proved = 0, beside = 0;
    for (const Row &row : rows) {
        if (!belongs(group, row)) continue;
        logs.push_back(std::log(row.proved / row.*other));
        proved += row.proved;
        beside += row.*other;
    }
    if (logs.empty()) return;
    double sum = 0, squares = 0;
    for (double log : logs) sum += log;
    double mean = sum / double(logs.size());
    for (double log : logs) squares += (log - mean) * (log - mean);
    if (logs.size() == 1) {
        std::printf("| %s | 1 | %.2f | | | %.2f |\n", group.name, std::exp(mean), proved / beside);
        return;
    }
    double deviation = std::sqrt(squares / double(logs.size() - 1));
    auto [least, largest] = std::minmax_element(logs.begin(), logs.end());
    std::printf("| %s | %zu | %.2f | %.2f | %.2f to %.2f | %.2f |\n", group.name, logs.size(), std::exp(mean), std::exp(deviation),
                std::exp(*least), std::exp(*largest), proved / beside);
}

} // namespace

void print_summary(const std::vector<Row> &rows, const char *name, double Row::*other) {
    std::printf("\nproved / %s, by groups\n\n", name);
    std::printf("| sheets | number | geometric mean | geometric standard deviation | least to largest | sum of times, proved / %s |\n", name);
    std::printf("|---|---|---|---|---|---|\n");
    for (const Group &group : groups) print_group(group, rows, other);
}
