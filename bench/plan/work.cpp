// Times the work plan beside the plan, on sheets with no strict bound or guard and on others, which it refuses with 18.
#include <algorithm>
#include <chrono>
#include <cmath>
#include <cstdio>
#include <cstdlib>
#include <planner.h>
#include <string>

#include "make.hpp"
#include "planner.hpp"
#include "stack.hpp"

namespace {

struct Pairs {
    std::vector<uint16_t> waits = std::vector<uint16_t>(PLANNER_LEAST_PAIRS), edges = waits;
    int refusal = 0;
    int64_t stem = 0, cycle = 0;
};

int call_plan(const std::vector<uint8_t> &bytes, Buffers &b) {
    int64_t p, q, n, s, m, units, cost, reward;
    return planner_plan(bytes.data(), bytes.size(), b.nodes.data(), b.nodes.size(), b.potentials.data(), b.potentials.size(), b.steps.data(),
                        b.steps.size(), &p, &q, &n, &s, &m, &units, &cost, &reward);
}

void call_work(const std::vector<uint8_t> &bytes, Pairs &a) {
    a.refusal = planner_work(bytes.data(), bytes.size(), a.waits.data(), a.waits.size(), a.edges.data(), a.edges.size(), &a.stem, &a.cycle);
}

template <class Call> double microseconds(Call call) {
    auto began = std::chrono::steady_clock::now();
    call();
    return std::chrono::duration<double, std::micro>(std::chrono::steady_clock::now() - began).count();
}

constexpr double limit = 1.2; // no row may have a larger ratio
std::vector<double> ratios;   // of the least times of the two calls, one for each sheet
size_t deepest = 0;

// Both by turns, 40 times and until 0.3 s are spent; until 3 s where the ratio is above the limit, since other programs may have slowed one of them.
void run_row(const Made &made, int refusal) {
    Buffers buffers;
    Pairs pairs;
    double plan = 1e30, work = 1e30, spent = 0;
    for (int turn = 0; turn < 40 || spent < 3e5 || (work > limit * plan && spent < 3e6); turn++) {
        int planned = 0;
        double first = microseconds([&] { planned = call_plan(made.bytes, buffers); });
        double second = microseconds([&] { call_work(made.bytes, pairs); });
        if (made.bytes.empty() || planned != 0 || pairs.refusal != refusal) {
            std::fprintf(stderr, "a plan answers %d and a work plan %d, expected 0 and %d\n", planned, pairs.refusal, refusal);
            std::exit(2);
        }
        plan = std::min(plan, first);
        work = std::min(work, second);
        spent += first + second;
    }
    deepest = std::max(deepest, stack_of([&] { call_work(made.bytes, pairs); }));
    ratios.push_back(work / plan);
    std::string answer = refusal ? "refused " + std::to_string(refusal) : std::to_string(pairs.stem) + " and " + std::to_string(pairs.cycle);
    std::printf("| %zu | %d | %s | %.1f | %.1f | %.2f |\n", made.nodes, made.bytes[2], answer.c_str(), plan, work, work / plan);
    std::fflush(stdout);
}

// The geometric mean and the largest of the ratios.
bool print_summary() {
    double sum = 0;
    for (double ratio : ratios) sum += std::log(ratio);
    double largest = *std::max_element(ratios.begin(), ratios.end());
    std::printf("\n%zu rows: geometric mean %.2f, largest %.2f; none may be above %.1f. Peak stack: planner_work %zu KB; it has to stay under 2048 KB.\n",
                ratios.size(), std::exp(sum / double(ratios.size())), largest, limit, (deepest + 1023) / 1024);
    return largest <= limit && deepest < (2u << 20);
}

} // namespace

int main() {
    std::printf("\nA work plan beside the plan\n\n| nodes | clocks | pairs of stem and cycle | plan, µs | work plan, µs | work plan / plan |\n");
    std::printf("|---|---|---|---|---|---|\n");
    run_row(make_bench(), 0);
    for (int clocks : {3, 4}) run_row(make_longest(clocks), 0);
    for (int clocks : {1, 2, 3})
        for (unsigned nodes : {50, 200, 400}) run_row(make_sheet({clocks, 0, 0, 3.2, 3.8, true}, nodes), 0);
    for (int clocks : {2, 3}) {
        for (unsigned nodes : {800, 1950}) run_row(make_sheet({clocks, 0, 0, 3.2, 3.8, true}, nodes), 0);
        for (unsigned nodes : {400, 1900}) run_row(make_sheet({clocks, 1, 32, 25, 30, true}, nodes), 0);
        for (unsigned nodes : {50, 400}) run_row(make_sheet({clocks, 0, 0, 3.2, 3.8}, nodes), 18);
    }
    for (unsigned nodes : {400, 800, 1950}) run_row(make_sheet({4, 0, 0, 3.2, 3.8, true}, nodes), 0);
    run_row(make_sheet({4, 1, 32, 25, 30, true}, 1900), 0);
    return print_summary() ? 0 : 1;
}
