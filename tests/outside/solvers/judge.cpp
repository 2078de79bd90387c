// Judges the ratios of graphs by two solvers of others: LEMON's HowardMmc, exactly, and Boost's
// minimum_cycle_ratio, in floating point. Reads what `compare graphs` writes.
// usage: judge [GRAPHS [IDLE]], the least number of graphs, and of those with an idle cycle
#include "boost_ratio.h"
#include "graph.h"
#include "idle_cycle.h"
#include "lemon_mean.h"

#include <cstdio>
#include <iostream>

namespace {

struct Tally {
    long graphs = 0, nodes = 0, arcs = 0;
    long with_idle = 0;
    long boost_agrees = 0, boost_differs = 0, boost_finds_none = 0;
};

int fail(const Graph &graph, const std::string &message) {
    std::fprintf(stderr, "FAILED %s: %s\nsheet %s\n", graph.name.c_str(), message.c_str(),
                 graph.sheet.c_str());
    return 1;
}

std::string ratio_text(const Graph &graph) {
    return std::to_string(graph.p) + "/" + std::to_string(graph.q);
}

// The least mean is from -1 on and below 0 if and only if p/q is the least ratio of a cycle that
// earns, and no cycle without reward costs less than 0.
int judge_lemon(const Graph &graph) {
    const Mean mean = lemon_mean(graph);
    if (!mean.found) return fail(graph, "LEMON finds no cycle");
    if (-mean.arcs <= mean.weight && mean.weight < 0) return 0;
    const std::string found = mean.weight < 0
                                  ? " is below " + ratio_text(graph) + ", or an idle cycle below 0"
                                  : " is above " + ratio_text(graph) + ", or no cycle earns";
    return fail(graph, "LEMON: the least ratio" + found + "; the least mean is " +
                           std::to_string(mean.weight) + "/" + std::to_string(mean.arcs));
}

// Boost rounds, so a ratio of its own that differs is only counted. The cycle that it names is
// summed exactly, and one below p/q is a proof that p/q is wrong.
int judge_boost(const Graph &graph, Tally &tally) {
    const Ratio found = boost_ratio(graph);
    if (!found.closed) {
        ++tally.boost_finds_none;
        return 0;
    }
    const long long weight = graph.q * found.cost - graph.p * found.reward;
    if (found.reward > 0 && weight < 0)
        return fail(graph, "Boost names a cycle of " + std::to_string(found.cost) + "/" +
                               std::to_string(found.reward) + ", below " + ratio_text(graph));
    const double ratio = static_cast<double>(graph.p) / static_cast<double>(graph.q);
    const double tolerance = 1e-6 * std::max(1.0, std::abs(ratio));
    ++(std::abs(found.value - ratio) <= tolerance ? tally.boost_agrees : tally.boost_differs);
    return 0;
}

void print(const Tally &tally) {
    std::printf("graphs of accepted sheets judged by other solvers\n");
    std::printf("  %9ld  graphs, %ld nodes and %ld arcs in all\n", tally.graphs, tally.nodes,
                tally.arcs);
    std::printf("  %9ld  with an idle cycle, not for Boost\n", tally.with_idle);
    std::printf("  %9ld  LEMON, exact: the ratio is the least of a cycle that earns\n",
                tally.graphs);
    std::printf("  %9ld  Boost, rounding: agrees within 10^-6\n", tally.boost_agrees);
    std::printf("  %9ld  Boost, rounding: differs\n", tally.boost_differs);
    std::printf("  %9ld  Boost, rounding: names no cycle\n", tally.boost_finds_none);
}

int judge_tally(const Tally &tally, long least, long least_idle) {
    if (!std::cin.eof() || tally.graphs < least || tally.with_idle < least_idle) {
        std::fprintf(stderr,
                     "FAILED %ld graphs were read, %ld with an idle cycle, expected %ld and "
                     "%ld at least\n",
                     tally.graphs, tally.with_idle, least, least_idle);
        return 1;
    }
    if (tally.boost_agrees * 100 < (tally.graphs - tally.with_idle) * 98) {
        std::fprintf(stderr, "FAILED Boost agrees on fewer than 98 graphs in 100\n");
        return 1;
    }
    return 0;
}

}  // namespace

int main(int argc, char **argv) {
    const long least = argc > 1 ? std::atol(argv[1]) : 1;
    const long least_idle = argc > 2 ? std::atol(argv[2]) : 0;
    std::ios::sync_with_stdio(false);
    Tally tally;
    Graph graph;
    while (read_graph(std::cin, graph)) {
        // Boost divides by the reward of every cycle that it meets
        const bool idle = idle_cycle(graph);
        if (judge_lemon(graph) != 0 || (!idle && judge_boost(graph, tally) != 0)) return 1;
        ++tally.graphs;
        tally.with_idle += idle;
        tally.nodes += graph.nodes;
        tally.arcs += static_cast<long>(graph.arcs.size());
    }
    print(tally);
    return judge_tally(tally, least, least_idle);
}
