// The reachable nodes of a sheet with the arcs between them, and searches for cycles among these.
#pragma once
#include "sheet.hpp"

constexpr size_t most_nodes = 2048;

struct Arc {
    uint32_t from, to;
    int code, cost, reward;
};

struct Graph {
    std::vector<uint64_t> numbers; // in order of discovery, the start first
    std::vector<Arc> arcs;         // by source, then code
    std::vector<uint32_t> parent;  // the arc that first led to each node but the start
};

struct Ratio {
    int64_t p = 0, q = 1;
};

// False where more than most_nodes nodes are reachable.
bool explore(const Sheet &sheet, Graph &graph);

// What a cycle, given by its arcs, costs (p) and earns (q).
Ratio sums_of(const Graph &graph, const std::vector<uint32_t> &cycle);

// The same ratio in lowest terms; q is above 0.
Ratio lowest(Ratio ratio);

// The critical cycle of Boost's minimum_cycle_ratio, as arcs in order; none where Boost names none. Boost divides by rewards: beside a cycle
// without reward it may name any cycle, or none.
std::vector<uint32_t> howard_cycle(const Graph &graph);

// Bellman and Ford's rounds for the weight q times cost minus p times reward: the least weights of walks from the start,
// or where there are none the arcs of a cycle that weighs less than 0.
std::vector<uint32_t> cycle_below(const Graph &graph, Ratio ratio, std::vector<int64_t> &potentials);
