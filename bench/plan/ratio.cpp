#include <algorithm>
#include <boost/graph/compressed_sparse_row_graph.hpp>
#include <boost/graph/howard_cycle_ratio.hpp>
#include <numeric>

#include "graph.hpp"

Ratio sums_of(const Graph &graph, const std::vector<uint32_t> &cycle) {
    Ratio sums{0, 0};
    for (uint32_t e : cycle) {
        sums.p += graph.arcs[e].cost;
        sums.q += graph.arcs[e].reward;
    }
    return sums;
}

Ratio lowest(Ratio ratio) {
    int64_t d = std::gcd(ratio.p, ratio.q);
    return {ratio.p / d, ratio.q / d};
}

namespace {

struct Priced {
    uint32_t arc;
    double cost, reward;
};

using Priced_graph = boost::compressed_sparse_row_graph<boost::directedS, boost::no_property, Priced, boost::no_property, uint32_t, uint32_t>;

// The arcs that lead from node to node back to `at`, by the arc that last lowered each node.
std::vector<uint32_t> parents_cycle(const Graph &graph, const std::vector<uint32_t> &parent, uint32_t at) {
    std::vector<uint32_t> cycle;
    uint32_t v = at;
    do {
        cycle.push_back(parent[v]);
        v = graph.arcs[parent[v]].from;
    } while (v != at);
    std::reverse(cycle.begin(), cycle.end());
    return cycle;
}

constexpr uint32_t none = UINT32_MAX;

// A cycle among the parents, if there is one: each climb marks its nodes, and one that meets its own mark has gone round.
std::vector<uint32_t> find_cycle(const Graph &graph, const std::vector<uint32_t> &parent) {
    std::vector<uint32_t> mark(parent.size(), none);
    for (uint32_t v = 0; v < parent.size(); v++) {
        uint32_t at = v;
        while (mark[at] == none && parent[at] != none) {
            mark[at] = v;
            at = graph.arcs[parent[at]].from;
        }
        if (mark[at] == v && parent[at] != none) return parents_cycle(graph, parent, at);
        mark[at] = v;
    }
    return {};
}

} // namespace

std::vector<uint32_t> howard_cycle(const Graph &graph) {
    std::vector<std::pair<uint32_t, uint32_t>> ends;
    std::vector<Priced> prices;
    ends.reserve(graph.arcs.size());
    prices.reserve(graph.arcs.size());
    for (uint32_t e = 0; e < graph.arcs.size(); e++) {
        const Arc &a = graph.arcs[e];
        ends.emplace_back(a.from, a.to);
        prices.push_back({e, double(a.cost), double(a.reward)});
    }
    Priced_graph g(boost::edges_are_sorted, ends.begin(), ends.end(), prices.begin(), uint32_t(graph.numbers.size()));
    std::vector<boost::graph_traits<Priced_graph>::edge_descriptor> critical;
    boost::minimum_cycle_ratio(g, get(boost::vertex_index, g), get(&Priced::cost, g), get(&Priced::reward, g), &critical);
    std::vector<uint32_t> cycle;
    for (auto e : critical) cycle.push_back(g[e].arc);
    return cycle;
}

std::vector<uint32_t> cycle_below(const Graph &graph, Ratio ratio, std::vector<int64_t> &potentials) {
    constexpr int64_t far = int64_t(1) << 60;
    constexpr int64_t deep = -1000000000000000; // no walk without a cycle comes so low
    std::vector<int64_t> weight;
    weight.reserve(graph.arcs.size());
    for (const Arc &a : graph.arcs) weight.push_back(ratio.q * a.cost - ratio.p * a.reward);
    potentials.assign(graph.numbers.size(), far);
    std::vector<uint32_t> parent(graph.numbers.size(), none);
    potentials[0] = 0;
    for (size_t round = 1;; round++) {
        bool lowered = false, looped = false;
        for (uint32_t e = 0; e < graph.arcs.size(); e++) {
            const Arc &a = graph.arcs[e];
            if (potentials[a.from] == far || potentials[a.to] <= potentials[a.from] + weight[e]) continue;
            potentials[a.to] = potentials[a.from] + weight[e];
            parent[a.to] = e;
            lowered = true;
            looped = looped || potentials[a.to] < deep;
        }
        if (!lowered) return {};
        // at the rounds 1, 2, 4, ...: cheap where there is none, soon enough where there is one
        if ((round & (round - 1)) != 0 && !looped) continue;
        std::vector<uint32_t> cycle = find_cycle(graph, parent);
        if (!cycle.empty()) return cycle;
    }
}
