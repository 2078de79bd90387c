#include "planner.hpp"

#include <algorithm>
#include <numeric>

namespace {

constexpr Ratio above_all{1, 0}; // exactly the cycles that earn weigh less than 0

// Boost's cycle and its ratio, where it names one that earns.
Ratio first_ratio(const Graph &graph, std::vector<uint32_t> &cycle) {
    cycle = howard_cycle(graph);
    Ratio sums = sums_of(graph, cycle);
    if (sums.q > 0) return lowest(sums);
    cycle.clear();
    return above_all;
}

// Questions 13 and 14; where both are answered yes, the ratio, a cycle that has it and the potentials. At a ratio a cycle without reward that
// weighs less than 0 makes money, and one that earns is in hand.
int least_cycle(const Graph &graph, Begin begin, std::vector<uint32_t> &cycle, std::vector<int64_t> &potentials, Plan &answer) {
    Ratio ratio = begin == Begin::boost ? first_ratio(graph, cycle) : above_all;
    const char *wrong = cycle.empty() ? "none" : "not least";
    for (;;) {
        std::vector<uint32_t> below = cycle_below(graph, ratio, potentials);
        if (below.empty()) break;
        Ratio sums = sums_of(graph, below);
        if (sums.q == 0) return 14;
        if (begin == Begin::boost) answer.howard = wrong;
        cycle = below;
        ratio = lowest(sums);
    }
    if (cycle.empty()) return 13;
    answer.p = ratio.p;
    answer.q = ratio.q;
    return 0;
}

// The stem goes along the first arcs to the node of the cycle that was discovered first.
void lay_lasso(const Graph &graph, std::vector<uint32_t> cycle, Plan &answer, std::vector<uint16_t> &steps) {
    auto earlier = [&](uint32_t a, uint32_t b) { return graph.arcs[a].from < graph.arcs[b].from; };
    std::rotate(cycle.begin(), std::min_element(cycle.begin(), cycle.end(), earlier), cycle.end());
    std::vector<uint32_t> stem;
    for (uint32_t v = graph.arcs[cycle[0]].from; v != 0; v = graph.arcs[graph.parent[v]].from) stem.push_back(graph.parent[v]);
    auto at = steps.begin();
    for (auto e = stem.rbegin(); e != stem.rend(); e++) *at++ = uint16_t(graph.arcs[*e].code);
    for (uint32_t e : cycle) *at++ = uint16_t(graph.arcs[e].code);
    std::fill(at, steps.end(), uint16_t(0));
    answer.stem = stem.size();
    answer.cycle = cycle.size();
}

void lay_nodes(const Graph &graph, const std::vector<int64_t> &potentials, Buffers &buffers) {
    std::vector<uint32_t> order(graph.numbers.size());
    std::iota(order.begin(), order.end(), 0u);
    std::sort(order.begin(), order.end(), [&](uint32_t a, uint32_t b) { return graph.numbers[a] < graph.numbers[b]; });
    std::fill(buffers.nodes.begin(), buffers.nodes.end(), uint64_t(0));
    std::fill(buffers.potentials.begin(), buffers.potentials.end(), int64_t(0));
    for (size_t i = 0; i < order.size(); i++) {
        buffers.nodes[i] = graph.numbers[order[i]];
        buffers.potentials[i] = potentials[order[i]];
    }
}

void clear(Buffers &buffers) {
    std::fill(buffers.nodes.begin(), buffers.nodes.end(), uint64_t(0));
    std::fill(buffers.potentials.begin(), buffers.potentials.end(), int64_t(0));
    std::fill(buffers.steps.begin(), buffers.steps.end(), uint16_t(0));
}

} // namespace

Plan plan(const uint8_t *bytes, size_t length, Begin begin, Buffers &buffers) {
    Plan answer;
    Sheet sheet;
    answer.refusal = read_sheet(bytes, length, sheet);
    if (answer.refusal) return answer;
    Graph graph;
    std::vector<uint32_t> cycle;
    std::vector<int64_t> potentials;
    answer.refusal = explore(sheet, graph) ? least_cycle(graph, begin, cycle, potentials, answer) : 12;
    if (answer.refusal) {
        clear(buffers);
        return answer;
    }
    answer.nodes = graph.numbers.size();
    answer.arcs = graph.arcs.size();
    lay_nodes(graph, potentials, buffers);
    lay_lasso(graph, cycle, answer, buffers.steps);
    return answer;
}
