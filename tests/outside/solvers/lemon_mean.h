// The least mean weight of a cycle by LEMON's Howard, in integers.
#pragma once

#include "graph.h"

#include <lemon/howard_mmc.h>
#include <lemon/smart_graph.h>

#include <limits>

struct Mean {
    bool found;
    long long weight;
    int arcs;
};

// LEMON sums weights times numbers of arcs, beyond 64 bits in the extreme.
template <typename Digraph, typename Weights>
struct WideSums : lemon::HowardMmcDefaultTraits<Digraph, Weights> {
    typedef __int128 LargeCost;
    typedef lemon::Tolerance<LargeCost> Tolerance;
    static_assert(std::numeric_limits<LargeCost>::is_integer, "the library has to know the type");
};

// The mean tells whether p/q is the least ratio. With w for q * cost - p * reward, an arc weighs w times one more
// than there are nodes, and 1 less where it earns. A cycle that meets no node twice then has a mean
// below -1 if and only if its w is below 0; from -1 on and below 0 if and only if its w is 0 and it
// earns; and 0 or more otherwise: also where its w is 0 and it earns nothing.
inline Mean lemon_mean(const Graph &graph) {
    typedef lemon::SmartDigraph Digraph;
    typedef Digraph::ArcMap<long long> Weights;
    Digraph digraph;
    digraph.reserveNode(graph.nodes);
    digraph.reserveArc(static_cast<int>(graph.arcs.size()));
    for (int node = 0; node < graph.nodes; ++node) digraph.addNode();
    Weights weights(digraph);
    for (const Arc &arc : graph.arcs) {
        const Digraph::Arc added =
            digraph.addArc(digraph.nodeFromId(arc.from), digraph.nodeFromId(arc.to));
        const long long weight = graph.q * arc.cost - graph.p * arc.reward;
        weights[added] = weight * (graph.nodes + 1) - (arc.reward > 0 ? 1 : 0);
    }
    lemon::HowardMmc<Digraph, Weights, WideSums<Digraph, Weights>> howard(digraph, weights);
    if (!howard.findCycleMean()) return Mean{false, 0, 0};
    return Mean{true, howard.cycleCost(), howard.cycleSize()};
}
