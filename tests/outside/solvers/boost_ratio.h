// The least ratio of a cycle by Boost's Howard, in floating point, and the cycle that it names.
#pragma once

#include "graph.h"

#include <boost/graph/adjacency_list.hpp>
#include <boost/graph/howard_cycle_ratio.hpp>

struct Ratio {
    double value;
    bool closed;
    long long cost, reward;
};

struct EdgePrices {
    double cost, reward;
    int arc;
};

inline Ratio boost_ratio(const Graph &graph) {
    typedef boost::adjacency_list<boost::vecS, boost::vecS, boost::directedS, boost::no_property,
                                  EdgePrices>
        Digraph;
    typedef boost::graph_traits<Digraph>::edge_descriptor Edge;
    Digraph digraph(static_cast<size_t>(graph.nodes));
    for (size_t at = 0; at < graph.arcs.size(); ++at) {
        const Arc &arc = graph.arcs[at];
        const EdgePrices prices = {static_cast<double>(arc.cost), static_cast<double>(arc.reward),
                                   static_cast<int>(at)};
        boost::add_edge(static_cast<size_t>(arc.from), static_cast<size_t>(arc.to), prices,
                        digraph);
    }
    std::vector<Edge> cycle;
    Ratio found = {0, false, 0, 0};
    found.value = boost::minimum_cycle_ratio(
        digraph, boost::get(boost::vertex_index, digraph), boost::get(&EdgePrices::cost, digraph),
        boost::get(&EdgePrices::reward, digraph), &cycle);
    found.closed = !cycle.empty();
    for (size_t at = 0; at < cycle.size(); ++at) {
        const Arc &arc = graph.arcs[static_cast<size_t>(digraph[cycle[at]].arc)];
        const Arc &next =
            graph.arcs[static_cast<size_t>(digraph[cycle[(at + 1) % cycle.size()]].arc)];
        found.closed = found.closed && arc.to == next.from;
        found.cost += arc.cost;
        found.reward += arc.reward;
    }
    return found;
}
