// Whether a graph has a cycle without reward, by LEMON's search for cycles among the arcs that earn
// nothing: rewards are not negative.
#pragma once

#include "graph.h"

#include <lemon/connectivity.h>
#include <lemon/smart_graph.h>

inline bool idle_cycle(const Graph &graph) {
    lemon::SmartDigraph idle;
    for (int node = 0; node < graph.nodes; ++node) idle.addNode();
    for (const Arc &arc : graph.arcs)
        if (arc.reward == 0) idle.addArc(idle.nodeFromId(arc.from), idle.nodeFromId(arc.to));
    return !lemon::dag(idle);
}
