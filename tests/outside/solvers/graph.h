// A graph of nodes and priced arcs with the ratio to be judged.
#pragma once

#include <istream>
#include <string>
#include <vector>

struct Arc {
    int from, to;
    long long cost, reward;
};

struct Graph {
    std::string name, sheet;
    long long p = 0, q = 0;
    int nodes = 0;
    std::vector<Arc> arcs;
};

// Reads one graph; false at the end of the input, and, with no end set, where it is malformed.
inline bool read_graph(std::istream &in, Graph &graph) {
    std::string word;
    size_t arcs = 0;
    in >> word;
    if (in.eof() && word.empty()) return false;
    in >> graph.name >> graph.sheet >> graph.p >> graph.q >> graph.nodes >> arcs;
    if (!in || word != "graph" || graph.nodes < 1) {
        in.clear(std::ios::failbit);
        return false;
    }
    graph.arcs.assign(arcs, Arc());
    for (Arc &arc : graph.arcs) {
        in >> arc.from >> arc.to >> arc.cost >> arc.reward;
        const bool inside = arc.from >= 0 && arc.from < graph.nodes && arc.to >= 0 &&
                            arc.to < graph.nodes;
        if (!in || !inside) {
            in.clear(std::ios::failbit);
            return false;
        }
    }
    return true;
}
