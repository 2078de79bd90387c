#include <unordered_map>

#include "graph.hpp"
#include "region.hpp"

namespace {

struct Search {
    const Sheet &sheet;
    Graph &graph;
    std::unordered_map<uint64_t, uint32_t> places; // number to place in order of discovery
    std::vector<std::vector<int>> codes;           // by location

    Search(const Sheet &s, Graph &g) : sheet(s), graph(g), codes(s.locations.size()) {
        places.reserve(2 * most_nodes);
        for (size_t e = 0; e < s.edges.size(); e++) codes[size_t(s.edges[e].source)].push_back(int(e));
        for (auto &list : codes) {
            list.push_back(unit_code);
            list.push_back(move_code);
        }
    }

    bool take(uint32_t from, int code, const Step &s) {
        auto [found, fresh] = places.try_emplace(number_of(sheet, s.to), uint32_t(graph.numbers.size()));
        if (fresh) {
            if (graph.numbers.size() == most_nodes) return false;
            graph.numbers.push_back(found->first);
            graph.parent.push_back(uint32_t(graph.arcs.size()));
        }
        graph.arcs.push_back({from, found->second, code, s.cost, s.reward});
        return true;
    }
};

} // namespace

bool explore(const Sheet &sheet, Graph &graph) {
    Search search(sheet, graph);
    graph.numbers = {0};
    graph.parent = {0};
    search.places[0] = 0;
    for (uint32_t from = 0; from < graph.numbers.size(); from++) {
        Node node = node_of(sheet, graph.numbers[from]);
        for (int code : search.codes[size_t(node.location)]) {
            Step s = step(sheet, node, code);
            if (s.allowed && !search.take(from, code, s)) return false;
        }
    }
    return true;
}
