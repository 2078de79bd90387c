#include "make.hpp"

#include <random>

#include "planner.hpp"

namespace {

struct Dice {
    std::mt19937 random;
    int from(int least, int most) { return least + int(random() % unsigned(most - least + 1)); }
    bool chance(int percent) { return from(0, 99) < percent; }
};

void put_word(std::vector<uint8_t> &bytes, int w) {
    bytes.push_back(uint8_t(w & 255));
    bytes.push_back(uint8_t(w >> 8 & 255));
}

uint8_t edition_with(int clocks) { return clocks == most_clocks ? 2 : 1; }

int price(Dice &dice, int most) {
    int p = dice.from(1, most);
    return dice.chance(50) ? p : -p;
}

// Bounds up to `high`, a quarter of them strict unless the kind is closed.
void put_location(std::vector<uint8_t> &bytes, const Kind &kind, int high, Dice &dice) {
    bytes.push_back(uint8_t(3 | ((1 << kind.clocks) - 1) << 2));
    put_word(bytes, price(dice, 100));
    put_word(bytes, dice.from(1, 20));
    for (int j = 0; j < kind.clocks; j++) bytes.push_back(uint8_t(2 * dice.from((high + 1) / 2, high) + (!dice.chance(25) || kind.closed)));
}

// Most edges reset some clock, and a quarter are guarded from below.
void put_edge(std::vector<uint8_t> &bytes, const Kind &kind, int place, int high, Dice &dice) {
    bool resets = dice.chance(80);
    int guard = dice.chance(25) ? dice.from(0, kind.clocks - 1) : -1;
    put_word(bytes, 3 | (resets ? 4 : 0) | (guard < 0 ? 0 : 8 << guard));
    bytes.push_back(uint8_t(place % kind.locations));
    bytes.push_back(uint8_t(dice.from(0, kind.locations - 1)));
    put_word(bytes, price(dice, 200));
    put_word(bytes, dice.from(1, 50));
    if (resets) bytes.push_back(uint8_t(dice.from(1, (1 << kind.clocks) - 1)));
    if (guard < 0) return;
    int lower = dice.from(1, high);
    bytes.push_back(uint8_t(kind.closed ? lower + lower % 2 : lower));
}

std::vector<uint8_t> random_sheet(Kind kind, unsigned seed) {
    Dice dice{std::mt19937(seed)};
    int high = dice.from(1, 12);
    if (kind.locations == 0) {
        kind.locations = dice.from(1, 12);
        kind.edges = kind.locations * 8 / 3;
    }
    std::vector<uint8_t> bytes{edition_with(kind.clocks), uint8_t(kind.locations), uint8_t(kind.clocks), uint8_t(kind.edges)};
    for (int i = 0; i < kind.locations; i++) put_location(bytes, kind, high, dice);
    for (int i = 0; i < kind.edges; i++) put_edge(bytes, kind, i, high, dice);
    return bytes;
}

template <class Wanted> Made first(const Kind &kind, Wanted wanted) {
    for (unsigned seed = 1; seed <= 20000; seed++) {
        std::vector<uint8_t> bytes = random_sheet(kind, seed);
        Sheet sheet;
        Graph graph;
        if (read_sheet(bytes.data(), bytes.size(), sheet)) continue;
        bool whole = explore(sheet, graph);
        if (wanted(whole, graph)) return {bytes, whole ? graph.numbers.size() : 0};
    }
    return {};
}

// Whether some cycle is reachable: nodes that no arc enters are taken away until none is left.
bool cyclic(const Graph &graph) {
    std::vector<std::vector<uint32_t>> leaving(graph.numbers.size());
    std::vector<uint32_t> entering(graph.numbers.size(), 0), ready;
    for (const Arc &a : graph.arcs) {
        leaving[a.from].push_back(a.to);
        entering[a.to]++;
    }
    for (uint32_t v = 0; v < entering.size(); v++)
        if (entering[v] == 0) ready.push_back(v);
    for (size_t i = 0; i < ready.size(); i++)
        for (uint32_t to : leaving[ready[i]])
            if (--entering[to] == 0) ready.push_back(to);
    return ready.size() < entering.size();
}

bool near(size_t count, unsigned wanted) { return wanted * 0.95 <= double(count) && double(count) <= wanted * 1.05; }

} // namespace

Made make_sheet(const Kind &kind, unsigned nodes) {
    return first(kind, [&](bool whole, const Graph &graph) {
        double density = double(graph.arcs.size()) / double(graph.numbers.size());
        if (!whole || !near(graph.numbers.size(), nodes) || density < kind.least_density || kind.most_density < density) return false;
        return cyclic(graph);
    });
}

Made make_overfull(const Kind &kind) {
    return first(kind, [](bool whole, const Graph &) { return !whole; });
}

Made make_acyclic(const Kind &kind, unsigned nodes) {
    return first(kind, [&](bool whole, const Graph &graph) { return whole && near(graph.numbers.size(), nodes) && !cyclic(graph); });
}

Made with_idle(Made made, int cost) {
    if (made.bytes.empty() || made.bytes[3] == 32) return {};
    made.bytes[3]++;
    // of the fields only the cost; source and target are location 0
    made.bytes.insert(made.bytes.end(), {uint8_t(cost != 0), 0, 0, 0});
    if (cost != 0) put_word(made.bytes, cost);
    return made;
}

Made make_too_long(const Kind &kind, unsigned nodes) {
    Made made = make_sheet(kind, nodes);
    if (made.bytes.empty()) return {};
    made.bytes.push_back(0);
    return {made.bytes, 0};
}

Longest::Longest(int clocks, uint8_t lower, uint8_t upper) : bytes{edition_with(clocks), locations, uint8_t(clocks), edges} {
    const int all = (1 << clocks) - 1, uppers = 3 + edition_of(bytes[0]).clocks;
    std::vector<uint8_t> location{uint8_t(3 | all << 2), 1, 0, 1, 0}, edge;
    location.insert(location.end(), size_t(clocks), upper);
    put_word(edge, 7 | all << 3 | all << uppers);
    edge.insert(edge.end(), {0, 0, 1, 0, 1, 0, uint8_t(all)});
    edge.insert(edge.end(), size_t(clocks), lower);
    edge.insert(edge.end(), size_t(clocks), upper);
    edge_bytes = edge.size();
    for (size_t i = 0; i < locations; i++) bytes.insert(bytes.end(), location.begin(), location.end());
    for (size_t i = 0; i < edges; i++) bytes.insert(bytes.end(), edge.begin(), edge.end());
}

// Only the first edge leaves location 0, and it leads back there.
Made make_longest(int clocks) {
    Longest longest(clocks, 2, 3);
    for (size_t i = 1; i < Longest::edges; i++) {
        longest.edge(i)[2] = uint8_t(1 + i / Longest::locations);
        longest.edge(i)[3] = uint8_t(i % Longest::locations);
    }
    return {longest.bytes, 4};
}

Made make_bench() { return {{1, 1, 1, 1, 5, 1, 0, 5, 15, 0, 0, 0, 5, 0, 2, 0, 1, 2}, 7}; }
