// Seeded sheets of a wanted size, with four clocks in edition 2 and with fewer in edition 1.
#pragma once
#include <cstddef>
#include <cstdint>
#include <vector>

struct Kind {
    int clocks, locations, edges;       // with 0 locations: any number of them, and 8 edges for each 3
    double least_density, most_density; // arcs a node
    bool closed = false;                // no bound and no guard is strict
};

struct Made {
    std::vector<uint8_t> bytes; // empty where none was found
    size_t nodes = 0;           // the reachable ones, where they were counted to the end
};

// The first sheet of the kind, by rising seed, with the wanted count of nodes, give or take a twentieth, and a cycle. All edges and all time earn,
// so that each cycle does, and a planner accepts it.
Made make_sheet(const Kind &kind, unsigned nodes);

// The first sheet of the kind with more nodes than a plan may have.
Made make_overfull(const Kind &kind);

// The first sheet of the kind with the wanted count of nodes and no cycle.
Made make_acyclic(const Kind &kind, unsigned nodes);

// The sheet with one edge more, from location 0 back to it, that has this cost and earns nothing: a cycle without reward.
Made with_idle(Made made, int cost);

// The sheet that make_sheet gives, and one byte more.
Made make_too_long(const Kind &kind, unsigned nodes);

// The paper's sheet of eighteen bytes.
Made make_bench();

// The longest sheet with a given number of clocks: it has every field, with these bytes for bounds and guards, and all edges are equal.
struct Longest {
    static constexpr size_t locations = 12, edges = 32;
    std::vector<uint8_t> bytes;
    size_t edge_bytes = 0;

    Longest(int clocks, uint8_t lower, uint8_t upper);
    uint8_t *edge(size_t place) { return bytes.data() + bytes.size() - (edges - place) * edge_bytes; }
};

// The longest sheet with a given number of clocks, with no strict bound or guard and 4 nodes: much of the time of its plan goes to reading it.
Made make_longest(int clocks);
