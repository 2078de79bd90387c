// A planner to be held against the proved one: reading and exploring are written from the paper alone, the searches go as the proved one's do.
#pragma once
#include "graph.hpp"

struct Buffers {
    std::vector<uint64_t> nodes = std::vector<uint64_t>(most_nodes);
    std::vector<int64_t> potentials = std::vector<int64_t>(most_nodes);
    std::vector<uint16_t> steps = std::vector<uint16_t>(most_nodes);
};

struct Plan {
    int refusal = 0;
    int64_t p = 0, q = 0;
    size_t nodes = 0, stem = 0, cycle = 0;
    size_t arcs = 0;              // of the graph explored, where not refused
    const char *howard = "least"; // what Boost's cycle was, where it was asked: "none" that earns, or "not least", and the answer was improved
};

// Where the loop begins that goes from cycle to cheaper cycle: above every ratio, as that of the proved planner, or at the cycle of Boost.
enum class Begin { above, boost };

Plan plan(const uint8_t *bytes, size_t length, Begin begin, Buffers &buffers);
