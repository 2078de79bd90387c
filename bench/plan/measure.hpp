// The time of the planners on one sheet, and the stack of the proved one.
#pragma once
#include "planner.hpp"

struct Row {
    Plan plan; // of the C++ planner that begins with Boost's cycle
    int clocks = 0;
    double proved = 1e30, cpp = 1e30, boost = 1e30; // the least time of a call, in microseconds
    bool agree = false; // refusal, ratio, nodes and potentials are equal, and the proved plan's cycle adds up
};

// The deepest stack of each function of the proved planner, in bytes, over all sheets measured.
struct Stack {
    size_t check = 0, step = 0, plan = 0;
};

Row measure(const std::vector<uint8_t> &bytes, Stack &deepest);
