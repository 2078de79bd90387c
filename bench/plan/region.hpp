// Nodes of a sheet and the steps between them.
#pragma once
#include "sheet.hpp"

constexpr int unit_code = 32, move_code = 33;

struct Node {
    int location = 0, corner = 0;
    Clocks whole{}, rank{}; // a clock's class: 0 for no fraction, else the rank of its fraction
};

uint64_t number_of(const Sheet &sheet, const Node &node);
Node node_of(const Sheet &sheet, uint64_t number);

struct Step {
    bool allowed = false;
    Node to;
    int cost = 0, reward = 0;
};

Step step(const Sheet &sheet, const Node &from, int code);
