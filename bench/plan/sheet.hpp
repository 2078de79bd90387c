// A sheet read from its bytes.
#pragma once
#include <array>
#include <cstddef>
#include <cstdint>
#include <vector>

constexpr int most_clocks = 4;
using Clocks = std::array<int, most_clocks>; // a number for each

// What the editions differ in. In the map of an edge the upper guards stand behind the lower ones of as many clocks as there may be.
struct Edition {
    int clocks;     // as many as a sheet may have
    int class_bits; // of a clock's class in the number of a node, and of the corner
};

constexpr Edition edition_of(int number) { return number == 1 ? Edition{3, 2} : Edition{4, 3}; }

struct Location {
    int cost = 0, reward = 0;
    Clocks upper{};
};

struct Edge {
    int source = 0, target = 0, cost = 0, reward = 0, mask = 0;
    Clocks lower{0, 0, 0, 0};
    Clocks upper{255, 255, 255, 255};
};

struct Sheet {
    int edition = 0, clocks = 0;
    std::vector<Location> locations;
    std::vector<Edge> edges;
};

// 0, or the number of the first of questions 2 to 10, 17 and 11 that is answered no; the sheet is whole only where 0.
int read_sheet(const uint8_t *bytes, size_t length, Sheet &sheet);
