#include "region.hpp"

#include <algorithm>

namespace {

constexpr int whole_bits = 4; // of a clock's whole part, and of a location

// Where class and whole part of clock j begin; behind the last clock stands the location.
constexpr int place(const Edition &edition, int j) { return edition.class_bits + j * (edition.class_bits + whole_bits); }

// The edition is a constant, so that the shifts are.
template <int which> uint64_t packed(const Node &node) {
    constexpr Edition edition = edition_of(which);
    uint64_t number = uint64_t(node.corner) | uint64_t(node.location) << place(edition, edition.clocks);
    for (int j = 0; j < edition.clocks; j++) number |= uint64_t(node.rank[j] | node.whole[j] << edition.class_bits) << place(edition, j);
    return number;
}

template <int which> Node unpacked(uint64_t number) {
    constexpr Edition edition = edition_of(which);
    auto part = [&](int from, int bits) { return int(number >> from & ((1u << bits) - 1)); };
    Node node;
    node.corner = part(0, edition.class_bits);
    node.location = part(place(edition, edition.clocks), whole_bits);
    for (int j = 0; j < edition.clocks; j++) {
        node.rank[j] = part(place(edition, j), edition.class_bits);
        node.whole[j] = part(place(edition, j) + edition.class_bits, whole_bits);
    }
    return node;
}

// The points and open intervals of a clock, counted from 0: even for a point. An upper byte admits those below it, a lower byte those from it on.
int interval(const Node &node, int j) { return 2 * node.whole[j] + (node.rank[j] > 0); }

bool within(const Node &node, const Clocks &upper, int clocks) {
    for (int j = 0; j < clocks; j++)
        if (upper[j] <= interval(node, j)) return false;
    return true;
}

bool guarded(const Node &node, const Edge &edge, int clocks) {
    for (int j = 0; j < clocks; j++)
        if (interval(node, j) < edge.lower[j]) return false;
    return within(node, edge.upper, clocks);
}

void reset(Node &node, int mask, int clocks) {
    bool used[most_clocks + 1] = {};
    for (int j = 0; j < clocks; j++) {
        if (mask >> j & 1) node.whole[j] = node.rank[j] = 0;
        used[node.rank[j]] = true;
    }
    int closed[most_clocks + 1] = {};
    for (int r = 1; r <= most_clocks; r++) closed[r] = closed[r - 1] + used[r];
    for (int j = 0; j < clocks; j++) node.rank[j] = closed[node.rank[j]];
    node.corner = closed[node.corner];
}

Step edge_step(const Sheet &sheet, const Node &from, const Edge &edge) {
    Step s{false, from, edge.cost, edge.reward};
    if (edge.source != from.location || !guarded(from, edge, sheet.clocks)) return s;
    s.to.location = edge.target;
    reset(s.to, edge.mask, sheet.clocks);
    s.allowed = within(s.to, sheet.locations[size_t(edge.target)].upper, sheet.clocks);
    return s;
}

Step delay_step(const Sheet &sheet, const Node &from, int code) {
    const Location &location = sheet.locations[size_t(from.location)];
    int top = 0, bottom = most_clocks;
    for (int j = 0; j < sheet.clocks; j++) {
        top = std::max(top, from.rank[j]);
        bottom = std::min(bottom, from.rank[j]);
    }
    Step s{false, from, 0, 0};
    if (code == unit_code) {
        s.to.corner = 0;
        s.cost = location.cost;
        s.reward = location.reward;
        s.allowed = bottom > 0 && from.corner == top;
        return s;
    }
    if (bottom == 0) {
        for (int j = 0; j < sheet.clocks; j++) s.to.rank[j]++;
        s.to.corner++;
    } else {
        if (from.corner == top) return s;
        for (int j = 0; j < sheet.clocks; j++) {
            if (from.rank[j] != top) continue;
            s.to.whole[j]++;
            s.to.rank[j] = 0;
        }
    }
    s.allowed = within(s.to, location.upper, sheet.clocks);
    return s;
}

} // namespace

uint64_t number_of(const Sheet &sheet, const Node &node) { return sheet.edition == 1 ? packed<1>(node) : packed<2>(node); }

Node node_of(const Sheet &sheet, uint64_t number) { return sheet.edition == 1 ? unpacked<1>(number) : unpacked<2>(number); }

Step step(const Sheet &sheet, const Node &from, int code) {
    if (code == unit_code || code == move_code) return delay_step(sheet, from, code);
    if (code < 0 || sheet.edges.size() <= size_t(code)) return {};
    return edge_step(sheet, from, sheet.edges[size_t(code)]);
}
