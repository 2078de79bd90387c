#include "sheet.hpp"

#include <cstring>

namespace {

struct Reader {
    const uint8_t *bytes;
    size_t length, at;

    bool has(size_t count) const { return count <= length - at; }
    int byte() { return bytes[at++]; }
    int word() {
        int low = byte();
        return low | byte() << 8;
    }
    int signed_word() {
        int w = word();
        return w < 32768 ? w : w - 65536;
    }
};

// Bits of clocks 0 to K - 1 from a first bit on.
int clock_bits(int first, int clocks) { return ((1 << clocks) - 1) << first; }

// The bytes that the map's fields take: two for cost and reward, one for each other.
size_t field_bytes(int map) { return size_t(__builtin_popcount(unsigned(map)) + __builtin_popcount(unsigned(map & 3))); }

// Cost and reward, bits 0 and 1 of both kinds of map.
bool read_prices(Reader &r, int map, int &cost, int &reward) {
    bool good = true;
    if (map & 1) {
        cost = r.signed_word();
        good = cost != 0 && -10000 <= cost && cost <= 10000;
    }
    if (map & 2) {
        reward = r.word();
        good = good && 1 <= reward && reward <= 10000;
    }
    return good;
}

// A byte for each clock whose bit is set, from the map's bit `first` on.
bool read_bytes(Reader &r, int map, int first, int least, int clocks, Clocks &values) {
    bool good = true;
    for (int j = 0; j < clocks; j++) {
        if (!(map >> (first + j) & 1)) continue;
        values[j] = r.byte();
        good = good && least <= values[j] && values[j] <= 25;
    }
    return good;
}

int read_location(Reader &r, int clocks, Location &location) {
    if (!r.has(1)) return 5;
    int map = r.byte(), bounds = clock_bits(2, clocks);
    if (map & ~(3 | bounds)) return 6;
    if (!r.has(field_bytes(map))) return 5;
    if ((map & bounds) != bounds) return 7;
    bool good = read_prices(r, map, location.cost, location.reward);
    good = read_bytes(r, map, 2, 0, clocks, location.upper) && good;
    return good ? 0 : 8;
}

int read_edge(Reader &r, const Sheet &sheet, Edge &edge) {
    if (!r.has(2)) return 5;
    int map = r.word(), clocks = sheet.clocks, uppers = 3 + edition_of(sheet.edition).clocks;
    if (map & ~(7 | clock_bits(3, clocks) | clock_bits(uppers, clocks))) return 6;
    if (!r.has(2 + field_bytes(map))) return 5;
    edge.source = r.byte();
    edge.target = r.byte();
    bool good = read_prices(r, map, edge.cost, edge.reward);
    if (map & 4) {
        edge.mask = r.byte();
        good = good && 1 <= edge.mask && edge.mask < 1 << clocks;
    }
    good = read_bytes(r, map, 3, 1, clocks, edge.lower) && good;
    good = read_bytes(r, map, uppers, 0, clocks, edge.upper) && good;
    if (!good) return 8;
    int locations = int(sheet.locations.size());
    return edge.source < locations && edge.target < locations ? 0 : 9;
}

struct Record {
    const uint8_t *bytes;
    size_t length;
};

bool some_equal(const std::vector<Record> &records) {
    for (size_t i = 1; i < records.size(); i++)
        for (size_t j = 0; j < i; j++)
            if (records[i].length == records[j].length && std::memcmp(records[i].bytes, records[j].bytes, records[i].length) == 0) return true;
    return false;
}

} // namespace

int read_sheet(const uint8_t *bytes, size_t length, Sheet &sheet) {
    if (length < 4 || 656 < length) return 2;
    Reader r{bytes, length, 0};
    sheet.edition = r.byte();
    if (sheet.edition < 1 || 2 < sheet.edition) return 3;
    int locations = r.byte(), clocks = r.byte(), edges = r.byte();
    if (locations < 1 || 12 < locations || clocks < 1 || edition_of(sheet.edition).clocks < clocks || 32 < edges) return 4;
    sheet.clocks = clocks;
    sheet.locations.assign(size_t(locations), {});
    sheet.edges.assign(size_t(edges), {});
    for (Location &location : sheet.locations)
        if (int refusal = read_location(r, clocks, location)) return refusal;
    std::vector<Record> records;
    records.reserve(sheet.edges.size());
    for (Edge &edge : sheet.edges) {
        size_t began = r.at;
        if (int refusal = read_edge(r, sheet, edge)) return refusal;
        records.push_back({bytes + began, r.at - began});
    }
    if (r.at != length) return 10;
    if (some_equal(records)) return 17;
    for (int j = 0; j < clocks; j++)
        if (sheet.locations[0].upper[j] == 0) return 11;
    return 0;
}
