// Times the proved planner beside two in C++ on the same seeded sheets, prints tables and writes a plot.
#include <cstdio>
#include <cstdlib>
#include <map>
#include <string>

#include "make.hpp"
#include "measure.hpp"
#include "plot.hpp"
#include "summary.hpp"

namespace {

std::map<std::vector<uint8_t>, Row> rows; // by sheet: one that two tables have is measured once
Stack deepest;

void print_row(const Row &row, size_t reachable) {
    std::string nodes = std::to_string(reachable), arcs = std::to_string(row.plan.arcs), note;
    if (row.plan.refusal) arcs = "refused " + std::to_string(row.plan.refusal);
    if (row.plan.refusal == 12) nodes = "over 2048";
    else if (reachable == 0) nodes = "not explored";
    if (row.plan.refusal == 0 && std::string(row.plan.howard) != "least") note = std::string(", Boost's cycle: ") + row.plan.howard;
    if (!row.agree) note = ", THE ANSWERS DIFFER";
    int places = row.proved < 10 || row.cpp < 10; // of a short time
    std::printf("| %s | %s | %d | %.*f | %.*f | %.2f | %.*f | %.2f%s |\n", nodes.c_str(), arcs.c_str(), row.clocks, places, row.proved, places,
                row.cpp, row.proved / row.cpp, places, row.boost, row.proved / row.boost, note.c_str());
    std::fflush(stdout);
}

void head(const char *title) {
    std::printf("\n%s\n\n| nodes | arcs | clocks | proved, µs | C++, µs | proved / C++ | Boost, µs | proved / Boost |\n", title);
    std::printf("|---|---|---|---|---|---|---|---|\n");
}

Row run_row(const Made &made, const char *what) {
    if (made.bytes.empty()) {
        std::fprintf(stderr, "no seed gives %s\n", what);
        std::exit(2);
    }
    auto [place, fresh] = rows.try_emplace(made.bytes);
    if (fresh) place->second = measure(made.bytes, deepest);
    print_row(place->second, made.nodes);
    return place->second;
}

Panel grow_nodes(const char *title, Kind kind, const std::vector<unsigned> &counts) {
    Panel panel{std::string(title) + ", " + std::to_string(kind.clocks) + " clocks", "nodes", {}};
    for (unsigned n : counts) {
        Row row = run_row(make_sheet(kind, n), "the wanted nodes");
        panel.points.push_back({double(row.plan.nodes), row.proved, row.cpp, row.boost});
    }
    return panel;
}

Panel grow_arcs(int clocks) {
    Panel panel{"About 1,900 nodes, " + std::to_string(clocks) + " clocks", "arcs", {}};
    // locations, edges, least and most arcs a node
    const Kind kinds[] = {{clocks, 12, 32, 3.4, 4}, {clocks, 8, 32, 4, 5},    {clocks, 6, 32, 5, 6},
                          {clocks, 4, 32, 7, 9},    {clocks, 3, 32, 9, 12},   {clocks, 2, 32, 13, 17},
                          {clocks, 1, 21, 18, 22},  {clocks, 1, 26, 23, 27},  {clocks, 1, 32, 27, 30}};
    for (const Kind &kind : kinds) {
        Row row = run_row(make_sheet(kind, 1900), "the wanted arcs");
        panel.points.push_back({double(row.plan.arcs), row.proved, row.cpp, row.boost});
    }
    return panel;
}

// Accepted: beside the cycles that earn there is one that costs 1, or nothing, and earns nothing.
void run_idle(const Kind &sparse, const Kind &dense) {
    for (int cost : {1, 0}) {
        run_row(with_idle(make_sheet(sparse, 800), cost), "an idle cycle");
        run_row(with_idle(make_sheet(dense, 400), cost), "an idle cycle");
    }
}

void run_refused(const Kind &sparse, const Kind &dense) {
    const Kind few2{2, 12, 10, 0, 0}, few3{3, 12, 10, 0, 0};
    for (const Kind &kind : {few2, few3}) run_row(make_acyclic(kind, 400), "no cycle");
    run_row(with_idle(make_acyclic(few2, 400), -1), "only an idle cycle");
    run_row(with_idle(make_sheet(sparse, 800), -1), "an idle cycle that makes money");
    run_row(with_idle(make_sheet(dense, 400), -1), "an idle cycle that makes money");
    run_row(make_too_long(sparse, 1950), "a byte too many");
}

// Sheets of edition 2, accepted ones and ones with too many nodes.
void run_four_clocks() {
    const Kind sparse{4, 0, 0, 3.2, 3.8}, dense{4, 1, 32, 25, 30};
    for (unsigned n : {50, 100, 200, 400, 800, 1400, 1950}) run_row(make_sheet(sparse, n), "the wanted nodes");
    for (unsigned n : {800, 1400, 1900}) run_row(make_sheet(dense, n), "the wanted nodes");
    for (const Kind &kind : {sparse, dense}) run_row(make_overfull(kind), "too many nodes");
}

size_t kilobytes(size_t bytes) { return (bytes + 1023) / 1024; }

// Whether the answers agree and the stack is no deeper than it may be.
bool good() {
    bool agree = true;
    for (const auto &[sheet, row] : rows) agree = agree && row.agree;
    if (!agree) std::printf("The answers of the planners differ.\n");
    std::printf("\nPeak stack: planner_plan %zu KB, planner_step %zu KB, planner_check %zu KB; each has to stay under 2048 KB.\n",
                kilobytes(deepest.plan), kilobytes(deepest.step), kilobytes(deepest.check));
    return agree && deepest.plan < (2u << 20) && deepest.step < (2u << 20) && deepest.check < (2u << 20);
}

} // namespace

int main(int count, char **words) {
    if (count != 3) {
        std::fprintf(stderr, "usage: %s PLOT.svg WHEN\n", words[0]);
        return 2;
    }
    std::printf("%s\n", words[2]);
    const Kind sparse1{1, 0, 0, 3.2, 3.8}, sparse2{2, 0, 0, 3.2, 3.8}, sparse3{3, 0, 0, 3.2, 3.8};
    const Kind dense2{2, 1, 32, 25, 30}, dense3{3, 1, 32, 25, 30};
    head("Bench");
    run_row(make_bench(), "Bench");
    head("Growth in nodes, about 3.5 arcs a node");
    grow_nodes("sparse", sparse1, {50, 100, 200, 400});
    grow_nodes("sparse", sparse2, {50, 100, 200, 400, 800, 1400, 1950});
    Panel nodes = grow_nodes("About 3.5 arcs a node", sparse3, {50, 100, 200, 400, 800, 1400, 1950});
    head("Growth in nodes, 25 to 30 arcs a node");
    grow_nodes("dense", dense2, {50, 100, 200, 400, 800, 1400, 1900});
    grow_nodes("dense", dense3, {100, 200, 400, 800, 1400, 1900});
    head("Growth in arcs, about 1,900 nodes");
    Panel arcs = grow_arcs(2);
    grow_arcs(3);
    head("More nodes than a plan may have");
    for (const Kind &kind : {sparse2, sparse3, dense3}) run_row(make_overfull(kind), "too many nodes");
    const Kind room3{3, 1, 31, 25, 30}; // for an edge more
    head("A cycle without reward that costs 1, or nothing");
    run_idle(sparse2, room3);
    head("No cycle that earns, a cycle without reward that makes money, a byte too many");
    run_refused(sparse2, room3);
    head("Four clocks");
    run_four_clocks();
    std::vector<Row> all;
    for (const auto &[sheet, row] : rows) all.push_back(row);
    print_summary(all, "C++", &Row::cpp);
    print_summary(all, "Boost", &Row::boost);
    if (!write_plot(words[1], {nodes, arcs})) {
        std::fprintf(stderr, "cannot write %s\n", words[1]);
        return 2;
    }
    return good() ? 0 : 1;
}
