// Times graph::negative_cycle, linked from the static library of crate graph_bench, against the same loops in C++.
// The graphs are of 2,000 nodes: a cycle through all of them, which makes every node reachable, and random arcs, sorted by source.
// Each graph is searched with three weights; the answers and the buffers of both have to agree.
#include <algorithm>
#include <chrono>
#include <cmath>
#include <cstddef>
#include <cstdint>
#include <cstdio>
#include <cstdlib>
#include <cstring>
#include <random>
#include <vector>

// A slice crosses as a pointer and a count.
extern "C" size_t graph_bench_negative_cycle(const uint16_t *from, size_t froms, const uint16_t *to, size_t tos, const int16_t *cost,
                                             size_t costs, const uint16_t *reward, size_t rewards, int64_t a, int64_t b, int64_t c,
                                             size_t nodes, int64_t *potential, size_t potentials, size_t *cycle, size_t arcs);

struct Graph {
    std::vector<uint16_t> from, to, reward;
    std::vector<int16_t> cost;
};

struct Coefficients {
    int64_t a, b, c;
};

static bool well_formed(const Graph &g, Coefficients k, size_t nodes) {
    size_t m = g.from.size();
    if (nodes == 0 || nodes > 2048 || m > 69632 || g.to.size() != m || g.cost.size() != m || g.reward.size() != m) return false;
    if (k.a < -20480000 || k.a > 20480000 || k.b < -20480001 || k.b > 20480001 || k.c < -1 || k.c > 1) return false;
    for (size_t e = 0; e < m; e++)
        if (nodes <= g.from[e] || nodes <= g.to[e] || g.reward[e] > 10000 || g.cost[e] < -10000 || g.cost[e] > 10000) return false;
    return true;
}

// The same rounds, stamps and climbs.
static size_t search(const Graph &g, Coefficients k, size_t nodes, int64_t *potential, size_t *cycle) {
    if (!well_formed(g, k, nodes)) return 2049;
    const uint16_t *from = g.from.data(), *to = g.to.data(), *reward = g.reward.data();
    const int16_t *cost = g.cost.data();
    size_t m = g.from.size();
    int64_t dist[2048];
    size_t parent[2048] = {}, stamp[2048] = {}, order[2048];
    std::fill(dist, dist + 2048, int64_t(1) << 60);
    dist[0] = 0;
    stamp[0] = 131072;
    for (size_t b = 131072;; b += 131072) {
        size_t seen = 2048;
        for (size_t e = 0; e < m; e++) {
            size_t u = from[e];
            if (stamp[u] + 131072 <= b + e) continue;
            size_t v = to[e];
            int64_t x = dist[u] + (k.a * cost[e] + k.b * int64_t(reward[e]) + k.c);
            if (x < dist[v]) {
                dist[v] = x;
                parent[v] = e + 1;
                stamp[v] = b + e + 1;
                seen = v;
                if (x < -999999999999999) break;
            }
        }
        if (seen == 2048) {
            std::memcpy(potential, dist, nodes * sizeof *dist);
            return 0;
        }
        size_t mark[2048] = {}, x = seen, top = 2048;
        while (mark[x] == 0 && parent[x] != 0) {
            top--;
            mark[x] = top + 1;
            order[top] = parent[x] - 1;
            x = from[parent[x] - 1];
        }
        if (mark[x] != 0) {
            std::memcpy(cycle, order + top, (mark[x] - top) * sizeof *order);
            return mark[x] - top;
        }
    }
}

static Graph random_graph(size_t nodes, size_t arcs, unsigned seed) {
    std::mt19937 random(seed);
    std::vector<std::pair<uint16_t, uint16_t>> ends;
    for (size_t v = 0; v < nodes; v++) ends.push_back({uint16_t(v), uint16_t((v + 1) % nodes)});
    while (ends.size() < arcs) ends.push_back({uint16_t(random() % nodes), uint16_t(random() % nodes)});
    std::stable_sort(ends.begin(), ends.end(), [](auto x, auto y) { return x.first < y.first; });
    Graph g;
    for (auto e : ends) {
        g.from.push_back(e.first);
        g.to.push_back(e.second);
        g.cost.push_back(int16_t(random() % 20001) - 10000);
        g.reward.push_back(uint16_t(random() % 10000 + 1));
    }
    return g;
}

// The mean of repeated calls, in microseconds.
template <class F> static double mean(F f) {
    int calls = 0;
    double passed = 0;
    auto began = std::chrono::steady_clock::now();
    while (passed < 0.02) {
        f();
        calls++;
        passed = std::chrono::duration<double>(std::chrono::steady_clock::now() - began).count();
    }
    return passed / calls * 1e6;
}

// Prints a row; the ratio of the two times.
static double compare(const Graph &g, Coefficients k, size_t nodes) {
    std::vector<int64_t> p(2048, 7), q(2048, 7);
    std::vector<size_t> c(2048, 7), d(2048, 7);
    size_t m = g.from.size(), r = 0, s = 0;
    auto proved = [&] {
        r = graph_bench_negative_cycle(g.from.data(), m, g.to.data(), m, g.cost.data(), m, g.reward.data(), m, k.a, k.b, k.c, nodes, p.data(), 2048,
                                       c.data(), 2048);
    };
    auto plain = [&] { s = search(g, k, nodes, q.data(), d.data()); };
    // the least of 25 means each, taken by turns
    double ours = 1e30, theirs = 1e30;
    for (int turn = 0; turn < 25; turn++) {
        ours = std::min(ours, mean(proved));
        theirs = std::min(theirs, mean(plain));
    }
    if (r != s || p != q || c != d) {
        std::printf("the answers differ\n");
        std::exit(1);
    }
    char answer[32];
    if (r == 0) std::snprintf(answer, sizeof answer, "potentials");
    else std::snprintf(answer, sizeof answer, "cycle of %zu", r);
    std::printf("| %zu | (%d, %d, %d) | %s | %.0f | %.0f | %.2f |\n", m, int(k.a), int(k.b), int(k.c), answer, ours, theirs, ours / theirs);
    return ours / theirs;
}

static void print_mean(const std::vector<double> &ratios) {
    double sum = 0, squares = 0;
    for (double ratio : ratios) sum += std::log(ratio);
    double mean = sum / double(ratios.size());
    for (double ratio : ratios) squares += (std::log(ratio) - mean) * (std::log(ratio) - mean);
    double deviation = std::sqrt(squares / double(ratios.size() - 1));
    auto [least, largest] = std::minmax_element(ratios.begin(), ratios.end());
    std::printf("\n%zu rows: geometric mean %.2f, geometric standard deviation %.2f, %.2f to %.2f\n", ratios.size(), std::exp(mean),
                std::exp(deviation), *least, *largest);
}

// The argument is the first line: the date and the commit.
int main(int count, char **words) {
    const size_t nodes = 2000;
    std::vector<double> ratios;
    std::printf("%s\n\n", count > 1 ? words[1] : "");
    std::printf("| arcs | coefficients | answer | proved, µs | C++, µs | proved / C++ |\n|---|---|---|---|---|---|\n");
    for (size_t arcs : {2000, 4000, 8000, 16000, 30000, 60000}) {
        Graph g = random_graph(nodes, arcs, unsigned(arcs));
        ratios.push_back(compare(g, {1, 10000, 0}, nodes)); // no cycle is below the ratio -10000
        ratios.push_back(compare(g, {1, 0, 0}, nodes));     // a cycle of negative cost
        ratios.push_back(compare(g, {0, -1, 0}, nodes));    // a cycle that earns
    }
    print_mean(ratios);
}
