/* Calls each function of planner.h, as C99 and as C++: Bench, and refusals, with what each writes and what it leaves alone. */
#include "planner.h"

#include <stdio.h>
#include <stdlib.h>

#define EXPECT(holds)                                                                              \
    do {                                                                                           \
        if (!(holds)) {                                                                            \
            fprintf(stderr, "FAILED %s:%d: %s\n", __FILE__, __LINE__, #holds);                     \
            exit(1);                                                                               \
        }                                                                                          \
    } while (0)

enum { LONGER = PLANNER_LEAST_ENTRIES + 100, MARK = 77 };

/* One location, clock <= 2, rate 1; one edge, clock >= 1, reset, cost 5, reward 2. */
static const uint8_t bench[18] = {1, 1, 1, 1, 5, 1, 0, 5, 15, 0, 0, 0, 5, 0, 2, 0, 1, 2};
/* Bench without its edge: no cycle. */
static const uint8_t no_edge[8] = {1, 1, 1, 0, 5, 1, 0, 5};
/* Bench and a second edge without reward, which costs 1, or -1. */
static const uint8_t idle_costs[24] = {1, 1, 1, 2, 5, 1, 0, 5, 15, 0, 0, 0, 5, 0, 2, 0, 1, 2, 1, 0, 0, 0, 1, 0};
static const uint8_t idle_gains[24] = {1, 1, 1, 2, 5, 1, 0, 5, 15, 0, 0, 0, 5, 0, 2, 0, 1, 2, 1, 0, 0, 0, 255, 255};

/* Bench with its edge entered twice, and with a second edge that differs in its reward. */
static const uint8_t edge_twice[28] = {1, 1, 1, 2, 5, 1, 0, 5, 15, 0, 0, 0, 5, 0, 2, 0, 1, 2, 15, 0, 0, 0, 5, 0, 2, 0, 1, 2};
static const uint8_t two_edges[28] = {1, 1, 1, 2, 5, 1, 0, 5, 15, 0, 0, 0, 5, 0, 2, 0, 1, 2, 15, 0, 0, 0, 5, 0, 3, 0, 1, 2};

/* Bench with clock < 2, with clock > 1, and with clock < 1, which leaves no cycle. */
static const uint8_t strict_bound[18] = {1, 1, 1, 1, 5, 1, 0, 4, 15, 0, 0, 0, 5, 0, 2, 0, 1, 2};
static const uint8_t strict_guard[18] = {1, 1, 1, 1, 5, 1, 0, 5, 15, 0, 0, 0, 5, 0, 2, 0, 1, 3};
static const uint8_t strict_no_cycle[18] = {1, 1, 1, 1, 5, 1, 0, 2, 15, 0, 0, 0, 5, 0, 2, 0, 1, 2};
/* Two locations in turn: edge 0 leaves the first after 1 unit, edge 1 the second after 2, and to wait longer costs more. */
static const uint8_t in_turn[26] = {1, 2, 1, 2, 5, 1, 0, 5, 5, 2, 0, 7, 12, 0, 0, 1, 1, 2, 14, 0, 1, 0, 3, 0, 1, 4};
/* Edition 2: three locations in a ring, rates 1 to 3, four clocks <= 1; edge 0 asks clock 3 for 1 and resets all, edge 2 earns 2. */
static const uint8_t four_clocks[42] = {2, 3, 4, 3, 61, 1, 0, 3, 3, 3, 3, 61, 2, 0, 3, 3, 3, 3, 61, 3, 0, 3, 3, 3, 3,
                                        68, 4, 0, 1, 15, 2, 3, 0, 0, 1, 2, 2, 0, 2, 0, 2, 0};

static uint64_t nodes[LONGER];
static int64_t potentials[LONGER];
static uint16_t steps[LONGER];
static int64_t p, q, n, s, m, units, cost, reward;
static uint16_t waits[LONGER], edges[LONGER];
static int64_t stem, cycle;

/* Plans with a mark in every entry and every number. */
static uint8_t plan(const uint8_t *sheet, size_t length, size_t entries) {
    for (size_t i = 0; i < LONGER; i++) {
        nodes[i] = MARK;
        potentials[i] = MARK;
        steps[i] = MARK;
    }
    p = q = n = s = m = units = cost = reward = MARK;
    return planner_plan(sheet, length, nodes, entries, potentials, LONGER, steps, LONGER, &p, &q, &n, &s, &m, &units, &cost, &reward);
}

/* Whether all three buffers hold the entry, but for a given number of entries at their front. */
static int hold(uint64_t entry, size_t node_count, size_t step_count) {
    for (size_t i = 0; i < LONGER; i++) {
        if (i >= node_count && (nodes[i] != entry || potentials[i] != (int64_t)entry)) return 0;
        if (i >= step_count && steps[i] != entry) return 0;
    }
    return 1;
}

static int all_zero(void) {
    return p == 0 && q == 0 && n == 0 && s == 0 && m == 0 && units == 0 && cost == 0 && reward == 0;
}

static void accepted(void) {
    EXPECT(plan(idle_costs, sizeof idle_costs, LONGER) == 0 && p == 3 && q == 1 && n == 7);
    EXPECT(plan(two_edges, sizeof two_edges, LONGER) == 0 && p == 2 && q == 1 && n == 7);
    EXPECT(plan(bench, sizeof bench, LONGER) == 0);
    EXPECT(p == 3 && q == 1 && n == 7 && s >= 0 && m >= 1 && s + m <= n);
    EXPECT(units == 1 && cost == 6 && reward == 2);
    EXPECT(hold(0, (size_t)n, (size_t)(s + m)));
    for (int64_t i = 1; i < n; i++) EXPECT(nodes[i - 1] < nodes[i]);
}

/* The numbers of a step. */
static uint64_t number;
static int64_t step_cost, step_reward, step_units;

/* Steps with a mark in every number. */
static uint8_t step(const uint8_t *sheet, size_t length, uint64_t node, uint16_t code) {
    number = MARK;
    step_cost = step_reward = step_units = MARK;
    return planner_step(sheet, length, node, code, &number, &step_cost, &step_reward, &step_units);
}

/* Whether the step gave this node's number, and 0 for the other three. */
static int only(uint64_t node) { return number == node && step_cost == 0 && step_reward == 0 && step_units == 0; }

/* The lasso of the plan before, walked by single steps. */
static void walked(void) {
    uint64_t node = 0, knot = 0;
    int64_t taken = 0, costs = 0, rewards = 0;
    for (int64_t i = 0; i < s + m; i++) {
        if (i == s) knot = node;
        EXPECT(step(bench, sizeof bench, node, steps[i]) == 0);
        EXPECT(step_units == (steps[i] == PLANNER_UNIT));
        node = number;
        if (i >= s) {
            taken += step_units;
            costs += step_cost;
            rewards += step_reward;
        }
    }
    EXPECT(node == knot && q * costs == p * rewards && rewards > 0);
    EXPECT(units == taken && cost == costs && reward == rewards);
}

static void refused(void) {
    EXPECT(plan(bench, sizeof bench, PLANNER_LEAST_ENTRIES - 1) == 1 && all_zero() && hold(MARK, 0, 0));
    EXPECT(plan(bench, sizeof bench - 1, LONGER) == 5 && all_zero() && hold(MARK, 0, 0));
    EXPECT(plan(no_edge, sizeof no_edge, LONGER) == 13 && all_zero() && hold(0, 0, 0));
    EXPECT(plan(idle_gains, sizeof idle_gains, LONGER) == 14 && all_zero() && hold(0, 0, 0));
    EXPECT(planner_check(bench, sizeof bench) == 0 && planner_check(bench, 0) == 2);
    EXPECT(step(bench, sizeof bench, 0, PLANNER_MOVE) == 0 && only(5));
    EXPECT(step(bench, sizeof bench, 0, PLANNER_UNIT) == 16 && only(0));
}

/* No buffer is written to, and every number is. */
static void refused_twice(void) {
    EXPECT(planner_check(edge_twice, sizeof edge_twice) == 17);
    EXPECT(step(edge_twice, sizeof edge_twice, 0, PLANNER_MOVE) == 17 && only(0));
    EXPECT(plan(edge_twice, sizeof edge_twice, LONGER) == 17 && all_zero() && hold(MARK, 0, 0));
    EXPECT(plan(edge_twice, sizeof edge_twice, PLANNER_LEAST_ENTRIES - 1) == 1 && all_zero() && hold(MARK, 0, 0));
}

/* A work plan with a mark in every entry and every number. */
static uint8_t work(const uint8_t *sheet, size_t length, size_t wait_entries, size_t edge_entries) {
    for (size_t i = 0; i < LONGER; i++) waits[i] = edges[i] = MARK;
    stem = cycle = MARK;
    return planner_work(sheet, length, waits, wait_entries, edges, edge_entries, &stem, &cycle);
}

/* Whether both buffers hold the entry, but for a given number of entries at their front. */
static int pairs_hold(uint16_t entry, size_t count) {
    for (size_t i = count; i < LONGER; i++)
        if (waits[i] != entry || edges[i] != entry) return 0;
    return 1;
}

static int no_pairs(uint16_t entry) { return stem == 0 && cycle == 0 && pairs_hold(entry, 0); }

static int pair_is(size_t at, uint16_t wait, uint16_t edge) { return waits[at] == wait && edges[at] == edge; }

static void work_refused(void) {
    const size_t least = PLANNER_LEAST_PAIRS;
    EXPECT(work(bench, sizeof bench, least - 1, LONGER) == 1 && no_pairs(MARK));
    EXPECT(work(bench, sizeof bench, LONGER, least - 1) == 1 && no_pairs(MARK));
    EXPECT(work(bench, 0, LONGER, least - 1) == 1 && no_pairs(MARK));
    EXPECT(work(bench, sizeof bench - 1, LONGER, LONGER) == 5 && no_pairs(MARK));
    EXPECT(work(edge_twice, sizeof edge_twice, LONGER, LONGER) == 17 && no_pairs(MARK));
    EXPECT(work(no_edge, sizeof no_edge, LONGER, LONGER) == 13 && no_pairs(0));
    EXPECT(work(strict_no_cycle, sizeof strict_no_cycle, LONGER, LONGER) == 13 && no_pairs(0));
    EXPECT(work(idle_gains, sizeof idle_gains, LONGER, LONGER) == 14 && no_pairs(0));
    EXPECT(work(strict_bound, sizeof strict_bound, LONGER, LONGER) == 18 && no_pairs(0));
    EXPECT(work(strict_guard, sizeof strict_guard, LONGER, LONGER) == 18 && no_pairs(0));
    EXPECT(plan(strict_bound, sizeof strict_bound, LONGER) == 0 && p == 3 && q == 1 && n == 6);
}

static void worked(void) {
    EXPECT(work(bench, sizeof bench, PLANNER_LEAST_PAIRS, PLANNER_LEAST_PAIRS) == 0);
    EXPECT(work(bench, sizeof bench, LONGER, LONGER) == 0 && stem == 1 && cycle == 1 && pairs_hold(0, 2));
    EXPECT(pair_is(0, 1, 0) && pair_is(1, 1, 0));
    EXPECT(work(in_turn, sizeof in_turn, LONGER, LONGER) == 0 && stem == 1 && cycle == 2 && pairs_hold(0, 3));
    EXPECT(pair_is(0, 1, 0) && pair_is(1, 2, 1) && pair_is(2, 1, 0));
}

/* Node numbers above 2^32, as an argument, as an answer and in the list. */
static void wide_numbers(void) {
    const uint64_t second = (uint64_t)1 << 31, third = (uint64_t)2 << 31, inside = 16909321, end = 135274560;
    const uint64_t apart[4] = {0, inside - 1, inside, end};
    const size_t length = sizeof four_clocks;
    EXPECT(step(four_clocks, length, second, 1) == 0 && only(third));
    EXPECT(step(four_clocks, length, third, PLANNER_MOVE) == 0 && only(third + inside));
    EXPECT(step(four_clocks, length, third + inside, PLANNER_UNIT) == 0);
    EXPECT(number == third + inside - 1 && step_cost == 3 && step_reward == 0 && step_units == 1);
    for (int bit = 35; bit < 64; bit++)
        EXPECT(step(four_clocks, length, third | (uint64_t)1 << bit, PLANNER_MOVE) == 15 && only(0));
    EXPECT(plan(four_clocks, length, LONGER) == 0 && p == 1 && q == 2 && n == 12 && hold(0, 12, (size_t)(s + m)));
    for (size_t i = 0; i < 12; i++) EXPECT(nodes[i] == (i < 4 ? 0 : i < 8 ? second : third) + apart[i % 4]);
}

int main(void) {
    work_refused();
    worked();
    wide_numbers();
    refused();
    refused_twice();
    accepted();
    walked();
    printf("ratio %ld %ld\nnodes %ld\n", (long)p, (long)q, (long)n);
    return 0;
}
