/*
 * The proved planner for double-priced timed sheets, for C (C99 and later) and C++.
 *
 * A sheet is a small timed automaton written as bytes. planner_check tells whether bytes are a
 * sheet, planner_step takes one step of it, planner_plan finds the least cost per reward of a cycle
 * of corner points that earns, which no repeating schedule undercuts that waits in fractions of a
 * unit, and a lasso whose cycle has it, and planner_work makes of such a lasso a schedule that waits
 * in whole units. docs/SHEET.md says what these are. The functions are those of
 * crates/exports/src/lib.rt, whose contracts are proved; this file only declares them.
 *
 * LINKING
 *   `rt lib --cpu x86-64` in crates/exports proves the planner and writes
 *   crates/exports/out/libexports.a, for x86-64 Linux. It takes memset and memcpy from the C
 *   library, and nothing else:
 *       cc -Ibindings program.c crates/exports/out/libexports.a
 *
 * WHAT A CALL NEEDS
 *   - A slice crosses as a pointer and a count of entries (not of bytes).
 *   - No pointer is null, not even one with a count of 0. Each is aligned for its type, and valid
 *     for as many entries as its count says, or for one number: the sheet for reading, all else for
 *     writing.
 *   - What one pointer lends overlaps with nothing that another lends.
 *   - During the call nothing else writes to the sheet, and nothing else reads or writes the rest.
 *     No pointer is kept after the call: there is nothing to release.
 *   These, and room on the stack (below), are all the conditions: every sheet, node, code and count
 *   is answered, and every call returns.
 *
 * WHAT A CALL GIVES
 *   The result is 0, or the refusal: the number of the first question, from the table below, that
 *   is answered no. Each call writes each of its numbers, whatever was there before; where it
 *   refuses, they are all 0.
 *
 *     refusal  question answered no                                     check  step  plan  work
 *        1     Has each buffer at least 2,048 entries, those of a work                x     x
 *              plan 2,049?
 *        2     Is the length 4 to 656?                                    x      x    x     x
 *        3     Is the edition 1 or 2?                                     x      x    x     x
 *        4     Are the counts of locations (1 to 12), clocks (1 to 3,     x      x    x     x
 *              in edition 2 to 4) and edges (0 to 32) in range?
 *        5     Are the bytes of each record there?                        x      x    x     x
 *        6     Are only permitted bits set in each record's map?          x      x    x     x
 *        7     Does a bound stand for each clock of each location?        x      x    x     x
 *        8     Is each field in range?                                    x      x    x     x
 *        9     Are source and target of each edge locations?              x      x    x     x
 *       10     Has every byte been used?                                  x      x    x     x
 *       17     Is each edge entered once, no two records being equal in   x      x    x     x
 *              every byte?
 *       11     Do the bounds of location 0 admit all clocks at 0?         x      x    x     x
 *       12     Are at most 2,048 nodes reachable?                                     x     x
 *       13     Is a cycle with reward above 0 reachable?                              x     x
 *       14     Does every reachable cycle without reward cost 0 or more?              x     x
 *       18     Is no bound and no guard strict?                                             x
 *       15     Is the number that of a node of this sheet?                       x
 *       16     Is the code allowed there?                                        x
 *
 *   Questions 5 to 9 are asked of each record in turn; 17 is asked after 10 and before 11, and 18
 *   after 14.
 *
 * STACK AND THREADS
 *   The functions allocate nothing; their room is the caller's stack. As bench/plan/run measured it,
 *   planner_work took 915 KB, planner_plan 878 KB, planner_step 5 KB and planner_check 2 KB at most;
 *   it fails where one takes 2 MB. So a thread that plans does with a stack of 2 MB.
 *   They have no state, global or kept from call to call: threads may call them at the same time,
 *   each with memory of its own to write to. They do no input or output and set no errno.
 */
#ifndef PLANNER_H
#define PLANNER_H

#include <stddef.h>
#include <stdint.h>

#ifdef __cplusplus
extern "C" {
#endif

enum {
    PLANNER_LONGEST_SHEET = 656, /* bytes; a longer one is refused with 2 */
    PLANNER_LEAST_ENTRIES = 2048, /* of each buffer of a plan; a shorter one is refused with 1 */
    PLANNER_LEAST_PAIRS = 2049, /* of each buffer of a work plan; a shorter one is refused with 1 */
    PLANNER_UNIT = 32, /* the code of one unit of delay; 0 to 31 are the sheet's edges */
    PLANNER_MOVE = 33 /* the code of a region move */
};

/*
 * Checks a sheet: questions 2 to 11 and 17.
 *
 * sheet, sheet_length  the bytes; only read
 */
uint8_t planner_check(const uint8_t *sheet, size_t sheet_length);

/*
 * Takes one step from a node of a sheet: questions 2 to 11 and 17, then 15 and 16.
 *
 * sheet, sheet_length  the bytes; only read
 * node                 the number of the node to step from; the start is node 0
 * code                 0 to 31 for an edge, PLANNER_UNIT or PLANNER_MOVE
 * number               gets the number of the node that the step leads to
 * cost, reward         get what the step costs and earns
 * units                gets the units of time that it takes: 1 for PLANNER_UNIT, 0 for any other
 */
uint8_t planner_step(const uint8_t *sheet, size_t sheet_length, uint64_t node, uint16_t code,
                     uint64_t *number, int64_t *cost, int64_t *reward, int64_t *units);

/*
 * Plans a sheet: questions 1 to 14 and 17.
 *
 * sheet, sheet_length              the bytes; only read
 * nodes, nodes_length              a buffer: gets the numbers of the reachable nodes, rising
 * potentials, potentials_length    a buffer: gets their potentials, in the same order
 * steps, steps_length              a buffer: gets the codes of a lasso, its stem and then its cycle
 * p, q                             get the ratio p / q, in lowest terms with q >= 1
 * n                                gets the count of reachable nodes
 * s, m                             get the lengths of stem and cycle; m >= 1 and s + m <= n
 * units, cost, reward              get what that cycle takes, costs and earns: the sums of what
 *                                  planner_step gives along it, so that cost * q == reward * p
 *
 * The least ratio of cost over reward of a cycle that earns is p / q; the lasso goes from the start,
 * and its cycle earns and has that ratio. The potential of a node is the least weight of a walk to
 * it from the start, where a step weighs q times its cost minus p times its reward. No run weighs
 * less than the smallest of the n potentials, wherever it breaks off and in whatever fractions of a
 * unit it waits: q times its cost minus p times its reward is at least that, which is 0 or less.
 *
 * What stands in the buffers afterwards:
 *     accepted (0)      n entries of nodes and potentials, s + m of steps, and 0 from there to the end
 *     refused, 1-11, 17 what stood there before: nothing is written to a buffer
 *     refused, 12-14    0 in every entry of all three
 */
uint8_t planner_plan(const uint8_t *sheet, size_t sheet_length, uint64_t *nodes,
                     size_t nodes_length, int64_t *potentials, size_t potentials_length,
                     uint16_t *steps, size_t steps_length, int64_t *p, int64_t *q, int64_t *n,
                     int64_t *s, int64_t *m, int64_t *units, int64_t *cost, int64_t *reward);

/*
 * Plans a sheet in whole units: questions 1 to 14, 17 and 18.
 *
 * sheet, sheet_length    the bytes; only read
 * waits, waits_length    a buffer: gets the whole units to wait of each pair
 * edges, edges_length    a buffer: gets the number of the edge to take then, in the same order
 * stem, cycle            get how many pairs the stem and the cycle have; each has at least one, and
 *                        both together at most 2,049
 *
 * The pairs of the stem stand first, then those of the cycle. They are the pairs of a lasso as
 * planner_plan answers one, turned so that the cycle starts just after its first edge, the stem
 * growing by that part: so both end with the same edge. Taken from the start, the stem and then the
 * cycle keep every bound and every guard; the cycle comes back to the same location and the same
 * clocks, so that it may be repeated for ever; it earns, and its cost over its reward is exactly
 * the least ratio p / q of the sheet.
 *
 * What stands in the buffers afterwards:
 *     accepted (0)            stem + cycle entries of both, and 0 from there to the end
 *     refused, 1-11, 17       what stood there before: nothing is written to a buffer
 *     refused, 12-14, 18      0 in every entry of both
 */
uint8_t planner_work(const uint8_t *sheet, size_t sheet_length, uint16_t *waits,
                     size_t waits_length, uint16_t *edges, size_t edges_length, int64_t *stem,
                     int64_t *cycle);

#ifdef __cplusplus
}
#endif

#endif
