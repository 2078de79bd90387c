/* The exported functions with a lie each, told where the variable LIE names it. */
#include "../../bindings/planner.h"
#include <stdlib.h>
#include <string.h>

uint8_t true_planner_check(const uint8_t *sheet, size_t sheet_length);
uint8_t true_planner_step(const uint8_t *sheet, size_t sheet_length, uint64_t node, uint16_t code, uint64_t *number,
                          int64_t *cost, int64_t *reward, int64_t *units);
uint8_t true_planner_plan(const uint8_t *sheet, size_t sheet_length, uint64_t *nodes, size_t nodes_length,
                          int64_t *potentials, size_t potentials_length, uint16_t *steps, size_t steps_length,
                          int64_t *p, int64_t *q, int64_t *n, int64_t *s, int64_t *m, int64_t *units, int64_t *cost,
                          int64_t *reward);
uint8_t true_planner_work(const uint8_t *sheet, size_t sheet_length, uint16_t *waits, size_t waits_length,
                          uint16_t *edges, size_t edges_length, int64_t *stem, int64_t *cycle);

static int lies(const char *name) {
    const char *lie = getenv("LIE");
    return lie != NULL && strcmp(lie, name) == 0;
}

uint8_t planner_check(const uint8_t *sheet, size_t sheet_length) {
    return lies("sound") ? 8 : true_planner_check(sheet, sheet_length);
}

uint8_t planner_step(const uint8_t *sheet, size_t sheet_length, uint64_t node, uint16_t code, uint64_t *number,
                     int64_t *cost, int64_t *reward, int64_t *units) {
    uint8_t refusal = true_planner_step(sheet, sheet_length, node, code, number, cost, reward, units);
    if (refusal == 0 && lies("price"))
        *cost += 1;
    if (refusal == 0 && code == PLANNER_MOVE && lies("move"))
        *units = 1;
    return refusal;
}

/* The smallest potential, wherever it stands, one lower. */
static void lower_smallest(int64_t *potentials, int64_t n) {
    int64_t smallest = potentials[0];
    for (int64_t i = 0; i < n; i++)
        smallest = potentials[i] < smallest ? potentials[i] : smallest;
    for (int64_t i = 0; i < n; i++)
        potentials[i] -= potentials[i] == smallest;
}

uint8_t planner_plan(const uint8_t *sheet, size_t sheet_length, uint64_t *nodes, size_t nodes_length,
                     int64_t *potentials, size_t potentials_length, uint16_t *steps, size_t steps_length, int64_t *p,
                     int64_t *q, int64_t *n, int64_t *s, int64_t *m, int64_t *units, int64_t *cost, int64_t *reward) {
    uint8_t refusal = true_planner_plan(sheet, sheet_length, nodes, nodes_length, potentials, potentials_length, steps,
                                        steps_length, p, q, n, s, m, units, cost, reward);
    if (lies("check"))
        return 5;
    if (lies("number"))
        return 14;
    if (refusal != 0)
        return refusal;
    if (lies("ratio"))
        *p += 1;
    if (lies("step"))
        steps[0] = 0;
    if (lies("nodes"))
        *n = 1;
    if (lies("units"))
        *units += 1;
    if (lies("reduced"))
        *cost = *p;
    if (lies("earned"))
        *reward = *q;
    if (lies("smallest"))
        lower_smallest(potentials, *n);
    if (lies("potentials"))
        for (int64_t i = 0; i < *n; i++)
            potentials[i] -= 1;
    return refusal;
}

uint8_t planner_work(const uint8_t *sheet, size_t sheet_length, uint16_t *waits, size_t waits_length, uint16_t *edges,
                     size_t edges_length, int64_t *stem, int64_t *cycle) {
    uint8_t refusal = true_planner_work(sheet, sheet_length, waits, waits_length, edges, edges_length, stem, cycle);
    if (lies("strict"))
        return 18;
    if (refusal == 0 && lies("wait"))
        waits[*stem] += 1;
    if (refusal == 0 && lies("twice")) {
        memcpy(waits + *stem + *cycle, waits + *stem, (size_t)*cycle * sizeof *waits);
        memcpy(edges + *stem + *cycle, edges + *stem, (size_t)*cycle * sizeof *edges);
        *cycle *= 2;
    }
    return refusal;
}
