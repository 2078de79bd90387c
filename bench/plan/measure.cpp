#include "measure.hpp"

#include <algorithm>
#include <chrono>
#include <planner.h>

#include "region.hpp"
#include "stack.hpp"

namespace {

struct Answer {
    int refusal = 0;
    int64_t p = 0, q = 0, n = 0, s = 0, m = 0, units = 0, cost = 0, reward = 0;
    Buffers buffers;
};

void call_proved(const std::vector<uint8_t> &bytes, Answer &a) {
    Buffers &b = a.buffers;
    a.refusal = planner_plan(bytes.data(), bytes.size(), b.nodes.data(), b.nodes.size(), b.potentials.data(), b.potentials.size(),
                             b.steps.data(), b.steps.size(), &a.p, &a.q, &a.n, &a.s, &a.m, &a.units, &a.cost, &a.reward);
}

bool same(const Answer &a, const Plan &b, const Buffers &buffers) {
    return a.refusal == b.refusal && a.p == b.p && a.q == b.q && a.n == int64_t(b.nodes) && a.buffers.nodes == buffers.nodes &&
           a.buffers.potentials == buffers.potentials;
}

// Whether the lasso is a walk whose cycle takes, costs and earns what the plan tells; where it is refused, each is 0.
bool adds_up(const std::vector<uint8_t> &bytes, const Answer &a) {
    Sheet sheet;
    Node node;
    int64_t length = a.refusal == 0 ? a.s + a.m : 0, units = 0, cost = 0, reward = 0;
    read_sheet(bytes.data(), bytes.size(), sheet);
    for (int64_t at = 0; at < length; at++) {
        int code = a.buffers.steps[size_t(at)];
        Step taken = step(sheet, node, code);
        if (!taken.allowed) return false;
        node = taken.to;
        if (at < a.s) continue;
        units += code == unit_code;
        cost += taken.cost;
        reward += taken.reward;
    }
    return a.units == units && a.cost == cost && a.reward == reward;
}

template <class Call> double microseconds(Call call) {
    auto began = std::chrono::steady_clock::now();
    call();
    return std::chrono::duration<double, std::micro>(std::chrono::steady_clock::now() - began).count();
}

void deepen(size_t &deepest, const std::function<void()> &call) { deepest = std::max(deepest, stack_of(call)); }

// The plan, the check, and every code from the first nodes of the plan.
void measure_stack(const std::vector<uint8_t> &bytes, Answer &answer, Stack &deepest) {
    deepen(deepest.plan, [&] { call_proved(bytes, answer); });
    deepen(deepest.check, [&] { planner_check(bytes.data(), bytes.size()); });
    deepen(deepest.step, [&] {
        uint64_t number;
        int64_t cost, reward, units;
        for (size_t at = 0; at < 50; at++)
            for (uint16_t code = 0; code <= PLANNER_MOVE; code++)
                planner_step(bytes.data(), bytes.size(), answer.buffers.nodes[at], code, &number, &cost, &reward, &units);
    });
}

} // namespace

// All by turns, 40 times and until 0.3 s are spent, at most 1,000 times.
Row measure(const std::vector<uint8_t> &bytes, Stack &deepest) {
    Row row;
    Answer answer;
    Plan searched;
    Buffers buffers, others;
    double spent = 0;
    for (int turn = 0; turn < 40 || (turn < 1000 && spent < 3e5); turn++) {
        double proved = microseconds([&] { call_proved(bytes, answer); });
        double cpp = microseconds([&] { searched = plan(bytes.data(), bytes.size(), Begin::above, buffers); });
        double boost = microseconds([&] { row.plan = plan(bytes.data(), bytes.size(), Begin::boost, others); });
        row.proved = std::min(row.proved, proved);
        row.cpp = std::min(row.cpp, cpp);
        row.boost = std::min(row.boost, boost);
        spent += proved + cpp + boost;
    }
    row.clocks = bytes[2];
    row.agree = same(answer, searched, buffers) && same(answer, row.plan, others) && adds_up(bytes, answer);
    measure_stack(bytes, answer, deepest);
    return row;
}
