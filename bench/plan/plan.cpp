// Reads a sheet from standard input and prints what the proved program prints.
#include <cstdio>

#include "planner.hpp"

int main() {
    std::vector<uint8_t> bytes;
    for (int c; (c = std::getchar()) != EOF;) bytes.push_back(uint8_t(c));
    Buffers buffers;
    Plan answer = plan(bytes.data(), bytes.size(), Begin::above, buffers);
    if (answer.refusal) std::printf("refused %d\n", answer.refusal);
    else std::printf("ratio %lld %lld\nnodes %zu\n", (long long)answer.p, (long long)answer.q, answer.nodes);
}
