// Groups of rows, each with the mean of its ratios.
#pragma once
#include "measure.hpp"

// A table with a line for each group that has rows: the times of the proved planner over those of another, which has this name.
void print_summary(const std::vector<Row> &rows, const char *name, double Row::*other);
