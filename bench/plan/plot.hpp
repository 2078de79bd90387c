// Curves on logarithmic axes, written as SVG.
#pragma once
#include <string>
#include <vector>

struct Point {
    double x, proved, cpp, boost;
};

struct Panel {
    std::string title, x_label;
    std::vector<Point> points; // by rising x
};

// False where the file cannot be written.
bool write_plot(const std::string &path, const std::vector<Panel> &panels);
