#include "plot.hpp"

#include <algorithm>
#include <cmath>
#include <fstream>
#include <sstream>

namespace {

constexpr double panel_width = 470, left = 70, top = 50, width = 370, height = 320;

struct Look {
    std::string colour, dashes;
    std::string stroke() const { return "stroke='" + colour + "' stroke-width='2' stroke-dasharray='" + dashes + "'"; }
};

const Look proved_look{"#0b5cad", "none"}, cpp_look{"#b3440e", "6 3"}, boost_look{"#4d7a1f", "2 3"};
const char *const grey = "stroke='#dddddd'", *const black = "stroke='#000000'";

struct Axis {
    double least, most, from, to; // logarithms of values, and the pixels they go to
    double at(double value) const { return from + (std::log10(value) - least) / (most - least) * (to - from); }
};

// A tenth of a decade of air on either side.
Axis axis_of(double least, double most, double from, double to) {
    return {std::log10(least) - 0.1, std::log10(most) + 0.1, from, to};
}

std::string text(double x, double y, const std::string &words, const std::string &more) {
    std::ostringstream s;
    s << "<text x='" << x << "' y='" << y << "' " << more << ">" << words << "</text>\n";
    return s.str();
}

std::string line(double x1, double y1, double x2, double y2, const std::string &look) {
    std::ostringstream s;
    s << "<line x1='" << x1 << "' y1='" << y1 << "' x2='" << x2 << "' y2='" << y2 << "' " << look << "/>\n";
    return s.str();
}

// Ticks at 1, 2 and 5 times the powers of ten; closer ones on an axis of less than a decade.
std::vector<double> ticks(const Axis &axis) {
    std::vector<double> found, steps{1, 2, 5};
    if (axis.most - axis.least < 1) steps = {1, 1.5, 2, 3, 4, 5, 7};
    for (int decade = int(std::floor(axis.least)); decade <= int(axis.most); decade++)
        for (double step : steps) {
            double value = step * std::pow(10.0, decade);
            if (axis.least <= std::log10(value) && std::log10(value) <= axis.most) found.push_back(value);
        }
    return found;
}

std::string number(double value) {
    std::string digits = std::to_string((long long)std::llround(value));
    for (int at = int(digits.size()) - 3; at > 0; at -= 3) digits.insert(size_t(at), ",");
    return digits;
}

std::string frame(const Panel &panel, const Axis &x, const Axis &y) {
    std::string s;
    for (double value : ticks(x)) {
        s += line(x.at(value), y.from, x.at(value), y.to, grey);
        s += text(x.at(value), y.from + 18, number(value), "text-anchor='middle'");
    }
    for (double value : ticks(y)) {
        s += line(x.from, y.at(value), x.to, y.at(value), grey);
        s += text(x.from - 6, y.at(value) + 4, number(value), "text-anchor='end'");
    }
    s += line(x.from, y.from, x.to, y.from, black) + line(x.from, y.from, x.from, y.to, black);
    s += text((x.from + x.to) / 2, y.to - 20, panel.title, "text-anchor='middle' font-weight='bold'");
    s += text((x.from + x.to) / 2, y.from + 40, panel.x_label, "text-anchor='middle'");
    std::ostringstream turn;
    turn << "text-anchor='middle' transform='rotate(-90 " << x.from - 54 << " " << (y.from + y.to) / 2 << ")'";
    return s + text(x.from - 54, (y.from + y.to) / 2, "time to plan, µs", turn.str());
}

template <class Value> std::string curve(const Panel &panel, const Axis &x, const Axis &y, const Look &look, Value value) {
    std::ostringstream path, dots;
    for (const Point &p : panel.points) {
        path << (path.tellp() == 0 ? "M" : " L") << x.at(p.x) << " " << y.at(value(p));
        dots << "<circle cx='" << x.at(p.x) << "' cy='" << y.at(value(p)) << "' r='3.5' fill='" << look.colour << "'/>\n";
    }
    return "<path d='" + path.str() + "' fill='none' " + look.stroke() + "/>\n" + dots.str();
}

std::string key(double x, double y, const Look &look, const std::string &words) {
    return line(x, y - 4, x + 30, y - 4, look.stroke()) + text(x + 36, y, words, "");
}

std::string draw(const Panel &panel, double shift) {
    double least = 1e300, most = 0;
    for (const Point &p : panel.points) {
        least = std::min({least, p.proved, p.cpp, p.boost});
        most = std::max({most, p.proved, p.cpp, p.boost});
    }
    Axis x = axis_of(panel.points.front().x, panel.points.back().x, shift + left, shift + left + width);
    Axis y = axis_of(least, most, top + height, top);
    std::string s = frame(panel, x, y);
    s += curve(panel, x, y, proved_look, [](const Point &p) { return p.proved; });
    s += curve(panel, x, y, cpp_look, [](const Point &p) { return p.cpp; });
    s += curve(panel, x, y, boost_look, [](const Point &p) { return p.boost; });
    s += key(x.from + 14, y.to + 22, proved_look, "proved planner") + key(x.from + 14, y.to + 42, cpp_look, "C++, the same searches");
    return s + key(x.from + 14, y.to + 62, boost_look, "C++, Boost's cycle first");
}

} // namespace

bool write_plot(const std::string &path, const std::vector<Panel> &panels) {
    std::ofstream file(path);
    double all = panel_width * double(panels.size());
    file << "<svg xmlns='http://www.w3.org/2000/svg' viewBox='0 0 " << all << " 430' width='" << all
         << "' height='430' font-family='sans-serif' font-size='12'>\n<rect width='100%' height='100%' fill='#ffffff'/>\n";
    for (size_t i = 0; i < panels.size(); i++) file << draw(panels[i], panel_width * double(i));
    file << "</svg>\n";
    file.flush();
    return bool(file);
}
