// Rounds of what is compared, and the tables of their times.
#pragma once
#include <algorithm>
#include <cstdio>
#include <ctime>
#include <functional>
#include <string>
#include <vector>

#include "packages.h"

// The processor's time of this thread, in seconds: what else runs on the machine does not count.
inline double now() {
    timespec t;
    clock_gettime(CLOCK_THREAD_CPUTIME_ID, &t);
    return double(t.tv_sec) + 1e-9 * double(t.tv_nsec);
}

inline double seconds(const std::function<void()> &work) {
    double start = now();
    work();
    return now() - start;
}

// The seconds that one package took in each round.
struct Times {
    std::vector<double> all;
    double least() const { return *std::min_element(all.begin(), all.end()); }
    double median() const {
        std::vector<double> sorted = all;
        std::sort(sorted.begin(), sorted.end());
        return sorted[sorted.size() / 2];
    }
    // how far the median is above the least, of the least
    double spread() const { return median() / least() - 1; }
};

static const double no_time = -1;

// Rounds for a second, 20 at least and 100 at most: each run once in a round, another one first each time. A run gives its seconds, or no
// time.
inline std::vector<Times> rounds(const std::vector<std::function<double()>> &runs) {
    std::vector<Times> times(runs.size());
    double spent = 0;
    for (size_t i = 0; i < 20 || (i < 100 && spent < 1); i++)
        spent += seconds([&] {
            for (size_t k = 0; k < runs.size(); k++) {
                size_t turn = (i + k) % runs.size();
                double time = runs[turn]();
                if (time != no_time) times[turn].all.push_back(time);
            }
        });
    return times;
}

// What came of one workload or call: the times of the libraries, in their order, then CUDD's where it has the calls.
struct Row {
    std::string name;
    size_t units;
    std::vector<Times> times;
    bool has_cudd() const { return times.size() > libraries.size(); }
    double ours() const { return times[0].least(); }
    double plain() const { return times[1].least(); }
    double cudd() const { return times.back().least(); }
    double each() const { return ours() / double(units); }
    double by_plain() const { return ours() / plain(); }
    double by_tuned() const { return ours() / times[2].least(); }
    double cudd_by_ours() const { return cudd() / ours(); }
};

// A table of Markdown, printed as its rows come.
struct Table {
    const char *what, *units;
    bool cudd;
    std::vector<Row> rows;
    Table(const char *what, const char *units, bool cudd) : what(what), units(units), cudd(cudd) {
        size_t columns = 5;
        std::printf("\n| %s | %s |", what, units);
        for (const Library *l : libraries) std::printf(" %s, ms |", l->name), columns++;
        if (cudd) std::printf(" CUDD, ms |"), columns++;
        std::printf(" by C store | by tuned C |");
        if (libraries.size() > 3) std::printf(" by earlier |"), columns++;
        std::printf(cudd ? " times CUDD's speed |\n|" : " ns each |\n|");
        for (size_t k = 0; k < columns; k++) std::printf("---|");
        std::printf("\n");
    }
    void add(const Row &row) {
        std::printf("| %s | %zu |", row.name.c_str(), row.units);
        for (const Times &t : row.times)
            if (t.all.empty()) std::printf(" - |");
            else std::printf(" %.2f (%.0f %%) |", 1e3 * t.least(), 100 * t.spread());
        std::printf(" %.2f | %.2f |", row.by_plain(), row.by_tuned());
        if (libraries.size() > 3 && row.times[3].all.empty()) std::printf(" - |");
        else if (libraries.size() > 3) std::printf(" %.2f |", row.ours() / row.times[3].least());
        if (cudd) std::printf(" %.2f |\n", row.cudd_by_ours());
        else std::printf(" %.1f |\n", 1e9 * row.each());
        std::fflush(stdout);
        rows.push_back(row);
    }
};

inline Row largest(const std::vector<Row> &rows) {
    return *std::max_element(rows.begin(), rows.end(), [](const Row &a, const Row &b) { return a.by_plain() < b.by_plain(); });
}

inline double mean(const std::vector<Row> &rows, double (Row::*ratio)() const) {
    double sum = 0;
    for (const Row &row : rows) sum += (row.*ratio)();
    return sum / double(rows.size());
}

// The rows whose names have these words.
inline std::vector<Row> named(const std::vector<Row> &rows, const char *words) {
    std::vector<Row> some;
    for (const Row &row : rows)
        if (row.name.find(words) != std::string::npos) some.push_back(row);
    return some;
}
