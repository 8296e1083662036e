// The picture: one bar chart as SVG, the times of each row by the C store's.
#pragma once
#include <cmath>
#include <cstdio>
#include <string>
#include <vector>

#include "measure.h"

struct Chart {
    static constexpr int width = 960, left = 400, right = 60, head = 96, bar = 11, gap = 12;
    FILE *out;
    double most = 1;
    int y = head;

    explicit Chart(const char *path) : out(std::fopen(path, "w")) {
        if (!out) stop(path, 0);
    }
    ~Chart() { std::fclose(out); }
    Chart(const Chart &) = delete;

    double x(double ratio) const { return left + (width - left - right) * ratio / most; }

    void text(double at, double line, const char *anchor, const char *style, const std::string &words) const {
        std::fprintf(out, "<text x=\"%.1f\" y=\"%.1f\" text-anchor=\"%s\" %s>%s</text>\n", at, line, anchor, style, words.c_str());
    }
    void box(double at, double line, double across, double down, const char *colour) const {
        std::fprintf(out, "<rect x=\"%.1f\" y=\"%.1f\" width=\"%.1f\" height=\"%.1f\" fill=\"%s\"/>\n", at, line, across, down, colour);
    }
    static std::string number(const char *format, double value) {
        char digits[32];
        std::snprintf(digits, sizeof digits, format, value);
        return digits;
    }
    static int height(const Row &row) { return bar * (row.has_cudd() ? 4 : 3) + gap; }

    // Title, legend and the lines of the scale, down to the end of the bars.
    void frame(int bottom) const {
        const char *style = "font-family=\"sans-serif\" font-size=\"12\" fill=\"#1f2328\"";
        std::fprintf(out, "<svg xmlns=\"http://www.w3.org/2000/svg\" viewBox=\"0 0 %d %d\" %s>\n", width, bottom + 16, style);
        box(0, 0, width, bottom + 16, "#ffffff");
        text(20, 28, "start", "font-size=\"17\" font-weight=\"bold\"", "Time relative to a plain C store: shorter is faster");
        const char *names[] = {"this library", "plain C store", "tuned C store", "CUDD"};
        for (int k = 0; k < 4; k++) {
            box(20 + 130 * k, 44, 12, 12, colour(k));
            text(38 + 130 * k, 54, "start", "", names[k]);
        }
        for (int tick = 0; tick <= most; tick++) {
            box(x(tick) - 0.5, head - 8, tick == 1 ? 1.5 : 1, bottom - head + 8, tick == 1 ? "#57606a" : "#d0d7de");
            text(x(tick), head - 14, "middle", "", std::to_string(tick));
        }
    }
    // the words of a value keep off the lines of the scale
    static constexpr const char *value = "font-size=\"10\" stroke=\"#ffffff\" stroke-width=\"3\" paint-order=\"stroke\"";
    static const char *colour(int package) {
        const char *colours[] = {"#0969da", "#8c959f", "#c9d1d9", "#bc4c00"};
        return colours[package];
    }

    void one(int package, double ratio) {
        box(x(0), y, x(ratio) - x(0), bar - 1, colour(package));
        text(x(ratio) + 4, y + bar - 2, "start", value, number("%.2f", ratio));
        y += bar;
    }
    void group(const Row &row) {
        double middle = y + (height(row) - gap) / 2.0 + 4;
        text(left - 10, middle, "end", "", row.name + " (" + number("%.2f", 1e3 * row.plain()) + " ms)");
        one(0, row.by_plain());
        one(1, 1);
        one(2, row.by_plain() / row.by_tuned());
        if (row.has_cudd()) one(3, row.cudd() / row.plain());
        y += gap;
    }
    void draw(const std::vector<Row> &rows) {
        int bottom = head;
        for (const Row &row : rows) {
            bottom += height(row);
            most = std::max({most, std::ceil(row.by_plain()), row.has_cudd() ? std::ceil(row.cudd() / row.plain()) : 1});
        }
        frame(bottom);
        text(left - 10, head - 14, "end", "font-style=\"italic\"", "the C store's time in brackets");
        for (const Row &row : rows) group(row);
        std::fprintf(out, "</svg>\n");
    }
};
