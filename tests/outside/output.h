// What is written, and the tallies.
#pragma once
#include <string>
#include "files.h"

static std::string out;
static std::map<std::string, int> tally;

static void text(const char *s) { out += s; }
static void num(u64 n) { out += " " + std::to_string(n); }
static void hex(u32 n, int digits) { char s[16]; std::snprintf(s, sizeof s, "%0*x", digits, n); out += s; }
static void yes_no(bool b) { text(b ? " yes" : " no"); }
static void bytes(const Bytes &file, size_t n) { for (size_t k = 0; k < n; k++) { text(" "); hex(file[k], 2); } }
static void record(u32 n, u32 room, u32 limit) {
    text(" held");
    num(n);
    text(" of");
    num(room);
    text(" limit");
    num(limit);
}

// Ends the program where a law that is tested on the way does not hold.
static void must_hold(bool holds, const char *law) {
    if (holds) return;
    std::fprintf(stderr, "outside: this does not hold: %s\n", law);
    std::exit(1);
}

static const char *calling; // the call under way
static void called(const char *name) { calling = name; tally[std::string("call ") + name]++; }
static void tally_call(bool counts, const char *what) { if (counts) tally[std::string(calling) + ": " + what]++; }
static void refused(int n) {
    text(" refused");
    num(n);
    std::string what = "refused " + std::string(n < 10 ? " " : "") + std::to_string(n);
    tally[what]++;
    tally[what + " by " + calling]++;
}
