// The book of a list of calls, and the node words and the lookup that go with it.
#pragma once
#include <string>
#include "families.h"

static std::vector<u32> all_nodes, all_lookup; // all words, of which each list is lent the first
static size_t node_words, slots;
static std::vector<Family> book;
static std::map<Family, u32> number;
static u32 capacity, limit;
static u32 added_in_all; // the numbers added since Fresh

static u32 count() { return (u32)book.size() - 2; }
static bool held(u32 handle) { return handle < book.size(); }
static bool is_limit(u32 x) { return 1 <= x && x <= 512; }

// A node's start slot; sums and products wrap at 2^32.
static u32 start_slot(u32 item, u32 zero, u32 one, u32 length) {
    u32 mix = item * 40503u % 65536u;
    return (mix + 65599u * (zero + 65599u * one)) % length;
}

// Enters node k into the first empty slot from its start slot on.
static void enter(std::vector<u32> &lookup, size_t length, const u32 *words, u32 k) {
    size_t at = start_slot(words[0], words[1], words[2], (u32)length);
    while (lookup[at] != 0) at = (at + 1) % length;
    lookup[at] = k;
}

// Places a family: each part not yet held gets the next number, its words and its slot.
static void place(Family f) {
    std::vector<Family> parts = parts_of(f);
    for (size_t k = 0; k < parts.size(); k++) {
        if (number.count(parts[k])) continue;
        u32 n = (u32)book.size();
        u32 *words = &all_nodes[3 * (n - 2)];
        words[0] = top(parts[k]);
        words[1] = number[without_side(parts[k])];
        words[2] = number[with_side(parts[k])];
        enter(all_lookup, slots, words, n);
        number[parts[k]] = n;
        book.push_back(parts[k]);
    }
}

// How many parts are not yet held.
static u32 parts_not_held(Family f) {
    std::vector<Family> parts = parts_of(f);
    u32 n = 0;
    for (size_t k = 0; k < parts.size(); k++) n += !number.count(parts[k]);
    return n;
}

// Whether words and record are those of a sound store, rule by rule; the cache counts as zeroed.
static bool sound(const std::vector<u32> &nodes, const std::vector<u32> &lookup, u32 room, u32 n, u32 most) {
    size_t real = nodes.size() / 3;
    if (1000000 < real) real = 1000000;
    if (!is_limit(most) || room != real || lookup.size() <= room || room < n) return false;
    for (size_t k = 3 * (size_t)n; k < 3 * (size_t)room; k++)
        if (nodes[k] != 0) return false;
    std::map<std::string, int> met;
    for (u32 k = 2; k < n + 2; k++) {
        const u32 *w = &nodes[3 * (k - 2)];
        if (w[0] < 1 || most < w[0] || w[2] == 0 || k <= w[1] || k <= w[2]) return false;
        u32 zero_top = w[1] < 2 ? 0 : nodes[3 * (w[1] - 2)], one_top = w[2] < 2 ? 0 : nodes[3 * (w[2] - 2)];
        if (w[0] <= zero_top || w[0] <= one_top) return false;
        if (met[std::string((const char *)w, 12)]++) return false;
    }
    std::vector<u32> entered(lookup.size(), 0);
    for (u32 k = 2; k < n + 2; k++) enter(entered, entered.size(), &nodes[3 * (k - 2)], k);
    return entered == lookup;
}
