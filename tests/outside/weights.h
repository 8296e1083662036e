// Sums of weights: the lists of weights, the sum of a family in three ways, and the two calls of document 02, No. 1.
#pragma once
#include "compact.h"

typedef std::vector<u32> Weights; // item i's weight at i - 1

// How a list is made: a way, what it is drawn from, an item whose weight is another (0 for none), and the length.
struct Making {
    u32 way, draw, item, value;
    size_t length;
};

// The making of a number, 0 to 8: of each way; then but for an item: with 0 everywhere else the item weighs 1 or as much as
// can be, and with 1 everywhere else as much as can be.
static Making making_of(u32 k, u32 item, u32 draw, size_t length) {
    Making making = {k < 6 ? k : k == 8, draw, k < 6 ? 0 : item, k == 6 ? 1 : 4294967295u, length};
    return making;
}

static Making drawn_making(const Drawn &drawn, u32 items) {
    static const size_t LENGTHS[] = {511, 513, 0};
    u32 way = drawn.c / 8 % 16;
    return making_of(drawn.b % 9, drawn_item(drawn.b / 9, items), drawn.b, way < 3 ? LENGTHS[way] : 512);
}

static u32 weight_of(u32 way, u32 x) {
    switch (way) {
    case 0: return 0;
    case 1: return 1;
    case 2: return 4294967295u;
    case 3: return x % 10;
    case 4: return x;
    default: return x % 4 == 0 ? x : 0;
    }
}

static Weights weights_of(const Making &making) {
    Weights weights(making.length);
    u32 x = making.draw;
    for (size_t k = 0; k < weights.size(); k++) weights[k] = weight_of(making.way, x = step(x));
    if (0 < making.item && making.item <= weights.size()) weights[making.item - 1] = making.value;
    return weights;
}

static void making_text(const Making &making) {
    static const char *WAYS[] = {" all 0", " all 1", " all 4294967295", " below 10 from", " any from", " few from"};
    text(" weights");
    text(WAYS[making.way]);
    if (2 < making.way) num(making.draw);
    if (making.item == 0) return;
    text(" but");
    num(making.item);
    text(" at");
    num(making.value);
}

// A number, or 2^64 where that is smaller.
static Size kept(Size n) { return MOST < n ? (Size)MOST + 1 : n; }
static Size times(u32 weight, Size n) { return kept(kept(n) * weight); }

// How many members hold each item: the members that CUDD's Subset1 takes.
static const std::vector<Size> &holders(Family f) {
    static std::map<Family, std::vector<Size> > known;
    std::vector<Size> &n = known[f];
    for (u32 item = (u32)n.size() + 1; item <= top(f); item++) n.push_back(size_of(operated(1, f, EMPTY, item)));
    return n;
}

// The sum by items: each weight times the number of members that hold the item.
static Size sum_by_items(Family f, const Weights &weights) {
    const std::vector<Size> &n = holders(f);
    Size sum = 0;
    for (size_t k = 0; k < n.size(); k++) sum = kept(sum + times(weights[k], n[k]));
    return sum;
}

// The sum by nodes, in placing order.
static Size sum_by_nodes(Family f, const Weights &weights) {
    std::map<Family, Size> sum;
    for (Family part : parts_of(f)) {
        Size more = times(weights[top(part) - 1], size_of(with_side(part)));
        sum[part] = kept(sum[without_side(part)] + sum[with_side(part)] + more);
    }
    return sum[f];
}

// The sum by members; `carried` is the weight of the items on the way to the family.
static Size sum_by_members(Family f, const Weights &weights, u64 carried) {
    if (f == EMPTY) return 0;
    if (f == BASE) return carried;
    return sum_by_members(without_side(f), weights, carried) + sum_by_members(with_side(f), weights, carried + weights[top(f) - 1]);
}

// The sum by items, held to the sum that is asked for.
static Size tested_sum(bool members, Family f, const Weights &weights) {
    Size sum = sum_by_items(f, weights);
    if (members) must_hold(kept(sum_by_members(f, weights, 0)) == sum, "the sum of weights by members is the one by items");
    else must_hold(sum_by_nodes(f, weights) == sum, "the sum of weights by nodes is the one by items");
    return sum;
}

// Writes a sum, or its 6.
static void tell_sum(Family f, Size sum) {
    if (MOST < sum) refused(6);
    else num((u64)sum);
    tally_call(sum <= MOST, "sum given");
    tally_call(sum <= MOST && 0 < sum, "sum above 0 given");
    tally_call(sum <= MOST && MOST < size_of(f), "sum given, Size gives 6");
    tally_call(0 < sum && sum <= MOST && MOST < size_of(f), "sum above 0 given, Size gives 6");
    tally_call(sum == MOST, "sum 2^64 - 1 given");
    tally_call(MOST < sum && size_of(f) <= MOST, "6, Size gives the size");
    tally_call(100 <= parts_of(f).size(), "of 100 parts or more");
}

// One of the two sums.
static void weight_call(bool members, u32 p, const Making &making, const Lent &lent, size_t words) {
    called(members ? "Weight by members" : "Weight by nodes");
    text(calling);
    num(p);
    making_text(making);
    text(" lent");
    num(lent.slots);
    num(making.length);
    num(words);
    text(":");
    bool other = making.length != 512, narrow = words < 3 * count();
    if (damaged(lent)) {
        refused(10);
        tally_call(other, "10 before 11");
    } else if (!held(p)) {
        refused(4);
        tally_call(other, "4 before 11");
    } else if (other) {
        refused(11);
        tally_call(narrow, "11 before 7");
    } else if (narrow) {
        refused(7);
        tally_call(MOST < sum_by_items(book[p], weights_of(making)), "7 before 6");
    } else {
        tell_sum(book[p], tested_sum(members, book[p], weights_of(making)));
        tally_call(words == 3 * count(), "just enough scratch");
    }
    text(" kept yes");
    record(lent.n, lent.room, lent.limit);
    text("\n");
}

// Both sums, by members only where they are few.
static void weight_calls(bool few, u32 p, const Making &making, const Lent &lent, size_t words) {
    if (few) weight_call(true, p, making, lent, words);
    weight_call(false, p, making, lent, words);
}

// Size by both entries, then both sums with the list of each number.
static void every_weight(u32 p, u32 item) {
    every_compact(p);
    bool few = size_call(p, lend(63), 1100) <= 4096;
    for (u32 k = 0; k < 9; k++) weight_calls(few, p, making_of(k, item, state, 512), lend(63), 3300);
}

// Size and both sums of a drawn family. These are drawn apart, so that the calls are drawn as they would be without them.
static void drawn_weights(u32 items) {
    Drawn drawn = draw_from(state ^ 2779096485u);
    Lent lent = lend(drawn.d);
    u32 p = drawn_handle(drawn.a);
    bool few = size_call(p, lent, 1100) <= 4096;
    weight_calls(few, p, drawn_making(drawn, items), lent, scratch(drawn.c, 3 * count(), 3300));
}
