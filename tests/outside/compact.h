// The second entry of Size: document 02, No. 2.
#pragma once
#include <set>
#include "calls.h"

// How many different families with an item CUDD's Subset0 and Subset1 give from the top item down, the family among them.
static size_t count_parts(Family f) {
    std::vector<std::set<Family> > met(513); // by their top item
    size_t n = 0;
    met[top(f)].insert(f);
    for (u32 item = top(f); 0 < item; item--) {
        for (Family part : met[item])
            for (u32 op = 1; op < 3; op++) {
                Family side = operated(op, part, EMPTY, item);
                met[top(side)].insert(side);
            }
        n += met[item].size();
    }
    return n;
}

// How many different parts a family has, held to those in placing order.
static size_t part_count(Family f) {
    static std::map<Family, size_t> known;
    if (known.count(f)) return known[f];
    known[f] = count_parts(f);
    must_hold(known[f] == parts_of(f).size(), "a family has as many parts as Subset0 and Subset1 give from the top down");
    return known[f];
}

// Two words for each part; none where the handle is not held.
static size_t compact_need(u32 p) { return held(p) ? 2 * part_count(book[p]) : 0; }

// Tallies the lengths about the need, and the sizes about the largest.
static void tally_compact(u32 p, size_t words) {
    size_t need = compact_need(p);
    Size size = size_of(book[p]);
    tally_call(words == need, "just enough scratch");
    tally_call(need == 0 && words == 0, "{} or {{}} without scratch");
    tally_call(need < words && words % 2 == 1, "an odd number of words, enough");
    tally_call(words < need && words % 2 == 1, "an odd number of words, too few");
    tally_call(words + 1 == need, "one word too few");
    tally_call(words + 2 == need, "two words too few");
    tally_call(0 < need && words == need / 2, "one word for each part");
    tally_call(need <= words && words < count(), "enough, less than a word for each node");
    tally_call(0 < need && need <= words && 5 * need <= count(), "enough, ten nodes for each part");
    tally_call(words < need && count() <= words, "too few, yet a word for each node");
    tally_call(words < need && MOST < size, "7 before 6");
    tally_call(need <= words && size == MOST, "size 2^64 - 1 given");
    tally_call(need <= words && size == (Size)MOST + 1, "6 for 2^64 members");
    tally_call(need <= words && size <= MOST, "size given");
    tally_call(200 <= need, "of 100 parts or more");
}

// The second entry.
static void compact_call(u32 p, const Lent &lent, size_t words) {
    called("Size compact");
    text(calling);
    num(p);
    text(" lent");
    num(lent.slots);
    num(words);
    text(":");
    if (damaged(lent)) {
        refused(10);
        tally_call(!held(p), "10 before 4");
        tally_call(words < compact_need(p), "10 before 7");
    } else if (!held(p)) {
        refused(4);
        tally_call(words == 0, "4 without scratch");
    } else {
        tally_compact(p, words);
        if (words < compact_need(p)) refused(7);
        else if (MOST < size_of(book[p])) refused(6);
        else num((u64)size_of(book[p]));
    }
    record(lent.n, lent.room, lent.limit);
    text(" kept yes\n");
}

// Both entries, the second in scratch about its need, by a way.
static void size_calls(u32 way, u32 p, const Lent &lent) {
    compact_call(p, lent, about(way, compact_need(p), 2200));
    size_call(p, lent, 1100);
}

// The second entry in scratch about its need in each way.
static void every_compact(u32 p) {
    for (u32 way = 0; way < 8; way++) compact_call(p, lend(63), about(way, compact_need(p), 2200));
}

// Both entries for a drawn family: every fourth time one of the first eight handles, mostly a small family. These are drawn
// apart, so that the calls are drawn as they would be without them.
static void drawn_sizes() {
    Drawn drawn = draw_from(state ^ 2863311530u);
    u32 p = drawn.b % 4 == 0 ? drawn.b / 4 % 8 : drawn_handle(drawn.a);
    size_calls(drawn.c, p, lend(drawn.d));
}
