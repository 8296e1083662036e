// The xorshift, and what is drawn with it.
#pragma once
#include "book.h"
#include "output.h"

static u32 state = 2463534242u;

// One step of the xorshift.
static u32 step(u32 x) {
    x ^= x << 13;
    x ^= x >> 17;
    return x ^ (x << 5);
}

// A sum with one word more.
static u32 sum_word(u32 s, u32 w) { return step(s + w); }
static void sum(u32 s) { text(" sum "); hex(s, 8); }

// Writes the sum of the node words and the lookup.
static void sum_of_words() {
    u32 s = 1;
    for (size_t k = 0; k < node_words; k++) s = sum_word(s, all_nodes[k]);
    for (size_t k = 0; k < slots; k++) s = sum_word(s, all_lookup[k]);
    sum(s);
}

struct Drawn { u32 kind, a, b, c, d; };

// The five numbers drawn from a number.
static Drawn draw_from(u32 x) {
    Drawn drawn;
    drawn.kind = step(x);
    drawn.a = step(drawn.kind);
    drawn.b = step(drawn.a);
    drawn.c = step(drawn.b);
    drawn.d = step(drawn.c);
    return drawn;
}

// The five numbers drawn for a call.
static Drawn draw() {
    Drawn drawn = draw_from(state);
    state = drawn.d;
    return drawn;
}

// A handle: often one of the newest eight, else any that is held; seldom one that is too large.
static u32 drawn_handle(u32 x) {
    u32 way = x % 32, pick = x / 32;
    if (way == 0) return count() + 2;
    if (way == 1) return 4294967295u;
    if (way < 16 && 8 <= count()) return count() + 1 - pick % 8;
    return pick % (count() + 2);
}

// One of the first or the last so many items up to the limit; seldom a number at an edge.
static u32 drawn_item(u32 x, u32 items) {
    u32 way = x % 32, pick = x / 32 % items;
    switch (way) {
    case 0: return 0;
    case 1: return limit;
    case 2: return limit + 1;
    case 3: return 512;
    case 4: return 513;
    case 5: return 4294967295u;
    default: return way < 16 ? limit - pick : 1 + pick;
    }
}

// The record handed in, and the lookup lent.
struct Lent {
    u32 room, n, limit;
    size_t slots;
};

static Lent lend(u32 d) {
    Lent lent = {capacity, count(), limit, slots};
    switch (d % 64) {
    case 0: lent.room = capacity + 1; break;
    case 1: lent.room = capacity - 1; break;
    case 2: lent.n = capacity + 1; break;
    case 3: lent.slots = capacity; break;
    case 4: lent.limit = 0; break;
    case 5: lent.limit = 513; break;
    case 6: lent.limit = 4294967295u; break;
    }
    return lent;
}

// How much of the cache is lent: none, a part, or all.
static size_t cache_part(u32 x, bool whole, size_t cache) {
    if (whole) return cache;
    if (x % 8 == 0) return 0;
    if (x % 8 < 3) return x / 8 % (cache + 1);
    return cache;
}

// How much scratch is lent about a need, by a way: none, half of it, two words or one too few, just enough, one or two
// more, or all.
static size_t about(u32 way, size_t needed, size_t all) {
    switch (way % 8) {
    case 0: return 0;
    case 1: return needed / 2;
    case 2: return needed < 2 ? 0 : needed - 2;
    case 3: return needed < 1 ? 0 : needed - 1;
    case 4: return needed;
    case 5: return needed + 1;
    case 6: return needed + 2;
    default: return all;
    }
}

// How much scratch is lent: seldom one word too few or just enough, else all.
static size_t scratch(u32 x, size_t needed, size_t all) {
    if (x % 8 == 0) return needed == 0 ? 0 : needed - 1;
    if (x % 8 == 1) return needed;
    return all;
}
