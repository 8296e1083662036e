// Families as CUDD's zero-suppressed diagrams: item i is index 512 - i, so that the largest item is on top.
#pragma once
#include <cstdint>
#include <cstdio>
#include <cstdlib>
#include <cstring>
#include <map>
#include <vector>
#include <polybori/cudd/cudd.h>

typedef uint32_t u32;
typedef uint64_t u64;
typedef DdNode *Family;

static pbori_DdManager *manager;
static Family EMPTY, BASE;

// A diagram that CUDD gave; all are kept to the end.
static Family keep(Family f) {
    if (!f) { std::fprintf(stderr, "CUDD gave no diagram\n"); std::exit(2); }
    pbori_Cudd_Ref(f);
    return f;
}

static int index_of(u32 item) { return 512 - (int)item; }
static bool leaf(Family f) { return f == EMPTY || f == BASE; }
static u32 top(Family f) { return leaf(f) ? 0 : 512 - (u32)f->index; }
static Family without_side(Family f) { return f->type.kids.E; }
static Family with_side(Family f) { return f->type.kids.T; }

static Family EVEN, ODD; // all combinations of 1 to 512 with an even number of items, and all with an odd number

// The operation by its number in the cache, 1 to 8, on a family and an item, on two families, or on one.
static Family operated(u32 op, Family p, Family q, u32 item) {
    switch (op) {
    case 1: return keep(pbori_Cudd_zddSubset1(manager, p, index_of(item)));
    case 2: return keep(pbori_Cudd_zddSubset0(manager, p, index_of(item)));
    case 3: return keep(pbori_Cudd_zddChange(manager, p, index_of(item)));
    case 4: return keep(pbori_Cudd_zddUnion(manager, p, q));
    case 5: return keep(pbori_Cudd_zddIntersect(manager, p, q));
    case 6: return keep(pbori_Cudd_zddDiff(manager, p, q));
    case 7: return keep(pbori_Cudd_zddIntersect(manager, p, EVEN));
    default: return keep(pbori_Cudd_zddIntersect(manager, p, ODD));
    }
}

// Makes EVEN and ODD, an item at a time: with the item put in, each combination goes over to the other.
static void make_even_and_odd() {
    EVEN = BASE;
    ODD = EMPTY;
    for (u32 item = 1; item <= 512; item++) {
        Family from_odd = operated(3, ODD, EMPTY, item), from_even = operated(3, EVEN, EMPTY, item);
        EVEN = operated(4, EVEN, from_odd, 0);
        ODD = operated(4, ODD, from_even, 0);
    }
}

// Appends the parts that are not yet met.
static void parts_into(Family f, std::map<Family, u32> &seen, std::vector<Family> &parts) {
    if (leaf(f) || seen.count(f)) return;
    parts_into(without_side(f), seen, parts);
    parts_into(with_side(f), seen, parts);
    seen[f] = (u32)parts.size();
    parts.push_back(f);
}

// The parts in placing order: without-side first, then with-side, then the part itself.
static std::vector<Family> parts_of(Family f) {
    std::map<Family, u32> seen;
    std::vector<Family> parts;
    parts_into(f, seen, parts);
    return parts;
}

// The number of members, or 2^100 where that is smaller.
typedef unsigned __int128 Size;
static const Size MANY = (Size)1 << 100;
static const u64 MOST = ~(u64)0;
static std::map<Family, Size> sizes;

static Size size_of(Family f) {
    if (f == EMPTY) return 0;
    if (f == BASE) return 1;
    std::map<Family, Size>::iterator at = sizes.find(f);
    if (at != sizes.end()) return at->second;
    Size n = size_of(without_side(f)) + size_of(with_side(f));
    if (MANY < n) n = MANY;
    sizes[f] = n;
    return n;
}

// A combination: whether each of the items 1 to 512 is in it.
struct Combination {
    bool in[513];
    Combination() { std::memset(in, 0, sizeof in); }
    void toggle(u32 item) { if (1 <= item && item <= 512) in[item] = !in[item]; }
    u32 largest() const { u32 item = 512; while (0 < item && !in[item]) item--; return item; }
};

// Whether the combination is a member.
static bool is_member(Family f, const Combination &c) {
    for (u32 item = 512; 0 < item; item--) {
        if (f == EMPTY) return false;
        if (c.in[item]) {
            if (top(f) != item) return false;
            f = with_side(f);
        } else if (top(f) == item) {
            f = without_side(f);
        }
    }
    return f == BASE;
}
