// The packages that are compared: this library and the two stores in C, which have the same calls, and CUDD's zero-suppressed
// diagrams.
#pragma once
#include <cstdio>
#include <cstdlib>
#include <polybori/config.h> // the sizes by which CUDD lays out its nodes
#include <polybori/cudd/cudd.h>
#include <polybori/cudd/cuddInt.h>
#include <unordered_map>
#include <vector>

#include "../include/zdd.h"

[[noreturn]] inline void stop(const char *what, unsigned number) {
    std::fprintf(stderr, "bench: %s: refused with %u\n", what, number);
    std::exit(1);
}

// The calls of this library, or of what has the same ones.
struct Library {
    const char *name;
    decltype(&zdd_fresh) fresh;
    decltype(&zdd_change) change;
    decltype(&zdd_subset0) subset0;
    decltype(&zdd_union) unite;
    decltype(&zdd_intsec) intersect;
    decltype(&zdd_diff) subtract;
    decltype(&zdd_even) even, odd;
    decltype(&zdd_load) load;
    decltype(&zdd_audit) audit;
    decltype(&zdd_size) size, size_compact;
    decltype(&zdd_has) has;
    decltype(&zdd_weight_by_members) by_members, by_nodes;
    decltype(&zdd_save) save;
};

#define LIBRARY(name, p)                                                                                                            \
    Library {                                                                                                                       \
        name, p##fresh, p##change, p##subset0, p##union, p##intsec, p##diff, p##even, p##odd, p##load, p##audit, p##size,           \
            p##size_compact, p##has, p##weight_by_members, p##weight_by_nodes, p##save                                              \
    }
#define DECLARE(p)                                                                                                                  \
    extern "C" {                                                                                                                    \
    decltype(zdd_fresh) p##fresh;                                                                                                   \
    decltype(zdd_change) p##change, p##subset0;                                                                                     \
    decltype(zdd_union) p##union, p##intsec, p##diff;                                                                               \
    decltype(zdd_even) p##even, p##odd;                                                                                             \
    decltype(zdd_load) p##load;                                                                                                     \
    decltype(zdd_audit) p##audit;                                                                                                   \
    decltype(zdd_size) p##size, p##size_compact;                                                                                    \
    decltype(zdd_has) p##has;                                                                                                       \
    decltype(zdd_weight_by_members) p##weight_by_members, p##weight_by_nodes;                                                       \
    decltype(zdd_save) p##save;                                                                                                     \
    }

// this tree's library, the stores in plain and in tuned C, and with BEFORE an earlier revision's library, whose names `bench/run`
// gives a prefix, and which with UNPARTED has no Even and Odd, with UNWEIGHED no sums of weights, with ONE_SIZE no second entry of Size;
// the plain store has Load, Audit and Size's first entry of the tuned one
DECLARE(plain_)
DECLARE(tuned_)
#define plain_load tuned_load
#define plain_audit tuned_audit
#define plain_size tuned_size
static const Library here = LIBRARY("this library", zdd_), plain = LIBRARY("C store", plain_), tuned = LIBRARY("tuned C", tuned_);
#ifdef BEFORE
DECLARE(before_zdd_)
#ifdef UNPARTED
#define before_zdd_even nullptr
#define before_zdd_odd nullptr
#endif
#ifdef UNWEIGHED
#define before_zdd_weight_by_members nullptr
#define before_zdd_weight_by_nodes nullptr
#endif
#ifdef ONE_SIZE
#define before_zdd_size_compact nullptr
#endif
static const Library before = LIBRARY("earlier", before_zdd_);
static const std::vector<const Library *> libraries = {&here, &plain, &tuned, &before};
#else
static const std::vector<const Library *> libraries = {&here, &plain, &tuned};
#endif
#undef DECLARE
#undef LIBRARY

// The words lent to a store.
struct Words {
    std::vector<uint32_t> nodes, lookup, cache;
    Words(size_t capacity, size_t cache_words) : nodes(3 * capacity), lookup(2 * capacity + 1), cache(cache_words) {}
};

// A fresh store in lent words, for all items.
struct Ours {
    using F = uint32_t;
    const Library &library;
    Words &words;
    zdd_store store;
    size_t added = 0; // the sum of what its calls say they added
    Ours(const Library &library, Words &words) : library(library), words(words) {
        auto r = library.fresh(words.nodes.data(), words.nodes.size(), words.lookup.data(), words.lookup.size(), words.cache.data(),
                               words.cache.size(), ZDD_LARGEST_ITEM);
        if (r.refusal) stop("fresh", r.refusal);
        store = r.store;
    }
    // the store of another library, as it is; and the same record over other words
    Ours(const Library &library, const Ours &other) : library(library), words(other.words), store(other.store) {}
    Ours(const Ours &other, Words &words) : library(other.library), words(words), store(other.store), added(other.added) {}
    F take(const char *what, zdd_placed r) {
        if (r.refusal) stop(what, r.refusal);
        store = r.store;
        added += r.added;
        return r.handle;
    }
#define READ store, words.nodes.data(), words.nodes.size(), words.lookup.data(), words.lookup.size()
#define LENT READ, words.cache.data(), words.cache.size()
    F empty() { return 0; }
    F base() { return 1; }
    F change(F p, int item) { return take("change", library.change(LENT, p, item)); }
    F lacking(F p, int item) { return take("subset0", library.subset0(LENT, p, item)); }
    F unite(F p, F q) { return take("union", library.unite(LENT, p, q)); }
    F intersect(F p, F q) { return take("intsec", library.intersect(LENT, p, q)); }
    F subtract(F p, F q) { return take("diff", library.subtract(LENT, p, q)); }
    F even(F p) { return take("even", library.even(LENT, p)); }
    F odd(F p) { return take("odd", library.odd(LENT, p)); }
    F load(const std::vector<uint8_t> &file, std::vector<uint32_t> &scratch) {
        return take("load", library.load(LENT, file.data(), file.size(), scratch.data(), scratch.size()));
    }
    bool audit() { return library.audit(LENT).sound; }
    uint64_t size(F p) {
        std::vector<uint64_t> scratch(store.count);
        return size(p, scratch);
    }
    uint64_t size(F p, std::vector<uint64_t> &scratch) {
        return measured(library.size(READ, p, scratch.data(), scratch.size()));
    }
    uint64_t size_compact(F p, std::vector<uint64_t> &scratch) {
        return measured(library.size_compact(READ, p, scratch.data(), scratch.size()));
    }
    static uint64_t measured(zdd_measured r) {
        if (r.refusal) stop("size", r.refusal);
        return r.size;
    }
    uint64_t by_members(F p, const std::vector<uint32_t> &weights, std::vector<uint64_t> &scratch) {
        return weighed(library.by_members(READ, p, weights.data(), weights.size(), scratch.data(), scratch.size()));
    }
    uint64_t by_nodes(F p, const std::vector<uint32_t> &weights, std::vector<uint64_t> &scratch) {
        return weighed(library.by_nodes(READ, p, weights.data(), weights.size(), scratch.data(), scratch.size()));
    }
    static uint64_t weighed(zdd_weighed r) {
        if (r.refusal) stop("weights", r.refusal);
        return r.sum;
    }
    bool has(F p, zdd_combination c) { return library.has(READ, p, c).member; }
    size_t save(F p, std::vector<uint32_t> &scratch, std::vector<uint8_t> &out) {
        auto r = library.save(READ, p, scratch.data(), scratch.size(), out.data(), out.size());
        if (r.refusal) stop("save", r.refusal);
        return r.length;
    }
#undef LENT
#undef READ
    std::vector<uint8_t> file(F p) {
        std::vector<uint32_t> scratch(store.count);
        std::vector<uint8_t> out(11 * size_t(store.count) + 5);
        out.resize(save(p, scratch, out));
        return out;
    }
    // the number of parts of p, read off the head of its file
    size_t parts(F p) {
        if (p < 2) return 0;
        auto head = file(p);
        return head[1] | size_t(head[2]) << 8 | size_t(head[3]) << 16 | size_t(head[4]) << 24;
    }
};

// Even or Odd on CUDD's diagrams, which have neither: a recursion in the manner of its own ones, with its cache.
template <bool even> DdNode *cudd_part(pbori_DdManager *m, DdNode *p) {
    if (p == DD_ZERO(m) || p == DD_ONE(m)) return even ? p : DD_ZERO(m);
    if (DdNode *known = pbori_cuddCacheLookup1Zdd(m, cudd_part<even>, p)) return known;
    DdNode *zero = cudd_part<even>(m, cuddE(p));
    if (!zero) return nullptr;
    cuddRef(zero);
    DdNode *one = cudd_part<!even>(m, cuddT(p));
    if (one) cuddRef(one);
    DdNode *made = one ? pbori_cuddZddGetNode(m, p->index, one, zero) : nullptr;
    if (!made) {
        pbori_Cudd_RecursiveDerefZdd(m, zero);
        if (one) pbori_Cudd_RecursiveDerefZdd(m, one);
        return nullptr;
    }
    cuddDeref(zero);
    cuddDeref(one);
    pbori_cuddCacheInsert1(m, cudd_part<even>, p, made);
    return made;
}

struct Cudd {
    using F = DdNode *;
    pbori_DdManager *m;
    explicit Cudd(unsigned cache_slots) { m = pbori_Cudd_Init(0, 512, CUDD_UNIQUE_SLOTS, cache_slots, 0); }
    ~Cudd() { pbori_Cudd_Quit(m); }
    Cudd(const Cudd &) = delete;
    F keep(F f) {
        if (!f) stop("cudd", 0);
        pbori_Cudd_Ref(f);
        return f;
    }
    // the largest item is on top: item i is index 512 - i
    F empty() { return DD_ZERO(m); }
    F base() { return DD_ONE(m); }
    F change(F p, int item) { return keep(pbori_Cudd_zddChange(m, p, 512 - item)); }
    F lacking(F p, int item) { return keep(pbori_Cudd_zddSubset0(m, p, 512 - item)); }
    F unite(F p, F q) { return keep(pbori_Cudd_zddUnion(m, p, q)); }
    F intersect(F p, F q) { return keep(pbori_Cudd_zddIntersect(m, p, q)); }
    F subtract(F p, F q) { return keep(pbori_Cudd_zddDiff(m, p, q)); }
    F even(F p) { return keep(cudd_part<true>(m, p)); }
    F odd(F p) { return keep(cudd_part<false>(m, p)); }
    // members and parts by a walk over the nodes
    uint64_t count(F p, std::unordered_map<F, uint64_t> &seen) {
        if (p == empty()) return 0;
        if (p == base()) return 1;
        auto found = seen.find(p);
        if (found != seen.end()) return found->second;
        return seen[p] = count(cuddE(p), seen) + count(cuddT(p), seen);
    }
    uint64_t size(F p) {
        std::unordered_map<F, uint64_t> seen;
        return count(p, seen);
    }
    size_t parts(F p) {
        std::unordered_map<F, uint64_t> seen;
        count(p, seen);
        return seen.size();
    }
};
