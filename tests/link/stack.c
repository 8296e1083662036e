/* How much stack each call uses on families 512 items deep, and on damaged words that lead it as deep: the call runs on a
 * thread whose stack was painted, and the bytes below the caller that have lost the paint are counted. Ends with status 0
 * exactly when every call does what it should and none uses more than ZDD_STACK_BYTES. */
#define _XOPEN_SOURCE 600
#include <pthread.h>
#include <stdio.h>
#include <stdlib.h>
#include <string.h>
#include "zdd.h"

enum { CAPACITY = 8000, CACHE_WORDS = 65536, STACK_BYTES = 4 << 20, PAINT = 0xA5 };

static uint32_t nodes[3 * CAPACITY], lookup[2 * CAPACITY + 1], cache[CACHE_WORDS], scratch[66 * CAPACITY + 30];
static uint64_t sizes[3 * CAPACITY];
static uint32_t weights[ZDD_LARGEST_ITEM]; /* all 0 */
static uint8_t file[11 * CAPACITY + 5], output[11 * CAPACITY + 5];
static size_t file_bytes;
static zdd_store store;

#define READ store, nodes, 3 * CAPACITY, lookup, 2 * CAPACITY + 1
#define LENT READ, cache, CACHE_WORDS

static void stop(const char *what, uint32_t number) {
    printf("stack: FAILED: %s: %u\n", what, (unsigned)number);
    exit(1);
}

/* ---- the families ---- */

/* All subsets of the items 1 to 512; all but the empty one; all of one item; the sets of the largest items, one of each
 * length. In the damaged store: p leads to a node of the item 0, q does not, cut leads to a child that is not held, and
 * deep leads to p by with-sides. */
static uint32_t subsets, filled, singles, nested, p, q, cut, deep;

static uint32_t placed(zdd_placed r) {
    if (r.refusal) stop("a family was refused", r.refusal);
    store = r.store;
    return r.handle;
}

static zdd_freshened freshened(void) {
    return zdd_fresh(nodes, 3 * CAPACITY, lookup, 2 * CAPACITY + 1, cache, CACHE_WORDS, ZDD_LARGEST_ITEM);
}

static void build(void) {
    store = freshened().store;
    subsets = 1, singles = 0, nested = 1;
    for (uint32_t item = 1; item <= ZDD_LARGEST_ITEM; item++) {
        subsets = placed(zdd_union(LENT, subsets, placed(zdd_change(LENT, subsets, item))));
        singles = placed(zdd_union(LENT, singles, placed(zdd_change(LENT, 1, item))));
        nested = placed(zdd_union(LENT, 1, placed(zdd_change(LENT, nested, item))));
    }
    filled = placed(zdd_diff(LENT, subsets, 1));
    file_bytes = zdd_save(READ, subsets, scratch, CAPACITY, file, sizeof file).length;
}

static uint32_t append(uint32_t item, uint32_t zero, uint32_t one) {
    uint32_t *node = nodes + 3 * store.count;
    node[0] = item, node[1] = zero, node[2] = one;
    return store.count++ + 2;
}

static void build_damaged(void) {
    store = freshened().store;
    p = append(0, 0, 1), q = 1, cut = UINT32_MAX, deep = p;
    for (uint32_t item = 1; item <= ZDD_LARGEST_ITEM; item++)
        p = append(item, p, 1), q = append(item, q, 1), cut = append(item, cut, 1), deep = append(item, 1, deep);
}

/* ---- the calls: each gives its refusal ---- */

static uint32_t fresh(void) { return freshened().refusal; }
static uint32_t subset1(void) { return zdd_subset1(LENT, subsets, 1).refusal; }
static uint32_t subset0(void) { return zdd_subset0(LENT, subsets, 1).refusal; }
static uint32_t change(void) { return zdd_change(LENT, filled, 1).refusal; }
static uint32_t union_found(void) { return zdd_union(LENT, subsets, filled).refusal; }
static uint32_t union_new(void) { return zdd_union(LENT, singles, 1).refusal; }
static uint32_t union_damaged(void) { return zdd_union(LENT, p, q).refusal; }
static uint32_t intsec(void) { return zdd_intsec(LENT, subsets, filled).refusal; }
static uint32_t intsec_damaged(void) { return zdd_intsec(LENT, p, q).refusal; }
static uint32_t diff(void) { return zdd_diff(LENT, subsets, singles).refusal; }
static uint32_t diff_damaged(void) { return zdd_diff(LENT, p, q).refusal; }
static uint32_t even(void) { return zdd_even(LENT, subsets).refusal; }
static uint32_t even_damaged(void) { return zdd_even(LENT, cut).refusal; }
static uint32_t odd(void) { return zdd_odd(LENT, subsets).refusal; }
static uint32_t odd_damaged(void) { return zdd_odd(LENT, cut).refusal; }
static uint32_t size(void) { return zdd_size(READ, singles, sizes, CAPACITY).refusal; }
static uint32_t in_two_words(uint32_t family) { return zdd_size_compact(READ, family, sizes, 3 * CAPACITY).refusal; }
static uint32_t compact(void) { return in_two_words(subsets); }
static uint32_t compact_nested(void) { return in_two_words(nested); }
static uint32_t compact_cut(void) { return in_two_words(cut); }
static uint32_t compact_deep(void) { return in_two_words(deep); }
static uint32_t has(void) { return zdd_has(READ, subsets, (zdd_combination){{0}}).refusal; }
static uint32_t by_members(uint32_t family) {
    return zdd_weight_by_members(READ, family, weights, ZDD_LARGEST_ITEM, sizes, 3 * CAPACITY).refusal;
}
static uint32_t members(void) { return by_members(singles); }
static uint32_t members_nested(void) { return by_members(nested); }
static uint32_t members_damaged(void) { return by_members(p); }
static uint32_t members_deep(void) { return by_members(deep); }
static uint32_t by_nodes(void) {
    return zdd_weight_by_nodes(READ, subsets, weights, ZDD_LARGEST_ITEM, sizes, 3 * CAPACITY).refusal;
}
static uint32_t by_nodes_damaged(void) {
    return zdd_weight_by_nodes(READ, cut, weights, ZDD_LARGEST_ITEM, sizes, 3 * CAPACITY).refusal;
}
static uint32_t save(void) { return zdd_save(READ, subsets, scratch, CAPACITY, output, sizeof output).refusal; }
static uint32_t save_damaged(void) { return zdd_save(READ, p, scratch, CAPACITY, output, sizeof output).refusal; }
static uint32_t load(void) { return zdd_load(LENT, file, file_bytes, scratch, sizeof scratch / sizeof *scratch).refusal; }
static uint32_t audit(void) { return !zdd_audit(LENT).sound; }

static const struct job {
    const char *name;
    uint32_t (*call)(void);
    void (*before)(void);
    uint32_t refusal;
} jobs[] = {
    {"Union, all found", union_found, build, 0},
    {"Union, new nodes", union_new, build, 0},
    {"Union, damaged words", union_damaged, build_damaged, ZDD_DAMAGED},
    {"Intsec", intsec, build, 0},
    {"Intsec, damaged words", intsec_damaged, build_damaged, ZDD_DAMAGED},
    {"Diff", diff, build, 0},
    {"Diff, damaged words", diff_damaged, build_damaged, ZDD_DAMAGED},
    {"Change", change, build, 0},
    {"Subset1", subset1, build, 0},
    {"Subset0", subset0, build, 0},
    {"Even", even, build, 0},
    {"Even, damaged words", even_damaged, build_damaged, ZDD_DAMAGED},
    {"Odd", odd, build, 0},
    {"Odd, damaged words", odd_damaged, build_damaged, ZDD_DAMAGED},
    {"Save", save, build, 0},
    {"Save, damaged words", save_damaged, build_damaged, ZDD_DAMAGED},
    {"Load", load, build, 0},
    {"Size", size, build, 0},
    {"Size compact", compact, build, ZDD_LARGE},
    {"Size compact, nested", compact_nested, build, 0},
    {"Size compact, damaged", compact_cut, build_damaged, ZDD_SCRATCH},
    {"Size compact, deep damage", compact_deep, build_damaged, 0},
    {"Has", has, build, 0},
    {"By members, one by one", members, build, 0},
    {"By members, nested", members_nested, build, 0},
    {"By members, damaged", members_damaged, build_damaged, 0},
    {"By members, deep damage", members_deep, build_damaged, 0},
    {"By nodes", by_nodes, build, 0},
    {"By nodes, damaged", by_nodes_damaged, build_damaged, 0},
    {"Audit", audit, build, 0},
    {"Fresh", fresh, build, 0},
};

/* ---- the painted stack ---- */

static uint8_t *stack;
static uint8_t *caller; /* where the caller's own stack ends, within its frame */
static uint32_t refusal;

static void *on_thread(void *given) {
    uint8_t here = 0;
    caller = &here;
    refusal = ((const struct job *)given)->call();
    return NULL;
}

/* The bytes of stack that a call used. */
static size_t measure(const struct job *job) {
    pthread_t thread;
    pthread_attr_t attributes;
    job->before();
    memset(cache, 0, sizeof cache);
    memset(stack, PAINT, STACK_BYTES);
    if (pthread_attr_init(&attributes) || pthread_attr_setstack(&attributes, stack, STACK_BYTES)) stop("no thread", 0);
    if (pthread_create(&thread, &attributes, on_thread, (void *)job) || pthread_join(thread, NULL)) stop("no thread", 0);
    pthread_attr_destroy(&attributes);
    const uint8_t *lowest = stack;
    while (*lowest == PAINT) lowest++;
    return (size_t)(caller - lowest);
}

int main(void) {
    size_t most = 0;
    if (posix_memalign((void **)&stack, 4096, STACK_BYTES)) stop("no memory", 0);
    for (size_t k = 0; k < sizeof jobs / sizeof *jobs; k++) {
        size_t bytes = measure(&jobs[k]);
        printf("stack: %-25s %7lu bytes\n", jobs[k].name, (unsigned long)bytes);
        if (refusal != jobs[k].refusal) stop("refused with", refusal);
        if (bytes > most) most = bytes;
    }
    printf("stack: the most is %lu bytes, ZDD_STACK_BYTES is %lu\n", (unsigned long)most, (unsigned long)ZDD_STACK_BYTES);
    return most <= ZDD_STACK_BYTES ? 0 : 1;
}
