/* A store in tuned C, the benchmark's second yardstick: the calls of zdd.h on the same lent words, leaving the same words, in
 * the shape that C is fastest in: the store behind one pointer. It makes the same tests before a call; then it trusts its
 * words: on a damaged store it may read and write anywhere. Lengths are below 2^32. Nothing of it is proved, and nothing but
 * the benchmark uses it. */
#include <string.h>

#include "../include/zdd.h"

/* the calls, of the header's types */
__typeof__(zdd_fresh) tuned_fresh;
__typeof__(zdd_change) tuned_change, tuned_subset0;
__typeof__(zdd_union) tuned_union, tuned_intsec, tuned_diff;
__typeof__(zdd_even) tuned_even, tuned_odd;
__typeof__(zdd_size) tuned_size, tuned_size_compact;
__typeof__(zdd_has) tuned_has;
__typeof__(zdd_weight_by_members) tuned_weight_by_members, tuned_weight_by_nodes;
__typeof__(zdd_save) tuned_save;
__typeof__(zdd_load) tuned_load;
__typeof__(zdd_audit) tuned_audit;

enum { SUBSET0 = 2, CHANGE, UNION, INTSEC, DIFF, EVEN, ODD };

/* in place of a handle: no room for a node */
#define NO_ROOM UINT32_MAX

/* A store while a call runs. Without a whole group of lent cache words the cache is one group of its own. */
typedef struct {
    uint32_t *nodes, *lookup, *cache;
    uint32_t slots, groups, capacity, count;
    uint32_t own[4];
} context;

/* ---- the record and the tests before a call ---- */

static uint32_t capacity_of(size_t node_words) {
    return node_words / 3 < ZDD_LARGEST_CAPACITY ? (uint32_t)(node_words / 3) : ZDD_LARGEST_CAPACITY;
}

static bool is_limit(uint32_t limit) { return 1 <= limit && limit <= ZDD_LARGEST_ITEM; }

static bool fits(zdd_store s, size_t node_words, size_t lookup_words) {
    return s.capacity == capacity_of(node_words) && s.capacity < lookup_words && s.count <= s.capacity && is_limit(s.limit);
}

static bool holds(zdd_store s, uint32_t p) { return p < 2 || p - 2 < s.count; }

static zdd_placed refused(zdd_store s, uint32_t refusal) { return (zdd_placed){s, refusal, 0, 0}; }

static void zero_groups(uint32_t *cache, size_t cache_words) { memset(cache, 0, cache_words / 4 * 4 * sizeof *cache); }

/* ---- nodes and the unique table ---- */

static inline uint32_t *node_at(const context *c, uint32_t p) { return c->nodes + 3 * (size_t)(p - 2); }

static inline uint32_t top_of(const context *c, uint32_t p) { return p < 2 ? 0 : *node_at(c, p); }

static inline bool same(const uint32_t *node, uint32_t item, uint32_t zero, uint32_t one) {
    return node[0] == item && node[1] == zero && node[2] == one;
}

static inline uint32_t start_slot(const context *c, uint32_t item, uint32_t zero, uint32_t one) {
    return (item * 40503 % 65536 + 65599 * (zero + 65599 * one)) % c->slots;
}

static inline uint32_t next_slot(const context *c, uint32_t slot) { return slot + 1 == c->slots ? 0 : slot + 1; }

static uint32_t append(context *c, uint32_t slot, uint32_t item, uint32_t zero, uint32_t one) {
    if (c->count == c->capacity) return NO_ROOM;
    uint32_t number = c->count++ + 2, *node = node_at(c, number);
    node[0] = item, node[1] = zero, node[2] = one;
    return c->lookup[slot] = number;
}

/* Getnode: the zero side where the one side is {}, else the node, found or new. */
static inline uint32_t get_node(context *c, uint32_t item, uint32_t zero, uint32_t one) {
    if (one == 0) return zero;
    uint32_t slot = start_slot(c, item, zero, one), number;
    while ((number = c->lookup[slot]) != 0) {
        if (same(node_at(c, number), item, zero, one)) return number;
        slot = next_slot(c, slot);
    }
    return append(c, slot, item, zero, one);
}

/* Takes back the newest nodes until `keep` are left, the newest first. */
static void take_back(context *c, uint32_t keep) {
    for (; c->count > keep; c->count--) {
        uint32_t number = c->count + 1, *node = node_at(c, number);
        uint32_t slot = start_slot(c, node[0], node[1], node[2]);
        while (c->lookup[slot] != number) slot = next_slot(c, slot);
        c->lookup[slot] = 0;
        memset(node, 0, 3 * sizeof *node);
    }
}

/* ---- the operations ---- */

/* The cache group of a call: operation, operands, result. */
static inline uint32_t *group_of(const context *c, uint32_t op, uint32_t p, uint32_t q) {
    return c->cache + 4 * (size_t)((p + (q * 2654435761u >> 10) + op * 1000003) % c->groups);
}

static inline bool recalls(const uint32_t *group, uint32_t op, uint32_t p, uint32_t q) {
    return group[1] == p && group[2] == q && group[0] == op;
}

static inline uint32_t remember(uint32_t *group, uint32_t op, uint32_t p, uint32_t q, uint32_t result) {
    group[0] = op, group[1] = p, group[2] = q;
    return group[3] = result;
}

/* Subset0 and Change where the top of p is at most the item. */
static inline uint32_t at_item(context *c, uint32_t op, uint32_t p, uint32_t item, uint32_t top) {
    uint32_t zero = p, one = 0;
    if (top == item) zero = node_at(c, p)[1], one = node_at(c, p)[2];
    return op == CHANGE ? get_node(c, item, one, zero) : zero;
}

static uint32_t item_step(context *c, uint32_t op, uint32_t p, uint32_t item);

static inline uint32_t of_item(context *c, uint32_t op, uint32_t p, uint32_t item) {
    uint32_t top = top_of(c, p);
    return top <= item ? at_item(c, op, p, item, top) : item_step(c, op, p, item);
}

/* The same where the top of p is above the item. */
static uint32_t item_step(context *c, uint32_t op, uint32_t p, uint32_t item) {
    uint32_t *group = group_of(c, op, p, item);
    if (recalls(group, op, p, item)) return group[3];
    const uint32_t *node = node_at(c, p);
    uint32_t zero = of_item(c, op, node[1], item);
    if (zero == NO_ROOM) return NO_ROOM;
    uint32_t one = of_item(c, op, node[2], item);
    if (one == NO_ROOM) return NO_ROOM;
    uint32_t made = get_node(c, node[0], zero, one);
    return made == NO_ROOM ? NO_ROOM : remember(group, op, p, item, made);
}

static uint32_t family_step(context *c, uint32_t op, uint32_t p, uint32_t q);

/* Union, Intsec and Diff: the cases that need no recursion; then rising operands, as Union and Intsec have no order. */
static inline uint32_t of_families(context *c, uint32_t op, uint32_t p, uint32_t q) {
    if (p == q) return op == DIFF ? 0 : p;
    if (p == 0) return op == UNION ? q : 0;
    if (q == 0) return op == INTSEC ? 0 : p;
    return p < q || op == DIFF ? family_step(c, op, p, q) : family_step(c, op, q, p);
}

/* The sides of both at the larger top. */
static uint32_t family_step(context *c, uint32_t op, uint32_t p, uint32_t q) {
    uint32_t *group = group_of(c, op, p, q);
    if (recalls(group, op, p, q)) return group[3];
    uint32_t ptop = top_of(c, p), qtop = top_of(c, q), top = ptop < qtop ? qtop : ptop;
    uint32_t p0 = p, p1 = 0, q0 = q, q1 = 0;
    if (ptop == top) p0 = node_at(c, p)[1], p1 = node_at(c, p)[2];
    if (qtop == top) q0 = node_at(c, q)[1], q1 = node_at(c, q)[2];
    uint32_t zero = of_families(c, op, p0, q0);
    if (zero == NO_ROOM) return NO_ROOM;
    uint32_t one = of_families(c, op, p1, q1);
    if (one == NO_ROOM) return NO_ROOM;
    uint32_t made = get_node(c, top, zero, one);
    return made == NO_ROOM ? NO_ROOM : remember(group, op, p, q, made);
}

static uint32_t parity_step(context *c, uint32_t op, uint32_t p);

/* Even and Odd: {} and {{}} are their own even part, and have no odd one. */
static inline uint32_t of_parity(context *c, uint32_t op, uint32_t p) {
    if (p < 2) return op == EVEN ? p : 0;
    return parity_step(c, op, p);
}

/* The same part of the without-side, the other one of the with-side. */
static uint32_t parity_step(context *c, uint32_t op, uint32_t p) {
    uint32_t *group = group_of(c, op, p, 0);
    if (recalls(group, op, p, 0)) return group[3];
    const uint32_t *node = node_at(c, p);
    uint32_t zero = of_parity(c, op, node[1]);
    if (zero == NO_ROOM) return NO_ROOM;
    uint32_t one = of_parity(c, EVEN + ODD - op, node[2]);
    if (one == NO_ROOM) return NO_ROOM;
    uint32_t made = get_node(c, node[0], zero, one);
    return made == NO_ROOM ? NO_ROOM : remember(group, op, p, 0, made);
}

/* ---- the calls that place a family ---- */

#define STORE zdd_store s, uint32_t *nodes, size_t node_words, uint32_t *lookup, size_t lookup_words
#define READ zdd_store s, const uint32_t *nodes, size_t node_words, const uint32_t *lookup, size_t lookup_words
#define CACHE uint32_t *cache, size_t cache_words

static void open_store(context *c, zdd_store s, uint32_t *nodes, uint32_t *lookup, size_t lookup_words, CACHE) {
    *c = (context){nodes, lookup, cache, (uint32_t)lookup_words, (uint32_t)(cache_words / 4), s.capacity, s.count, {0}};
    if (c->groups == 0) c->cache = c->own, c->groups = 1;
}

/* The end of a call that places: after no room everything is as before, and the cache is 0. */
static zdd_placed placed(context *c, zdd_store s, uint32_t handle, CACHE) {
    if (handle != NO_ROOM) return (zdd_placed){{s.capacity, c->count, s.limit}, 0, handle, c->count - s.count};
    take_back(c, s.count);
    zero_groups(cache, cache_words);
    return refused(s, ZDD_FULL);
}

static inline zdd_placed item_call(uint32_t op, STORE, CACHE, uint32_t p, uint32_t item) {
    if (!fits(s, node_words, lookup_words)) return refused(s, ZDD_DAMAGED);
    if (!holds(s, p)) return refused(s, ZDD_HANDLE);
    if (item - 1 >= s.limit) return refused(s, ZDD_ITEM);
    context c;
    open_store(&c, s, nodes, lookup, lookup_words, cache, cache_words);
    return placed(&c, s, of_item(&c, op, p, item), cache, cache_words);
}

static inline zdd_placed family_call(uint32_t op, STORE, CACHE, uint32_t p, uint32_t q) {
    if (!fits(s, node_words, lookup_words)) return refused(s, ZDD_DAMAGED);
    if (!holds(s, p) || !holds(s, q)) return refused(s, ZDD_HANDLE);
    context c;
    open_store(&c, s, nodes, lookup, lookup_words, cache, cache_words);
    return placed(&c, s, of_families(&c, op, p, q), cache, cache_words);
}

static inline zdd_placed parity_call(uint32_t op, STORE, CACHE, uint32_t p) {
    if (!fits(s, node_words, lookup_words)) return refused(s, ZDD_DAMAGED);
    if (!holds(s, p)) return refused(s, ZDD_HANDLE);
    context c;
    open_store(&c, s, nodes, lookup, lookup_words, cache, cache_words);
    return placed(&c, s, of_parity(&c, op, p), cache, cache_words);
}

#define CALL(name, call, op)                                                                  \
    zdd_placed name(STORE, CACHE, uint32_t p, uint32_t q) {                                   \
        return call(op, s, nodes, node_words, lookup, lookup_words, cache, cache_words, p, q); \
    }
CALL(tuned_subset0, item_call, SUBSET0)
CALL(tuned_change, item_call, CHANGE)
CALL(tuned_union, family_call, UNION)
CALL(tuned_intsec, family_call, INTSEC)
CALL(tuned_diff, family_call, DIFF)

zdd_placed tuned_even(STORE, CACHE, uint32_t p) {
    return parity_call(EVEN, s, nodes, node_words, lookup, lookup_words, cache, cache_words, p);
}

zdd_placed tuned_odd(STORE, CACHE, uint32_t p) {
    return parity_call(ODD, s, nodes, node_words, lookup, lookup_words, cache, cache_words, p);
}

zdd_freshened tuned_fresh(uint32_t *nodes, size_t node_words, uint32_t *lookup, size_t lookup_words, CACHE, uint32_t limit) {
    uint32_t capacity = capacity_of(node_words);
    if (node_words < 3) return (zdd_freshened){{0, 0, 0}, ZDD_TINY};
    if (lookup_words <= capacity) return (zdd_freshened){{0, 0, 0}, ZDD_SHORT_LOOKUP};
    if (!is_limit(limit)) return (zdd_freshened){{0, 0, 0}, ZDD_ITEM};
    memset(nodes, 0, 3 * (size_t)capacity * sizeof *nodes);
    memset(lookup, 0, lookup_words * sizeof *lookup);
    zero_groups(cache, cache_words);
    return (zdd_freshened){{capacity, 0, limit}, 0};
}

/* ---- Size and Has ---- */

static inline uint64_t size_of(const uint64_t *sizes, uint32_t p) { return p < 2 ? p : sizes[p - 2]; }

/* Whether a size that is kept as the largest number is above it: where the zero side is {}, the one side decides. */
static bool exceeds(const uint32_t *nodes, const uint64_t *sizes, uint32_t p) {
    for (;;) {
        const uint32_t *node = nodes + 3 * (size_t)(p - 2);
        uint64_t zero = size_of(sizes, node[1]), one = size_of(sizes, node[2]);
        if (one < UINT64_MAX) return UINT64_MAX - one < zero;
        if (zero != 0) return true;
        p = node[2];
    }
}

zdd_measured tuned_size(READ, uint32_t p, uint64_t *sizes, size_t scratch_words) {
    (void)lookup;
    if (!fits(s, node_words, lookup_words)) return (zdd_measured){s, ZDD_DAMAGED, 0};
    if (!holds(s, p)) return (zdd_measured){s, ZDD_HANDLE, 0};
    if (scratch_words < s.count) return (zdd_measured){s, ZDD_SCRATCH, 0};
    for (size_t k = 0; k < s.count; k++) {
        uint64_t one = size_of(sizes, nodes[3 * k + 2]), sum = size_of(sizes, nodes[3 * k + 1]) + one;
        sizes[k] = sum < one ? UINT64_MAX : sum;
    }
    uint64_t size = size_of(sizes, p);
    if (size == UINT64_MAX && exceeds(nodes, sizes, p)) return (zdd_measured){s, ZDD_LARGE, 0};
    return (zdd_measured){s, 0, size};
}

/* The parts of a family met so far, in a table: a tag for each place, then the sizes. A tag has 20 bits each for the handle of the
 * part there, for the place before it in its chain and for the head of the chain that starts there. Places count from 1 in
 * chains; 0 ends one. A size above the largest number is 0. */
#define TABLE const uint32_t *nodes, uint64_t *tags, uint32_t places, uint32_t *entered
#define HAND_ON nodes, tags, places, entered

enum { LOW_20 = (1 << 20) - 1 };

static uint32_t enter_parts(uint32_t p, TABLE);

/* The number of p: {} is 0, {{}} is 1, the parts follow by place; NO_ROOM where they do not fit. */
static inline uint32_t number_of(uint32_t p, TABLE) {
    if (p < 2) return p;
    uint32_t at = (uint32_t)(tags[p % places] >> 40);
    while (at != 0 && (tags[at - 1] & LOW_20) != p) at = (uint32_t)(tags[at - 1] >> 20) & LOW_20;
    return at != 0 ? at + 1 : enter_parts(p, HAND_ON);
}

static inline uint64_t sum_of(uint64_t a, uint64_t b) { return a == 0 || b == 0 || a + b < a ? 0 : a + b; }

static inline void enter_part(uint32_t p, uint64_t *tags, uint32_t places, uint32_t place) {
    uint64_t *head = &tags[p % places];
    tags[place] = tags[place] >> 40 << 40 | *head >> 40 << 20 | p;
    *head = *head << 24 >> 24 | (uint64_t)(place + 1) << 40;
}

/* Enters the parts of p that were not yet: those of its sides, then p. */
static uint32_t enter_parts(uint32_t p, TABLE) {
    const uint32_t *node = nodes + 3 * (size_t)(p - 2);
    uint32_t zero = number_of(node[1], HAND_ON);
    if (zero == NO_ROOM) return NO_ROOM;
    uint32_t one = number_of(node[2], HAND_ON);
    if (one == NO_ROOM) return NO_ROOM;
    uint64_t *sizes = tags + places, size = one == 1 ? 1 : sizes[one - 2];
    if (zero != 0) size = sum_of(size, zero == 1 ? 1 : sizes[zero - 2]);
    uint32_t place = *entered;
    if (place == places) return NO_ROOM;
    *entered = place + 1;
    enter_part(p, tags, places, place);
    sizes[place] = size;
    return place + 2;
}

zdd_measured tuned_size_compact(READ, uint32_t p, uint64_t *tags, size_t scratch_words) {
    (void)lookup;
    if (!fits(s, node_words, lookup_words)) return (zdd_measured){s, ZDD_DAMAGED, 0};
    if (!holds(s, p)) return (zdd_measured){s, ZDD_HANDLE, 0};
    if (p < 2) return (zdd_measured){s, 0, p};
    uint32_t places = scratch_words / 2 < s.count ? (uint32_t)(scratch_words / 2) : s.count, entered = 0;
    if (places == 0) return (zdd_measured){s, ZDD_SCRATCH, 0};
    memset(tags, 0, places * sizeof *tags);
    uint32_t number = enter_parts(p, nodes, tags, places, &entered);
    if (number == NO_ROOM) return (zdd_measured){s, ZDD_SCRATCH, 0};
    uint64_t size = tags[(size_t)places + (number - 2)];
    return size == 0 ? (zdd_measured){s, ZDD_LARGE, 0} : (zdd_measured){s, 0, size};
}

static inline bool is_empty(const uint32_t words[16]) {
    uint32_t left = 0;
    for (int k = 0; k < 16; k++) left |= words[k];
    return left == 0;
}

/* One way down: each item of the combination that is met is taken out of it, and none may be left over. */
static bool is_member(const uint32_t *nodes, uint32_t p, uint32_t words[16]) {
    while (p >= 2) {
        const uint32_t *node = nodes + 3 * (size_t)(p - 2);
        uint32_t *word = &words[(node[0] - 1) / 32], bit = 1u << (node[0] - 1) % 32;
        p = *word & bit ? node[2] : node[1];
        *word &= ~bit;
    }
    return p == 1 && is_empty(words);
}

zdd_asked tuned_has(READ, uint32_t p, zdd_combination combination) {
    (void)lookup;
    if (!fits(s, node_words, lookup_words)) return (zdd_asked){s, ZDD_DAMAGED, false};
    if (!holds(s, p)) return (zdd_asked){s, ZDD_HANDLE, false};
    return (zdd_asked){s, 0, is_member(nodes, p, combination.words)};
}

/* ---- sums of weights ---- */

/* The refusal of either call before its work, 0 where there is none. */
static inline uint32_t weights_refused(zdd_store s, size_t node_words, size_t lookup_words, uint32_t p, size_t weight_count,
                                       size_t scratch_words) {
    if (!fits(s, node_words, lookup_words)) return ZDD_DAMAGED;
    if (!holds(s, p)) return ZDD_HANDLE;
    if (weight_count != ZDD_LARGEST_ITEM) return ZDD_WEIGHTS;
    return scratch_words / 3 < s.count ? ZDD_SCRATCH : 0;
}

/* The sum so far, and whether it is above the largest number. */
typedef struct {
    const uint32_t *nodes, *weights;
    uint64_t sum;
    bool above;
} adding;

/* Adds the weight of each member of p; `carried` is that of the items on the way to it. */
static void add_members(adding *a, uint32_t p, uint64_t carried) {
    while (p >= 2 && !a->above) {
        const uint32_t *node = a->nodes + 3 * (size_t)(p - 2);
        if (node[1] != 0) add_members(a, node[1], carried);
        carried += a->weights[node[0] - 1];
        p = node[2];
    }
    if (p == 1) a->above |= __builtin_add_overflow(a->sum, carried, &a->sum);
}

zdd_weighed tuned_weight_by_members(READ, uint32_t p, const uint32_t *weights, size_t weight_count, uint64_t *scratch,
                                    size_t scratch_words) {
    (void)lookup, (void)scratch;
    uint32_t refusal = weights_refused(s, node_words, lookup_words, p, weight_count, scratch_words);
    if (refusal) return (zdd_weighed){s, refusal, 0};
    adding a = {nodes, weights, 0, false};
    add_members(&a, p, 0);
    return a.above ? (zdd_weighed){s, ZDD_LARGE, 0} : (zdd_weighed){s, 0, a.sum};
}

/* Size and sum of a handle, each at most 2^64 - 1; words 2k and 2k + 1 are those of node k + 2. Where one of them is that, word
 * 2 * count + k is the node's mark: 1 where the size is above it, 2 where the sum is. */
typedef struct {
    uint64_t size, sum;
} pair;

static inline pair pair_of(const uint64_t *words, uint32_t p) {
    if (p < 2) return (pair){p, 0};
    return (pair){words[2 * (size_t)(p - 2)], words[2 * (size_t)(p - 2) + 1]};
}

static inline unsigned mark_of(const uint64_t *marks, uint32_t p, pair a) {
    return p < 2 || (a.size != UINT64_MAX && a.sum != UINT64_MAX) ? 0 : (unsigned)marks[p - 2];
}

/* Size and sum of node k + 2 where they may not fit: 2^64 stands for every number above. */
static void put_large(uint64_t *words, uint64_t *marks, size_t k, uint64_t weight, uint32_t zero, uint32_t one) {
    pair a = pair_of(words, zero), b = pair_of(words, one);
    unsigned of_a = mark_of(marks, zero, a), of_b = mark_of(marks, one, b);
    unsigned __int128 with = (unsigned __int128)b.size + (of_b & 1), size = (unsigned __int128)a.size + (of_a & 1) + with;
    unsigned __int128 sum = weight * with + a.sum + (of_a >> 1) + b.sum + (of_b >> 1);
    words[2 * k] = size > UINT64_MAX ? UINT64_MAX : (uint64_t)size;
    words[2 * k + 1] = sum > UINT64_MAX ? UINT64_MAX : (uint64_t)sum;
    marks[k] = (size > UINT64_MAX) | (sum > UINT64_MAX) << 1;
}

zdd_weighed tuned_weight_by_nodes(READ, uint32_t p, const uint32_t *weights, size_t weight_count, uint64_t *words,
                                  size_t scratch_words) {
    (void)lookup;
    uint32_t refusal = weights_refused(s, node_words, lookup_words, p, weight_count, scratch_words);
    if (refusal) return (zdd_weighed){s, refusal, 0};
    uint64_t *marks = words + 2 * (size_t)s.count;
    for (size_t k = 0; k + 1 < p; k++) {
        uint64_t weight = weights[nodes[3 * k] - 1];
        uint32_t zero = nodes[3 * k + 1], one = nodes[3 * k + 2];
        pair a = pair_of(words, zero), b = pair_of(words, one);
        if ((a.size | b.size) >> 31 | (a.sum | b.sum) >> 62) put_large(words, marks, k, weight, zero, one);
        else words[2 * k] = a.size + b.size, words[2 * k + 1] = a.sum + b.sum + weight * b.size;
    }
    pair of_p = pair_of(words, p);
    return mark_of(marks, p, of_p) & 2 ? (zdd_weighed){s, ZDD_LARGE, 0} : (zdd_weighed){s, 0, of_p.sum};
}

/* ---- Save ---- */

/* The parts met so far: each links to the next, the last to itself; 0 is not met. And the length of their file. */
typedef struct {
    const uint32_t *nodes;
    uint32_t *links;
    uint32_t first, last, item, parts;
    size_t bytes;
} trail;

static inline size_t record_bytes(bool item, bool zero, bool one) { return 1 + 2 * item + 4 * zero + 4 * one; }

static inline bool is_met(const trail *t, uint32_t p) { return p < 2 || t->links[p - 2] != 0; }

/* Meets the parts of p, which is not met yet: without-side, with-side, p. */
static void walk(trail *t, uint32_t p) {
    const uint32_t *node = t->nodes + 3 * (size_t)(p - 2);
    if (!is_met(t, node[1])) walk(t, node[1]);
    if (!is_met(t, node[2])) walk(t, node[2]);
    t->bytes += record_bytes(node[0] != t->item + 1, node[1] != 0, node[2] != t->last);
    if (t->parts++ == 0) t->first = p;
    else t->links[t->last - 2] = p;
    t->links[p - 2] = p;
    t->last = p, t->item = node[0];
}

static inline uint8_t *put(uint8_t *out, uint32_t value, int width) {
    for (int k = 0; k < width; k++) out[k] = (uint8_t)(value >> 8 * k);
    return out + width;
}

static inline uint32_t local(const uint32_t *links, uint32_t p) { return p < 2 ? p : links[p - 2]; }

/* Writes the records along the links; a part that is written has its local number for its link. */
static void write_parts(const trail *t, uint8_t *out) {
    uint32_t p = t->first, item = 0;
    for (uint32_t number = 1; number <= t->parts; number++) {
        const uint32_t *node = t->nodes + 3 * (size_t)(p - 2);
        uint32_t zero = local(t->links, node[1]), one = local(t->links, node[2]), next = t->links[p - 2];
        uint8_t *map = out++;
        *map = (uint8_t)((node[0] != item + 1) + 2 * (zero != 0) + 4 * (one != number));
        if (node[0] != item + 1) out = put(out, node[0], 2);
        if (zero != 0) out = put(out, zero, 4);
        if (one != number) out = put(out, one, 4);
        t->links[p - 2] = number + 1;
        item = node[0], p = next;
    }
}

zdd_saved tuned_save(READ, uint32_t p, uint32_t *links, size_t scratch_words, uint8_t *out, size_t out_bytes) {
    (void)lookup;
    if (!fits(s, node_words, lookup_words)) return (zdd_saved){s, ZDD_DAMAGED, 0};
    if (!holds(s, p)) return (zdd_saved){s, ZDD_HANDLE, 0};
    if (scratch_words < s.count) return (zdd_saved){s, ZDD_SCRATCH, 0};
    trail t = {nodes, links, 0, 1, 0, 0, p < 2 ? 1 : 5};
    if (p >= 2) {
        memset(links, 0, s.count * sizeof *links);
        walk(&t, p);
    }
    if (out_bytes < t.bytes) return (zdd_saved){s, ZDD_OUTPUT, 0};
    out[0] = p < 2 ? 2 * (uint8_t)p : 1;
    if (p >= 2) write_parts(&t, put(out + 1, t.parts, 4));
    return (zdd_saved){s, 0, t.bytes};
}

/* ---- Load ---- */

/* The rest of a file. */
typedef struct {
    const uint8_t *at, *end;
} input;

static uint32_t number_at(const uint8_t *bytes, int width) {
    uint32_t value = 0;
    for (int k = width; k-- > 0;) value = 256 * value + bytes[k];
    return value;
}

/* A field, where it stands; false where it is cut off or needless. */
static inline bool take(input *in, int width, bool stands, uint32_t other, uint32_t *value) {
    *value = other;
    if (!stands) return true;
    if (in->end - in->at < width) return false;
    *value = number_at(in->at, width);
    in->at += width;
    return *value != other;
}

/* Takes the record after k others into the local table; false where it is none, or no part that can come next. */
static bool take_part(input *in, context *table, uint32_t k, uint32_t last_item) {
    uint32_t item, zero, one;
    if (in->at == in->end || *in->at > 7) return false;
    uint8_t map = *in->at++;
    if (!take(in, 2, map & 1, last_item + 1, &item)) return false;
    if (!take(in, 4, map & 2, 0, &zero)) return false;
    if (!take(in, 4, map & 4, k + 1, &one)) return false;
    if (item > ZDD_LARGEST_ITEM || zero > k + 1 || one > k + 1 || one == 0) return false;
    if (item <= top_of(table, zero) || item <= top_of(table, one)) return false;
    return get_node(table, item, zero, one) == k + 2;
}

/* The last number placed once the parts of p are, after those up to `last`; 0 where one is out of its order. */
static uint32_t in_order(const context *table, uint32_t p, uint32_t last) {
    const uint32_t *node = node_at(table, p);
    if (node[1] > last) last = in_order(table, node[1], last);
    if (last != 0 && node[2] > last) last = in_order(table, node[2], last);
    return last == p - 1 ? p : 0;
}

/* The number of parts that the file has, then in the local table; 0 where it is no file. */
static uint32_t read_parts(input in, context *table) {
    if (in.end - in.at < 5) return 0;
    uint32_t parts = number_at(in.at + 1, 4), item = 0;
    if (parts == 0 || parts == UINT32_MAX) return 0;
    in.at += 5;
    memset(table->lookup, 0, table->slots * sizeof *table->lookup);
    for (uint32_t k = 0; k < parts; k++) {
        if (!take_part(&in, table, k, item)) return 0;
        item = table->nodes[3 * (size_t)k];
    }
    return in.at == in.end && in_order(table, parts + 1, 1) != 0 ? parts : 0;
}

/* Places the parts of the local table and keeps the handle of each; gives the last. */
static uint32_t place_parts(context *c, const context *table, uint32_t *handles, uint32_t parts) {
    uint32_t handle = 0;
    for (uint32_t k = 0; k < parts && handle != NO_ROOM; k++) {
        const uint32_t *node = table->nodes + 3 * (size_t)k;
        handle = get_node(c, node[0], local(handles, node[1]), local(handles, node[2]));
        handles[k] = handle;
    }
    return handle;
}

zdd_placed tuned_load(STORE, CACHE, const uint8_t *file, size_t file_bytes, uint32_t *scratch, size_t scratch_words) {
    if (!fits(s, node_words, lookup_words)) return refused(s, ZDD_DAMAGED);
    if (scratch_words / 6 < file_bytes) return refused(s, ZDD_SCRATCH);
    if (file_bytes == 1 && (file[0] == 0 || file[0] == 2)) return (zdd_placed){s, 0, file[0] / 2, 0};
    if (file_bytes == 0 || file[0] != 1) return refused(s, ZDD_NO_FILE);
    context table, c;
    open_store(&table, (zdd_store){(uint32_t)file_bytes, 0, s.limit}, scratch, scratch + 3 * file_bytes, 2 * file_bytes, NULL, 0);
    uint32_t parts = read_parts((input){file, file + file_bytes}, &table);
    if (parts == 0) return refused(s, ZDD_NO_FILE);
    if (s.limit < top_of(&table, parts + 1)) return refused(s, ZDD_ABOVE_LIMIT);
    open_store(&c, s, nodes, lookup, lookup_words, cache, cache_words);
    return placed(&c, s, place_parts(&c, &table, scratch + 5 * file_bytes, parts), cache, cache_words);
}

/* ---- Audit ---- */

/* Whether the words of node k + 2 obey the rules of a node and its number stands where their search ends. */
static bool obeys(const context *c, uint32_t limit, uint32_t k) {
    const uint32_t *node = c->nodes + 3 * (size_t)k;
    uint32_t item = node[0], zero = node[1], one = node[2];
    if (item > limit || one == 0 || zero > k + 1 || one > k + 1) return false;
    if (item <= top_of(c, zero) || item <= top_of(c, one)) return false;
    uint32_t slot = start_slot(c, item, zero, one), left = c->slots;
    while (left > 0 && c->lookup[slot] - 2 < k && !same(node_at(c, c->lookup[slot]), item, zero, one))
        slot = next_slot(c, slot), left--;
    return left > 0 && c->lookup[slot] == k + 2;
}

static bool all_obey(const context *c, uint32_t limit) {
    for (uint32_t k = 0; k < c->count; k++)
        if (!obeys(c, limit, k)) return false;
    return true;
}

/* How many words are not 0. */
static size_t used(const uint32_t *words, size_t length) {
    size_t number = 0;
    for (size_t k = 0; k < length; k++) number += words[k] != 0;
    return number;
}

zdd_audited tuned_audit(READ, CACHE) {
    zero_groups(cache, cache_words);
    if (!fits(s, node_words, lookup_words)) return (zdd_audited){s, false};
    if (used(lookup, lookup_words) != s.count) return (zdd_audited){s, false};
    if (used(nodes + 3 * (size_t)s.count, 3 * (size_t)(s.capacity - s.count)) != 0) return (zdd_audited){s, false};
    context c;
    open_store(&c, s, (uint32_t *)nodes, (uint32_t *)lookup, lookup_words, cache, cache_words);
    return (zdd_audited){s, all_obey(&c, s.limit)};
}
