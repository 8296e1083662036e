/* A store in plain C, the benchmark's yardstick: this library's procedures, function by function, with the same parameters
 * and the same tests, so that a list of calls gives the same answers and leaves the same words. Size by its first entry, Load
 * and Audit are those of tuned.c. Nothing of it is proved, and nothing but the benchmark uses it. */
#include <string.h>

#include "../include/zdd.h"

__typeof__(zdd_fresh) plain_fresh;
__typeof__(zdd_change) plain_change, plain_subset0;
__typeof__(zdd_union) plain_union, plain_intsec, plain_diff;
__typeof__(zdd_even) plain_even, plain_odd;
__typeof__(zdd_size_compact) plain_size_compact;
__typeof__(zdd_has) plain_has;
__typeof__(zdd_weight_by_members) plain_weight_by_members, plain_weight_by_nodes;
__typeof__(zdd_save) plain_save;

enum { SUBSET1 = 1, SUBSET0, CHANGE, UNION, INTSEC, DIFF, EVEN, ODD };

/* in place of a handle: no room for a node, and words that no sound store has */
#define FULL (UINT32_MAX - 1)
#define DAMAGED UINT32_MAX

/* lent words with their number */
typedef struct {
    uint32_t *at;
    size_t length;
} words;

/* ---- the record and the tests before a call ---- */

static uint32_t capacity_of(size_t node_words) {
    return node_words / 3 < ZDD_LARGEST_CAPACITY ? (uint32_t)(node_words / 3) : ZDD_LARGEST_CAPACITY;
}

static bool is_limit(uint32_t limit) { return 1 <= limit && limit <= ZDD_LARGEST_ITEM; }

static bool fits(zdd_store s, size_t node_words, size_t lookup_words) {
    return s.capacity == capacity_of(node_words) && s.capacity < lookup_words && s.count <= s.capacity && is_limit(s.limit);
}

static bool holds(zdd_store s, uint32_t p) { return p < 2 || p - 2 < s.count; }

static zdd_placed refused(zdd_store s, uint32_t refusal) { return (zdd_placed){s, refusal, 0, 0}; }

static void zero_groups(words cache) {
    if (4 <= cache.length) memset(cache.at, 0, cache.length / 4 * 4 * sizeof *cache.at);
}

/* ---- reading nodes ---- */

typedef struct {
    bool broken;
    uint32_t zero, one, ztop, otop;
} sides;

static uint32_t top_of(words nodes, uint32_t p) { return p < 2 ? 0 : nodes.at[3 * (size_t)(p - 2)]; }

/* The sides of p at a level that is not below its top; their tops are not read. */
static sides cofactors_at(words nodes, uint32_t count, uint32_t p, uint32_t top, uint32_t level) {
    if (top < level) return (sides){false, p, 0, 0, 0};
    size_t base = 3 * (size_t)(p - 2);
    uint32_t zero = nodes.at[base + 1], one = nodes.at[base + 2];
    return (sides){count + 1 < zero || count + 1 < one, zero, one, 0, 0};
}

/* The same with their tops. */
static sides sides_at(words nodes, uint32_t count, uint32_t p, uint32_t level) {
    sides s = cofactors_at(nodes, count, p, top_of(nodes, p), level);
    if (s.broken) return s;
    s.ztop = top_of(nodes, s.zero), s.otop = top_of(nodes, s.one);
    s.broken = level <= s.ztop || level <= s.otop;
    return s;
}

/* ---- the unique table ---- */

static size_t start_slot(uint32_t item, uint32_t zero, uint32_t one, size_t slots) {
    return (item * 40503 % 65536 + 65599 * (zero + 65599 * one)) % slots;
}

static bool stops(words nodes, uint32_t count, uint32_t item, uint32_t zero, uint32_t one, uint32_t number) {
    if (number < 2 || count + 1 < number) return true;
    const uint32_t *node = nodes.at + 3 * (size_t)(number - 2);
    return node[0] == item && node[1] == zero && node[2] == one;
}

/* The first slot at which the search for a node stops; the length where there is none. */
static size_t probe(words nodes, words lookup, uint32_t count, uint32_t item, uint32_t zero, uint32_t one) {
    size_t slot = start_slot(item, zero, one, lookup.length);
    for (size_t left = lookup.length; left != 0; left--) {
        if (stops(nodes, count, item, zero, one, lookup.at[slot])) return slot;
        slot = slot + 1 == lookup.length ? 0 : slot + 1;
    }
    return lookup.length;
}

static uint32_t enter(uint32_t *count, words nodes, words lookup, size_t slot, uint32_t item, uint32_t zero, uint32_t one) {
    uint32_t *node = nodes.at + 3 * (size_t)*count;
    node[0] = item, node[1] = zero, node[2] = one;
    lookup.at[slot] = *count + 2;
    *count += 1;
    return *count + 1;
}

/* Getnode: the zero side where the one side is {}, else the node, found or new. */
static uint32_t node_of(uint32_t capacity, uint32_t *count, words nodes, words lookup, uint32_t item, uint32_t zero, uint32_t one) {
    if (one == 0) return zero;
    size_t slot = probe(nodes, lookup, *count, item, zero, one);
    if (lookup.length <= slot) return DAMAGED;
    uint32_t number = lookup.at[slot];
    if (number == 0) return capacity <= *count ? FULL : enter(count, nodes, lookup, slot, item, zero, one);
    return number < 2 || *count + 1 < number ? DAMAGED : number;
}

/* ---- the cache ---- */

typedef struct {
    uint32_t op, p, q;
} call;

static size_t group_of(call c, words cache) {
    size_t groups = cache.length / 4;
    return groups == 0 ? 0 : (c.p + c.q * (uint64_t)2654435761 % 4294967296 / 1024 + c.op * (uint64_t)1000003) % groups;
}

/* The result of a call in its group, where the group has it and it is a handle held; else FULL. */
static uint32_t recall(words cache, size_t group, uint32_t count, call c) {
    if (cache.length / 4 <= group) return FULL;
    const uint32_t *at = cache.at + 4 * group;
    if (at[1] != c.p || at[2] != c.q || at[0] != c.op || count + 1 < at[3]) return FULL;
    return at[3];
}

static void keep(words cache, size_t group, call c, uint32_t result) {
    if (FULL <= result || cache.length / 4 <= group) return;
    uint32_t *at = cache.at + 4 * group;
    at[0] = c.op, at[1] = c.p, at[2] = c.q, at[3] = result;
}

/* ---- Subset1, Subset0 and Change ---- */

#define WORDS uint32_t capacity, uint32_t *count, words nodes, words lookup, words cache
#define HAND_ON capacity, count, nodes, lookup, cache

/* The level, the top of p, is at most the item: its two sides at the item are Subset0 and Subset1, and Change swaps them. */
static uint32_t leaf(uint32_t op, uint32_t p, uint32_t item, uint32_t level, uint32_t capacity, uint32_t *count, words nodes,
                     words lookup) {
    sides s = cofactors_at(nodes, *count, p, level, item);
    if (s.broken) return DAMAGED;
    if (op != CHANGE) return op == SUBSET1 ? s.one : s.zero;
    return node_of(capacity, count, nodes, lookup, item, s.one, s.zero);
}

static uint32_t expand_item(uint32_t op, uint32_t p, uint32_t item, uint32_t level, WORDS);

/* Above the top no member holds the item: Subset1 is {}, and Subset0 is p itself. */
static uint32_t restrict_to(uint32_t op, uint32_t p, uint32_t item, uint32_t level, WORDS) {
    if (level < item && op != CHANGE) return op == SUBSET1 ? 0 : p;
    if (level <= item) return leaf(op, p, item, level, capacity, count, nodes, lookup);
    return expand_item(op, p, item, level, HAND_ON);
}

/* The item is below the level: the cache, else the two sides and the node of their results. */
static uint32_t expand_item(uint32_t op, uint32_t p, uint32_t item, uint32_t level, WORDS) {
    call c = {op, p, item};
    size_t group = group_of(c, cache);
    uint32_t known = recall(cache, group, *count, c);
    if (known < FULL) return known;
    sides s = sides_at(nodes, *count, p, level);
    if (s.broken) return DAMAGED;
    uint32_t zero = restrict_to(op, s.zero, item, s.ztop, HAND_ON);
    if (FULL <= zero) return zero;
    uint32_t one = restrict_to(op, s.one, item, s.otop, HAND_ON);
    if (FULL <= one) return one;
    uint32_t made = node_of(capacity, count, nodes, lookup, level, zero, one);
    keep(cache, group, c, made);
    return made;
}

/* ---- Union, Intsec and Diff ---- */

static uint32_t larger(uint32_t a, uint32_t b) { return a < b ? b : a; }

static call ordered(call c) { return c.op == DIFF || c.p <= c.q ? c : (call){c.op, c.q, c.p}; }

/* The result of a terminal case; else FULL. */
static uint32_t shortcut(call c) {
    if (c.p == c.q) return c.op == DIFF ? 0 : c.p;
    if (c.p == 0) return c.op == UNION ? c.q : 0;
    if (c.q == 0) return c.op == INTSEC ? 0 : c.p;
    return FULL;
}

static uint32_t expand_families(call c, uint32_t bound, WORDS);

static uint32_t apply(call asked, uint32_t bound, WORDS) {
    uint32_t known = shortcut(asked);
    return known < FULL ? known : expand_families(ordered(asked), bound, HAND_ON);
}

/* No terminal case: the cache, else the two sides of both at the larger top, below the bound, and the node of their results. */
static uint32_t expand_families(call c, uint32_t bound, WORDS) {
    size_t group = group_of(c, cache);
    uint32_t known = recall(cache, group, *count, c);
    if (known < FULL) return known;
    uint32_t ptop = top_of(nodes, c.p), qtop = top_of(nodes, c.q), level = larger(ptop, qtop);
    if (level == 0 || bound <= level) return DAMAGED;
    sides p = cofactors_at(nodes, *count, c.p, ptop, level), q = cofactors_at(nodes, *count, c.q, qtop, level);
    if (p.broken || q.broken) return DAMAGED;
    uint32_t zero = apply((call){c.op, p.zero, q.zero}, level, HAND_ON);
    if (FULL <= zero) return zero;
    uint32_t one = apply((call){c.op, p.one, q.one}, level, HAND_ON);
    if (FULL <= one) return one;
    uint32_t made = node_of(capacity, count, nodes, lookup, level, zero, one);
    keep(cache, group, c, made);
    return made;
}

/* ---- Even and Odd ---- */

static uint32_t expand_even(uint32_t p, uint32_t level, WORDS);
static uint32_t expand_odd(uint32_t p, uint32_t level, WORDS);

/* The level is the top of p: {} and {{}} are their own even part, and have no odd one. */
static uint32_t even_part(uint32_t p, uint32_t level, WORDS) { return level == 0 ? p : expand_even(p, level, HAND_ON); }

static uint32_t odd_part(uint32_t p, uint32_t level, WORDS) { return level == 0 ? 0 : expand_odd(p, level, HAND_ON); }

/* The top is an item: the cache, else the even part of the without-side, the odd part of the with-side, and their node. */
static uint32_t expand_even(uint32_t p, uint32_t level, WORDS) {
    call c = {EVEN, p, 0};
    size_t group = group_of(c, cache);
    uint32_t known = recall(cache, group, *count, c);
    if (known < FULL) return known;
    sides s = sides_at(nodes, *count, p, level);
    if (s.broken) return DAMAGED;
    uint32_t zero = even_part(s.zero, s.ztop, HAND_ON);
    if (FULL <= zero) return zero;
    uint32_t one = odd_part(s.one, s.otop, HAND_ON);
    if (FULL <= one) return one;
    uint32_t made = node_of(capacity, count, nodes, lookup, level, zero, one);
    keep(cache, group, c, made);
    return made;
}

/* The same with the two parts swapped. */
static uint32_t expand_odd(uint32_t p, uint32_t level, WORDS) {
    call c = {ODD, p, 0};
    size_t group = group_of(c, cache);
    uint32_t known = recall(cache, group, *count, c);
    if (known < FULL) return known;
    sides s = sides_at(nodes, *count, p, level);
    if (s.broken) return DAMAGED;
    uint32_t zero = odd_part(s.zero, s.ztop, HAND_ON);
    if (FULL <= zero) return zero;
    uint32_t one = even_part(s.one, s.otop, HAND_ON);
    if (FULL <= one) return one;
    uint32_t made = node_of(capacity, count, nodes, lookup, level, zero, one);
    keep(cache, group, c, made);
    return made;
}

/* ---- the calls that place a family ---- */

#define STORE zdd_store s, uint32_t *nodes_at, size_t node_words, uint32_t *lookup_at, size_t lookup_words
#define READ zdd_store s, const uint32_t *nodes_at, size_t node_words, const uint32_t *lookup_at, size_t lookup_words
#define CACHE uint32_t *cache_at, size_t cache_words
#define LENT words nodes = {nodes_at, node_words}, lookup = {lookup_at, lookup_words}, cache = {cache_at, cache_words}

/* Takes back the newest nodes until `kept` are left, the newest first. */
static void roll_back(words nodes, words lookup, uint32_t kept, uint32_t count) {
    for (; kept < count; count--) {
        uint32_t *node = nodes.at + 3 * (size_t)(count - 1);
        size_t slot = start_slot(node[0], node[1], node[2], lookup.length), left = lookup.length;
        while (left != 0 && lookup.at[slot] != count + 1) slot = slot + 1 == lookup.length ? 0 : slot + 1, left--;
        if (left != 0) lookup.at[slot] = 0;
        memset(node, 0, 3 * sizeof *node);
    }
}

/* Ends a call: a handle stays, with the number of nodes added; after a refusal everything is as before, and the cache is 0. */
static zdd_placed finish(zdd_store s, uint32_t held, uint32_t result, words nodes, words lookup, words cache) {
    if (result < FULL) return (zdd_placed){{s.capacity, held, s.limit}, 0, result, held - s.count};
    roll_back(nodes, lookup, s.count, held);
    zero_groups(cache);
    return refused(s, result == FULL ? ZDD_FULL : ZDD_DAMAGED);
}

static zdd_placed item_call(uint32_t op, STORE, CACHE, uint32_t p, uint32_t item) {
    if (!fits(s, node_words, lookup_words)) return refused(s, ZDD_DAMAGED);
    if (!holds(s, p)) return refused(s, ZDD_HANDLE);
    if (item == 0 || s.limit < item) return refused(s, ZDD_ITEM);
    LENT;
    uint32_t held = s.count, level = top_of(nodes, p);
    if (s.limit < level) return refused(s, ZDD_DAMAGED);
    uint32_t result = restrict_to(op, p, item, level, s.capacity, &held, nodes, lookup, cache);
    return finish(s, held, result, nodes, lookup, cache);
}

static zdd_placed family_call(uint32_t op, STORE, CACHE, uint32_t p, uint32_t q) {
    if (!fits(s, node_words, lookup_words)) return refused(s, ZDD_DAMAGED);
    if (!holds(s, p) || !holds(s, q)) return refused(s, ZDD_HANDLE);
    LENT;
    uint32_t held = s.count, result = apply((call){op, p, q}, ZDD_LARGEST_ITEM + 1, s.capacity, &held, nodes, lookup, cache);
    return finish(s, held, result, nodes, lookup, cache);
}

static zdd_placed parity_call(bool even, STORE, CACHE, uint32_t p) {
    if (!fits(s, node_words, lookup_words)) return refused(s, ZDD_DAMAGED);
    if (!holds(s, p)) return refused(s, ZDD_HANDLE);
    LENT;
    uint32_t held = s.count, level = top_of(nodes, p), result;
    if (s.limit < level) return refused(s, ZDD_DAMAGED);
    if (even) result = even_part(p, level, s.capacity, &held, nodes, lookup, cache);
    else result = odd_part(p, level, s.capacity, &held, nodes, lookup, cache);
    return finish(s, held, result, nodes, lookup, cache);
}

#define CALL(name, kind, op)                                                                             \
    zdd_placed name(STORE, CACHE, uint32_t p, uint32_t q) {                                              \
        return kind(op, s, nodes_at, node_words, lookup_at, lookup_words, cache_at, cache_words, p, q); \
    }
CALL(plain_subset0, item_call, SUBSET0)
CALL(plain_change, item_call, CHANGE)
CALL(plain_union, family_call, UNION)
CALL(plain_intsec, family_call, INTSEC)
CALL(plain_diff, family_call, DIFF)

zdd_placed plain_even(STORE, CACHE, uint32_t p) {
    return parity_call(true, s, nodes_at, node_words, lookup_at, lookup_words, cache_at, cache_words, p);
}

zdd_placed plain_odd(STORE, CACHE, uint32_t p) {
    return parity_call(false, s, nodes_at, node_words, lookup_at, lookup_words, cache_at, cache_words, p);
}

zdd_freshened plain_fresh(uint32_t *nodes, size_t node_words, uint32_t *lookup, size_t lookup_words, CACHE, uint32_t limit) {
    uint32_t capacity = capacity_of(node_words);
    if (node_words < 3) return (zdd_freshened){{0, 0, 0}, ZDD_TINY};
    if (lookup_words <= capacity) return (zdd_freshened){{0, 0, 0}, ZDD_SHORT_LOOKUP};
    if (!is_limit(limit)) return (zdd_freshened){{0, 0, 0}, ZDD_ITEM};
    memset(nodes, 0, 3 * (size_t)capacity * sizeof *nodes);
    memset(lookup, 0, lookup_words * sizeof *lookup);
    zero_groups((words){cache_at, cache_words});
    return (zdd_freshened){{capacity, 0, limit}, 0};
}

/* ---- Size in two words for each part ---- */

/* lent words of 64 bits with their number */
typedef struct {
    uint64_t *at;
    size_t length;
} wide_words;

/* A tag: the handle of the part at its place, the place before it in its chain, and the head of the chain that starts there.
 * Places count from 1 in chains; 0 ends one. */
static uint32_t handle_of(uint64_t tag) { return (uint32_t)(tag % 1048576); }

static uint32_t next_of(uint64_t tag) { return (uint32_t)(tag / 1048576 % 1048576); }

static uint32_t head_of(uint64_t tag) { return (uint32_t)(tag / 1099511627776); }

static uint64_t linked(uint64_t tag, uint32_t handle, uint32_t next) {
    return tag / 1099511627776 * 1099511627776 + (uint64_t)next * 1048576 + handle;
}

static uint64_t headed(uint64_t tag, uint32_t head) { return tag % 1099511627776 + (uint64_t)head * 1099511627776; }

/* The table: as many places as there are tags, and as many sizes behind them. */
static void clear(wide_words table, uint32_t places) {
    for (uint32_t k = 0; k < places; k++) table.at[k] = 0;
}

/* The place of a handle, counted from 1; 0 where it was not entered. */
static uint32_t find_part(wide_words table, uint32_t places, uint32_t handle) {
    uint32_t at = head_of(table.at[handle % places]);
    while (at != 0) {
        uint64_t tag = table.at[at - 1];
        if (handle_of(tag) == handle) return at;
        at = next_of(tag);
    }
    return 0;
}

static void enter_part(wide_words table, uint32_t places, uint32_t entered, uint32_t handle, uint64_t size) {
    size_t place = entered, start = handle % places;
    table.at[place] = linked(table.at[place], handle, head_of(table.at[start]));
    table.at[start] = headed(table.at[start], entered + 1);
    table.at[(size_t)places + place] = size;
}

/* The size of a number: {} is 0, {{}} is 1, and the parts entered follow. A size above 2^64 - 1 is 0. */
static uint64_t size_of(wide_words table, uint32_t places, uint32_t number) {
    return number < 2 ? number : table.at[(size_t)places + (number - 2)];
}

/* The size of a node by those of its sides; `zero` is 0 where the without-side is {}. */
static uint64_t sum_of(uint32_t zero, uint64_t without, uint64_t with) {
    if (zero == 0) return with;
    if (without == 0 || with == 0 || UINT64_MAX - with < without) return 0;
    return without + with;
}

#define NO_NUMBER UINT32_MAX

static uint32_t append_part(wide_words table, uint32_t places, uint32_t *entered, uint32_t p, uint64_t size) {
    uint32_t n = *entered;
    if (n == places) return NO_NUMBER;
    enter_part(table, places, n, p, size);
    *entered = n + 1;
    return n + 2;
}

static uint32_t enter_parts(uint32_t p, uint32_t bound, words nodes, uint32_t count, wide_words table, uint32_t places, uint32_t *entered);

/* The number of p, whose parts are entered where they were not yet. */
static uint32_t reach(uint32_t p, uint32_t bound, words nodes, uint32_t count, wide_words table, uint32_t places, uint32_t *entered) {
    if (p < 2) return p;
    uint32_t place = find_part(table, places, p);
    return place != 0 ? place + 1 : enter_parts(p, bound, nodes, count, table, places, entered);
}

/* Enters the parts of p, whose top is below the bound, that were not entered yet, p the last of them; gives its number, or none
 * where they do not fit and on words that no sound store has. */
static uint32_t enter_parts(uint32_t p, uint32_t bound, words nodes, uint32_t count, wide_words table, uint32_t places, uint32_t *entered) {
    if (count + 1 < p) return NO_NUMBER;
    const uint32_t *node = nodes.at + 3 * (size_t)(p - 2);
    uint32_t item = node[0];
    if (bound <= item) return NO_NUMBER;
    uint32_t zero = reach(node[1], item, nodes, count, table, places, entered);
    if (zero == NO_NUMBER) return NO_NUMBER;
    uint32_t one = reach(node[2], item, nodes, count, table, places, entered);
    if (one == NO_NUMBER) return NO_NUMBER;
    uint64_t without = size_of(table, places, zero), with = size_of(table, places, one);
    return append_part(table, places, entered, p, sum_of(zero, without, with));
}

static uint32_t places_in(size_t scratch_words, uint32_t count) {
    return scratch_words / 2 < count ? (uint32_t)(scratch_words / 2) : count;
}

zdd_measured plain_size_compact(READ, uint32_t p, uint64_t *scratch, size_t scratch_words) {
    (void)lookup_at;
    if (!fits(s, node_words, lookup_words)) return (zdd_measured){s, ZDD_DAMAGED, 0};
    if (!holds(s, p)) return (zdd_measured){s, ZDD_HANDLE, 0};
    if (p < 2) return (zdd_measured){s, 0, p};
    wide_words table = {scratch, scratch_words};
    uint32_t places = places_in(scratch_words, s.count), entered = 0;
    if (places == 0) return (zdd_measured){s, ZDD_SCRATCH, 0};
    clear(table, places);
    words nodes = {(uint32_t *)nodes_at, node_words};
    uint32_t number = enter_parts(p, ZDD_LARGEST_ITEM + 1, nodes, s.count, table, places, &entered);
    if (number == NO_NUMBER) return (zdd_measured){s, ZDD_SCRATCH, 0};
    uint64_t members = size_of(table, places, number);
    return members == 0 ? (zdd_measured){s, ZDD_LARGE, 0} : (zdd_measured){s, 0, members};
}

/* ---- Has ---- */

/* Takes an item out of a combination, and says whether it was there. */
static bool take_out(uint32_t items[16], uint32_t item) {
    if (item == 0 || ZDD_LARGEST_ITEM < item) return false;
    uint32_t place = item - 1, word = items[place / 32];
    if ((word >> place % 32) % 2 == 0) return false;
    items[place / 32] = word - (1u << place % 32);
    return true;
}

static bool is_empty(const uint32_t items[16]) {
    for (int k = 0; k < 16; k++)
        if (items[k] != 0) return false;
    return true;
}

/* One way down, at most 512 nodes: each item of the combination that is met is taken out of it, and none may be left over. */
static bool is_member(const uint32_t *nodes, uint32_t count, uint32_t p, uint32_t items[16]) {
    for (int left = 512; 2 <= p; left--) {
        if (left == 0 || count + 1 < p) return false;
        const uint32_t *node = nodes + 3 * (size_t)(p - 2);
        p = take_out(items, node[0]) ? node[2] : node[1];
    }
    return p == 1 && is_empty(items);
}

zdd_asked plain_has(READ, uint32_t p, zdd_combination combination) {
    (void)lookup_at;
    if (!fits(s, node_words, lookup_words)) return (zdd_asked){s, ZDD_DAMAGED, false};
    if (!holds(s, p)) return (zdd_asked){s, ZDD_HANDLE, false};
    return (zdd_asked){s, 0, is_member(nodes_at, s.count, p, combination.words)};
}

/* ---- sums of weights ---- */

/* a number, at most 2^64 - 1, and whether it is above that */
typedef struct {
    uint64_t low;
    bool above;
} kept;

static kept kept_sum(kept a, kept b) {
    if (a.above) return a;
    if (b.above) return b;
    if (UINT64_MAX - b.low < a.low) return (kept){UINT64_MAX, true};
    return (kept){a.low + b.low, false};
}

/* A weight of 0 makes 0 of any number. */
static kept kept_product(uint64_t weight, kept a) {
    if (weight == 0) return (kept){0, false};
    if (a.above) return a;
    if (UINT64_MAX / weight < a.low) return (kept){UINT64_MAX, true};
    return (kept){weight * a.low, false};
}

/* lent weights with their number */
typedef struct {
    const uint32_t *at;
    size_t length;
} list;

static uint64_t weight_at(list weights, uint32_t item) {
    if (item == 0) return 0;
    size_t k = item - 1;
    return k < weights.length ? weights.at[k] : 0;
}

/* The refusal before the work of either call, 0 where there is none. */
static uint32_t weight_tested(zdd_store s, size_t node_words, size_t lookup_words, uint32_t p, size_t weight_count,
                              size_t scratch_words) {
    if (!fits(s, node_words, lookup_words)) return ZDD_DAMAGED;
    if (!holds(s, p)) return ZDD_HANDLE;
    if (weight_count != ZDD_LARGEST_ITEM) return ZDD_WEIGHTS;
    return scratch_words < 3 * (size_t)s.count ? ZDD_SCRATCH : 0;
}

static zdd_weighed weight_answer(zdd_store s, kept sum) {
    return sum.above ? (zdd_weighed){s, ZDD_LARGE, 0} : (zdd_weighed){s, 0, sum.low};
}

/* Adds a number to the sum; false where the sum would be above the largest number. */
static bool grow(uint64_t *sum, uint64_t n) {
    if (UINT64_MAX - n < *sum) return false;
    *sum += n;
    return true;
}

/* Adds to the sum the weight of each member of a handle whose top is below the bound; `carried` is the weight of the items
 * on the way down to it. False where the sum would be above the largest number. */
static bool add_members(uint32_t p, uint32_t bound, uint64_t carried, words nodes, uint32_t count, list weights, uint64_t *sum) {
    if (p == 0) return true;
    if (p == 1) return grow(sum, carried);
    if (count + 1 < p) return true;
    const uint32_t *node = nodes.at + 3 * (size_t)(p - 2);
    uint32_t item = node[0];
    if (bound <= item) return true;
    if (!add_members(node[1], item, carried, nodes, count, weights, sum)) return false;
    return add_members(node[2], item, carried + weight_at(weights, item), nodes, count, weights, sum);
}

zdd_weighed plain_weight_by_members(READ, uint32_t p, const uint32_t *weights, size_t weight_count, uint64_t *scratch,
                                    size_t scratch_words) {
    (void)lookup_at, (void)scratch;
    uint32_t refusal = weight_tested(s, node_words, lookup_words, p, weight_count, scratch_words);
    if (refusal) return (zdd_weighed){s, refusal, 0};
    words nodes = {(uint32_t *)nodes_at, node_words};
    uint64_t sum = 0;
    bool fits = add_members(p, 513, 0, nodes, s.count, (list){weights, weight_count}, &sum);
    return weight_answer(s, (kept){sum, !fits});
}

/* Size and sum of a handle as its words have them: words 2k and 2k + 1 are those of node k + 2, each at most 2^64 - 1; where
 * one of them is that, word 2 * count + k is the node's mark: 1 where the size is above it, 2 where the sum is, 3 for both. */
typedef struct {
    uint64_t size, sum;
} pair;

typedef struct {
    kept size, sum;
} both;

static pair pair_at(const uint64_t *numbers, uint32_t count, uint32_t p) {
    if (p < 2) return (pair){p, 0};
    if (count <= p - 2) return (pair){0, 0};
    size_t k = 2 * (size_t)(p - 2);
    return (pair){numbers[k], numbers[k + 1]};
}

static uint64_t mark_at(const uint64_t *numbers, uint32_t count, uint32_t p) {
    if (p < 2 || count <= p - 2) return 0;
    return numbers[2 * (size_t)count + (p - 2)];
}

static kept kept_of(uint64_t word, bool above) { return (kept){word, word == UINT64_MAX && above}; }

static both both_at(const uint64_t *numbers, uint32_t count, uint32_t p) {
    pair a = pair_at(numbers, count, p);
    uint64_t mark = mark_at(numbers, count, p);
    return (both){kept_of(a.size, mark % 2 == 1), kept_of(a.sum, 1 < mark)};
}

static void put_both(uint64_t *numbers, uint32_t count, uint32_t j, both a) {
    size_t k = 2 * (size_t)j;
    numbers[k] = a.size.low, numbers[k + 1] = a.sum.low;
    numbers[2 * (size_t)count + j] = (a.size.above ? 1 : 0) + (a.sum.above ? 2 : 0);
}

static void weigh_large(uint64_t *numbers, uint32_t count, uint32_t j, uint64_t weight, uint32_t zero, uint32_t one) {
    both without = both_at(numbers, count, zero), with = both_at(numbers, count, one);
    kept sides = kept_sum(without.sum, with.sum);
    put_both(numbers, count, j, (both){kept_sum(without.size, with.size), kept_sum(sides, kept_product(weight, with.size))});
}

/* Whether the sum of a node over two such handles fits a word, whatever its weight. */
static bool is_small(pair a) { return a.size <= INT32_MAX && a.sum <= INT64_MAX / 2; }

static void put_small(uint64_t *numbers, uint32_t j, uint64_t weight, pair without, pair with) {
    size_t k = 2 * (size_t)j;
    numbers[k] = without.size + with.size;
    numbers[k + 1] = without.sum + with.sum + weight * with.size;
}

static void weigh_node(uint64_t *numbers, uint32_t count, uint32_t j, uint64_t weight, uint32_t zero, uint32_t one) {
    pair without = pair_at(numbers, count, zero), with = pair_at(numbers, count, one);
    if (is_small(without) && is_small(with)) put_small(numbers, j, weight, without, with);
    else weigh_large(numbers, count, j, weight, zero, one);
}

zdd_weighed plain_weight_by_nodes(READ, uint32_t p, const uint32_t *weights, size_t weight_count, uint64_t *scratch,
                                  size_t scratch_words) {
    (void)lookup_at;
    uint32_t refusal = weight_tested(s, node_words, lookup_words, p, weight_count, scratch_words);
    if (refusal) return (zdd_weighed){s, refusal, 0};
    for (uint32_t j = 0; j + 1 < p; j++) {
        const uint32_t *node = nodes_at + 3 * (size_t)j;
        weigh_node(scratch, s.count, j, weight_at((list){weights, weight_count}, node[0]), node[1], node[2]);
    }
    return weight_answer(s, both_at(scratch, s.count, p).sum);
}

/* ---- Save ---- */

/* The parts met so far: each links to the next, the last to itself; 0 is not met. And the length of their file. */
typedef struct {
    uint32_t first, last, item, parts, bytes;
} trail;

static uint32_t record_bytes(bool item, bool zero, bool one) { return 1 + (item ? 2 : 0) + (zero ? 4 : 0) + (one ? 4 : 0); }

static bool is_met(words links, uint32_t p) { return p < 2 || links.at[p - 2] != 0; }

static void put_link(words links, uint32_t p, uint32_t next) {
    if (2 <= p) links.at[p - 2] = next;
}

/* Puts the part p, of this item and these children, behind the last one. */
static void visit(trail *t, words links, uint32_t p, uint32_t item, uint32_t zero, uint32_t one) {
    uint32_t record = record_bytes(item != t->item + 1, zero != 0, one != t->last);
    put_link(links, t->last, p);
    put_link(links, p, p);
    *t = (trail){t->parts == 0 ? p : t->first, p, item, t->parts + 1, t->bytes + record};
}

/* Meets the parts of p, which is not met yet; false on words that no sound store has. */
static bool descend(uint32_t p, uint32_t top, words nodes, uint32_t count, trail *t, words links) {
    if (top == 0) return false;
    sides s = sides_at(nodes, count, p, top);
    if (s.broken) return false;
    if (!is_met(links, s.zero) && !descend(s.zero, s.ztop, nodes, count, t, links)) return false;
    if (!is_met(links, s.one) && !descend(s.one, s.otop, nodes, count, t, links)) return false;
    if (ZDD_LARGEST_CAPACITY <= t->parts) return false;
    visit(t, links, p, top, s.zero, s.one);
    return true;
}

static size_t put(uint8_t *out, size_t at, int width, bool stands, uint32_t value) {
    if (!stands) return at;
    for (int k = 0; k < width; k++) out[at + k] = (uint8_t)(value % 256), value /= 256;
    return at + width;
}

static uint32_t local(words links, uint32_t p) {
    if (p < 2) return p;
    return p - 2 < links.length ? links.at[p - 2] : 0;
}

/* Writes the record of a part; gives the place after it. */
static size_t put_record(uint8_t *out, size_t at, bool item_stands, uint32_t item, bool zero_stands, uint32_t zero, bool one_stands,
                         uint32_t one) {
    out[at] = (uint8_t)((item_stands ? 1 : 0) + (zero_stands ? 2 : 0) + (one_stands ? 4 : 0));
    size_t after_item = put(out, at + 1, 2, item_stands, item);
    return put(out, put(out, after_item, 4, zero_stands, zero), 4, one_stands, one);
}

/* Writes the records along the links; a part that is written has its local number for its link. */
static bool write_parts(trail t, words nodes, uint32_t count, words links, uint8_t *out, size_t out_bytes) {
    uint32_t p = t.first, last_item = 0, number = 1;
    size_t place = 5;
    for (uint32_t left = t.parts; left != 0; left--) {
        if (p < 2 || count + 1 < p) return false;
        const uint32_t *node = nodes.at + 3 * (size_t)(p - 2);
        uint32_t item = node[0], zero = local(links, node[1]), one = local(links, node[2]);
        if (ZDD_LARGEST_ITEM < item) return false;
        bool item_stands = item != last_item + 1, zero_stands = zero != 0, one_stands = one != number;
        if (out_bytes - place < record_bytes(item_stands, zero_stands, one_stands)) return false;
        place = put_record(out, place, item_stands, item, zero_stands, zero, one_stands, one);
        uint32_t next = links.at[p - 2];
        links.at[p - 2] = ++number;
        last_item = item, p = next;
    }
    return true;
}

static zdd_saved save_parts(zdd_store s, words nodes, uint32_t p, words links, uint8_t *out, size_t out_bytes) {
    uint32_t top = top_of(nodes, p);
    if (s.limit < top) return (zdd_saved){s, ZDD_DAMAGED, 0};
    memset(links.at, 0, s.count * sizeof *links.at);
    trail t = {0, 1, 0, 0, 5};
    if (!descend(p, top, nodes, s.count, &t, links)) return (zdd_saved){s, ZDD_DAMAGED, 0};
    if (out_bytes < t.bytes) return (zdd_saved){s, ZDD_OUTPUT, 0};
    out[0] = 1;
    put(out, 1, 4, true, t.parts);
    if (!write_parts(t, nodes, s.count, links, out, out_bytes)) return (zdd_saved){s, ZDD_DAMAGED, 0};
    return (zdd_saved){s, 0, t.bytes};
}

zdd_saved plain_save(READ, uint32_t p, uint32_t *links, size_t scratch_words, uint8_t *out, size_t out_bytes) {
    (void)lookup_at;
    if (!fits(s, node_words, lookup_words)) return (zdd_saved){s, ZDD_DAMAGED, 0};
    if (!holds(s, p)) return (zdd_saved){s, ZDD_HANDLE, 0};
    if (scratch_words < s.count) return (zdd_saved){s, ZDD_SCRATCH, 0};
    if (2 <= p) return save_parts(s, (words){(uint32_t *)nodes_at, node_words}, p, (words){links, scratch_words}, out, out_bytes);
    if (out_bytes == 0) return (zdd_saved){s, ZDD_OUTPUT, 0};
    out[0] = p == 0 ? 0 : 2;
    return (zdd_saved){s, 0, 1};
}
