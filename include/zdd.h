/* zdd.h: families of combinations of the items 1 to 512, kept as zero-suppressed decision diagrams.
 *
 * The library holds no memory of its own. The caller lends node words, lookup words and cache words (a store), keeps
 * the small record zdd_store, hands it to each call by value and goes on with the record that the call gives back.
 * A family is named by a handle: 0 is {}, 1 is {{}}, and the calls that place a family give the others. Equal families
 * have equal handles, and a handle keeps its meaning for as long as the store lives. Each store has an item limit from
 * 1 to 512, given to Fresh and carried by the record: no family in it has an item above that.
 *
 * Lent words. A slice is a pointer and the number of its elements (64 bits wide). A pointer is never NULL and is aligned
 * for its type, also where the length is 0. Slices lent to one call do not overlap, and no other thread uses them
 * meanwhile. A list of calls lends Fresh's node and lookup words whole, and any leading part of its cache, none included:
 * with cache_words 0 answers are the same, but an operation can take exponential time.
 * On any words whatever, sound or not, a call reads and writes nothing but what it is lent, and ends.
 *
 * Refusals. The field `refusal` is 0 where the call is not refused, else a number below. Several at once: 1, 2, 3 for
 * Fresh; else 10, 4, 11, 3, 7, 9, 13, 6, 8, 5. A refusal gives handle, added, size, sum and length 0 and member false, and
 * hands the record back as it came. After 5 the nodes and the lookup are as before and the whole cache groups are 0;
 * otherwise the lent words stay as they were, but for the scratch where a call says so.
 *
 * Cost. A call that places a family adds a node for each of its different parts not yet held, and gives their number in
 * `added`. The record's count grows by just that, on any words: the numbers since Fresh sum to it. Union, Intsec and Diff
 * add at most (a + 2) * (b + 2) nodes, where p has a different parts and q has b.
 *
 * Damage. 10 is certain, and changes nothing, where the record's capacity is not the one that node_words gives, the
 * lookup is not longer than the capacity, the count is above the capacity, or the limit is not from 1 to 512. On a store
 * that is unsound in another way (an item above its limit is one) a call may give 10 or any other answer, and what it
 * leaves in the lent words is free. On a sound store 10 never comes.
 *
 * Stack. ZDD_STACK_BYTES of stack below the caller are enough for any call on any words: a recursion goes at most 512 items
 * deep. Union, Intsec and Diff use the most, and only on families that nest so deep; tests/link/stack.c measures each call.
 *
 * Link with libzdd_c.a (docs/LINKING.md). What each call promises is proved of its source; crates/zdd_c has the contracts.
 */
#ifndef ZDD_H
#define ZDD_H

#include <stdbool.h>
#include <stddef.h>
#include <stdint.h>

#ifdef __cplusplus
extern "C" {
#endif

#define ZDD_TINY 1u         /* Fresh: fewer than 3 node words */
#define ZDD_SHORT_LOOKUP 2u /* Fresh: lookup length at most the capacity */
#define ZDD_ITEM 3u         /* item 0 or above the store's limit; Fresh: limit 0 or above 512 */
#define ZDD_HANDLE 4u       /* a handle above count + 1 */
#define ZDD_FULL 5u         /* the result's parts not yet held outnumber capacity - count */
#define ZDD_LARGE 6u        /* size or sum above 18,446,744,073,709,551,615 */
#define ZDD_SCRATCH 7u      /* scratch shorter than stated */
#define ZDD_OUTPUT 8u       /* output shorter than the file */
#define ZDD_NO_FILE 9u      /* the bytes are the file of no family */
#define ZDD_DAMAGED 10u     /* see above */
#define ZDD_WEIGHTS 11u     /* a list of weights that is not 512 long */
#define ZDD_ABOVE_LIMIT 13u /* Load: a good file holds an item above this store's limit */

#define ZDD_LARGEST_ITEM 512u /* and the largest limit */
#define ZDD_LARGEST_CAPACITY 1000000u
#define ZDD_STACK_BYTES 131072u /* 128 KiB */

/* The record of a store: room for so many nodes, so many held, and the largest item that they may have. */
typedef struct {
    uint32_t capacity;
    uint32_t count;
    uint32_t limit;
} zdd_store;

/* A combination: item i is bit (i - 1) % 32 of words[(i - 1) / 32]. */
typedef struct {
    uint32_t words[16];
} zdd_combination;

/* What Fresh gives. */
typedef struct {
    zdd_store store;
    uint32_t refusal;
} zdd_freshened;

/* What a call that places a family gives: its handle, and how many nodes were added for it. */
typedef struct {
    zdd_store store;
    uint32_t refusal;
    uint32_t handle;
    uint32_t added;
} zdd_placed;

/* What Size gives, by either entry. */
typedef struct {
    zdd_store store;
    uint32_t refusal;
    uint64_t size;
} zdd_measured;

/* What Has gives. */
typedef struct {
    zdd_store store;
    uint32_t refusal;
    bool member;
} zdd_asked;

/* What a sum of weights gives. */
typedef struct {
    zdd_store store;
    uint32_t refusal;
    uint64_t sum;
} zdd_weighed;

/* What Save gives. */
typedef struct {
    zdd_store store;
    uint32_t refusal;
    size_t length;
} zdd_saved;

/* What Audit gives. */
typedef struct {
    zdd_store store;
    bool sound;
} zdd_audited;

/* Fresh: makes an empty store of the lent words.
 * Needs: at least 3 node words; the capacity is node_words / 3, at most 1,000,000; lookup_words above the capacity (twice
 *   the capacity and one is a good length); cache_words of any length, used in whole groups of four; limit from 1 to 512.
 * Leaves: the capacity's node words, the lookup and the whole cache groups 0, and nothing else touched; the record has
 *   the capacity, count 0 and the limit. Refused, the record is 0, 0, 0 and no word is touched.
 * Refusals: 1, 2, 3. */
zdd_freshened zdd_fresh(uint32_t *nodes, size_t node_words, uint32_t *lookup, size_t lookup_words,
                        uint32_t *cache, size_t cache_words, uint32_t limit);

/* Empty: the handle of {}, 0. Needs nothing, is never refused. */
uint32_t zdd_empty(void);

/* Base: the handle of {{}}, 1. Needs nothing, is never refused. */
uint32_t zdd_base(void);

/* Subset1: the members of p with the item, the item taken out.
 * Needs: p at most count + 1; item from 1 to store.limit.
 * Leaves: the family placed, its handle given; each of its parts not yet held (there are `added`) has the next number, its
 *   node words and its lookup slot; cache groups are zero or true.
 * Refusals: 10, 4, 3, 5. */
zdd_placed zdd_subset1(zdd_store store, uint32_t *nodes, size_t node_words, uint32_t *lookup, size_t lookup_words,
                       uint32_t *cache, size_t cache_words, uint32_t p, uint32_t item);

/* Subset0: the members of p without the item.
 * Needs: p at most count + 1; item from 1 to store.limit.
 * Leaves: the family placed, as for Subset1.
 * Refusals: 10, 4, 3, 5. */
zdd_placed zdd_subset0(zdd_store store, uint32_t *nodes, size_t node_words, uint32_t *lookup, size_t lookup_words,
                       uint32_t *cache, size_t cache_words, uint32_t p, uint32_t item);

/* Change: the members of p with the item put in where absent and taken out where present.
 * Needs: p at most count + 1; item from 1 to store.limit.
 * Leaves: the family placed, as for Subset1.
 * Refusals: 10, 4, 3, 5. */
zdd_placed zdd_change(zdd_store store, uint32_t *nodes, size_t node_words, uint32_t *lookup, size_t lookup_words,
                      uint32_t *cache, size_t cache_words, uint32_t p, uint32_t item);

/* Union: the combinations in p or in q.
 * Needs: p and q at most count + 1.
 * Leaves: the family placed, as for Subset1.
 * Refusals: 10, 4, 5. */
zdd_placed zdd_union(zdd_store store, uint32_t *nodes, size_t node_words, uint32_t *lookup, size_t lookup_words,
                     uint32_t *cache, size_t cache_words, uint32_t p, uint32_t q);

/* Intsec: the combinations in p and in q.
 * Needs: p and q at most count + 1.
 * Leaves: the family placed, as for Subset1.
 * Refusals: 10, 4, 5. */
zdd_placed zdd_intsec(zdd_store store, uint32_t *nodes, size_t node_words, uint32_t *lookup, size_t lookup_words,
                      uint32_t *cache, size_t cache_words, uint32_t p, uint32_t q);

/* Diff: the combinations in p and not in q.
 * Needs: p and q at most count + 1.
 * Leaves: the family placed, as for Subset1.
 * Refusals: 10, 4, 5. */
zdd_placed zdd_diff(zdd_store store, uint32_t *nodes, size_t node_words, uint32_t *lookup, size_t lookup_words,
                    uint32_t *cache, size_t cache_words, uint32_t p, uint32_t q);

/* Even: the members of p with an even number of items; the empty combination is even.
 * Needs: p at most count + 1.
 * Leaves: the family placed, as for Subset1. Even and Odd of p share no member, and their union has the handle p.
 * Refusals: 10, 4, 5. */
zdd_placed zdd_even(zdd_store store, uint32_t *nodes, size_t node_words, uint32_t *lookup, size_t lookup_words,
                    uint32_t *cache, size_t cache_words, uint32_t p);

/* Odd: the members of p with an odd number of items.
 * Needs: p at most count + 1.
 * Leaves: the family placed, as for Subset1.
 * Refusals: 10, 4, 5. */
zdd_placed zdd_odd(zdd_store store, uint32_t *nodes, size_t node_words, uint32_t *lookup, size_t lookup_words,
                   uint32_t *cache, size_t cache_words, uint32_t p);

/* Size: the number of members of p, by way of every node held. The quickest where p is much of the store, or where many
 * families of one store are to be sized: scratch then has the sizes of all.
 * Needs: p at most count + 1; scratch_words at least store.count, words of 64 bits.
 * Leaves: scratch[j] has the size of node j + 2, or 18,446,744,073,709,551,615 if that is smaller, for each node held,
 *   after 6 too; later scratch words and all store words stay.
 * Refusals: 10, 4, 7, 6. A size of exactly 18,446,744,073,709,551,615 is given. */
zdd_measured zdd_size(zdd_store store, const uint32_t *nodes, size_t node_words,
                      const uint32_t *lookup, size_t lookup_words, uint32_t p,
                      uint64_t *scratch, size_t scratch_words);

/* Size compact: the same number or the same 6, by way of the parts of p alone. For a small family in a crowded store, and
 * where scratch is short: what it needs does not grow with the store. Its time grows with the parts of p, and with
 * scratch_words / 2 or store.count, whichever is smaller: so many words are cleared first.
 * Needs: p at most count + 1; scratch_words at least 2 for each different part of p, words of 64 bits. {} and {{}} have no
 *   part; no family has more than store.count, and the file of p has their number in its bytes 1 to 4.
 * Leaves: all scratch words free, after 6 and 7 too (after 10 and 4 they stay); all store words stay.
 * Refusals: 10, 4, 7, 6. A size of exactly 18,446,744,073,709,551,615 is given. */
zdd_measured zdd_size_compact(zdd_store store, const uint32_t *nodes, size_t node_words,
                              const uint32_t *lookup, size_t lookup_words, uint32_t p,
                              uint64_t *scratch, size_t scratch_words);

/* Has: whether the combination is a member of p; one with an item above store.limit never is.
 * Needs: p at most count + 1.
 * Leaves: every word as it was.
 * Refusals: 10, 4. */
zdd_asked zdd_has(zdd_store store, const uint32_t *nodes, size_t node_words,
                  const uint32_t *lookup, size_t lookup_words, uint32_t p, zdd_combination combination);

/* Weights by members: the sum of item weights over every member of p, added member by member. The weight of item i is
 * weights[i - 1]. It goes through every member, so its time grows with their number; a sum by nodes does not.
 * Needs: p at most count + 1; weight_count 512, whatever store.limit is; scratch_words at least 3 * store.count, words of
 *   64 bits, for every handle.
 * Leaves: the first 3 * store.count scratch words free (after 6 too), later ones untouched; all store words and weights
 *   stay.
 * Refusals: 10, 4, 11, 7, 6. A sum of exactly 18,446,744,073,709,551,615 is given, also of a family that Size refuses. */
zdd_weighed zdd_weight_by_members(zdd_store store, const uint32_t *nodes, size_t node_words,
                                  const uint32_t *lookup, size_t lookup_words, uint32_t p,
                                  const uint32_t *weights, size_t weight_count,
                                  uint64_t *scratch, size_t scratch_words);

/* Weights by nodes: the same sum, added node by node from the smallest number up, in time that grows with store.count.
 * Needs, leaves and refusals: as for Weights by members; the two give the same number or the same refusal. */
zdd_weighed zdd_weight_by_nodes(zdd_store store, const uint32_t *nodes, size_t node_words,
                                const uint32_t *lookup, size_t lookup_words, uint32_t p,
                                const uint32_t *weights, size_t weight_count,
                                uint64_t *scratch, size_t scratch_words);

/* Save: writes the file of p to the front of the output, and gives its length. Equal families have equal files, in
 * stores of any size and limit.
 * Needs: p at most count + 1; scratch_words at least store.count, words of 32 bits; out_bytes at least the file's length
 *   (5 + 11 * store.count always is enough).
 * Leaves: the file, later bytes untouched; the first store.count scratch words free (after 8 too), later ones untouched;
 *   all store words stay. After 8 no output byte has changed.
 * Refusals: 10, 4, 7, 8. */
zdd_saved zdd_save(zdd_store store, const uint32_t *nodes, size_t node_words,
                   const uint32_t *lookup, size_t lookup_words, uint32_t p,
                   uint32_t *scratch, size_t scratch_words, uint8_t *out, size_t out_bytes);

/* Load: reads a file and places its family. The file may come from a store of any size and limit: whether it is a good one
 * is judged by the items 1 to 512 (9), then its items by store.limit (13).
 * Needs: scratch_words at least 6 * file_bytes, words of 32 bits.
 * Leaves: the family placed, as for Subset1; the first 6 * file_bytes scratch words free (after 9, 13 and 5 too), later
 *   ones untouched.
 * Refusals: 10, 7, 9, 13, 5. */
zdd_placed zdd_load(zdd_store store, uint32_t *nodes, size_t node_words, uint32_t *lookup, size_t lookup_words,
                    uint32_t *cache, size_t cache_words, const uint8_t *file, size_t file_bytes,
                    uint32_t *scratch, size_t scratch_words);

/* Audit: zeroes the whole cache groups and says whether the store is then sound: true exactly then, on any words.
 * Needs: nothing.
 * Leaves: every word but the whole cache groups as it was, and the record as it came.
 * Refusals: none. */
zdd_audited zdd_audit(zdd_store store, const uint32_t *nodes, size_t node_words,
                      const uint32_t *lookup, size_t lookup_words, uint32_t *cache, size_t cache_words);

#ifdef __cplusplus
}
#endif

#endif
