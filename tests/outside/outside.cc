// The comparison runs' other side: draws the same lists of calls as the crate `run_replay` and works out every answer from
// documents 01 and 02 alone. The families are CUDD's zero-suppressed diagrams; nothing of this library is used.
#include "crafting.h"
#include "weights.h"

// Even and Odd of p, then Intsec and Union of what they gave.
static void parity_calls(u32 p, size_t cache) {
    u32 even = operation(7, p, 0, lend(63), cache);
    u32 odd = operation(8, p, 0, lend(63), cache);
    operation(5, even, odd, lend(63), cache);
    operation(4, even, odd, lend(63), cache);
}

// The number of the operation that a kind stands for.
static u32 operation_of(u32 kind) {
    static const u32 FIRST[] = {0, 3, 6, 12, 17, 20, 23, 25};
    return (u32)(std::upper_bound(FIRST, FIRST + 8, kind) - FIRST);
}

// The second operand that is drawn: an item, a handle, or none.
static u32 second_operand(u32 op, u32 x, u32 items) {
    return op < 4 ? drawn_item(x, items) : op < 7 ? drawn_handle(x) : 0;
}

// One turn: a drawn call, or both parts of the newest family or of a drawn one.
static void turn(u32 items, bool whole, size_t cache) {
    Drawn drawn = draw();
    u32 kind = drawn.kind % 46;
    Lent lent = lend(drawn.d);
    if (kind < 27) {
        u32 op = operation_of(kind), q = second_operand(op, drawn.b, items);
        operation(op, drawn_handle(drawn.a), q, lent, cache_part(drawn.c, whole, cache));
    } else if (kind < 29) {
        u32 p = drawn.b % 2 == 0 ? drawn_handle(drawn.a) : count() + 1;
        parity_calls(p, cache_part(drawn.c, whole, cache));
    } else if (kind < 31) {
        size_call(drawn_handle(drawn.a), lent, scratch(drawn.c, count(), 1100));
    } else if (kind < 33) {
        u32 p = drawn_handle(drawn.a);
        has_call(p, drawn_combination(drawn, items, p), lent);
    } else if (kind < 35) {
        size_t room = drawn.b % 8 == 0 ? drawn.b / 8 % 40 : buffer.size();
        save_calls(drawn_handle(drawn.a), lent, scratch(drawn.c, count(), 1100), room);
    } else if (kind < 40) {
        size_t n = drawn_length(drawn.c);
        load_call(n, lent, cache_part(drawn.a, whole, cache), scratch(drawn.b, 6 * n, 12400));
    } else if (kind < 42) {
        audit_call(drawn, lent, cache_part(drawn.c, whole, cache));
    } else if (kind < 45) {
        craft(drawn, 1 + drawn.a % 6, 0);
    } else {
        damage(drawn);
    }
}

// An operation with all words lent, and the size of what it gives by both entries.
static u32 measured_operation(u32 op, u32 p, u32 q, size_t cache, u32 way) {
    u32 handle = operation(op, p, q, lend(63), cache);
    size_calls(way, handle, lend(63));
    return handle;
}

// An operation with all words lent, and the size and the sums of weights of what it gives.
static u32 weighed_operation(u32 op, u32 p, u32 q, size_t cache) {
    u32 handle = operation(op, p, q, lend(63), cache);
    every_weight(handle, 65);
    return handle;
}

// All subsets of 1 to 64 items, families of 2^64 - 1 members and of one more, and two parts of 2^63 members each; their
// sizes by both entries, and the sums of weights of the latter.
static void subsets(size_t cache) {
    u32 all = 1;
    for (u32 item = 1; item <= 64; item++) {
        u32 changed = measured_operation(3, all, item, cache, item - 1);
        all = measured_operation(4, all, changed, cache, item - 1);
    }
    u32 less = weighed_operation(6, all, 1, cache);
    weighed_operation(3, less, 65, cache);
    weighed_operation(3, all, 65, cache);
    u32 single = weighed_operation(3, 1, 65, cache);
    weighed_operation(4, less, single, cache);
    weighed_operation(7, all, 0, cache);
    weighed_operation(8, all, 0, cache);
    parity_calls(less, cache);
}

// The sums of weights of the newest family, the last in one scratch word too few and in just enough; gives its handle.
static u32 weighed_newest(u32 item, bool members) {
    u32 p = count() + 1;
    Making edge = {2, 1, 270, 1, 512};
    every_weight(p, item);
    weight_calls(false, p, edge, lend(63), 3 * count() - 1);
    weight_calls(members, p, edge, lend(63), 3 * count());
    return p;
}

// The sums of weights of what an operation gives; gives its handle.
static u32 weighed_newest_of(u32 op, u32 p, u32 q, size_t cache, u32 item) {
    operation(op, p, q, lend(63), cache);
    return weighed_newest(item, false);
}

// The sums of weights of a family of a simple shape; gives its handle.
static u32 weighed_shape(u32 free, u32 fixed, u32 single, u32 all, size_t cache) {
    craft_shape(free, fixed, single, all);
    load_call(file_length, lend(63), cache, 12400);
    return weighed_newest(all, free == 24);
}

// The sums of weights of {512}; of 2^32 - 1 members that hold an item; of all subsets of 63, 64 and 65 items; of 2^32 + 1
// members that hold an item, also beside more than can be counted; of 2^64 members that hold an item. Of the last two, of
// some 2^24 members, also by members: with all weights 2^32 - 1 but item 270 at 1 these are 2^64 - 1 and 2^64.
static void shapes(size_t cache) {
    weighed_newest_of(3, 1, 512, cache, 512);
    u32 all = weighed_shape(32, 32, 32, 32, cache);
    u32 less = weighed_newest_of(6, all, 1, cache, 32);
    weighed_newest_of(3, less, 33, cache, 33);
    weighed_shape(63, 63, 63, 63, cache);
    weighed_shape(64, 64, 64, 64, cache);
    u32 many = weighed_shape(65, 65, 65, 65, cache);
    u32 held = weighed_shape(32, 32, 33, 66, cache);
    weighed_newest_of(4, many, held, cache, 66);
    weighed_shape(64, 64, 64, 65, cache);
    weighed_shape(24, 268, 269, 269, cache);
    weighed_shape(24, 268, 270, 270, cache);
}

// Fresh: a book with {} and {{}} alone.
static void fresh(size_t words, size_t lookup, size_t cache, u32 most) {
    node_words = words;
    slots = lookup;
    capacity = 0;
    limit = 0;
    added_in_all = 0;
    book.assign(1, EMPTY);
    book.push_back(BASE);
    number.clear();
    number[EMPTY] = 0;
    number[BASE] = 1;
    called("Fresh");
    text("Fresh");
    num(words);
    num(lookup);
    num(cache);
    text(" limit");
    num(most);
    text(":");
    u32 room = (u32)std::min(words / 3, (size_t)1000000);
    if (words < 3) refused(1);
    else if (lookup <= room) refused(2);
    else if (!is_limit(most)) refused(3);
    else {
        capacity = room;
        limit = most;
        std::fill(all_nodes.begin(), all_nodes.begin() + 3 * room, 0);
        std::fill(all_lookup.begin(), all_lookup.begin() + lookup, 0);
        text(" done cleared yes");
    }
    record(0, capacity, limit);
    sum_of_words();
    text("\n");
}

// Load of the file of the list before: in one scratch word too few, with its last byte missing, and whole.
static void load_carried(size_t cache) {
    size_t n = std::min(file_length, buffer.size());
    load_call(n, lend(63), cache, n == 0 ? 0 : 6 * n - 1);
    load_call(n == 0 ? 0 : n - 1, lend(63), cache, 12400);
    load_call(n, lend(63), cache, 12400);
}

// The sums of weights of a family of 200 parts, and its Even and Odd.
static void tall(size_t cache) {
    craft(draw(), 200, 56);
    load_call(file_length, lend(63), cache, 12400);
    u32 p = count() + 1;
    every_weight(p, 200);
    parity_calls(p, cache);
}

// The newest family, with the limit among its items if there is room, is saved for the next list.
static void make_carried(size_t cache) {
    operation(3, count() + 1, limit, lend(63), cache);
    save_calls(count() + 1, lend(63), 1100, buffer.size());
}

// The calls of a list, after every seventh the sums of weights of a drawn family, after every fourth the size of one by both
// entries; the last make the file for the next list. One with more than 16 items always lends its whole cache.
static void calls_of_list(size_t cache, u32 items, u32 calls) {
    load_carried(cache);
    if (items == 70) subsets(cache);
    if (items == 270) shapes(cache);
    if (items == 512) tall(cache);
    for (u32 left = calls; 0 < left; left--) {
        turn(items, 16 < items, cache);
        if (left % 7 == 0) drawn_weights(items);
        if (left % 4 == 0) drawn_sizes();
    }
    make_carried(cache);
}

// A list: Fresh, its calls, if it has any, and at its end what was added, what is held, and the words.
static void list(size_t words, size_t lookup, size_t cache, u32 most, u32 items, u32 calls) {
    fresh(words, lookup, cache, most);
    if (0 < calls) calls_of_list(cache, items, calls);
    text("Added");
    num(added_in_all);
    text(" held");
    num(count());
    text("\nNodes");
    for (size_t k = 0; k < node_words; k++) num(all_nodes[k]);
    text("\nLookup");
    for (size_t k = 0; k < slots; k++) num(all_lookup[k]);
    text("\nSpare cache words kept yes\n");
}

// A list of a drawn setting: a small store and few calls.
static void drawn_list() {
    static const u32 LIMITS[] = {1, 2, 31, 32, 33, 64, 511, 512};
    Drawn drawn = draw();
    size_t words = 3 + drawn.a % 24;
    list(words, words / 3 + 1 + drawn.b % 8, drawn.c % 40, LIMITS[drawn.kind % 8], 1 + drawn.d % 3, 14);
}

// Node words, lookup words, cache words, limit, items and drawn calls of each list.
static const u32 LISTS[][6] = {
    {2, 5, 8, 0, 3, 12},
    {2, 2, 8, 512, 3, 0},
    {14, 4, 8, 513, 3, 0},
    {14, 4, 8, 64, 3, 0},
    {14, 5, 8, 0, 3, 12},
    {14, 5, 8, 513, 3, 0},
    {12, 7, 0, 512, 2, 130},
    {2701, 907, 4099, 512, 512, 280},
    {240, 83, 64, 511, 3, 320},
    {3002, 2053, 4096, 70, 70, 270},
    {151, 53, 29, 64, 3, 310},
    {75, 64, 0, 33, 2, 250},
    {43, 15, 4, 32, 2, 220},
    {600, 211, 255, 31, 5, 320},
    {14, 5, 3, 2, 2, 130},
    {3, 2, 0, 1, 1, 80},
};

int main(int argc, char **argv) {
    manager = pbori_Cudd_Init(0, 512, CUDD_UNIQUE_SLOTS, CUDD_CACHE_SLOTS, 0);
    if (!manager) return 2;
    EMPTY = keep(pbori_Cudd_ReadZero(manager));
    BASE = keep(pbori_Cudd_ReadZddOne(manager, 512)); // past the last variable: {{}} itself
    make_even_and_odd();
    all_nodes.assign(3010, 2779096485u);
    all_lookup.assign(2060, 2779096485u);
    for (const u32 *l : LISTS) list(l[0], l[1], l[2], l[3], l[4], l[5]);
    for (int k = 0; k < 40; k++) drawn_list();
    list(1291, 439, 1021, 512, 270, 60);
    if (argc == 2 && std::strcmp(argv[1], "--tally") == 0) {
        for (const std::pair<const std::string, int> &t : tally) std::printf("%s: %d\n", t.first.c_str(), t.second);
        return 0;
    }
    return std::fwrite(out.data(), 1, out.size(), stdout) == out.size() ? 0 : 2;
}
