// The calls: the answers of document 01, and their lines.
#pragma once
#include <algorithm>
#include "drawing.h"

static const char *NAMES[] = {"", "Subset1", "Subset0", "Change", "Union", "Intsec", "Diff", "Even", "Odd"};

// Whether the record does not fit the words, whatever its limit.
static bool misfit(const Lent &lent) {
    return lent.room != node_words / 3 || lent.slots <= lent.room || lent.room < lent.n;
}

// Whether 10 is certain.
static bool damaged(const Lent &lent) {
    if (misfit(lent)) return true;
    if (!is_limit(lent.limit)) tally["10 by the limit alone"]++;
    return !is_limit(lent.limit);
}

// A refusal of a call that is lent the cache: after 5 the whole groups are 0, else all of it stays.
static void refused_placing(int n) {
    refused(n);
    text(n == 5 ? " cleared yes" : " stays yes");
}

// Tests the bound of Union, Intsec and Diff on the parts not held, before the result is placed.
static void test_bound(Family result, Family p, Family q) {
    u64 added = parts_not_held(result), most = (parts_of(p).size() + 2) * (parts_of(q).size() + 2);
    must_hold(added <= most, "Union, Intsec and Diff add at most (a + 2) x (b + 2)");
    tally["bound tested"]++;
    if (most <= 4 * added) tally["bound tested, a quarter of it reached"]++;
}

// Tests what Even and Odd of a family are together.
static void test_parity(Family f) {
    Family even = operated(7, f, EMPTY, 0), odd = operated(8, f, EMPTY, 0);
    must_hold(operated(5, even, odd, 0) == EMPTY, "the even and the odd part share no member");
    must_hold(operated(4, even, odd, 0) == f, "the union of the even and the odd part is the family");
    size_t parts = parts_of(f).size();
    tally["parity tested"]++;
    if (f == EMPTY) tally["parity tested, of {}"]++;
    if (f == BASE) tally["parity tested, of {{}}"]++;
    if (even != EMPTY && odd != EMPTY) tally["parity tested, neither even nor odd part is {}"]++;
    if (100 <= parts) tally["parity tested, of 100 parts or more"]++;
    if (200 <= parts) tally["parity tested, of 200 parts or more"]++;
    if (count() == capacity) tally["parity tested, in a full store"]++;
}

// Writes how many nodes a call added; the numbers since Fresh must sum to the count.
static void tell_added(const char *name, u32 added) {
    text(" added");
    num(added);
    added_in_all += added;
    must_hold(added_in_all == count(), "the numbers added since Fresh sum to the count");
    tally[std::string(added == 0 ? "added 0 by " : "added above 0 by ") + name]++;
}

// Places a family, or refuses with 5; gives its handle, 0 for a refusal.
static u32 placed(const char *name, Family f) {
    u32 added = parts_not_held(f);
    if (capacity - count() < added) {
        refused_placing(5);
        return 0;
    }
    place(f);
    num(number[f]);
    tell_added(name, added);
    return number[f];
}

// One of the six operations, Even or Odd; gives its handle, 0 for a refusal.
static u32 operation(u32 op, u32 p, u32 q, const Lent &lent, size_t cache) {
    called(NAMES[op]);
    text(NAMES[op]);
    num(p);
    if (op < 7) num(q);
    text(" lent");
    num(lent.slots);
    num(cache);
    text(":");
    bool two = 4 <= op && op < 7;
    u32 handle = 0, n = lent.n;
    if (damaged(lent)) refused_placing(10);
    else if (!held(p) || (two && !held(q))) refused_placing(4);
    else if (op < 4 && (q < 1 || limit < q)) refused_placing(3);
    else {
        Family second = two ? book[q] : EMPTY, result = operated(op, book[p], second, q);
        if (two) test_bound(result, book[p], second);
        if (7 <= op) test_parity(book[p]);
        handle = placed(NAMES[op], result);
        n = count();
    }
    record(n, lent.room, lent.limit);
    sum_of_words();
    text("\n");
    return handle;
}

// Size; the scratch is summed whole. Gives the number of members, 0 where Size is refused whatever that is.
static Size size_call(u32 p, const Lent &lent, size_t words) {
    called("Size");
    text("Size");
    num(p);
    text(" lent");
    num(lent.slots);
    num(words);
    text(":");
    std::vector<u64> lent_sizes(1100, 12297829382473034410ull);
    Size members = 0;
    if (damaged(lent)) refused(10);
    else if (!held(p)) refused(4);
    else if (words < count()) refused(7);
    else {
        for (u32 j = 0; j < count(); j++) {
            Size s = size_of(book[j + 2]);
            lent_sizes[j] = MOST < s ? MOST : (u64)s;
        }
        members = size_of(book[p]);
        if (MOST < members) refused(6);
        else num((u64)members);
    }
    record(lent.n, lent.room, lent.limit);
    u32 s = 1;
    for (size_t k = 0; k < lent_sizes.size(); k++) s = sum_word(sum_word(s, (u32)lent_sizes[k]), (u32)(lent_sizes[k] >> 32));
    sum(s);
    text("\n");
    return members;
}

// A member of p that the draw picks; the empty combination where p is not held.
static Combination drawn_member(u32 p, u32 draw) {
    Combination c;
    if (!held(p)) return c;
    Family f = book[p];
    while (!leaf(f)) {
        draw = step(draw);
        if (draw % 2 == 0 && without_side(f) != EMPTY) f = without_side(f);
        else { c.toggle(top(f)); f = with_side(f); }
    }
    return c;
}

// A combination: empty, a single item, a member of p, or a member with an item put in or taken out, or with one above
// the limit put in.
static Combination drawn_combination(const Drawn &drawn, u32 items, u32 p) {
    u32 way = drawn.d / 64 % 5, item = drawn_item(drawn.b, items);
    if (way == 4) item = limit + 1 + (limit == 512 ? 0 : drawn.b % (512 - limit));
    Combination c;
    if (way == 0) return c;
    if (2 <= way) c = drawn_member(p, drawn.c);
    if (way != 2) c.toggle(item);
    return c;
}

// Has.
static void has_call(u32 p, const Combination &c, const Lent &lent) {
    called("Has");
    text("Has");
    num(p);
    text(" items");
    for (u32 item = 1; item <= 512; item++)
        if (c.in[item]) num(item);
    text(" lent");
    num(lent.slots);
    text(":");
    if (damaged(lent)) refused(10);
    else if (!held(p)) refused(4);
    else {
        yes_no(is_member(book[p], c));
        tally[is_member(book[p], c) ? "Has yes" : "Has no"]++;
        if (limit < c.largest()) tally["Has above the limit"]++;
    }
    record(lent.n, lent.room, lent.limit);
    text("\n");
}

static Bytes buffer(2048, 0); // Save's output and Load's input
static size_t file_length = 0;

// Save; the output is summed whole. Gives the file's length, 0 for a refusal.
static size_t save_call(u32 p, const Lent &lent, size_t words, size_t room) {
    called("Save");
    text("Save");
    num(p);
    text(" lent");
    num(lent.slots);
    num(words);
    num(room);
    text(":");
    size_t length = 0;
    if (damaged(lent)) refused(10);
    else if (!held(p)) refused(4);
    else if (words < count()) refused(7);
    else {
        Bytes file = file_of(book[p]);
        if (room < file.size()) refused(8);
        else {
            length = file.size();
            std::copy(file.begin(), file.end(), buffer.begin());
            num(length);
        }
    }
    text(" kept yes");
    record(lent.n, lent.room, lent.limit);
    u32 s = 1;
    for (size_t k = 0; k < buffer.size(); k++) s = sum_word(s, buffer[k]);
    sum(s);
    text("\n");
    return length;
}

// Save; where it gives a length, also into just that many bytes and into one less.
static void save_calls(u32 p, const Lent &lent, size_t words, size_t room) {
    size_t length = save_call(p, lent, words, room);
    if (length == 0) return;
    text("File");
    bytes(buffer, length);
    text("\n");
    save_call(p, lent, words, length);
    save_call(p, lent, words, length - 1);
    file_length = length;
}

// Load of the buffer's first bytes.
static void load_call(size_t n, const Lent &lent, size_t cache, size_t words) {
    called("Load");
    text("Load");
    num(n);
    text(" lent");
    num(lent.slots);
    num(cache);
    num(words);
    text(":");
    Bytes file(buffer.begin(), buffer.begin() + n);
    Family f = EMPTY;
    u32 held_after = lent.n;
    bool good = family_of(file, f), above = good && limit < top(f);
    if (damaged(lent)) refused_placing(10);
    else if (words < 6 * n) {
        refused_placing(7);
        if (above) tally["Load 7 before 13"]++;
    } else if (!good) {
        refused_placing(9);
        if (limit < largest_read) tally["Load 9 before 13"]++;
    } else if (above) {
        refused_placing(13);
        if (capacity - count() < parts_not_held(f)) tally["Load 13 before 5"]++;
    } else {
        tally[placed("Load", f) || f == EMPTY ? "Load placed" : "Load full"]++;
        held_after = count();
    }
    record(held_after, lent.room, lent.limit);
    sum_of_words();
    text(" kept yes\n");
}

// How many bytes are loaded: mostly the last file's; seldom none, one less, one more, or any number.
static size_t drawn_length(u32 x) {
    size_t n = file_length;
    switch (x % 16) {
    case 0: n = 0; break;
    case 1: n = n - 1; break;
    case 2: n = n + 1; break;
    case 3: n = x / 16 % (buffer.size() + 1); break;
    }
    return buffer.size() < n ? buffer.size() : n;
}

// The largest item held.
static u32 largest_held() {
    u32 most = 0;
    for (u32 k = 0; k < book.size(); k++) most = std::max(most, top(book[k]));
    return most;
}

// Audit of the store as it is, with one word changed, or with the largest item held or one less as its limit.
static void audit_call(const Drawn &drawn, const Lent &lent, size_t cache) {
    called("Audit");
    std::vector<u32> nodes(all_nodes.begin(), all_nodes.begin() + node_words);
    std::vector<u32> lookup(all_lookup.begin(), all_lookup.begin() + slots);
    u32 way = drawn.d / 64 % 4, value = drawn.b % 8;
    u32 most = way == 2 ? largest_held() - drawn.b % 2 : lent.limit;
    text("Audit");
    if (way < 2) {
        std::vector<u32> &words = way == 0 ? nodes : lookup;
        size_t at = drawn.a % words.size();
        words[at] = value;
        text(way == 0 ? " with node word" : " with slot");
        num(at);
        num(value);
    }
    if (way == 2) {
        text(" with limit");
        num(most);
    }
    lookup.resize(lent.slots);
    text(" lent");
    num(lent.slots);
    num(cache);
    text(":");
    bool is_sound = sound(nodes, lookup, lent.room, lent.n, most);
    tally[is_sound ? "Audit yes" : "Audit no"]++;
    yes_no(is_sound);
    record(lent.n, lent.room, most);
    text(" cleared yes\n");
}
