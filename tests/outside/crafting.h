// Drawn files and drawn bytes.
#pragma once
#include "calls.h"

// Puts the low byte of a number into the buffer, if it reaches so far.
static void put(size_t at, u32 x) { if (at < buffer.size()) buffer[at] = (uint8_t)x; }

// Puts a field where its bit stands; gives the next place.
static size_t put_field(size_t at, bool stands, int bytes, u32 x) {
    if (!stands) return at;
    for (int k = 0; k < bytes; k++) put(at + k, x >> (8 * k));
    return at + bytes;
}

static u32 craft_item(u32 x, u32 before) {
    u32 way = x % 32;
    if (way == 0) return 512 + x / 32 % 2;
    if (way == 1) return before;
    if (way < 4) return 1 + x / 32 % 4;
    if (way < 8) return limit + x / 32 % 2;
    if (way < 12) return before + 1 + x / 32 % 3;
    return before + 1;
}

static u32 craft_zero(u32 x, u32 local) {
    if (x % 2 == 0) return 0;
    if (x % 64 == 1) return local;
    return x / 64 % local;
}

static u32 craft_one(u32 x, u32 local) {
    u32 way = x % 64;
    if (way == 0) return 0;
    if (way == 1) return local;
    if (way < 8) return 1 + x / 64 % (local - 1);
    return local - 1;
}

// Writes the file in the buffer.
static void tell_file(size_t length) {
    file_length = length;
    text("Craft");
    bytes(buffer, length);
    text("\n");
}

// Puts a drawn file of so many records at the front of the buffer. The mask goes into every draw: with 0 the records
// are mostly near to those of a true file; with 56 the file is true, each item the next and each one child the record
// before.
static void craft(const Drawn &drawn, u32 parts, u32 mask) {
    u32 way = (drawn.b | mask) % 32, item = 0;
    put(0, way == 0 ? drawn.c : 1);
    put_field(1, true, 4, way == 1 ? parts + 1 : way == 2 ? parts - 1 : parts);
    size_t at = 5;
    for (u32 local = 2; local < parts + 2; local++) {
        u32 a = step(state), b = step(a), c = step(b), d = step(c);
        u32 next = craft_item(a | mask, item), zero = craft_zero(b | mask, local), one = craft_one(c | mask, local);
        u32 bits = (next != item + 1) + 2 * (zero != 0) + 4 * (one != local - 1);
        if ((d | mask) % 32 == 0) bits |= d / 32 % 16;
        put(at, bits);
        at = put_field(at + 1, bits & 1, 2, next);
        at = put_field(at, bits & 2, 4, zero);
        at = put_field(at, bits & 4, 4, one);
        item = next;
        state = d;
    }
    tell_file(way == 3 ? at + 1 : at);
    tally["file drawn"]++;
}

// Puts the file of a family: of the items up to `free` all subsets, each with the items up to `fixed`; besides these each
// item up to `single` alone; and in each of all these the items up to `all`.
static void craft_shape(u32 free, u32 fixed, u32 single, u32 all) {
    put(0, 1);
    put_field(1, true, 4, all);
    size_t at = 5;
    for (u32 item = 1; item <= all; item++) {
        bool alone = fixed < item && item <= single, both = item <= free || alone;
        put(at, 2 * both + 4 * alone);
        at = put_field(at + 1, both, 4, item);
        at = put_field(at, alone, 4, 1);
    }
    tell_file(at);
}

// Puts a drawn byte into the file in the buffer.
static void damage(const Drawn &drawn) {
    size_t at = file_length == 0 ? 0 : drawn.a % file_length;
    u32 value = drawn.b % 4 == 0 ? drawn.c % 256 : drawn.c % 8;
    put(at, value);
    text("Byte");
    num(at);
    num(value);
    text("\n");
    tally["byte drawn"]++;
}
