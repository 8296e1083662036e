// The file of a family, and the family of a file.
#pragma once
#include <algorithm>
#include "families.h"

typedef std::vector<uint8_t> Bytes;

// Appends so many bytes of a number, low byte first.
static void low_first(Bytes &out, u32 x, int bytes) {
    for (int k = 0; k < bytes; k++) out.push_back((uint8_t)(x >> (8 * k)));
}

// The file of a family.
static Bytes file_of(Family f) {
    Bytes out;
    if (leaf(f)) { out.push_back(f == EMPTY ? 0 : 2); return out; }
    std::vector<Family> parts = parts_of(f);
    std::map<Family, u32> local;
    local[EMPTY] = 0;
    local[BASE] = 1;
    out.push_back(1);
    low_first(out, (u32)parts.size(), 4);
    u32 item_before = 0, number_before = 1;
    for (size_t k = 0; k < parts.size(); k++) {
        u32 item = top(parts[k]), zero = local[without_side(parts[k])], one = local[with_side(parts[k])];
        bool a = item != item_before + 1, b = zero != 0, c = one != number_before;
        out.push_back((uint8_t)(a + 2 * b + 4 * c));
        if (a) low_first(out, item, 2);
        if (b) low_first(out, zero, 4);
        if (c) low_first(out, one, 4);
        local[parts[k]] = (u32)k + 2;
        item_before = item;
        number_before = (u32)k + 2;
    }
    return out;
}

// Reads so many bytes, low byte first; false where the file ends before.
static bool read_low_first(const Bytes &file, size_t &at, int bytes, u32 &x) {
    x = 0;
    for (int k = 0; k < bytes; k++) {
        if (file.size() <= at) return false;
        x |= (u32)file[at++] << (8 * k);
    }
    return true;
}

static u32 largest_read; // the largest item, up to 512, in the records read last

// The family that the records build up, if any; whether the bytes are its file is for the caller.
static bool built_of(const Bytes &file, Family &f) {
    size_t at = 1;
    u32 parts, item = 0;
    if (!read_low_first(file, at, 4, parts) || parts == 0) return false;
    std::vector<Family> local;
    local.push_back(EMPTY);
    local.push_back(BASE);
    for (u32 k = 0; k < parts; k++) {
        u32 bits, zero = 0, one = (u32)local.size() - 1, next = item + 1;
        if (!read_low_first(file, at, 1, bits)) return false;
        if ((bits & 1) && !read_low_first(file, at, 2, next)) return false;
        if ((bits & 2) && !read_low_first(file, at, 4, zero)) return false;
        if ((bits & 4) && !read_low_first(file, at, 4, one)) return false;
        item = next;
        if (item <= 512) largest_read = std::max(largest_read, item);
        if (item < 1 || 512 < item || local.size() <= zero || local.size() <= one) return false;
        if (item <= top(local[zero]) || item <= top(local[one])) return false;
        Family with = keep(pbori_Cudd_zddChange(manager, local[one], index_of(item)));
        local.push_back(keep(pbori_Cudd_zddUnion(manager, local[zero], with)));
    }
    f = local.back();
    return true;
}

// Whether the bytes are the file of a family, and of which: what the records build must have just these bytes as its file.
static bool family_of(const Bytes &file, Family &f) {
    largest_read = 0;
    if (file.empty()) return false;
    if (file[0] == 0) f = EMPTY;
    else if (file[0] == 2) f = BASE;
    else if (file[0] != 1 || !built_of(file, f)) return false;
    return file_of(f) == file;
}
