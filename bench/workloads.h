// The workloads, each written once for any package of diagrams: a package P has a type F of families and
// empty, base, change, unite, intersect, subtract, lacking (Subset0), even, odd.
#pragma once
#include <cstdint>
#include <vector>

struct Random {
    uint32_t x;
    uint32_t next() {
        x ^= x << 13;
        x ^= x >> 17;
        x ^= x << 5;
        return x;
    }
};

// So many random combinations of 8 of 512 items, each built by Change from {{}}, then one Union.
template <class P> typename P::F random_family(P &p, int combinations, uint32_t seed) {
    Random r{seed};
    auto family = p.empty();
    for (int i = 0; i < combinations; i++) {
        auto one = p.base();
        for (int k = 0; k < 8; k++) one = p.change(one, r.next() % 512 + 1);
        family = p.unite(family, one);
    }
    return family;
}

// The ways to put n queens on a board of n rows: row by row, each column with the attacked squares left out.
template <class P> typename P::F queens(P &p, int n) {
    auto square = [n](int row, int column) { return row * n + column + 1; };
    auto ways = p.base();
    for (int row = 0; row < n; row++) {
        auto next = p.empty();
        for (int column = 0; column < n; column++) {
            auto free = ways;
            for (int above = 0; above < row; above++)
                for (int step : {-(row - above), 0, row - above})
                    if (column + step >= 0 && column + step < n) free = p.lacking(free, square(above, column + step));
            next = p.unite(next, p.change(free, square(row, column)));
        }
        ways = next;
    }
    return ways;
}

// The independent sets of an n by n grid; `item` gives a square's item.
template <class P, class Item> typename P::F independent_sets(P &p, int n, Item item) {
    auto sets = p.base();
    for (int row = 0; row < n; row++)
        for (int column = 0; column < n; column++) {
            auto free = sets;
            if (row > 0) free = p.lacking(free, item(row - 1, column));
            if (column > 0) free = p.lacking(free, item(row, column - 1));
            sets = p.unite(sets, p.change(free, item(row, column)));
        }
    return sets;
}

// The squares of a grid in a bad order: those of the even columns first.
inline int split_order(int n, int row, int column) {
    int half = (n + 1) / 2;
    return (column % 2 == 0 ? column / 2 : half + column / 2) * n + row + 1;
}
