// The same lists of calls on this library, on two stores in C, on an earlier build of this library where one is given, and on
// CUDD's zero-suppressed diagrams. First all must come to the same; then they are timed in turn. Prints tables of Markdown, and
// draws the picture into the file that is named.
#include <memory>

#include "chart.h"
#include "measure.h"
#include "packages.h"
#include "workloads.h"

static const size_t largest_capacity = 1000000;
static const unsigned cudd_cache = 1 << 18;

// The words of the caches, and whether a store has room for twice the nodes that a workload makes, or for 1,000,000.
struct Setting {
    const char *title;
    size_t cache_words;
    bool fitted;
};
static const Setting settings[] = {
    {"65,536 cache groups, stores for twice the nodes", 262144, true},
    {"4,096 cache groups, stores for twice the nodes", 16384, true},
    {"256 cache groups, stores for twice the nodes", 1024, true},
    {"65,536 cache groups, stores for 1,000,000 nodes", 262144, false},
};

// Two large families that share half of their combinations.
static const auto two = [](auto &p) {
    auto shared = random_family(p, 2500, 7);
    return std::vector{p.unite(shared, random_family(p, 2500, 11)), p.unite(shared, random_family(p, 2500, 13))};
};

// Their union less their intersection.
static const auto three = [](auto &p, auto f) { return std::vector{p.subtract(p.unite(f[0], f[1]), p.intersect(f[0], f[1]))}; };

// A family of 50,000 parts. Random combinations have an even number of items: half of them are changed by one item, then all by another,
// so that CUDD, where the family is built, does not hold its even and its odd part yet.
static const auto mixed = [](auto &p) {
    return std::vector{p.change(p.unite(random_family(p, 4156, 7), p.change(random_family(p, 4156, 11), 256)), 1)};
};

static const auto even_and_odd = [](auto &p, auto f) { return std::vector{p.even(f[0]), p.odd(f[0])}; };

// The families before the calls on them are timed: built in CUDD, loaded from files here.
template <class Build> static auto there(Cudd &q, Build build) { return build(q); }
template <class Build> static auto there(Ours &p, Build build) {
    static std::vector<std::vector<uint8_t>> files;
    if (files.empty()) {
        Words words(largest_capacity, 1 << 18);
        Ours source(here, words);
        for (auto family : build(source)) files.push_back(source.file(family));
    }
    std::vector<Ours::F> families;
    for (const auto &file : files) {
        std::vector<uint32_t> scratch(6 * file.size());
        families.push_back(p.load(file, scratch));
    }
    return families;
}

static int grid_order(int row, int column) { return row * 10 + column + 1; }
static int bad_order(int row, int column) { return split_order(7, row, column); }

// Every workload: its name, what is there before it, which is not timed, and its calls, which come to one family or more.
template <class Visit> static void each_workload(Visit visit) {
    auto build = [&](const char *name, auto work) {
        visit(name, [](auto &) { return 0; }, [work](auto &p, int) { return std::vector{work(p)}; });
    };
    build("2,000 random combinations", [](auto &p) { return random_family(p, 2000, 1); });
    build("10,000 random combinations", [](auto &p) { return random_family(p, 10000, 1); });
    build("8 queens", [](auto &p) { return queens(p, 8); });
    build("10 queens", [](auto &p) { return queens(p, 10); });
    build("independent sets, 10 x 10 grid, rows in order", [](auto &p) { return independent_sets(p, 10, grid_order); });
    build("independent sets, 7 x 7 grid, even columns first", [](auto &p) { return independent_sets(p, 7, bad_order); });
    visit("Union, Intsec, Diff of large families", [](auto &p) { return there(p, two); }, three);
    visit("Even and Odd of a family of 50,000 parts", [](auto &p) { return there(p, mixed); }, even_and_odd);
}

// Whether a library has the calls of a row: an earlier one may have no Even and Odd, no sums of weights, no second entry of Size.
static bool has_calls(const Library &library, const std::string &row) {
    auto names = [&](const char *words) { return row.find(words) != std::string::npos; };
    if (names("Even")) return library.even;
    if (names("Weights")) return library.by_nodes;
    return library.size_compact || !names("two words");
}

[[noreturn]] static void differ(const std::string &name, const char *what) {
    std::fprintf(stderr, "bench: %s: %s\n", name.c_str(), what);
    std::exit(1);
}

// Stops where another library leaves other words than this one, or says that it added other numbers of nodes.
static void same_words(const std::string &name, const Ours &p, const Ours &q) {
    if (p.store.count != q.store.count) differ(name, "other counts");
    if (p.added != q.added) differ(name, "other numbers of nodes added");
    if (p.words.nodes != q.words.nodes) differ(name, "other node words");
    if (p.words.lookup != q.words.lookup) differ(name, "other lookup words");
    bool in_c = &q.library == &plain || &q.library == &tuned;
    if (in_c && p.words.cache != q.words.cache) differ(name, "other cache words: is group_of in plain.c and tuned.c the library's?");
}

// Stops unless all come to the same families in the same words; gives the nodes that the workload makes.
template <class Prepare, class Work>
static size_t check(const std::string &name, size_t capacity, size_t cache_words, Prepare prepare, Work work) {
    Words words(capacity, cache_words), others(capacity, cache_words);
    Ours p(here, words);
    auto families = work(p, prepare(p));
    for (size_t k = 1; k < libraries.size(); k++) {
        if (!has_calls(*libraries[k], name)) continue;
        Ours q(*libraries[k], others);
        if (work(q, prepare(q)) != families) differ(name, "other handles");
        for (auto family : families)
            if (p.file(family) != q.file(family)) differ(name, "other families");
        same_words(name, p, q);
    }
    Cudd q(cudd_cache);
    auto theirs = work(q, prepare(q));
    for (size_t k = 0; k < families.size(); k++)
        if (p.size(families[k]) != q.size(theirs[k]) || p.parts(families[k]) != q.parts(theirs[k]))
            differ(name, "CUDD has another family");
    return p.store.count;
}

// One row: all packages in turn, this library and the C store on the same words. A library without the calls has no times.
template <class Prepare, class Work>
static Row timed(const char *name, size_t nodes, size_t capacity, size_t cache_words, Prepare prepare, Work work) {
    Words words(capacity, cache_words);
    auto once = [&](auto &&p) {
        auto given = prepare(p);
        return seconds([&] { work(p, given); });
    };
    std::vector<std::function<double()>> runs;
    for (const Library *library : libraries)
        runs.push_back([&, library] { return has_calls(*library, name) ? once(Ours(*library, words)) : no_time; });
    runs.push_back([&] { return once(Cudd(cudd_cache)); });
    return {name, nodes, rounds(runs)};
}

static size_t capacity_in(const Setting &s, size_t nodes) { return s.fitted ? std::min(largest_capacity, 2 * nodes) : largest_capacity; }

// The nodes that each workload makes, in their order; all are checked in all settings.
static std::vector<size_t> check_workloads() {
    std::vector<size_t> nodes;
    each_workload([&](const char *name, auto prepare, auto work) {
        nodes.push_back(check(name, largest_capacity, settings[0].cache_words, prepare, work));
        for (const Setting &s : settings) check(name, capacity_in(s, nodes.back()), s.cache_words, prepare, work);
    });
    return nodes;
}

static std::vector<Row> time_workloads(const Setting &s, const std::vector<size_t> &nodes) {
    std::printf("\n### %s\n", s.title);
    Table table("Workload", "nodes made", true);
    size_t next = 0;
    each_workload([&](const char *name, auto prepare, auto work) {
        size_t made = nodes[next++];
        table.add(timed(name, made, capacity_in(s, made), s.cache_words, prepare, work));
    });
    return table.rows;
}

// Makes so many nodes by one random family of so many items a combination, as far as there is room.
static uint32_t grown(Ours &p, size_t nodes, int items = 8) {
    Random r{5};
    uint32_t family = 0;
    while (p.store.count + 9 < nodes) {
        uint32_t one = 1;
        for (int k = 0; k < items && p.store.count + 600 < largest_capacity; k++) one = p.change(one, r.next() % 512 + 1);
        if (p.store.count + 4700 > largest_capacity) break;
        family = p.unite(family, one);
    }
    return family;
}

// All subsets of the items 1 to 512.
static uint32_t all_subsets(Ours &p) {
    uint32_t family = 1;
    for (int item = 1; item <= 512; item++) family = p.unite(family, p.change(family, item));
    return family;
}

static std::vector<zdd_combination> combinations(int number, int items) {
    Random r{9};
    std::vector<zdd_combination> all(number);
    for (zdd_combination &c : all)
        for (int k = 0; k < items; k++) {
            uint32_t word = r.next() % 16;
            c.words[word] |= 1u << (r.next() % 32);
        }
    return all;
}

// The weights of the items in minutes, from 1 to 1000.
static std::vector<uint32_t> minutes() {
    Random r{17};
    std::vector<uint32_t> all(ZDD_LARGEST_ITEM);
    for (uint32_t &weight : all) weight = r.next() % 1000 + 1;
    return all;
}

// A store, a family in it, and the lent memory of the calls on it.
struct Shelf {
    Words words;
    Ours p;
    uint32_t family;
    std::vector<uint32_t> links, scratch;
    std::vector<uint64_t> sizes, sums;
    std::vector<uint8_t> file, out;
    template <class Build> Shelf(size_t capacity, Build build) : words(capacity, 1 << 18), p(here, words), family(build(p)) {
        file = p.file(family);
        links.resize(p.store.count), sizes.resize(p.store.count), out.resize(11 * size_t(p.store.count) + 5);
        sums.resize(3 * size_t(p.store.count));
        scratch.resize(6 * file.size());
    }
};

// A row of calls on a shelf: they give a number, and all libraries must give the same and leave the same output and sizes.
struct Calls {
    const char *name;
    size_t units;
    Shelf &shelf;
    std::function<Ours(const Library &)> store;
    std::function<uint64_t(Ours &)> work;

    Row timed() const {
        std::vector<std::function<double()>> runs;
        for (const Library *library : libraries)
            runs.push_back([this, library] {
                if (!has_calls(*library, name)) return no_time;
                Ours p = store(*library);
                return seconds([&] { work(p); });
            });
        return {name, units, rounds(runs)};
    }
    void check() const {
        Ours p = store(here);
        uint64_t answer = work(p);
        Words words = p.words;
        auto sizes = shelf.sizes;
        auto out = shelf.out;
        for (size_t k = 1; k < libraries.size(); k++) {
            if (!has_calls(*libraries[k], name)) continue;
            Ours q = store(*libraries[k]);
            if (work(q) != answer || shelf.sizes != sizes || shelf.out != out) differ(name, "other answers");
            same_words(name, Ours(p, words), q);
        }
    }
};

static Calls has(const char *name, Shelf &s, std::function<Ours(const Library &)> store, int number, int items) {
    auto all = combinations(number, items);
    return {name, all.size(), s, store, [&s, all](Ours &q) {
                uint64_t members = 0;
                for (const zdd_combination &c : all) members += q.has(s.family, c);
                return members;
            }};
}

static Calls save(const char *name, size_t units, Shelf &s, std::function<Ours(const Library &)> store) {
    return {name, units, s, store, [&s](Ours &q) { return q.save(s.family, s.links, s.out); }};
}

// Size of the family of a shelf in two words for each part, with scratch for so many times its parts.
static Calls compact(const char *name, Shelf &s, std::function<Ours(const Library &)> store, size_t times) {
    size_t parts = s.p.parts(s.family);
    auto scratch = std::make_shared<std::vector<uint64_t>>(2 * times * parts);
    return {name, parts, s, store, [&s, scratch](Ours &q) { return q.size_compact(s.family, *scratch); }};
}

// Size by both entries, the sums of weights, Save, Load, Audit and Has.
static std::vector<Row> time_calls() {
    Shelf s(largest_capacity, [](Ours &p) { return grown(p, 500000); });
    Shelf grid(largest_capacity, [](Ours &p) { return independent_sets(p, 7, bad_order); });
    Shelf small(10000, [](Ours &p) { return independent_sets(p, 6, grid_order); });
    Shelf deep(2000, all_subsets);
    Shelf among(largest_capacity, [](Ours &p) { return grown(p, 500000, 12); });
    Shelf behind(largest_capacity, [&](Ours &p) {
        grown(p, 450000);
        return p.load(among.file, among.scratch);
    });
    const std::vector<uint32_t> weights = minutes();
    size_t nodes = s.p.store.count, parts = s.p.parts(s.family), grid_parts = grid.p.parts(grid.family);
    Words fresh(2 * parts, 0);
    auto at = [](Shelf &shelf) { return [&shelf](const Library &library) { return Ours(library, shelf.p); }; };
    auto empty = [&](const Library &library) { return Ours(library, fresh); };
    auto load = [&](Ours &q) { return q.load(s.file, s.scratch); };
    std::vector<Calls> calls = {
        {"Size", nodes, s, at(s), [&](Ours &q) { return q.size(s.family, s.sizes); }},
        {"Size of a family among others", among.p.store.count, among, at(among), [&](Ours &q) { return q.size(among.family, among.sizes); }},
        compact("Size in two words, among others, just its parts", among, at(among), 1),
        compact("Size in two words, among others, twice that", among, at(among), 2),
        {"Size of a family loaded last", behind.p.store.count, behind, at(behind), [&](Ours &q) { return q.size(behind.family, behind.sizes); }},
        compact("Size in two words, loaded last, just its parts", behind, at(behind), 1),
        compact("Size in two words, loaded last, twice that", behind, at(behind), 2),
        {"Weights by nodes", nodes, s, at(s), [&](Ours &q) { return q.by_nodes(s.family, weights, s.sums); }},
        {"Weights by members, 6 x 6 grid", small.p.size(small.family), small, at(small),
         [&](Ours &q) { return q.by_members(small.family, weights, small.sums); }},
        save("Save", parts, s, at(s)),
        save("Save, 7 x 7 grid", grid_parts, grid, at(grid)),
        {"Load into an empty store", parts, s, empty, load},
        {"Load of what is held", parts, s, at(s), load},
        has("Has, 8 items", s, at(s), 100000, 8),
        has("Has, 512 items deep", deep, at(deep), 10000, 256),
        {"Audit", nodes, s, at(s), [](Ours &q) { return uint64_t(q.audit()); }},
    };
    for (const Calls &c : calls) c.check();
    std::printf("\n### Calls on a store of %zu nodes\n", nodes);
    Table table("Call", "nodes, parts, members or times", false);
    for (const Calls &c : calls) table.add(c.timed());
    return table.rows;
}

// Time as a store grows.
static void time_growth() {
    std::printf("\n### Growth\n");
    Table table("Building", "nodes made", false);
    Shelf s(largest_capacity, [](Ours &) { return 0; });
    for (size_t nodes : {size_t(10000), size_t(100000), size_t(1000000)}) {
        auto work = [nodes](Ours &q) { return grown(q, nodes); };
        Ours p(here, s.words);
        work(p);
        Calls c = {"one random family", p.store.count, s, [&](const Library &library) { return Ours(library, s.words); }, work};
        c.check();
        table.add(c.timed());
    }
}

static void line(const std::string &what, const char *asked, double found, const std::string &where) {
    std::printf("| %s | %s | %.2f | %s |\n", what.c_str(), asked, found, where.c_str());
}

static double slowest(const std::vector<Row> &rows) {
    double least = rows[0].cudd_by_ours();
    for (const Row &row : rows) least = std::min(least, row.cudd_by_ours());
    return least;
}

// What is asked, and what came out.
static void summary(const std::vector<std::vector<Row>> &tables, const std::vector<Row> &calls) {
    std::printf("\n### Summary\n\n| What | asked | found | where |\n|---|---|---|---|\n");
    const char *most[] = {"at most 1.10", "at most 1.25", "-", "-"}, *means[] = {"1.0", "-", "-", "-"};
    for (size_t k = 0; k < tables.size(); k++) {
        line("largest time by the C store's", most[k], largest(tables[k]).by_plain(), settings[k].title + (": " + largest(tables[k]).name));
        line("mean time by the C store's", means[k], mean(tables[k], &Row::by_plain), settings[k].title);
        line("mean time by tuned C's", "-", mean(tables[k], &Row::by_tuned), settings[k].title);
    }
    for (const char *call : {"Save", "Has"}) {
        Row row = largest(named(calls, call));
        line(std::string(call) + ", largest time by the C store's", "at most 1.05", row.by_plain(), row.name);
    }
    double by_size = named(calls, "by nodes")[0].each() / named(calls, "Size")[0].each();
    line("Weights by nodes, time per node by Size's", "at most 2", by_size, "this library");
    for (const char *where : {"among others", "loaded last"}) {
        std::vector<Row> rows = named(calls, where); // the first entry, then the second
        for (size_t k : {1, 2})
            line("Size in two words, time per part by the first entry's per node", k == 1 ? "at most 8" : "at most 4",
                 rows[k].each() / rows[0].each(), rows[k].name);
    }
    line("times CUDD's speed", "at least 1.5", slowest(named(tables[0], "random combinations")), "building from random combinations");
    line("times CUDD's speed", "at least 2", slowest(named(tables[0], "large families")), "Union, Intsec, Diff of large families");
    line("times CUDD's speed", "-", slowest(tables[0]), "the slowest of all workloads");
}

int main(int arguments, char **argument) {
    std::vector<size_t> nodes = check_workloads();
    std::vector<std::vector<Row>> tables;
    for (const Setting &s : settings) tables.push_back(time_workloads(s, nodes));
    std::vector<Row> calls = time_calls();
    time_growth();
    summary(tables, calls);
    if (arguments < 2) return 0;
    std::vector<Row> shown = tables[0];
    shown.insert(shown.end(), calls.begin(), calls.end());
    Chart(argument[1]).draw(shown);
}
