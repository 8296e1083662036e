/* A pocket tester with the items 1 to 64 and final test with 512, each with a store of its own. A family of each goes to
 * the other as a file, loaded and saved again, and is sized in both: by all nodes held where it comes from, in two words for
 * each of its parts where it goes. A file with an item above 64 is refused by the pocket tester. Ends with status 0 exactly
 * when bytes and sizes are equal both ways, that refusal is 13, and both stores are sound. */
#include <stdio.h>
#include <stdlib.h>
#include <string.h>
#include "zdd.h"

/* A store with the words that it is lent. */
typedef struct {
    zdd_store record;
    size_t node_words, lookup_words, cache_words;
    uint32_t *nodes, *lookup, *cache;
} shelf;

#define WORDS(s) (s)->nodes, (s)->node_words, (s)->lookup, (s)->lookup_words
#define ALL_WORDS(s) WORDS(s), (s)->cache, (s)->cache_words

static void stop(const char *what, uint32_t refusal) {
    fprintf(stderr, "%s: refused with %u\n", what, (unsigned)refusal);
    exit(1);
}

static void *lend(size_t count, size_t width) {
    void *words = calloc(count ? count : 1, width);
    if (!words) {
        fprintf(stderr, "no memory\n");
        exit(1);
    }
    return words;
}

static shelf open_shelf(size_t capacity, size_t cache_words, uint32_t limit) {
    shelf s = {{0, 0, 0}, 3 * capacity, 2 * capacity + 1, cache_words, NULL, NULL, NULL};
    s.nodes = lend(s.node_words, sizeof *s.nodes);
    s.lookup = lend(s.lookup_words, sizeof *s.lookup);
    s.cache = lend(s.cache_words, sizeof *s.cache);
    zdd_freshened fresh = zdd_fresh(ALL_WORDS(&s), limit);
    if (fresh.refusal) stop("Fresh", fresh.refusal);
    s.record = fresh.store;
    return s;
}

static void close_shelf(shelf *s) {
    free(s->nodes);
    free(s->lookup);
    free(s->cache);
}

/* Goes on with the record that a call gave back, and gives its handle. */
static uint32_t handle_of(shelf *s, const char *what, zdd_placed placed) {
    if (placed.refusal) stop(what, placed.refusal);
    s->record = placed.store;
    return placed.handle;
}

/* The family with one combination more. */
static uint32_t add(shelf *s, uint32_t family, const uint32_t *items, size_t count) {
    uint32_t one = zdd_base();
    for (size_t i = 0; i < count; i++)
        one = handle_of(s, "Change", zdd_change(s->record, ALL_WORDS(s), one, items[i]));
    return handle_of(s, "Union", zdd_union(s->record, ALL_WORDS(s), family, one));
}

static uint64_t size_of(const shelf *s, uint32_t family) {
    uint64_t *scratch = lend(s->record.count, sizeof *scratch);
    zdd_measured measured = zdd_size(s->record, WORDS(s), family, scratch, s->record.count);
    free(scratch);
    if (measured.refusal) stop("Size", measured.refusal);
    return measured.size;
}

/* The same in scratch for so many parts, however full the store is. */
static uint64_t compact_size_of(const shelf *s, uint32_t family, size_t parts) {
    uint64_t *scratch = lend(2 * parts, sizeof *scratch);
    zdd_measured measured = zdd_size_compact(s->record, WORDS(s), family, scratch, 2 * parts);
    free(scratch);
    if (measured.refusal) stop("Size compact", measured.refusal);
    return measured.size;
}

/* How many different parts the family of a file has: its bytes 1 to 4, the lowest first; the files of {} and {{}} end before. */
static size_t parts_in(const uint8_t *file, size_t length) {
    if (length < 5) return 0;
    return file[1] + ((size_t)file[2] << 8) + ((size_t)file[3] << 16) + ((size_t)file[4] << 24);
}

/* The file of a family, in memory that the caller frees. */
static uint8_t *save(const shelf *s, uint32_t family, size_t *length) {
    size_t room = 5 + 11 * (size_t)s->record.count;
    uint32_t *scratch = lend(s->record.count, sizeof *scratch);
    uint8_t *out = lend(room, 1);
    zdd_saved saved = zdd_save(s->record, WORDS(s), family, scratch, s->record.count, out, room);
    free(scratch);
    if (saved.refusal) stop("Save", saved.refusal);
    *length = saved.length;
    return out;
}

static zdd_placed load(shelf *s, const uint8_t *file, size_t length) {
    uint32_t *scratch = lend(6 * length, sizeof *scratch);
    zdd_placed placed = zdd_load(s->record, ALL_WORDS(s), file, length, scratch, 6 * length);
    free(scratch);
    return placed;
}

/* Whether a family of one store, loaded in the other, has the same size there and, saved again, the same bytes. Says what the
 * Load cost. */
static bool travels(const shelf *from, uint32_t family, shelf *to) {
    size_t length = 0, again = 0;
    uint8_t *file = save(from, family, &length);
    zdd_placed placed = load(to, file, length);
    uint32_t loaded = handle_of(to, "Load", placed);
    uint8_t *copy = save(to, loaded, &again);
    size_t parts = parts_in(file, length);
    uint64_t here = size_of(from, family), there = compact_size_of(to, loaded, parts);
    bool same = length == again && memcmp(file, copy, length) == 0 && here == there;
    printf("limit %u to %u: handle %u with %llu members in %zu parts, %zu bytes; there handle %u with %llu members, %u nodes added, "
           "%zu bytes: %s\n",
           (unsigned)from->record.limit, (unsigned)to->record.limit, (unsigned)family, (unsigned long long)here, parts, length,
           (unsigned)loaded, (unsigned long long)there, (unsigned)placed.added, again, same ? "equal" : "NOT EQUAL");
    free(file);
    free(copy);
    return same;
}

/* Whether the other store refuses the file of a family, since it has an item above its limit. */
static bool is_above(const shelf *from, uint32_t family, shelf *to) {
    size_t length = 0;
    uint8_t *file = save(from, family, &length);
    uint32_t refusal = load(to, file, length).refusal;
    printf("limit %u to %u: handle %u: refused with %u\n", (unsigned)from->record.limit, (unsigned)to->record.limit,
           (unsigned)family, (unsigned)refusal);
    free(file);
    return refusal == ZDD_ABOVE_LIMIT;
}

static bool is_sound(shelf *s) { return zdd_audit(s->record, ALL_WORDS(s)).sound; }

int main(void) {
    const uint32_t first[] = {1, 2}, second[] = {2, 7, 64}, third[] = {40}, above[] = {3, 65};
    shelf pocket = open_shelf(100, 256, 64), final = open_shelf(5000, 0, 512);
    uint32_t seen = add(&pocket, add(&pocket, zdd_empty(), first, 2), second, 3);
    uint32_t known = add(&final, add(&final, zdd_base(), third, 1), second, 3);
    uint32_t more = add(&final, known, above, 2);
    bool there = travels(&pocket, seen, &final), back = travels(&final, known, &pocket);
    bool refused = is_above(&final, more, &pocket);
    bool sound = is_sound(&pocket) && is_sound(&final);
    printf("the stores are %s\n", sound ? "sound" : "NOT SOUND");
    close_shelf(&pocket);
    close_shelf(&final);
    return there && back && refused && sound ? 0 : 1;
}
