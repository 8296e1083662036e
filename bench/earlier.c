/* The calls of an earlier library as this header has them, for `bench/run REVISION`, some nanoseconds a call. One that places a
 * family does not say how many nodes it added (before request 7): that is the difference of the two counts. With UNLIMITED the
 * record has no limit either (before request 6): each call hands it on without and puts the limit back, and stores take all items. */
#include "../include/zdd.h"

/* ---- the earlier record of this header's, and back ---- */

#ifdef UNLIMITED
typedef struct {
    uint32_t capacity, count;
} record;

static record less(zdd_store s) { return (record){s.capacity, s.count}; }
#else
typedef zdd_store record;

static record less(zdd_store s) { return s; }
#endif

static zdd_store more(record r, uint32_t limit) { return (zdd_store){r.capacity, r.count, limit}; }

#define WORDS uint32_t *nodes, size_t node_words, uint32_t *lookup, size_t lookup_words
#define READ const uint32_t *nodes, size_t node_words, const uint32_t *lookup, size_t lookup_words
#define CACHE uint32_t *cache, size_t cache_words
#define HAND_ON nodes, node_words, lookup, lookup_words

/* ---- the calls that place a family; `bench/run` gives the earlier library's names a prefix ---- */

typedef struct {
    record store;
    uint32_t refusal, handle;
} placed;

static zdd_placed counted(zdd_store s, placed r) {
    return (zdd_placed){more(r.store, s.limit), r.refusal, r.handle, r.store.count - s.count};
}

#define OPERATION(name)                                                                \
    placed earlier_##name(record, WORDS, CACHE, uint32_t, uint32_t);                   \
    __typeof__(name) before_##name;                                                    \
    zdd_placed before_##name(zdd_store s, WORDS, CACHE, uint32_t p, uint32_t q) {      \
        return counted(s, earlier_##name(less(s), HAND_ON, cache, cache_words, p, q)); \
    }
OPERATION(zdd_change)
OPERATION(zdd_subset0)
OPERATION(zdd_union)
OPERATION(zdd_intsec)
OPERATION(zdd_diff)

placed earlier_zdd_load(record, WORDS, CACHE, const uint8_t *, size_t, uint32_t *, size_t);
__typeof__(zdd_load) before_zdd_load;
zdd_placed before_zdd_load(zdd_store s, WORDS, CACHE, const uint8_t *file, size_t file_bytes, uint32_t *scratch, size_t scratch_words) {
    return counted(s, earlier_zdd_load(less(s), HAND_ON, cache, cache_words, file, file_bytes, scratch, scratch_words));
}

/* ---- the others, which with the same record are the same ---- */

#ifdef UNLIMITED
#define ANSWER(name, fields) typedef struct { record store; fields } name
ANSWER(freshened, uint32_t refusal;);
ANSWER(measured, uint32_t refusal; uint64_t size;);
ANSWER(asked, uint32_t refusal; bool member;);
ANSWER(saved, uint32_t refusal; size_t length;);
ANSWER(audited, bool sound;);

freshened earlier_zdd_fresh(WORDS, CACHE);
measured earlier_zdd_size(record, READ, uint32_t, uint64_t *, size_t);
asked earlier_zdd_has(record, READ, uint32_t, zdd_combination);
saved earlier_zdd_save(record, READ, uint32_t, uint32_t *, size_t, uint8_t *, size_t);
audited earlier_zdd_audit(record, READ, CACHE);

__typeof__(zdd_fresh) before_zdd_fresh;
__typeof__(zdd_size) before_zdd_size;
__typeof__(zdd_has) before_zdd_has;
__typeof__(zdd_save) before_zdd_save;
__typeof__(zdd_audit) before_zdd_audit;

zdd_freshened before_zdd_fresh(WORDS, CACHE, uint32_t limit) {
    freshened r = earlier_zdd_fresh(HAND_ON, cache, cache_words);
    return (zdd_freshened){more(r.store, limit), r.refusal};
}

zdd_measured before_zdd_size(zdd_store s, READ, uint32_t p, uint64_t *scratch, size_t scratch_words) {
    measured r = earlier_zdd_size(less(s), HAND_ON, p, scratch, scratch_words);
    return (zdd_measured){more(r.store, s.limit), r.refusal, r.size};
}

zdd_asked before_zdd_has(zdd_store s, READ, uint32_t p, zdd_combination combination) {
    asked r = earlier_zdd_has(less(s), HAND_ON, p, combination);
    return (zdd_asked){more(r.store, s.limit), r.refusal, r.member};
}

zdd_saved before_zdd_save(zdd_store s, READ, uint32_t p, uint32_t *scratch, size_t scratch_words, uint8_t *out, size_t out_bytes) {
    saved r = earlier_zdd_save(less(s), HAND_ON, p, scratch, scratch_words, out, out_bytes);
    return (zdd_saved){more(r.store, s.limit), r.refusal, r.length};
}

zdd_audited before_zdd_audit(zdd_store s, READ, CACHE) {
    audited r = earlier_zdd_audit(less(s), HAND_ON, cache, cache_words);
    return (zdd_audited){more(r.store, s.limit), r.sound};
}
#endif
