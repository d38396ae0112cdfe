/* A cache of the eight keys that were used last: a hash table for finding a key, a ring of links for its age, one lock for both.
 *
 *     tools/haft-cc examples/c/lru.c > lru.ll
 *     ./haft run lru.ll examples/c/round_robin.sched
 *
 * Three threads look keys up and put in what is missing. What is found depends on who comes first. What is put out doesn't: how many keys were
 * looked up, how many values were wrong, and how many keys the cache holds then. After that main looks up a few keys alone, from an empty
 * cache, and puts out for each whether it was found.
 */
#include "haft.h"

#include <pthread.h>
#include <stdbool.h>
#include <stddef.h>
#include <string.h>

#define ROOM 8
#define SLOTS 16
#define THREADS 3
#define LOOKUPS 16

struct entry {
    uint32_t key, value;
    struct entry *newer, *older;
    struct entry *chain; /* the next entry of the same slot */
};

struct cache {
    pthread_mutex_t lock;
    struct entry *slots[SLOTS];
    struct entry ring; /* between the newest and the oldest */
    struct entry entries[ROOM];
    unsigned used;
};

struct reader {
    pthread_t thread;
    uint32_t state;
    unsigned lookups, wrong;
};

static struct cache cache = {.lock = PTHREAD_MUTEX_INITIALIZER};
static struct reader readers[THREADS];

/* What the cache saves: here just a product. */
static uint32_t value_of(uint32_t key) {
    return key * 2654435761u;
}

static struct entry **slot_of(struct cache *c, uint32_t key) {
    return &c->slots[(key * 40503u >> 4) % SLOTS];
}

static void empty(struct cache *c) {
    memset(c->slots, 0, sizeof c->slots);
    c->ring.newer = c->ring.older = &c->ring;
    c->used = 0;
}

static void unlink_entry(struct entry *e) {
    e->newer->older = e->older;
    e->older->newer = e->newer;
}

static void make_newest(struct cache *c, struct entry *e) {
    e->older = c->ring.older;
    e->newer = &c->ring;
    c->ring.older->newer = e;
    c->ring.older = e;
}

/* An entry that may be filled: a new one, or else the oldest, taken out of its slot. */
static struct entry *room_for_one(struct cache *c) {
    if (c->used < ROOM)
        return &c->entries[c->used++];
    struct entry *oldest = c->ring.newer, **at = slot_of(c, oldest->key);
    while (*at != oldest)
        at = &(*at)->chain;
    *at = oldest->chain;
    unlink_entry(oldest);
    return oldest;
}

/* Looks a key up, and puts it in where it is missing. The answer says whether it was there. */
static bool get(struct cache *c, uint32_t key, uint32_t *value) {
    struct entry *e = *slot_of(c, key);
    while (e && e->key != key)
        e = e->chain;
    bool found = e != NULL;
    if (found) {
        unlink_entry(e);
    } else {
        e = room_for_one(c);
        e->key = key;
        e->value = value_of(key);
        e->chain = *slot_of(c, key);
        *slot_of(c, key) = e;
    }
    make_newest(c, e);
    *value = e->value;
    return found;
}

static void *read_keys(void *arg) {
    struct reader *reader = arg;
    for (int k = 0; k < LOOKUPS; k++) {
        reader->state = reader->state * 1103515245u + 12345u;
        uint32_t key = (reader->state >> 16) % 12, value;
        pthread_mutex_lock(&cache.lock);
        get(&cache, key, &value);
        pthread_mutex_unlock(&cache.lock);
        reader->lookups++;
        reader->wrong += value != value_of(key);
    }
    return NULL;
}

int main(void) {
    empty(&cache);
    for (uint32_t k = 0; k < THREADS; k++) {
        readers[k].state = k + 1;
        pthread_create(&readers[k].thread, NULL, read_keys, &readers[k]);
    }
    unsigned lookups = 0, wrong = 0;
    for (int k = 0; k < THREADS; k++) {
        pthread_join(readers[k].thread, NULL);
        lookups += readers[k].lookups;
        wrong += readers[k].wrong;
    }
    haft_out(lookups);
    haft_out(wrong);
    haft_out(cache.used);

    static const uint32_t keys[] = {1, 2, 3, 1, 4, 5, 6, 7, 8, 9, 2, 1, 3};
    empty(&cache);
    for (unsigned k = 0; k < sizeof keys / sizeof *keys; k++) {
        uint32_t value;
        haft_out(get(&cache, keys[k], &value));
    }
    return wrong == 0 ? 0 : 1;
}
