/* Makes calls in several threads at once, as the header allows: each thread edits a table of its
 * own, and all of them read one that they share. Every one has to come to the same answers and the
 * same table as one thread alone.
 */
#include "zsermulat.h"
#include <pthread.h>
#include <stdio.h>
#include <string.h>

enum { THREADS = 8, ROUNDS = 3, LENGTH = 2000, KEYS = 300 };

typedef struct {
    int32_t base[LENGTH], check[LENGTH];
} table;

/* What a thread has, and what it came to. */
typedef struct {
    const table *shared;
    table own;
    uint64_t sum;
    uint8_t listing[ZS_LISTING_MOST(LENGTH)];
} work;

static size_t spell(char *key, int n) {
    return (size_t)sprintf(key, "nl-%06d-%d", n * 7919 % 1000000, n % 10);
}

static zs_answer insert(table *t, int n) {
    char key[32];
    size_t length = spell(key, n);
    return zs_insert(t->base, LENGTH, t->check, LENGTH, (const uint8_t *)key, length,
                     (uint32_t)n + 1);
}

static zs_answer erase(table *t, int n) {
    char key[32];
    size_t length = spell(key, n);
    return zs_delete(t->base, LENGTH, t->check, LENGTH, (const uint8_t *)key, length);
}

static zs_answer find(const table *t, int n) {
    char key[32];
    size_t length = spell(key, n);
    return zs_find(t->base, LENGTH, t->check, LENGTH, (const uint8_t *)key, length);
}

/* Fills a table, with lookups in the shared one between; deletes every third; lists the shared. */
static void *labour(void *place) {
    work *w = place;
    int round, n;
    for (round = 0; round < ROUNDS; round++) {
        zs_fresh(w->own.base, LENGTH, w->own.check, LENGTH);
        for (n = 0; n < KEYS; n++)
            w->sum = w->sum * 31 + insert(&w->own, n) + find(w->shared, n);
        for (n = 0; n < KEYS; n += 3)
            w->sum = w->sum * 31 + erase(&w->own, n) + find(&w->own, n);
        w->sum += zs_compact(w->own.base, LENGTH, w->own.check, LENGTH, 100);
        w->sum += zs_audit(w->shared->base, LENGTH, w->shared->check, LENGTH);
        w->sum += zs_list(w->shared->base, LENGTH, w->shared->check, LENGTH, w->listing,
                          sizeof w->listing);
    }
    return NULL;
}

int main(void) {
    static table shared;
    static work alone, all[THREADS];
    pthread_t threads[THREADS];
    int n;
    zs_fresh(shared.base, LENGTH, shared.check, LENGTH);
    for (n = 0; n < KEYS; n += 2)
        insert(&shared, n);
    alone.shared = &shared;
    labour(&alone);
    for (n = 0; n < THREADS; n++) {
        all[n].shared = &shared;
        if (pthread_create(&threads[n], NULL, labour, &all[n]) != 0)
            return 1;
    }
    for (n = 0; n < THREADS; n++)
        if (pthread_join(threads[n], NULL) != 0 || memcmp(&all[n], &alone, sizeof alone) != 0) {
            fprintf(stderr, "threads: thread %d came to something else\n", n);
            return 1;
        }
    return 0;
}
