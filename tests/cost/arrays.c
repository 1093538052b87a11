/* A contender over two arrays: the calls of calls.h, by whatever is linked with it. */
#include "calls.h"
#include "contender.h"
#include <string.h>

static int32_t base[LONGEST], check[LONGEST];
static size_t length;

void fresh(size_t elements) {
    length = elements;
    memset(base, 0, sizeof base);
    memset(check, 0, sizeof check);
    base[0] = base[1] = check[1] = 1;
    check[0] = -2;
}

uint64_t find(const entry *e) { return cost_find(base, length, check, length, e->key, e->length); }

uint64_t insert(const entry *e) {
    return cost_insert(base, length, check, length, e->key, e->length, e->row);
}

uint64_t erase(const entry *e) {
    return cost_delete(base, length, check, length, e->key, e->length);
}

uint64_t audit(void) { return cost_audit(base, length, check, length); }

uint64_t list(uint8_t *out) { return cost_list(base, length, check, length, out, LISTING); }

size_t cells(void) { return (size_t)base[0]; }

void save(FILE *file) {
    fwrite(base, sizeof base[0], length, file);
    fwrite(check, sizeof check[0], length, file);
}
