/* libdatrie as a contender. The identifiers are given in its own characters, of 32 bits; it lists in
 * the order of those, and the line is written by the function that it calls for each identifier. It
 * has no audit and takes its memory itself. */
#include "contender.h"
#include <datrie/trie.h>

static Trie *trie;

void fresh(size_t elements) {
    AlphaMap *map = alpha_map_new();
    (void)elements;
    alpha_map_add_range(map, 'a', 'z');
    alpha_map_add_range(map, '0', '9');
    alpha_map_add_range(map, '-', '-');
    if (trie != NULL)
        trie_free(trie);
    trie = trie_new(map);
    alpha_map_free(map);
}

uint64_t find(const entry *e) {
    TrieData row = 0;
    return trie_retrieve(trie, e->wide, &row) ? (uint64_t)row : 0;
}

uint64_t insert(const entry *e) { return !trie_store(trie, e->wide, (TrieData)e->row); }

uint64_t erase(const entry *e) { return trie_delete(trie, e->wide) ? e->row : 0; }

uint64_t audit(void) { return 0; }

static uint8_t *put_hex(uint8_t *out, uint32_t number, int digits) {
    while (digits-- > 0)
        *out++ = (uint8_t) "0123456789abcdef"[number >> 4 * digits & 15];
    return out;
}

static Bool put_line(const AlphaChar *key, TrieData row, void *place) {
    uint8_t **out = place;
    uint32_t length = 0;
    while (key[length] != 0)
        length++;
    *out = put_hex(*out, length, 2);
    for (; *key != 0; key++)
        *out = put_hex(*out, *key, 2);
    *out = put_hex(*out, (uint32_t)row, 8);
    *(*out)++ = '\n';
    return TRUE;
}

uint64_t list(uint8_t *out) {
    uint8_t *end = out;
    trie_enumerate(trie, put_line, &end);
    return (uint64_t)(end - out);
}

size_t cells(void) { return 0; }

void save(FILE *file) { (void)file; }
