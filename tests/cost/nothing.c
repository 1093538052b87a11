/* The calls of calls.h, and those of libdatrie that datrie.c makes, by functions that do nothing: a
 * program with these has the cost of its loops alone. Their arguments are left out here. On both
 * kinds of machine that is the caller's affair: he passes them all the same. */
#include <stdint.h>

#define NOTHING(name)                                                                              \
    uint64_t name(void);                                                                           \
    uint64_t name(void) { return 0; }

NOTHING(cost_find)
NOTHING(cost_insert)
NOTHING(cost_delete)
NOTHING(cost_audit)
NOTHING(cost_list)
NOTHING(cost_single)
NOTHING(cost_run)

NOTHING(alpha_map_new)
NOTHING(alpha_map_add_range)
NOTHING(alpha_map_free)
NOTHING(trie_new)
NOTHING(trie_free)
NOTHING(trie_store)
NOTHING(trie_retrieve)
NOTHING(trie_delete)
NOTHING(trie_enumerate)
