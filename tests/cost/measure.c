/* Makes one contender's calls over a file of identifiers, a line 'IDENTIFIER ROW' each, in a table of
 * arrays of so many elements. Each loop lies between two marks, the system calls that count.c counts
 * at. For each it prints a line: the number of the table's row, the calls (of an audit the cells, of
 * a listing the bytes), the sum of the answers.
 * usage: measure calls ELEMENTS HITS MISSES OUT
 *            inserts all, finds the hits and the misses, audits, lists, and deletes half of them;
 *            OUT.1 and OUT.2 are the arrays before and after that, OUT.3 and OUT.4 the listings
 *        measure full ELEMENTS HITS OUT
 *            inserts all that have room, audits and lists; OUT.1 are the arrays, OUT.3 the listing
 *        measure stack ELEMENTS HITS
 *            inserts all that have room, and prints the bytes of stack that a listing uses
 */
#include "../painted.h"
#include "contender.h"
#include <inttypes.h>
#include <unistd.h>

enum { MARK = 9999, STRIDE = 4217, MOST = 65536, STACK = 1 << 20 };

/* The rows of the table. */
enum { FIND_HIT = 1, FIND_MISS, INSERT, DELETE, AUDIT, LIST };

static entry hits[MOST], misses[MOST], deleted[MOST];
static uint8_t listing[LISTING];

static void die(const char *why) {
    fprintf(stderr, "measure: %s\n", why);
    exit(2);
}

/* ---- files */

static size_t read_entries(const char *name, entry *entries) {
    FILE *file = fopen(name, "r");
    char key[LIMIT + 1];
    uint32_t row;
    size_t count = 0, i;
    if (file == NULL)
        die("no such file");
    while (fscanf(file, "%32s %" SCNu32, key, &row) == 2) {
        entry *e = &entries[count++];
        e->length = strlen(key);
        e->row = row;
        memcpy(e->key, key, e->length);
        for (i = 0; i < e->length; i++)
            e->wide[i] = e->key[i];
        if (count == MOST)
            break;
    }
    fclose(file);
    return count;
}

static FILE *create(const char *name, int number) {
    char path[4096];
    FILE *file;
    snprintf(path, sizeof path, "%s.%d", name, number);
    file = fopen(path, "wb");
    if (file == NULL)
        die("a file cannot be written");
    return file;
}

static void save_arrays(const char *name, int number) {
    FILE *file = create(name, number);
    save(file);
    fclose(file);
}

static void save_listing(const char *name, int number, size_t bytes) {
    FILE *file = create(name, number);
    fwrite(listing, 1, bytes, file);
    fclose(file);
}

/* ---- what is counted */

static void mark(int row) { syscall(MARK, row); }

static void over(int row, uint64_t (*call)(const entry *), const entry *entries, size_t count) {
    uint64_t sum = 0;
    size_t i;
    mark(row);
    for (i = 0; i < count; i++)
        sum += call(&entries[i]);
    mark(row);
    printf("%d %zu %" PRIu64 "\n", row, count, sum);
}

static void count_audit(void) {
    uint64_t answer;
    mark(AUDIT);
    answer = audit();
    mark(AUDIT);
    printf("%d %zu %" PRIu64 "\n", AUDIT, cells(), answer);
}

static size_t count_list(void) {
    uint64_t bytes;
    mark(LIST);
    bytes = list(listing);
    mark(LIST);
    printf("%d %" PRIu64 " 0\n", LIST, bytes);
    return (size_t)bytes;
}

/* The half that is deleted is taken from all over the file, in another order than the inserts'. */
static void count_calls(const char *out, size_t count, size_t count_misses) {
    size_t i;
    for (i = 0; i < count / 2; i++)
        deleted[i] = hits[i * STRIDE % count];
    over(INSERT, insert, hits, count);
    save_arrays(out, 1);
    over(FIND_HIT, find, hits, count);
    over(FIND_MISS, find, misses, count_misses);
    count_audit();
    save_listing(out, 3, count_list());
    over(DELETE, erase, deleted, count / 2);
    save_arrays(out, 2);
    save_listing(out, 4, (size_t)list(listing));
}

/* ---- the stack of a listing */

static void *list_all(void *unused) {
    list(listing);
    return unused;
}

int main(int count, char **words) {
    size_t entries, i;
    if (count < 4)
        die("usage: measure calls|full|stack ELEMENTS HITS [[MISSES] OUT]");
    entries = read_entries(words[3], hits);
    fresh(strtoul(words[2], NULL, 10));
    if (strcmp(words[1], "calls") == 0 && count == 6) {
        count_calls(words[5], entries, read_entries(words[4], misses));
        return 0;
    }
    for (i = 0; i < entries; i++)
        insert(&hits[i]);
    if (strcmp(words[1], "full") == 0 && count == 5) {
        save_arrays(words[4], 1);
        count_audit();
        save_listing(words[4], 3, count_list());
    } else {
        printf("%zu\n", stack_used(list_all, STACK));
    }
    return 0;
}
