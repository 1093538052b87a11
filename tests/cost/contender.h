/* What measure.c asks of a contender: arrays.c (ours, plain C, or nothing) and datrie.c. */
#include <stddef.h>
#include <stdint.h>
#include <stdio.h>

enum { LONGEST = 65536, LIMIT = 32, LISTING = 75 * LONGEST };

/* An identifier with its row, by bytes and by libdatrie's characters, which end with a 0. */
typedef struct {
    uint8_t key[LIMIT];
    size_t length;
    uint32_t row;
    uint32_t wide[LIMIT + 1];
} entry;

/* Makes the table empty, for arrays of so many elements. */
void fresh(size_t elements);

/* The row, or 0. */
uint64_t find(const entry *e);

/* 0 if it is done. */
uint64_t insert(const entry *e);

/* The row of what is removed. */
uint64_t erase(const entry *e);

/* 0 if the table is sound, or there is no audit. */
uint64_t audit(void);

/* The bytes of the listing. */
uint64_t list(uint8_t *out);

/* The table's size in cells; 0 where there are no arrays. */
size_t cells(void);

/* Writes the arrays, if there are any. */
void save(FILE *file);
