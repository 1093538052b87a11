/* zsermulat.h: a respondent index whose promises are proved, for C99 and C++.
 *
 * It maps respondent identifiers (1 to 32 characters from a-z, 0-9 and hyphen) to row numbers
 * (1 to 1,000,000), in two arrays of signed 32-bit numbers that you lend for each call and keep:
 * base and check, of one length from 2 to 65,536. zs_fresh makes them an empty table. They hold no
 * pointers, so they can be copied, saved and loaded again.
 *
 * What is proved, for arrays of any lengths and contents and whatever else is handed in: each call
 * ends, reads and writes inside its arrays, and both its answer and every element and byte that it
 * leaves are those that the rules determine. A call that is refused changes nothing. The calls that
 * edit or list audit the table themselves; zs_find does not, and walks damaged cells safely.
 *
 * What you have to see to, since no proof reaches into C:
 *   - A pointer points to as many elements as the length behind it says, and they may be read and,
 *     where it is not const, written. Where the length is 0 the pointer may be null.
 *   - What is lent to be written overlaps nothing else that is lent to the same call.
 *   - While a call writes a table, no other thread reads or writes that table. Calls that only read
 *     it (zs_find, zs_audit, zs_list) may run side by side. The library keeps nothing of its own.
 *   - Of the stack zs_fresh and zs_find need less than 1 KB, the others at most 132 KB. This is
 *     measured, not proved. They take no other memory, and of the C library they need memset alone.
 *
 * There is an archive for x86-64 and one for aarch64, each proved and compiled by the prover's kit.
 * Both pass the same tests, and run on every processor of their kind.
 */
#ifndef ZSERMULAT_H
#define ZSERMULAT_H

#include <stddef.h>
#include <stdint.h>

#ifdef __cplusplus
extern "C" {
#endif

/* What a call answers: a number, which is ZS_DONE or says why the call is refused, and a value. */
typedef uint64_t zs_answer;

enum zs_numbers {
    ZS_DONE = 0,
    ZS_SIZE = 1,     /* the arrays' lengths are unequal, below 2 or above 65,536 */
    ZS_KEY = 2,      /* the identifier is empty, over 32, or has another character */
    ZS_NUMBER = 3,   /* the row, or the number of moves, is out of range */
    ZS_DAMAGED = 4,  /* the audit says no: the arrays hold no sound table */
    ZS_PRESENT = 5,  /* the identifier is there already; the value is its row */
    ZS_ABSENT = 6,   /* the identifier is not there */
    ZS_NO_ROOM = 7,  /* the arrays have no place for the identifier */
    ZS_NO_SPACE = 8, /* the listing or the answers are longer than their buffer */
    ZS_LINE = 9      /* no call gives it, only a line of a run: the line is no command */
};

/* The answer's number. */
static inline int zs_number(zs_answer a) { return (int)(a >> 60); }

/* The answer's value: where it is done, what each call says below; the row held with ZS_PRESENT; 0
 * with any other refusal. */
static inline uint64_t zs_value(zs_answer a) { return a & (((uint64_t)1 << 60) - 1); }

/* Makes the empty table, whatever the arrays held. ZS_SIZE, or done. */
zs_answer zs_fresh(int32_t *base, size_t base_length, int32_t *check, size_t check_length);

/* Looks an identifier up. ZS_SIZE, ZS_KEY, ZS_ABSENT, or done with its row. It never changes
 * anything. On a table that passes the audit it answers exactly as a plain list of identifiers and
 * rows would. */
zs_answer zs_find(const int32_t *base, size_t base_length, const int32_t *check,
                  size_t check_length, const uint8_t *key, size_t key_length);

/* Inserts an identifier with its row. ZS_SIZE, ZS_KEY, ZS_NUMBER, ZS_DAMAGED, ZS_PRESENT with the
 * row held, ZS_NO_ROOM, or done with the number of cells that were moved for it. It never replaces
 * a row: delete the identifier first. */
zs_answer zs_insert(int32_t *base, size_t base_length, int32_t *check, size_t check_length,
                    const uint8_t *key, size_t key_length, uint32_t row);

/* Deletes an identifier, and makes one step of compaction. ZS_SIZE, ZS_KEY, ZS_DAMAGED, ZS_ABSENT,
 * or done with the row removed. It never changes another identifier's row. */
zs_answer zs_delete(int32_t *base, size_t base_length, int32_t *check, size_t check_length,
                    const uint8_t *key, size_t key_length);

/* Moves cells down, by at most n moves, 0 to 65,535. ZS_SIZE, ZS_NUMBER, ZS_DAMAGED, or done with
 * the moves made. It never changes a row, and never lacks room. */
zs_answer zs_compact(int32_t *base, size_t base_length, int32_t *check, size_t check_length,
                     size_t n);

/* Says whether the arrays hold a sound table. ZS_SIZE, ZS_DAMAGED, or done. It never changes
 * anything. */
zs_answer zs_audit(const int32_t *base, size_t base_length, const int32_t *check,
                   size_t check_length);

/* Writes the identifiers with their rows, a line each, in order (a-z, 0-9, hyphen), in lower-case
 * hexadecimal: length (2 digits), characters (2 digits each), row (8 digits), line feed. ZS_SIZE,
 * ZS_DAMAGED, ZS_NO_SPACE, or done with the bytes written. It never changes the table, nor a byte
 * behind the listing. A buffer of ZS_LISTING_MOST bytes is always enough. */
zs_answer zs_list(const int32_t *base, size_t base_length, const int32_t *check,
                  size_t check_length, uint8_t *out, size_t out_length);

/* The most bytes that a listing of arrays of this length, 2 to 65,536, can have: 75 for a cell. */
#define ZS_LISTING_MOST(length) (75 * ((size_t)(length)-1))

/* Answers the lines of a sheet in turn, as the single calls would, with one audit for all of them.
 * A line, in the listing's hexadecimal: operation (01 insert, 02 delete, 03 find, 04 compact),
 * length, characters, number (8 digits: the row, or compact's n; otherwise 0), line feed. Each
 * answer has 11 bytes: its number (2 digits), its value (8 digits), line feed. ZS_SIZE, ZS_DAMAGED,
 * ZS_NO_SPACE, or done with the lines answered, refused ones among them. It never changes a byte
 * behind the answers. */
zs_answer zs_run(int32_t *base, size_t base_length, int32_t *check, size_t check_length,
                 const uint8_t *sheet, size_t sheet_length, uint8_t *answers,
                 size_t answers_length);

#ifdef __cplusplus
}
#endif

#endif
