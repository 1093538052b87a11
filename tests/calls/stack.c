/* Makes each call on the deepest tables that there can be, in a thread with a small stack, and
 * prints how much of it the calls have used. A call that needs more ends the program.
 * usage: stack KILOBYTES
 */
#include "../painted.h"
#include "zsermulat.h"

enum { LENGTH = 65536, LONGEST = 32 };

static int32_t base[LENGTH], check[LENGTH];
static uint8_t out[ZS_LISTING_MOST(LENGTH)];
static uint8_t key[LONGEST];
static uint8_t sheet[1024], answers[110];
static size_t sheet_length;
static uint32_t row = 1;
static zs_answer answer;

static void die(const char *why) {
    fprintf(stderr, "stack: %s\n", why);
    exit(1);
}

/* ---- the calls, each a thread's whole work */

static void *fresh(void *unused) {
    answer = zs_fresh(base, LENGTH, check, LENGTH);
    return unused;
}

static void *find(void *unused) {
    answer = zs_find(base, LENGTH, check, LENGTH, key, LONGEST);
    return unused;
}

static void *insert(void *unused) {
    answer = zs_insert(base, LENGTH, check, LENGTH, key, LONGEST, row);
    return unused;
}

static void *erase(void *unused) {
    answer = zs_delete(base, LENGTH, check, LENGTH, key, LONGEST);
    return unused;
}

static void *compact(void *unused) {
    answer = zs_compact(base, LENGTH, check, LENGTH, 65535);
    return unused;
}

static void *audit(void *unused) {
    answer = zs_audit(base, LENGTH, check, LENGTH);
    return unused;
}

static void *list(void *unused) {
    answer = zs_list(base, LENGTH, check, LENGTH, out, sizeof out);
    return unused;
}

static void *run(void *unused) {
    answer = zs_run(base, LENGTH, check, LENGTH, sheet, sheet_length, answers, sizeof answers);
    return unused;
}

/* ---- what they use */

static size_t stack;
static size_t most[8];
static const char *const names[] = {"fresh",   "find",  "insert", "delete",
                                    "compact", "audit", "list",   "run"};
static void *(*const calls[])(void *) = {fresh, find, insert, erase, compact, audit, list, run};
enum { FRESH, FIND, INSERT, DELETE, COMPACT, AUDIT, LIST, RUN, CALLS };

/* Makes a call, which has to give this answer. */
static void make(int call, int number) {
    size_t used = stack_used(calls[call], stack);
    if (zs_number(answer) != number) {
        fprintf(stderr, "stack: %s answers %d, not %d\n", names[call], zs_number(answer), number);
        exit(1);
    }
    if (used > most[call])
        most[call] = used;
}

/* ---- the tables */

/* An identifier of 32 times one character, but for another one at a place; at place 32 there is
 * none. */
static void spell(char character, size_t place, char other) {
    memset(key, character, LONGEST);
    if (place < LONGEST)
        key[place] = (uint8_t)other;
}

static void put_line(int operation, uint32_t number) {
    int i, at = sprintf((char *)sheet + sheet_length, "%02x%02x", (unsigned)operation,
                        (unsigned)LONGEST);
    for (i = 0; i < LONGEST; i++)
        at += sprintf((char *)sheet + sheet_length + at, "%02x", (unsigned)key[i]);
    at += sprintf((char *)sheet + sheet_length + at, "%08x\n", (unsigned)number);
    sheet_length += (size_t)at;
}

/* All calls on a table that holds one identifier of 32 times a character, and then on one with its
 * branches: at each of its nodes every other character leads on to an identifier as long. So nodes
 * at every depth have 37 children, and an insertion below any of them moves some. */
static void try_all(char character) {
    static const char others[] = "abcdefghijklmnopqrstuvwxyz0123456789-";
    size_t place, i;
    make(FRESH, ZS_DONE);
    spell(character, LONGEST, 0);
    make(INSERT, ZS_DONE);
    make(FIND, ZS_DONE);
    make(AUDIT, ZS_DONE);
    make(LIST, ZS_DONE);
    for (place = LONGEST; place-- > 0;)
        for (i = 0; others[i] != 0; i++)
            if (others[i] != character) {
                spell(character, place, others[i]);
                row = row % 1000000 + 1;
                if (place % 8 == 7)
                    make(INSERT, ZS_DONE);
                else
                    insert(NULL);
            }
    make(AUDIT, ZS_DONE);
    make(LIST, ZS_DONE);
    spell(character, LONGEST, 0);
    make(INSERT, ZS_PRESENT);
    make(FIND, ZS_DONE);
    sheet_length = 0;
    put_line(2, 0);
    put_line(1, 5);
    put_line(3, 0);
    make(RUN, ZS_DONE);
    make(DELETE, ZS_DONE);
    make(COMPACT, ZS_DONE);
    make(AUDIT, ZS_DONE);
    make(LIST, ZS_DONE);
}

/* A table is filled until the last labels of a long branch find no room, and all of it is taken
 * back. */
static void fill(void) {
    size_t i;
    make(FRESH, ZS_DONE);
    do {
        for (i = 0; i < LONGEST; i++)
            key[i] = (uint8_t) "-9z"[rand() % 3];
        insert(NULL);
    } while (zs_number(answer) != ZS_NO_ROOM);
    make(INSERT, ZS_NO_ROOM);
    make(AUDIT, ZS_DONE);
    make(LIST, ZS_DONE);
    make(COMPACT, ZS_DONE);
}

int main(int count, char **words) {
    int call;
    if (count != 2)
        die("usage: stack KILOBYTES");
    stack = strtoul(words[1], NULL, 10) * 1024;
    try_all('-');
    try_all('a');
    fill();
    for (call = 0; call < CALLS; call++)
        printf("%s: at most %lu bytes of stack\n", names[call], (unsigned long)most[call]);
    return 0;
}
