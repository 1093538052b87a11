/* Makes the calls that standard input asks for, by zsermulat.h alone, and prints every answer,
 * element and byte. A line is one of these, its words separated by one space:
 *   title WORDS               echoed
 *   base E E.., check E E..   sets an array, of as many elements as there are
 *   fill N B C                sets both arrays: N elements, each B in base and C in check
 *   keep, back                remembers both arrays; brings them back
 *   fresh, find KEY, insert KEY ROW, delete KEY, compact N, audit, list ROOM, run ROOM SHEET
 *                             makes a call; KEY and SHEET are bytes in hexadecimal, or - for none
 *   every LENGTH V V..        makes a battery of calls on every pair of arrays of that length over
 *                             these values
 * Each array, key, sheet and buffer that is lent ends at a page that cannot be touched, and what
 * lies before it in its own page is looked at after the call, as is all that was lent to be read.
 * With the argument malloc each is instead exactly as long as needed, for a memory checker.
 * Status 1: something has changed or was touched that may not. Status 2: a line that is none of
 * these. At its end it says on standard error how many calls it made. */
#include "zsermulat.h"

#include <errno.h>
#include <signal.h>
#include <stdbool.h>
#include <stdio.h>
#include <stdlib.h>
#include <string.h>
#include <sys/mman.h>
#include <unistd.h>

enum { MOST = 1 << 24, PRINTED = 1 << 20, VALUES = 64, BEFORE = 0xa5 };

/* Something that is lent to a call, with a copy from before it. */
struct lent {
    uint8_t *at; /* null where there are no bytes */
    size_t length;
    uint8_t *was;
    uint8_t *fence; /* the page that cannot be touched */
};

static struct lent base, check, sheet, out, kept_base, kept_check, given, a, aa, b;
static struct lent *key = &given;
static bool exact;
static size_t page;
static unsigned long line_number, calls;

/* What was printed before a failure shows which call it was. */
static void end(int status, const char *why) {
    if (status == 1)
        fflush(stdout);
    fprintf(stderr, "calls: line %lu: %s\n", line_number, why);
    _exit(status);
}

static void touched(int number) {
    (void)number;
    end(1, "memory was touched that is not lent");
}

/* ---- what is lent */

static void *need(void *memory) {
    if (!memory || memory == MAP_FAILED)
        end(2, "no memory");
    return memory;
}

static uint8_t *fence(void) {
    uint8_t *memory =
        need(mmap(NULL, MOST + page, PROT_READ | PROT_WRITE, MAP_PRIVATE | MAP_ANONYMOUS, -1, 0));
    if (mprotect(memory + MOST, page, PROT_NONE) != 0)
        end(2, "no fence");
    return memory + MOST;
}

/* How many bytes lie before it in its page. */
static size_t before(const struct lent *it) { return (uintptr_t)it->at % page; }

/* Makes it so many bytes long, of any contents. */
static void lend(struct lent *it, size_t length) {
    if (length > MOST)
        end(2, "too long");
    if (it->was && it->length == length)
        return;
    it->was = need(realloc(it->was, length + 1));
    it->length = length;
    if (exact) {
        free(it->at);
        it->at = length ? need(malloc(length)) : NULL;
    } else {
        it->fence = it->fence ? it->fence : fence();
        it->at = length ? it->fence - length : NULL;
        memset(it->fence - length - before(it), BEFORE, before(it));
    }
}

static void copy(void *to, const void *from, size_t length) {
    if (length)
        memcpy(to, from, length);
}

static void note(struct lent *it) { copy(it->was, it->at, it->length); }

static void put_back(struct lent *it) { copy(it->at, it->was, it->length); }

static bool changed(const struct lent *it) {
    return it->length && memcmp(it->at, it->was, it->length) != 0;
}

static void take(struct lent *to, const struct lent *from) {
    lend(to, from->length);
    copy(to->at, from->at, from->length);
}

/* Looks at what lies before it, where each byte has to be as the first one, and at itself if it was
 * lent to be read. */
static void look(const struct lent *it, bool read) {
    size_t length = exact ? 0 : before(it);
    const uint8_t *first = it->at - length;
    if (length && (*first != BEFORE || memcmp(first, first + 1, length - 1) != 0))
        end(1, "a byte before what is lent has changed");
    if (read && changed(it))
        end(1, "what is lent to be read has changed");
}

static void set_element(struct lent *it, size_t i, int32_t value) {
    memcpy(it->at + 4 * i, &value, 4);
}

static void fill(struct lent *it, size_t length, int32_t value) {
    lend(it, 4 * length);
    for (size_t i = 0; i < length; i++)
        set_element(it, i, value);
}

static void lend_dots(size_t room) {
    lend(&out, room);
    memset(out.was, '.', room);
    put_back(&out);
}

/* ---- what is printed */

static void put(char c) { putchar_unlocked(c); }

static void put_number(uint64_t n) {
    char digits[20];
    int i = 0;
    do
        digits[i++] = (char)('0' + n % 10);
    while (n /= 10);
    while (i > 0)
        put(digits[--i]);
}

static void put_elements(const char *name, const struct lent *it) {
    const int32_t *elements = (const int32_t *)(const void *)it->at;
    fputs_unlocked(name, stdout);
    for (size_t i = 0; i < it->length / 4; i++) {
        put(' ');
        if (elements[i] < 0)
            put('-');
        put_number(elements[i] < 0 ? -(uint64_t)elements[i] : (uint64_t)elements[i]);
    }
}

static void put_bytes(const struct lent *it) {
    for (size_t i = 0; i < it->length; i++) {
        uint8_t byte = it->at[i];
        if (byte > ' ' && byte <= '~' && byte != '\\')
            put((char)byte);
        else
            printf("\\%02x", byte);
    }
}

static void put_answer(zs_answer answer) {
    put_number((uint64_t)zs_number(answer));
    put(' ');
    put_number(zs_value(answer));
    calls++;
}

/* ---- the words of a line */

static char *word(char **rest) {
    char *first = *rest;
    if (!first)
        end(2, "a word is missing");
    char *blank = strchr(first, ' ');
    if (blank)
        *blank++ = '\0';
    *rest = blank;
    return first;
}

static uint64_t number(const char *text, uint64_t most) {
    char *stop;
    errno = 0;
    uint64_t n = strtoull(text, &stop, 10);
    if (*text < '0' || *text > '9' || *stop || errno || n > most)
        end(2, "not a number, or too great");
    return n;
}

static int32_t element(const char *text) {
    bool negative = *text == '-';
    int64_t n = (int64_t)number(text + negative, (uint64_t)INT32_MAX + negative);
    return (int32_t)(negative ? -n : n);
}

static uint8_t nibble(char digit) {
    const char *digits = "0123456789abcdef", *found = strchr(digits, digit);
    if (!digit || !found)
        end(2, "not hexadecimal");
    return (uint8_t)(found - digits);
}

static void lend_bytes(struct lent *it, const char *digits) {
    bool none = strcmp(digits, "-") == 0;
    size_t length = none ? 0 : strlen(digits) / 2;
    if (!none && (!*digits || strlen(digits) % 2))
        end(2, "not bytes");
    lend(it, length);
    for (size_t i = 0; i < length; i++)
        it->at[i] = (uint8_t)(nibble(digits[2 * i]) * 16 + nibble(digits[2 * i + 1]));
    note(it);
}

/* An array of the elements that are left in the line. */
static void lend_elements(struct lent *it, char **rest) {
    size_t length = *rest ? 1 : 0;
    for (char *c = *rest; c && *c; c++)
        length += *c == ' ';
    lend(it, 4 * length);
    for (size_t i = 0; i < length; i++)
        set_element(it, i, element(word(rest)));
}

/* ---- one call */

/* Both arrays, as every call takes them. */
#define ARRAYS                                                                                     \
    (int32_t *)(void *)base.at, base.length / 4, (int32_t *)(void *)check.at, check.length / 4

static uint64_t asked; /* a row or a number of moves */

static zs_answer do_fresh(void) { return zs_fresh(ARRAYS); }
static zs_answer do_find(void) { return zs_find(ARRAYS, key->at, key->length); }
static zs_answer do_insert(void) {
    return zs_insert(ARRAYS, key->at, key->length, (uint32_t)asked);
}
static zs_answer do_delete(void) { return zs_delete(ARRAYS, key->at, key->length); }
static zs_answer do_compact(void) { return zs_compact(ARRAYS, (size_t)asked); }
static zs_answer do_audit(void) { return zs_audit(ARRAYS); }
static zs_answer do_list(void) { return zs_list(ARRAYS, out.at, out.length); }
static zs_answer do_run(void) { return zs_run(ARRAYS, sheet.at, sheet.length, out.at, out.length); }

/* A call's words: k a key, r a row, n a number of moves, o the room of a buffer, s a sheet. */
static const struct call {
    const char *name, *words;
    bool edits;
    zs_answer (*make)(void);
} CALLS[] = {
    {"fresh", "", true, do_fresh},      {"find", "k", false, do_find},
    {"insert", "kr", true, do_insert},  {"delete", "k", true, do_delete},
    {"compact", "n", true, do_compact}, {"audit", "", false, do_audit},
    {"list", "o", false, do_list},      {"run", "os", true, do_run},
};

static void take_word(char kind, const char *text) {
    if (kind == 'k' || kind == 's')
        lend_bytes(kind == 'k' ? key : &sheet, text);
    else if (kind == 'o')
        lend_dots((size_t)number(text, MOST));
    else
        asked = number(text, kind == 'r' ? UINT32_MAX : SIZE_MAX);
}

static void note_arrays(void) {
    note(&base);
    note(&check);
}

static bool arrays_changed(void) { return changed(&base) || changed(&check); }

static void make(const struct call *call, char **rest) {
    for (const char *kind = call->words; *kind; kind++)
        take_word(*kind, word(rest));
    note_arrays();
    zs_answer answer = call->make();
    printf("%s ", call->name);
    put_answer(answer);
    if (call->edits && arrays_changed()) {
        put_elements("\nbase", &base);
        put_elements("\ncheck", &check);
    } else if (call->edits) {
        printf(" same");
    }
    put('\n');
    if (strchr(call->words, 'o')) {
        put_bytes(&out);
        put('\n');
    }
    look(&base, !call->edits);
    look(&check, !call->edits);
    look(&out, false);
    look(key, true);
    look(&sheet, true);
}

/* ---- the battery, on every pair of arrays */

static const struct {
    zs_answer (*make)(void);
    struct lent *key;
    uint64_t asked;
} BATTERY[] = {
    {do_audit, &a, 0},   {do_find, &a, 0},   {do_find, &aa, 0},
    {do_insert, &a, 2},  {do_insert, &b, 3}, {do_delete, &a, 0},
    {do_compact, &a, 1}, {do_list, &a, 0},   {do_fresh, &a, 0},
};

/* One answer, with the elements or the bytes that have changed, which are then put back. */
static void shown(zs_answer answer) {
    put_answer(answer);
    if (arrays_changed()) {
        put_elements("", &base);
        put_elements("", &check);
        put_back(&base);
        put_back(&check);
    }
    if (changed(&out)) {
        put(' ');
        put_bytes(&out);
        put_back(&out);
    }
    put(';');
}

static void battery(void) {
    const struct lent *all[] = {&base, &check, &out, &a, &aa, &b};
    note_arrays();
    for (size_t i = 0; i < sizeof BATTERY / sizeof *BATTERY; i++) {
        key = BATTERY[i].key;
        asked = BATTERY[i].asked;
        shown(BATTERY[i].make());
    }
    put('\n');
    for (size_t i = 0; i < sizeof all / sizeof *all; i++)
        look(all[i], true);
}

static void every(char **rest) {
    int32_t values[VALUES];
    size_t length = (size_t)number(word(rest), VALUES / 2), count = 0, chosen[VALUES] = {0};
    while (*rest && count < VALUES)
        values[count++] = element(word(rest));
    lend(&base, 4 * length);
    lend(&check, 4 * length);
    lend_bytes(&a, "61");
    lend_bytes(&aa, "6161");
    lend_bytes(&b, "62");
    lend_dots(14);
    for (size_t i = count; i > 0;) {
        for (i = 0; i < length; i++) {
            set_element(&base, i, values[chosen[i]]);
            set_element(&check, i, values[chosen[length + i]]);
        }
        battery();
        for (i = 2 * length; i > 0 && ++chosen[i - 1] == count; i--)
            chosen[i - 1] = 0;
    }
    key = &given;
}

/* ---- lines */

static bool is(const char *name, const char *other) { return strcmp(name, other) == 0; }

/* A line that makes no single call. */
static void set(const char *name, char **rest) {
    if (is(name, "title")) {
        printf("title %s\n", *rest ? *rest : "");
        *rest = NULL;
    } else if (is(name, "base") || is(name, "check")) {
        lend_elements(is(name, "base") ? &base : &check, rest);
    } else if (is(name, "fill")) {
        size_t length = (size_t)number(word(rest), MOST / 4);
        fill(&base, length, element(word(rest)));
        fill(&check, length, element(word(rest)));
    } else if (is(name, "keep")) {
        take(&kept_base, &base);
        take(&kept_check, &check);
    } else if (is(name, "back")) {
        take(&base, &kept_base);
        take(&check, &kept_check);
    } else if (is(name, "every")) {
        every(rest);
    } else {
        end(2, "no such word");
    }
}

static void obey(char *line) {
    char *rest = line, *name = word(&rest);
    size_t i = 0, count = sizeof CALLS / sizeof *CALLS;
    while (i < count && !is(name, CALLS[i].name))
        i++;
    if (i < count)
        make(&CALLS[i], &rest);
    else
        set(name, &rest);
    if (rest)
        end(2, "a word too many");
}

int main(int argc, char **argv) {
    exact = argc == 2 && is(argv[1], "malloc");
    if (argc > 1 && !exact)
        end(2, "the one argument that there may be is malloc");
    page = (size_t)sysconf(_SC_PAGESIZE);
    signal(SIGSEGV, touched);
    setvbuf(stdout, NULL, _IOFBF, PRINTED);
    char *line = NULL;
    size_t room = 0;
    for (ssize_t length; (length = getline(&line, &room, stdin)) > 0;) {
        line_number++;
        if (line[length - 1] == '\n')
            line[--length] = '\0';
        if (strlen(line) < (size_t)length)
            end(2, "a NUL");
        obey(line);
    }
    if (fflush(stdout) != 0 || ferror(stdin))
        end(2, "cannot read or write");
    fprintf(stderr, "%lu calls\n", calls);
    return 0;
}
