/* The calls of calls.rt.in by a plain C program of document 01's rules: the same arrays, the same chain
 * of empty cells, the same cells after every command. It is unproved, and written as a C programmer
 * would from that page. Find and the audit take arrays of any contents; the others take a sound
 * table and, as those of calls.rt.in, ask neither KEY nor NUMBER.
 */
#include "calls.h"
#include <string.h>

enum { ROOT = 1, END = 1, GREATEST = 38, LIMIT = 32, MOST_ROWS = 1000000, LONGEST = 65536 };
enum { DONE = 0, SIZE = 1, DAMAGED = 4, PRESENT = 5, NO_ROOM = 7 };

typedef struct {
    int32_t *base, *check;
    int32_t length;
} table;

/* ---- labels */

/* The code of each character; the others have none. */
static const uint8_t code_of[256] = {
    ['a'] = 2,  ['b'] = 3,  ['c'] = 4,  ['d'] = 5,  ['e'] = 6,  ['f'] = 7,  ['g'] = 8,  ['h'] = 9,
    ['i'] = 10, ['j'] = 11, ['k'] = 12, ['l'] = 13, ['m'] = 14, ['n'] = 15, ['o'] = 16, ['p'] = 17,
    ['q'] = 18, ['r'] = 19, ['s'] = 20, ['t'] = 21, ['u'] = 22, ['v'] = 23, ['w'] = 24, ['x'] = 25,
    ['y'] = 26, ['z'] = 27, ['0'] = 28, ['1'] = 29, ['2'] = 30, ['3'] = 31, ['4'] = 32, ['5'] = 33,
    ['6'] = 34, ['7'] = 35, ['8'] = 36, ['9'] = 37, ['-'] = 38};

static uint8_t character_of(int32_t code) {
    return (uint8_t) "abcdefghijklmnopqrstuvwxyz0123456789-"[code - 2];
}

/* The codes of a key and of the end mark after it. Says whether it is an identifier. */
static int spell(uint8_t labels[LIMIT + 1], const uint8_t *key, size_t length) {
    size_t i;
    if (length == 0 || length > LIMIT)
        return 0;
    for (i = 0; i < length; i++)
        if ((labels[i] = code_of[key[i]]) == 0)
            return 0;
    labels[length] = END;
    return 1;
}

/* ---- the walk */

/* The cell to which a code leads from s, or 0. */
static int32_t child(const int32_t *base, const int32_t *check, int32_t length, int32_t s,
                     int32_t code) {
    int32_t q = base[s];
    if (q < 1 || q >= length - code || check[q + code] != s)
        return 0;
    return q + code;
}

/* Walks from the root as far as the labels lead: gives the cell reached, and how many were found. */
static int32_t walk(const int32_t *base, const int32_t *check, int32_t length,
                    const uint8_t *labels, size_t count, size_t *found) {
    int32_t s = ROOT, t;
    size_t i;
    for (i = 0; i < count && (t = child(base, check, length, s, labels[i])) != 0; i++)
        s = t;
    *found = i;
    return s;
}

uint64_t cost_find(const int32_t *base, size_t base_length, const int32_t *check,
                   size_t check_length, const uint8_t *key, size_t key_length) {
    uint8_t labels[LIMIT + 1];
    size_t found;
    int32_t leaf;
    if (base_length != check_length || base_length < 2 || base_length > LONGEST ||
        !spell(labels, key, key_length))
        return 0;
    leaf = walk(base, check, (int32_t)base_length, labels, key_length + 1, &found);
    if (found <= key_length || base[leaf] >= 0 || base[leaf] < -MOST_ROWS)
        return 0;
    return (uint64_t)-base[leaf];
}

/* ---- the chain and the size */

/* The last cell on the chain below u, or 0, the header. */
static int32_t prior(const table *t, int32_t u) {
    int32_t p = 0;
    while (-t->check[p] < u)
        p = -t->check[p];
    return p;
}

/* The unused cell u becomes a child of s; the size grows to it. */
static void claim(table *t, int32_t u, int32_t s) {
    int32_t p;
    while (t->base[0] < u) {
        int32_t next = ++t->base[0];
        t->check[next] = -(next + 1);
    }
    p = prior(t, u);
    t->check[p] = t->check[u];
    t->check[u] = s;
}

/* The used cell u becomes free. */
static void release(table *t, int32_t u) {
    int32_t p = prior(t, u);
    t->check[u] = t->check[p];
    t->check[p] = -u;
    t->base[u] = 0;
}

/* The size falls; the cells past it are free, and become 0. */
static void shrink(table *t, int32_t size) {
    int32_t i;
    for (i = t->base[0]; i > size; i--)
        t->check[i] = 0;
    t->base[0] = size;
}

static int32_t largest_used(const table *t) {
    int32_t u = t->base[0];
    while (t->check[u] < 0)
        u--;
    return u;
}

/* ---- children and their places */

/* The codes of the children of s, ascending, with one more among them if that is not 0. */
static int collect(const table *t, int32_t s, int32_t more, int32_t codes[GREATEST]) {
    int32_t size = t->base[0], b = t->base[s], code;
    int count = 0;
    for (code = 1; code <= GREATEST; code++)
        if (code == more || (b + code <= size && t->check[b + code] == s))
            codes[count++] = code;
    return count;
}

static int is_childless(const table *t, int32_t s) {
    int32_t size = t->base[0], b = t->base[s], code;
    for (code = 1; code <= GREATEST && b + code <= size; code++)
        if (t->check[b + code] == s)
            return 0;
    return 1;
}

/* Whether every q + code is unused, where the least leads to a free cell. */
static int opens(const table *t, int32_t q, const int32_t *codes, int count) {
    int i;
    for (i = 1; i < count && q + codes[i] <= t->base[0]; i++)
        if (t->check[q + codes[i]] > 0)
            return 0;
    return 1;
}

/* The placed base of ascending codes, sought along the chain. */
static int32_t place(const table *t, const int32_t *codes, int count) {
    int32_t size = t->base[0], low = codes[0], u;
    for (u = -t->check[0]; u <= size; u = -t->check[u])
        if (u > low && opens(t, u - low, codes, count))
            return u - low;
    return size >= low ? size + 1 - low : 1;
}

/* What a cell holds goes to an unused cell, and its children with it. */
static void move(table *t, int32_t from, int32_t to) {
    int32_t b = t->base[from], code;
    claim(t, to, t->check[from]);
    t->base[to] = b;
    if (b > 0)
        for (code = 1; code <= GREATEST && b + code <= t->base[0]; code++)
            if (t->check[b + code] == from)
                t->check[b + code] = to;
    release(t, from);
}

/* The children of s move to base q; one code among these may be that of no child. */
static void relocate(table *t, int32_t s, int32_t q, const int32_t *codes, int count, int32_t but) {
    int32_t b = t->base[s];
    int i;
    for (i = 0; i < count; i++)
        if (codes[i] != but)
            move(t, b + codes[i], q + codes[i]);
    t->base[s] = q;
}

/* ---- insertion */

/* Puts a branch below s, whose base leads to an unused cell for the first label. Where a further one
 * does not fit, the branch is taken back. */
static int grow(table *t, int32_t s, const uint8_t *labels, size_t count, uint32_t row) {
    int32_t cells[LIMIT + 1], u = t->base[s] + labels[0];
    size_t i = 0;
    for (;;) {
        int32_t code, q;
        claim(t, u, s);
        cells[i++] = u;
        if (i == count)
            break;
        code = labels[i];
        q = place(t, &code, 1);
        if (q + code >= t->length) {
            while (i > 0)
                release(t, cells[--i]);
            return 0;
        }
        t->base[u] = q;
        s = u;
        u = q + code;
    }
    t->base[u] = -(int32_t)row;
    return 1;
}

/* At s the first label's cell is used or past the last one: its children move, and the branch grows
 * there. Where it does not fit, they move back. */
static int collide(table *t, int32_t s, const uint8_t *labels, size_t count, uint32_t row) {
    int32_t codes[GREATEST], b = t->base[s], q;
    int n = collect(t, s, labels[0], codes);
    q = place(t, codes, n);
    if (q + codes[n - 1] >= t->length)
        return 0;
    relocate(t, s, q, codes, n, labels[0]);
    if (grow(t, s, labels, count, row))
        return 1;
    relocate(t, s, b, codes, n, labels[0]);
    return 0;
}

uint64_t cost_insert(int32_t *base, size_t base_length, int32_t *check, size_t check_length,
                     const uint8_t *key, size_t key_length, uint32_t row) {
    table t = {base, check, (int32_t)base_length};
    uint8_t labels[LIMIT + 1];
    int32_t s, u, size = base[0];
    size_t found, count = key_length + 1;
    int done;
    (void)check_length;
    spell(labels, key, key_length);
    s = walk(base, check, t.length, labels, count, &found);
    if (found == count)
        return PRESENT;
    u = base[s] + labels[found];
    if (u >= t.length || check[u] > 0)
        done = collide(&t, s, labels + found, count - found, row);
    else
        done = grow(&t, s, labels + found, count - found, row);
    if (!done)
        shrink(&t, size);
    return done ? DONE : NO_ROOM;
}

/* ---- deletion */

/* One compaction step. */
static void step(table *t) {
    int32_t top = largest_used(t);
    if (top != ROOT) {
        int32_t codes[GREATEST], s = t->check[top];
        int count = collect(t, s, 0, codes);
        int32_t q = place(t, codes, count);
        if (q < t->base[s])
            relocate(t, s, q, codes, count, 0);
    }
    shrink(t, largest_used(t));
}

uint64_t cost_delete(int32_t *base, size_t base_length, int32_t *check, size_t check_length,
                     const uint8_t *key, size_t key_length) {
    table t = {base, check, (int32_t)base_length};
    uint8_t labels[LIMIT + 1];
    int32_t u, row;
    size_t found;
    (void)check_length;
    spell(labels, key, key_length);
    u = walk(base, check, t.length, labels, key_length + 1, &found);
    if (found <= key_length)
        return 0;
    row = -base[u];
    do {
        int32_t parent = check[u];
        release(&t, u);
        u = parent;
    } while (u != ROOT && is_childless(&t, u));
    if (u == ROOT && is_childless(&t, ROOT))
        base[ROOT] = 1;
    step(&t);
    return (uint64_t)row;
}

/* ---- the audit */

/* Rules 2 to 6 but for the children, at every cell; marks the parents. */
static int cells_kept(const int32_t *base, const int32_t *check, uint8_t *parents) {
    int32_t size = base[0], next = size + 1, t;
    for (t = size; t >= 1; t--) {
        int32_t s = check[t], code;
        if (s <= 0) {
            if (s != -next || base[t] != 0)
                return 0;
            next = t;
            continue;
        }
        if (t == ROOT)
            continue;
        if (s > size || s == t || check[s] <= 0 || base[s] <= 0 || t <= base[s])
            return 0;
        code = t - base[s];
        if (code > GREATEST)
            return 0;
        if (code == END ? base[t] >= 0 || base[t] < -MOST_ROWS : base[t] <= 0)
            return 0;
        parents[s] = 1;
    }
    return check[0] == -next && check[ROOT] == ROOT && base[ROOT] >= 1 &&
           (base[ROOT] == 1 || parents[ROOT]);
}

/* Rule 7, and that every cell with a base has a child. Depths are noted, that of the root as 1. */
static int ways_kept(const int32_t *base, const int32_t *check, const uint8_t *parents,
                     uint8_t *depths) {
    int32_t size = base[0], t, s;
    depths[ROOT] = 1;
    for (t = ROOT + 1; t <= size; t++) {
        int steps = 0;
        if (check[t] < 0)
            continue;
        if (base[t] > 0 && !parents[t])
            return 0;
        for (s = t; depths[s] == 0; s = check[s])
            if (++steps > LIMIT + 1)
                return 0;
        steps += depths[s] - 1;
        if (steps > LIMIT + 1 || (base[t] < 0 && steps < 2))
            return 0;
        depths[t] = (uint8_t)(steps + 1);
    }
    return 1;
}

uint64_t cost_audit(const int32_t *base, size_t base_length, const int32_t *check,
                    size_t check_length) {
    uint8_t parents[LONGEST], depths[LONGEST];
    size_t size, i;
    if (base_length != check_length || base_length < 2 || base_length > LONGEST)
        return SIZE;
    if (base[0] < 1 || (size_t)base[0] >= base_length)
        return DAMAGED;
    size = (size_t)base[0];
    for (i = size + 1; i < base_length; i++)
        if (base[i] != 0 || check[i] != 0)
            return DAMAGED;
    memset(parents, 0, size + 1);
    memset(depths, 0, size + 1);
    return cells_kept(base, check, parents) && ways_kept(base, check, parents, depths) ? DONE
                                                                                       : DAMAGED;
}

/* ---- the listing */

typedef struct {
    const int32_t *base, *check;
    uint8_t key[LIMIT];
    uint8_t *out; /* where the next line goes; NULL while the listing is measured */
    size_t bytes; /* of all lines so far */
} listing;

static uint8_t *put_hex(uint8_t *out, uint32_t number, int digits) {
    while (digits-- > 0)
        *out++ = (uint8_t) "0123456789abcdef"[number >> 4 * digits & 15];
    return out;
}

static void put_line(listing *l, size_t length, uint32_t row) {
    size_t i;
    l->bytes += 11 + 2 * length;
    if (l->out == NULL)
        return;
    l->out = put_hex(l->out, (uint32_t)length, 2);
    for (i = 0; i < length; i++)
        l->out = put_hex(l->out, l->key[i], 2);
    l->out = put_hex(l->out, row, 8);
    *l->out++ = '\n';
}

/* Visits the cell s, to which the first so many characters lead. */
static void visit(listing *l, int32_t s, size_t length) {
    int32_t size = l->base[0], b = l->base[s], code;
    for (code = 1; code <= GREATEST && b + code <= size; code++) {
        if (l->check[b + code] != s)
            continue;
        if (code == END) {
            put_line(l, length, (uint32_t)-l->base[b + code]);
        } else {
            l->key[length] = character_of(code);
            visit(l, b + code, length + 1);
        }
    }
}

uint64_t cost_list(const int32_t *base, size_t base_length, const int32_t *check,
                   size_t check_length, uint8_t *out, size_t out_length) {
    listing l = {base, check, {0}, NULL, 0};
    (void)base_length, (void)check_length;
    visit(&l, ROOT, 0);
    if (l.bytes > out_length)
        return 0;
    l.out = out;
    l.bytes = 0;
    visit(&l, ROOT, 0);
    return l.bytes;
}
