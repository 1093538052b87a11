/* What a line of a run adds to the single call: inserts the identifiers nl-000000 and upward before
 * FIRST; then COUNT more, by single calls, and once more, by the lines of one sheet. Both loops lie
 * between marks, which count.c counts at. Prints 'N COUNT D' for each, where D is 0 if arrays and
 * answers were the same.
 * usage: sheets FIRST COUNT
 */
#include "calls.h"
#include <stdio.h>
#include <stdlib.h>
#include <string.h>
#include <unistd.h>

enum { MARK = 9999, LENGTH = 26000, MOST = 8000, ANSWER = 11, KEY = 9, LINE = 31 };
enum { SINGLE = 1, RUN };

static int32_t base[LENGTH], check[LENGTH];
static int32_t base_before[LENGTH], check_before[LENGTH], base_then[LENGTH], check_then[LENGTH];
static char keys[MOST][KEY + 1];
static uint64_t values[MOST];
static char sheet[MOST * LINE + 1], answers[MOST * ANSWER], expected[MOST * ANSWER + 1];

static void mark(int row) { syscall(MARK, row); }

static uint32_t put(uint32_t n) {
    char key[32];
    snprintf(key, sizeof key, "nl-%06u", n);
    return (uint32_t)cost_insert(base, LENGTH, check, LENGTH, (uint8_t *)key, KEY, n + 1);
}

int main(int count, char **words) {
    uint32_t first, lines, i, j;
    char *line = sheet;
    int differs;
    if (count != 3)
        return 2;
    first = (uint32_t)strtoul(words[1], NULL, 10);
    lines = (uint32_t)strtoul(words[2], NULL, 10);
    if (lines > MOST || first + lines > 1000000)
        return 2;
    base[0] = base[1] = check[1] = 1;
    check[0] = -2;
    for (i = 0; i < first; i++)
        put(i);
    memcpy(base_before, base, sizeof base);
    memcpy(check_before, check, sizeof check);
    for (i = 0; i < lines; i++) {
        char key[32];
        snprintf(key, sizeof key, "nl-%06u", first + i);
        memcpy(keys[i], key, KEY);
        line += sprintf(line, "01%02x", (unsigned)KEY);
        for (j = 0; j < KEY; j++)
            line += sprintf(line, "%02x", (unsigned)key[j]);
        line += sprintf(line, "%08x\n", (unsigned)(first + i + 1));
    }

    mark(SINGLE);
    for (i = 0; i < lines; i++)
        values[i] =
            cost_single(base, LENGTH, check, LENGTH, (uint8_t *)keys[i], KEY, first + i + 1);
    mark(SINGLE);
    for (i = 0; i < lines; i++)
        sprintf(expected + i * ANSWER, "00%08x\n", (unsigned)values[i]);
    memcpy(base_then, base, sizeof base);
    memcpy(check_then, check, sizeof check);

    memcpy(base, base_before, sizeof base);
    memcpy(check, check_before, sizeof check);
    mark(RUN);
    cost_run(base, LENGTH, check, LENGTH, (uint8_t *)sheet, (size_t)(line - sheet),
             (uint8_t *)answers, sizeof answers);
    mark(RUN);
    differs = memcmp(base, base_then, sizeof base) != 0 ||
              memcmp(check, check_then, sizeof check) != 0 ||
              memcmp(answers, expected, lines * ANSWER) != 0;
    printf("%d %u %d\n%d %u %d\n", SINGLE, lines, differs, RUN, lines, differs);
    return 0;
}
