/* excitation < LIST: nsq_excitation on each row of a list in the form of crates/excitation_replay/stdin, NAME seed signal_type offset_type
 * row_length pulses .. (v*n for n times v, `#` a remark), and what came of it in the form of crates/excitation_replay/stdout. Each row lies in
 * memory of just its length, NULL where it has none, so that a checker of memory sees a touch outside it; the pulses must stay as they were. */
#include "nsq.h"
#include <stdio.h>
#include <stdlib.h>
#include <string.h>

enum { MOST = 4096 };

/* the numbers of a line after its name, runs opened */
static size_t numbers(char *text, long *to)
{
    size_t n = 0;
    for (char *word = strtok(text, " \n"); word; word = strtok(NULL, " \n")) {
        char *star = strchr(word, '*');
        for (long times = star ? atol(star + 1) : 1; times > 0 && n < MOST; times--)
            to[n++] = atol(word);
    }
    return n;
}

static void *room(size_t bytes)
{
    void *p = bytes ? malloc(bytes) : NULL;
    if (bytes && !p)
        exit(2);
    return p;
}

static void print_row(const int32_t *row, size_t len)
{
    for (size_t i = 0, k; i < len; i = k) {
        for (k = i + 1; k < len && row[k] == row[i]; k++) {}
        if (k - i >= 4) {
            printf(" %ld*%zu", (long)row[i], k - i);
        } else {
            printf(" %ld", (long)row[i]);
            k = i + 1;
        }
    }
    printf("\n");
}

int main(void)
{
    static char line[1 << 16];
    static long v[MOST];
    while (fgets(line, sizeof line, stdin)) {
        size_t name = strcspn(line, " \n");
        if (line[0] == '#' || name == 0)
            continue;
        printf("%.*s", (int)name, line);
        size_t n = numbers(line + name, v);
        if (n < 4)
            return 2;
        size_t count = n - 4, len = (size_t)v[3];
        int8_t *pulses = room(count);
        int32_t *row = room(len * sizeof *row);
        for (size_t i = 0; i < count; i++)
            pulses[i] = (int8_t)v[4 + i];
        for (size_t i = 0; i < len; i++)
            row[i] = 1000000007;
        printf(" %u", (unsigned)nsq_excitation(pulses, count, (int32_t)v[0], (int32_t)v[1], (int32_t)v[2], row, len));
        for (size_t i = 0; i < count; i++)
            if (pulses[i] != v[4 + i])
                printf(" PULSES CHANGED");
        print_row(row, len);
        free(pulses);
        free(row);
    }
    return 0;
}
