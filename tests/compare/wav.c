/* wav < LIST: nsq_wav_find and nsq_wav_samples on each case of a list in the form of crates/wav_replay/stdin, and what came of it in the form of
 * crates/wav_replay/stdout. A case is a line and the bytes that follow it, counted by six digits; R is the length of a row:
 *   find NNNNNN           bytes of a file: prints the lines `answer A`, `start S`, `length L`, `rate R`, and then what the program `wav` prints
 *   fill RRRRRR NNNNNN    bytes of a part: prints `answer A`, and the whole row as it is left
 * Samples stand twenty to a line. Before a call place i of a row holds i * 7919 + 23205, the low 16 bits of it, and each of the three numbers
 * something that is not 0. Each row and number lies in memory of just its length, NULL where a row has none, so that a checker of memory sees a
 * touch outside it; the bytes must stay as they were. */
#include "nsq.h"
#include <stdio.h>
#include <stdlib.h>
#include <string.h>

struct bytes {
    uint8_t *at;
    size_t len;
};

static void stop(const char *why)
{
    fprintf(stderr, "wav: %s\n", why);
    exit(2);
}

static void *room(size_t bytes)
{
    void *p = bytes ? malloc(bytes) : NULL;
    if (bytes && !p)
        stop("no memory");
    return p;
}

static struct bytes read_bytes(size_t len)
{
    struct bytes b = {room(len), len};
    if (len && fread(b.at, 1, len, stdin) != len)
        stop("the list ends inside a case");
    return b;
}

static struct bytes copy_of(struct bytes b)
{
    struct bytes copy = {room(b.len), b.len};
    if (b.len)
        memcpy(copy.at, b.at, b.len);
    return copy;
}

/* says so where the library wrote to bytes that it was given to read, and frees both */
static void done_with(struct bytes b, struct bytes was)
{
    if (b.len && memcmp(b.at, was.at, b.len))
        printf("BYTES CHANGED\n");
    free(b.at);
    free(was.at);
}

/* a row with something in it, so that one that must stay as it was shows */
static int16_t *marked_row(size_t len)
{
    int16_t *row = room(len * sizeof *row);
    for (size_t i = 0; i < len; i++) {
        uint16_t word = (uint16_t)(i * 7919 + 23205);
        memcpy(&row[i], &word, sizeof word);
    }
    return row;
}

static uint32_t *marked_number(uint32_t mark)
{
    uint32_t *number = room(sizeof *number);
    *number = mark;
    return number;
}

static void print_row(const int16_t *row, size_t len)
{
    for (size_t i = 0; i < len; i++)
        printf("%d%c", row[i], i % 20 == 19 || i + 1 == len ? '\n' : ' ');
}

static void second_step(const uint8_t *part, size_t len)
{
    int16_t *row = marked_row(len / 2);
    uint32_t answer = nsq_wav_samples(part, len, row, len / 2);
    if (answer != NSQ_WAV_FOUND)
        printf("SECOND STEP REFUSED: %u\n", (unsigned)answer);
    print_row(row, len / 2);
    free(row);
}

static void find(size_t len)
{
    struct bytes file = read_bytes(len), was = copy_of(file);
    uint32_t *start = marked_number(4000000007), *length = marked_number(4000000008), *rate = marked_number(4000000009);
    uint32_t answer = nsq_wav_find(file.at, len, start, length, rate);
    printf("answer %u\nstart %lu\nlength %lu\nrate %lu\n", (unsigned)answer, (unsigned long)*start, (unsigned long)*length, (unsigned long)*rate);
    if (*start > len || *length > len - *start)
        printf("PART OUTSIDE THE FILE\n");
    else if (answer != NSQ_WAV_FOUND)
        printf("wav %u\n", (unsigned)answer);
    else {
        printf("rate %lu\nsamples %lu\n", (unsigned long)*rate, (unsigned long)*length / 2);
        second_step(*length ? file.at + *start : NULL, *length);
    }
    free(start);
    free(length);
    free(rate);
    done_with(file, was);
}

static void fill(size_t row_len, size_t len)
{
    struct bytes part = read_bytes(len), was = copy_of(part);
    int16_t *row = marked_row(row_len);
    printf("answer %u\n", (unsigned)nsq_wav_samples(part.at, len, row, row_len));
    print_row(row, row_len);
    free(row);
    done_with(part, was);
}

int main(void)
{
    char line[64];
    while (fgets(line, sizeof line, stdin)) {
        unsigned row_len, len;
        int end = 0;
        if (sscanf(line, "find %6u%n", &len, &end) == 1 && end == 11 && !strcmp(line + end, "\n"))
            find(len);
        else if (sscanf(line, "fill %6u %6u%n", &row_len, &len, &end) == 2 && end == 18 && !strcmp(line + end, "\n"))
            fill(row_len, len);
        else
            stop("a case begins with neither `find NNNNNN` nor `fill RRRRRR NNNNNN`");
    }
    return 0;
}
