/* wav_bench [REPEAT]: nanoseconds per call of nsq_wav_find on files of nearly nothing but heads (8,188 chunks in 65,536 bytes): unknown chunks of
 * length 0, then a good `fmt ` and `data` of 4 bytes. The longest file, then half and a quarter of it: the time for a chunk must be about
 * the same. And of nsq_wav_samples on the longest part that a file has. The best of REPEAT rounds (20) of 1000 calls. */
#define _POSIX_C_SOURCE 199309L
#include "nsq.h"
#include <stdio.h>
#include <stdlib.h>
#include <string.h>
#include <time.h>

enum { CALLS = 1000 };

static const uint8_t head[12] = "RIFF\0\0\0\0WAVE", unknown[8] = "JUNK";
static const uint8_t tail[24 + 12] = "fmt \20\0\0\0\1\0\1\0\200\76\0\0\0\175\0\0\2\0\20\0" "data\4\0\0\0\1\2\3\4";
static uint8_t file[NSQ_WAV_BYTES];
static int16_t row[NSQ_WAV_SAMPLES];

static double now_ns(void)
{
    struct timespec t;
    clock_gettime(CLOCK_MONOTONIC, &t);
    return t.tv_sec * 1e9 + t.tv_nsec;
}

static void need(int right)
{
    if (!right) {
        fprintf(stderr, "wav_bench: a call was refused\n");
        exit(1);
    }
}

/* makes the file and says how many chunks it has */
static size_t make_file(size_t len)
{
    size_t at = sizeof head, chunks = 2;
    memcpy(file, head, sizeof head);
    for (; at + sizeof unknown + sizeof tail <= len; at += sizeof unknown, chunks++)
        memcpy(file + at, unknown, sizeof unknown);
    memcpy(file + at, tail, sizeof tail);
    need(at + sizeof tail == len);
    return chunks;
}

static void find_once(size_t len)
{
    uint32_t start, length, rate;
    need(nsq_wav_find(file, len, &start, &length, &rate) == NSQ_WAV_FOUND && start == len - 4 && length == 4);
}

static void fill_once(size_t len)
{
    need(nsq_wav_samples(file, len, row, len / 2) == NSQ_WAV_FOUND);
}

/* nanoseconds for a call */
static double best(void (*once)(size_t len), size_t len, int rounds)
{
    double least = 0;
    for (int r = 0; r < rounds; r++) {
        double start = now_ns();
        for (int i = 0; i < CALLS; i++)
            once(len);
        double took = (now_ns() - start) / CALLS;
        if (!r || took < least)
            least = took;
    }
    return least;
}

int main(int argc, char **argv)
{
    int rounds = argc > 1 ? atoi(argv[1]) : 20;
    if (rounds < 1)
        return fprintf(stderr, "usage: wav_bench [REPEAT]\n"), 2;
    for (size_t len = NSQ_WAV_BYTES; len >= NSQ_WAV_BYTES / 4; len /= 2) {
        size_t chunks = make_file(len);
        double ns = best(find_once, len, rounds);
        printf("nsq_wav_find, %zu bytes, %zu chunks: best %.0f ns, %.2f ns a chunk\n", len, chunks, ns, ns / (double)chunks);
    }
    double ns = best(fill_once, 2 * NSQ_WAV_SAMPLES, rounds);
    printf("nsq_wav_samples, %d samples: best %.0f ns, %.2f ns a sample\n", NSQ_WAV_SAMPLES, ns, ns / NSQ_WAV_SAMPLES);
    return 0;
}
