/* stream [--digest] [--state] [--report] < CALLS: runs a stream of calls through the library. For each call: its name, the answer, the
 * seed, the pulses twenty to a line where accepted; with --digest 64-bit FNV-1a of the state's words that count (where accepted) and of
 * all 1408; with --state those 1408 on five lines. With --report the calls go through nsq_del_dec_report, and each accepted one ends with
 * a line `report` and the number, which must be 0; a refused one prints no such line, but `report touched` where it wrote to the row. */
#include "calls.h"
#include <stdio.h>
#include <stdlib.h>
#include <string.h>

static uint64_t fnv(uint64_t h, int32_t v)
{
    for (int b = 0; b < 4; b++)
        h = (h ^ ((uint32_t)v >> 8 * b & 255)) * 0x100000001b3u;
    return h;
}

static uint64_t fnv_words(uint64_t h, const struct state *s, size_t from, size_t to)
{
    for (size_t k = from; k < to; k++)
        h = fnv(h, state_word(s, k));
    return h;
}

static void print_digests(const struct state *s, int accepted, int32_t l)
{
    const uint64_t start = 0xcbf29ce484222325u;
    if (accepted) {
        uint64_t h = fnv_words(start, s, 0, 4 * (size_t)l);
        h = fnv_words(h, s, 640, 640 + 4 * (size_t)l);
        h = fnv_words(h, s, 1280, 1280 + 16);
        h = fnv_words(h, s, 1376, SCALARS + 3);
        printf("count %016llx\n", (unsigned long long)fnv_words(h, s, 1406, 1407));
    }
    printf("full %016llx\n", (unsigned long long)fnv_words(start, s, 0, STATE));
}

static void print_state(const struct state *s)
{
    static const size_t ends[] = {640, 1280, 1376, 1400, STATE};
    printf("state\n");
    for (size_t k = 0, e = 0; k < STATE; k++) {
        int last = k + 1 == ends[e];
        printf("%d%c", (int)state_word(s, k), last ? '\n' : ' ');
        e += last;
    }
}

static void print_pulses(const int8_t *pulses, size_t n)
{
    for (size_t i = 0; i < n; i++)
        printf("%d%c", pulses[i], i % 20 == 19 || i + 1 == n ? '\n' : ' ');
}

/* what no report is, so that one that was not written shows, and one that was written by a refused call */
enum { UNWRITTEN = -1 };

static void print_report(uint32_t answer, int32_t report)
{
    if (answer == NSQ_ACCEPTED)
        printf("report %ld\n", (long)report);
    else if (report != UNWRITTEN)
        printf("report touched\n");
}

struct options {
    int digest, words, report;
};

static void run_and_print(const struct call *c, struct state *s, const struct options *o)
{
    int32_t settings[NSQ_SETTINGS], report = UNWRITTEN;
    int8_t pulses[320] = {0};
    uint32_t answer = o->report ? run_report(c, s, settings, pulses, &report) : run_call(c, s, settings, pulses);
    printf("call %s\nanswer %u\nseed %d\n", c->name, (unsigned)answer, (int)settings[NSQ_SEED]);
    if (answer == NSQ_ACCEPTED)
        print_pulses(pulses, pulses_len(c));
    if (o->digest)
        print_digests(s, answer == NSQ_ACCEPTED, c->settings[NSQ_SUBFR_LENGTH]);
    if (o->words)
        print_state(s);
    if (o->report)
        print_report(answer, report);
}

int main(int argc, char **argv)
{
    struct options o = {0, 0, 0};
    for (int i = 1; i < argc; i++) {
        if (!strcmp(argv[i], "--digest"))
            o.digest = 1;
        else if (!strcmp(argv[i], "--state"))
            o.words = 1;
        else if (!strcmp(argv[i], "--report"))
            o.report = 1;
        else
            return fprintf(stderr, "unknown option %s\n", argv[i]), 2;
    }
    size_t n;
    struct call *calls = read_calls(NULL, &n);
    struct state s;
    fresh_state(&s);
    for (size_t i = 0; i < n; i++) {
        if (calls[i].kind == FRESH)
            fresh_state(&s);
        else if (calls[i].kind == GIVEN)
            s = calls[i].given;
        run_and_print(&calls[i], &s, &o);
    }
    return 0;
}
