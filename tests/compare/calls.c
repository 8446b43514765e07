/* Reads a stream of calls and runs one through the library, by either entry. */
#include "calls.h"
#include <stdio.h>
#include <stdlib.h>
#include <string.h>

static char *text, *at;
static const char *call_name = "(start)";

static void fail(const char *what, const char *word)
{
    fprintf(stderr, "%s: %s: %s\n", call_name, what, word ? word : "end of input");
    exit(2);
}

static void *room(size_t bytes)
{
    void *p = malloc(bytes ? bytes : 1);
    if (!p)
        fail("no memory", "");
    return p;
}

static void read_text(const char *file)
{
    FILE *f = file ? fopen(file, "rb") : stdin;
    size_t size = 0, have = 1 << 20, got;
    if (!f)
        fail("cannot read", file);
    text = room(have);
    while ((got = fread(text + size, 1, have - size - 1, f)) > 0) {
        size += got;
        if (size + 1 == have && !(text = realloc(text, have *= 2)))
            fail("no memory", "");
    }
    text[size] = 0;
    at = text;
}

static char *word(void)
{
    at += strspn(at, " \t\r\n\f\v");
    if (!*at)
        return NULL;
    char *w = at;
    at += strcspn(at, " \t\r\n\f\v");
    if (*at)
        *at++ = 0;
    return w;
}

static int64_t number(int64_t lo, int64_t hi)
{
    char *w = word(), *end;
    if (!w)
        fail("a number is missing", w);
    long long v = strtoll(w, &end, 10);
    if (end == w || *end || v < lo || v > hi)
        fail("not a number of this row", w);
    return v;
}

static int16_t *shorts(size_t n)
{
    int16_t *row = room(n * sizeof *row);
    for (size_t i = 0; i < n; i++)
        row[i] = (int16_t)number(INT16_MIN, INT16_MAX);
    return row;
}

static int32_t *longs(size_t n)
{
    int32_t *row = room(n * sizeof *row);
    for (size_t i = 0; i < n; i++)
        row[i] = (int32_t)number(INT32_MIN, INT32_MAX);
    return row;
}

static void given_state(struct state *s)
{
    for (size_t i = 0; i < NSQ_SAMPLES; i++)
        s->samples[i] = (int16_t)number(INT16_MIN, INT16_MAX);
    for (size_t k = NSQ_SAMPLES, j = 0; k < STATE; k++) {
        int32_t v = (int32_t)number(INT32_MIN, INT32_MAX);
        if (k == RAND_SEED)
            s->rand_seed = v;
        else
            s->words[j++] = v;
    }
}

static void read_state(struct call *c)
{
    char *w = word();
    if (w && !strcmp(w, "prev"))
        c->kind = PREV;
    else if (w && !strcmp(w, "given")) {
        c->kind = GIVEN;
        given_state(&c->given);
    } else if (!w || strcmp(w, "fresh"))
        fail("no such state", w);
}

static void read_call(struct call *c)
{
    char *w = word();
    if (!w)
        fail("a name is missing", w);
    snprintf(c->name, sizeof c->name, "%s", w);
    call_name = c->name;
    if (number(0, 100000) != NSQ_SETTINGS)
        fail("settings", "not 12");
    for (int i = 0; i < NSQ_SETTINGS; i++)
        c->settings[i] = (int32_t)number(INT32_MIN, INT32_MAX);
    for (int k = 0; k < 4; k++)
        c->shorts[k] = shorts(c->shorts_len[k] = (size_t)number(0, 100000));
    for (int k = 0; k < 5; k++)
        c->longs[k] = longs(c->longs_len[k] = (size_t)number(0, 100000));
    c->kind = FRESH;
    w = word();
    if (w && !strcmp(w, "state")) {
        read_state(c);
        w = word();
    }
    if (!w || strcmp(w, "go"))
        fail("not 'go'", w);
}

struct call *read_calls(const char *file, size_t *count)
{
    size_t n = 0, have = 64;
    struct call *calls = room(have * sizeof *calls);
    read_text(file);
    for (char *w; (w = word()); n++) {
        if (strcmp(w, "call"))
            fail("not 'call'", w);
        if (n == have && !(calls = realloc(calls, (have *= 2) * sizeof *calls)))
            fail("no memory", "");
        memset(&calls[n], 0, sizeof calls[n]);
        read_call(&calls[n]);
    }
    free(text);
    *count = n;
    return calls;
}

void fresh_state(struct state *s)
{
    s->rand_seed = 0;
    if (nsq_fresh(s->samples, NSQ_SAMPLES, s->words, NSQ_WORDS) != NSQ_ACCEPTED)
        fail("nsq_fresh", "refused");
}

int32_t state_word(const struct state *s, size_t k)
{
    if (k < NSQ_SAMPLES)
        return s->samples[k];
    if (k == RAND_SEED)
        return s->rand_seed;
    return s->words[k - NSQ_SAMPLES - (k > RAND_SEED)];
}

size_t pulses_len(const struct call *c)
{
    int64_t l = c->settings[NSQ_SUBFR_LENGTH], n = c->settings[NSQ_NB_SUBFR];
    return l > 0 && n > 0 && l * n <= 320 ? (size_t)(l * n) : 0;
}

/* the thirteen rows that both entries are lent, in the order of nsq.h */
#define LENT(c, s, settings, pulses) \
    settings, NSQ_SETTINGS, (s)->samples, NSQ_SAMPLES, (s)->words, NSQ_WORDS, \
        (c)->shorts[0], (c)->shorts_len[0], pulses, pulses_len(c), \
        (c)->shorts[1], (c)->shorts_len[1], (c)->shorts[2], (c)->shorts_len[2], (c)->shorts[3], (c)->shorts_len[3], \
        (c)->longs[0], (c)->longs_len[0], (c)->longs[1], (c)->longs_len[1], (c)->longs[2], (c)->longs_len[2], \
        (c)->longs[3], (c)->longs_len[3], (c)->longs[4], (c)->longs_len[4]

uint32_t run_call(const struct call *c, struct state *s, int32_t *settings, int8_t *pulses)
{
    memcpy(settings, c->settings, sizeof c->settings);
    return nsq_del_dec(LENT(c, s, settings, pulses));
}

uint32_t run_report(const struct call *c, struct state *s, int32_t *settings, int8_t *pulses, int32_t *report)
{
    memcpy(settings, c->settings, sizeof c->settings);
    return nsq_del_dec_report(LENT(c, s, settings, pulses), report, 1);
}
