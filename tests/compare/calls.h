/* A stream of calls: text between white space.
 *   call NAME, ten rows (each its count and its numbers): settings (12), samples, PredCoef, LTPCoef, AR, harmonic gains, tilts, LFs,
 *   gains, lags; then optionally `state fresh`, `state prev` or `state given` and 1408 numbers; then `go`. */
#ifndef CALLS_H
#define CALLS_H

#include "nsq.h"

/* the 1408 numbers of a state: xq, shaping, LPC and filter words, then eight of which rand_seed is passed through */
enum { STATE = 1408, SCALARS = 1400, RAND_SEED = 1405 };
enum kind { FRESH, PREV, GIVEN };

struct state {
    int16_t samples[NSQ_SAMPLES];
    int32_t words[NSQ_WORDS];
    int32_t rand_seed;
};

struct call {
    char name[64];
    int32_t settings[NSQ_SETTINGS];
    int16_t *shorts[4]; /* samples, PredCoef, LTPCoef, AR */
    size_t shorts_len[4];
    int32_t *longs[5];  /* harmonic gains, tilts, LFs, gains, lags */
    size_t longs_len[5];
    enum kind kind;
    struct state given;
};

/* the calls of a file (NULL: standard input), and how many; ends the program where one cannot be read */
struct call *read_calls(const char *file, size_t *count);
/* the state before the first frame */
void fresh_state(struct state *s);
/* one of the 1408 numbers */
int32_t state_word(const struct state *s, size_t k);
/* the length of the row lent for a call's pulses: N where that is at most 320, else 0 */
size_t pulses_len(const struct call *c);
/* one call on a state: the number that comes back; `settings` holds the seed afterwards */
uint32_t run_call(const struct call *c, struct state *s, int32_t *settings, int8_t *pulses);
/* the same by nsq_del_dec_report, which writes to a row of one word too */
uint32_t run_report(const struct call *c, struct state *s, int32_t *settings, int8_t *pulses, int32_t *report);

#endif
