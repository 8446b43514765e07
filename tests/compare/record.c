/* Linked into a program with -Wl,--wrap=nsq_del_dec, as tests/examples does: each call of nsq_del_dec that the program makes is written
 * to the file that the variable NSQ_CALLS names, as a stream of calls (calls.h), with the state that it was made on. Then the call is made. */
#include "calls.h"
#include <stdio.h>
#include <stdlib.h>

uint32_t __real_nsq_del_dec(int32_t *settings, size_t settings_len, int16_t *samples, size_t samples_len, int32_t *words, size_t words_len,
                            const int16_t *x, size_t x_len, int8_t *pulses, size_t pulses_len, const int16_t *pred, size_t pred_len,
                            const int16_t *ltp, size_t ltp_len, const int16_t *ar, size_t ar_len, const int32_t *harm, size_t harm_len,
                            const int32_t *tilt, size_t tilt_len, const int32_t *lf, size_t lf_len, const int32_t *gains, size_t gains_len,
                            const int32_t *lags, size_t lags_len);

static FILE *stream;

static void shorts(const int16_t *row, size_t n)
{
    fprintf(stream, "%zu", n);
    for (size_t i = 0; i < n; i++)
        fprintf(stream, " %d", row[i]);
    fprintf(stream, "\n");
}

static void longs(const int32_t *row, size_t n)
{
    fprintf(stream, "%zu", n);
    for (size_t i = 0; i < n; i++)
        fprintf(stream, " %ld", (long)row[i]);
    fprintf(stream, "\n");
}

/* the 1408 numbers in their order; rand_seed, which the library does not have, is 0 */
static void given(const int16_t *samples, const int32_t *words)
{
    fprintf(stream, "state given");
    for (size_t k = 0; k < STATE; k++)
        if (k < NSQ_SAMPLES)
            fprintf(stream, " %d", samples[k]);
        else
            fprintf(stream, " %ld", k == RAND_SEED ? 0L : (long)words[k - NSQ_SAMPLES - (k > RAND_SEED)]);
    fprintf(stream, "\ngo\n");
}

static void open_stream(void)
{
    const char *file = getenv("NSQ_CALLS");
    stream = file ? fopen(file, "w") : NULL;
    if (!stream) {
        fprintf(stderr, "record: NSQ_CALLS names no file that can be written\n");
        exit(2);
    }
}

uint32_t __wrap_nsq_del_dec(int32_t *settings, size_t settings_len, int16_t *samples, size_t samples_len, int32_t *words, size_t words_len,
                            const int16_t *x, size_t x_len, int8_t *pulses, size_t pulses_len, const int16_t *pred, size_t pred_len,
                            const int16_t *ltp, size_t ltp_len, const int16_t *ar, size_t ar_len, const int32_t *harm, size_t harm_len,
                            const int32_t *tilt, size_t tilt_len, const int32_t *lf, size_t lf_len, const int32_t *gains, size_t gains_len,
                            const int32_t *lags, size_t lags_len)
{
    static int number;
    if (!stream)
        open_stream();
    fprintf(stream, "call %d\n", number++);
    longs(settings, settings_len);
    shorts(x, x_len);
    shorts(pred, pred_len);
    shorts(ltp, ltp_len);
    shorts(ar, ar_len);
    longs(harm, harm_len);
    longs(tilt, tilt_len);
    longs(lf, lf_len);
    longs(gains, gains_len);
    longs(lags, lags_len);
    given(samples, words);
    return __real_nsq_del_dec(settings, settings_len, samples, samples_len, words, words_len, x, x_len, pulses, pulses_len, pred, pred_len,
                              ltp, ltp_len, ar, ar_len, harm, harm_len, tilt, tilt_len, lf, lf_len, gains, gains_len, lags, lags_len);
}
