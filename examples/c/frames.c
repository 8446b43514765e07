/* Codes three frames of a tone, the state handed from one to the next, and prints the pulses and the first ten values of the excitation that
 * the far end makes of them. After tools/build-lib:
 *   gcc -O2 -Iinclude examples/c/frames.c target/staticlib/libnsq_c.a -o target/frames && target/frames
 * examples/frames.expect is what it prints; tests/examples holds that file to the Rust. examples/c/voiced.c shows more. */
#include "nsq.h"
#include <stdio.h>

enum { L = 40, N = 2 * L };

int main(void)
{
    int16_t samples[NSQ_SAMPLES], x[N], pred[32] = {0}, ltp[5 * 2] = {0}, ar[24 * 2] = {0};
    int32_t words[NSQ_WORDS], harm[2] = {0, 0}, tilt[2] = {-2000, -2000}, lf[2] = {0, 0};
    int32_t gains[2] = {65536 * 400, 65536 * 400}, lags[2] = {0, 0};
    int32_t excitation[N];
    int8_t pulses[N];

    pred[0] = pred[16] = 3000; /* predict each sample as 3000 / 4096 of the one before */
    if (nsq_fresh(samples, NSQ_SAMPLES, words, NSQ_WORDS) != NSQ_ACCEPTED)
        return 1;
    for (int frame = 0; frame < 3; frame++) {
        int32_t settings[NSQ_SETTINGS] = {
            [NSQ_SUBFR_LENGTH] = L,  [NSQ_NB_SUBFR] = 2, [NSQ_PREDICT_ORDER] = 10, [NSQ_SHAPING_ORDER] = 2,
            [NSQ_PATHS] = 2,         [NSQ_INTERP_Q2] = 4, [NSQ_SEED] = frame & 3,  [NSQ_LAMBDA_Q10] = 1000,
        };
        for (int i = 0; i < N; i++)
            x[i] = (int16_t)((i % 20 < 10 ? 1 : -1) * 900 * (frame + 1));
        uint32_t answer = nsq_del_dec(settings, NSQ_SETTINGS, samples, NSQ_SAMPLES, words, NSQ_WORDS, x, N, pulses, N,
                                      pred, 32, ltp, 10, ar, 48, harm, 2, tilt, 2, lf, 2, gains, 2, lags, 2);
        printf("frame %d: answer %u, seed %d\n", frame, (unsigned)answer, (int)settings[NSQ_SEED]);
        if (answer != NSQ_ACCEPTED)
            return 1;
        for (int i = 0; i < N; i++)
            printf("%d%c", pulses[i], i % 20 == 19 ? '\n' : ' ');
        answer = nsq_excitation(pulses, N, settings[NSQ_SEED], settings[NSQ_SIGNAL_TYPE], settings[NSQ_QUANT_OFFSET_TYPE], excitation, N);
        if (answer != NSQ_HEARD)
            return 1;
        printf("heard:");
        for (int i = 0; i < 10; i++)
            printf(" %d", (int)excitation[i]);
        printf(" ..\n");
    }
    return 0;
}
