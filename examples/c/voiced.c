/* Codes four voiced frames with four paths, the state handed from one to the next. The third frame is first tried with a lag that is not
 * allowed: the call is refused, its number is said in words, nothing has been touched, and the coding goes on. After tools/build-lib:
 *   gcc -O2 -Iinclude examples/c/voiced.c target/staticlib/libnsq_c.a -o target/voiced && target/voiced
 * or, after tools/install PREFIX, with PKG_CONFIG_PATH=PREFIX/lib/pkgconfig:
 *   gcc -O2 examples/c/voiced.c $(pkg-config --cflags --libs nsq) -o voiced && ./voiced
 * examples/voiced.expect is what it prints. tests/examples gives the calls that it makes to the Rust: the answers, seeds and pulses in that
 * file are the Rust's. */
#include "nsq.h"
#include <stdio.h>
#include <string.h>

/* 20 ms at 16000 samples a second; the voice repeats itself every LAG samples */
enum { L = 80, SUBFRAMES = 4, N = L * SUBFRAMES, ORDER = 16, PATHS = 4, LAG = 128 };

/* what one frame leaves for the next */
struct state {
    int16_t samples[NSQ_SAMPLES];
    int32_t words[NSQ_WORDS];
};

/* the voice: breath and a push every LAG samples, which ring on in one resonance of the mouth at about 700 Hz */
struct voice {
    int32_t time, last, before;
    uint32_t breath;
};

static int16_t next_sample(struct voice *v)
{
    int32_t push = v->time++ % LAG == 0 ? 900 : 0;
    v->breath = v->breath * 1103515245 + 12345;
    int32_t now = (7491 * v->last - 3697 * v->before) / 4096 + push + (int32_t)(v->breath >> 16) % 161 - 80;
    v->before = v->last;
    v->last = now;
    return (int16_t)now;
}

static const char *in_words(uint32_t answer)
{
    switch (answer) {
    case NSQ_ACCEPTED: return "accepted";
    case NSQ_BAD_LENGTH: return "the subframe length or the subframe count is not allowed";
    case NSQ_BAD_ORDER: return "the prediction order or the shaping order is not allowed";
    case NSQ_BAD_PATHS: return "the path count is not allowed";
    case NSQ_BAD_KIND: return "the signal type, offset type, interpolation or seed is not allowed";
    case NSQ_BAD_ROW: return "a row has another length";
    case NSQ_BAD_GAIN: return "a gain is below 1";
    case NSQ_BAD_LAG: return "a lag is not allowed";
    default: return "no such answer";
    }
}

/* Codes one frame. A real encoder works these numbers out anew for each frame, from the sound. */
static uint32_t code(struct state *s, const int16_t x[N], int32_t lag, int32_t *seed, int8_t pulses[N])
{
    int32_t settings[NSQ_SETTINGS] = {
        [NSQ_SUBFR_LENGTH] = L,  [NSQ_NB_SUBFR] = SUBFRAMES, [NSQ_PREDICT_ORDER] = ORDER, [NSQ_SHAPING_ORDER] = 2,
        [NSQ_PATHS] = PATHS,     [NSQ_SIGNAL_TYPE] = 2,      [NSQ_INTERP_Q2] = 4,         [NSQ_SEED] = *seed,
        [NSQ_LAMBDA_Q10] = 900,  [NSQ_LTP_SCALE_Q14] = 15565,
    };
    int16_t pred[2 * 16] = {7416, -3623};   /* the resonance, a little damped; Q12 */
    int16_t ltp[5 * SUBFRAMES] = {0}, ar[24 * SUBFRAMES] = {0};
    int32_t harm[SUBFRAMES], tilt[SUBFRAMES], lf[SUBFRAMES], gains[SUBFRAMES], lags[SUBFRAMES];

    memcpy(pred + 16, pred, 16 * sizeof *pred); /* the first row is for the first half of the frame where the interpolation is below 4 */
    for (int k = 0; k < SUBFRAMES; k++) {
        ltp[5 * k + 1] = ltp[5 * k + 3] = 2000; /* from one period to the next: 13000 / 16384 of the sound stays */
        ltp[5 * k + 2] = 9000;
        ar[24 * k] = 10487;                     /* the noise may be louder where the voice is: the resonance, much damped; Q13 */
        ar[24 * k + 1] = -3623;
        harm[k] = 3000;
        tilt[k] = -4000;
        lf[k] = 0;
        gains[k] = 65536 * 40;                  /* a step of the pulses is about 40 */
        lags[k] = lag;
    }
    uint32_t answer = nsq_del_dec(settings, NSQ_SETTINGS, s->samples, NSQ_SAMPLES, s->words, NSQ_WORDS, x, N, pulses, N,
                                  pred, 2 * 16, ltp, 5 * SUBFRAMES, ar, 24 * SUBFRAMES, harm, SUBFRAMES, tilt, SUBFRAMES,
                                  lf, SUBFRAMES, gains, SUBFRAMES, lags, SUBFRAMES);
    *seed = settings[NSQ_SEED]; /* refused: as it was */
    return answer;
}

/* Codes a frame and says what came of it: 1 where it was accepted. */
static int coded(int frame, struct state *s, const int16_t x[N], int32_t lag, int8_t pulses[N])
{
    int32_t seed = frame & 3;
    uint32_t answer = code(s, x, lag, &seed, pulses);
    if (answer != NSQ_ACCEPTED) {
        printf("frame %d: refused: %u, %s\n", frame, (unsigned)answer, in_words(answer));
        return 0;
    }
    printf("frame %d: coded, seed %d\n", frame, (int)seed);
    for (int i = 0; i < N; i++)
        printf("%d%c", pulses[i], i % 20 == 19 ? '\n' : ' ');
    return 1;
}

int main(void)
{
    struct state state, kept_state;
    struct voice voice = {0, 0, 0, 0};
    int16_t x[N];
    int8_t pulses[N], kept_pulses[N];

    if (nsq_fresh(state.samples, NSQ_SAMPLES, state.words, NSQ_WORDS) != NSQ_ACCEPTED)
        return 1;
    for (int frame = 0; frame < 4; frame++) {
        for (int i = 0; i < N; i++)
            x[i] = next_sample(&voice);
        if (frame == 2) { /* a lag of 300 is above 18L/5, which is 288 */
            kept_state = state;
            memcpy(kept_pulses, pulses, N);
            if (coded(frame, &state, x, 300, pulses))
                return 1;
            int same = !memcmp(&kept_state, &state, sizeof state) && !memcmp(kept_pulses, pulses, N);
            printf("frame %d: state and pulses %s\n", frame, same ? "as they were" : "were touched");
        }
        if (!coded(frame, &state, x, LAG, pulses))
            return 1;
    }
    printf("handed on: lag %d, gain %d\n", (int)state.words[NSQ_LAG_PREV], (int)state.words[NSQ_PREV_GAIN_Q16]);
    return 0;
}
