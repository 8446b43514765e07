/* Codes a note from a WAV file: finds the samples in it, makes a row of them, and codes that in frames of 20 ms, the state handed from one to the
 * next; a rest that is no whole frame is left out. Then tries the file without its last byte, which is refused where that byte is one of the
 * samples, as in examples/vowel.wav. After tools/build-lib:
 *   gcc -O2 -Iinclude examples/c/note.c target/staticlib/libnsq_c.a -o target/note && target/note [FILE]
 * Without a FILE it is examples/vowel.wav, which examples/vowel.py made; examples/note.expect is what it prints of that. tests/examples holds that
 * text to the Rust and to Python's module wave. */
#include "nsq.h"
#include <stdio.h>
#include <stdlib.h>

/* where the samples of a file are */
struct note {
    uint32_t start, length, rate;
};

/* what one frame leaves for the next */
struct state {
    int16_t samples[NSQ_SAMPLES];
    int32_t words[NSQ_WORDS];
};

enum { SUBFRAMES = 4, LONGEST = 80 * SUBFRAMES };

static const char *in_words(uint32_t answer)
{
    switch (answer) {
    case NSQ_WAV_FOUND: return "found";
    case NSQ_WAV_TOO_LONG: return "the file is too long";
    case NSQ_WAV_NOT_WAVE: return "the file is not a WAV file";
    case NSQ_WAV_PAST_END: return "a chunk runs past the end of the file";
    case NSQ_WAV_NO_FORMAT: return "there is no format, or it is too short";
    case NSQ_WAV_OTHER_FORMAT: return "the coding, channel count, width or rate is not allowed";
    case NSQ_WAV_NO_DATA: return "there is no data";
    case NSQ_WAV_ODD_DATA: return "the data has an odd length";
    case NSQ_WAV_BAD_ROW: return "the part is not twice as long as the row";
    default: return "no such answer";
    }
}

/* Reads at most `room` bytes of a file, and says how many; ends the program where it cannot be read. */
static size_t read_file(const char *name, uint8_t *to, size_t room)
{
    FILE *f = fopen(name, "rb");
    size_t n = f ? fread(to, 1, room, f) : 0;
    if (!f || ferror(f)) {
        perror(name);
        exit(1);
    }
    fclose(f);
    return n;
}

/* Finds the samples and says what came of it: 1 where the file was accepted. */
static int found(const char *what, const uint8_t *file, size_t file_len, struct note *n)
{
    uint32_t answer = nsq_wav_find(file, file_len, &n->start, &n->length, &n->rate);
    if (answer == NSQ_WAV_FOUND)
        printf("%s: %u bytes from byte %u on, %u samples a second\n", what, (unsigned)n->length, (unsigned)n->start, (unsigned)n->rate);
    else
        printf("%s: refused: %u, %s\n", what, (unsigned)answer, in_words(answer));
    return answer == NSQ_WAV_FOUND;
}

/* Codes one frame of 4L samples, with the same plain numbers for each; a real encoder works them out anew, from the sound. */
static uint32_t code(struct state *s, int32_t l, const int16_t *x, int32_t *seed, int8_t *pulses)
{
    int32_t settings[NSQ_SETTINGS] = {
        [NSQ_SUBFR_LENGTH] = l, [NSQ_NB_SUBFR] = SUBFRAMES, [NSQ_PREDICT_ORDER] = l == 80 ? 16 : 10, [NSQ_SHAPING_ORDER] = 2,
        [NSQ_PATHS] = 2,        [NSQ_INTERP_Q2] = 4,        [NSQ_SEED] = *seed,                      [NSQ_LAMBDA_Q10] = 1000,
    };
    int16_t pred[2 * 16] = {[0] = 3000, [16] = 3000}; /* predict each sample as 3000 / 4096 of the one before */
    int16_t ltp[5 * SUBFRAMES] = {0}, ar[24 * SUBFRAMES] = {0};
    int32_t harm[SUBFRAMES] = {0}, tilt[SUBFRAMES] = {0}, lf[SUBFRAMES] = {0}, lags[SUBFRAMES] = {0};
    int32_t gains[SUBFRAMES] = {65536 * 200, 65536 * 200, 65536 * 200, 65536 * 200}; /* a step of the pulses is about 200 */
    size_t n = SUBFRAMES * (size_t)l;
    uint32_t answer = nsq_del_dec(settings, NSQ_SETTINGS, s->samples, NSQ_SAMPLES, s->words, NSQ_WORDS, x, n, pulses, n,
                                  pred, 2 * 16, ltp, 5 * SUBFRAMES, ar, 24 * SUBFRAMES, harm, SUBFRAMES, tilt, SUBFRAMES,
                                  lf, SUBFRAMES, gains, SUBFRAMES, lags, SUBFRAMES);
    *seed = settings[NSQ_SEED];
    return answer;
}

/* Codes all whole frames of a row and prints their pulses: 1 where all were accepted. */
static int coded(const int16_t *row, size_t count, uint32_t rate)
{
    struct state state;
    size_t n = rate / 50; /* 20 ms: L is 40, 60 or 80 */
    if (nsq_fresh(state.samples, NSQ_SAMPLES, state.words, NSQ_WORDS) != NSQ_ACCEPTED)
        return 0;
    for (size_t frame = 0; (frame + 1) * n <= count; frame++) {
        int8_t pulses[LONGEST];
        int32_t seed = (int32_t)(frame & 3);
        if (code(&state, (int32_t)n / SUBFRAMES, row + frame * n, &seed, pulses) != NSQ_ACCEPTED)
            return 0;
        printf("frame %zu: coded, seed %d\n", frame, (int)seed);
        for (size_t i = 0; i < n; i++)
            printf("%d%c", pulses[i], i % 20 == 19 ? '\n' : ' ');
    }
    return 1;
}

int main(int argc, char **argv)
{
    static uint8_t file[NSQ_WAV_BYTES + 1]; /* one byte more than a file may have: a longer one is seen to be too long */
    static int16_t row[NSQ_WAV_SAMPLES];    /* no accepted file has more samples */
    struct note note, cut;
    size_t file_len = read_file(argc > 1 ? argv[1] : "examples/vowel.wav", file, sizeof file);

    if (!found("the file", file, file_len, &note))
        return 1;
    size_t count = note.length / 2;
    if (nsq_wav_samples(file + note.start, note.length, row, count) != NSQ_WAV_FOUND)
        return 1;
    printf("%zu samples:", count);
    for (size_t i = 0; i < count && i < 10; i++)
        printf(" %d", row[i]);
    printf(" ..\n");
    if (!coded(row, count, note.rate))
        return 1;
    found("without its last byte", file, file_len - 1, &cut);
    return 0;
}
