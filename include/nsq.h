/* The SILK noise shaping quantiser with delayed decision, proved. docs/RULES.md has the rules that it keeps.
 *
 * The archive libnsq_c.a is for 64-bit little-endian Linux on three processors: `tools/build-lib` writes that for x86-64,
 * `tools/build-lib --target aarch64` and `--target riscv64` write the others. After `tools/install PREFIX`, with PREFIX/lib/pkgconfig in
 * PKG_CONFIG_PATH:
 *   gcc program.c $(pkg-config --cflags --libs nsq)
 * or from the repository itself: gcc -Iinclude program.c target/staticlib/libnsq_c.a (x86-64; target/staticlib/aarch64, riscv64).
 *
 * All functions may be called with anything: they hold no state of their own, keep no pointer, allocate nothing and ask nothing
 * of their numbers. Each row is a pointer and its length IN ELEMENTS. What the caller owes is what C cannot check:
 *   - behind each pointer there are as many elements as its length says (length 0: any pointer, NULL too, nothing is read); start, length and
 *     rate of nsq_wav_find have no length: behind each of them there is one number;
 *   - rows that are written (settings, samples, words, pulses, report, excitation, row) overlap no other row of the same call; start, length
 *     and rate are three different numbers, none of them in the file;
 *   - NSQ_STACK bytes of stack are free.
 * A call may run at the same time as others on other rows. */
#ifndef NSQ_H
#define NSQ_H

#include <stddef.h>
#include <stdint.h>

/* The version of the library. bindings/rust/Cargo.toml has the same, nsq.pc takes it from here. 0.2.0: a fresh state has a lag. 0.3.0: WAV files
 * are read. */
#define NSQ_VERSION "0.3.0"

/* A call needs at most this many bytes of stack, 72 KB: measured, not proved. On a painted stack (tests/compare/stack.c; calls of every L,
 * voiced and not, each with 1 to 4 paths) nsq_del_dec_report used 66,712 bytes on x86-64, 69,984 on aarch64 and, before a refusal handed its
 * state back, 67,096 on riscv64 (these two under qemu-user; on riscv64 not measured again since); nsq_del_dec 112 to 416 less. nsq_wav_find and
 * nsq_wav_samples used 8 to 72 bytes, on the longest files. A program that is linked dynamically looks up memcpy and its like in the first call
 * that needs them: that took up to 3,152 bytes more. An archive that the kit before made of the same functions used 45,376 bytes at most, and
 * the number here was 49152. */
#define NSQ_STACK 73728

#ifdef __cplusplus
extern "C" {
#endif

/* What comes back. The lowest number that applies is given. A refusal (not 0) touches no row. */
enum {
    NSQ_ACCEPTED = 0,
    NSQ_BAD_LENGTH = 1, /* L not 40, 60 or 80, or n not 2 or 4 */
    NSQ_BAD_ORDER = 2,  /* prediction order not 10 (L 40, 60) or 16 (L 80), or shaping order not even, 2 to 24 */
    NSQ_BAD_PATHS = 3,  /* path count not 1 to 4 */
    NSQ_BAD_KIND = 4,   /* signal type not 0 to 2, offset type not 0 or 1, interpolation not 0 to 4, or seed not 0 to 3 */
    NSQ_BAD_ROW = 5,    /* a row has another length, those of settings, state and report too */
    NSQ_BAD_GAIN = 6,   /* a gain, or the state's previous gain, below 1 */
    NSQ_BAD_LAG = 7     /* voiced: one of the n lags is not 2L/5 to 18L/5; else: the state's lag or the last lag is neither 0 nor that */
};

/* The row of settings: 12 words. L is the subframe length, n the subframe count; N = n * L is the frame. */
enum {
    NSQ_SUBFR_LENGTH = 0,     /* L */
    NSQ_NB_SUBFR = 1,         /* n */
    NSQ_PREDICT_ORDER = 2,    /* predictLPCOrder */
    NSQ_SHAPING_ORDER = 3,    /* shapingLPCOrder */
    NSQ_PATHS = 4,            /* nStatesDelayedDecision */
    NSQ_WARPING_Q16 = 5,      /* any; the low 16 bits count */
    NSQ_SIGNAL_TYPE = 6,      /* 2 is voiced */
    NSQ_QUANT_OFFSET_TYPE = 7,
    NSQ_INTERP_Q2 = 8,        /* NLSFInterpCoef_Q2 */
    NSQ_SEED = 9,             /* in: the seed of the frame; out, where accepted: the seed that the coded frame starts from */
    NSQ_LAMBDA_Q10 = 10,      /* any */
    NSQ_LTP_SCALE_Q14 = 11,   /* any; the low 16 bits count */
    NSQ_SETTINGS = 12         /* the row's length */
};

/* The state is two rows: 640 samples (xq) and 767 words, which stand at these places. */
enum {
    NSQ_SAMPLES = 640,              /* the length of the row of samples */
    NSQ_SLTP_SHP_Q14 = 0,           /* 640 words */
    NSQ_SLPC_Q14 = 640,             /* 96 words */
    NSQ_SAR2_Q14 = 736,             /* 24 words */
    NSQ_SLF_AR_SHP_Q14 = 760,
    NSQ_SDIFF_SHP_Q14 = 761,
    NSQ_LAG_PREV = 762,             /* the last lag of the frame before, 0 for none; 100 before the first frame */
    NSQ_SLTP_BUF_IDX = 763,         /* this, the next and rewhite_flag are handed out and never read */
    NSQ_SLTP_SHP_BUF_IDX = 764,
    NSQ_PREV_GAIN_Q16 = 765,        /* the last gain of the frame before */
    NSQ_REWHITE_FLAG = 766,
    NSQ_WORDS = 767                 /* the length of the row of words */
};

/* Makes the two rows the state before the first frame: all 0, but words[NSQ_LAG_PREV] is 100 and words[NSQ_PREV_GAIN_Q16] is 65536.
 * Returns 0; or 5, with both rows as they were, where samples_len is not 640 or words_len is not 767.
 *
 * The lag is the one from which the encoder of RFC 6716 starts. It is good for every L, so no first frame is refused for it; and since it is not
 * 0, the harmonic gains count in each first frame. Up to version 0.1.0 it was 0: of first frames only those that are not voiced and have a
 * harmonic gain other than 0 can be coded otherwise since, none of them with L 40 and n 2; and where one is, the frames after it in its note
 * can be too. A caller who has to have the old pulses sets words[NSQ_LAG_PREV] to 0. */
uint32_t nsq_fresh(int16_t *samples, size_t samples_len, int32_t *words, size_t words_len);

/* Codes one frame. Returns one of the numbers above. Accepted: the N pulses are written, samples and words hold the next state, and
 * settings[NSQ_SEED] holds the seed to code. Where a row of the state has another length, the answer is the lowest of 1 to 4 that the
 * settings give, else 5; where the settings have another length, it is 5.
 *
 *   settings  12, see above; only the seed is written     samples  640, words  767: the state, read and written
 *   x         N samples of input                          pulses   N, written; what they held does not count
 *   pred      32: PredCoef_Q12, two rows of 16            ltp      5n: LTPCoef_Q14, 5 for each subframe
 *   ar        24n: AR_Q13, 24 for each subframe           harm     n: HarmShapeGain_Q14
 *   tilt      n: Tilt_Q14                                 lf       n: LF_shp_Q14
 *   gains     n: Gains_Q16, each 1 or more                lags     n: pitchL */
uint32_t nsq_del_dec(int32_t *settings, size_t settings_len,
                     int16_t *samples, size_t samples_len,
                     int32_t *words, size_t words_len,
                     const int16_t *x, size_t x_len,
                     int8_t *pulses, size_t pulses_len,
                     const int16_t *pred, size_t pred_len,
                     const int16_t *ltp, size_t ltp_len,
                     const int16_t *ar, size_t ar_len,
                     const int32_t *harm, size_t harm_len,
                     const int32_t *tilt, size_t tilt_len,
                     const int32_t *lf, size_t lf_len,
                     const int32_t *gains, size_t gains_len,
                     const int32_t *lags, size_t lags_len);

/* Codes one frame as nsq_del_dec does, by the same thirteen rows, and reports on it in one row more. Accepted: report[0] is at how many
 * places of the frame the pulses handed out differ from those that the final winner chose itself, 0 to 320; the final winner is the path
 * that is picked at the end of the frame, and pulses are handed out before that. That number is always 0, for any number of paths: this is
 * proved (theorem belongs:report-0). It is counted all the same, in the pulses that each path carries with it, for whoever would rather
 * look at the number than trust that argument. Everything else is as with nsq_del_dec.
 *
 *   report    1, written; what it held does not count
 *
 * Where report_len is not 1, the answer is the lowest of 1 to 4 that the settings give, else 5; where the settings have another length, it
 * is 5. A refusal touches no row, the report neither: what it holds then is no count. */
uint32_t nsq_del_dec_report(int32_t *settings, size_t settings_len,
                            int16_t *samples, size_t samples_len,
                            int32_t *words, size_t words_len,
                            const int16_t *x, size_t x_len,
                            int8_t *pulses, size_t pulses_len,
                            const int16_t *pred, size_t pred_len,
                            const int16_t *ltp, size_t ltp_len,
                            const int16_t *ar, size_t ar_len,
                            const int32_t *harm, size_t harm_len,
                            const int32_t *tilt, size_t tilt_len,
                            const int32_t *lf, size_t lf_len,
                            const int32_t *gains, size_t gains_len,
                            const int32_t *lags, size_t lags_len,
                            int32_t *report, size_t report_len);

/* What nsq_excitation answers. The lowest number that applies is given. A refusal (not 0) leaves the row as it was. */
enum {
    NSQ_HEARD = 0,
    NSQ_HEARD_BAD_SEED = 1, /* seed not 0 to 3 */
    NSQ_HEARD_BAD_KIND = 2, /* signal type not 0 to 2, or offset type not 0 or 1 */
    NSQ_HEARD_BAD_ROW = 3   /* the two rows differ in length, or are longer than 320 */
};

/* What the far end hears: the excitation that a decoder makes of a frame's pulses (RFC 6716, 4.2.7.8.6), one value e_Q23 for each pulse.
 * Any pulses, and any length from 0 to 320 that both rows have. The seed is the one that the frame is coded with, which is
 * settings[NSQ_SEED] after nsq_del_dec; the signal type and the offset type are those of the settings. Where the frame was coded with one
 * path, each value is a 64th of the excitation (Q14) that the quantiser used at that sample. */
uint32_t nsq_excitation(const int8_t *pulses, size_t pulses_len,
                        int32_t seed, int32_t signal_type, int32_t offset_type,
                        int32_t *excitation, size_t excitation_len);

/* What nsq_wav_find answers, but for the last, and nsq_wav_samples: 0 or the last. Each of 1 to 7 is a condition on the whole file, and the
 * lowest number that applies is given; it is not the first fault on the way through the file. The walked chunks are explained below. */
enum {
    NSQ_WAV_FOUND = 0,
    NSQ_WAV_TOO_LONG = 1,     /* more than NSQ_WAV_BYTES bytes */
    NSQ_WAV_NOT_WAVE = 2,     /* bytes 0 to 3 are not RIFF, or bytes 8 to 11 are not WAVE, or there are less than 12 */
    NSQ_WAV_PAST_END = 3,     /* a walked chunk, `data` too, or its head runs past the end of the file */
    NSQ_WAV_NO_FORMAT = 4,    /* no walked chunk is `fmt `, or the first that is has less than 16 bytes */
    NSQ_WAV_OTHER_FORMAT = 5, /* the first `fmt ` has another coding than 1 (PCM), another channel count than 1, another width than 16 bits, or a
                                 rate that is not 8000, 12000 or 16000 samples a second */
    NSQ_WAV_NO_DATA = 6,      /* no walked chunk is `data` */
    NSQ_WAV_ODD_DATA = 7,     /* the first `data` has an odd length */
    NSQ_WAV_BAD_ROW = 8       /* nsq_wav_samples: part_len is not twice row_len */
};

/* The longest file that is not refused with 1, and the most samples that an accepted one has: (65536 - 44) / 2, since RIFF and WAVE, a `fmt ` and
 * the head of `data` take 44 bytes at least (theorem wav_file:found-most). A row of so many samples is long enough for every file. */
enum {
    NSQ_WAV_BYTES = 65536,
    NSQ_WAV_SAMPLES = 32746
};

/* Finds the samples of a WAV file that is in memory as a whole: they stand, two bytes each, in the bytes file[*start] to
 * file[*start + *length - 1], and *rate of them make a second. It copies nothing. Returns one of the numbers above. The three numbers are always
 * written: after a refusal all three are 0. Always *start + *length <= file_len; where the file is accepted, *length is even, and it may be 0.
 *
 * A chunk is a head of 8 bytes (its name, four bytes, and the length of its content, four bytes, low byte first), then the content, then a pad
 * byte where that length is odd; at the very end of the file the pad byte may be missing. The walked chunks are those from byte 12 on, one after
 * the other, up to the first `data`, which is one of them, or to the end of the file. Names are compared exactly.
 *
 * Not looked at: the size that follows RIFF, pad bytes, the contents of chunks with other names and of later `fmt `s, the bytes a second and
 * the bytes a sample in `fmt ` and what follows its first 16 bytes, the samples, and all that is behind the first `data`. */
uint32_t nsq_wav_find(const uint8_t *file, size_t file_len, uint32_t *start, uint32_t *length, uint32_t *rate);

/* Makes samples of such a part, two bytes each, low byte first: after nsq_wav_find,
 *   nsq_wav_samples(file + start, length, row, length / 2)
 * Returns 0; or 8, with the row as it was, where part_len is not twice row_len. Nothing else is asked: any bytes, also more than NSQ_WAV_BYTES,
 * and none for a row of length 0. */
uint32_t nsq_wav_samples(const uint8_t *part, size_t part_len, int16_t *row, size_t row_len);

#ifdef __cplusplus
}
#endif

#endif
