/* stack FILE: how many bytes of stack a call of the library needs, measured. Each call of the stream FILE that is accepted is made by both
 * entries with 1, 2, 3 and 4 paths, each time on a stack of its own that was painted before; what is no longer painted afterwards was used.
 * The small functions below that make the call are counted with it. Prints the most for each entry and path count, and how many of the
 * calls there were of each L, voiced and not. Ends with an error where one of these was not tried, or where NSQ_STACK is not enough. The two
 * functions for WAV files are measured likewise, on files as long as they may be: one full of chunks without content, one full of samples.
 * tools/compare --stack compiles and runs it. This is a measure, not a bound: it shows what was written to, in the calls that were tried. A
 * program that is linked dynamically may look up memcpy and its like at the first call, and that needs stack too: it is counted here, and left
 * out with LD_BIND_NOW=1 or -static. */
#define _XOPEN_SOURCE 600
#include "calls.h"
#include <stdio.h>
#include <stdlib.h>
#include <string.h>
#include <ucontext.h>

enum { ROOM = 1 << 18, PAINT = 0xa5, PATHS = 4 };
enum entry { PLAIN, REPORT, ENTRIES };

static const char *const names[ENTRIES] = {"nsq_del_dec", "nsq_del_dec_report"};
/* aligned: else a few bytes at its upper end may be passed over and counted */
static unsigned char stack[ROOM] __attribute__((aligned(64)));
static ucontext_t here, there;

/* the call to be made on that stack, and its answer */
static struct {
    const struct call *call;
    enum entry entry;
    struct state state;
    uint32_t answer;
} now;

static void make_call(void)
{
    static int32_t settings[NSQ_SETTINGS], report;
    static int8_t pulses[320];
    now.answer = now.entry == PLAIN ? run_call(now.call, &now.state, settings, pulses)
                                    : run_report(now.call, &now.state, settings, pulses, &report);
}

static void stop(const char *why)
{
    fprintf(stderr, "stack: %s\n", why);
    exit(1);
}

/* makes a call on the painted stack */
static void run_on_stack(void (*make)(void))
{
    memset(stack, PAINT, sizeof stack);
    if (getcontext(&there))
        stop("no context");
    there.uc_stack.ss_sp = stack;
    there.uc_stack.ss_size = sizeof stack;
    there.uc_link = &here;
    makecontext(&there, make, 0);
    if (swapcontext(&here, &there))
        stop("no context");
}

/* the bytes of stack that such a call used */
static size_t used_by(void (*make)(void))
{
    size_t painted = 0;
    run_on_stack(make);
    while (painted < sizeof stack && stack[painted] == PAINT)
        painted++;
    if (!painted)
        stop("the stack of the measurement is too small");
    return sizeof stack - painted;
}

/* the bytes of stack that a call used; it is made on the state that it gives, else on a fresh one */
static size_t used(const struct call *c, enum entry entry)
{
    now.call = c;
    now.entry = entry;
    if (c->kind == GIVEN)
        now.state = c->given;
    else
        fresh_state(&now.state);
    return used_by(make_call);
}

/* a WAV file, and what comes of it */
static struct {
    uint8_t file[NSQ_WAV_BYTES];
    uint32_t start, length, rate, answer;
    int16_t row[NSQ_WAV_SAMPLES];
} wav;

static void make_find(void)
{
    wav.answer = nsq_wav_find(wav.file, NSQ_WAV_BYTES, &wav.start, &wav.length, &wav.rate);
}

static void make_samples(void)
{
    wav.answer = nsq_wav_samples(wav.file + wav.start, wav.length, wav.row, wav.length / 2);
}

/* RIFF and WAVE, a good `fmt `, and chunks of this name and length up to the end of the file */
static void make_file(const char *name, uint32_t length)
{
    static const uint8_t head[36] = "RIFF\0\0\0\0WAVEfmt \20\0\0\0\1\0\1\0\200\76\0\0\0\175\0\0\2\0\20\0";
    memset(wav.file, 0, sizeof wav.file);
    memcpy(wav.file, head, sizeof head);
    for (size_t at = sizeof head; at + 8 <= sizeof wav.file; at += 8 + length) {
        memcpy(wav.file + at, name, 4);
        for (int k = 0; k < 4; k++)
            wav.file[at + 4 + k] = (uint8_t)(length >> 8 * k);
    }
}

static void say_used(const char *what, uint32_t want, void (*make)(void))
{
    size_t bytes = used_by(make);
    if (wav.answer != want)
        stop("another answer than it has to be");
    printf("%s: %zu bytes\n", what, bytes);
    if (bytes > NSQ_STACK)
        stop("that is more than NSQ_STACK");
}

static void wav_functions(void)
{
    make_file("JUNK", 0); /* 8187 of them, and 4 bytes are left, which are no head */
    say_used("nsq_wav_find, many chunks", NSQ_WAV_PAST_END, make_find);
    make_file("data", 2 * NSQ_WAV_SAMPLES);
    say_used("nsq_wav_find, many samples", NSQ_WAV_FOUND, make_find);
    say_used("nsq_wav_samples", NSQ_WAV_FOUND, make_samples);
}

int main(int argc, char **argv)
{
    size_t n, most[ENTRIES][PATHS + 1] = {{0}}, tried[3][2] = {{0}};
    if (argc != 2)
        return fprintf(stderr, "usage: stack FILE\n"), 2;
    struct call *calls = read_calls(argv[1], &n);
    for (size_t i = 0; i < n; i++) {
        int accepted = 0;
        for (int paths = 1; paths <= PATHS; paths++)
            for (enum entry e = PLAIN; e < ENTRIES; e++) {
                calls[i].settings[NSQ_PATHS] = paths;
                size_t bytes = used(&calls[i], e);
                accepted = now.answer == NSQ_ACCEPTED;
                if (accepted && bytes > most[e][paths])
                    most[e][paths] = bytes;
            }
        if (accepted)
            tried[calls[i].settings[NSQ_SUBFR_LENGTH] / 20 - 2][calls[i].settings[NSQ_SIGNAL_TYPE] == 2]++;
    }
    for (int k = 0; k < 3; k++) {
        printf("L %d: %zu calls voiced, %zu not\n", 40 + 20 * k, tried[k][1], tried[k][0]);
        if (!tried[k][0] || !tried[k][1])
            stop("the stream leaves one of these out");
    }
    for (enum entry e = PLAIN; e < ENTRIES; e++)
        for (int paths = 1; paths <= PATHS; paths++)
            printf("%s, %d paths: %zu bytes\n", names[e], paths, most[e][paths]);
    for (enum entry e = PLAIN; e < ENTRIES; e++)
        for (int paths = 1; paths <= PATHS; paths++)
            if (most[e][paths] > NSQ_STACK)
                stop("that is more than NSQ_STACK");
    wav_functions();
    return 0;
}
