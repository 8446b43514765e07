/* Rows of other lengths, NULL where a row has none, at both entries: each gets the number of docs/RULES.md, touches no row and stops nothing. And
 * that nsq_del_dec_report does to the thirteen rows what nsq_del_dec does. Prints the number of calls that were made. */
#include "calls.h"
#include <stdio.h>
#include <stdlib.h>
#include <string.h>

/* the row of the report is the fourteenth: nsq_del_dec is not lent it, and it must stay as it was there too */
enum { SETTINGS = 0, SAMPLES = 1, WORDS = 2, INPUT = 3, PULSES = 4, PRED = 5, SHAPING = 7, GAINS = 11, LAGS = 12, REPORT = 13 };
enum { PLAIN_ROWS = 13, ROWS = 14, ROOM = 2000, MARK = 77 };

/* the rows of a call in the order of nsq.h, each with room to spare and a mark in it wherever the numbers do not matter: a 0 that is
 * written by mistake must show too */
struct row {
    unsigned char *bytes;
    size_t size, len;
};

/* the two entries by how many rows they are lent */
static const size_t entries[] = {PLAIN_ROWS, ROWS};
static const int32_t good[12] = {40, 2, 10, 2, 1, 0, 0, 0, 4, 3, 0, 0};
static size_t made;

/* `at` is the length that was tried, or the frame */
static void check(int right, const char *what, size_t rows, size_t row, size_t at)
{
    if (!right) {
        printf("FAILED: %s, %s, row %zu at %zu\n", what, rows == ROWS ? "nsq_del_dec_report" : "nsq_del_dec", row, at);
        exit(1);
    }
}

static uint32_t call(struct row *r, size_t rows)
{
#define R(k) (void *)r[k].bytes, r[k].len
#define THIRTEEN R(0), R(1), R(2), R(3), R(4), R(5), R(6), R(7), R(8), R(9), R(10), R(11), R(12)
    made++;
    return rows == ROWS ? nsq_del_dec_report(THIRTEEN, R(REPORT)) : nsq_del_dec(THIRTEEN);
#undef THIRTEEN
#undef R
}

static void set_word(struct row *r, size_t k, size_t place, int32_t value)
{
    memcpy(r[k].bytes + 4 * place, &value, 4);
}

/* a good call on a fresh state: all numbers are 0, but the gains, the state's lag, the mark in the two rows that are only written, and behind
 * each row */
static void fill(struct row *r)
{
    static const size_t sizes[ROWS] = {4, 2, 4, 2, 1, 2, 2, 2, 4, 4, 4, 4, 4, 4}, lens[ROWS] = {12, 640, 767, 80, 80, 32, 10, 48, 2, 2, 2, 2, 2, 1};
    for (size_t k = 0; k < ROWS; k++) {
        r[k].size = sizes[k];
        r[k].len = lens[k];
        r[k].bytes = malloc(ROOM * sizes[k]);
        check(r[k].bytes != NULL, "no memory", ROWS, k, ROOM);
        memset(r[k].bytes, MARK, ROOM * sizes[k]);
        if (k != PULSES && k != REPORT)
            memset(r[k].bytes, 0, lens[k] * sizes[k]);
    }
    memcpy(r[SETTINGS].bytes, good, sizeof good);
    check(nsq_fresh((void *)r[SAMPLES].bytes, 640, (void *)r[WORDS].bytes, 767) == NSQ_ACCEPTED, "nsq_fresh refused", ROWS, SAMPLES, 640);
    set_word(r, GAINS, 0, 65536);
    set_word(r, GAINS, 1, 65536);
}

/* a call that must give this number, with row k at this length, and change nothing */
static void refused(struct row *r, size_t rows, size_t k, size_t len, unsigned char *bytes, uint32_t want)
{
    static unsigned char before[ROWS][4 * ROOM];
    struct row was = r[k];
    for (size_t j = 0; j < ROWS; j++)
        memcpy(before[j], r[j].bytes, ROOM * r[j].size);
    r[k].len = len;
    r[k].bytes = bytes;
    uint32_t got = call(r, rows);
    r[k] = was;
    check(got == want, "another number", rows, k, len);
    for (size_t j = 0; j < ROWS; j++)
        check(!memcmp(before[j], r[j].bytes, ROOM * r[j].size), "a row was touched", rows, k, len);
}

/* row k at another length, and where that is 0 also with no row at all */
static void try_length(struct row *r, size_t rows, size_t k, size_t len, uint32_t want)
{
    refused(r, rows, k, len, r[k].bytes, want);
    if (len == 0)
        refused(r, rows, k, 0, NULL, want);
}

/* settings that are refused by their numbers: that number where a row has another length, but 5 where the settings have one */
static void settings_first(struct row *r, size_t rows)
{
    static const struct { int place; int32_t value; uint32_t number; } first[] = {{0, 41, 1}, {2, 16, 2}, {4, 0, 3}, {9, 4, 4}};
    for (size_t i = 0; i < 4; i++) {
        set_word(r, SETTINGS, first[i].place, first[i].value);
        for (size_t k = 0; k < rows; k++) {
            uint32_t want = k == SETTINGS ? NSQ_BAD_ROW : first[i].number;
            try_length(r, rows, k, 0, want);
            try_length(r, rows, k, r[k].len + 1, want);
        }
        refused(r, rows, SETTINGS, 12, r[SETTINGS].bytes, first[i].number);
        memcpy(r[SETTINGS].bytes, good, sizeof good);
    }
}

/* a gain and a lag that are refused: 6 and 7 where all lengths are right, else 5 */
static void rows_last(struct row *r, size_t rows)
{
    static const struct { size_t row; int32_t bad, good; uint32_t number; } last[] = {{GAINS, 0, 65536, NSQ_BAD_GAIN}, {LAGS, 7, 0, NSQ_BAD_LAG}};
    for (size_t i = 0; i < 2; i++) {
        set_word(r, last[i].row, 1, last[i].bad);
        refused(r, rows, last[i].row, 2, r[last[i].row].bytes, last[i].number);
        for (size_t k = 0; k < rows; k++) {
            try_length(r, rows, k, 0, NSQ_BAD_ROW);
            try_length(r, rows, k, r[k].len + 1, NSQ_BAD_ROW);
        }
        set_word(r, last[i].row, 1, last[i].good);
    }
}

/* all rows but for one, on a state that is not fresh, so that a state that is made so by mistake shows */
static void wrong_lengths(struct row *r, size_t rows)
{
    memset(r[SAMPLES].bytes, MARK, 2 * 640);
    memset(r[WORDS].bytes, MARK, 4 * 767);
    set_word(r, WORDS, NSQ_LAG_PREV, 0);
    for (size_t k = 0; k < rows; k++)
        for (size_t len = 0; len < 1500; len++)
            if (len != r[k].len)
                try_length(r, rows, k, len, NSQ_BAD_ROW);
    settings_first(r, rows);
    rows_last(r, rows);
    /* settings that cannot be looked at, and a report of another length too: 5, though the settings' numbers would be refused with 1 */
    set_word(r, SETTINGS, 0, 41);
    r[REPORT].len = 2;
    refused(r, rows, SETTINGS, 11, r[SETTINGS].bytes, NSQ_BAD_ROW);
    r[REPORT].len = 1;
    memcpy(r[SETTINGS].bytes, good, sizeof good);
}

/* frame i of a sound that is no silence, with 1 to 4 paths */
static void sound(struct row *r, size_t i)
{
    static uint32_t seed;
    set_word(r, SETTINGS, NSQ_PATHS, 1 + (int32_t)(i % 4));
    set_word(r, SETTINGS, NSQ_LAMBDA_Q10, 1000);
    for (size_t j = 0; j < 80; j++) {
        seed = 1103515245 * seed + 12345;
        ((int16_t *)r[INPUT].bytes)[j] = (int16_t)((int)(seed >> 16) % 8001 - 4000);
    }
    for (size_t k = 0; k < 48; k++)
        ((int16_t *)r[SHAPING].bytes)[k] = 60;
    ((int16_t *)r[PRED].bytes)[16] = 3000;
    set_word(r, GAINS, 0, 400 << 16);
    set_word(r, GAINS, 1, 500 << 16);
}

/* many frames by both entries, each on rows of its own and from the state that it left itself: all rows stay equal but the report, of which
 * one word is written, and that is 0 */
static void same_by_both(void)
{
    struct row plain[ROWS], reported[ROWS];
    size_t pulses = 0;
    fill(plain);
    fill(reported);
    for (size_t i = 0; i < 400; i++) {
        sound(plain, i);
        memcpy(reported[INPUT].bytes, plain[INPUT].bytes, 160);
        for (size_t k = PRED; k < PLAIN_ROWS; k++)
            memcpy(reported[k].bytes, plain[k].bytes, ROOM * plain[k].size);
        memcpy(reported[SETTINGS].bytes, plain[SETTINGS].bytes, sizeof good);
        memset(reported[REPORT].bytes, MARK, 4);
        check(call(plain, PLAIN_ROWS) == NSQ_ACCEPTED, "a sound refused", PLAIN_ROWS, 0, i);
        check(call(reported, ROWS) == NSQ_ACCEPTED, "a sound refused", ROWS, 0, i);
        for (size_t k = 0; k < PLAIN_ROWS; k++)
            check(!memcmp(plain[k].bytes, reported[k].bytes, ROOM * plain[k].size), "the entries differ", ROWS, k, i);
        check(*(int32_t *)reported[REPORT].bytes == 0, "a report that is not 0", ROWS, REPORT, i);
        check(!memcmp(reported[REPORT].bytes + 4, plain[REPORT].bytes + 4, 4 * ROOM - 4), "a word behind the report", ROWS, REPORT, i);
        for (size_t j = 0; j < 80; j++)
            pulses += plain[PULSES].bytes[j] != 0;
    }
    check(pulses > 400, "too few pulses that are not 0", ROWS, PULSES, pulses);
}

/* what nsq_fresh makes of two rows that hold something else: all 0, but the lag and the gain, and nothing behind them */
static void fresh_words(struct row *r)
{
    memset(r[SAMPLES].bytes, MARK, 2 * ROOM);
    memset(r[WORDS].bytes, MARK, 4 * ROOM);
    check(nsq_fresh((void *)r[SAMPLES].bytes, 640, (void *)r[WORDS].bytes, 767) == NSQ_ACCEPTED, "nsq_fresh refused", ROWS, SAMPLES, 640);
    for (size_t i = 0; i < 2 * ROOM; i++)
        check(r[SAMPLES].bytes[i] == (i < 2 * 640 ? 0 : MARK), "nsq_fresh: a sample's byte", ROWS, SAMPLES, i);
    for (size_t i = 0; i < ROOM; i++) {
        int32_t got, want = i == NSQ_LAG_PREV ? 100 : i == NSQ_PREV_GAIN_Q16 ? 65536 : 0;
        if (i >= NSQ_WORDS)
            memset(&want, MARK, 4);
        memcpy(&got, r[WORDS].bytes + 4 * i, 4);
        check(got == want, "nsq_fresh: a word", ROWS, WORDS, i);
    }
}

int main(void)
{
    struct row r[ROWS];
    fill(r);
    for (size_t e = 0; e < 2; e++)
        wrong_lengths(r, entries[e]);
    for (size_t e = 0; e < 2; e++) {
        fill(r);
        check(call(r, entries[e]) == NSQ_ACCEPTED, "a good call", entries[e], 0, 0);
        for (int i = 0; i < 80; i++)
            check(r[PULSES].bytes[i] == 0, "a pulse of silence", entries[e], PULSES, i);
    }
    same_by_both();
    fresh_words(r);
    check(nsq_fresh(NULL, 0, NULL, 0) == NSQ_BAD_ROW, "nsq_fresh", PLAIN_ROWS, 0, 0);
    check(nsq_fresh((void *)r[SAMPLES].bytes, 639, (void *)r[WORDS].bytes, 767) == NSQ_BAD_ROW, "nsq_fresh", PLAIN_ROWS, SAMPLES, 639);
    check(nsq_fresh((void *)r[SAMPLES].bytes, 640, (void *)r[WORDS].bytes, 768) == NSQ_BAD_ROW, "nsq_fresh", PLAIN_ROWS, WORDS, 768);
    printf("%zu calls, all as they must be\n", made);
    return 0;
}
