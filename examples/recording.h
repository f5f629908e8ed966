/*
 * Reads a recording, for the examples in C: a line with the 18 fields of a sheet, 64 rows of each of the banks h, g and k, then a pair I,Q a line, all in
 * decimal and separated by commas, as the symbol program reads it. What is wrong goes to standard error, with the file and the line.
 */
#ifndef RECORDING_H
#define RECORDING_H

#include "huntelm.h"

#include <errno.h>
#include <inttypes.h>
#include <stdio.h>
#include <string.h>

#define LONGEST 1024
#define BANK (HUNTELM_ROWS * HUNTELM_MAX_TAPS)

/* What a refusal's number says. No call answers 20 to 26. */
static const char *const refusals[] = {
    "nothing",
    "taps are odd, below 4 or above 64",
    "a bank is not 64 rows of taps long",
    "a coefficient is outside -131072 .. 131071",
    "the magnitudes of a row sum to more than 131071",
    "h or g is not 0 outside the detector's places",
    "the periods are not 2^24 < min <= nominal <= max < 2^26",
    "a field is outside its range",
    "agc_shift is above 63",
    "the state cannot go on under this sheet: it is outside its bounds, or, but for a retune, holds another one",
    "an odd number of sample values",
    "no room for one symbol, or too few places for the answer",
    "more than 2^63 - 1 samples in all",
    "the period is outside min .. max",
    "the samples a symbol are outside 1.0625 .. 4",
    "the taps of the design are odd, below 4 or above 64",
    "the bits of the design are outside 2 .. 8",
    "the trim is outside -0.5 .. 0.5",
    "not the number of places that a sheet has",
    "a number is outside the type of its place",
    [HUNTELM_REFUSED_HELD_TAPS] = "the taps are not those of the state",
    [HUNTELM_REFUSED_TICKET] = "the ticket is not the number of symbols so far",
    [HUNTELM_REFUSED_DELAY] = "the delay is outside 1 .. 24, or not that of the state",
};

struct recording {
    const char *name;
    FILE *file;
    long line;
};

static int fail(const struct recording *r, const char *what) {
    fprintf(stderr, "%s:%ld: %s\n", r->name, r->line, what);
    return 1;
}

static int refuse(const struct recording *r, const char *what, uint32_t number) {
    fprintf(stderr, "%s:%ld: %s is refused, number %" PRIu32 ": %s\n", r->name, r->line, what, number, refusals[number]);
    return 1;
}

/* Reads a decimal number that ends at a comma or at the end of its line: digits with no leading zero, and no -0. Moves the text behind it. */
static int read_number(const char **text, int64_t *number) {
    const char *at = *text;
    int64_t sign = 1, n = 0;
    if (*at == '-') {
        sign = -1;
        at++;
    }
    if (*at < '0' || *at > '9' || (*at == '0' && (sign < 0 || (at[1] >= '0' && at[1] <= '9')))) return 0;
    for (; *at >= '0' && *at <= '9'; at++) {
        /* A number this large is outside every type already, and stays so without its last digits. */
        if (n < 100000000000) n = 10 * n + (*at - '0');
    }
    *text = at;
    *number = sign * n;
    return 1;
}

/* Reads a line of so many numbers. Answers 1, 0 at the end of the file, and -1 where the line is none, which it reports. */
static int read_line(struct recording *r, int64_t *numbers, size_t count) {
    char line[LONGEST + 2];
    const char *at = line;
    size_t n;
    r->line++;
    if (!fgets(line, sizeof line, r->file)) {
        if (!ferror(r->file)) return 0;
        fail(r, strerror(errno));
        return -1;
    }
    for (n = 0; n < count; n++) {
        if (n > 0 && *at++ != ',') break;
        if (!read_number(&at, &numbers[n])) break;
    }
    if (n < count || *at != '\n') {
        fprintf(stderr, "%s:%ld: not %zu decimal numbers, separated by commas\n", r->name, r->line, count);
        return -1;
    }
    return 1;
}

/* Reads 64 rows of a bank. */
static int read_bank(struct recording *r, int32_t *bank, size_t taps) {
    int64_t row[HUNTELM_MAX_TAPS];
    size_t i, n;
    for (i = 0; i < HUNTELM_ROWS; i++) {
        int found = read_line(r, row, taps);
        if (found == 0) fail(r, "the file ends before the last row of the banks");
        if (found != 1) return 0;
        for (n = 0; n < taps; n++) {
            if (row[n] < INT32_MIN || row[n] > INT32_MAX) return !fail(r, "a coefficient is outside 32 bits");
            bank[i * taps + n] = (int32_t)row[n];
        }
    }
    return 1;
}

/* A sheet, the banks that it points to, and the state. */
struct receiver {
    struct huntelm_sheet sheet;
    struct huntelm_state state;
    int32_t h[BANK], g[BANK], k[BANK];
};

/* Reads the sheet with its banks and starts. Answers 1, or 0 where something is wrong, which it reports. */
static int start(struct receiver *rx, struct recording *r) {
    struct huntelm_sheet *sheet = &rx->sheet;
    size_t taps;
    uint32_t refused;
    int found = read_line(r, sheet->places, HUNTELM_SHEET_PLACES);
    if (found == 0) fail(r, "the file is empty");
    if (found != 1) return 0;
    sheet->h = rx->h;
    sheet->g = rx->g;
    sheet->k = rx->k;
    /* With no banks yet their length is what is refused, unless the line itself is. From here on taps are 4 to 64. */
    sheet->h_len = sheet->g_len = sheet->k_len = 0;
    refused = huntelm_sheet_judge(sheet);
    if (refused != HUNTELM_REFUSED_BANK_LENGTH) return !refuse(r, "the sheet", refused);
    taps = (size_t)sheet->places[HUNTELM_SHEET_TAPS];
    if (!read_bank(r, rx->h, taps) || !read_bank(r, rx->g, taps) || !read_bank(r, rx->k, taps)) return 0;
    sheet->h_len = sheet->g_len = sheet->k_len = HUNTELM_ROWS * taps;
    refused = huntelm_state_start(&rx->state, sheet);
    if (refused) return !refuse(r, "the sheet that ends here", refused);
    return 1;
}

/* Reads a sample, I before Q. Answers 1, 0 at the end of the file, and -1 where something is wrong, which it reports. */
static int read_pair(struct recording *r, int16_t *values) {
    int64_t pair[2];
    int found = read_line(r, pair, 2);
    if (found != 1) return found;
    if (pair[0] < INT16_MIN || pair[0] > INT16_MAX || pair[1] < INT16_MIN || pair[1] > INT16_MAX) return -fail(r, "a sample is outside 16 bits");
    values[0] = (int16_t)pair[0];
    values[1] = (int16_t)pair[1];
    return 1;
}

/* Reads all samples that are left, at most so many, and says how many values they are. Answers 1, or 0 where something is wrong, which it reports. */
static inline int read_pairs(struct recording *r, int16_t *values, size_t most, size_t *length) {
    int16_t pair[2];
    int found;
    *length = 0;
    while ((found = read_pair(r, pair)) == 1) {
        if (*length == 2 * most) {
            fprintf(stderr, "%s:%ld: more samples than this program has room for, %zu\n", r->name, r->line, most);
            return 0;
        }
        values[(*length)++] = pair[0];
        values[(*length)++] = pair[1];
    }
    return found == 0;
}

/* Runs a program on the recording that its only word names, and answers the exit status: 1 too where not all of its output could be written. */
static int with_recording(int words, char **word, const char *usage, int (*run)(struct recording *)) {
    struct recording r = {NULL, NULL, 0};
    int status;
    if (words != 2) {
        fprintf(stderr, "%s\n", usage);
        return 1;
    }
    r.name = word[1];
    r.file = fopen(r.name, "r");
    if (!r.file) {
        fprintf(stderr, "%s: %s\n", r.name, strerror(errno));
        return 1;
    }
    status = run(&r);
    fclose(r.file);
    /* A write that failed earlier has left its mark on the stream, but no longer its reason. */
    if (fflush(stdout) != 0 || ferror(stdout)) {
        fprintf(stderr, "standard output: not all could be written\n");
        return 1;
    }
    return status;
}

#endif
