/*
 * Calls every function of the archive through include/huntelm.h, from C or from C++, and compares each answer with what the header says: by the inline calls,
 * and by the functions underneath where lengths are wrong. Prints 'N answers, M wrong', and before it each that is wrong; the exit status is 1 where one is.
 */
#include "huntelm.h"

#include <math.h>
#include <stdio.h>
#include <string.h>

#define TAPS 4
#define BANK (HUNTELM_ROWS * TAPS)

/* The sheet and the state as the functions underneath are lent them. */
#define SHEET sheet.places, HUNTELM_SHEET_PLACES, sheet.h, sheet.h_len, sheet.g, sheet.g_len, sheet.k, sheet.k_len
#define STATE state.places, HUNTELM_STATE_PLACES, state.line, HUNTELM_LINE_NUMBERS, state.errors, HUNTELM_ERROR_NUMBERS

static int answers, wrong;

static void expect(const char *what, int64_t got, int64_t want) {
    answers++;
    if (got == want) return;
    wrong++;
    printf("wrong: %s: %ld, not %ld\n", what, (long)got, (long)want);
}

static int32_t h[BANK], g[BANK];
static struct huntelm_sheet sheet;
static struct huntelm_state state, kept;

/* Buffers for symbols and answers, and for what a block says, every place of which holds a mark; and how many places do not. */
static int64_t out[3 * HUNTELM_SYMBOL_PLACES + 1], answer[HUNTELM_BLOCK_PLACES + 2];
#define OUT (sizeof out / sizeof *out)
#define ANSWER (sizeof answer / sizeof *answer)
#define MARK (-77)

static void mark(void) {
    size_t n;
    for (n = 0; n < OUT; n++) out[n] = MARK;
    for (n = 0; n < ANSWER; n++) answer[n] = MARK;
}

static int64_t written_from(const int64_t *places, size_t first, size_t end) {
    size_t n;
    int64_t count = 0;
    for (n = first; n < end; n++) count += places[n] != MARK;
    return count;
}

static int64_t written(void) {
    return written_from(out, 0, OUT) + written_from(answer, 0, ANSWER);
}

/* The sheet of the whole case (docs/RULES.md, 9), with h for k too. */
static void fill(void) {
    static const int64_t fields[HUNTELM_SHEET_PLACES] = {TAPS, 0, 33554432, 32883343, 34225520, 8, 0, 0, 0, 0, 335544, 262144, 16384, 4, 8, 6, 12, 24};
    size_t row;
    memcpy(sheet.places, fields, sizeof fields);
    sheet.h = sheet.k = h;
    sheet.g = g;
    sheet.h_len = sheet.g_len = sheet.k_len = BANK;
    memset(h, 0, sizeof h);
    memset(g, 0, sizeof g);
    for (row = 0; row < HUNTELM_ROWS; row++) h[row * TAPS] = 16384;
    mark();
}

static void start(void) {
    expect("starting", huntelm_state_start(&state, &sheet), HUNTELM_ACCEPTED);
}

/* A block with so many places for symbols and so many for what it says. */
static uint32_t block(const int16_t *values, size_t values_len, size_t out_len, size_t answer_len) {
    if (answer_len == HUNTELM_BLOCK_PLACES) return huntelm_state_block(&state, &sheet, values, values_len, out, out_len, answer);
    return huntelm_block(SHEET, STATE, values, values_len, out, out_len, answer, answer_len);
}

/* A block of a signal that nothing clips: how many symbols it writes and how many pairs it takes. Places behind the symbols, and behind the numbers, stay. */
static void expect_block(const char *what, const int16_t *values, size_t values_len, size_t out_len, int64_t count, int64_t taken) {
    mark();
    expect(what, block(values, values_len, out_len, HUNTELM_BLOCK_PLACES), HUNTELM_ACCEPTED);
    expect(what, answer[HUNTELM_BLOCK_COUNT], count);
    expect(what, answer[HUNTELM_BLOCK_TAKEN], taken);
    expect("no clips", answer[HUNTELM_BLOCK_CLIPS], 0);
    expect("no place behind the symbols", written_from(out, (size_t)count * HUNTELM_SYMBOL_PLACES, OUT), 0);
    expect("no place behind the three numbers", written_from(answer, 3, ANSWER), 0);
}

/* A block that is refused, and leaves state, symbols' places and answer as they were. */
static void expect_refused(const char *what, const int16_t *values, size_t values_len, size_t out_len, size_t answer_len, int64_t want) {
    mark();
    kept = state;
    expect(what, block(values, values_len, out_len, answer_len), want);
    expect("it leaves the state", memcmp(&state, &kept, sizeof kept), 0);
    expect("and all other places", written(), 0);
}

/* A sheet with one place changed. */
static void expect_sheet(const char *what, int place, int64_t number, int64_t want) {
    fill();
    sheet.places[place] = number;
    expect(what, huntelm_sheet_judge(&sheet), want);
    expect(what, huntelm_state_start(&state, &sheet), want);
    fill();
}

static void judging(void) {
    fill();
    expect("the whole case is accepted", huntelm_sheet_judge(&sheet), HUNTELM_ACCEPTED);
    expect_sheet("taps", HUNTELM_SHEET_TAPS, 5, HUNTELM_REFUSED_TAPS);
    expect_sheet("other taps", HUNTELM_SHEET_TAPS, 6, HUNTELM_REFUSED_BANK_LENGTH);
    expect_sheet("shortest period", HUNTELM_SHEET_PERIOD_MIN, 16777216, HUNTELM_REFUSED_PERIOD_BOUNDS);
    expect_sheet("nominal period", HUNTELM_SHEET_PERIOD_NOMINAL, 34225521, HUNTELM_REFUSED_PERIOD_BOUNDS);
    expect_sheet("longest period", HUNTELM_SHEET_PERIOD_MAX, 67108864, HUNTELM_REFUSED_PERIOD_BOUNDS);
    expect_sheet("bits", HUNTELM_SHEET_BITS, 9, HUNTELM_REFUSED_RANGE);
    expect_sheet("q_shift", HUNTELM_SHEET_Q_SHIFT, 16, HUNTELM_REFUSED_RANGE);
    expect_sheet("block_log2", HUNTELM_SHEET_BLOCK_LOG2, 7, HUNTELM_REFUSED_RANGE);
    expect_sheet("agc_init", HUNTELM_SHEET_AGC_INIT, 16777216, HUNTELM_REFUSED_RANGE);
    expect_sheet("integrator_max", HUNTELM_SHEET_INTEGRATOR_MAX, 4194304, HUNTELM_REFUSED_RANGE);
    expect_sheet("ted_shift", HUNTELM_SHEET_TED_SHIFT, 31, HUNTELM_REFUSED_RANGE);
    expect_sheet("kp_shift", HUNTELM_SHEET_KP_SHIFT, 41, HUNTELM_REFUSED_RANGE);
    expect_sheet("ki_shift", HUNTELM_SHEET_KI_SHIFT, 41, HUNTELM_REFUSED_RANGE);
    expect_sheet("agc_shift", HUNTELM_SHEET_AGC_SHIFT, 64, HUNTELM_REFUSED_AGC_SHIFT);
    expect_sheet("kp outside its type", HUNTELM_SHEET_KP, 32768, HUNTELM_REFUSED_PLACE_TYPE);
    expect_sheet("ki outside its type", HUNTELM_SHEET_KI, -32769, HUNTELM_REFUSED_PLACE_TYPE);
    expect_sheet("nco_step outside its type", HUNTELM_SHEET_NCO_STEP, 2147483648, HUNTELM_REFUSED_PLACE_TYPE);
    expect_sheet("agc_target outside its type", HUNTELM_SHEET_AGC_TARGET, -1, HUNTELM_REFUSED_PLACE_TYPE);
    expect_sheet("the shortest delay", HUNTELM_SHEET_DELAY, 1, HUNTELM_ACCEPTED);
    expect_sheet("the longest delay", HUNTELM_SHEET_DELAY, 24, HUNTELM_ACCEPTED);
    expect_sheet("a delay above its type", HUNTELM_SHEET_DELAY, 256, HUNTELM_REFUSED_PLACE_TYPE);
    expect_sheet("a delay below its type", HUNTELM_SHEET_DELAY, -1, HUNTELM_REFUSED_PLACE_TYPE);
    h[9] = 131072;
    expect("a coefficient", huntelm_sheet_judge(&sheet), HUNTELM_REFUSED_COEFFICIENT);
    h[9] = 131071;
    expect("a row's sum", huntelm_sheet_judge(&sheet), HUNTELM_REFUSED_COEFFICIENT_SUM);
    fill();
    expect("17 places", huntelm_judge(sheet.places, 17, h, BANK, g, BANK, h, BANK), HUNTELM_REFUSED_PLACE_COUNT);
    expect("19 places", huntelm_judge(out, 19, h, BANK, g, BANK, h, BANK), HUNTELM_REFUSED_PLACE_COUNT);
    expect("18 places", huntelm_judge(SHEET), HUNTELM_ACCEPTED);
    sheet.h_len--;
    expect("a short h", huntelm_sheet_judge(&sheet), HUNTELM_REFUSED_BANK_LENGTH);
    fill();
    sheet.g_len--;
    expect("a short g", huntelm_sheet_judge(&sheet), HUNTELM_REFUSED_BANK_LENGTH);
    fill();
    sheet.k_len--;
    expect("a short k", huntelm_sheet_judge(&sheet), HUNTELM_REFUSED_BANK_LENGTH);
}

/* Of ten taps the first and the last are not the detector's. */
static void detector(void) {
    static int32_t ten[HUNTELM_ROWS * 10];
    fill();
    sheet.places[HUNTELM_SHEET_TAPS] = 10;
    sheet.h = sheet.g = sheet.k = ten;
    sheet.h_len = sheet.g_len = sheet.k_len = HUNTELM_ROWS * 10;
    ten[0] = 1;
    expect("a coefficient outside the detector", huntelm_sheet_judge(&sheet), HUNTELM_REFUSED_DETECTOR_TAPS);
    ten[0] = 0;
    ten[1] = 1;
    expect("a coefficient of the detector", huntelm_sheet_judge(&sheet), HUNTELM_ACCEPTED);
}

/* Every inline call with the sheet, of ten taps, which its design would make too. */
static void expect_calls(const char *what, int64_t want) {
    static const double rates[HUNTELM_RATE_PLACES] = {2, 1, 0, 0, 0.25};
    static const int64_t fields[HUNTELM_FIELD_PLACES] = {10, 8, 12, 0, 0, 0, 0, 6};
    static const int16_t values[2] = {1000, -1000};
    struct huntelm_sheet made = sheet;
    uint64_t ticket;
    expect(what, huntelm_sheet_judge(&sheet), want);
    expect(what, huntelm_sheet_design(&made, rates, fields), want);
    expect(what, huntelm_sheet_offset(&sheet, 33554432, out), want);
    expect(what, huntelm_state_start(&state, &sheet), want);
    expect(what, huntelm_state_block(&state, &sheet, values, 2, out, OUT, answer), want);
    expect(what, huntelm_state_read(&state, &sheet, out), want);
    expect(what, huntelm_state_ask(&state, &sheet, &ticket), want);
    expect(what, huntelm_state_commit(&state, &sheet, 1), want);
    expect("the sheet that was made", memcmp(made.places, sheet.places, sizeof sheet.places), 0);
}

/* Every call passes on each bank with its length, and none for another: k alone may have a coefficient outside the detector's places. */
static void banks_in_their_order(void) {
    static int32_t banks[3][HUNTELM_ROWS * 10];
    size_t *lengths[3] = {&sheet.h_len, &sheet.g_len, &sheet.k_len}, n;
    fill();
    sheet.places[HUNTELM_SHEET_TAPS] = 10;
    sheet.h = banks[0];
    sheet.g = banks[1];
    sheet.k = banks[2];
    sheet.h_len = sheet.g_len = sheet.k_len = HUNTELM_ROWS * 10;
    banks[2][0] = 1;
    expect_calls("accepted", HUNTELM_ACCEPTED);
    for (n = 0; n < 3; n++) {
        *lengths[n] -= 1;
        expect_calls("a short bank", HUNTELM_REFUSED_BANK_LENGTH);
        *lengths[n] += 1;
        banks[n][5] = 131072;
        expect_calls("a coefficient", HUNTELM_REFUSED_COEFFICIENT);
        banks[n][5] = 0;
    }
}

static void path(void) {
    static const int16_t values[6] = {1000, -1000, 0, 0, -1000, 1000};
    static const int64_t symbols[40] = {0, 0, 1000, -1000, 0, 0, 1000, -1000, 1024, 33554432, 1000, -1000, 0, 0, 1000, -1000, 16, -16, 0, 15896,
                                        2, 0, -1000, 1000, 0, 0, -1000, 1000, 1024, 33554432, -1000, 1000, 0, 0, -1000, 1000, -16, 16, 0, 15896};
    fill();
    start();
    expect("nominal period at the start", state.places[HUNTELM_STATE_PERIOD], 33554432);
    expect("gain accumulator at the start", state.places[HUNTELM_STATE_GAIN_ACC], 262144);
    expect_refused("an odd number of values", values, 5, OUT, ANSWER, HUNTELM_REFUSED_ODD_INPUT);
    expect_refused("19 places for three samples", values, 6, 19, ANSWER, HUNTELM_REFUSED_SHORT_OUTPUT);
    expect("a sheet of 17 places", huntelm_block(sheet.places, 17, h, BANK, g, BANK, h, BANK, STATE, values, 6, out, OUT, answer, ANSWER),
           HUNTELM_REFUSED_PLACE_COUNT);
    expect("it leaves the state", memcmp(&state, &kept, sizeof kept), 0);
    expect("and all other places", written(), 0);
    state.places[HUNTELM_STATE_T] = -1;
    expect_refused("a time below 0", values, 6, OUT, ANSWER, HUNTELM_REFUSED_STATE);
    expect("its reading", huntelm_state_read(&state, &sheet, out), HUNTELM_REFUSED_STATE);
    state.places[HUNTELM_STATE_T] = 0;
    state.places[HUNTELM_STATE_SAMPLES] = INT64_MAX - 2;
    expect_refused("a sample too many", values, 6, OUT, ANSWER, HUNTELM_REFUSED_TOO_MANY_SAMPLES);
    state.places[HUNTELM_STATE_SAMPLES] = 0;
    expect_block("a block", values, 6, OUT, 2, 3);
    expect("its symbols", memcmp(out, symbols, sizeof symbols), 0);
    expect("samples", state.places[HUNTELM_STATE_SAMPLES], 3);
    expect("time", state.places[HUNTELM_STATE_T], 16777216);
    expect("where the second fell", out[HUNTELM_SYMBOL_PLACES + HUNTELM_SYMBOL_SAMPLE], 2);
    expect("its gain error", out[HUNTELM_SYMBOL_PLACES + HUNTELM_SYMBOL_ERR], state.errors[3]);
    expect("the newest pair", state.line[2 * state.places[HUNTELM_STATE_HEAD]], -1000);
    mark();
    expect("two places for a reading", huntelm_read(SHEET, STATE, out, 2), HUNTELM_REFUSED_SHORT_OUTPUT);
    expect("they stay as they were", written(), 0);
    expect("reading", huntelm_state_read(&state, &sheet, out), HUNTELM_ACCEPTED);
    expect("period", out[HUNTELM_READ_PERIOD], 33554432);
    expect("gain", out[HUNTELM_READ_GAIN], 1024);
    expect("symbols", out[HUNTELM_READ_SYMBOLS], 2);
    expect("three places", written(), HUNTELM_READ_PLACES);
}

/* So many samples, the same each time. */
#define PAIRS 25

static void noise(int16_t *values) {
    uint32_t x = 1;
    size_t n;
    for (n = 0; n < 2 * PAIRS; n++) {
        x = 1664525 * x + 1013904223;
        values[n] = (int16_t)((int32_t)(x >> 20) - 2048);
    }
}

static int64_t least(size_t a, size_t b) {
    return (int64_t)(a < b ? a : b);
}

/*
 * Offers the values, and then what is left of them, until nothing is, with so many places for symbols. All symbols go to list and all clips to clips; answers
 * how many symbols they are.
 */
static int64_t run(const int16_t *values, size_t values_len, size_t out_len, int64_t *list, int64_t *clips) {
    int64_t symbols = 0;
    *clips = 0;
    while (values_len > 0) {
        int64_t taken = least(values_len / 2, out_len / HUNTELM_SYMBOL_PLACES);
        size_t places;
        mark();
        expect("a part", block(values, values_len, out_len, HUNTELM_BLOCK_PLACES), HUNTELM_ACCEPTED);
        expect("its pairs", answer[HUNTELM_BLOCK_TAKEN], taken);
        if (answer[HUNTELM_BLOCK_TAKEN] != taken) return -1;
        places = HUNTELM_SYMBOL_PLACES * (size_t)answer[HUNTELM_BLOCK_COUNT];
        expect("no place behind its symbols", written_from(out, places, OUT), 0);
        memcpy(list + HUNTELM_SYMBOL_PLACES * symbols, out, places * sizeof *list);
        symbols += answer[HUNTELM_BLOCK_COUNT];
        *clips += answer[HUNTELM_BLOCK_CLIPS];
        values += 2 * answer[HUNTELM_BLOCK_TAKEN];
        values_len -= 2 * (size_t)answer[HUNTELM_BLOCK_TAKEN];
    }
    return symbols;
}

/* However few the places, what is left offered again makes the run of one block with enough of them. The signal is loud, so that there are clips. */
static void short_buffers(void) {
    static int16_t values[2 * PAIRS];
    static int64_t whole[PAIRS * HUNTELM_SYMBOL_PLACES], parts[PAIRS * HUNTELM_SYMBOL_PLACES];
    static struct huntelm_state end;
    int64_t clips;
    size_t n, places;
    noise(values);
    for (n = 0; n < 2 * PAIRS; n++) values[n] = (int16_t)(4 * values[n]);
    fill();
    for (n = 0; n < BANK; n += TAPS) h[n] = 131071;
    sheet.places[HUNTELM_SHEET_DELAY] = 3;
    sheet.places[HUNTELM_SHEET_AGC_INIT] = 524288;
    expect("starting", huntelm_state_start(&end, &sheet), HUNTELM_ACCEPTED);
    expect("all at once", huntelm_state_block(&end, &sheet, values, 2 * PAIRS, whole, PAIRS * HUNTELM_SYMBOL_PLACES, answer), HUNTELM_ACCEPTED);
    expect("its symbols", answer[HUNTELM_BLOCK_COUNT], 13);
    expect("its pairs", answer[HUNTELM_BLOCK_TAKEN], PAIRS);
    expect("its clips, worked out from the noise by docs/RULES.md", answer[HUNTELM_BLOCK_CLIPS], 68);
    for (places = HUNTELM_SYMBOL_PLACES; places <= 45; places++) {
        start();
        expect("symbols of all parts", run(values, 2 * PAIRS, places, parts, &clips), 13);
        expect("they are those of the whole", memcmp(parts, whole, 13 * HUNTELM_SYMBOL_PLACES * sizeof *parts), 0);
        expect("and so are the clips", clips, 68);
        expect("and so is the end", memcmp(&state, &end, sizeof end), 0);
    }
}

/* A block of so many pairs with so many places: all is as in a block of the pairs that it takes, whatever the others are. */
static void expect_first(int16_t *values, size_t pairs, size_t places) {
    static int64_t symbols[OUT];
    static struct huntelm_state end;
    int64_t taken = least(pairs, places / HUNTELM_SYMBOL_PLACES);
    size_t n;
    noise(values);
    start();
    expect_block("the pairs that are taken", values, 2 * (size_t)taken, OUT, (taken + 1) / 2, taken);
    memcpy(symbols, out, sizeof symbols);
    end = state;
    for (n = 2 * (size_t)taken; n < 2 * PAIRS; n++) values[n] = 32767;
    start();
    expect_block("with others behind them", values, 2 * pairs, places, (taken + 1) / 2, taken);
    expect("the same symbols", memcmp(out, symbols, sizeof symbols), 0);
    expect("the same state", memcmp(&state, &end, sizeof end), 0);
}

static void first_pairs(void) {
    static int16_t values[2 * PAIRS];
    size_t pairs, places;
    fill();
    for (pairs = 0; pairs <= 4; pairs++) {
        for (places = 0; places <= OUT; places++) {
            if (pairs == 0 || places >= HUNTELM_SYMBOL_PLACES) expect_first(values, pairs, places);
            else expect_refused("no room for a symbol", values, 2 * pairs, places, ANSWER, HUNTELM_REFUSED_SHORT_OUTPUT);
            expect_refused("one value more", values, 2 * pairs + 1, places, ANSWER, HUNTELM_REFUSED_ODD_INPUT);
        }
    }
}

/* What a block says needs four places, of which the last stays as it was. */
static void places_of_the_answer(void) {
    static const int16_t values[6] = {1000, -1000, 0, 0, -1000, 1000};
    size_t places;
    fill();
    start();
    for (places = 0; places < HUNTELM_BLOCK_PLACES; places++) {
        expect_refused("a short answer", values, 6, OUT, places, HUNTELM_REFUSED_SHORT_OUTPUT);
        expect_refused("a short answer and a short output", values, 6, 20, places, HUNTELM_REFUSED_SHORT_OUTPUT);
        expect_refused("a short answer of nothing", values, 0, 0, places, HUNTELM_REFUSED_SHORT_OUTPUT);
    }
    for (places = HUNTELM_BLOCK_PLACES; places <= ANSWER; places++) {
        start();
        mark();
        expect("an answer that is long enough", block(values, 6, 45, places), HUNTELM_ACCEPTED);
        expect("symbols", answer[HUNTELM_BLOCK_COUNT], 1);
        expect("pairs", answer[HUNTELM_BLOCK_TAKEN], 2);
        expect("clips", answer[HUNTELM_BLOCK_CLIPS], 0);
        expect("three places of the answer", written_from(answer, 0, ANSWER), 3);
    }
}

/*
 * The clips of the symbol on one sample, where the rows of h, g and k begin with these coefficients and have 0 behind them, and the gain is so many 1024ths.
 * The mixer leaves a component of 8192 as it is, and the coefficient 65536 makes 32768 of it.
 */
static int64_t clips_of(int32_t of_h, int32_t of_g, int32_t of_k, int64_t gain, int i, int q) {
    static int32_t k[BANK];
    int16_t values[2];
    size_t n;
    fill();
    for (n = 0; n < BANK; n += TAPS) {
        h[n] = of_h;
        g[n] = of_g;
        k[n] = of_k;
    }
    sheet.places[HUNTELM_SHEET_AGC_INIT] = 256 * gain;
    values[0] = (int16_t)i;
    values[1] = (int16_t)q;
    sheet.k = k;
    start();
    expect("a block", huntelm_state_block(&state, &sheet, values, 2, out, OUT, answer), HUNTELM_ACCEPTED);
    expect("its symbol", answer[HUNTELM_BLOCK_COUNT], 1);
    expect("its pair", answer[HUNTELM_BLOCK_TAKEN], 1);
    expect("three places of the answer", written_from(answer, 0, ANSWER), 3);
    return answer[HUNTELM_BLOCK_CLIPS];
}

/* 32767 and -32768 are no clips themselves. What counts is the rounded number, and a half is rounded upward. */
static void ends_of_16_bits(void) {
    expect("a filter gives 32767", clips_of(65534, 0, 0, 1024, 8192, 0), 0);
    expect("it is 32767", out[HUNTELM_SYMBOL_Y_I], 32767);
    expect("32767.5, which is 32768", clips_of(65535, 0, 0, 1024, 8192, 0), 1);
    expect("it is 32767 too", out[HUNTELM_SYMBOL_Y_I], 32767);
    expect("a filter gives -32768", clips_of(65536, 0, 0, 1024, -8192, 0), 0);
    expect("it is -32768", out[HUNTELM_SYMBOL_Y_I], -32768);
    expect("-32768.5, which is -32768", clips_of(65537, 0, 0, 1024, -8192, 0), 0);
    expect("-32769", clips_of(65538, 0, 0, 1024, -8192, 0), 1);
    expect("it is -32768 too", out[HUNTELM_SYMBOL_Y_I], -32768);
    expect("16384 with a gain just below 2", clips_of(32768, 0, 0, 2047, 8192, 0), 0);
    expect("16384 with a gain of 2", clips_of(32768, 0, 0, 2048, 8192, 0), 1);
    expect("-16384 with a gain of 2", clips_of(32768, 0, 0, 2048, -8192, 0), 0);
    expect("-16384 with a gain just above 2", clips_of(32768, 0, 0, 2049, -8192, 0), 1);
    expect("21845 with a gain of 1.5, which is 32768", clips_of(43690, 0, 0, 1536, 8192, 0), 1);
    expect("-21845 with a gain of 1.5, which is -32767", clips_of(43690, 0, 0, 1536, -8192, 0), 0);
}

/* The clips where one bank alone has coefficients other than 0. */
static int64_t clips_of_bank(int bank, int32_t coefficient, int64_t gain, int i, int q) {
    return clips_of(bank == 0 ? coefficient : 0, bank == 1 ? coefficient : 0, bank == 2 ? coefficient : 0, gain, i, q);
}

/* A bank gives a component one number before the gain and one behind it. Here the other component is 0. */
static void expect_two_numbers(int bank, int i, int q) {
    expect("none", clips_of_bank(bank, 32768, 1024, i, q), 0);
    expect("before the gain", clips_of_bank(bank, 131071, 1024, i, q), 1);
    expect("behind the gain", clips_of_bank(bank, 32768, 3072, i, q), 1);
    expect("both", clips_of_bank(bank, 131071, 3072, i, q), 2);
    /* Half of 65535.5 would be too large, but the gain is for the number that was clipped, 32767. */
    expect("before a gain of a half", clips_of_bank(bank, 131071, 512, i, q), 1);
}

/* Three banks, I and Q, before the gain and behind it: twelve numbers may be clipped. */
static void twelve_numbers(void) {
    int bank;
    for (bank = 0; bank < 3; bank++) {
        expect_two_numbers(bank, 8192, 0);
        expect_two_numbers(bank, -8192, 0);
        expect_two_numbers(bank, 0, 8192);
        expect_two_numbers(bank, 0, -8192);
    }
    expect("all filters", clips_of(131071, 131071, 131071, 1024, 8192, -8192), 6);
    expect("all that the gain gives", clips_of(32768, 32768, 32768, 3072, -8192, 8192), 6);
    expect("all twelve", clips_of(131071, 131071, 131071, 3072, 8192, -8192), 12);
    expect("negative coefficients", clips_of(-131071, -131071, -131071, 3072, 8192, -8192), 12);
    expect("silence", clips_of(131071, 131071, 131071, 65535, 0, 0), 0);
}

/* The clamps of the output, of the errors and of the loop count nothing. */
static void other_clamps(void) {
    static const int16_t values[6] = {8192, 8192, 0, 0, 8192, 8192};
    size_t n;
    fill();
    for (n = 0; n < BANK; n += TAPS) g[n] = 16384;
    sheet.places[HUNTELM_SHEET_TED_SHIFT] = 0;
    sheet.places[HUNTELM_SHEET_KP] = sheet.places[HUNTELM_SHEET_KI] = 32767;
    sheet.places[HUNTELM_SHEET_INTEGRATOR_MAX] = 1;
    /* So large that the gain error is below 0 in 32 bits, and takes the whole gain away. */
    sheet.places[HUNTELM_SHEET_AGC_TARGET] = 3221225472;
    sheet.places[HUNTELM_SHEET_AGC_SHIFT] = 0;
    sheet.places[HUNTELM_SHEET_BITS] = 2;
    sheet.places[HUNTELM_SHEET_Q_SHIFT] = 0;
    sheet.places[HUNTELM_SHEET_DELAY] = 1;
    start();
    expect_block("a block", values, 6, OUT, 2, 3);
    expect("the output is clamped", out[HUNTELM_SYMBOL_Q_I], 1);
    expect("the timing error is", out[HUNTELM_SYMBOL_E], 8388607);
    expect("the integrator is", state.places[HUNTELM_STATE_V], 65536);
    expect("the period is", state.places[HUNTELM_STATE_PERIOD], 34225520);
    expect("the gain accumulator is", state.places[HUNTELM_STATE_GAIN_ACC], 0);
}

/* Symbols fall on the first and the third sample here, and are made of that sample alone. */
static void clips_of_symbols(void) {
    static const int16_t between[6] = {0, 0, 32767, -32768, 0, 0}, loud[6] = {32767, -32768, 0, 0, 32767, 0};
    size_t n, room;
    fill();
    for (n = 0; n < BANK; n += TAPS) h[n] = 131071;
    start();
    expect_block("a sample on which no symbol falls", between, 6, OUT, 2, 3);
    start();
    for (room = 0; room < HUNTELM_BLOCK_PLACES; room++)
        expect_refused("a short answer", loud, 6, OUT, room, HUNTELM_REFUSED_SHORT_OUTPUT);
    expect_refused("an odd number of values", loud, 5, OUT, ANSWER, HUNTELM_REFUSED_ODD_INPUT);
    expect_refused("no room for a symbol", loud, 6, 19, ANSWER, HUNTELM_REFUSED_SHORT_OUTPUT);
    mark();
    expect("two symbols", block(loud, 6, OUT, ANSWER), HUNTELM_ACCEPTED);
    expect("y and yk of both components, then of one", answer[HUNTELM_BLOCK_CLIPS], 6);
    expect("a call counts for itself", block(between, 4, OUT, ANSWER), HUNTELM_ACCEPTED);
    expect("y and yk of both components", answer[HUNTELM_BLOCK_CLIPS], 4);
    expect_block("nothing more", loud, 0, 0, 0, 0);
}

/* 10, then 11 for no room for a symbol, then 12 of the pairs that would be taken, then 11 for a short answer. */
static void order(void) {
    static const int16_t values[6] = {1000, -1000, 0, 0, -1000, 1000};
    fill();
    start();
    state.places[HUNTELM_STATE_SAMPLES] = INT64_MAX;
    expect_refused("10 before 11 and 12", values, 3, 19, 0, HUNTELM_REFUSED_ODD_INPUT);
    expect_refused("11 before 12", values, 2, 19, ANSWER, HUNTELM_REFUSED_SHORT_OUTPUT);
    expect_refused("12 before a short answer", values, 2, 20, 3, HUNTELM_REFUSED_TOO_MANY_SAMPLES);
    expect_refused("12 and no answer", values, 6, OUT, 0, HUNTELM_REFUSED_TOO_MANY_SAMPLES);
    expect_block("nothing more", values, 0, 0, 0, 0);
    state.places[HUNTELM_STATE_SAMPLES] = INT64_MAX - 1;
    expect_refused("two pairs would be taken", values, 6, 40, ANSWER, HUNTELM_REFUSED_TOO_MANY_SAMPLES);
    expect_refused("one would, and the answer is short", values, 6, 39, 3, HUNTELM_REFUSED_SHORT_OUTPUT);
    expect_block("one would", values, 6, 39, 1, 1);
    expect("no sample more can be counted", state.places[HUNTELM_STATE_SAMPLES], INT64_MAX);
}

/* Every call on the state, so many of its places, and an output of this length; with a period that no loop sets and values that are no whole samples. */
static void expect_all(const char *what, size_t places, size_t out_len, int64_t want) {
    static const int16_t values[3] = {1000, -1000, 0};
#define SHORT state.places, places, state.line, HUNTELM_LINE_NUMBERS, state.errors, HUNTELM_ERROR_NUMBERS
    kept = state;
    expect(what, huntelm_sheet_judge(&sheet), want);
    expect(what, huntelm_start(SHEET, SHORT), want);
    expect(what, huntelm_block(SHEET, SHORT, values, 3, out, out_len, answer, 0), want);
    expect(what, huntelm_block(SHEET, SHORT, values, 3, out, out_len, answer, ANSWER), want);
    expect(what, huntelm_read(SHEET, SHORT, out, out_len), want);
    expect(what, huntelm_ask(SHEET, SHORT, out, out_len), want);
    expect(what, huntelm_commit(99, SHEET, SHORT), want);
    expect(what, huntelm_offset(SHEET, 0, out, out_len), want);
    expect("the state stays as it was", memcmp(&state, &kept, sizeof kept), 0);
    expect("and so does the output", written(), 0);
#undef SHORT
}

/* A refused delay comes behind 8, and before everything that is not of the sheet. */
static void refused_delays(void) {
    static const int64_t delays[3] = {0, 25, 255};
    size_t n;
    for (n = 0; n < 3; n++) {
        expect_sheet("a delay that is none", HUNTELM_SHEET_DELAY, delays[n], HUNTELM_REFUSED_DELAY);
        start();
        sheet.places[HUNTELM_SHEET_DELAY] = delays[n];
        expect_all("a refused delay on a good state", HUNTELM_STATE_PLACES, OUT, HUNTELM_REFUSED_DELAY);
        expect_all("a refused delay with too few places", HUNTELM_STATE_PLACES - 1, 0, HUNTELM_REFUSED_DELAY);
        state.places[HUNTELM_STATE_T] = -1;
        expect_all("a refused delay on a state that is refused", HUNTELM_STATE_PLACES, OUT, HUNTELM_REFUSED_DELAY);
        sheet.places[HUNTELM_SHEET_AGC_SHIFT] = 64;
        expect_all("a refused delay with a refused agc_shift", HUNTELM_STATE_PLACES, OUT, HUNTELM_REFUSED_AGC_SHIFT);
    }
}

/* At a delay of 1 the second symbol has the gain that the first one's error gives: 2^18 and 15896 / 16 more in the accumulator. */
static void shortest_delay(void) {
    static const int16_t values[6] = {1000, -1000, 0, 0, -1000, 1000};
    static const int64_t second[20] = {2, 0, -1000, 1000, 0, 0, -1000, 1000, 1027, 33554432, -1003, 1003, 0, 0, -1003, 1003, -16, 16, 0, 15893};
    fill();
    sheet.places[HUNTELM_SHEET_DELAY] = 1;
    start();
    expect_block("a block", values, 6, OUT, 2, 3);
    expect("the gain of the first symbol", out[HUNTELM_SYMBOL_GAIN], 1024);
    expect("the second symbol", memcmp(out + HUNTELM_SYMBOL_PLACES, second, sizeof second), 0);
    expect("the gain accumulator", state.places[HUNTELM_STATE_GAIN_ACC], 263137);
    expect("one pair waits", state.places[HUNTELM_STATE_WAITING], 1);
    expect("behind the one that was taken", state.places[HUNTELM_STATE_OLDEST], 1);
    expect("which stays where it was", state.errors[1], 15896);
    expect("the error that waits", state.errors[3], 15893);
    state.places[HUNTELM_STATE_OLDEST] = 23;
    expect_block("a sample between symbols", values + 2, 2, OUT, 0, 1);
    expect_block("a symbol", values, 2, OUT, 1, 1);
    expect("behind the last place comes the first", state.places[HUNTELM_STATE_OLDEST], 0);
    expect("where the new error is", state.errors[1], out[HUNTELM_SYMBOL_ERR]);
    state.places[HUNTELM_STATE_OLDEST] = 24;
    expect("a position behind the ring", huntelm_state_read(&state, &sheet, out), HUNTELM_REFUSED_STATE);
}

/* As many errors wait as there are symbols, and no more than the delay. Under another delay a block is refused, also where as many would wait. */
static void another_delay(void) {
    static const int16_t values[2] = {1000, -1000};
    int64_t delay, samples, symbols;
    for (delay = 23; delay <= 24; delay++) {
        fill();
        sheet.places[HUNTELM_SHEET_DELAY] = delay;
        start();
        for (samples = 1; samples <= 52; samples++) {
            symbols = (samples + 1) / 2;
            expect_block("a sample", values, 2, OUT, samples % 2, 1);
            expect("errors that wait", state.places[HUNTELM_STATE_WAITING], symbols < delay ? symbols : delay);
            sheet.places[HUNTELM_SHEET_DELAY] = 47 - delay;
            expect_refused("under the other delay", values, 2, OUT, HUNTELM_BLOCK_PLACES, HUNTELM_REFUSED_STATE);
            sheet.places[HUNTELM_SHEET_DELAY] = delay;
        }
    }
}

/* Gives the sheet six taps in place of four, with banks for them. */
static void use_six_taps(void) {
    static const int32_t six[HUNTELM_ROWS * 6] = {0};
    sheet.places[HUNTELM_SHEET_TAPS] = 6;
    sheet.h = sheet.g = sheet.k = six;
    sheet.h_len = sheet.g_len = sheet.k_len = HUNTELM_ROWS * 6;
}

/* A sheet that nobody committed: block and reading are refused. */
static void expect_other_sheet(const char *what) {
    static const int16_t values[2] = {1000, -1000};
    expect(what, huntelm_sheet_judge(&sheet), HUNTELM_ACCEPTED);
    expect_refused(what, values, 2, OUT, HUNTELM_BLOCK_PLACES, HUNTELM_REFUSED_STATE);
    expect(what, huntelm_state_read(&state, &sheet, out), HUNTELM_REFUSED_STATE);
    expect("nothing is read", written(), 0);
}

/* A state goes on under the sheet that it holds: one other field is enough to refuse a sheet, whatever it does to a symbol. Banks are not held. */
static void held_sheet(void) {
    static const int64_t others[HUNTELM_SHEET_PLACES] = {6, 1, 33554433, 32883342, 34225521, 9, 1, 1, 1, 1, 335545, 262145, 16385, 5, 7, 7, 11, 23};
    static const int16_t values[4] = {1000, -1000, 0, 0};
    static int32_t k[BANK];
    size_t place;
    fill();
    start();
    expect("the held sheet", memcmp(state.places + HUNTELM_STATE_SHEET, sheet.places, sizeof sheet.places), 0);
    expect_block("a block", values, 4, OUT, 1, 2);
    expect("it still holds it", memcmp(state.places + HUNTELM_STATE_SHEET, sheet.places, sizeof sheet.places), 0);
    for (place = 1; place < HUNTELM_SHEET_PLACES; place++) {
        sheet.places[place] = others[place];
        expect_other_sheet("another field");
        fill();
    }
    use_six_taps();
    expect_other_sheet("other taps");
    fill();
    sheet.k = k;
    expect_block("other banks are not noticed", values, 2, OUT, 1, 1);
    expect("the symbol is theirs", out[HUNTELM_SYMBOL_YK_I], 0);
    expect("and the state's fields", state.places[HUNTELM_STATE_SHEET + HUNTELM_SHEET_AGC_TARGET], 16384);
}

/* A run whose loop has moved period and integrator: five symbols, three of whose errors wait. Every timing error is 7812, and the gain stays. */
static void under_way(void) {
    static const int16_t values[2] = {1000, -1000};
    size_t n;
    fill();
    for (n = 0; n < BANK; n += TAPS) g[n] = 16384;
    sheet.places[HUNTELM_SHEET_KP] = 1;
    sheet.places[HUNTELM_SHEET_KI] = 10;
    sheet.places[HUNTELM_SHEET_AGC_SHIFT] = 63;
    sheet.places[HUNTELM_SHEET_DELAY] = 3;
    start();
    for (n = 0; n < 9; n++) expect("a sample", block(values, 2, OUT, HUNTELM_BLOCK_PLACES), HUNTELM_ACCEPTED);
    expect("five symbols", state.places[HUNTELM_STATE_SYMBOLS], 5);
    expect("the integrator", state.places[HUNTELM_STATE_V], 156240);
    expect("the period", state.places[HUNTELM_STATE_PERIOD], 33562246);
    mark();
}

#define NO_TICKET 77

/* Asking for the sheet is refused, and so is committing it with the right ticket. Neither writes anything. */
static void expect_no_retune(const char *what, int64_t want) {
    uint64_t ticket = NO_TICKET;
    kept = state;
    expect(what, huntelm_state_ask(&state, &sheet, &ticket), want);
    expect("there is no ticket", (int64_t)ticket, NO_TICKET);
    expect(what, huntelm_state_commit(&state, &sheet, (uint64_t)state.places[HUNTELM_STATE_SYMBOLS]), want);
    expect("it leaves the state", memcmp(&state, &kept, sizeof kept), 0);
}

/* The sheet may be put into the state, which then holds it and is else as it was. */
static void expect_retune(const char *what) {
    uint64_t ticket = NO_TICKET;
    kept = state;
    expect(what, huntelm_state_ask(&state, &sheet, &ticket), HUNTELM_ACCEPTED);
    expect("the ticket", (int64_t)ticket, state.places[HUNTELM_STATE_SYMBOLS]);
    expect("asking changes nothing", memcmp(&state, &kept, sizeof kept), 0);
    expect(what, huntelm_state_commit(&state, &sheet, ticket), HUNTELM_ACCEPTED);
    memcpy(kept.places + HUNTELM_STATE_SHEET, sheet.places, sizeof sheet.places);
    expect("a commit writes the held sheet alone", memcmp(&state, &kept, sizeof kept), 0);
}

/* A retune of a run under way, where one field is another. */
static void expect_field(const char *what, int place, int64_t number, int64_t want) {
    under_way();
    sheet.places[place] = number;
    if (want) expect_no_retune(what, want);
    else expect_retune(what);
}

static void retunes(void) {
    expect_field("kp outside its type", HUNTELM_SHEET_KP, 32768, HUNTELM_REFUSED_PLACE_TYPE);
    expect_field("taps", HUNTELM_SHEET_TAPS, 5, HUNTELM_REFUSED_TAPS);
    expect_field("taps and old banks", HUNTELM_SHEET_TAPS, 6, HUNTELM_REFUSED_BANK_LENGTH);
    expect_field("periods", HUNTELM_SHEET_PERIOD_MIN, 16777216, HUNTELM_REFUSED_PERIOD_BOUNDS);
    expect_field("bits", HUNTELM_SHEET_BITS, 1, HUNTELM_REFUSED_RANGE);
    expect_field("agc_shift", HUNTELM_SHEET_AGC_SHIFT, 64, HUNTELM_REFUSED_AGC_SHIFT);
    expect_field("no delay", HUNTELM_SHEET_DELAY, 0, HUNTELM_REFUSED_DELAY);
    expect_field("a delay above 24", HUNTELM_SHEET_DELAY, 25, HUNTELM_REFUSED_DELAY);
    expect_field("a shorter delay than the held one", HUNTELM_SHEET_DELAY, 2, HUNTELM_REFUSED_DELAY);
    expect_field("a longer delay than the held one", HUNTELM_SHEET_DELAY, 4, HUNTELM_REFUSED_DELAY);
    expect_field("a longest period below the present one", HUNTELM_SHEET_PERIOD_MAX, 33562245, HUNTELM_REFUSED_STATE);
    expect_field("a longest period that is the present one", HUNTELM_SHEET_PERIOD_MAX, 33562246, HUNTELM_ACCEPTED);
    expect_field("an integrator that reaches less far", HUNTELM_SHEET_INTEGRATOR_MAX, 2, HUNTELM_REFUSED_STATE);
    expect_field("an integrator that just reaches", HUNTELM_SHEET_INTEGRATOR_MAX, 3, HUNTELM_ACCEPTED);
    expect_field("proportional gain", HUNTELM_SHEET_KP, -32768, HUNTELM_ACCEPTED);
    expect_field("integral gain", HUNTELM_SHEET_KI, 32767, HUNTELM_ACCEPTED);
    expect_field("nothing that a symbol depends on", HUNTELM_SHEET_BLOCK_LOG2, 8, HUNTELM_ACCEPTED);
    under_way();
    expect_retune("the held sheet again");
    h[9] = 131072;
    expect_no_retune("a coefficient", HUNTELM_REFUSED_COEFFICIENT);
    h[9] = 131071;
    expect_no_retune("a row's sum", HUNTELM_REFUSED_COEFFICIENT_SUM);
    under_way();
    use_six_taps();
    expect_no_retune("other taps", HUNTELM_REFUSED_HELD_TAPS);
}

/* The ticket is the number of the state's symbols, and nothing else is. */
static void tickets(void) {
    static const uint64_t others[6] = {0, 4, 6, ((uint64_t)1 << 32) + 5, (uint64_t)1 << 63, UINT64_MAX};
    static const int16_t values[2] = {1000, -1000};
    size_t n;
    under_way();
    for (n = 0; n < 6; n++) {
        kept = state;
        expect("another ticket", huntelm_state_commit(&state, &sheet, others[n]), HUNTELM_REFUSED_TICKET);
        expect("it leaves the state", memcmp(&state, &kept, sizeof kept), 0);
    }
    expect("a sample without a symbol", block(values, 2, OUT, HUNTELM_BLOCK_PLACES), HUNTELM_ACCEPTED);
    expect("the ticket holds", huntelm_state_commit(&state, &sheet, 5), HUNTELM_ACCEPTED);
    expect("behind a commit too", huntelm_state_commit(&state, &sheet, 5), HUNTELM_ACCEPTED);
    expect("a symbol", block(values, 2, OUT, HUNTELM_BLOCK_PLACES), HUNTELM_ACCEPTED);
    expect("and no longer", huntelm_state_commit(&state, &sheet, 5), HUNTELM_REFUSED_TICKET);
    under_way();
    state.places[HUNTELM_STATE_SYMBOLS] += (int64_t)1 << 32;
    state.places[HUNTELM_STATE_SAMPLES] += (int64_t)1 << 33;
    expect_retune("behind more symbols than 32 bits count");
    expect("their low half is no ticket", huntelm_state_commit(&state, &sheet, 5), HUNTELM_REFUSED_TICKET);
}

/* With no place for the ticket, and with another ticket than the state's, which are the last faults of asking and committing. */
static void expect_fault(const char *what, int64_t want) {
    expect(what, huntelm_ask(SHEET, STATE, out, 0), want);
    expect(what, huntelm_commit(4, SHEET, STATE), want);
}

/* Of several faults the first in order is the answer. Each step adds one that comes before the others. */
static void order_of_a_retune(void) {
    under_way();
    expect("a place for the ticket", huntelm_ask(SHEET, STATE, out, 1), HUNTELM_ACCEPTED);
    expect("one place is written", written(), 1);
    expect("it is the ticket", out[0], 5);
    mark();
    kept = state;
    expect("no place for it", huntelm_ask(SHEET, STATE, out, 0), HUNTELM_REFUSED_SHORT_OUTPUT);
    expect("another ticket", huntelm_commit(4, SHEET, STATE), HUNTELM_REFUSED_TICKET);
    use_six_taps();
    expect_fault("27 before 11 and 28", HUNTELM_REFUSED_HELD_TAPS);
    sheet.places[HUNTELM_SHEET_INTEGRATOR_MAX] = 2;
    expect_fault("9 before 27", HUNTELM_REFUSED_STATE);
    sheet.places[HUNTELM_SHEET_DELAY] = 4;
    expect_fault("29 of the held delay before 9", HUNTELM_REFUSED_DELAY);
    state.places[HUNTELM_STATE_SHEET] = kept.places[HUNTELM_STATE_SHEET] = -1;
    expect_fault("9 of no state before 29 of the held delay", HUNTELM_REFUSED_STATE);
    sheet.places[HUNTELM_SHEET_DELAY] = 25;
    expect_fault("29 of the sheet before 9 of no state", HUNTELM_REFUSED_DELAY);
    sheet.places[HUNTELM_SHEET_AGC_SHIFT] = 64;
    expect_fault("8 before 29", HUNTELM_REFUSED_AGC_SHIFT);
    sheet.places[HUNTELM_SHEET_KI] = 32768;
    expect_fault("19 before 8", HUNTELM_REFUSED_PLACE_TYPE);
    expect("18 before 19", huntelm_ask(sheet.places, 17, h, BANK, g, BANK, h, BANK, STATE, out, 0), HUNTELM_REFUSED_PLACE_COUNT);
    expect("18 before 19", huntelm_commit(4, sheet.places, 17, h, BANK, g, BANK, h, BANK, STATE), HUNTELM_REFUSED_PLACE_COUNT);
    expect("the state stays as it was", memcmp(&state, &kept, sizeof kept), 0);
    expect("nothing is written", written(), 0);
}

/* Only delay and taps of the held sheet count: the others may be anything that its places take, and a commit sets them right. */
static void mended_state(void) {
    static const int16_t values[2] = {0, 0};
    under_way();
    state.places[HUNTELM_STATE_SHEET + HUNTELM_SHEET_BITS] = 200;
    state.places[HUNTELM_STATE_SHEET + HUNTELM_SHEET_PERIOD_MIN] = 0;
    expect_refused("under its sheet", values, 2, OUT, HUNTELM_BLOCK_PLACES, HUNTELM_REFUSED_STATE);
    mark();
    expect_retune("the sheet that it had");
    expect("it goes on", block(values, 2, OUT, HUNTELM_BLOCK_PLACES), HUNTELM_ACCEPTED);
}

/* The period stays until the next error is applied, and follows the new sheet then. */
static void retuned_run(void) {
    static const int16_t values[2] = {1000, -1000};
    under_way();
    sheet.places[HUNTELM_SHEET_PERIOD_NOMINAL] = 33000000;
    sheet.places[HUNTELM_SHEET_KP] = 3;
    sheet.places[HUNTELM_SHEET_KI] = 0;
    expect_retune("another period and other gains");
    expect("reading", huntelm_state_read(&state, &sheet, out), HUNTELM_ACCEPTED);
    expect("the period stays", out[HUNTELM_READ_PERIOD], 33562246);
    expect_block("a sample without a symbol", values, 2, OUT, 0, 1);
    expect("the period stays", state.places[HUNTELM_STATE_PERIOD], 33562246);
    expect_block("a symbol", values, 2, OUT, 1, 1);
    expect("its period, 33000000 + 2 of the integrator + 3 * 7812", out[HUNTELM_SYMBOL_PERIOD], 33023438);
    expect("the integrator stays", state.places[HUNTELM_STATE_V], 156240);
}

/* A commit right behind a start is no start: the first symbols, three here, have the period and the gain of the start. */
static void commit_before_the_first_sample(void) {
    static const int16_t values[14] = {1000, -1000, 1000, -1000, 1000, -1000, 1000, -1000, 1000, -1000, 1000, -1000, 1000, -1000};
    size_t n;
    under_way();
    start();
    sheet.places[HUNTELM_SHEET_PERIOD_NOMINAL] = 33000000;
    sheet.places[HUNTELM_SHEET_AGC_INIT] = 131072;
    expect_retune("another start");
    for (n = 0; n < 14; n += 2) {
        mark();
        expect("a sample", block(values + n, 2, OUT, HUNTELM_BLOCK_PLACES), HUNTELM_ACCEPTED);
        if (n % 4 != 0) continue;
        expect("its period", out[HUNTELM_SYMBOL_PERIOD], n < 12 ? 33554432 : 33007813);
        expect("its gain", out[HUNTELM_SYMBOL_GAIN], 1024);
    }
}

/* Slices of other lengths than a state's are none: 9 of every call, and nothing is written. */
static void lengths_of_a_state(void) {
    static const size_t lengths[7][3] = {{27, 128, 48}, {29, 128, 48}, {28, 127, 48}, {28, 129, 48}, {28, 128, 47}, {28, 128, 49}, {0, 0, 0}};
    static const int16_t values[2] = {1000, -1000};
    static struct slices {
        int64_t places[29];
        int32_t line[129], errors[49];
    } slices, before;
    size_t n;
    under_way();
    memcpy(slices.places, state.places, sizeof state.places);
    memcpy(slices.line, state.line, sizeof state.line);
    memcpy(slices.errors, state.errors, sizeof state.errors);
    before = slices;
    for (n = 0; n < 7; n++) {
#define SLICES slices.places, lengths[n][0], slices.line, lengths[n][1], slices.errors, lengths[n][2]
        expect("starting", huntelm_start(SHEET, SLICES), HUNTELM_REFUSED_STATE);
        expect("a block", huntelm_block(SHEET, SLICES, values, 2, out, OUT, answer, ANSWER), HUNTELM_REFUSED_STATE);
        expect("reading", huntelm_read(SHEET, SLICES, out, OUT), HUNTELM_REFUSED_STATE);
        expect("asking", huntelm_ask(SHEET, SLICES, out, OUT), HUNTELM_REFUSED_STATE);
        expect("committing", huntelm_commit(5, SHEET, SLICES), HUNTELM_REFUSED_STATE);
        expect("the slices stay as they were", memcmp(&slices, &before, sizeof before), 0);
        expect("and so do all other places", written(), 0);
#undef SLICES
    }
}

static void offset(void) {
    fill();
    expect("a period that no loop sets", huntelm_sheet_offset(&sheet, 34225521, out), HUNTELM_REFUSED_PERIOD);
    expect("no place", huntelm_offset(SHEET, 33554465, out, 0), HUNTELM_REFUSED_SHORT_OUTPUT);
    expect("nothing is written", written(), 0);
    expect("offset", huntelm_sheet_offset(&sheet, 33554465, out), HUNTELM_ACCEPTED);
    expect("a slow sender", out[0], -983);
    expect("one place", written(), 1);
    expect("offset", huntelm_offset(SHEET, 33554399, out, OUT), HUNTELM_ACCEPTED);
    expect("a fast sender", out[0], 983);
    expect("one place", written(), 1);
}

/* With length 0 a pointer may be NULL. */
static void nothing_lent(void) {
#define NO_STATE NULL, 0, NULL, 0, NULL, 0
    fill();
    expect("judging nothing", huntelm_judge(NULL, 0, NULL, 0, NULL, 0, NULL, 0), HUNTELM_REFUSED_PLACE_COUNT);
    expect("judging no banks", huntelm_judge(sheet.places, 18, NULL, 0, NULL, 0, NULL, 0), HUNTELM_REFUSED_BANK_LENGTH);
    expect("starting no state", huntelm_start(SHEET, NO_STATE), HUNTELM_REFUSED_STATE);
    expect("a block on no state", huntelm_block(SHEET, NO_STATE, NULL, 0, NULL, 0, NULL, 0), HUNTELM_REFUSED_STATE);
    expect("reading no state", huntelm_read(SHEET, NO_STATE, NULL, 0), HUNTELM_REFUSED_STATE);
    expect("asking of no state", huntelm_ask(SHEET, NO_STATE, NULL, 0), HUNTELM_REFUSED_STATE);
    expect("committing to no state", huntelm_commit(0, SHEET, NO_STATE), HUNTELM_REFUSED_STATE);
    start();
    expect("an empty block", huntelm_state_block(&state, &sheet, NULL, 0, NULL, 0, answer), HUNTELM_ACCEPTED);
    expect("its symbols", answer[HUNTELM_BLOCK_COUNT], 0);
    expect("its pairs", answer[HUNTELM_BLOCK_TAKEN], 0);
    expect("its clips", answer[HUNTELM_BLOCK_CLIPS], 0);
    expect("a block that says nothing", huntelm_block(SHEET, STATE, NULL, 0, NULL, 0, NULL, 0), HUNTELM_REFUSED_SHORT_OUTPUT);
    expect("a reading to nowhere", huntelm_read(SHEET, STATE, NULL, 0), HUNTELM_REFUSED_SHORT_OUTPUT);
    expect("a ticket to nowhere", huntelm_ask(SHEET, STATE, NULL, 0), HUNTELM_REFUSED_SHORT_OUTPUT);
    expect("an offset to nowhere", huntelm_offset(SHEET, 33554432, NULL, 0), HUNTELM_REFUSED_SHORT_OUTPUT);
    expect("no float samples", huntelm_sample(NULL, 0, NULL, 0), HUNTELM_ACCEPTED);
    expect("no design", huntelm_design(NULL, 0, NULL, 0, NULL, 0, NULL, 0, NULL, 0, NULL, 0), HUNTELM_REFUSED_PLACE_COUNT);
#undef NO_STATE
}

static void samples(void) {
    static const float floats[6] = {0.25f, -0.25f, 2.0f, -2.0f, 0.5f / 2048, -0.5f / 2048};
    int16_t values[7] = {MARK, MARK, MARK, MARK, MARK, MARK, MARK};
    float nan[2];
    expect("an odd number of floats", huntelm_sample(floats, 5, values, 7), HUNTELM_REFUSED_ODD_INPUT);
    expect("fewer values than floats", huntelm_sample(floats, 6, values, 5), HUNTELM_REFUSED_SHORT_OUTPUT);
    expect("nothing is written", values[0], MARK);
    expect("float samples", huntelm_sample(floats, 6, values, 7), HUNTELM_ACCEPTED);
    expect("a quarter", values[0], 512);
    expect("less a quarter", values[1], -512);
    expect("above all", values[2], 2047);
    expect("below all", values[3], -2048);
    expect("a tie", values[4], 1);
    expect("a tie below 0", values[5], -1);
    expect("no value more", values[6], MARK);
    nan[0] = nan[1] = (float)NAN;
    expect("a NaN", huntelm_sample(nan, 2, values, 7) + values[0] + values[1], 0);
}

static void designs(void) {
    double rates[HUNTELM_RATE_PLACES] = {2, 1, 0, 0, 0.25};
    int64_t fields[HUNTELM_FIELD_PLACES] = {TAPS, 8, 12, 0, 0, 0, 0, 6};
    int64_t fresh[HUNTELM_SHEET_PLACES];
    fill();
    memcpy(fresh, sheet.places, sizeof fresh);
#define DESIGN rates, 5, fields, 8, h, BANK, g, BANK, h, BANK, out
    expect("17 places for a sheet", huntelm_design(DESIGN, 17), HUNTELM_REFUSED_SHORT_OUTPUT);
    rates[HUNTELM_RATE_TRIM] = 0.75;
    expect("trim", huntelm_design(DESIGN, OUT), HUNTELM_REFUSED_TRIM);
    fields[HUNTELM_FIELD_BITS] = 9;
    expect("bits", huntelm_design(DESIGN, OUT), HUNTELM_REFUSED_DESIGN_BITS);
    fields[HUNTELM_FIELD_TAPS] = 5;
    expect("taps", huntelm_design(DESIGN, OUT), HUNTELM_REFUSED_DESIGN_TAPS);
    rates[HUNTELM_RATE_SYMBOL_RATE] = 2;
    expect("samples a symbol", huntelm_design(DESIGN, OUT), HUNTELM_REFUSED_SAMPLES_PER_SYMBOL);
    fields[HUNTELM_FIELD_KP] = 32768;
    expect("kp outside its type", huntelm_design(DESIGN, OUT), HUNTELM_REFUSED_PLACE_TYPE);
    expect("four rates", huntelm_design(rates, 4, fields, 8, h, BANK, g, BANK, h, BANK, out, OUT), HUNTELM_REFUSED_PLACE_COUNT);
    expect("nothing is written", written(), 0);
    rates[HUNTELM_RATE_TRIM] = 0;
    rates[HUNTELM_RATE_SYMBOL_RATE] = 1;
    fields[HUNTELM_FIELD_BITS] = 8;
    fields[HUNTELM_FIELD_TAPS] = TAPS;
    fields[HUNTELM_FIELD_KP] = 0;
    expect("a design", huntelm_design(DESIGN, OUT), HUNTELM_ACCEPTED);
    expect("its sheet", memcmp(out, fresh, sizeof fresh), 0);
    expect("its delay", out[HUNTELM_SHEET_DELAY], 24);
    expect("18 places", out[18], MARK);
    mark();
    expect("18 places for a sheet", huntelm_design(DESIGN, 18), HUNTELM_ACCEPTED);
    expect("all are written", written(), 18);
#undef DESIGN
    memset(sheet.places, 0, sizeof sheet.places);
    expect("a design of the sheet's banks", huntelm_sheet_design(&sheet, rates, fields), HUNTELM_ACCEPTED);
    expect("the sheet", memcmp(sheet.places, fresh, sizeof fresh), 0);
    sheet.g_len--;
    fields[HUNTELM_FIELD_KP] = 1;
    expect("a bank that is too short", huntelm_sheet_design(&sheet, rates, fields), HUNTELM_REFUSED_BANK_LENGTH);
    expect("the sheet stays as it was", memcmp(sheet.places, fresh, sizeof fresh), 0);
}

int main(void) {
    judging();
    detector();
    banks_in_their_order();
    path();
    short_buffers();
    first_pairs();
    places_of_the_answer();
    ends_of_16_bits();
    twelve_numbers();
    other_clamps();
    clips_of_symbols();
    order();
    refused_delays();
    shortest_delay();
    another_delay();
    held_sheet();
    retunes();
    tickets();
    order_of_a_retune();
    mended_state();
    retuned_run();
    commit_before_the_first_sample();
    lengths_of_a_state();
    offset();
    nothing_lent();
    samples();
    designs();
    printf("%d answers, %d wrong\n", answers, wrong);
    return wrong != 0;
}
