/*
 * Huntelm: a receiver front end for satellite carriers. Samples go in, symbols come out.
 *
 * For C99 and C++11 on x86-64 Linux. Link target/staticlib/libarchive.a, which `make archive` writes and which needs nothing but memcpy and memset. It keeps
 * nothing between calls and allocates nothing, so calls on different objects may run at the same time.
 *
 * A sheet is what a run is set to: 18 fields, and three banks of coefficients. A state is where a run stands. Both are the caller's. This is a whole program:
 *
 *     #include "huntelm.h"
 *     #include <stdio.h>
 *
 *     int main(void) {
 *         static int32_t h[HUNTELM_ROWS * 4], g[HUNTELM_ROWS * 4];
 *         static const int16_t samples[] = {1000, -1000, 0, 0, -1000, 1000};
 *         struct huntelm_sheet sheet = {{4, 0, 33554432, 32883343, 34225520, 8, 0, 0, 0, 0, 335544, 262144, 16384, 4, 8, 6, 12, 24},
 *                                       h, g, h, HUNTELM_ROWS * 4, HUNTELM_ROWS * 4, HUNTELM_ROWS * 4};
 *         struct huntelm_state state;
 *         int64_t symbol[HUNTELM_SYMBOL_PLACES], answer[HUNTELM_BLOCK_PLACES];
 *         const int16_t *values = samples;
 *         size_t row, left = 6;
 *         uint32_t refused;
 *         for (row = 0; row < HUNTELM_ROWS; row++) h[4 * row] = 16384;
 *         refused = huntelm_state_start(&state, &sheet);
 *         while (!refused && left > 0) {
 *             refused = huntelm_state_block(&state, &sheet, values, left, symbol, HUNTELM_SYMBOL_PLACES, answer);
 *             if (refused) break;
 *             if (answer[HUNTELM_BLOCK_COUNT] == 1) printf("a symbol on sample %d\n", (int)symbol[HUNTELM_SYMBOL_SAMPLE]);
 *             values += 2 * answer[HUNTELM_BLOCK_TAKEN];
 *             left -= 2 * (size_t)answer[HUNTELM_BLOCK_TAKEN];
 *         }
 *         if (refused) printf("refused, number %d\n", (int)refused);
 *         return refused != 0;
 *     }
 *
 * It says that there is a symbol on sample 0 and one on sample 2. examples/ has programs that read a recording.
 *
 * What a block takes
 *   As many of the samples that it is offered as out has room for a symbol each, and it says how many. The others it has not looked at: offer them again, as
 *   the loop above does, or they are lost without a refusal.
 *
 * What a state holds
 *   The 18 fields of its sheet, from the start on. A block or a reading that is given a sheet that differs in a field is refused (9). It holds no banks:
 *   whoever gives the same fields with other banks is not refused, and gets the symbols of these banks. huntelm_state_commit puts another sheet into a state
 *   while it runs, so that a carrier keeps its lock under new loop gains.
 *
 * What clips say
 *   The six numbers y, dy, yk and z, dz, zk of a symbol have 16 bits, I and Q each. One that is too large for them is clipped: it becomes 32767 or -32768, and
 *   what was beyond is lost. A block counts these numbers, 12 a symbol at most, and 0 where nothing was clipped. Where there are clips the gain of the dish is
 *   too high, as a rule: lower it until there are none. docs/GUIDE.md has the loop, and says what the count does not see.
 *
 * What a period says
 *   The period of one symbol, or of a state, has the loop's correction for one noisy error in it, and jumps by thousands of parts in a million from symbol to
 *   symbol. What says how fast the sender's clock is beside the recorder's is the mean of the periods of thousands of symbols, once the loop has locked
 *   (huntelm_sheet_offset). That it has locked no call says: look at the spread of the output's size (docs/GUIDE.md).
 *
 * What the delay does
 *   A symbol leaves two errors, one of its timing and one of its gain, which wait in the state until the loop's delay is over. A delay is a number of symbols:
 *   the errors of symbol n correct period and gain right before symbol n + delay is made. So the first symbols, delay of them, have the period and the gain of
 *   the start. A delay is from 1, where a symbol's errors act on the very next symbol, to 24, and that of a design is 24.
 *
 * What the calls owe you
 *   No values and no lengths are wrong to call with. Whatever is lent, a call answers: 0, or where something is wrong the number of the refusal (enum
 *   huntelm_refusal). Of several faults it is the first in the order that the call's comment has. A call that refuses has written nothing. All this is proved
 *   of the archive's functions, for every input; the inline calls do no more than pass their objects on, and a ticket back.
 *
 * What you owe the calls
 *   A pointer is good for its length: so many elements of its type stand there, aligned, and can be written where it is not const. What is only read has values
 *   in it, and so has a state but at its start. A length counts elements, not bytes. With length 0 a pointer may be anything, NULL too: nothing is read or
 *   written through it. An array that a call names with its size, as answer[HUNTELM_BLOCK_PLACES], has that many elements at least.
 *   An object or buffer that is lent for writing overlaps no other one of the call. Those that are only read may overlap: h and k may be one bank.
 *   Nobody else writes what is lent while the call runs.
 */
#ifndef HUNTELM_H
#define HUNTELM_H

#include <stddef.h>
#include <stdint.h>

#ifdef __cplusplus
extern "C" {
#endif

/* How many numbers there are. A place is an int64_t; enums below name the places. */
#define HUNTELM_SHEET_PLACES 18
#define HUNTELM_STATE_PLACES 28
#define HUNTELM_LINE_NUMBERS 128
#define HUNTELM_ERROR_NUMBERS 48
#define HUNTELM_SYMBOL_PLACES 20
#define HUNTELM_BLOCK_PLACES 4
#define HUNTELM_READ_PLACES 3
#define HUNTELM_RATE_PLACES 5
#define HUNTELM_FIELD_PLACES 8

/* Rows of a bank: a bank is HUNTELM_ROWS * taps long. */
#define HUNTELM_ROWS 64

/* Most taps of a row. */
#define HUNTELM_MAX_TAPS 64

/* A sheet with its banks. The banks stay the caller's, and have to be there as long as the sheet is used. */
struct huntelm_sheet {
    int64_t places[HUNTELM_SHEET_PLACES]; /* enum huntelm_sheet_place */
    const int32_t *h, *g, *k;             /* 64 rows of taps coefficients, row by row: h and g for the timing detector, k for the output */
    size_t h_len, g_len, k_len;           /* coefficients of each */
};

/* A state. huntelm_state_start writes all of it, and nobody else has to look into it. A copy goes on as the original does. */
struct huntelm_state {
    int64_t places[HUNTELM_STATE_PLACES];  /* enum huntelm_state_place, and from HUNTELM_STATE_SHEET on the held sheet */
    int32_t line[HUNTELM_LINE_NUMBERS];    /* 64 pairs i, q: the last samples, mixed */
    int32_t errors[HUNTELM_ERROR_NUMBERS]; /* a ring of 24 pairs e, err, whatever the delay; those that wait stand from the oldest on, and behind 23 comes 0 */
};

/*
 * Judges a sheet with its banks.
 *
 * Refusals, in order: 19; 1 to 8, 29.
 */
static inline uint32_t huntelm_sheet_judge(const struct huntelm_sheet *sheet);

/*
 * Makes the places of a sheet, with a delay of 24, out of five rates (enum huntelm_rate_place), eight whole numbers (enum huntelm_field_place) and the banks
 * that the sheet has already. The sheet is judged too.
 *
 * Refusals, in order: 19 a whole number outside its type; 14 to 17; 1 to 8, 29, which a delay of 24 never meets.
 */
static inline uint32_t huntelm_sheet_design(struct huntelm_sheet *sheet, const double rates[HUNTELM_RATE_PLACES], const int64_t fields[HUNTELM_FIELD_PLACES]);

/*
 * Writes how fast a sender of this period is: (period_nominal - period) * 10^9 / period, to the nearest whole number, ties away from zero. That is its rate
 * offset in parts per thousand million, positive where the sender is fast.
 *
 * Ask it for the mean of the periods of thousands of symbols: what it writes is then the clock's offset. For the period of one symbol or of a reading it is
 * noise, since such a period has the loop's proportional term in it.
 *
 * Refusals, in order: 19; 1 to 8, 29; 13.
 */
static inline uint32_t huntelm_sheet_offset(const struct huntelm_sheet *sheet, uint32_t period, int64_t *offset);

/*
 * Starts: writes a fresh state, whatever it held.
 *
 * Refusals, in order: 19; 1 to 8, 29.
 */
static inline uint32_t huntelm_state_start(struct huntelm_state *state, const struct huntelm_sheet *sheet);

/*
 * Takes pairs of values, I before Q, from the first on, and says how many it took: all of them, or as many as out has room for a symbol each. The pairs behind
 * them were not looked at, and whoever does not offer them again loses them: no refusal says so. So go on from there. For every out_len from 20 on this is
 * right:
 *
 *     while (values_len > 0) {
 *         uint32_t refused = huntelm_state_block(&state, &sheet, values, values_len, out, out_len, answer);
 *         if (refused) return refused;
 *         use_symbols(out, answer[HUNTELM_BLOCK_COUNT]);
 *         values += 2 * answer[HUNTELM_BLOCK_TAKEN];
 *         values_len -= 2 * (size_t)answer[HUNTELM_BLOCK_TAKEN];
 *     }
 *
 * A call that is offered a pair and is not refused takes at least one, so the loop comes to its end. That is proved.
 *
 * The call takes values_len / 2 or out_len / 20 pairs, whichever is less, both rounded down. It takes the state further, writes 20 places for each symbol to
 * out, one symbol after the other, and leaves the places behind them as they were. Into answer it writes how many symbols these are, which may be 0, how many
 * pairs it took, and how many numbers of these symbols were clipped (enum huntelm_block_place).
 *
 * Clips are those of this call alone: whoever wants those of a run adds them up. y, dy, yk, z, dz and zk count, I and Q each, and nothing else: not the output
 * q, no error, no period and no gain. A number that is 32767 or -32768 without having been clipped does not count, and a pair without a symbol counts nothing.
 *
 * With 20 places for each pair it takes all. With fewer, where nothing is refused, all is as if it had been lent only the pairs that it takes. A pair gives
 * one symbol at most and often none, so places may be left; it does not go on until out is full.
 *
 * How samples are cut into blocks changes nothing: one after another they give the same symbols as all at once, and as many clips. Every call judges the
 * sheet, so calls that take many samples cost less a sample: out_len decides that, and not values_len alone.
 *
 * The sheet is the one that the state holds: a sheet that differs in one field is refused (9). Give its banks with it: other ones are not noticed, since no
 * state holds any, and the symbols are then theirs.
 *
 * Refusals, in order: 19; 1 to 8, 29; 9; 10 values_len is odd, also where not all values would be taken; 11 values_len is not 0 and out_len is below 20; 12
 * the state's samples and the pairs that it would take are more than 2^63 - 1.
 */
static inline uint32_t huntelm_state_block(struct huntelm_state *state, const struct huntelm_sheet *sheet, const int16_t *values, size_t values_len,
                                           int64_t *out, size_t out_len, int64_t answer[HUNTELM_BLOCK_PLACES]);

/*
 * Writes period, gain and number of symbols of a state (enum huntelm_read_place). The sheet is the one that the state holds. The period is that of one symbol,
 * and says nothing of a clock.
 *
 * Refusals, in order: 19; 1 to 8, 29; 9.
 */
static inline uint32_t huntelm_state_read(const struct huntelm_state *state, const struct huntelm_sheet *sheet, int64_t answer[HUNTELM_READ_PLACES]);

/*
 * Asks whether a state as it is now may go on under another sheet with its banks, and writes the ticket to put that sheet into it. Nothing in the state
 * changes. The ticket is the number of the state's symbols, and a number is all that it is: it reserves nothing, and holds until the next symbol is made.
 *
 * The sheet may differ from the held one in every field but taps and delay.
 *
 * Refusals, in order: 19; 1 to 8, 29 of the new sheet; 9 a number of the state that its place does not take; 29 another delay than the held one; 9 the state
 * cannot go on under the new sheet; 27 other taps than the held ones.
 *
 * In a run 9 says that the period or the integrator is outside the new clamps (period_min .. period_max, integrator_max). They move with the symbols: wait for
 * the next block and ask again, or widen the sheet. Fewer taps may be 9 as well, where the newest sample of the line stands behind them, and may stay so
 * however long one waits: compare the taps before you ask.
 */
static inline uint32_t huntelm_state_ask(const struct huntelm_state *state, const struct huntelm_sheet *sheet, uint64_t *ticket);

/*
 * Puts another sheet into a state, which then holds its 18 fields; they act from the next sample on. Nothing else changes: registers, counts, line and waiting
 * errors stay. The period stays too where the new nominal period is another one, and moves when the next errors are applied. So who commits
 * at once behind a start has not started with that sheet: the first symbols, delay of them, have the period and the gain of the start.
 *
 * Ask, show what is refused, and commit, all before the next block; so no symbol comes between:
 *
 *     while (receive(&values, &values_len)) {
 *         if (wanted) {
 *             uint64_t ticket;
 *             uint32_t refused = huntelm_state_ask(&state, wanted, &ticket);
 *             if (!refused) refused = huntelm_state_commit(&state, wanted, ticket);
 *             if (refused) show(refused);
 *             else sheet = wanted;
 *             if (refused != HUNTELM_REFUSED_STATE) wanted = NULL;
 *         }
 *         take_all(&state, sheet, values, values_len);
 *     }
 *
 * Where it is refused the state runs on under the sheet that it holds, and where that is by 9 the loop asks again before the next block. From the commit on
 * blocks are given the new sheet with its banks. Symbols behind a commit are, as a rule, not those of a run without it: whoever keeps a list keeps its commits
 * with it, each with its sheet, its banks and the samples before it (HUNTELM_STATE_SAMPLES).
 *
 * Refusals, in order: those of huntelm_state_ask; 28 the ticket is not the number of the state's symbols.
 */
static inline uint32_t huntelm_state_commit(struct huntelm_state *state, const struct huntelm_sheet *sheet, uint64_t ticket);

/*
 * Turns the components of float samples, I before Q, to sample values: each times 2048, rounded to the nearest with ties away from zero, clamped
 * to -2048 .. 2047, a NaN to 0. Writes the first floats_len places of values and leaves those behind them as they were.
 *
 * Refusals, in order: 10 floats_len is odd; 11 values_len is less than floats_len.
 */
uint32_t huntelm_sample(const float *floats, size_t floats_len, int16_t *values, size_t values_len);

/* What a call refuses. 20 is none of these: it is the symbol program's, for an input that ends too early. 21 to 26 are not used. */
enum huntelm_refusal {
    HUNTELM_ACCEPTED = 0,

    /* Of a sheet with its banks, in this order; 3 before 4 in each row, row by row, bank by bank (h, g, k). */
    HUNTELM_REFUSED_TAPS = 1,                /* taps odd, below 4 or above 64 */
    HUNTELM_REFUSED_BANK_LENGTH = 2,         /* a bank that is not 64 * taps long */
    HUNTELM_REFUSED_COEFFICIENT = 3,         /* a coefficient outside -131072 .. 131071 */
    HUNTELM_REFUSED_COEFFICIENT_SUM = 4,     /* a row whose magnitudes sum to more than 131071 */
    HUNTELM_REFUSED_DETECTOR_TAPS = 5,       /* h or g: a coefficient other than 0 outside the 8 in the middle of a row */
    HUNTELM_REFUSED_PERIOD_BOUNDS = 6,       /* periods: anything but 2^24 < min <= nominal <= max < 2^26 */
    HUNTELM_REFUSED_RANGE = 7,               /* any other field, but agc_shift and delay, outside the range that its place below has */
    HUNTELM_REFUSED_AGC_SHIFT = 8,           /* agc_shift above 63 */
    HUNTELM_REFUSED_DELAY = 29,              /* delay outside 1 .. 24; in a retune also another than the held one */

    /* Of states, samples and buffers. */
    HUNTELM_REFUSED_STATE = 9,               /* a state that cannot go on under the sheet: a number that its place does not take, or a position, count or
                                                register outside its bounds; and, but for a retune, another sheet than the held one */
    HUNTELM_REFUSED_ODD_INPUT = 10,          /* an odd number of sample values, or of floats */
    HUNTELM_REFUSED_SHORT_OUTPUT = 11,       /* fewer places than the answer needs; of out in a block, fewer than the 20 of one symbol where there are samples
                                                to take. Of a state at the start that is 9 */
    HUNTELM_REFUSED_TOO_MANY_SAMPLES = 12,   /* more than 2^63 - 1 samples in all, those counted that the block would take */

    /* Of a retune, which is asking and committing. */
    HUNTELM_REFUSED_HELD_TAPS = 27,          /* other taps than the held ones */
    HUNTELM_REFUSED_TICKET = 28,             /* a ticket that is not the number of the state's symbols */

    /* Of an offset. */
    HUNTELM_REFUSED_PERIOD = 13,             /* a period outside period_min .. period_max */

    /* Of a design. A NaN is outside. */
    HUNTELM_REFUSED_SAMPLES_PER_SYMBOL = 14, /* sample_rate / symbol_rate outside 1.0625 .. 4, 4 itself excluded */
    HUNTELM_REFUSED_DESIGN_TAPS = 15,        /* taps odd, below 4 or above 64 */
    HUNTELM_REFUSED_DESIGN_BITS = 16,        /* bits outside 2 .. 8 */
    HUNTELM_REFUSED_TRIM = 17,               /* trim outside -0.5 .. 0.5 */

    /* Of the places themselves, before all others. */
    HUNTELM_REFUSED_PLACE_COUNT = 18,        /* another number of places than the sheet or the design has */
    HUNTELM_REFUSED_PLACE_TYPE = 19          /* a number that its place does not take; of a state that is 9 */
};

/*
 * The places of a sheet: what each takes, and in brackets what is accepted, where that is less. A period is in samples, 2^24 to the sample.
 */
enum huntelm_sheet_place {
    HUNTELM_SHEET_TAPS = 0,            /* uint32_t (4 .. 64, even): coefficients of a row */
    HUNTELM_SHEET_NCO_STEP = 1,        /* int32_t: what the mixer turns each sample, 2^32 to the turn */
    HUNTELM_SHEET_PERIOD_NOMINAL = 2,  /* uint32_t: the period at the start */
    HUNTELM_SHEET_PERIOD_MIN = 3,      /* uint32_t (above 2^24): the shortest that the loop sets */
    HUNTELM_SHEET_PERIOD_MAX = 4,      /* uint32_t (below 2^26): the longest */
    HUNTELM_SHEET_TED_SHIFT = 5,       /* uint8_t (0 .. 30): shift of the timing error */
    HUNTELM_SHEET_KP = 6,              /* int16_t: proportional gain of the timing loop */
    HUNTELM_SHEET_KP_SHIFT = 7,        /* uint8_t (0 .. 40) */
    HUNTELM_SHEET_KI = 8,              /* int16_t: integral gain */
    HUNTELM_SHEET_KI_SHIFT = 9,        /* uint8_t (0 .. 40) */
    HUNTELM_SHEET_INTEGRATOR_MAX = 10, /* int32_t (0 .. 2^22 - 1): how far the integrator moves the period */
    HUNTELM_SHEET_AGC_INIT = 11,       /* uint32_t (0 .. 2^24 - 1): gain accumulator at the start, 2^18 for a gain of 1 */
    HUNTELM_SHEET_AGC_TARGET = 12,     /* uint32_t: power that the gain loop holds */
    HUNTELM_SHEET_AGC_SHIFT = 13,      /* uint8_t (0 .. 63): shift of the gain error */
    HUNTELM_SHEET_BITS = 14,           /* uint8_t (2 .. 8): bits of an output component */
    HUNTELM_SHEET_Q_SHIFT = 15,        /* uint8_t (0 .. 15): shift to them */
    HUNTELM_SHEET_BLOCK_LOG2 = 16,     /* uint8_t (8 .. 15): log2 of the symbols that are stored as one block; no symbol depends on it */
    HUNTELM_SHEET_DELAY = 17           /* uint8_t (1 .. 24): the loop's delay, in symbols: how many later a symbol's errors act */
};

/* The places of a symbol. */
enum huntelm_symbol_place {
    HUNTELM_SYMBOL_SAMPLE = 0, /* the sample on which it fell, counted from 0 at the start */
    HUNTELM_SYMBOL_PHASE = 1,  /* in which sixty-fourth of it: the row of the banks */
    HUNTELM_SYMBOL_Y_I = 2,    /* what bank h gives */
    HUNTELM_SYMBOL_Y_Q = 3,
    HUNTELM_SYMBOL_DY_I = 4,   /* what bank g gives */
    HUNTELM_SYMBOL_DY_Q = 5,
    HUNTELM_SYMBOL_YK_I = 6,   /* what bank k gives */
    HUNTELM_SYMBOL_YK_Q = 7,
    HUNTELM_SYMBOL_GAIN = 8,   /* the gain in force, 1024 for a gain of 1 */
    HUNTELM_SYMBOL_PERIOD = 9, /* the period in force, 2^24 to the sample; for a clock take the mean over thousands of symbols */
    HUNTELM_SYMBOL_Z_I = 10,   /* y, dy and yk times the gain */
    HUNTELM_SYMBOL_Z_Q = 11,
    HUNTELM_SYMBOL_DZ_I = 12,
    HUNTELM_SYMBOL_DZ_Q = 13,
    HUNTELM_SYMBOL_ZK_I = 14,
    HUNTELM_SYMBOL_ZK_Q = 15,
    HUNTELM_SYMBOL_Q_I = 16,   /* the output, as many bits wide as the sheet says */
    HUNTELM_SYMBOL_Q_Q = 17,
    HUNTELM_SYMBOL_E = 18,     /* its timing error, which acts as many symbols later as the sheet's delay says */
    HUNTELM_SYMBOL_ERR = 19    /* its gain error, likewise */
};

/*
 * The places of a state, up to the held sheet: what each takes, where a count is 0 .. 2^63 - 1, and what it is. In a run they are within narrower bounds. The
 * held sheet's places take what those of a sheet take; a number that they do not take is 9, as in all places of a state, and not 19.
 */
enum huntelm_state_place {
    HUNTELM_STATE_NCO = 0,      /* uint32_t: phase of the mixer, 2^32 to the turn */
    HUNTELM_STATE_T = 1,        /* int64_t: how far behind the next sample the next symbol lies, 2^24 to the sample */
    HUNTELM_STATE_V = 2,        /* int64_t: the loop's integrator, 2^40 to the sample */
    HUNTELM_STATE_PERIOD = 3,   /* uint32_t: the period of the last symbol, 2^24 to the sample */
    HUNTELM_STATE_GAIN_ACC = 4, /* uint32_t: gain accumulator, 256 times the gain */
    HUNTELM_STATE_SYMBOLS = 5,  /* count: symbols so far, which is the ticket of a retune */
    HUNTELM_STATE_HEAD = 6,     /* count: where the newest pair of the line stands */
    HUNTELM_STATE_OLDEST = 7,   /* count: where the errors stand that have waited longest: 0 .. 23 in a run, whatever the delay */
    HUNTELM_STATE_WAITING = 8,  /* count: how many pairs of errors wait: symbols so far or the sheet's delay, whichever is less */
    HUNTELM_STATE_SAMPLES = 9   /* count: samples so far */
};

/* Where the held sheet begins: its kp is in place HUNTELM_STATE_SHEET + HUNTELM_SHEET_KP of a state, and so on. */
#define HUNTELM_STATE_SHEET 10

/* What a block writes to its answer. The places behind these three stay as they were; those up to HUNTELM_BLOCK_PLACES are kept free. */
enum huntelm_block_place {
    HUNTELM_BLOCK_COUNT = 0, /* symbols that it wrote */
    HUNTELM_BLOCK_TAKEN = 1, /* pairs that it took, which may be fewer than it was offered */
    HUNTELM_BLOCK_CLIPS = 2  /* numbers of these symbols that 16 bits were too few for: 0 .. 12 a symbol, and 0 where nothing was clipped */
};

/* What a reading writes. */
enum huntelm_read_place {
    HUNTELM_READ_PERIOD = 0, /* the period of the last symbol, 2^24 to the sample; no measure of a clock (see above) */
    HUNTELM_READ_GAIN = 1,   /* the gain, 1024 for a gain of 1 */
    HUNTELM_READ_SYMBOLS = 2 /* symbols so far */
};

/* The rates of a design. */
enum huntelm_rate_place {
    HUNTELM_RATE_SAMPLE_RATE = 0,    /* samples a second */
    HUNTELM_RATE_SYMBOL_RATE = 1,    /* symbols a second */
    HUNTELM_RATE_CARRIER_OFFSET = 2, /* how far the carrier is off, in Hz; the mixer removes it */
    HUNTELM_RATE_TRIM = 3,           /* where the output is taken, in symbols from where the loop locks */
    HUNTELM_RATE_AGC_RMS = 4         /* level that the gain loop holds, 1 for the full scale of 16 bits */
};

/* The whole numbers of a design, each with the type that its place of a sheet has. */
enum huntelm_field_place {
    HUNTELM_FIELD_TAPS = 0,
    HUNTELM_FIELD_BITS = 1,
    HUNTELM_FIELD_BLOCK_LOG2 = 2,
    HUNTELM_FIELD_KP = 3,
    HUNTELM_FIELD_KP_SHIFT = 4,
    HUNTELM_FIELD_KI = 5,
    HUNTELM_FIELD_KI_SHIFT = 6,
    HUNTELM_FIELD_Q_SHIFT = 7
};

/*
 * The functions underneath, over pointers and lengths, for those who keep sheets and states in buffers of their own. Each does what the call above does that
 * has its name behind huntelm_sheet_ or huntelm_state_, and its refusals are these, in order:
 *
 *     huntelm_judge     18 sheet_len is not 18; 19; 1 to 8, 29
 *     huntelm_design    18 rates_len is not 5 or fields_len is not 8; 19; 14 to 17; 1 to 8, 29; 11 sheet_len is below 18
 *     huntelm_offset    18, 19; 1 to 8, 29; 13; 11 answer_len is 0
 *     huntelm_start     18, 19; 1 to 8, 29; 9 state_len is not 28, line_len not 128 or errors_len not 48
 *     huntelm_block     18, 19; 1 to 8, 29; 9 of lengths too; 10; 11; 12; 11 answer_len is below 4
 *     huntelm_read      18, 19; 1 to 8, 29; 9 of lengths too; 11 answer_len is below 3
 *     huntelm_ask       18, 19; 1 to 8, 29; 9 of lengths and of numbers that a place does not take; 29; 9; 27; 11 answer_len is 0
 *     huntelm_commit    the same without 11; 28
 *
 * An offset and a ticket go to the first place of answer. Places of answer and sheet behind those that a call writes stay as they were, and a commit writes no
 * others than those of the held sheet.
 */
uint32_t huntelm_judge(const int64_t *sheet, size_t sheet_len, const int32_t *h, size_t h_len, const int32_t *g, size_t g_len, const int32_t *k, size_t k_len);

uint32_t huntelm_design(const double *rates, size_t rates_len, const int64_t *fields, size_t fields_len,
                        const int32_t *h, size_t h_len, const int32_t *g, size_t g_len, const int32_t *k, size_t k_len, int64_t *sheet, size_t sheet_len);

uint32_t huntelm_offset(const int64_t *sheet, size_t sheet_len, const int32_t *h, size_t h_len, const int32_t *g, size_t g_len, const int32_t *k, size_t k_len,
                        uint32_t period, int64_t *answer, size_t answer_len);

uint32_t huntelm_start(const int64_t *sheet, size_t sheet_len, const int32_t *h, size_t h_len, const int32_t *g, size_t g_len, const int32_t *k, size_t k_len,
                       int64_t *state, size_t state_len, int32_t *line, size_t line_len, int32_t *errors, size_t errors_len);

uint32_t huntelm_block(const int64_t *sheet, size_t sheet_len, const int32_t *h, size_t h_len, const int32_t *g, size_t g_len, const int32_t *k, size_t k_len,
                       int64_t *state, size_t state_len, int32_t *line, size_t line_len, int32_t *errors, size_t errors_len,
                       const int16_t *values, size_t values_len, int64_t *out, size_t out_len, int64_t *answer, size_t answer_len);

uint32_t huntelm_read(const int64_t *sheet, size_t sheet_len, const int32_t *h, size_t h_len, const int32_t *g, size_t g_len, const int32_t *k, size_t k_len,
                      const int64_t *state, size_t state_len, const int32_t *line, size_t line_len, const int32_t *errors, size_t errors_len,
                      int64_t *answer, size_t answer_len);

uint32_t huntelm_ask(const int64_t *sheet, size_t sheet_len, const int32_t *h, size_t h_len, const int32_t *g, size_t g_len, const int32_t *k, size_t k_len,
                     const int64_t *state, size_t state_len, const int32_t *line, size_t line_len, const int32_t *errors, size_t errors_len,
                     int64_t *answer, size_t answer_len);

uint32_t huntelm_commit(uint64_t ticket,
                        const int64_t *sheet, size_t sheet_len, const int32_t *h, size_t h_len, const int32_t *g, size_t g_len, const int32_t *k, size_t k_len,
                        int64_t *state, size_t state_len, const int32_t *line, size_t line_len, const int32_t *errors, size_t errors_len);

/* The inline calls: each passes its objects on. */

static inline uint32_t huntelm_sheet_judge(const struct huntelm_sheet *sheet) {
    return huntelm_judge(sheet->places, HUNTELM_SHEET_PLACES, sheet->h, sheet->h_len, sheet->g, sheet->g_len, sheet->k, sheet->k_len);
}

static inline uint32_t huntelm_sheet_design(struct huntelm_sheet *sheet, const double rates[HUNTELM_RATE_PLACES], const int64_t fields[HUNTELM_FIELD_PLACES]) {
    return huntelm_design(rates, HUNTELM_RATE_PLACES, fields, HUNTELM_FIELD_PLACES, sheet->h, sheet->h_len, sheet->g, sheet->g_len, sheet->k, sheet->k_len,
                          sheet->places, HUNTELM_SHEET_PLACES);
}

static inline uint32_t huntelm_sheet_offset(const struct huntelm_sheet *sheet, uint32_t period, int64_t *offset) {
    return huntelm_offset(sheet->places, HUNTELM_SHEET_PLACES, sheet->h, sheet->h_len, sheet->g, sheet->g_len, sheet->k, sheet->k_len, period, offset, 1);
}

static inline uint32_t huntelm_state_start(struct huntelm_state *state, const struct huntelm_sheet *sheet) {
    return huntelm_start(sheet->places, HUNTELM_SHEET_PLACES, sheet->h, sheet->h_len, sheet->g, sheet->g_len, sheet->k, sheet->k_len,
                         state->places, HUNTELM_STATE_PLACES, state->line, HUNTELM_LINE_NUMBERS, state->errors, HUNTELM_ERROR_NUMBERS);
}

static inline uint32_t huntelm_state_block(struct huntelm_state *state, const struct huntelm_sheet *sheet, const int16_t *values, size_t values_len,
                                           int64_t *out, size_t out_len, int64_t answer[HUNTELM_BLOCK_PLACES]) {
    return huntelm_block(sheet->places, HUNTELM_SHEET_PLACES, sheet->h, sheet->h_len, sheet->g, sheet->g_len, sheet->k, sheet->k_len,
                         state->places, HUNTELM_STATE_PLACES, state->line, HUNTELM_LINE_NUMBERS, state->errors, HUNTELM_ERROR_NUMBERS,
                         values, values_len, out, out_len, answer, HUNTELM_BLOCK_PLACES);
}

static inline uint32_t huntelm_state_read(const struct huntelm_state *state, const struct huntelm_sheet *sheet, int64_t answer[HUNTELM_READ_PLACES]) {
    return huntelm_read(sheet->places, HUNTELM_SHEET_PLACES, sheet->h, sheet->h_len, sheet->g, sheet->g_len, sheet->k, sheet->k_len,
                        state->places, HUNTELM_STATE_PLACES, state->line, HUNTELM_LINE_NUMBERS, state->errors, HUNTELM_ERROR_NUMBERS,
                        answer, HUNTELM_READ_PLACES);
}

static inline uint32_t huntelm_state_ask(const struct huntelm_state *state, const struct huntelm_sheet *sheet, uint64_t *ticket) {
    int64_t symbols = 0;
    uint32_t refused = huntelm_ask(sheet->places, HUNTELM_SHEET_PLACES, sheet->h, sheet->h_len, sheet->g, sheet->g_len, sheet->k, sheet->k_len,
                                   state->places, HUNTELM_STATE_PLACES, state->line, HUNTELM_LINE_NUMBERS, state->errors, HUNTELM_ERROR_NUMBERS,
                                   &symbols, 1);
    /* A count is never below 0. */
    if (!refused) *ticket = (uint64_t)symbols;
    return refused;
}

static inline uint32_t huntelm_state_commit(struct huntelm_state *state, const struct huntelm_sheet *sheet, uint64_t ticket) {
    return huntelm_commit(ticket, sheet->places, HUNTELM_SHEET_PLACES, sheet->h, sheet->h_len, sheet->g, sheet->g_len, sheet->k, sheet->k_len,
                          state->places, HUNTELM_STATE_PLACES, state->line, HUNTELM_LINE_NUMBERS, state->errors, HUNTELM_ERROR_NUMBERS);
}

#ifdef __cplusplus
}
#endif

#endif
