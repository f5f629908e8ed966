/*
 * retune FILE: gives a running receiver other loop gains, as an engineer does who wants a quieter period and must not lose the carrier.
 *
 * The file is a recording, as recording.h reads it. The first half of its samples is taken under the recording's own sheet. Then the program asks for a sheet
 * with half of kp, eight times ki and close bounds for the period. Where the period is outside them at that moment it is refused, number 9; the program shows
 * that and widens the bounds. What is accepted it commits before the next block. A copy of the state takes the second half too, under the old sheet, so that
 * the two can be compared on the same samples.
 *
 * It prints what it asks for and how far period and output spread. What is wrong goes to standard error, and the exit status is then 1.
 */
#include "recording.h"

#include <math.h>

/* Most pairs of a recording, how many symbols a call has room for, and over how many symbols a spread is taken. */
#define PAIRS 100000
#define ROOM 256
#define LAST 200

/* What is kept of symbols: how many there are, the first one's period, and the last ones' periods and sizes, in a ring. */
struct symbols {
    size_t count;
    int64_t first_period;
    double periods[LAST], sizes[LAST];
};

static void note(struct symbols *symbols, const int64_t *symbol) {
    double i = (double)symbol[HUNTELM_SYMBOL_ZK_I], q = (double)symbol[HUNTELM_SYMBOL_ZK_Q];
    if (symbols->count == 0) symbols->first_period = symbol[HUNTELM_SYMBOL_PERIOD];
    symbols->periods[symbols->count % LAST] = (double)symbol[HUNTELM_SYMBOL_PERIOD];
    symbols->sizes[symbols->count % LAST] = sqrt(i * i + q * q);
    symbols->count++;
}

/* The standard deviation of the last symbols' numbers, in parts of their mean. */
static double spread(const double *numbers) {
    double sum = 0, squares = 0, mean;
    size_t n;
    for (n = 0; n < LAST; n++) sum += numbers[n];
    mean = sum / LAST;
    for (n = 0; n < LAST; n++) squares += (numbers[n] - mean) * (numbers[n] - mean);
    return sqrt(squares / LAST) / mean;
}

/* Takes all values under the sheet that the state holds, and notes their symbols. Answers 0, or the number of a refusal. */
static uint32_t take(struct huntelm_state *state, const struct huntelm_sheet *sheet, const int16_t *values, size_t left, struct symbols *symbols) {
    int64_t out[ROOM * HUNTELM_SYMBOL_PLACES], answer[HUNTELM_BLOCK_PLACES], n;
    while (left > 0) {
        uint32_t refused = huntelm_state_block(state, sheet, values, left, out, ROOM * HUNTELM_SYMBOL_PLACES, answer);
        if (refused) return refused;
        for (n = 0; n < answer[HUNTELM_BLOCK_COUNT]; n++) note(symbols, out + n * HUNTELM_SYMBOL_PLACES);
        values += 2 * answer[HUNTELM_BLOCK_TAKEN];
        left -= 2 * (size_t)answer[HUNTELM_BLOCK_TAKEN];
    }
    return HUNTELM_ACCEPTED;
}

/* Bounds so many thousandths to both sides of the nominal period. */
static void set_bounds(struct huntelm_sheet *sheet, int64_t thousandths) {
    int64_t nominal = sheet->places[HUNTELM_SHEET_PERIOD_NOMINAL], room = nominal * thousandths / 1000;
    sheet->places[HUNTELM_SHEET_PERIOD_MIN] = nominal - room;
    sheet->places[HUNTELM_SHEET_PERIOD_MAX] = nominal + room;
}

/*
 * Puts the wanted sheet into the state, with the closest of these bounds that the period is inside of. Whoever must have the closest waits instead and asks
 * again before a later block, since the period moves with every symbol. Answers 0, or the number of the refusal.
 */
static uint32_t retune(struct huntelm_state *state, struct huntelm_sheet *wanted) {
    static const int64_t thousandths[] = {2, 5, 10, 20};
    uint32_t refused = HUNTELM_REFUSED_STATE;
    uint64_t ticket;
    size_t n;
    printf("half of kp, eight times ki, and the period within so many thousandths of the nominal one\n");
    for (n = 0; n < sizeof thousandths / sizeof *thousandths && refused == HUNTELM_REFUSED_STATE; n++) {
        set_bounds(wanted, thousandths[n]);
        refused = huntelm_state_ask(state, wanted, &ticket);
        printf("  %" PRId64 " thousandths: ", thousandths[n]);
        if (refused) printf("refused, number %" PRIu32 ": %s\n", refused, refusals[refused]);
        else printf("accepted, ticket %" PRIu64 "\n", ticket);
    }
    return refused ? refused : huntelm_state_commit(state, wanted, ticket);
}

/* Half of the proportional gain and eight times the integral one. Taps and delay have to stay; here the banks do too. */
static struct huntelm_sheet other_gains(const struct huntelm_sheet *sheet) {
    struct huntelm_sheet wanted = *sheet;
    wanted.places[HUNTELM_SHEET_KP_SHIFT] += 1;
    wanted.places[HUNTELM_SHEET_KI_SHIFT] -= 3;
    return wanted;
}

/* Takes all values and prints how their symbols spread. Answers 1, or 0 where something is wrong, which it reports. */
static int report(const struct recording *r, const char *how, struct huntelm_state *state, const struct huntelm_sheet *sheet, const int16_t *values,
                  size_t length) {
    static struct symbols symbols;
    int64_t first = state->places[HUNTELM_STATE_SAMPLES];
    uint32_t refused;
    symbols.count = 0;
    refused = take(state, sheet, values, length, &symbols);
    if (refused) return !refuse(r, "the block", refused);
    if (symbols.count < LAST) return !fail(r, "too few symbols to say how they spread");
    printf("samples %" PRId64 " to %" PRId64 ", %s\n", first, state->places[HUNTELM_STATE_SAMPLES] - 1, how);
    printf("  %zu symbols, the first with the period %" PRId64 "; spread over the last %d: period %.0f parts in a million, output %.3f\n",
           symbols.count, symbols.first_period, LAST, 1e6 * spread(symbols.periods), spread(symbols.sizes));
    return 1;
}

static int compare(const struct recording *r, struct receiver *rx, const int16_t *values, size_t length) {
    size_t half = length / 4 * 2, rest = length - half;
    struct huntelm_sheet wanted = other_gains(&rx->sheet);
    struct huntelm_state copy;
    uint32_t refused;
    if (!report(r, "under the recording's sheet", &rx->state, &rx->sheet, values, half)) return 1;
    copy = rx->state;
    refused = retune(&rx->state, &wanted);
    if (refused) return refuse(r, "the retune", refused);
    printf("  committed; the period was %" PRId64 " and is %" PRId64 "\n", copy.places[HUNTELM_STATE_PERIOD], rx->state.places[HUNTELM_STATE_PERIOD]);
    if (!report(r, "without the retune", &copy, &rx->sheet, values + half, rest)) return 1;
    return !report(r, "with the retune", &rx->state, &wanted, values + half, rest);
}

static int run(struct recording *r) {
    static struct receiver rx;
    static int16_t values[2 * PAIRS];
    size_t length;
    if (!start(&rx, r) || !read_pairs(r, values, PAIRS, &length)) return 1;
    return compare(r, &rx, values, length);
}

int main(int words, char **word) {
    return with_recording(words, word, "retune FILE: takes half of a recording, gives the receiver other loop gains, and takes the other half", run);
}
