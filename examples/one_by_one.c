/*
 * one_by_one FILE: the symbols of a recording, taken as a receiver's firmware takes them, one sample after another.
 *
 * The file is what the symbol program reads: a line with the 18 fields of a sheet, 64 rows of each of the banks h, g and k, then a pair I,Q a line, all in
 * decimal and separated by commas. It prints each symbol's 20 places and then the end line, as the symbol program does. What is wrong goes to standard
 * error, with the line, and the exit status is then 1.
 */
#include "recording.h"

static void print_symbol(const int64_t *symbol) {
    size_t n;
    for (n = 0; n < HUNTELM_SYMBOL_PLACES; n++) printf("%" PRId64 "%c", symbol[n], n + 1 < HUNTELM_SYMBOL_PLACES ? ',' : '\n');
}

/*
 * Takes all values, I before Q, and prints their symbols. Answers 0, or the number of a refusal.
 *
 * A call takes no more pairs than it has room for a symbol each, here one, and says how many these were. So the rest is offered again: whoever supposes that
 * all was taken loses samples, and no refusal says so. Each call that is not refused takes a pair at least, so the loop ends, however many values there are.
 */
static uint32_t take(struct receiver *rx, const int16_t *values, size_t left) {
    int64_t symbol[HUNTELM_SYMBOL_PLACES], answer[HUNTELM_BLOCK_PLACES];
    while (left > 0) {
        uint32_t refused = huntelm_state_block(&rx->state, &rx->sheet, values, left, symbol, HUNTELM_SYMBOL_PLACES, answer);
        if (refused) return refused;
        if (answer[HUNTELM_BLOCK_COUNT] == 1) print_symbol(symbol);
        values += 2 * answer[HUNTELM_BLOCK_TAKEN];
        left -= 2 * (size_t)answer[HUNTELM_BLOCK_TAKEN];
    }
    return HUNTELM_ACCEPTED;
}

static int run(struct recording *r) {
    static struct receiver rx;
    const int64_t *end = rx.state.places;
    int16_t values[2];
    int found;
    if (!start(&rx, r)) return 1;
    while ((found = read_pair(r, values)) == 1) {
        uint32_t refused = take(&rx, values, 2);
        if (refused) return refuse(r, "the pair", refused);
    }
    if (found < 0) return 1;
    printf("end,%" PRId64 ",%" PRId64 ",%" PRId64 "\n", end[HUNTELM_STATE_SAMPLES], end[HUNTELM_STATE_SYMBOLS], end[HUNTELM_STATE_T]);
    return 0;
}

int main(int words, char **word) {
    return with_recording(words, word, "one_by_one FILE: prints the symbols of a recording", run);
}
