/*
 * dish_gain FILE: sets the gain of a dish as an installer does, by what is clipped: lowers it until a block has no clips.
 *
 * The file is a recording, as recording.h reads it, and here it plays the dish: at a gain of 0 dB the samples are those of the file, and at a higher one they
 * are as much larger, to the ends of 16 bits, where the converter behind the dish cuts them. In a receiver `listen` waits for samples, and the gain is set in
 * the hardware.
 *
 * It prints a line for each gain that it tries. What is wrong goes to standard error, and the exit status is then 1.
 */
#include "recording.h"

/* Most pairs of a block, and how many symbols a call has room for. */
#define PAIRS 100000
#define ROOM 256

/* The gain to begin with and the step down, in dB. */
#define HIGHEST 24
#define STEP 3

/* The samples of a dish at 0 dB. */
struct dish {
    int16_t values[2 * PAIRS];
    size_t length;
};

/* What a block has: its symbols, and how many of their numbers were clipped. */
struct block {
    int64_t symbols, clips;
};

/* So many times as large are samples at 0, 3, 6 .. dB, in thousandths. */
static const int32_t times[] = {1000, 1413, 1995, 2818, 3981, 5623, 7943, 11220, 15849};

static int16_t cut(int32_t value) {
    return (int16_t)(value < INT16_MIN ? INT16_MIN : value > INT16_MAX ? INT16_MAX : value);
}

/* The next samples that the dish gives at this gain. */
static void listen(const struct dish *dish, int gain, int16_t *values) {
    size_t n;
    for (n = 0; n < dish->length; n++) values[n] = cut(dish->values[n] * times[gain / STEP] / 1000);
}

/* Takes all values and adds up what each call says of those that it took. The symbols themselves are not used here. Answers 0, or the number of a refusal. */
static uint32_t take(struct receiver *rx, const int16_t *values, size_t left, struct block *block) {
    static int64_t symbols[ROOM * HUNTELM_SYMBOL_PLACES];
    int64_t answer[HUNTELM_BLOCK_PLACES];
    block->symbols = block->clips = 0;
    while (left > 0) {
        uint32_t refused = huntelm_state_block(&rx->state, &rx->sheet, values, left, symbols, ROOM * HUNTELM_SYMBOL_PLACES, answer);
        if (refused) return refused;
        block->symbols += answer[HUNTELM_BLOCK_COUNT];
        block->clips += answer[HUNTELM_BLOCK_CLIPS];
        values += 2 * answer[HUNTELM_BLOCK_TAKEN];
        left -= 2 * (size_t)answer[HUNTELM_BLOCK_TAKEN];
    }
    return HUNTELM_ACCEPTED;
}

/*
 * Two blocks at this gain, of which the second counts: in the first the filters still have samples from before the gain was changed, and the gain loop has
 * not followed yet.
 */
static uint32_t poll_clips(struct receiver *rx, const struct dish *dish, int gain, struct block *block) {
    static int16_t values[2 * PAIRS];
    uint32_t refused;
    listen(dish, gain, values);
    refused = take(rx, values, dish->length, block);
    if (refused) return refused;
    listen(dish, gain, values);
    return take(rx, values, dish->length, block);
}

/* Lowers the gain until nothing is clipped. Where that does not help, the gain loop aims too high for the signal (docs/GUIDE.md). */
static int set_gain(struct receiver *rx, const struct dish *dish, const struct recording *r) {
    int gain;
    for (gain = HIGHEST; gain >= 0; gain -= STEP) {
        struct block block;
        uint32_t refused = poll_clips(rx, dish, gain, &block);
        if (refused) return refuse(r, "the block", refused);
        /* A block without symbols has no clips either, and says nothing. */
        if (block.symbols == 0) return fail(r, "too few samples for a symbol");
        printf("%2d dB: %" PRId64 " clips in %" PRId64 " symbols: %s\n", gain, block.clips, block.symbols, block.clips ? "lower the gain" : "leave it there");
        if (block.clips == 0) return 0;
    }
    fprintf(stderr, "%s: clips at the lowest gain too, so it is not the dish's that is too high\n", r->name);
    return 1;
}

static int run(struct recording *r) {
    static struct receiver rx;
    static struct dish dish;
    if (!start(&rx, r) || !read_pairs(r, dish.values, PAIRS, &dish.length)) return 1;
    return set_gain(&rx, &dish, r);
}

int main(int words, char **word) {
    return with_recording(words, word, "dish_gain FILE: lowers the gain of a dish, played by a recording, until nothing is clipped", run);
}
