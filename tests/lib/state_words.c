/* What a call from C does by the number of its state words. Of any other number than TALEVIQA_STATE_WORDS, as of a caller that was built when the state
 * had no count of wrapped roundings or nothing after it, it answers 16 and changes nothing but the answer; with all of them it counts. Prints what is
 * amiss. */
#include <inttypes.h>
#include <stdio.h>
#include <string.h>

#include "taleviqa.h"

#define LENGTH(list) (sizeof(list) / sizeof((list)[0]))

/* The words of a state before it had the count, and before it had anything after that. */
enum { OLDER_STATE_WORDS = TALEVIQA_WRAPPED_ROUNDINGS, OLD_STATE_WORDS = TALEVIQA_MINIMUM_DISTANCE };

/* SVTCA to the y axis; MDAP with rounding at point 0. */
static const int32_t sheet[] = {0x00, 0, 0x2f, 1, 0};
enum { MDAP = 2 };

/* Every list that a call may change but the answer; the state with a word more than it has. */
struct world {
    uint32_t state[TALEVIQA_STATE_WORDS + 1];
    int32_t x[1], y[1], twilight_original_x[1], twilight_original_y[1], twilight_x[1], twilight_y[1];
    uint8_t flags[1], twilight_flags[1];
};

static int amiss = 0;

static struct world made(int32_t y, uint32_t count)
{
    static const uint32_t fresh[TALEVIQA_STATE_WORDS] = TALEVIQA_FRESH_STATE;
    struct world w;

    memset(&w, 0, sizeof w);
    memcpy(w.state, fresh, sizeof fresh);
    w.state[TALEVIQA_WRAPPED_ROUNDINGS] = count;
    w.y[0] = y;
    w.flags[0] = 1;
    return w;
}

static uint32_t run(struct world *w, size_t start, size_t state_length, uint64_t answer[TALEVIQA_ANSWER_WORDS])
{
    static const int32_t none[1] = {0};
    static const uint16_t contours[] = {0};

    return taleviqa_run(TALEVIQA_RULES_FREETYPE, start, 2, w->state, state_length, sheet, LENGTH(sheet), NULL, 0,
                        none, LENGTH(none), none, LENGTH(none), none, LENGTH(none), none, LENGTH(none),
                        w->x, LENGTH(w->x), w->y, LENGTH(w->y), w->flags, LENGTH(w->flags), contours, LENGTH(contours),
                        w->twilight_original_x, LENGTH(w->twilight_original_x), w->twilight_original_y, LENGTH(w->twilight_original_y),
                        w->twilight_x, LENGTH(w->twilight_x), w->twilight_y, LENGTH(w->twilight_y),
                        w->twilight_flags, LENGTH(w->twilight_flags), answer, TALEVIQA_ANSWER_WORDS);
}

/* A number of words that is no state's: 16, the start, and nothing else. */
static void refused(size_t state_length)
{
    struct world before = made(INT32_MAX, 7), after;
    uint64_t answer[TALEVIQA_ANSWER_WORDS] = {99, 99, 99, 99};
    static const uint64_t wanted[TALEVIQA_ANSWER_WORDS] = {TALEVIQA_BAD_WORD, MDAP, 0, 0};
    uint32_t number;

    memcpy(&after, &before, sizeof after);
    number = run(&after, MDAP, state_length, answer);
    if (number != TALEVIQA_BAD_WORD || memcmp(answer, wanted, sizeof wanted) != 0) {
        printf("%zu state words: returns %" PRIu32 ", the answer is %" PRIu64 " %" PRIu64 " %" PRIu64 " %" PRIu64 "\n",
               state_length, number, answer[TALEVIQA_NUMBER], answer[TALEVIQA_PLACE], answer[TALEVIQA_LINES], answer[TALEVIQA_DETAIL]);
        amiss = 1;
    }
    if (memcmp(&after, &before, sizeof after) != 0) {
        printf("%zu state words: a state or a list has changed\n", state_length);
        amiss = 1;
    }
}

/* A whole state: the point is rounded, and the count is what it should be. */
static void counts(int32_t y, uint32_t before, int32_t rounded, uint32_t after)
{
    struct world w = made(y, before);
    uint64_t answer[TALEVIQA_ANSWER_WORDS];
    uint32_t number = run(&w, 0, TALEVIQA_STATE_WORDS, answer);

    if (number != TALEVIQA_FINISHED || w.y[0] != rounded || w.state[TALEVIQA_WRAPPED_ROUNDINGS] != after) {
        printf("y %" PRId32 " with the count %" PRIu32 ": returns %" PRIu32 ", y is %" PRId32 ", the count %" PRIu32 "\n",
               y, before, number, w.y[0], w.state[TALEVIQA_WRAPPED_ROUNDINGS]);
        amiss = 1;
    }
}

int main(void)
{
    refused(0);
    refused(OLDER_STATE_WORDS - 1);
    refused(OLDER_STATE_WORDS);
    refused(OLD_STATE_WORDS);
    refused(TALEVIQA_STATE_WORDS - 1);
    refused(TALEVIQA_STATE_WORDS + 1);
    counts(40, 0, 64, 0);
    counts(40, 7, 64, 7);
    counts(INT32_MAX, 0, 0, 1);
    counts(INT32_MAX, UINT32_MAX - 1, 0, UINT32_MAX);
    counts(INT32_MAX, UINT32_MAX, 0, UINT32_MAX);
    return amiss;
}
