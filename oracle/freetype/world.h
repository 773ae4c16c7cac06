/* A case's world: 34 words of state and fifteen lists, in one row of words. */
#ifndef WORLD_H
#define WORLD_H

#include <stddef.h>
#include <stdint.h>

enum {
    STATE_WORDS = 34,
    LIST_COUNT = 15,
    MOST_POINTS = 65535,
    MOST_CONTOURS = 65535,
    MOST_CONTROL_VALUES = 16384,
    MOST_SHEET_WORDS = 262144
};

/* The state's words. */
enum {
    PROJECTION = 0,
    DUAL = 2,
    FREEDOM = 4,
    MODE = 6,
    THRESHOLD = 7,
    PHASE = 8,
    PERIOD = 9,
    REFERENCES = 10,
    LOOP = 16,
    ZONES = 17,
    COMPATIBLE = 20,
    PEDANTIC = 21,
    X_DONE = 23,
    Y_DONE = 24,
    CUT_IN = 25,
    WRAPPED = 26, /* FreeType has no such count: it stays as it is */
    MINIMUM_DISTANCE = 27,
    SINGLE_WIDTH = 28,
    SINGLE_WIDTH_CUT_IN = 29,
    AUTO_FLIP = 30,
    SCALE = 31,
    LAST_PUSHED = 32,
    PUSHES = 33
};

/* The lists; a list of y stands right after its list of x. */
enum {
    UNSCALED_X = 0,
    ORIGINAL_X = 2,
    CURRENT_X = 4,
    FLAGS = 6,
    CONTOURS = 7,
    TWILIGHT_ORIGINAL_X = 8,
    TWILIGHT_CURRENT_X = 10,
    TWILIGHT_FLAGS = 12,
    CONTROL_VALUES = 13,
    SHEET = 14
};

typedef struct {
    uint32_t *at;
    size_t length;
} List;

/* The state's words come first in the row, then the lists in full. */
typedef struct {
    uint32_t *state;
    size_t words;
    List list[LIST_COUNT];
} World;

static inline uint64_t joined(const uint32_t *halves)
{
    return halves[0] | (uint64_t)halves[1] << 32;
}

#endif
