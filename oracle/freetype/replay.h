/* What document 01 adds to FreeType: entry tests, sheets, answers, direct calls. */
#ifndef REPLAY_H
#define REPLAY_H

#include "world.h"

/* 01's answers that the driver gives, and document 02's for contour ends. FreeType names no index, so that the
   detail of a point or control value that it refuses is 0. */
enum {
    END = 0,
    BUDGET = 1,
    SIZES = 2,
    STATE = 3,
    LINE = 4,
    TOO_MANY = 5,
    MISSING = 6,
    POINT = 7,
    ZONE = 9,
    LOOP_BELOW_ZERO = 10,
    ENDS = 14
};

typedef struct {
    uint32_t number;
    uint64_t place, lines, detail;
    uint32_t value[2];
} Outcome;

/* The words of a call's arguments, as docs/ORACLE.md has them; whether contour
   ends are taken as they are. */
typedef struct {
    uint32_t kind;
    const uint32_t *arguments;
    uint64_t start, budget;
    int any_ends;
} Call;

/* 0 if FreeType has no such call. */
int replay_call(World *world, const Call *call, Outcome *outcome);

#endif
