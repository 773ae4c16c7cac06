/* A sheet of so many lines of one kind, run once through the library. `bench/lines` counts the instructions of two lengths and takes the difference, and
 * says what stands in the place of RULES: the number of skrifa's rules, under which every library does the same, or nothing for one that has no rules. */
#include <stdint.h>
#include <stdio.h>
#include <stdlib.h>
#include <string.h>

#include "taleviqa.h"

#define POINTS 64
#define CONTROLS 16

struct kind {
    const char *name;
    int32_t words[8];
    int length;
    int twilight; /* every zone pointer names the twilight zone */
};

/* vectors on x, Grid, references 0, 1 and 2 */
static const struct kind kinds[] = {
    {"MDAP[0]", {0x2e, 1, 5}, 3, 0},         {"MDAP[1]", {0x2f, 1, 5}, 3, 0},     {"MDAP[1], twilight", {0x2f, 1, 5}, 3, 1},
    {"MIAP[0]", {0x3e, 2, 3, 5}, 4, 0},      {"MIAP[1]", {0x3f, 2, 3, 5}, 4, 0},  {"MIAP[1], twilight", {0x3f, 2, 3, 5}, 4, 1},
    {"MSIRP[0]", {0x3a, 2, 64, 5}, 4, 0},    {"MSIRP[0], twilight", {0x3a, 2, 64, 5}, 4, 1},
    {"ALIGNRP", {0x3c, 1, 5}, 3, 0},         {"SHP[0]", {0x32, 1, 5}, 3, 0},      {"SHPIX", {0x38, 2, 64, 5}, 4, 0},
    {"ISECT", {0x0f, 5, 4, 3, 2, 1, 5}, 7, 0}, {"FLIPPT", {0x80, 1, 5}, 3, 0},    {"FLIPRGON", {0x81, 2, 5, 5}, 4, 0},
    {"SHC[0] of 64", {0x34, 1, 0}, 3, 0},    {"SHZ[0] of 64", {0x36, 1, 1}, 3, 0}, {"SRP0", {0x10, 1, 0}, 3, 0},
    {"RTG", {0x18, 0}, 2, 0},                {"SVTCA[x]", {0x01, 0}, 2, 0},       {"SLOOP", {0x17, 1, 1}, 3, 0},
};

int main(int argc, char **argv)
{
    const struct kind *kind = NULL;
    size_t kinds_length = sizeof kinds / sizeof kinds[0];
    if (argc == 1) {
        for (size_t i = 0; i < kinds_length; i++) puts(kinds[i].name);
        return 0;
    }
    for (size_t i = 0; i < kinds_length; i++)
        if (!strcmp(argv[1], kinds[i].name)) kind = &kinds[i];
    if (!kind || argc != 3) return 2;
    size_t lines = strtoul(argv[2], NULL, 10), length = lines * (size_t)kind->length;
    int32_t *sheet = malloc((length + 1) * sizeof *sheet);
    for (size_t i = 0; i < lines; i++) memcpy(sheet + i * (size_t)kind->length, kind->words, (size_t)kind->length * sizeof *sheet);
    uint32_t state[TALEVIQA_STATE_WORDS] = TALEVIQA_FRESH_STATE;
    state[12] = 1; /* rp1 */
    state[14] = 2; /* rp2 */
    if (kind->twilight) state[17] = state[18] = state[19] = 0;
    int32_t unscaled[2][POINTS], original[2][POINTS], current[2][POINTS], controls[CONTROLS], tox[POINTS], toy[POINTS], tx[POINTS], ty[POINTS];
    uint8_t flags[POINTS], tflags[POINTS];
    uint16_t contours[] = {POINTS - 1};
    for (int i = 0; i < POINTS; i++) {
        unscaled[0][i] = 37 * i; unscaled[1][i] = 53 * (i % 7);
        original[0][i] = 64 * i + 11; original[1][i] = 90 * (i % 7) + 5;
        current[0][i] = 64 * i + 29; current[1][i] = 90 * (i % 7) + 20;
        tox[i] = tx[i] = 70 * i; toy[i] = ty[i] = 33 * i;
        flags[i] = 1; tflags[i] = 0;
    }
    for (int i = 0; i < CONTROLS; i++) controls[i] = 100 * i + 7;
    uint64_t answer[TALEVIQA_ANSWER_WORDS];
    taleviqa_run(RULES 0, lines, state, TALEVIQA_STATE_WORDS, sheet, length, controls, CONTROLS, unscaled[0], POINTS, unscaled[1], POINTS, original[0], POINTS, original[1], POINTS,
                 current[0], POINTS, current[1], POINTS, flags, POINTS, contours, 1, tox, POINTS, toy, POINTS, tx, POINTS, ty, POINTS, tflags, POINTS, answer, TALEVIQA_ANSWER_WORDS);
    uint64_t sum = answer[TALEVIQA_LINES];
    for (int i = 0; i < POINTS; i++) sum = sum * 31 + (uint32_t)current[0][i] + 7u * (uint32_t)current[1][i] + flags[i] + (uint32_t)tx[i] + (uint32_t)tox[i] + (uint32_t)ty[i] + tflags[i];
    printf("%llu %llu %llu\n", (unsigned long long)answer[TALEVIQA_NUMBER], (unsigned long long)answer[TALEVIQA_LINES], (unsigned long long)sum);
    return 0;
}
