/* Document 01's whole run: SVTCA to the y axis, MDAP with rounding at point 0, IUP on y, over a glyph of three points.
 * Prints number, place, lines and detail, then x, y and flag of each point. */
#include <inttypes.h>
#include <stdio.h>

#include "taleviqa.h"

#define POINTS 3

int main(void)
{
    uint32_t state[TALEVIQA_STATE_WORDS] = TALEVIQA_FRESH_STATE;
    const int32_t sheet[] = {0x00, 0, 0x2f, 1, 0, 0x30, 0};
    const int32_t unscaled_x[POINTS] = {0, 0, 0}, unscaled_y[POINTS] = {40, 100, 130};
    const int32_t original_x[POINTS] = {0, 0, 0}, original_y[POINTS] = {40, 100, 130};
    int32_t x[POINTS] = {0, 0, 0}, y[POINTS] = {40, 100, 130};
    uint8_t flags[POINTS] = {1, 1, 1};
    const uint16_t contours[] = {2};
    uint64_t answer[TALEVIQA_ANSWER_WORDS];

    taleviqa_run(TALEVIQA_RULES_FREETYPE, 0, 3, state, TALEVIQA_STATE_WORDS, sheet, sizeof sheet / sizeof sheet[0], NULL, 0,
                 unscaled_x, POINTS, unscaled_y, POINTS, original_x, POINTS, original_y, POINTS,
                 x, POINTS, y, POINTS, flags, POINTS, contours, 1,
                 NULL, 0, NULL, 0, NULL, 0, NULL, 0, NULL, 0, answer, TALEVIQA_ANSWER_WORDS);

    printf("%" PRIu64 " %" PRIu64 " %" PRIu64 " %" PRIu64 "\n",
           answer[TALEVIQA_NUMBER], answer[TALEVIQA_PLACE], answer[TALEVIQA_LINES], answer[TALEVIQA_DETAIL]);
    for (int i = 0; i < POINTS; i++)
        printf("%" PRId32 " %" PRId32 " %d\n", x[i], y[i], flags[i]);
    return answer[TALEVIQA_NUMBER] == TALEVIQA_FINISHED ? 0 : 1;
}
