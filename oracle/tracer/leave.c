/* usage: leave <records >after
 *
 * Replays frames of records with the proved library, under the rules freetype, and writes of each a frame with all that it leaves: the answer's
 * four numbers, the state, x, y and flags of the glyph, and the five lists of the twilight zone. The program replay_records prints the answer
 * and the glyph alone. The records are the tracer's own, of edition 3, so their counts are taken as they stand once they are seen to fill the record;
 * they may be longer than a record may be, for the library has no such limit. */
#include <stdint.h>
#include <stdio.h>
#include <stdlib.h>

#include "taleviqa.h"

enum { MOST_WORDS = 1 << 20, TRAILER_WORDS = 8 };

static int32_t record[MOST_WORDS];
static uint8_t flags[MOST_WORDS], twilight_flags[MOST_WORDS];
static uint16_t contours[MOST_WORDS];

static void fail(const char *what)
{
    fprintf(stderr, "leave: %s\n", what);
    exit(2);
}

/* How many words the next record has; 0 at the end. */
static size_t read_record(void)
{
    uint32_t size;
    size_t got = fread(&size, 1, sizeof size, stdin);
    if (got == 0)
        return 0;
    if (got != sizeof size || size > sizeof record || size % 4 || size < 4 * (TALEVIQA_STATE_WORDS + TRAILER_WORDS))
        fail("no frame of a record");
    if (fread(record, 1, size, stdin) != size)
        fail("the input ends within a record");
    return size / 4;
}

static void put_words(const void *words, size_t count)
{
    if (fwrite(words, 4, count, stdout) != count)
        fail("the output was not written whole");
}

static void put_bytes(const uint8_t *bytes, size_t count)
{
    for (size_t k = 0; k < count; k++) {
        uint32_t word = bytes[k];
        put_words(&word, 1);
    }
}

static void replay(size_t words)
{
    const int32_t *trailer = record + words - TRAILER_WORDS;
    size_t n = (size_t)trailer[0], c = (size_t)trailer[1], m = (size_t)trailer[2], v = (size_t)trailer[3], s = (size_t)trailer[4];
    if (TALEVIQA_STATE_WORDS + 7 * n + c + 5 * m + v + s + TRAILER_WORDS != words)
        fail("a record's counts are not its length");
    int32_t *glyph = record + TALEVIQA_STATE_WORDS, *twilight = glyph + 7 * n + c;
    const int32_t *values = twilight + 5 * m, *sheet = values + v;
    uint64_t answer[TALEVIQA_ANSWER_WORDS];
    for (size_t k = 0; k < n; k++)
        flags[k] = (uint8_t)glyph[6 * n + k];
    for (size_t k = 0; k < c; k++)
        contours[k] = (uint16_t)glyph[7 * n + k];
    for (size_t k = 0; k < m; k++)
        twilight_flags[k] = (uint8_t)twilight[4 * m + k];
    taleviqa_run(TALEVIQA_RULES_FREETYPE, 0, s, (uint32_t *)record, TALEVIQA_STATE_WORDS, sheet, s, values, v, glyph, n, glyph + n, n, glyph + 2 * n, n,
                 glyph + 3 * n, n, glyph + 4 * n, n, glyph + 5 * n, n, flags, n, contours, c, twilight, m, twilight + m, m, twilight + 2 * m, m,
                 twilight + 3 * m, m, twilight_flags, m, answer, TALEVIQA_ANSWER_WORDS);
    uint32_t size = (uint32_t)(4 * (TALEVIQA_ANSWER_WORDS + TALEVIQA_STATE_WORDS + 3 * n + 5 * m));
    uint32_t said[TALEVIQA_ANSWER_WORDS];
    for (int k = 0; k < TALEVIQA_ANSWER_WORDS; k++)
        said[k] = (uint32_t)answer[k];
    put_words(&size, 1);
    put_words(said, TALEVIQA_ANSWER_WORDS);
    put_words(record, TALEVIQA_STATE_WORDS);
    put_words(glyph + 4 * n, 2 * n);
    put_bytes(flags, n);
    put_words(twilight, 4 * m);
    put_bytes(twilight_flags, m);
}

int main(void)
{
    for (size_t words = read_record(); words; words = read_record())
        replay(words);
    if (fflush(stdout) || ferror(stdout))
        fail("the output was not written whole");
    return 0;
}
