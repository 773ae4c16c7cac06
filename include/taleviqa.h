/* Taleviqa for C: a call that replays a sheet of TrueType hinting over a glyph and a twilight zone, and two that do so as the sheet arrives in pieces.
 *
 * Link with release/lib/libtaleviqa.a (x86-64 Linux), which is what the proved sources build to:
 *
 *     gcc -Iinclude examples/whole_run.c release/lib/libtaleviqa.a -o whole_run
 *
 * A list is two arguments, a pointer and how many elements it has, in the order below. A list without elements may have any pointer, NULL too.
 * What is not const is changed in place. The lists that are changed must not overlap any other list. Nothing is kept after the call but
 * in the lists.
 *
 * Every input has one answer, and the call always returns: see docs/PROMISES.md for what is proved. examples/whole_run.c shows a call.
 */
#ifndef TALEVIQA_H
#define TALEVIQA_H

#include <stddef.h>
#include <stdint.h>

#ifdef __cplusplus
extern "C" {
#endif

/* The rules that a sheet is replayed under, by numbers that never change: the first argument of each call. docs/RULE-EDITIONS.md says what each
 * changes; they differ in one thing, what MSIRP makes a twilight point from. */
enum taleviqa_rules {
    TALEVIQA_RULES_SKRIFA = 0,  /* the Rust's, skrifa 0.49.0: from the point's own original. Every call was under these before there was a choice */
    TALEVIQA_RULES_FREETYPE = 1 /* the public reference's, FreeType 2.13.3: from rp0's original. bin/replay and its kin go by these */
};

/* The state, as words of 32 bits. A signed number is its two's complement. */
enum taleviqa_state_word {
    TALEVIQA_PROJECTION_X = 0, /* vectors: 2.14 numbers from -0x4000 to 0x4000 */
    TALEVIQA_PROJECTION_Y = 1,
    TALEVIQA_DUAL_X = 2,
    TALEVIQA_DUAL_Y = 3,
    TALEVIQA_FREEDOM_X = 4,
    TALEVIQA_FREEDOM_Y = 5,
    TALEVIQA_ROUND_MODE = 6, /* see taleviqa_round_mode */
    TALEVIQA_ROUND_THRESHOLD = 7,
    TALEVIQA_ROUND_PHASE = 8,
    TALEVIQA_ROUND_PERIOD = 9,
    TALEVIQA_RP0_LOW = 10, /* reference points: 64 bits, the low word first */
    TALEVIQA_RP0_HIGH = 11,
    TALEVIQA_RP1_LOW = 12,
    TALEVIQA_RP1_HIGH = 13,
    TALEVIQA_RP2_LOW = 14,
    TALEVIQA_RP2_HIGH = 15,
    TALEVIQA_LOOP = 16,
    TALEVIQA_ZP0 = 17, /* zone pointers: 0 twilight, 1 glyph */
    TALEVIQA_ZP1 = 18,
    TALEVIQA_ZP2 = 19,
    TALEVIQA_BACKWARD_COMPATIBILITY = 20, /* facts: 0 no, 1 yes */
    TALEVIQA_PEDANTIC = 21,
    TALEVIQA_NATIVE_CLEAR_TYPE_X = 22,
    TALEVIQA_DID_IUP_X = 23,
    TALEVIQA_DID_IUP_Y = 24,
    TALEVIQA_CUT_IN = 25, /* control value cut-in, in 64ths of a pixel */
    TALEVIQA_WRAPPED_ROUNDINGS = 26, /* roundings of MDAP, MIAP, MDRP and MIRP that went past 32 bits on their way; stops at 4294967295 */
    TALEVIQA_MINIMUM_DISTANCE = 27, /* of MDRP and MIRP, in 64ths of a pixel */
    TALEVIQA_SINGLE_WIDTH = 28,
    TALEVIQA_SINGLE_WIDTH_CUT_IN = 29,
    TALEVIQA_AUTO_FLIP = 30, /* a fact: 0 no, 1 yes */
    TALEVIQA_SCALE = 31, /* from font units to 64ths of a pixel, 16.16: 0x10000 is 1 */
    TALEVIQA_LAST_PUSHED = 32, /* what GC or MD pushed last */
    TALEVIQA_PUSHES = 33, /* how often they did; stops at 4294967295 */
    /* How many words a state has, no more and no fewer. A caller that was built when the state had 26, without the count of wrapped roundings, or
     * 27, without those after it, is refused with 16 on every call: nothing is changed but the answer, until it is built with this header. */
    TALEVIQA_STATE_WORDS = 34
};

/* The edition of the record that holds these words. Edition 2 has all up to the count of wrapped roundings, edition 1 all before it; what they
 * haven't is as in TALEVIQA_FRESH_STATE. */
enum { TALEVIQA_RECORD_EDITION = 3 };

enum taleviqa_round_mode {
    TALEVIQA_GRID = 0,
    TALEVIQA_HALF_GRID = 1,
    TALEVIQA_DOUBLE_GRID = 2,
    TALEVIQA_DOWN_TO_GRID = 3,
    TALEVIQA_UP_TO_GRID = 4,
    TALEVIQA_ROUND_OFF = 5,
    TALEVIQA_SUPER = 6,
    TALEVIQA_SUPER_45 = 7
};

/* The state that a glyph starts with: uint32_t state[TALEVIQA_STATE_WORDS] = TALEVIQA_FRESH_STATE; */
#define TALEVIQA_FRESH_STATE \
    { 0x4000, 0, 0x4000, 0, 0x4000, 0, TALEVIQA_GRID, 0, 0, 64, 0, 0, 0, 0, 0, 0, 1, 1, 1, 1, 0, 0, 0, 0, 0, 68, 0, 64, 0, 0, 1, 0, 0, 0 }

/* What the call says: the places of the answer. */
enum taleviqa_answer_word {
    TALEVIQA_NUMBER = 0, /* see taleviqa_number; the call returns it too */
    TALEVIQA_PLACE = 1,  /* the sheet's word where the refused or the next line starts */
    TALEVIQA_LINES = 2,  /* lines finished in this call */
    TALEVIQA_DETAIL = 3, /* what a refusal is about, 0 where nothing is said below; a negative operand is widened with its sign to 64 bits */
    TALEVIQA_ANSWER_WORDS = 4
};

enum taleviqa_number {
    TALEVIQA_FINISHED = 0,      /* the place is the sheet's end: all lines are done */
    TALEVIQA_OUT_OF_BUDGET = 1, /* the budget is used and words remain: call again from the place */
    TALEVIQA_SIZES = 2,         /* lists of a zone of unequal length, or a size above its limit; nothing has changed */
    TALEVIQA_STATE = 3,         /* a vector out of range, or Super 45 with period 0; nothing has changed */
    TALEVIQA_LINE = 4,          /* a start beyond the sheet, an unknown opcode, or a count word that is missing, negative or past the end */
    TALEVIQA_SURPLUS = 5,       /* more operands than the line takes */
    TALEVIQA_MISSING = 6,       /* an operand is wanted and there is none left */
    TALEVIQA_POINT = 7,         /* a point outside its zone; detail: its number */
    TALEVIQA_CONTROL_VALUE = 8, /* a control value outside the list; detail: its number */
    TALEVIQA_ZONE_POINTER = 9,  /* a zone pointer that is neither 0 nor 1; detail: the operand */
    TALEVIQA_LOOP_COUNT = 10,   /* a negative loop count; detail: the operand */
    TALEVIQA_RANGE = 11,        /* FLIPRGON, FLIPRGOFF: a range of points that ends outside the glyph, or starts two or more above its end; detail: its start */
    TALEVIQA_CONTOUR = 12,      /* SHC, pedantic: a contour that the zone hasn't; detail: its number */
    TALEVIQA_COMPATIBILITY = 13, /* SHPIX under backward compatibility */
    TALEVIQA_ENDS = 14,         /* contour ends that don't rise, or one at or above the number of points; nothing has changed */
    TALEVIQA_BAD_WORD = 16,     /* no rules have that number, the state is not TALEVIQA_STATE_WORDS words, each within its range, or the answer not
                                 * TALEVIQA_ANSWER_WORDS; for a feed: not TALEVIQA_FEED_WORDS, or a number that no call says;
                                 * of an outline: slots that are not as many as they must be, or words that are no pen */
    TALEVIQA_LONG = 18,         /* a feed alone: a count above 4,096 */
    TALEVIQA_FAR = 19           /* an outline alone: a current coordinate of the glyph beyond 4,194,304 or -4,194,304 */
};

/* Replays the lines of the sheet from word `start` on, at most `budget` of them, under `rules`, one of taleviqa_rules.
 *
 * A line that is refused (4 to 13) leaves what the lines before it did, and for 6 and 7 what its own earlier steps did. After 16 only the
 * answer is written: 16, start, 0, 0, where it has four places.
 *
 * Until there were rules the call began with `start`. Source of that time doesn't compile with this header, for it has an argument too few:
 * TALEVIQA_RULES_SKRIFA in front of the others makes it do what it did. An object that was compiled with the older header isn't told by the linker
 * and must be compiled anew: each of its arguments stands where the one behind it is looked for, and what comes of such a call C leaves open. The
 * library then takes the sheet's address for the number of state words, so that it returns 16 before it reads a list, but no promise covers it.
 *
 * sheet: opcode word, count word, operands, and so on. Coordinates are in 64ths of a pixel, unscaled ones in font units.
 * glyph: unscaled, original and current x and y and the flags, all of one length; contours: the number of each contour's last point, each
 * above the one before it and below the number of points: with any others the answer is 14, after 2 and before 3.
 * twilight: original and current x and y and the flags, all of one length.
 * A flag byte has bit 0 on curve, bit 1 touched in x, bit 2 touched in y; other bits are kept.
 * At most 65,535 points in a zone, 65,535 contours, 16,384 control values and 262,144 words of sheet. */
uint32_t taleviqa_run(
    uint32_t rules,
    size_t start,
    uint64_t budget,
    uint32_t *state, size_t state_length,
    const int32_t *sheet, size_t sheet_length,
    const int32_t *control_values, size_t control_values_length,
    const int32_t *glyph_unscaled_x, size_t glyph_unscaled_x_length,
    const int32_t *glyph_unscaled_y, size_t glyph_unscaled_y_length,
    const int32_t *glyph_original_x, size_t glyph_original_x_length,
    const int32_t *glyph_original_y, size_t glyph_original_y_length,
    int32_t *glyph_x, size_t glyph_x_length,
    int32_t *glyph_y, size_t glyph_y_length,
    uint8_t *glyph_flags, size_t glyph_flags_length,
    const uint16_t *contours, size_t contours_length,
    int32_t *twilight_original_x, size_t twilight_original_x_length,
    int32_t *twilight_original_y, size_t twilight_original_y_length,
    int32_t *twilight_x, size_t twilight_x_length,
    int32_t *twilight_y, size_t twilight_y_length,
    uint8_t *twilight_flags, size_t twilight_flags_length,
    uint64_t *answer, size_t answer_length);

/* A feed: what is kept between its calls, beside the state and the carry. The first four are the answer of the call before.
 * A feed begins with uint64_t feed[TALEVIQA_FEED_WORDS] = TALEVIQA_FRESH_FEED; */
enum taleviqa_feed_word {
    TALEVIQA_FEED_NUMBER = 0, /* 1 while the feed can go on */
    TALEVIQA_FEED_PLACE = 1,  /* the word, counted from the feed's first, where the unfinished, the refused or the next line starts */
    TALEVIQA_FEED_LINES = 2,  /* lines finished in the call */
    TALEVIQA_FEED_DETAIL = 3, /* as in an answer */
    TALEVIQA_FEED_HELD = 4,   /* how many words of the carry are of the unfinished line */
    TALEVIQA_FEED_WORDS = 5
};

#define TALEVIQA_FRESH_FEED { 1, 0, 0, 0, 0 }

/* The carry has room for the longest line that may wait: opcode word, count word and 4,096 operands. What it holds before the first call is of no account. */
enum { TALEVIQA_CARRY_WORDS = 4098 };

/* Replays what has arrived of a sheet. A piece has any number of words, also none, and a line may be split anywhere; the lines are done as they become
 * whole, and the words of an unfinished one wait in the carry. 1 is returned while the feed can go on; only taleviqa_feed_end says 0.
 *
 * Each call tests sizes (2), contour ends (14) and the state (3) as a run does, also with an empty piece. The carry must have TALEVIQA_CARRY_WORDS words or
 * more and be as the call before left it, and the words of all pieces be no more than a sheet may have: else the answer is 2, with nothing of the piece
 * taken, and the feed has ended. A bad opcode is 4 when its word arrives, a negative count 4 and one above 4,096 18 when the count word does; surplus
 * operands (5) are refused once all of them are there.
 *
 * After a refusal every call on that feed returns the same number and changes nothing. After 16 only the feed is written: 16, its place, 0, 0, 0; a feed that
 * isn't TALEVIQA_FEED_WORDS long, or that begins with a number that no call says, is 16, and not even the feed is written.
 *
 * The words that are kept (state, feed, carry) and the lists go to each call of a feed as the one before left them. Any cutting of a sheet comes to the same
 * as one run over the whole, where the sheet is within its limit and no count above 4,096 is read (docs/PROMISES.md). */
uint32_t taleviqa_feed(
    uint32_t rules,
    uint32_t *state, size_t state_length,
    const int32_t *piece, size_t piece_length,
    int32_t *carry, size_t carry_length,
    const int32_t *control_values, size_t control_values_length,
    const int32_t *glyph_unscaled_x, size_t glyph_unscaled_x_length,
    const int32_t *glyph_unscaled_y, size_t glyph_unscaled_y_length,
    const int32_t *glyph_original_x, size_t glyph_original_x_length,
    const int32_t *glyph_original_y, size_t glyph_original_y_length,
    int32_t *glyph_x, size_t glyph_x_length,
    int32_t *glyph_y, size_t glyph_y_length,
    uint8_t *glyph_flags, size_t glyph_flags_length,
    const uint16_t *contours, size_t contours_length,
    int32_t *twilight_original_x, size_t twilight_original_x_length,
    int32_t *twilight_original_y, size_t twilight_original_y_length,
    int32_t *twilight_x, size_t twilight_x_length,
    int32_t *twilight_y, size_t twilight_y_length,
    uint8_t *twilight_flags, size_t twilight_flags_length,
    uint64_t *feed, size_t feed_length);

/* Says that no more words come: 0, or 4 at a line that is unfinished; the tests are those of each call. Nothing changes but the feed. */
uint32_t taleviqa_feed_end(
    const uint32_t *state, size_t state_length,
    const int32_t *carry, size_t carry_length,
    const int32_t *control_values, size_t control_values_length,
    const int32_t *glyph_unscaled_x, size_t glyph_unscaled_x_length,
    const int32_t *glyph_unscaled_y, size_t glyph_unscaled_y_length,
    const int32_t *glyph_original_x, size_t glyph_original_x_length,
    const int32_t *glyph_original_y, size_t glyph_original_y_length,
    const int32_t *glyph_x, size_t glyph_x_length,
    const int32_t *glyph_y, size_t glyph_y_length,
    const uint8_t *glyph_flags, size_t glyph_flags_length,
    const uint16_t *contours, size_t contours_length,
    const int32_t *twilight_original_x, size_t twilight_original_x_length,
    const int32_t *twilight_original_y, size_t twilight_original_y_length,
    const int32_t *twilight_x, size_t twilight_x_length,
    const int32_t *twilight_y, size_t twilight_y_length,
    const uint8_t *twilight_flags, size_t twilight_flags_length,
    uint64_t *feed, size_t feed_length);

/* The steps of an outline. */
enum taleviqa_step {
    TALEVIQA_STEP_NO_MORE = 0,
    TALEVIQA_STEP_MOVE = 1,  /* x, y: a contour starts */
    TALEVIQA_STEP_LINE = 2,  /* x, y */
    TALEVIQA_STEP_CURVE = 3, /* control x, control y, x, y: a quadratic curve */
    TALEVIQA_STEP_CLOSE = 4  /* the contour ends, back at its start */
};

/* How many slots an outline's calls take. The pen's words are the library's own but one: whether there is a box. */
enum {
    TALEVIQA_PEN_BOXED = 8, /* 1 where a point was handed out, else 0: then the box's slots say nothing */
    TALEVIQA_PEN_WORDS = 9,
    TALEVIQA_STEP_WORDS = 1,
    TALEVIQA_NUMBERS = 4,
    TALEVIQA_EDGES = 4 /* left, bottom, right, top: y goes up */
};

/* Begins the outline of a glyph as it stands: its current x and y, its flags and its contours, as after a run. Returns 0 and writes the pen; or 2, 14 or 19,
 * in this order, for a glyph that isn't drawn, or 16 where the pen is not TALEVIQA_PEN_WORDS words. Then nothing is changed. Every point is looked at for
 * 19, drawn or not. */
uint32_t taleviqa_outline_begin(
    const int32_t *glyph_x, size_t glyph_x_length,
    const int32_t *glyph_y, size_t glyph_y_length,
    const uint8_t *glyph_flags, size_t glyph_flags_length,
    const uint16_t *contours, size_t contours_length,
    uint64_t *pen, size_t pen_length);

/* Hands out the next step. Returns 0, writes the step's number (taleviqa_step) and its four numbers, and moves the pen and the box on; the numbers are
 * pixels, exact to 128ths, those that a step hasn't are 0, and none is -0. After the last step it says TALEVIQA_STEP_NO_MORE for ever, and changes nothing
 * else. The box is around all points handed out so far, a curve's control among them. Returns 16 where the slots are not as many as above or the words are
 * no pen, and 19 where the lists were changed after the begin so that a number would not be exact; then nothing is changed.
 *
 * A contour starts at its first point if that is on curve, else at its last if that is, else at their midpoint; two off-curve points in a row have their
 * midpoint between them; a single point gives a move and a close. Points after the last contour are not drawn. No line back to the start is handed out
 * before a close. */
uint32_t taleviqa_outline_next(
    const int32_t *glyph_x, size_t glyph_x_length,
    const int32_t *glyph_y, size_t glyph_y_length,
    const uint8_t *glyph_flags, size_t glyph_flags_length,
    const uint16_t *contours, size_t contours_length,
    uint64_t *pen, size_t pen_length,
    float *edges, size_t edges_length,
    uint32_t *step, size_t step_length,
    float *numbers, size_t numbers_length);

#ifdef __cplusplus
}
#endif

#endif
