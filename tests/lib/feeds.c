/* Sheets that arrive in pieces: what the calls of a feed say and leave, against taleviqa_run and against the oracle's stored answers. Prints what is amiss.
 *
 *     feeds crates/vectors_cases/stdin
 *
 * First 1,000 cuttings, made by a generator with a fixed seed, of the oracle's runs (docs/ORACLE.md, "Cases"): after each piece number, place, lines, detail,
 * the words that wait, state, points and flags are those of taleviqa_run over the whole lines that have arrived so far, which a cutter of its own tells, and
 * at the end those that the case has stored. Then what is said at one word and not before, what changes nothing, and what isn't taken. */
#include <inttypes.h>
#include <stdio.h>
#include <stdlib.h>
#include <string.h>

#include "taleviqa.h"

#define CUTTINGS 1000
#define MOST_WORDS 262144u
#define MOST_COUNT 4096

static int amiss = 0;

/* ---- a world: the fifteen lists of a case, in its order, and the state */
enum { UX, UY, OX, OY, X, Y, FLAGS, CONTOURS, TOX, TOY, TX, TY, TFLAGS, VALUES, SHEET, LISTS };

static int bytes_of(int list)
{
    return list == FLAGS || list == TFLAGS ? 1 : list == CONTOURS ? 2 : 4;
}

static int changes(int list)
{
    return (list >= X && list <= FLAGS) || (list >= TOX && list <= TFLAGS);
}

struct world {
    uint32_t state[TALEVIQA_STATE_WORDS];
    size_t length[LISTS];
    void *list[LISTS];
};

static void *room(size_t size)
{
    void *made = malloc(size ? size : 1);

    if (made == NULL) {
        printf("tests/lib/feeds.c: no memory\n");
        exit(1);
    }
    return made;
}

/* What only lines read is shared. */
static void copy(struct world *to, const struct world *from)
{
    *to = *from;
    for (int l = 0; l < LISTS; l++)
        if (changes(l)) {
            to->list[l] = room(from->length[l] * bytes_of(l));
            memcpy(to->list[l], from->list[l], from->length[l] * bytes_of(l));
        }
}

static void reset(struct world *to, const struct world *from)
{
    memcpy(to->state, from->state, sizeof to->state);
    for (int l = 0; l < LISTS; l++)
        if (changes(l)) memcpy(to->list[l], from->list[l], from->length[l] * bytes_of(l));
}

static void drop(struct world *w)
{
    for (int l = 0; l < LISTS; l++)
        if (changes(l)) free(w->list[l]);
}

static int alike(const struct world *a, const struct world *b)
{
    int same = memcmp(a->state, b->state, sizeof a->state) == 0;

    for (int l = 0; l < LISTS; l++)
        if (changes(l)) same = same && memcmp(a->list[l], b->list[l], a->length[l] * bytes_of(l)) == 0;
    return same;
}

#define GIVEN(w, l) (w)->list[l], (w)->length[l]
#define LINES_READ(w) GIVEN(w, VALUES), GIVEN(w, UX), GIVEN(w, UY), GIVEN(w, OX), GIVEN(w, OY)
#define LINES_CHANGE(w) \
    GIVEN(w, X), GIVEN(w, Y), GIVEN(w, FLAGS), GIVEN(w, CONTOURS), GIVEN(w, TOX), GIVEN(w, TOY), GIVEN(w, TX), GIVEN(w, TY), GIVEN(w, TFLAGS)

static uint32_t run(uint32_t rules, struct world *w, const int32_t *sheet, size_t words, uint64_t answer[TALEVIQA_ANSWER_WORDS])
{
    return taleviqa_run(rules, 0, UINT64_MAX, w->state, TALEVIQA_STATE_WORDS, sheet, words, LINES_READ(w), LINES_CHANGE(w), answer, TALEVIQA_ANSWER_WORDS);
}

/* ---- a feed */
struct feed {
    uint64_t kept[TALEVIQA_FEED_WORDS];
    int32_t carry[TALEVIQA_CARRY_WORDS];
    size_t room;
};

static struct feed fresh(void)
{
    static const uint64_t kept[TALEVIQA_FEED_WORDS] = TALEVIQA_FRESH_FEED;
    struct feed f;

    memset(f.carry, 0x55, sizeof f.carry);
    memcpy(f.kept, kept, sizeof kept);
    f.room = TALEVIQA_CARRY_WORDS;
    return f;
}

static uint32_t feed(uint32_t rules, struct world *w, const int32_t *piece, size_t words, struct feed *f)
{
    return taleviqa_feed(rules, w->state, TALEVIQA_STATE_WORDS, piece, words, f->carry, f->room, LINES_READ(w), LINES_CHANGE(w), f->kept, TALEVIQA_FEED_WORDS);
}

static uint32_t end(const struct world *w, struct feed *f)
{
    return taleviqa_feed_end(w->state, TALEVIQA_STATE_WORDS, f->carry, f->room, LINES_READ(w), LINES_CHANGE(w), f->kept, TALEVIQA_FEED_WORDS);
}

/* ---- the cutter: what the words so far are, by their own numbers alone */
static int known[256];

/* A line without operands tells a known opcode from others: 4 is said of no other. */
static void learn_opcodes(void)
{
    static const uint32_t state[TALEVIQA_STATE_WORDS] = TALEVIQA_FRESH_STATE;

    for (int op = 0; op < 256; op++) {
        struct world w;
        uint64_t answer[TALEVIQA_ANSWER_WORDS];
        int32_t line[2] = {op, 0};

        memset(&w, 0, sizeof w);
        memcpy(w.state, state, sizeof state);
        known[op] = run(0, &w, line, 2, answer) != TALEVIQA_LINE;
    }
}

/* The words of whole lines, and what follows them: 1 the beginning of a line or nothing, 4 no line, 18 one too long to wait for. */
struct cut {
    size_t whole;
    uint32_t then;
};

static struct cut cut(const int32_t *word, size_t words)
{
    struct cut c = {0, TALEVIQA_OUT_OF_BUDGET};

    while (c.whole < words) {
        size_t left = words - c.whole;
        const int32_t *line = word + c.whole;

        if (line[0] < 0 || line[0] > 255 || !known[line[0]]) c.then = TALEVIQA_LINE;
        else if (left < 2) return c;
        else if (line[1] < 0) c.then = TALEVIQA_LINE;
        else if (line[1] > MOST_COUNT) c.then = TALEVIQA_LONG;
        else if (left < (size_t)line[1] + 2) return c;
        else {
            c.whole += (size_t)line[1] + 2;
            continue;
        }
        return c;
    }
    return c;
}

/* What a feed should have kept and left. */
struct wanted {
    uint64_t kept[TALEVIQA_FEED_WORDS];
    struct world world;
    uint64_t lines; /* of the calls so far */
};

static void want(struct wanted *t, uint64_t number, uint64_t place, uint64_t lines, uint64_t detail, uint64_t held)
{
    t->kept[0] = number, t->kept[1] = place, t->kept[2] = lines - t->lines, t->kept[3] = detail, t->kept[4] = held;
    t->lines = lines;
}

/* After the words so far, from the world before the first. */
static void after_words(struct wanted *t, uint32_t rules, const struct world *before, const int32_t *word, size_t words)
{
    struct cut c = cut(word, words);
    uint64_t answer[TALEVIQA_ANSWER_WORDS];
    uint32_t number;

    if (t->kept[0] != TALEVIQA_OUT_OF_BUDGET) return;
    reset(&t->world, before);
    number = run(rules, &t->world, word, c.whole, answer);
    if (number != TALEVIQA_FINISHED) want(t, number, answer[TALEVIQA_PLACE], answer[TALEVIQA_LINES], answer[TALEVIQA_DETAIL], 0);
    else want(t, c.then, c.whole, answer[TALEVIQA_LINES], 0, c.then == TALEVIQA_OUT_OF_BUDGET ? words - c.whole : 0);
}

static void after_end(struct wanted *t)
{
    if (t->kept[0] == TALEVIQA_OUT_OF_BUDGET) want(t, t->kept[4] ? TALEVIQA_LINE : TALEVIQA_FINISHED, t->kept[1], t->lines, 0, 0);
}

static void compare(const char *what, size_t cutting, size_t words, uint32_t said, const struct feed *f, const struct world *w, const struct wanted *t, const int32_t *waits)
{
    int same = said == t->kept[0] && memcmp(f->kept, t->kept, sizeof t->kept) == 0;

    if (!same) {
        printf("tests/lib/feeds.c: cutting %zu, %s %zu words: said %" PRIu32 ", kept", cutting, what, words, said);
        for (int k = 0; k < TALEVIQA_FEED_WORDS; k++) printf(" %" PRIu64 "/%" PRIu64, f->kept[k], t->kept[k]);
        printf("\n");
        amiss = 1;
    }
    if (!alike(w, &t->world)) {
        printf("tests/lib/feeds.c: cutting %zu, %s %zu words: the points, flags or state are others\n", cutting, what, words);
        amiss = 1;
    }
    if (same && t->kept[4] && memcmp(f->carry, waits, t->kept[4] * sizeof *waits) != 0) {
        printf("tests/lib/feeds.c: cutting %zu, %s %zu words: the carry holds other words\n", cutting, what, words);
        amiss = 1;
    }
}

/* ---- numbers, the same in each run */
static uint64_t seed = 0x9e3779b97f4a7c15u;

static uint64_t number(uint64_t below)
{
    seed ^= seed << 13, seed ^= seed >> 7, seed ^= seed << 17;
    return below ? (seed >> 11) % below : 0;
}

/* The next piece: none, one or a few words, or a large part of the sheet. */
static size_t piece_of(size_t left, size_t words)
{
    size_t size;

    switch (number(6)) {
    case 0: size = 0; break;
    case 1: size = 1; break;
    case 2: size = 2 + number(4); break;
    case 3: size = number(words / 2 + 1); break;
    default: size = 1 + number(words / 4 + 2); break;
    }
    return size < left ? size : left;
}

/* ---- the oracle's cases */
static uint32_t *stream;
static size_t stream_words;

static uint64_t wide(const uint32_t *two)
{
    return two[0] | (uint64_t)two[1] << 32;
}

static void put(struct world *w, int l, size_t i, uint32_t word)
{
    switch (bytes_of(l)) {
    case 1: ((uint8_t *)w->list[l])[i] = (uint8_t)word; break;
    case 2: ((uint16_t *)w->list[l])[i] = (uint16_t)word; break;
    default: ((uint32_t *)w->list[l])[i] = word; break;
    }
}

/* A case's world, and where its changes stand. */
static const uint32_t *load(const uint32_t *c, struct world *w)
{
    const uint32_t *at = c + 39 + TALEVIQA_STATE_WORDS;

    memcpy(w->state, c + 39, sizeof w->state);
    for (int l = 0; l < LISTS; l++) {
        int one = c[24 + l] >> 31;

        w->length[l] = c[24 + l] & 0x7fffffff;
        w->list[l] = room(w->length[l] * 4);
        for (size_t i = 0; i < w->length[l]; i++) put(w, l, i, one ? at[0] : at[i]);
        at += one ? 1 : w->length[l];
    }
    return at;
}

static void unload(struct world *w)
{
    for (int l = 0; l < LISTS; l++) free(w->list[l]);
}

/* The world as the case says that it is left: index and word of each change, counted over the state and the lists in full. */
static void change(struct world *w, const uint32_t *at, uint32_t changed)
{
    for (; changed; changed--, at += 2) {
        size_t i = at[0];

        if (i < TALEVIQA_STATE_WORDS) {
            w->state[i] = at[1];
            continue;
        }
        i -= TALEVIQA_STATE_WORDS;
        for (int l = 0; l < LISTS; l++) {
            if (i < w->length[l]) {
                put(w, l, i, at[1]);
                break;
            }
            i -= w->length[l];
        }
    }
}

/* A run that a feed can be held to: it wasn't out of budget, its start is in the sheet, and the sheet within its limit. What lies before the start isn't fed. */
static int fits(const uint32_t *c)
{
    return c[1] == 0 && c[7] <= 1 && c[14] != TALEVIQA_OUT_OF_BUDGET && (c[24 + SHEET] & 0x7fffffff) <= MOST_WORDS && wide(c + 10) < (c[24 + SHEET] & 0x7fffffff);
}

static void feed_case(size_t cutting, const uint32_t *c, int word_by_word)
{
    struct world before, w;
    struct wanted t;
    struct feed f = fresh();
    const uint32_t *changed = load(c, &before);
    size_t start = (size_t)wide(c + 10), words = before.length[SHEET] - start, fed = 0;
    const int32_t *word = (const int32_t *)before.list[SHEET] + start;
    uint32_t rules = c[7], said;

    copy(&w, &before);
    copy(&t.world, &before);
    memcpy(t.kept, f.kept, sizeof t.kept);
    t.lines = 0;
    /* an end without words must find nothing amiss, so each feed ends only after all of its words */
    while (fed < words) {
        size_t size = word_by_word ? 1 : piece_of(words - fed, words);

        said = feed(rules, &w, word + fed, size, &f);
        fed += size;
        after_words(&t, rules, &before, word, fed);
        compare("after", cutting, fed, said, &f, &w, &t, word + t.kept[1]);
    }
    said = end(&w, &f);
    after_end(&t);
    compare("at the end, after", cutting, fed, said, &f, &w, &t, word);
    /* and once more: nothing changes any more */
    said = number(2) ? feed(rules, &w, word, words, &f) : end(&w, &f);
    compare("after the end, and", cutting, fed, said, &f, &w, &t, word);
    /* what the oracle has stored */
    if (t.kept[0] != TALEVIQA_LONG) {
        reset(&t.world, &before);
        change(&t.world, changed, c[23]);
        if (f.kept[0] != c[14] || f.kept[1] + start != wide(c + 15) || t.lines != wide(c + 17) || f.kept[3] != wide(c + 19) || !alike(&w, &t.world)) {
            printf("tests/lib/feeds.c: cutting %zu: the oracle says %" PRIu32 " at %" PRIu64 ", the feed %" PRIu64 " at %" PRIu64 "; or another world\n", cutting, c[14],
                   wide(c + 15), f.kept[0], f.kept[1] + start);
            amiss = 1;
        }
    }
    drop(&w);
    drop(&t.world);
    unload(&before);
}

static void read_stream(const char *path)
{
    FILE *file = fopen(path, "rb");
    long size;

    if (file == NULL || fseek(file, 0, SEEK_END) != 0 || (size = ftell(file)) < 0 || fseek(file, 0, SEEK_SET) != 0) {
        printf("tests/lib/feeds.c: %s can't be read\n", path);
        exit(1);
    }
    stream_words = (size_t)size / 4;
    stream = room(stream_words * 4);
    if (fread(stream, 4, stream_words, file) != stream_words) exit(1);
    fclose(file);
}

static void cuttings(void)
{
    size_t cases = 0, *at = room(stream_words * sizeof *at), numbers[19] = {0};

    for (size_t k = 0; k < stream_words && stream[k]; k += stream[k])
        if (fits(stream + k)) at[cases++] = k;
    if (cases < CUTTINGS) {
        printf("tests/lib/feeds.c: only %zu runs of the oracle can be fed\n", cases);
        exit(1);
    }
    for (size_t k = 0; k < CUTTINGS; k++) {
        const uint32_t *c = stream + at[number(cases)];

        feed_case(k, c, k % 10 == 0 && (c[24 + SHEET] & 0x7fffffff) <= 256);
        if (c[14] < 19) numbers[c[14]]++;
    }
    printf("%d cuttings of %zu runs; answers of the oracle:", CUTTINGS, cases);
    for (int n = 0; n < 19; n++)
        if (numbers[n]) printf(" %d: %zu", n, numbers[n]);
    printf("\n");
    free(at);
}

/* ---- what one word decides */
#define POINTS 3

static int32_t x[POINTS], y[POINTS], zero[POINTS], tx[2], ty[2], tox[2], toy[2];
static uint8_t flags[POINTS], tflags[2];
static uint16_t ends[1] = {POINTS - 1};

static struct world small(void)
{
    static const uint32_t state[TALEVIQA_STATE_WORDS] = TALEVIQA_FRESH_STATE;
    struct world w;

    memset(&w, 0, sizeof w);
    memcpy(w.state, state, sizeof state);
    for (int i = 0; i < POINTS; i++) x[i] = 10 * i, y[i] = 7 * i, flags[i] = 1;
    memset(tx, 0, sizeof tx), memset(ty, 0, sizeof ty), memset(tox, 0, sizeof tox), memset(toy, 0, sizeof toy), memset(tflags, 0, sizeof tflags);
    for (int l = UX; l <= OY; l++) w.list[l] = zero, w.length[l] = POINTS;
    w.list[X] = x, w.list[Y] = y, w.list[FLAGS] = flags, w.length[X] = w.length[Y] = w.length[FLAGS] = POINTS;
    w.list[CONTOURS] = ends, w.length[CONTOURS] = 1;
    w.list[TOX] = tox, w.list[TOY] = toy, w.list[TX] = tx, w.list[TY] = ty, w.list[TFLAGS] = tflags;
    for (int l = TOX; l <= TFLAGS; l++) w.length[l] = 2;
    return w;
}

static void expect(const char *what, const struct feed *f, uint32_t said, uint64_t number, uint64_t place, uint64_t lines, uint64_t held)
{
    if (said != number || f->kept[0] != number || f->kept[1] != place || f->kept[2] != lines || f->kept[4] != held) {
        printf("tests/lib/feeds.c: %s: said %" PRIu32 ", kept %" PRIu64 " %" PRIu64 " %" PRIu64 " %" PRIu64 " %" PRIu64 ", wanted %" PRIu64 " %" PRIu64 " %" PRIu64 " . %" PRIu64
               "\n", what, said, f->kept[0], f->kept[1], f->kept[2], f->kept[3], f->kept[4], number, place, lines, held);
        amiss = 1;
    }
}

/* SVTCA[x], a line without operands, and MDAP[0] of point 1. */
#define LINE_X 1, 0
#define MDAP_1 0x2e, 1, 1

/* One word at a time: each word's answer, with its place, lines and words that wait. */
struct said {
    uint32_t number;
    uint64_t place, lines, held;
};

static void words_say(const char *what, const int32_t *word, const struct said *each, size_t words)
{
    struct world w = small();
    struct feed f = fresh();

    for (size_t k = 0; k < words; k++) {
        uint32_t said = feed(1, &w, word + k, 1, &f);

        expect(what, &f, said, each[k].number, each[k].place, each[k].lines, each[k].held);
        said = f.kept[0] == 1 ? feed(1, &w, NULL, 0, &f) : said;
        if (each[k].number == 1) expect(what, &f, said, 1, each[k].place, 0, each[k].held);
    }
}

static void one_word_decides(void)
{
    static const int32_t opcode[] = {LINE_X, MDAP_1, 0x91};
    static const struct said opcode_says[] = {{1, 0, 0, 1}, {1, 2, 1, 0}, {1, 2, 0, 1}, {1, 2, 0, 2}, {1, 5, 1, 0}, {4, 5, 0, 0}};
    static const int32_t negative[] = {LINE_X, 0x2e, -1, 7};
    static const struct said negative_says[] = {{1, 0, 0, 1}, {1, 2, 1, 0}, {1, 2, 0, 1}, {4, 2, 0, 0}, {4, 2, 0, 0}};
    static const int32_t above[] = {LINE_X, 0x2e, MOST_COUNT + 1, 7};
    static const struct said above_says[] = {{1, 0, 0, 1}, {1, 2, 1, 0}, {1, 2, 0, 1}, {18, 2, 0, 0}, {18, 2, 0, 0}};
    static const int32_t lowest[] = {0x2e, INT32_MIN};
    static const struct said lowest_says[] = {{1, 0, 0, 1}, {4, 0, 0, 0}};
    static const int32_t highest[] = {0x2e, INT32_MAX};
    static const struct said highest_says[] = {{1, 0, 0, 1}, {18, 0, 0, 0}};
    /* MDAP takes one operand and has three: 5, but not before the third is there */
    static const int32_t surplus[] = {0x2e, 3, 1, 1, 1, 1};
    static const struct said surplus_says[] = {{1, 0, 0, 1}, {1, 0, 0, 2}, {1, 0, 0, 3}, {1, 0, 0, 4}, {5, 0, 0, 0}, {5, 0, 0, 0}};

    words_say("an opcode that isn't known", opcode, opcode_says, 6);
    words_say("a negative count", negative, negative_says, 5);
    words_say("a count above 4,096", above, above_says, 5);
    words_say("the lowest count", lowest, lowest_says, 2);
    words_say("the highest count", highest, highest_says, 2);
    words_say("surplus operands", surplus, surplus_says, 6);
}

/* The longest line that may wait: all of its words but the last, then that one. */
static void longest_line(void)
{
    static int32_t line[MOST_COUNT + 2];
    struct world w = small();
    struct feed f = fresh();

    line[0] = 0x2e, line[1] = MOST_COUNT;
    expect("the longest line without its last word", &f, feed(1, &w, line, MOST_COUNT + 1, &f), 1, 0, 0, MOST_COUNT + 1);
    expect("the end of an unfinished line, of a copy", &f, 1, 1, 0, 0, MOST_COUNT + 1);
    expect("the longest line", &f, feed(1, &w, line, 1, &f), 5, 0, 0, 0);
}

/* An unfinished line at the end is 4 there, and is not done. */
static void unfinished(void)
{
    static const int32_t words[] = {LINE_X, MDAP_1};
    struct world w = small();
    struct feed f = fresh();

    expect("a line and a half", &f, feed(1, &w, words, 4, &f), 1, 2, 1, 2);
    expect("an unfinished line at the end", &f, end(&w, &f), 4, 2, 0, 0);
    expect("the rest after the end", &f, feed(1, &w, words + 4, 1, &f), 4, 2, 0, 0);
    if (flags[1] != 1) printf("tests/lib/feeds.c: an unfinished line has touched a point\n"), amiss = 1;
    f = fresh();
    expect("no word at all", &f, end(&w, &f), 0, 0, 0, 0);
    f = fresh();
    expect("an empty piece", &f, feed(1, &w, NULL, 0, &f), 1, 0, 0, 0);
    expect("all words in one piece", &f, feed(1, &w, words, 5, &f), 1, 5, 2, 0);
    expect("the end behind a line", &f, end(&w, &f), 0, 5, 0, 0);
    if (flags[1] == 1) printf("tests/lib/feeds.c: MDAP in a piece has touched no point\n"), amiss = 1;
}

/* Words in all are no more than a sheet may have; the piece that goes beyond isn't taken. */
static void sheet_limit(void)
{
    int32_t *words = room((MOST_WORDS + 2) * sizeof *words);
    struct world w = small();
    struct feed f = fresh();

    for (size_t k = 0; k < MOST_WORDS + 2; k++) words[k] = k % 2 == 0;
    expect("a sheet of the limit, all but a word", &f, feed(1, &w, words, MOST_WORDS - 1, &f), 1, MOST_WORDS - 2, MOST_WORDS / 2 - 1, 1);
    {
        struct feed g = f;

        expect("a word too many", &g, feed(1, &w, words + MOST_WORDS - 1, 2, &g), 2, MOST_WORDS - 2, 0, 0);
        expect("and nothing after it", &g, feed(1, &w, words + MOST_WORDS - 1, 1, &g), 2, MOST_WORDS - 2, 0, 0);
        expect("nor the end", &g, end(&w, &g), 2, MOST_WORDS - 2, 0, 0);
    }
    expect("the last word", &f, feed(1, &w, words + MOST_WORDS - 1, 1, &f), 1, MOST_WORDS, 1, 0);
    expect("its end", &f, end(&w, &f), 0, MOST_WORDS, 0, 0);
    /* MDAP of a point within the piece that goes beyond: not done */
    {
        static const int32_t touch[] = {MDAP_1};
        struct feed g = fresh();

        w = small();
        memcpy(words + 4, touch, sizeof touch);
        expect("a piece longer than a sheet", &g, feed(1, &w, words, MOST_WORDS + 1, &g), 2, 0, 0, 0);
        if (flags[1] != 1) printf("tests/lib/feeds.c: a piece beyond the limit was taken in part\n"), amiss = 1;
    }
    free(words);
}

/* Each call tests sizes, contour ends and state, also without words, and the end does. */
static void entry_tests(void)
{
    static const int32_t words[] = {LINE_X, 0x2e};

    for (int last = 0; last < 2; last++)
        for (int k = 0; k < 3; k++) {
            static const uint32_t number[] = {2, 14, 3};
            struct world w = small();
            struct feed f = fresh();

            expect("a line and an opcode", &f, feed(1, &w, words, 3, &f), 1, 2, 1, 1);
            if (k == 0) w.length[Y]--;
            if (k == 1) ends[0] = POINTS;
            if (k == 2) w.state[TALEVIQA_FREEDOM_X] = 0x4001;
            expect("tests before an empty piece or the end", &f, last ? end(&w, &f) : feed(1, &w, NULL, 0, &f), number[k], 2, 0, 0);
            ends[0] = POINTS - 1;
            w.length[Y] = POINTS;
            w.state[TALEVIQA_FREEDOM_X] = 0x4000;
            expect("and it stays so", &f, feed(1, &w, words, 3, &f), number[k], 2, 0, 0);
        }
}

/* A carry that is too short, or isn't the beginning of a line, is 2. */
static void carries(void)
{
    static const int32_t words[] = {LINE_X, 0x2e, 2, 1};
    struct world w = small();
    struct feed f = fresh();

    f.room--;
    expect("a carry too short", &f, feed(1, &w, words, 2, &f), 2, 0, 0, 0);
    for (int k = 0; k < 5; k++) {
        w = small();
        f = fresh();
        expect("a line and the beginning of one", &f, feed(1, &w, words, 5, &f), 1, 2, 1, 3);
        if (k == 0) f.carry[0] = 0x91;
        if (k == 1) f.carry[1] = -1;
        if (k == 2) f.carry[1] = 1;
        if (k == 3) f.carry[1] = MOST_COUNT + 1;
        if (k == 4) f.kept[TALEVIQA_FEED_HELD] = TALEVIQA_CARRY_WORDS + 1;
        expect("a carry that no call leaves", &f, k % 2 ? end(&w, &f) : feed(1, &w, words, 1, &f), 2, 2, 0, 0);
    }
    w = small();
    f = fresh();
    f.kept[TALEVIQA_FEED_PLACE] = UINT64_MAX;
    expect("a place beyond the sheet's limit", &f, feed(1, &w, words, 2, &f), 2, UINT64_MAX, 0, 0);
    /* what lies behind the words that wait stays */
    f = fresh();
    feed(1, &w, words, 5, &f);
    if (f.carry[3] != 0x55555555) printf("tests/lib/feeds.c: the carry behind the words that wait is changed\n"), amiss = 1;
}

/* 16, and what is written then. */
static void bad_words(void)
{
    static const int32_t words[] = {LINE_X};
    struct world w = small();
    struct feed f = fresh();
    uint64_t odd[TALEVIQA_FEED_WORDS + 1] = {1, 2, 3, 4, 5, 6};

    expect("no rules", &f, feed(2, &w, words, 2, &f), 16, 0, 0, 0);
    expect("no rules, and then good ones", &f, feed(1, &w, words, 2, &f), 16, 0, 0, 0);
    f = fresh();
    w.state[TALEVIQA_ZP0] = 2;
    expect("no state", &f, feed(1, &w, words, 2, &f), 16, 0, 0, 0);
    f = fresh();
    expect("no state at the end", &f, end(&w, &f), 16, 0, 0, 0);
    w = small();
    f = fresh();
    f.kept[0] = 19, f.kept[1] = 20;
    if (feed(1, &w, words, 2, &f) != 16 || end(&w, &f) != 16 || f.kept[0] != 19 || f.kept[1] != 20) printf("tests/lib/feeds.c: a number that no call says\n"), amiss = 1;
    if (taleviqa_feed(1, w.state, TALEVIQA_STATE_WORDS, words, 2, f.carry, f.room, LINES_READ(&w), LINES_CHANGE(&w), odd, 6) != 16 || odd[0] != 1 || odd[5] != 6
        || taleviqa_feed(1, w.state, TALEVIQA_STATE_WORDS, words, 2, f.carry, f.room, LINES_READ(&w), LINES_CHANGE(&w), odd, 4) != 16 || odd[0] != 1
        || taleviqa_feed_end(w.state, TALEVIQA_STATE_WORDS, f.carry, f.room, LINES_READ(&w), LINES_CHANGE(&w), odd, 4) != 16 || odd[0] != 1)
        printf("tests/lib/feeds.c: a feed that isn't five long\n"), amiss = 1;
    /* a feed that was refused says so whatever the rules and the state are */
    f = fresh();
    f.kept[0] = 7, f.kept[3] = 9;
    expect("a refused feed, and no rules", &f, feed(2, &w, words, 2, &f), 7, 0, 0, 0);
}

int main(int arguments, char **argument)
{
    if (arguments != 2) {
        printf("usage: feeds crates/vectors_cases/stdin\n");
        return 2;
    }
    read_stream(argument[1]);
    learn_opcodes();
    cuttings();
    one_word_decides();
    longest_line();
    unfinished();
    sheet_limit();
    entry_tests();
    carries();
    bad_words();
    free(stream);
    return amiss;
}
