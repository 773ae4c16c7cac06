/* Answers a stream of oracle/compare's protocol with FreeType's interpreter. */
#include "door.h"
#include "replay.h"

#include <stdio.h>
#include <stdlib.h>
#include <string.h>

enum { ARGUMENTS = 2, START = 10, RUN_BUDGET = 12, LENGTHS = 24, HEAD_WORDS = 39 };
enum { MATH_WORDS = 8, PROJECTION_WORDS = 24, ONE = 0x4000 };
enum { SUPER45_ROW = 23 };
/* A list of one word, over and over, is stored as that word. */
#define ALIKE 0x80000000u

static void fail(const char *text)
{
    fprintf(stderr, "oracle/freetype: %s\n", text);
    exit(2);
}

static uint32_t *words_for(size_t count)
{
    uint32_t *words = malloc((count + 1) * sizeof *words);

    if (!words)
        fail("no memory");
    return words;
}

static uint32_t *read_all(size_t *count)
{
    size_t room = 1 << 16, got = 0, size;
    char *bytes = malloc(room);

    while (bytes && (size = fread(bytes + got, 1, room - got, stdin)) > 0) {
        got += size;
        if (got == room)
            bytes = realloc(bytes, room *= 2);
    }
    if (!bytes)
        fail("no memory");
    *count = got / sizeof(uint32_t);
    return (uint32_t *)bytes;
}

static void put(uint32_t word)
{
    fwrite(&word, sizeof word, 1, stdout);
}

static void put_halves(uint64_t number)
{
    put((uint32_t)number);
    put((uint32_t)(number >> 32));
}

static size_t words_of(const uint32_t *given)
{
    size_t count = STATE_WORDS;

    for (int i = 0; i < LIST_COUNT; i++)
        count += given[LENGTHS + i] & ~ALIKE;
    return count;
}

static void fill_lists(World *world, const uint32_t *given)
{
    const uint32_t *stored = given + HEAD_WORDS + STATE_WORDS;
    uint32_t *at = world->state + STATE_WORDS;

    for (int i = 0; i < LIST_COUNT; i++) {
        uint32_t mark = given[LENGTHS + i] & ALIKE;
        size_t length = given[LENGTHS + i] & ~ALIKE;

        world->list[i].at = at;
        world->list[i].length = length;
        for (size_t j = 0; j < length; j++)
            at[j] = stored[mark ? 0 : j];
        at += length;
        stored += mark ? 1 : length;
    }
}

static World world_of(const uint32_t *given)
{
    World world;

    world.words = words_of(given);
    world.state = words_for(world.words);
    memcpy(world.state, given + HEAD_WORDS, STATE_WORDS * sizeof *world.state);
    fill_lists(&world, given);
    return world;
}

static void put_outcome(const Outcome *outcome, const uint32_t *before, const World *world)
{
    uint32_t changes = 0;

    put(outcome->number);
    put_halves(outcome->place);
    put_halves(outcome->lines);
    put_halves(outcome->detail);
    put(outcome->value[0]);
    put(outcome->value[1]);
    for (size_t i = 0; i < world->words; i++)
        changes += before[i] != world->state[i];
    put(changes);
    for (size_t i = 0; i < world->words; i++)
        if (before[i] != world->state[i]) {
            put((uint32_t)i);
            put(world->state[i]);
        }
}

static void answer_case(const uint32_t *given, int any_ends)
{
    World world = world_of(given);
    uint32_t *before = words_for(world.words);
    Call call = {given[1], given + ARGUMENTS, joined(given + START), joined(given + RUN_BUDGET), any_ends};
    Outcome outcome = {0};

    memcpy(before, world.state, world.words * sizeof *before);
    if (!replay_call(&world, &call, &outcome))
        fail("FreeType has no function for this kind of call (it answers kinds 0 and 9 to 13)");
    put_outcome(&outcome, before, &world);
    free(before);
    free(world.state);
}

static void answer_cases(const uint32_t *given, size_t count, int any_ends)
{
    for (size_t place = 0; place < count; place += given[place]) {
        if (given[place] < HEAD_WORDS + STATE_WORDS || given[place] > count - place)
            fail("a case's length is wrong");
        answer_case(given + place, any_ends);
    }
}

static void answer_math(const uint32_t *given, size_t count)
{
    for (size_t place = 0; place + MATH_WORDS <= count; place += MATH_WORDS) {
        const uint32_t *row = given + place;
        /* 01 refuses a division by zero, at which FreeType would stop. */
        int refused = row[0] == SUPER45_ROW && row[4] == 0;

        put(refused ? STATE : END);
        put(refused ? 0 : door_math(row[0], (const int32_t *)row + 1));
    }
}

static int in_range(const int32_t *vectors)
{
    for (int i = 0; i < 6; i++)
        if (vectors[i] < -ONE || vectors[i] > ONE)
            return 0;
    return 1;
}

static void answer_projection(const uint32_t *given, size_t count)
{
    for (size_t place = 0; place + PROJECTION_WORDS <= count; place += PROJECTION_WORDS) {
        const int32_t *row = (const int32_t *)given + place;
        uint32_t results[4] = {0};
        int sound = in_range(row + 1);

        if (sound)
            door_projection((uint32_t)row[0], row + 1, results);
        put(sound ? END : STATE);
        for (int i = 0; i < 4; i++)
            put(results[i]);
    }
}

int main(int count, char **arguments)
{
    const char *stream = count == 2 ? arguments[1] : "";
    int any_ends = !strcmp(stream, "any-ends");
    size_t words;
    uint32_t *given;

    if (!any_ends && strcmp(stream, "cases") && strcmp(stream, "math") && strcmp(stream, "projection"))
        fail("usage: answer cases|any-ends|math|projection, the stream on standard input");
    door_open();
    given = read_all(&words);
    if (any_ends || !strcmp(stream, "cases"))
        answer_cases(given, words, any_ends);
    else if (!strcmp(stream, "math"))
        answer_math(given, words);
    else
        answer_projection(given, words);
    free(given);
    return fflush(stdout) ? 2 : 0;
}
