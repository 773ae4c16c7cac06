/* The time of mul_div before and after a change, by kind of operands; bench/mul_div builds and runs it.
 *
 * Both stand in one process and are called by the same loops, in turn and each first in every other round. A sample of a side is as many calls as
 * take it about 0.15 ms, and least and median of the rounds are printed, a line for each kind. Operands are read and never written, so nothing has to be restored between samples; each side has its own results. Before the
 * clock starts, both are called on every row, which warms the buffers, and all results are compared. */
#define _POSIX_C_SOURCE 200809L
#include <stdbool.h>
#include <stdint.h>
#include <stdio.h>
#include <stdlib.h>
#include <time.h>

enum { ROWS = 4096, ROUNDS = 300, SAMPLE_NS = 150000, ONE = 0x4000 };

int32_t mul_div_before(int32_t a, int32_t b, int32_t c);
int32_t mul_div_after(int32_t a, int32_t b, int32_t c);
int32_t nothing_before(int32_t a, int32_t b, int32_t c);
int32_t nothing_after(int32_t a, int32_t b, int32_t c);

typedef int32_t (*call)(int32_t, int32_t, int32_t);

struct rows {
    int32_t a[ROWS], b[ROWS], c[ROWS];
};

struct side {
    call f;
    int32_t results[ROWS];
    int turns;         /* through all rows, of a sample */
    double ns[ROUNDS]; /* of one call */
};

/* xorshift64*: the same operands on every machine */
static uint64_t seed = 0x9E3779B97F4A7C15u;

static uint32_t any(void)
{
    seed ^= seed >> 12;
    seed ^= seed << 25;
    seed ^= seed >> 27;
    return (uint32_t)(seed * 0x2545F4914F6CDD1Du >> 32);
}

static int32_t between(int32_t low, int32_t high)
{
    return low + (int32_t)(any() % (uint32_t)(high - low + 1));
}

static int32_t word(void)
{
    return (int32_t)any();
}

/* 26.6, as far as 512 pixels */
static int32_t distance(void)
{
    return between(-0x8000, 0x8000);
}

/* 2.14, a component of a vector of length 1 */
static int32_t component(void)
{
    return between(-ONE, ONE);
}

static int32_t one(void)
{
    return ONE;
}

/* 2.14, from 1/16 to less than 1, either sign: what the product of two vectors is that don't lie on one line */
static int32_t divisor(void)
{
    int32_t size = between(0x400, ONE - 1);
    return any() % 2 ? size : -size;
}

static int32_t one_or_divisor(void)
{
    return any() % 2 ? ONE : divisor();
}

struct kind {
    const char *name;
    int32_t (*a)(void), (*b)(void), (*c)(void);
    bool is_mul_div; /* and not the empty function */
};

static const struct kind KINDS[] = {
    {"(the call alone)", word, word, word, false},
    {"(distance, component, divisor)", distance, component, divisor, true},
    {"(word, word, word)", word, word, word, true},
    {"(distance, component, 0x4000)", distance, component, one, true},
    {"(word, word, 0x4000)", word, word, one, true},
    {"(distance, 0x4000, 0x4000)", distance, one, one, true},
    {"(word, 0x4000, 0x4000)", word, one, one, true},
    {"(distance, component, either)", distance, component, one_or_divisor, true},
};

/* Calls that don't wait for each other: the processor has several under way. */
__attribute__((noinline)) static void call_freely(const struct rows *rows, struct side *side)
{
    call f = side->f;
    for (int i = 0; i < ROWS; i++)
        side->results[i] = f(rows->a[i], rows->b[i], rows->c[i]);
}

/* The same calls, each waiting for the last one's result: `none` is 0, which the compiler doesn't know. */
__attribute__((noinline)) static void call_in_turn(const struct rows *rows, struct side *side)
{
    static volatile int32_t zero = 0;
    call f = side->f;
    int32_t none = zero, last = 0;
    for (int i = 0; i < ROWS; i++)
        side->results[i] = last = f(rows->a[i] | (last & none), rows->b[i], rows->c[i]);
}

typedef void (*manner)(const struct rows *, struct side *);

static double now_ns(void)
{
    struct timespec t;
    clock_gettime(CLOCK_MONOTONIC, &t);
    return (double)t.tv_sec * 1e9 + (double)t.tv_nsec;
}

/* The time of one call, by a sample. */
static double sample_ns(manner call_all, const struct rows *rows, struct side *side)
{
    double start = now_ns();
    for (int i = 0; i < side->turns; i++)
        call_all(rows, side);
    return (now_ns() - start) / ((double)side->turns * ROWS);
}

static void set_turns(manner call_all, const struct rows *rows, struct side *side)
{
    double least = SAMPLE_NS;
    side->turns = 1;
    for (int i = 0; i < 20; i++) {
        double ns = sample_ns(call_all, rows, side) * ROWS;
        least = ns < least ? ns : least;
    }
    side->turns = (int)(SAMPLE_NS / least);
}

static int by_size(const void *x, const void *y)
{
    double a = *(const double *)x, b = *(const double *)y;
    return (a > b) - (a < b);
}

static int differing(manner call_all, const struct rows *rows, struct side *before, struct side *after)
{
    int count = 0;
    call_all(rows, before);
    call_all(rows, after);
    for (int i = 0; i < ROWS; i++)
        count += before->results[i] != after->results[i];
    return count;
}

/* Prints a kind's times, least and median of each side, and gives how many of its results differ. */
static int measure(const char *title, manner call_all, const struct kind *kind)
{
    static struct rows rows;
    static struct side before, after;
    before.f = kind->is_mul_div ? mul_div_before : nothing_before;
    after.f = kind->is_mul_div ? mul_div_after : nothing_after;
    for (int i = 0; i < ROWS; i++) {
        rows.a[i] = kind->a();
        rows.b[i] = kind->b();
        rows.c[i] = kind->c();
    }
    int count = differing(call_all, &rows, &before, &after);
    set_turns(call_all, &rows, &before);
    set_turns(call_all, &rows, &after);
    for (int round = 0; round < ROUNDS; round++) {
        struct side *first = round % 2 ? &after : &before;
        struct side *second = round % 2 ? &before : &after;
        first->ns[round] = sample_ns(call_all, &rows, first);
        second->ns[round] = sample_ns(call_all, &rows, second);
    }
    qsort(before.ns, ROUNDS, sizeof(double), by_size);
    qsort(after.ns, ROUNDS, sizeof(double), by_size);
    printf("%s|%s|%f|%f|%f|%f\n", title, kind->name, before.ns[0], before.ns[ROUNDS / 2], after.ns[0], after.ns[ROUNDS / 2]);
    return count;
}

/* The numbers at which the arithmetic turns, and their neighbours. */
static const int32_t TURNS[] = {
    0, 1, -1, 2, -2, 0x1FFF, -0x1FFF, 0x2000, -0x2000, 0x2001, -0x2001, 0x3FFF, -0x3FFF, 0x4000, -0x4000, 0x4001, -0x4001,
    0x3FFFFFFF, -0x3FFFFFFF, 0x40000000, -0x40000000, 0x40000001, -0x40000001, INT32_MAX - 1, -(INT32_MAX - 1), INT32_MAX, -INT32_MAX, INT32_MIN,
};

/* Calls both on every triple of them and gives how many results differ. */
static int corners(int *asked)
{
    enum { N = sizeof TURNS / sizeof *TURNS };
    int count = 0;
    for (int i = 0; i < N; i++)
        for (int j = 0; j < N; j++)
            for (int k = 0; k < N; k++)
                count += mul_div_before(TURNS[i], TURNS[j], TURNS[k]) != mul_div_after(TURNS[i], TURNS[j], TURNS[k]);
    *asked += N * N * N;
    return count;
}

int main(void)
{
    static const struct { const char *title; manner call_all; } manners[] = {
        {"Calls that don't wait for each other", call_freely},
        {"Each call waits for the last", call_in_turn},
    };
    int asked = 0, count = corners(&asked);
    for (size_t m = 0; m < sizeof manners / sizeof *manners; m++)
        for (size_t i = 0; i < sizeof KINDS / sizeof *KINDS; i++) {
            asked += KINDS[i].is_mul_div ? ROWS : 0;
            count += measure(manners[m].title, manners[m].call_all, &KINDS[i]);
        }
    printf("%d results compared, %d differ\n", asked, count);
    return count != 0;
}
