/* The converter of old tables beside a plain loop that ranks each word: bodies of about a million entries, both directions, the least time of some rounds in turns. Both
 * have to give the same bytes. */
#define _POSIX_C_SOURCE 199309L
#include <gudrenoss.h>

#include <stdio.h>
#include <stdlib.h>
#include <string.h>
#include <time.h>

enum { rounds = 25 };

static uint64_t choose[65][65];

static void fill_triangle(void)
{
    for (int n = 0; n <= 64; n++)
        for (int k = 0; k <= n; k++)
            choose[n][k] = k == 0 || k == n ? 1 : choose[n - 1][k - 1] + choose[n - 1][k];
}

/* How many sets of as many numbers below a stand later in lexicographic order. */
static uint64_t later(uint64_t a, uint64_t k, uint64_t bits)
{
    uint64_t sum = 0;
    for (; bits != 0; bits &= bits - 1)
        sum += choose[a - 1 - (uint64_t)__builtin_ctzll(bits)][k--];
    return sum;
}

static uint64_t next(uint64_t bits)
{
    uint64_t low = bits & -bits, carried = bits + low;
    return carried | (((bits ^ carried) >> 2) / low);
}

/* The plain loop: the sets in colex order, each ranked. */
static void plain(bool back, uint64_t a, uint64_t k, uint64_t count, const uint8_t *from, uint8_t *to)
{
    uint64_t bits = k == 64 ? UINT64_MAX : ((uint64_t)1 << k) - 1;
    for (uint64_t r = 0; r < count; r++) {
        uint64_t old = count - 1 - later(a, k, bits);
        memcpy(to + 8 * (back ? old : r), from + 8 * (back ? r : old), 8);
        if (r + 1 < count)
            bits = next(bits);
    }
}

static double seconds(void)
{
    struct timespec t;
    clock_gettime(CLOCK_MONOTONIC, &t);
    return (double)t.tv_sec + 1e-9 * (double)t.tv_nsec;
}

/* One round of each, in turns, so that what else the machine does falls on both; the least times so far. */
static void timed_round(bool back, bool allowed, uint64_t n, uint64_t k, uint64_t a, uint64_t count, const uint8_t *from, uint8_t *to, uint8_t *other, double least[2])
{
    uint64_t written;
    double start = seconds();
    plain(back, a, k, count, from, to);
    double between = seconds();
    gudrenoss_refusal refusal = back ? gudrenoss_lex_from_colex(allowed, n, k, from, 8 * count, other, 8 * count, &written)
                                     : gudrenoss_lex_to_colex(allowed, n, k, from, 8 * count, other, 8 * count, &written);
    double end = seconds();
    if (refusal.number != GUDRENOSS_OK || written != 8 * count || memcmp(to, other, 8 * count) != 0)
        exit(1);
    least[0] = between - start < least[0] ? between - start : least[0];
    least[1] = end - between < least[1] ? end - between : least[1];
}

static void compare(bool allowed, uint64_t n, uint64_t k)
{
    uint64_t count, a = allowed && k > 0 ? n + k - 1 : n;
    if (gudrenoss_count(allowed, n, k, &count).number != GUDRENOSS_OK)
        exit(1);
    uint8_t *from = malloc(8 * count), *to = malloc(8 * count), *other = malloc(8 * count);
    if (!from || !to || !other)
        exit(1);
    for (uint64_t i = 0; i < count; i++)
        memcpy(from + 8 * i, &i, 8);
    for (int back = 0; back < 2; back++) {
        double least[2] = {1e9, 1e9};
        for (int i = 0; i < rounds; i++)
            timed_round(back, allowed, n, k, a, count, from, to, other, least);
        double p = least[0], c = least[1];
        printf("%s %2llu %2llu %s  %9llu entries  %6.2f ns here  %6.2f ns plain  %.2f\n", allowed ? "allowed  " : "forbidden", (unsigned long long)n,
            (unsigned long long)k, back ? "to old" : "to new", (unsigned long long)count, 1e9 * c / (double)count, 1e9 * p / (double)count, c / p);
    }
    free(from);
    free(to);
    free(other);
}

int main(void)
{
    fill_triangle();
    compare(false, 44, 5);
    compare(false, 25, 8);
    compare(false, 22, 11);
    compare(true, 40, 5);
    compare(true, 12, 12);
    return 0;
}
