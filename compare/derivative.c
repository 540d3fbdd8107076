/* Times gudrenoss_derivative beside a plain program of the same formula, on tables of about a million entries, in one program. Both judge all entries before
 * they write the first, and both have to write the same. A time is the least of a number of rounds, in turns.
 *
 *   plain    each word of the result in rank order; the rank of the word with s added is summed up over its symbols, the multiplicity of s counted, and the
 *            product formed with the compiler's own test for overflow */
#define _POSIX_C_SOURCE 199309L
#include <gudrenoss.h>

#include <stdio.h>
#include <stdlib.h>
#include <string.h>
#include <time.h>

enum { rounds = 9 };

static uint64_t choose[66][66];

static void make_triangle(void)
{
    for (int i = 0; i < 66; i++)
        for (int j = 0; j <= i; j++)
            choose[i][j] = j == 0 || j == i ? 1 : choose[i - 1][j - 1] + choose[i - 1][j];
}

/* ---- the plain program */

/* The next word of d symbols that weakly increase. */
static void next(uint64_t *word, uint64_t d)
{
    uint64_t i = 0;
    while (i + 1 < d && word[i] == word[i + 1])
        word[i++] = 0;
    if (d > 0)
        word[i]++;
}

static bool entry(const uint64_t *word, uint64_t d, uint64_t s, const int64_t *table, int64_t *product)
{
    uint64_t rank = 0, p = 0;
    int64_t times = 1;
    for (uint64_t i = 0; i < d; i++) {
        bool past = word[i] > s;
        rank += choose[word[i] + i + past][i + 1 + past];
        p += !past;
        times += word[i] == s;
    }
    return !__builtin_mul_overflow(table[rank + choose[s + p][p + 1]], times, product);
}

static bool plain(uint64_t d, uint64_t s, const int64_t *table, int64_t *entries, uint64_t m)
{
    uint64_t word[64];
    int64_t product;
    memset(word, 0, sizeof word);
    for (uint64_t r = 0; r < m; r++, next(word, d))
        if (!entry(word, d, s, table, &product))
            return false;
    memset(word, 0, sizeof word);
    for (uint64_t r = 0; r < m; r++, next(word, d))
        (void)entry(word, d, s, table, &entries[r]);
    return true;
}

/* ---- the race */

static double now(void)
{
    struct timespec t;
    clock_gettime(CLOCK_MONOTONIC, &t);
    return (double)t.tv_sec * 1e3 + (double)t.tv_nsec / 1e6;
}

static void race(uint64_t n, uint64_t k, uint64_t s, int64_t greatest, const char *sizes)
{
    uint64_t len = choose[n + k - 1][k], m = k > 1 ? choose[n + k - 2][k - 1] : 1, written = 0, seed = 1;
    int64_t *table = malloc(len * sizeof *table), *ours = calloc(m, sizeof *ours), *theirs = calloc(m, sizeof *theirs);
    if (!table || !ours || !theirs)
        exit(3);
    for (uint64_t i = 0; i < len; i++) {
        seed = seed * 6364136223846793005u + 1442695040888963407u;
        table[i] = (int64_t)(seed >> 1) % greatest * (seed % 2 ? 1 : -1);
    }
    double best = 1e9, other = 1e9;
    for (int i = 0; i < rounds; i++) {
        double t = now();
        gudrenoss_refusal back = gudrenoss_derivative(n, k, s, table, len, ours, m, &written);
        t = now() - t;
        best = t < best ? t : best;
        if (back.number != GUDRENOSS_OK || written != m)
            exit(1);
        t = now();
        bool fits = plain(k - 1, s, table, theirs, m);
        t = now() - t;
        other = t < other ? t : other;
        if (!fits || memcmp(ours, theirs, m * sizeof *ours) != 0)
            exit(1);
    }
    printf("n %2lu, k %2lu, s %2lu, %s: %8lu entries from %8lu, %6.1f ms here, %6.1f ms plain, %.2f\n", (unsigned long)n, (unsigned long)k, (unsigned long)s, sizes,
        (unsigned long)m, (unsigned long)len, best, other, best / other);
    free(table);
    free(ours);
    free(theirs);
}

int main(void)
{
    make_triangle();
    static const uint64_t shapes[][2] = {{12, 13}, {8, 20}, {20, 8}, {40, 6}, {4, 61}, {2, 63}};
    for (size_t i = 0; i < sizeof shapes / sizeof *shapes; i++)
        for (int place = 0; place < 3; place++) {
            uint64_t n = shapes[i][0], k = shapes[i][1], s = place == 0 ? 0 : place == 1 ? n / 2 : n - 1;
            race(n, k, s, 1000000, "small coefficients");
        }
    race(12, 13, 6, INT64_MAX / 13, "large coefficients");
    return 0;
}
