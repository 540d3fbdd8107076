/* Times the wide calls beside the narrow ones on the same words, whose shifted symbols are below 64, and then over 128, in one program. Each side is one
 * call of the library, and on the words of both they have to give the same answers.
 *
 *   a call      rank of an index, successor, unranking to an index over an alphabet
 *   a group     indices drawn of one degree, or of the degrees 1 to 12 in turn, of both families; those that a narrow successor follows
 *   least       the least time of a round over a number of rounds, the two sides in turns */
#include <gudrenoss.h>

#include <stdio.h>
#include <stdlib.h>
#include <time.h>

enum { terms = 4096, rounds = 41 };

/* A term: its narrow alphabet and bits, its halves, its degree and its rank, the alphabet over which it is unranked. */
struct term {
    bool allowed;
    uint64_t n, low, high, k, rank, over;
};

static struct term asked[terms];

static uint64_t state = UINT64_C(0x9e3779b97f4a7c15);

static uint64_t any(void)
{
    state ^= state << 13;
    state ^= state >> 7;
    state ^= state << 17;
    return state;
}

static uint64_t must(gudrenoss_refusal r)
{
    if (r.number) {
        printf("wide: a call was refused %llu\n", (unsigned long long)r.number);
        exit(1);
    }
    return 0;
}

/* k shifted symbols below `below`. */
static void draw_bits(struct term *t, uint64_t k, uint64_t below)
{
    t->low = t->high = 0;
    for (uint64_t found = 0; found < k;) {
        uint64_t s = any() % below, *half = s < 64 ? &t->low : &t->high, bit = UINT64_C(1) << s % 64;
        found += (*half & bit) == 0;
        *half |= bit;
    }
}

/* The degrees from `first` to `last` in turn, of shifted symbols below `below`. */
static void ask_terms(bool allowed, uint64_t first, uint64_t last, uint64_t below)
{
    for (size_t i = 0; i < terms; i++) {
        struct term *t = &asked[i];
        uint64_t k = first + i % (last - first + 1), a, b;
        *t = (struct term){.allowed = allowed, .k = k, .n = allowed ? 65 - k : 64, .over = allowed ? below + 1 - k : below};
        do
            draw_bits(t, k, below);
        while (below <= 64 && k < 64 && gudrenoss_successor(allowed, t->n, t->low, &a, &b).number);
        must(gudrenoss_wide_rank_of(allowed, t->low, t->high, &t->rank));
    }
}

/* ---- the race --------------------------------------------------------------------------------------------------------------- */

static double now(void)
{
    struct timespec t;
    clock_gettime(CLOCK_MONOTONIC, &t);
    return 1e9 * (double)t.tv_sec + (double)t.tv_nsec;
}

/* What the places hold after a call: of a narrow index the bits, of a wide one the low half, with the other place where it has to be 0. */
#define TIMED(name, call, said)                       \
    static double name(uint64_t *sum)                 \
    {                                                 \
        double start = now();                         \
        for (size_t i = 0; i < terms; i++) {          \
            const struct term *t = &asked[i];         \
            uint64_t x = 0, y = 0;                    \
            gudrenoss_refusal r = call;               \
            *sum = 31 * *sum + r.number + r.at + said; \
        }                                             \
        return (now() - start) / terms;               \
    }

TIMED(narrow_rank, gudrenoss_rank_of(t->allowed, t->n, t->low, &x), x + y)
TIMED(wide_rank, gudrenoss_wide_rank_of(t->allowed, t->low, t->high, &x), x + y)
TIMED(narrow_next, gudrenoss_successor(t->allowed, t->n, t->low, &y, &x), x + (y - t->n))
TIMED(wide_next, gudrenoss_wide_successor(t->allowed, t->low, t->high, &x, &y), x + y)
TIMED(narrow_unrank, gudrenoss_unrank_over(t->allowed, t->over, t->k, t->rank, &y, &x), x + (y - t->over))
TIMED(wide_unrank, gudrenoss_wide_unrank_over(t->allowed, t->over, t->k, t->rank, &x, &y), x + y)

typedef double timed(uint64_t *);

static double race(const char *name, bool allowed, const char *group, timed *wide, timed *narrow)
{
    double here = 1e18, there = 1e18;
    for (int i = 0; i < rounds; i++) {
        uint64_t a = 0, b = 0;
        double x = wide(&a), y = narrow(&b);
        here = x < here ? x : here;
        there = y < there ? y : there;
        if (a != b) {
            printf("wide: the answers differ: %s, %s\n", name, group);
            exit(1);
        }
    }
    printf("%-10s %-10s %-6s %9.1f %9.1f %6.2f\n", name, allowed ? "Allowed" : "Forbidden", group, here, there, here / there);
    return here / there;
}

static void alone(const char *name, bool allowed, const char *group, timed *wide)
{
    double here = 1e18;
    for (int i = 0; i < rounds; i++) {
        uint64_t a = 0;
        double x = wide(&a);
        here = x < here ? x : here;
    }
    printf("%-10s %-10s %-6s %9.1f\n", name, allowed ? "Allowed" : "Forbidden", group, here);
}

struct group {
    const char *name;
    uint64_t first, last;
};

/* The three calls on words of a group, beside the narrow ones; the greatest of the ratios. */
static double beside_narrow(const struct group *g, bool allowed, uint64_t below)
{
    ask_terms(allowed, g->first, g->last, below);
    double rank = race("rank", allowed, g->name, wide_rank, narrow_rank), next = race("successor", allowed, g->name, wide_next, narrow_next);
    double unrank = race("unrank", allowed, g->name, wide_unrank, narrow_unrank), most = rank > next ? rank : next;
    return unrank > most ? unrank : most;
}

int main(void)
{
    const struct group groups[] = {{"1-12", 1, 12}, {"1", 1, 1}, {"2", 2, 2}, {"4", 4, 4}, {"6", 6, 6}, {"12", 12, 12}, {"32", 32, 32}, {"48", 48, 48}};
    const uint64_t widths[] = {64, 16};
    double most = 0;
    for (size_t w = 0; w < 2; w++) {
        printf("shifted symbols below %u\n%-10s %-10s %-6s %9s %9s %6s\n", (unsigned)widths[w], "call", "family", "degree", "wide, ns", "narrow", "ratio");
        for (size_t g = 0; g < sizeof groups / sizeof *groups; g++)
            for (int allowed = 0; allowed < 2 && groups[g].last < widths[w]; allowed++) {
                double ratio = beside_narrow(&groups[g], allowed, widths[w]);
                most = ratio > most ? ratio : most;
            }
    }
    printf("the greatest ratio: %.2f\n\nshifted symbols below 128\n%-10s %-10s %-6s %9s\n", most, "call", "family", "degree", "wide, ns");
    for (size_t g = 0; g < 6; g++)
        for (int allowed = 0; allowed < 2; allowed++) {
            ask_terms(allowed, groups[g].first, groups[g].last, 128);
            alone("rank", allowed, groups[g].name, wide_rank);
            alone("successor", allowed, groups[g].name, wide_next);
            alone("unrank", allowed, groups[g].name, wide_unrank);
        }
    return 0;
}
