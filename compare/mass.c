/* Times the mass of one frame: this library beside two programs in C of the same sequence of rounded operations, in one program. All sides are
 * functions of one shape and none is inlined, so all pay for one call; all judge the image and have to give the same bits.
 *
 *   plain      the yardstick: the sequence as document 02 says it, each monomial multiplied out
 *   shared     the same roundings with one product a term: what a monomial has in common with the one before is kept
 *   surfaces   degrees 0 to 5, 21 terms, as a gauging surface has; degrees 0 to 63, 2,080 terms, the largest there is
 *   least      the least time of a round over a number of rounds, the sides in turns
 *
 * mass SURFACE SIDE CALLS makes so many calls of one side, for whoever counts instructions. */
#include <gudrenoss.h>

#include <stdio.h>
#include <stdlib.h>
#include <string.h>
#include <time.h>

enum { most_bytes = 65536, rounds = 25, frames = 1024 };

/* ---- the image, judged as one would by hand ---------------------------------------------------------------------------------- */

static uint64_t binomial[65][65];

static void make_binomials(void)
{
    for (int i = 0; i <= 64; i++)
        for (int j = 0; j <= i; j++)
            binomial[i][j] = j == 0 || j == i ? 1 : binomial[i - 1][j - 1] + binomial[i - 1][j];
}

static uint32_t four(const uint8_t *at)
{
    return (uint32_t)at[0] | (uint32_t)at[1] << 8 | (uint32_t)at[2] << 16 | (uint32_t)at[3] << 24;
}

/* The offset of the first wrong field, or -1; the place of each degree's body, or 0, and whether all tables are Allowed over 2. */
static int64_t judged(const uint8_t *image, size_t len, uint32_t body[65], bool *fits)
{
    if (len < 4)
        return (int64_t)len;
    uint32_t t = four(image);
    if (t == 0 || t > 64)
        return 0;
    bool seen[2][65] = {{false}};
    uint64_t place = 4 + 12 * (uint64_t)t;
    *fits = true;
    for (uint64_t at = 4; at < 4 + 12 * (uint64_t)t; at += 12) {
        const uint8_t *row = image + at;
        if (len < at + 1)
            return (int64_t)len;
        if (row[0] > 1)
            return (int64_t)at;
        if (len < at + 2)
            return (int64_t)len;
        if (row[1] > 64 || seen[row[0]][row[1]])
            return (int64_t)at + 1;
        if (len < at + 3)
            return (int64_t)len;
        uint64_t wide = row[0] == 1 && row[1] > 0 ? (uint64_t)row[2] + row[1] - 1 : row[2];
        if (wide > 64)
            return (int64_t)at + 2;
        if (len < at + 4)
            return (int64_t)len;
        if (row[3] != 0)
            return (int64_t)at + 3;
        if (len < at + 8)
            return (int64_t)len;
        if (four(row + 4) != place)
            return (int64_t)at + 4;
        if (len < at + 12)
            return (int64_t)len;
        uint64_t entries = four(row + 8);
        if (entries == 0 || entries != binomial[wide][row[1]] || place + 8 * entries > most_bytes)
            return (int64_t)at + 8;
        seen[row[0]][row[1]] = true;
        *fits = *fits && row[0] == 1 && row[2] == 2;
        body[row[1]] = (uint32_t)place;
        place += 8 * entries;
    }
    if (len != place)
        return (int64_t)(len < place ? len : place);
    return -1;
}

static bool is_finite(double x)
{
    return x - x == 0.0;
}

static double entry(const uint8_t *at)
{
    double x;
    memcpy(&x, at, sizeof x);
    return x;
}

/* ---- the yardsticks ---------------------------------------------------------------------------------------------------------- */

typedef double sum_of(const uint8_t *image, const uint32_t body[65], double p, double t);

static inline double plain_sum(const uint8_t *image, const uint32_t body[65], double p, double t)
{
    double sum = 0.0;
    for (int k = 0; k < 64; k++) {
        if (body[k] == 0)
            continue;
        for (int r = 0; r <= k; r++) {
            double monomial = 1.0;
            for (int i = 0; i < k - r; i++)
                monomial = monomial * p;
            for (int i = 0; i < r; i++)
                monomial = monomial * t;
            sum = sum + entry(image + body[k] + 8 * r) * monomial;
        }
    }
    return sum;
}

/* row[a] holds a pressures, then as many temperatures as the degree has besides. No degree above the highest is looked at. */
static inline double shared_sum(const uint8_t *image, const uint32_t body[65], double p, double t)
{
    double sum = 0.0, power = 1.0, row[64];
    int top = 63;
    while (top > 0 && body[top] == 0)
        top--;
    for (int k = 0; k <= top; k++) {
        row[k] = power;
        if (body[k] != 0)
            for (int r = 0; r <= k; r++)
                sum = sum + entry(image + body[k] + 8 * r) * row[k - r];
        for (int a = 0; a <= k; a++)
            row[a] = row[a] * t;
        power = power * p;
    }
    return sum;
}

static inline gudrenoss_frame_refusal by(
    sum_of *sum_by, const uint8_t *image, size_t len, uint64_t pressure_frame, double p, uint64_t temperature_frame, double t, double *mass)
{
    uint32_t body[65] = {0};
    bool fits;
    if (pressure_frame != temperature_frame)
        return (gudrenoss_frame_refusal){GUDRENOSS_FRAME, 0, pressure_frame};
    int64_t wrong = judged(image, len, body, &fits);
    if (wrong >= 0)
        return (gudrenoss_frame_refusal){GUDRENOSS_BAD_IMAGE, (uint64_t)wrong, pressure_frame};
    if (!fits)
        return (gudrenoss_frame_refusal){GUDRENOSS_OUTSIDE, 0, pressure_frame};
    double sum = sum_by(image, body, p, t);
    if (!is_finite(p) || !is_finite(t) || !is_finite(sum))
        return (gudrenoss_frame_refusal){GUDRENOSS_NOT_FINITE, 0, pressure_frame};
    *mass = sum;
    return (gudrenoss_frame_refusal){GUDRENOSS_OK, 0, 0};
}

typedef gudrenoss_frame_refusal mass_of(
    const uint8_t *image, size_t len, uint64_t pressure_frame, double p, uint64_t temperature_frame, double t, double *mass);

__attribute__((noinline)) static gudrenoss_frame_refusal plain(
    const uint8_t *image, size_t len, uint64_t pressure_frame, double p, uint64_t temperature_frame, double t, double *mass)
{
    return by(plain_sum, image, len, pressure_frame, p, temperature_frame, t, mass);
}

__attribute__((noinline)) static gudrenoss_frame_refusal shared(
    const uint8_t *image, size_t len, uint64_t pressure_frame, double p, uint64_t temperature_frame, double t, double *mass)
{
    return by(shared_sum, image, len, pressure_frame, p, temperature_frame, t, mass);
}

/* ---- surfaces and frames ------------------------------------------------------------------------------------------------------ */

struct surface {
    const char *name;
    size_t len;
    uint8_t bytes[most_bytes];
};

struct frame {
    uint64_t number;
    double p, t;
};

static struct surface surfaces[2];
static struct frame asked[frames];
static uint64_t state = UINT64_C(0x9e3779b97f4a7c15);

static uint64_t any(void)
{
    state ^= state << 13;
    state ^= state >> 7;
    state ^= state << 17;
    return state;
}

/* A double between -1 and 1. */
static double real(void)
{
    return (double)(int64_t)any() / 9223372036854775808.0;
}

static void put(uint8_t *at, uint64_t n, int bytes)
{
    for (int i = 0; i < bytes; i++)
        at[i] = (uint8_t)(n >> 8 * i);
}

static void make(struct surface *s, const char *name, uint64_t degrees)
{
    s->name = name;
    s->len = 4 + 12 * degrees;
    put(s->bytes, degrees, 4);
    for (uint64_t k = 0; k < degrees; k++) {
        put(s->bytes + 4 + 12 * k, 1 + 256 * k + 2 * 65536, 4);
        put(s->bytes + 8 + 12 * k, s->len, 4);
        put(s->bytes + 12 + 12 * k, k + 1, 4);
        for (uint64_t r = 0; r <= k; r++, s->len += 8) {
            double c = real();
            uint64_t bits;
            memcpy(&bits, &c, sizeof bits);
            put(s->bytes + s->len, bits, 8);
        }
    }
}

static void make_all(void)
{
    make_binomials();
    make(&surfaces[0], "degrees 0 to 5", 6);
    make(&surfaces[1], "degrees 0 to 63", 64);
    for (size_t i = 0; i < frames; i++)
        asked[i] = (struct frame){any(), real(), real()};
}

/* ---- the race --------------------------------------------------------------------------------------------------------------- */

static mass_of *const side[] = {gudrenoss_mass, plain, shared};
static const char *const side_name[] = {"here", "plain C", "C, shared"};

static uint64_t mixed(uint64_t sum, gudrenoss_frame_refusal r, double mass)
{
    uint64_t bits;
    memcpy(&bits, &mass, sizeof bits);
    return 31 * sum + r.number + 7 * r.at + 11 * r.frame + bits;
}

static uint64_t called(const struct surface *s, mass_of *mass, size_t calls)
{
    uint64_t sum = 0;
    for (size_t i = 0; i < calls; i++) {
        const struct frame *f = &asked[i % frames];
        double m = 0.0;
        gudrenoss_frame_refusal r = mass(s->bytes, s->len, f->number, f->p, f->number, f->t, &m);
        sum = mixed(sum, r, m);
    }
    return sum;
}

static double now(void)
{
    struct timespec t;
    clock_gettime(CLOCK_MONOTONIC, &t);
    return 1e9 * (double)t.tv_sec + (double)t.tv_nsec;
}

static void race(const struct surface *s)
{
    double least[3] = {1e18, 1e18, 1e18};
    uint64_t wanted = called(s, plain, frames);
    for (int round = 0; round < rounds; round++)
        for (int i = 0; i < 3; i++) {
            double start = now();
            uint64_t sum = called(s, side[i], frames);
            double took = (now() - start) / frames;
            least[i] = took < least[i] ? took : least[i];
            if (sum != wanted) {
                printf("mass: the answers differ: %s, %s\n", side_name[i], s->name);
                exit(1);
            }
        }
    printf("%-16s %10.1f %10.1f %6.2f %10.1f %6.2f\n", s->name, least[0], least[1], least[0] / least[1], least[2], least[0] / least[2]);
}

int main(int argc, char **argv)
{
    make_all();
    if (argc == 4) {
        uint64_t sum = called(&surfaces[atoi(argv[1]) % 2], side[atoi(argv[2]) % 3], (size_t)atoi(argv[3]));
        printf("%llu\n", (unsigned long long)sum);
        return 0;
    }
    printf("%-16s %10s %10s %6s %10s %6s\n", "surface", "here, ns", "C, ns", "ratio", "shared, ns", "ratio");
    race(&surfaces[0]);
    race(&surfaces[1]);
    return 0;
}
