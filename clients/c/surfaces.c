/* surfaces COUNT: the mass by so many surfaces that are drawn at random, held bit by bit to the sequence of operations of docs/RULES.md, which stands
 * here in plain C; compiled so that no multiplication is joined with an addition (-ffp-contract=off). Surfaces have some of the degrees 0 to 11, their
 * tables in any order, coefficients and readings of many sizes, zeros, subnormals, and now and then what is not finite. It prints how many were
 * refused and a digest of all results, which is the same on every processor; its last line is 'N surfaces, 0 differ', and its exit status then 0. */
#include <gudrenoss.h>

#include <stdio.h>
#include <string.h>

enum { degrees = 12, most_bytes = 4 + 12 * degrees + 8 * degrees * (degrees + 1) / 2 };

static uint64_t state;

static uint64_t any(void)
{
    uint64_t z = state += UINT64_C(0x9e3779b97f4a7c15);
    z = (z ^ z >> 30) * UINT64_C(0xbf58476d1ce4e5b9);
    z = (z ^ z >> 27) * UINT64_C(0x94d049bb133111eb);
    return z ^ z >> 31;
}

static uint64_t below(uint64_t n)
{
    return any() % n;
}

static double of_bits(uint64_t bits)
{
    double x;
    memcpy(&x, &bits, sizeof x);
    return x;
}

static uint64_t bits_of(double x)
{
    uint64_t bits;
    memcpy(&bits, &x, sizeof bits);
    return bits;
}

/* A double: mostly one whose exponent lies within `spread` of 1, seldom a zero, a subnormal, an infinity or anything. */
static uint64_t number(uint64_t spread)
{
    uint64_t sign = any() & UINT64_C(1) << 63, fraction = any() >> 12, kind = below(400);
    if (kind == 0)
        return any();
    if (kind < 8)
        return sign;
    if (kind < 12)
        return sign | fraction;
    uint64_t exponent = 1023 - spread;
    exponent += below(2 * spread + 1);
    return sign | exponent << 52 | fraction;
}

static void put(uint8_t *place, uint64_t n, size_t size)
{
    for (size_t i = 0; i < size; i++)
        place[i] = (uint8_t)(n >> 8 * i);
}

/* A surface: its image, and its coefficients by degree and rank. */
static uint8_t image[most_bytes];
static double coefficient[degrees][degrees];
static bool has[degrees];
static size_t len;

static void draw(void)
{
    uint64_t order[degrees], tables = 0, spread = 1 + below(40);
    for (size_t k = 0; k < degrees; k++) {
        has[k] = below(3) != 0;
        if (has[k])
            order[tables++] = k;
    }
    if (tables == 0)
        has[0] = true, order[tables++] = 0;
    for (size_t i = tables; i > 1; i--) {
        size_t j = below(i);
        uint64_t held = order[i - 1];
        order[i - 1] = order[j], order[j] = held;
    }
    len = 4 + 12 * tables;
    put(image, tables, 4);
    for (size_t i = 0; i < tables; i++) {
        uint8_t *row = image + 4 + 12 * i;
        uint64_t k = order[i];
        row[0] = 1, row[1] = (uint8_t)k, row[2] = 2, row[3] = 0;
        put(row + 4, len, 4);
        put(row + 8, k + 1, 4);
        for (size_t j = 0; j <= k; j++, len += 8) {
            uint64_t bits = number(spread);
            coefficient[k][j] = of_bits(bits);
            put(image + len, bits, 8);
        }
    }
}

static bool finite(double x)
{
    return (bits_of(x) >> 52 & 2047) != 2047;
}

/* The sequence: by degree, then by rank; a monomial starts at 1.0 and is multiplied by its readings, the pressures first. Each step is rounded
 * where it stands. */
static double mass(double p, double t)
{
    volatile double sum = 0.0;
    for (size_t k = 0; k < degrees; k++)
        for (size_t j = 0; has[k] && j <= k; j++) {
            volatile double monomial = 1.0, term;
            for (size_t i = 0; i < k; i++)
                monomial = monomial * (i < k - j ? p : t);
            term = coefficient[k][j] * monomial;
            sum = sum + term;
        }
    return sum;
}

int main(int argc, char **argv)
{
    uint64_t count = 0, digest = UINT64_C(0xcbf29ce484222325), refused = 0, differ = 0;
    for (const char *c = argc == 2 ? argv[1] : "x"; *c != '\0'; c++)
        count = *c >= '0' && *c <= '9' ? 10 * count + (uint64_t)(*c - '0') : 0;
    if (count == 0) {
        printf("usage: surfaces COUNT\n");
        return 2;
    }
    for (uint64_t i = 0; i < count; i++) {
        state = i << 20;
        draw();
        uint64_t frame = any();
        double p = of_bits(number(3)), t = of_bits(number(3)), wanted = mass(p, t), given = of_bits(UINT64_C(0x4045000000000000));
        gudrenoss_frame_refusal r = gudrenoss_mass(image, len, frame, p, frame, t, &given);
        bool good = finite(p) && finite(t) && finite(wanted);
        uint64_t bits = good ? bits_of(wanted) : UINT64_C(0x4045000000000000);
        differ += r.number != (good ? GUDRENOSS_OK : GUDRENOSS_NOT_FINITE) || r.at != 0 || r.frame != (good ? 0 : frame) || bits_of(given) != bits;
        refused += !good;
        digest = (digest ^ r.number) * UINT64_C(0x100000001b3);
        digest = (digest ^ bits_of(given)) * UINT64_C(0x100000001b3);
        digest ^= digest >> 32;
    }
    printf("%llu refused\n", (unsigned long long)refused);
    printf("digest %08x%08x\n", (unsigned)(digest >> 32), (unsigned)digest);
    printf("%llu surfaces, %llu differ\n", (unsigned long long)count, (unsigned long long)differ);
    return differ > 0;
}
