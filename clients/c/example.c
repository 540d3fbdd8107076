/* A small tank. Five wall sensors, of which any three are enough: each set of three live sensors has a calibration block of its own,
 * found by the rank of the set. The mass is a polynomial of degree 2 in three readings: each coefficient is found by the rank of its
 * term. Link with libgudrenoss.a. */
#include <gudrenoss.h>

#include <stdio.h>

enum { sensors = 5, needed = 3, readings = 3, degree = 2, blocks = 10, terms = 6 };

/* The gain of each calibration block, by the rank of the set of live sensors. */
static const double gain[blocks] = {1.000, 1.004, 0.998, 1.011, 1.002, 0.995, 1.020, 1.008, 0.991, 1.013};

/* The coefficients of p p, p t, t t, p w, t w and w w, by the rank of the term. p, t, w are the readings 0, 1, 2. */
static const double coefficient[terms] = {0.25, -0.50, 0.125, 1.00, 0.75, -0.0625};

/* The block of a set of live sensors. A sensor that the tank does not have is refused where the set is made. */
static gudrenoss_refusal block_of(const uint64_t *live, size_t live_len, uint64_t *block)
{
    bool reordered;
    uint64_t alphabet, set, rank;
    gudrenoss_refusal refusal = gudrenoss_canonicalise(false, sensors, live, live_len, &reordered, &alphabet, &set);
    if (refusal.number == GUDRENOSS_OK)
        refusal = gudrenoss_rank_of(false, alphabet, set, &rank);
    if (refusal.number == GUDRENOSS_OK && live_len != needed)
        refusal.number = GUDRENOSS_SHAPE;
    if (refusal.number == GUDRENOSS_OK)
        *block = rank;
    return refusal;
}

/* The polynomial: a walk over all terms, in order of rank. */
static gudrenoss_refusal mass_of(const double reading[readings], double *mass)
{
    bool standing;
    uint64_t over, at, remaining, alphabet, bits, rank, word[degree], len;
    gudrenoss_refusal refusal = gudrenoss_walk_start(true, readings, degree, &standing, &over, &at, &remaining);
    double sum = 0;
    while (refusal.number == GUDRENOSS_OK && remaining > 0) {
        refusal = gudrenoss_walk_step(true, &standing, &over, &at, &remaining, &alphabet, &bits);
        if (refusal.number == GUDRENOSS_OK)
            refusal = gudrenoss_rank_of(true, alphabet, bits, &rank);
        if (refusal.number == GUDRENOSS_OK)
            refusal = gudrenoss_unpack(true, alphabet, bits, word, degree, &len);
        if (refusal.number == GUDRENOSS_OK)
            sum += coefficient[rank] * reading[word[0]] * reading[word[1]];
    }
    if (refusal.number == GUDRENOSS_OK)
        *mass = sum;
    return refusal;
}

int main(void)
{
    const uint64_t live[] = {4, 0, 3}, twice[] = {4, 0, 4}, unknown[] = {4, 0, 5}, term[] = {0, 2}, unsorted[] = {0, 2, 1};
    const double reading[readings] = {2.0, 1.5, 4.0};
    uint64_t block, rank;
    double mass;
    gudrenoss_refusal refusal;

    if (block_of(live, 3, &block).number != GUDRENOSS_OK || gudrenoss_rank(true, term, degree, &rank).number != GUDRENOSS_OK
        || mass_of(reading, &mass).number != GUDRENOSS_OK)
        return 1;
    printf("sensors 0, 3 and 4 are live: calibration block %u of %u\n", (unsigned)block, (unsigned)blocks);
    printf("the term p w has coefficient number %u: %.3f\n", (unsigned)rank, coefficient[rank]);
    printf("mass %.6f, calibrated %.6f\n", mass, gain[block] * mass);
    printf("sensor 4 named twice: refusal %u\n", (unsigned)block_of(twice, 3, &block).number);
    printf("sensor 5, which there is not: refusal %u\n", (unsigned)block_of(unknown, 3, &block).number);
    refusal = gudrenoss_rank(true, unsorted, 3, &rank);
    printf("the term p w t, unsorted: refusal %u at position %u\n", (unsigned)refusal.number, (unsigned)refusal.at);
    return 0;
}
