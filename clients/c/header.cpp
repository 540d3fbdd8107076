// The header as C++ reads it: it compiles, its names have C linkage, and its structs have the layout of the library.
#include <gudrenoss.h>

static_assert(sizeof(gudrenoss_permutation) == 65 * sizeof(uint64_t), "64 entries and a length, without gaps");
static_assert(sizeof(gudrenoss_refusal) == 2 * sizeof(uint64_t), "a number and a place, without gaps");
static_assert(sizeof(bool) == 1, "a truth value is one byte");

int main()
{
    gudrenoss_permutation reversed = {{2, 1, 0}, 3};
    gudrenoss_permutation last;
    uint64_t rank = 7;
    if (gudrenoss_permutation_rank(reversed.entries, reversed.len, &rank).number != GUDRENOSS_OK || rank != 0)
        return 1;
    if (gudrenoss_permutation_unrank(3, 5, last.entries, &last.len).number != GUDRENOSS_OK || last.len != 3 || last.entries[2] != 2)
        return 2;
    const uint64_t word[] = {3, 5, 4, 1};
    const gudrenoss_refusal refusal = gudrenoss_rank(true, word, 4, &rank);
    if (refusal.number != GUDRENOSS_NOT_MONOTONE || refusal.at != 2 || rank != 0)
        return 3;
    uint64_t alphabet = 0, bits = 0;
    if (gudrenoss_unrank_over(true, 3, 2, 5, &alphabet, &bits).number != GUDRENOSS_OK || alphabet != 3 || bits != 12)
        return 4;
    if (gudrenoss_successor(true, alphabet, bits, &alphabet, &bits).number != GUDRENOSS_LAST || alphabet != 3 || bits != 12)
        return 5;
    return 0;
}
