/*
 * Gudrenoss: term numbering for tank gauging, for programs in C99 and C++.
 *
 * The source of every function below is proved to do what is said here, for all inputs. docs/RULES.md has the same rules with more
 * examples, docs/PROMISES.md says what the proofs rest on. Link with libgudrenoss.a, which is for x86-64 Linux and needs nothing but
 * memcpy and memset. Sections: one rule, words, pointers, version, refusals, then the functions: terms, signed operations, sets,
 * permutations, shapes, digit words, exponents, images of coefficient tables, images in pieces, the mass of one frame, derivatives, old
 * tables, wide indices.
 *
 * ONE RULE
 *
 * Each function returns a gudrenoss_refusal, two numbers by value. Its number is 0 (GUDRENOSS_OK) for an answer, otherwise the
 * reason why there is none; its place, at, is 0 except where a check below says what it is. The results go to places of the
 * caller's, which are the last parameters. They are written only on an answer: after a refusal every place and every buffer holds
 * what it held. The checks run in the order in which they are listed, the first that fails gives the number, and nothing else is
 * refused. No function has a precondition on its numbers: any value may be passed. The two functions on a frame return a
 * gudrenoss_frame_refusal, which has the number of the frame besides.
 *
 *     uint64_t rank;
 *     gudrenoss_refusal refusal = gudrenoss_rank(true, word, 2, &rank);
 *     if (refusal.number != GUDRENOSS_OK) { ... rank is untouched ... }
 *
 * WORDS
 *
 * number        unsigned, of 64 bits; a coefficient of a surface is signed, of 64 bits. Every sum and product that a check speaks
 *               of is exact: it never wraps.
 * word          a list of numbers, its symbols. Position 0 stands first. Its length is also called its degree, k.
 * alphabet      n stands for the symbols 0 to n - 1. A word is over n if all its symbols are below n.
 * family        a bool. false is Forbidden: no symbol repeats, so the symbols of a word strictly increase and it is a subset.
 *               true is Allowed: symbols may repeat, so they weakly increase and the word is a multiset.
 * shift         what a position adds to its symbol: 0 for Forbidden, the position itself for Allowed. The word of the shifted
 *               symbols strictly increases in both families. A word over n has its shifted symbols below the shifted alphabet:
 *               n for Forbidden and for degree 0, otherwise n + k - 1.
 * index         a family, an alphabet n and 64 bits: bit b is set if b is a shifted symbol. Its degree is the number of ones. It
 *               holds a word over n. It is passed as three parameters, allowed, n and bits, and given as two, the alphabet and the
 *               bits; the family is then the one that was passed. Any numbers may be passed: "the index's checks" come before all
 *               others, and of two indices the 1 of either comes before the 7 of either:
 *                   1  the shifted alphabet of n and the degree is above 64
 *                   7  a symbol of its word is not below n
 *               An index that a function has given passes them.
 * rank          how many words of the same family and length stand earlier. Of two words, the earlier has the smaller symbol at
 *               the highest position where they differ (colexicographic order). A rank does not depend on the alphabet.
 * set           a bare 64-bit number whose ones are the members.
 * sign          a bool: true is minus, false is plus.
 *
 * The words of two symbols, Forbidden over 4 and Allowed over 3, by rank, with their bits:
 *
 *     rank   Forbidden   Allowed   bits
 *        0         0 1       0 0      3
 *        1         0 2       0 1      5
 *        2         1 2       1 1      6
 *        3         0 3       0 2      9
 *        4         1 3       1 2     10
 *        5         2 3       2 2     12
 *
 * POINTERS
 *
 * Memory is the caller's own: the library has no heap, no global state and no locks, keeps no pointer after it returns, and may
 * be called from several threads and from a signal handler. It uses at most 3,472 bytes of stack (docs/FLIGHT.md).
 *
 * - A list that is read is a pointer and its length: const uint64_t *word, size_t word_len; of coefficients const int64_t *. At
 *   least that many places must be readable there, and they must not change during the call.
 * - A buffer that is filled is a pointer and its room: uint64_t *word, size_t word_room. At least that many places must be
 *   writable there. The function writes from place 0 up, stores in *written how many places it has written, and leaves the places
 *   after those as they were. Too little room is refused 8, as the last check (gudrenoss_derivative has its 9 after it).
 * - An image and its parts are read and filled in the same way, as bytes: const uint8_t *image, size_t image_len. They need no alignment.
 * - Every other pointer is to one place that may be written, entries[64] to 64 places; a permutation that is read is 64 places,
 *   whatever its length; bytes[772] is 772 bytes that are read and written. None of them is NULL.
 * - Pointers are aligned as their type asks.
 * - A place or buffer that is written must not overlap another one or a list that is read: such a call gives wrong numbers or ends
 *   the program. Two lists that are read may overlap, and a value that is passed may be that of the place of a result, as in
 *   gudrenoss_successor(true, n, bits, &n, &bits).
 * - A bool holds true or false and nothing else, also where it is read through a pointer.
 * - Where a length or a room is 0, nothing is read or written through its pointer. Pass any pointer to memory of your own. NULL is
 *   outside what the proofs speak of; the code is compiled without the assumption that such a pointer is not NULL, and is tested
 *   with it.
 */
#ifndef GUDRENOSS_H
#define GUDRENOSS_H

#include <stdbool.h>
#include <stddef.h>
#include <stdint.h>

/* The version of this header. gudrenoss_version tells that of the library. */
#define GUDRENOSS_VERSION_MAJOR 0
#define GUDRENOSS_VERSION_MINOR 1
#define GUDRENOSS_VERSION_PATCH 0
#define GUDRENOSS_VERSION "0.1.0"

#ifdef __cplusplus
extern "C" {
#endif

/* A result that must be looked at: a compiler that can tell warns where it is not. The functions that are never refused go without. */
#if (defined __cplusplus && __cplusplus >= 201703L) || (defined __STDC_VERSION__ && __STDC_VERSION__ >= 202311L)
#define GUDRENOSS_MUST_USE [[nodiscard]]
#elif defined __GNUC__
#define GUDRENOSS_MUST_USE __attribute__((warn_unused_result))
#else
#define GUDRENOSS_MUST_USE
#endif

/* What every function returns, by value: on x86-64 in two registers. */
typedef struct gudrenoss_refusal {
    uint64_t number; /* one of the numbers below; 0 is an answer */
    uint64_t at;     /* the place that the refusal tells: for 2 the position at which the word breaks its rule, for 11 the offset of the
                      * first wrong field of the image; otherwise 0 */
} gudrenoss_refusal;

/* The number of a refusal. */
enum gudrenoss_number {
    GUDRENOSS_OK = 0,                 /* no refusal: the results are written */
    GUDRENOSS_TOO_WIDE = 1,           /* a limit on width is passed */
    GUDRENOSS_NOT_MONOTONE = 2,       /* a word breaks its family's rule; at tells where */
    GUDRENOSS_NO_SUCH_RANK = 3,       /* a rank is not below the count */
    GUDRENOSS_LAST = 4,               /* there is no next word, or the walk is finished */
    GUDRENOSS_REPEATED = 5,           /* a Forbidden symbol occurs twice */
    GUDRENOSS_FAMILY = 6,             /* two families meet, or the complement of an Allowed index is asked for */
    GUDRENOSS_OUTSIDE = 7,            /* a symbol, digit, axis or position is not below its bound, or the symbol is absent */
    GUDRENOSS_SHAPE = 8,              /* lengths or radices differ, or a buffer has too little room */
    GUDRENOSS_TOO_BIG = 9,            /* the number to be stated is 2^64 or more, a signed one outside 64 bits */
    GUDRENOSS_NOT_A_PERMUTATION = 10, /* the entries are no bijection of 0 .. len - 1, or one past the length is not zero */
    GUDRENOSS_BAD_IMAGE = 11,         /* a field of the image is wrong, it ends early or has bytes left over; at tells where */
    GUDRENOSS_NO_SUCH_TABLE = 12,     /* the image has no table of that family and degree */
    GUDRENOSS_FRAME = 13,             /* the pressure and the temperature are of different frames */
    GUDRENOSS_NOT_FINITE = 14         /* a reading, a coefficient or the mass is infinite or no number */
};

/* What the number of a refusal means, in a few words. It stands here and not in the library. */
static inline const char *gudrenoss_refusal_text(uint64_t number)
{
    switch (number) {
    case GUDRENOSS_OK: return "no refusal";
    case GUDRENOSS_TOO_WIDE: return "a limit on width is passed";
    case GUDRENOSS_NOT_MONOTONE: return "the word breaks its family's rule";
    case GUDRENOSS_NO_SUCH_RANK: return "the rank is not below the count";
    case GUDRENOSS_LAST: return "there is no next word";
    case GUDRENOSS_REPEATED: return "a symbol occurs twice";
    case GUDRENOSS_FAMILY: return "the families do not fit";
    case GUDRENOSS_OUTSIDE: return "a symbol, digit, axis or position is outside its bound";
    case GUDRENOSS_SHAPE: return "lengths or radices differ, or a buffer is too short";
    case GUDRENOSS_TOO_BIG: return "the number is 2^64 or more";
    case GUDRENOSS_NOT_A_PERMUTATION: return "the entries are no permutation";
    case GUDRENOSS_BAD_IMAGE: return "the image is bad";
    case GUDRENOSS_NO_SUCH_TABLE: return "the image has no such table";
    case GUDRENOSS_FRAME: return "the readings are of different frames";
    case GUDRENOSS_NOT_FINITE: return "a reading, a coefficient or the mass is not finite";
    default: return "no function gives this number";
    }
}

/* A permutation sends i to entries[i]. Entries past the length are zero: a permutation that is lent is refused with 10 where one is not, and
 * those that are given are zero. So two of these structs that the functions accept hold the same permutation exactly if their bytes are the
 * same, and memcmp over sizeof(gudrenoss_permutation) tells. No function takes or gives this struct: each takes the entries and the length,
 * as p.entries and p.len, and gives them to two such places. */
typedef struct gudrenoss_permutation {
    uint64_t entries[64];
    uint64_t len;
} gudrenoss_permutation;

/* The version of the library that is linked. Never refused.
 *   *major, *minor, *patch: its three numbers, which should be those of this header */
gudrenoss_refusal gudrenoss_version(uint64_t *major, uint64_t *minor, uint64_t *patch);

/* ---- Terms ------------------------------------------------------------------------------------------------------------------ */

/* How many words of the family have k symbols below n.
 *   1  k > 64, or the shifted alphabet of n and k is above 64
 *   *count: the binomial coefficient of the shifted alphabet over k
 * Of Allowed 3 2 there are 6. */
GUDRENOSS_MUST_USE gudrenoss_refusal gudrenoss_count(bool allowed, uint64_t n, uint64_t k, uint64_t *count);

/* The index of a word over n.
 *   1  the word has more than 64 symbols, or the shifted alphabet of n and its length is above 64
 *   2  the word breaks the family's rule; at: the first position whose symbol may not stand after its neighbour
 *   1  its last shifted symbol is above 63
 *   7  a symbol is not below n
 *   *alphabet: n;  *bits: the set of the shifted symbols
 * Allowed (0, 2) over 3 is alphabet 3, bits 9. Allowed (3, 5, 4, 1) over 6 is refused 2 at 2. */
GUDRENOSS_MUST_USE gudrenoss_refusal gudrenoss_pack(
    bool allowed, uint64_t n, const uint64_t *word, size_t word_len, uint64_t *alphabet, uint64_t *bits);

/* The word of an index.
 *   1, 7  the index's checks
 *   8  word_room is below the degree
 *   word: the symbols, shift taken off;  *written: the degree
 * Allowed 3 with bits 25 is 0 2 2. */
GUDRENOSS_MUST_USE gudrenoss_refusal gudrenoss_unpack(
    bool allowed, uint64_t n, uint64_t bits, uint64_t *word, size_t word_room, uint64_t *written);

/* The degree of an index.
 *   1, 7  the index's checks
 *   *degree: the number of ones among the bits */
GUDRENOSS_MUST_USE gudrenoss_refusal gudrenoss_degree(bool allowed, uint64_t n, uint64_t bits, uint64_t *degree);

/* The symbol at position p of an index's word.
 *   1, 7  the index's checks
 *   7  p is not below the degree
 *   *symbol: the symbol, shift taken off */
GUDRENOSS_MUST_USE gudrenoss_refusal gudrenoss_symbol(
    bool allowed, uint64_t n, uint64_t bits, uint64_t p, uint64_t *symbol);

/* The rank of a word. It is given no alphabet, since the rank does not depend on it.
 *   1  the word has more than 64 symbols
 *   2  the word breaks the family's rule; at: the first position whose symbol may not stand after its neighbour
 *   1  its last shifted symbol is above 63
 *   *rank: the rank
 * Allowed (1, 1) has rank 2. */
GUDRENOSS_MUST_USE gudrenoss_refusal gudrenoss_rank(
    bool allowed, const uint64_t *word, size_t word_len, uint64_t *rank);

/* The rank of the word of an index, which does not depend on its alphabet.
 *   1, 7  the index's checks
 *   *rank: the rank */
GUDRENOSS_MUST_USE gudrenoss_refusal gudrenoss_rank_of(bool allowed, uint64_t n, uint64_t bits, uint64_t *rank);

/* The ranks of many indices of one family and one alphabet, each given by its bits: one call in place of one for each.
 *   1, 7  the checks of the first index that does not pass them, with its position
 *   8  ranks_room is below bits_len, with the first position that has no room
 *   ranks: the ranks;  *written: bits_len. No rank is written unless all are
 * Forbidden 4 with bits 10, 3 has ranks 4, 0. */
GUDRENOSS_MUST_USE gudrenoss_refusal gudrenoss_rank_all(
    bool allowed, uint64_t n, const uint64_t *bits, size_t bits_len, uint64_t *ranks, size_t ranks_room, uint64_t *written);

/* The word of k symbols below n that has rank r.
 *   1  k > 64, or the shifted alphabet of n and k is above 64
 *   3  r is not below the count of n and k
 *   8  word_room is below k
 *   word: the word;  *written: k
 * Allowed 3 2 has the word 0 2 at rank 3. */
GUDRENOSS_MUST_USE gudrenoss_refusal gudrenoss_unrank(
    bool allowed, uint64_t n, uint64_t k, uint64_t r, uint64_t *word, size_t word_room, uint64_t *written);

/* The same as an index.
 *   1  k > 64, or the shifted alphabet of n and k is above 64
 *   3  r is not below the count of n and k
 *   *alphabet: n;  *bits: the index's bits */
GUDRENOSS_MUST_USE gudrenoss_refusal gudrenoss_unrank_over(
    bool allowed, uint64_t n, uint64_t k, uint64_t r, uint64_t *alphabet, uint64_t *bits);

/* The index of degree k that has rank r, with no alphabet named: all 64 bits may be used.
 *   1  k > 64
 *   3  r is not below the binomial coefficient of 64 over k
 *   *alphabet: the one whose shifted alphabet is 64, that is 64, or 65 - k for Allowed from degree 1;  *bits: the index's bits */
GUDRENOSS_MUST_USE gudrenoss_refusal gudrenoss_unrank_any(
    bool allowed, uint64_t k, uint64_t r, uint64_t *alphabet, uint64_t *bits);

/* The next index of the same family, alphabet and degree.
 *   1, 7  the index's checks
 *   4  no word over n of that degree is later (so for bits 0)
 *   *next_alphabet: n;  *next_bits: its bits
 * After Allowed 3 with bits 3 comes bits 5. Allowed 3 with bits 12, that is (2, 2), is refused 4. */
GUDRENOSS_MUST_USE gudrenoss_refusal gudrenoss_successor(
    bool allowed, uint64_t n, uint64_t bits, uint64_t *next_alphabet, uint64_t *next_bits);

/* A walk goes through all words of a family with k symbols below n, in order of rank. It is four variables of the caller's: whether
 * it stands at an index, the alphabet and the bits of that index (both 0 if it stands nowhere), and how many indices it has still to
 * give. The family is for the caller to remember.
 *   1  k > 64, or the shifted alphabet of n and k is above 64
 *   *standing, *over, *at: the first index, with the alphabet n, or false, 0 and 0 if there are no words;  *remaining: the count */
GUDRENOSS_MUST_USE gudrenoss_refusal gudrenoss_walk_start(
    bool allowed, uint64_t n, uint64_t k, bool *standing, uint64_t *over, uint64_t *at, uint64_t *remaining);

/* One step of a walk. It reads the four variables, gives the index at which the walk stands, and moves them on.
 *   4  the walk stands nowhere
 *   1, 7  the checks of the index at which it stands
 *   4  *remaining is 0
 *   *alphabet, *bits: the index at which the walk stood;  *standing, *over, *at: the next index of its alphabet and degree, or false,
 *   0 and 0 if there is none;  *remaining: one fewer
 * A state that the caller made up is stepped by the same rule. After its last word a walk stands nowhere. */
GUDRENOSS_MUST_USE gudrenoss_refusal gudrenoss_walk_step(
    bool allowed, bool *standing, uint64_t *over, uint64_t *at, uint64_t *remaining, uint64_t *alphabet,
    uint64_t *bits);

/* ---- Signed operations ------------------------------------------------------------------------------------------------------ */

/* The index over n of a word that is given in any order.
 *   1  the word has more than 64 symbols, or the shifted alphabet of n and its length is above 64
 *   5  the family is Forbidden and a symbol occurs twice
 *   1  the last shifted symbol of the sorted word is above 63
 *   7  a symbol is not below n
 *   *minus: whether the number of inversions is odd, false for Allowed;  *alphabet, *bits: the index of the sorted word, over n
 * Forbidden (2, 0) over 4 is minus, alphabet 4, bits 5. */
GUDRENOSS_MUST_USE gudrenoss_refusal gudrenoss_canonicalise(
    bool allowed, uint64_t n, const uint64_t *word, size_t word_len, bool *minus, uint64_t *alphabet,
    uint64_t *bits);

/* The two words of one family joined into one sorted word, over the larger of the two alphabets.
 *   1, 7  the checks of both indices: the 1 of either, then the 7 of either
 *   6  the families differ
 *   5  Forbidden, and the two share a symbol
 *   1  Allowed, and the shifted alphabet of the larger alphabet and the sum of the degrees is above 64
 *   *minus: whether the number of pairs with the left symbol larger is odd, false for Allowed;  *alphabet, *bits: the joined word's
 *   index
 * Allowed 3 with bits 9 and Allowed 3 with bits 4, that is (0, 2) and (2), is plus, alphabet 3, bits 25. Two Allowed indices of
 * gudrenoss_unrank_any, each of degree 1 or more, are always refused 1: their alphabets leave no room for a longer word. */
GUDRENOSS_MUST_USE gudrenoss_refusal gudrenoss_merge(
    bool left_allowed, uint64_t left_n, uint64_t left_bits, bool right_allowed, uint64_t right_n,
    uint64_t right_bits, bool *minus, uint64_t *alphabet, uint64_t *bits);

/* The symbol at position p taken out of an index's word.
 *   1, 7  the index's checks
 *   7  p is not below the degree
 *   *minus: whether p is odd, false for Allowed;  *symbol: the symbol, shift taken off;  *rest_alphabet, *rest_bits: the index of
 *   what is left, over the same n
 * Allowed 3 with bits 22 at position 1 is plus, symbol 1, alphabet 3, bits 10. */
GUDRENOSS_MUST_USE gudrenoss_refusal gudrenoss_delete(
    bool allowed, uint64_t n, uint64_t bits, uint64_t p, bool *minus, uint64_t *symbol,
    uint64_t *rest_alphabet, uint64_t *rest_bits);

/* The symbols below m that a Forbidden index does not have. Its own alphabet n may be larger than m, or smaller.
 *   1, 7  the index's checks
 *   6  the index is Allowed
 *   1  m > 64
 *   7  the index has a symbol that is m or more
 *   *minus: the sign of the merge of the index with its complement;  *rest_alphabet, *rest_bits: the complement, a Forbidden index
 *   over m
 * Of bits 5 over 64 in 4 it is minus, alphabet 4, bits 10. */
GUDRENOSS_MUST_USE gudrenoss_refusal gudrenoss_complement(
    bool allowed, uint64_t n, uint64_t bits, uint64_t m, bool *minus, uint64_t *rest_alphabet,
    uint64_t *rest_bits);

/* The product of the factorials of the multiplicities of the word's symbols.
 *   1, 7  the index's checks
 *   9  the product is 2^64 or more
 *   *stabilizer: the product, 1 for every Forbidden index */
GUDRENOSS_MUST_USE gudrenoss_refusal gudrenoss_stabilizer(
    bool allowed, uint64_t n, uint64_t bits, uint64_t *stabilizer);

/* ---- Sets ------------------------------------------------------------------------------------------------------------------- */

/* The set with s.
 *   7  s > 63
 *   5  s is a member
 *   *with: the larger set */
GUDRENOSS_MUST_USE gudrenoss_refusal gudrenoss_set_insert(uint64_t set, uint64_t s, uint64_t *with);

/* Whether s is a member. Never refused.
 *   *contains: the answer, false from 64 up */
gudrenoss_refusal gudrenoss_set_contains(uint64_t set, uint64_t s, bool *contains);

/* Where a member stands among the members.
 *   7  s is not a member
 *   *position: how many members are below s */
GUDRENOSS_MUST_USE gudrenoss_refusal gudrenoss_set_position(uint64_t set, uint64_t s, uint64_t *position);

/* The members that stand at the given positions, which are themselves a set.
 *   7  a position is not below the number of members
 *   *selected: the set of these members
 * Of bits 42 at positions 5, that is {1, 3, 5} at 0 and 2, it is bits 34. */
GUDRENOSS_MUST_USE gudrenoss_refusal gudrenoss_set_select(uint64_t set, uint64_t positions, uint64_t *selected);

/* ---- Permutations ----------------------------------------------------------------------------------------------------------- */

/* A permutation p is lent as its entries, an array of 64 places whatever the length, and its length n. A permutation that is given is
 * written to an array of 64 places, all of them, and its length to *len. The places past the length hold zeros: p is no permutation if one
 * does not. Image, inverse, composition and sign take lengths up to 64;
 * those up to 20 are numbered. In order of rank the decreasing one is first and the identity last. */

/* Where p sends i.
 *   1  n > 64
 *   10 p is no permutation
 *   7  i is not below n
 *   *entry: p[i] */
GUDRENOSS_MUST_USE gudrenoss_refusal gudrenoss_permutation_image(const uint64_t p[64], uint64_t n, uint64_t i, uint64_t *entry);

/* The inverse.
 *   1  n > 64
 *   10 p is no permutation
 *   entries: the permutation that sends p[i] to i, then zeros
 *   *len: n */
GUDRENOSS_MUST_USE gudrenoss_refusal gudrenoss_permutation_inverse(
    const uint64_t p[64], uint64_t n, uint64_t entries[64], uint64_t *len);

/* p after q.
 *   1  n > 64 or m > 64
 *   8  n and m differ
 *   10 either is no permutation
 *   entries: the permutation that sends i to p(q(i)), then zeros
 *   *len: n */
GUDRENOSS_MUST_USE gudrenoss_refusal gudrenoss_permutation_compose(
    const uint64_t p[64], uint64_t n, const uint64_t q[64], uint64_t m, uint64_t entries[64], uint64_t *len);

/* The sign.
 *   1  n > 64
 *   10 p is no permutation
 *   *minus: whether the number of inversions is odd */
GUDRENOSS_MUST_USE gudrenoss_refusal gudrenoss_permutation_sign(const uint64_t p[64], uint64_t n, bool *minus);

/* The rank among the permutations of that length.
 *   1  n > 20
 *   10 p is no permutation
 *   *rank: the rank; of (0, 2, 1) it is 3 */
GUDRENOSS_MUST_USE gudrenoss_refusal gudrenoss_permutation_rank(const uint64_t p[64], uint64_t n, uint64_t *rank);

/* The permutation of length n that has rank r.
 *   1  n > 20
 *   3  r is not below n!
 *   entries: the permutation, then zeros
 *   *len: n */
GUDRENOSS_MUST_USE gudrenoss_refusal gudrenoss_permutation_unrank(uint64_t n, uint64_t r, uint64_t entries[64], uint64_t *len);

/* The permutation of the next rank.
 *   1  n > 20
 *   10 p is no permutation
 *   4  p is the last of its length, the identity
 *   entries: the next permutation, then zeros
 *   *len: n */
GUDRENOSS_MUST_USE gudrenoss_refusal gudrenoss_permutation_successor(
    const uint64_t p[64], uint64_t n, uint64_t entries[64], uint64_t *len);

/* ---- Shapes ----------------------------------------------------------------------------------------------------------------- */

/* A shape is a list of radices, one for each axis, axis 0 least significant. Its count is their product, 1 for no axes. The stride of
 * an axis is the product of the radices before it. A radix 0, at whatever axis, makes the count 0. */

/* How many lists of digits the shape has.
 *   1  there are more than 16 axes
 *   9  the product of the radices is 2^64 or more
 *   *count: the product of the radices */
GUDRENOSS_MUST_USE gudrenoss_refusal gudrenoss_shape_count(
    const uint64_t *radices, size_t radices_len, uint64_t *count);

/* The strides.
 *   1  there are more than 16 axes
 *   9  a stride is 2^64 or more, though a later radix be 0
 *   8  strides_room is below the number of axes
 *   strides: the stride of each axis;  *written: the number of axes
 * Of (2, 3, 4) they are 1 2 6. */
GUDRENOSS_MUST_USE gudrenoss_refusal gudrenoss_shape_strides(
    const uint64_t *radices, size_t radices_len, uint64_t *strides, size_t strides_room, uint64_t *written);

/* The number of a list of digits.
 *   1  there are more than 16 axes
 *   8  there are not as many digits as axes
 *   7  a digit is not below its radix
 *   9  the product of the radices is 2^64 or more
 *   *number: the sum of each digit times its stride
 * Of (1, 2, 3) in (2, 3, 4) it is 23. */
GUDRENOSS_MUST_USE gudrenoss_refusal gudrenoss_shape_linearize(
    const uint64_t *radices, size_t radices_len, const uint64_t *digits, size_t digits_len, uint64_t *number);

/* The digits of a number.
 *   1  there are more than 16 axes
 *   9  the product of the radices is 2^64 or more
 *   3  the number is not below the shape's count
 *   8  digits_room is below the number of axes
 *   digits: the digit of each axis;  *written: the number of axes */
GUDRENOSS_MUST_USE gudrenoss_refusal gudrenoss_shape_delinearize(
    const uint64_t *radices, size_t radices_len, uint64_t number, uint64_t *digits, size_t digits_room,
    uint64_t *written);

/* The offset of a corner: the sum of the strides of a set of axes. Strides and sum are exact here.
 *   1  there are more than 16 axes
 *   7  a member of the set is not below the number of axes
 *   9  the sum is 2^64 or more
 *   *offset: the sum */
GUDRENOSS_MUST_USE gudrenoss_refusal gudrenoss_shape_corner(
    const uint64_t *radices, size_t radices_len, uint64_t axes, uint64_t *offset);

/* ---- Digit words ------------------------------------------------------------------------------------------------------------ */

/* A digit word is its radix, its degree and its rank. It stands for `degree` digits below the radix, position 0 least significant:
 * its rank is the sum of the symbol at position p times radix^p. "The word's checks" are:
 *   1  the degree is above 64
 *   9  radix^degree is 2^64 or more (0^0 is 1)
 *   3  the rank is not below radix^degree */

/* How many digit words there are.
 *   1  the degree is above 64
 *   9  radix^degree is 2^64 or more
 *   *count: radix^degree */
GUDRENOSS_MUST_USE gudrenoss_refusal gudrenoss_digits_count(uint64_t radix, uint64_t degree, uint64_t *count);

/* The digit word of a list of symbols.
 *   1  there are more than 64 symbols
 *   7  a symbol is not below the radix
 *   9  radix to the number of symbols is 2^64 or more
 *   *degree: the number of symbols;  *rank: the rank
 * Of radix 3 and (2, 0, 1) it is 11. */
GUDRENOSS_MUST_USE gudrenoss_refusal gudrenoss_digits_from_symbols(
    uint64_t radix, const uint64_t *symbols, size_t symbols_len, uint64_t *degree, uint64_t *rank);

/* The symbols of a digit word.
 *   1, 9, 3  the word's checks
 *   8  symbols_room is below the degree
 *   symbols: the symbols;  *written: the degree */
GUDRENOSS_MUST_USE gudrenoss_refusal gudrenoss_digits_symbols(
    uint64_t radix, uint64_t degree, uint64_t rank, uint64_t *symbols, size_t symbols_room,
    uint64_t *written);

/* The symbol at position p.
 *   1, 9, 3  the word's checks
 *   7  p is not below the degree
 *   *symbol: the symbol */
GUDRENOSS_MUST_USE gudrenoss_refusal gudrenoss_digits_symbol(
    uint64_t radix, uint64_t degree, uint64_t rank, uint64_t p, uint64_t *symbol);

/* How often s occurs.
 *   1, 9, 3  the word's checks
 *   *multiplicity: how often, 0 if s is not below the radix */
GUDRENOSS_MUST_USE gudrenoss_refusal gudrenoss_digits_multiplicity(
    uint64_t radix, uint64_t degree, uint64_t rank, uint64_t s, uint64_t *multiplicity);

/* The product of the factorials of the multiplicities.
 *   1, 9, 3  the word's checks
 *   9  the product is 2^64 or more
 *   *stabilizer: the product */
GUDRENOSS_MUST_USE gudrenoss_refusal gudrenoss_digits_stabilizer(
    uint64_t radix, uint64_t degree, uint64_t rank, uint64_t *stabilizer);

/* Two digit words joined, the left one's digits lowest.
 *   1, 9, 3  the left word's checks
 *   1, 9, 3  the right word's checks
 *   8  the radices differ
 *   1  the degrees sum to more than 64
 *   9  radix to that sum is 2^64 or more
 *   *degree: the sum of the degrees;  *rank: the rank of the joined word, of the same radix */
GUDRENOSS_MUST_USE gudrenoss_refusal gudrenoss_digits_concat(
    uint64_t left_radix, uint64_t left_degree, uint64_t left_rank, uint64_t right_radix,
    uint64_t right_degree, uint64_t right_rank, uint64_t *degree, uint64_t *rank);

/* The symbol at position p taken out, the gap closed.
 *   1, 9, 3  the word's checks
 *   7  p is not below the degree
 *   *symbol: the symbol;  *rest: the rank of what is left, a word of the same radix and one degree fewer */
GUDRENOSS_MUST_USE gudrenoss_refusal gudrenoss_digits_delete(
    uint64_t radix, uint64_t degree, uint64_t rank, uint64_t p, uint64_t *symbol, uint64_t *rest);

/* ---- Exponents -------------------------------------------------------------------------------------------------------------- */

/* An exponent list with entry e at symbol s stands for the Allowed word in which s is repeated e times. n is the number of entries,
 * k their exact sum. It is too wide if there are more than 64 entries, or k > 64, or the shifted alphabet of Allowed n and k is above
 * 64. */

/* The word of an exponent list.
 *   1  the list is too wide
 *   8  word_room is below k
 *   word: the word;  *written: k
 * Of (1, 0, 2) it is 0 2 2. */
GUDRENOSS_MUST_USE gudrenoss_refusal gudrenoss_exponents_word(
    const uint64_t *entries, size_t entries_len, uint64_t *word, size_t word_room, uint64_t *written);

/* The exponent list of n entries of a word that is given in any order.
 *   1  n entries with k the length of the word are too wide
 *   7  a symbol is not below n
 *   8  entries_room is below n
 *   entries: how often each symbol occurs;  *written: n */
GUDRENOSS_MUST_USE gudrenoss_refusal gudrenoss_exponents_from_word(
    uint64_t n, const uint64_t *word, size_t word_len, uint64_t *entries, size_t entries_room,
    uint64_t *written);

/* The rank of the word of an exponent list.
 *   1  the list is too wide
 *   *rank: the rank */
GUDRENOSS_MUST_USE gudrenoss_refusal gudrenoss_exponents_rank(
    const uint64_t *entries, size_t entries_len, uint64_t *rank);

/* The exponent list of n entries and sum k whose word has rank r.
 *   1  n entries with sum k are too wide
 *   3  r is not below the count of Allowed n and k
 *   8  entries_room is below n
 *   entries: the list;  *written: n */
GUDRENOSS_MUST_USE gudrenoss_refusal gudrenoss_exponents_from_rank(
    uint64_t n, uint64_t k, uint64_t r, uint64_t *entries, size_t entries_room, uint64_t *written);

/* The sum of two exponent lists, which is the product of their terms.
 *   1  the left list is too wide
 *   1  the right list is too wide
 *   8  they have not equally many entries
 *   1  their sum is too wide
 *   8  entries_room is below the number of entries
 *   entries: the sums;  *written: the number of entries */
GUDRENOSS_MUST_USE gudrenoss_refusal gudrenoss_exponents_add(
    const uint64_t *left, size_t left_len, const uint64_t *right, size_t right_len, uint64_t *entries,
    size_t entries_room, uint64_t *written);

/* ---- Images of coefficient tables --------------------------------------------------------------------------------------------- */

/* An image is at most 65,536 bytes, with every number little-endian: 4 bytes with the number of tables t, 1 to 64; 12 bytes for each table:
 * family (0 Forbidden, 1 Allowed), degree, alphabet, a zero byte, 4 bytes with the offset of its body, 4 bytes with the number of its entries;
 * then the bodies, back to back in that order, 8 bytes for each word of the table by rank, ending with the image. Offsets count from the first
 * byte. The number of entries is the count, never 0, and no family and degree stands twice. "The image's check" judges the fields in reading
 * order, each by what stands before it, and refuses 11 at the first that is wrong:
 *     at the degree      it is above 64, or the family and degree stand in a row above
 *     at the alphabet    the shifted alphabet is above 64
 *     at the entries     they are not the count, the count is 0, or the body would end past byte 65,536
 *     at the length      the image ends early, inside a field or body too
 *     at the first byte left over, behind the last body
 * An image is read where it lies. Each of these functions checks all of it first, so nothing has to be believed of it. */

/* Checks an image.
 *   11 the image's check
 *   *tables: how many tables it has */
GUDRENOSS_MUST_USE gudrenoss_refusal gudrenoss_image_check(const uint8_t *image, size_t image_len, uint64_t *tables);

/* The table of a family and a degree, which may be any number.
 *   11 the image's check
 *   12 no table has this family and degree
 *   *alphabet: how many symbols its words have;  *offset: where its body begins;  *entries: how many entries it has */
GUDRENOSS_MUST_USE gudrenoss_refusal gudrenoss_image_row(
    const uint8_t *image, size_t image_len, bool allowed, uint64_t k, uint64_t *alphabet, uint64_t *offset, uint64_t *entries);

/* The coefficient of a term, given as an index.
 *   1, 7  the index's checks
 *   11 the image's check
 *   12 no table has its family and degree
 *   3  its word uses a symbol that is not below the alphabet of the table; the index's own n does not matter
 *   *coefficient: the 8 bytes of its entry */
GUDRENOSS_MUST_USE gudrenoss_refusal gudrenoss_image_lookup(
    const uint8_t *image, size_t image_len, bool allowed, uint64_t n, uint64_t bits, uint64_t *coefficient);

/* The coefficient of a term by a table that gudrenoss_image_row has given, without checking the image again: for many terms of one table.
 *   1, 7  the index's checks
 *   7  the body of the table, entries of 8 bytes from the offset on, does not lie within the image
 *   3  the rank of the term is not below entries
 *   *coefficient: the 8 bytes at its rank
 * With the table of the term's family and degree in a good image that is what gudrenoss_image_lookup gives; other numbers give other bytes of
 * the image, and never bytes outside it. */
GUDRENOSS_MUST_USE gudrenoss_refusal gudrenoss_image_at(
    const uint8_t *image, size_t image_len, uint64_t alphabet, uint64_t offset, uint64_t entries, bool allowed, uint64_t n,
    uint64_t bits, uint64_t *coefficient);

/* Writes an image, given as two parts that are split anywhere, as behind the contents list.
 *   11 the image's check, of the two joined
 *   8  image_room is below the length of both together
 *   image: the two joined;  *written: their length */
GUDRENOSS_MUST_USE gudrenoss_refusal gudrenoss_image_write(
    const uint8_t *contents, size_t contents_len, const uint8_t *bodies, size_t bodies_len, uint8_t *image, size_t image_room,
    uint64_t *written);

/* ---- Images in pieces --------------------------------------------------------------------------------------------------------- */

/* The check of an image that comes piece by piece, with a state of fixed size. However the image is cut, what is told after the end is what
 * gudrenoss_image_check says of the whole. The state is four variables of the caller's, and no function takes this struct: each takes
 * p.bytes, &p.seen, &p.state and &p.at. Any numbers may stand in them. */
typedef struct gudrenoss_pieces {
    uint8_t bytes[772]; /* the first bytes of the image */
    uint64_t seen;      /* how many bytes have come; 65,537 stands for every larger number */
    uint64_t state;     /* 0 while more may come, 1 after the end of a good image, 2 where it is bad */
    uint64_t at;        /* in state 1 the number of tables, in state 2 the offset of the first wrong field, otherwise 0 */
} gudrenoss_pieces;

/* The state before the first piece. Never refused.
 *   all four: nothing seen, more may come */
gudrenoss_refusal gudrenoss_pieces_start(uint8_t bytes[772], uint64_t *seen, uint64_t *state, uint64_t *at);

/* One more piece, of any length, also 0. Never refused: gudrenoss_pieces_verdict tells. In state 1 or 2 nothing changes; any other number than 0
 * and 1 is read as 2.
 *   all four: the state after the piece. It is 2 as soon as no byte that follows could mend the image */
gudrenoss_refusal gudrenoss_pieces_feed(
    uint8_t bytes[772], uint64_t *seen, uint64_t *state, uint64_t *at, const uint8_t *piece, size_t piece_len);

/* The end of the image. Never refused: gudrenoss_pieces_verdict tells. In state 1 or 2 nothing changes.
 *   all four: the state after the end */
gudrenoss_refusal gudrenoss_pieces_end(uint8_t bytes[772], uint64_t *seen, uint64_t *state, uint64_t *at);

/* What is known of the image, by the last two of the four variables.
 *   11 it is bad; at: as gudrenoss_image_check says it
 *   *still: whether more may come;  *tables: how many tables it has, 0 while more may come */
GUDRENOSS_MUST_USE gudrenoss_refusal gudrenoss_pieces_verdict(uint64_t state, uint64_t at, bool *still, uint64_t *tables);

/* ---- The mass of one frame ---------------------------------------------------------------------------------------------------- */

/* A reading is a double with the number of the frame in which it was taken, any numbers. A surface is an image whose tables are all Allowed over
 * the alphabet 2, with 0 for the pressure and 1 for the temperature; an entry is the 8 bytes of a double. The mass is a sum that starts at
 * +0.0: degree by degree from 0 up, term by term in order of rank, the coefficient times the monomial is added to it, and a monomial is 1.0
 * multiplied by its readings one after the other, the pressures first. Each of these operations is rounded by itself, to nearest and ties to
 * even, as IEEE 754 says; none is left out, none joined with another, and a degree that has no table adds nothing. The bits of the mass
 * are those of this sequence.
 *
 * These two functions ask of the processor what a C program starts with: rounding to nearest, subnormal numbers kept (in MXCSR neither
 * flush-to-zero nor denormals-are-zero), exceptions masked. The compiler flag -ffast-math may change that when it links a program. */

/* What a function on a frame returns, by value. */
typedef struct gudrenoss_frame_refusal {
    uint64_t number; /* one of the numbers above; 0 is an answer */
    uint64_t at;     /* for 11 the offset of the first wrong field of the image; otherwise 0 */
    uint64_t frame;  /* the frame that is refused: that of the pressure; 0 for an answer */
} gudrenoss_frame_refusal;

/* One pressure and one temperature as a sample of one frame. The readings may be anything, also infinite or no number.
 *   13 the two frames differ
 *   *frame: the frame of both;  *sample_pressure, *sample_temperature: the readings */
GUDRENOSS_MUST_USE gudrenoss_frame_refusal gudrenoss_join(
    uint64_t pressure_frame, double pressure, uint64_t temperature_frame, double temperature, uint64_t *frame, double *sample_pressure,
    double *sample_temperature);

/* The mass of one frame by a surface.
 *   13 the two frames differ
 *   11 the image's check
 *   7  a table is not Allowed, or its alphabet is not 2
 *   14 a reading, a coefficient or the mass is infinite or no number
 *   *mass: the mass, a finite number and never -0.0, in the unit of the coefficients
 * Of the surface 2.0 + 0.5 p - 0.25 t, at pressure 8.0 and temperature 2.0, it is 5.5. */
GUDRENOSS_MUST_USE gudrenoss_frame_refusal gudrenoss_mass(
    const uint8_t *image, size_t image_len, uint64_t pressure_frame, double pressure, uint64_t temperature_frame, double temperature,
    double *mass);

/* ---- Derivatives ------------------------------------------------------------------------------------------------------------
 * A surface of degree k over n quantities is a table of signed coefficients, one for each Allowed word of k symbols below n, in rank
 * order. Its derivative by the quantity s is such a table of degree k - 1: the entry at a word is the coefficient of the word with s
 * added, times the number of times that s stands in it then. */

/* The derivative of a surface by s.
 *   1  k or the shifted alphabet of n and k is above 64
 *   7  k is 0
 *   7  s is not below n
 *   8  table_len is not the count of Allowed n and k
 *   8  entries_room is below the count of Allowed n and k - 1
 *   9  an entry is below -2^63 or above 2^63 - 1
 *   entries: the table of degree k - 1;  *written: how many entries it has */
GUDRENOSS_MUST_USE gudrenoss_refusal gudrenoss_derivative(
    uint64_t n, uint64_t k, uint64_t s, const int64_t *table, size_t table_len, int64_t *entries, size_t entries_room,
    uint64_t *written);

/* ---- Old tables -------------------------------------------------------------------------------------------------------------- */

/* Old tables number the words over a fixed alphabet n in lexicographic order: of two words, the earlier has the smaller symbol at the
 * lowest position where they differ. WIDENING THE ALPHABET RENUMBERS TERMS IN THIS ORDER: Allowed (1, 1) has number 2 over 2 symbols
 * and 3 over 3. All other functions use the order that stays (see rank above). */

/* The lexicographic rank of a word: how many words of as many symbols below n are lexicographically earlier.
 *   1  the word has more than 64 symbols, or the shifted alphabet of n and its length is above 64
 *   2  the word breaks the family's rule; at: the first position whose symbol may not stand after its neighbour
 *   1  its last shifted symbol is above 63
 *   7  a symbol is not below n
 *   *rank: the lexicographic rank
 * Allowed (0, 2) over 3 has lexicographic rank 2. */
GUDRENOSS_MUST_USE gudrenoss_refusal gudrenoss_lex_rank(
    bool allowed, uint64_t n, const uint64_t *word, size_t word_len, uint64_t *rank);

/* The word of k symbols below n that has lexicographic rank r.
 *   1  k > 64, or the shifted alphabet of n and k is above 64
 *   3  r is not below the count of n and k
 *   8  word_room is below k
 *   word: the word;  *written: k
 * Allowed 3 2 has the word 1 1 at lexicographic rank 3. */
GUDRENOSS_MUST_USE gudrenoss_refusal gudrenoss_lex_unrank(
    bool allowed, uint64_t n, uint64_t k, uint64_t r, uint64_t *word, size_t word_room, uint64_t *written);

/* The next word of as many symbols below n in lexicographic order.
 *   1, 2, 1, 7  as gudrenoss_lex_rank
 *   4  no such word is later (so for the empty word)
 *   8  next_room is below word_len
 *   next: the word;  *written: word_len
 * After Allowed (0, 2) over 3 comes 1 1. */
GUDRENOSS_MUST_USE gudrenoss_refusal gudrenoss_lex_successor(
    bool allowed, uint64_t n, const uint64_t *word, size_t word_len, uint64_t *next, size_t next_room,
    uint64_t *written);

/* The body of an old table, its entries in lexicographic order, as that of a new one, by rank: the entry of each word goes from its
 * lexicographic rank to its rank. An entry is eight bytes, whatever they hold. Here room to spare is refused too.
 *   1  k > 64, or the shifted alphabet of n and k is above 64
 *   8  from_len or to_room is not exactly 8 times the count of n and k
 *   to: the entries by rank;  *written: to_room */
GUDRENOSS_MUST_USE gudrenoss_refusal gudrenoss_lex_to_colex(
    bool allowed, uint64_t n, uint64_t k, const uint8_t *from, size_t from_len, uint8_t *to, size_t to_room,
    uint64_t *written);

/* The way back: the entry of each word goes from its rank to its lexicographic rank. There and back, or back and there, gives the same
 * bytes.
 *   1  k > 64, or the shifted alphabet of n and k is above 64
 *   8  from_len or to_room is not exactly 8 times the count of n and k
 *   to: the entries in lexicographic order;  *written: to_room */
GUDRENOSS_MUST_USE gudrenoss_refusal gudrenoss_lex_from_colex(
    bool allowed, uint64_t n, uint64_t k, const uint8_t *from, size_t from_len, uint8_t *to, size_t to_room,
    uint64_t *written);

/* ---- Wide indices ------------------------------------------------------------------------------------------------------------ */

/* For more symbols: words whose shifted alphabet is up to 128. A wide index is a family and 128 bits in two halves: bit b of low is set if
 * b is a shifted symbol, bit b of high if 64 + b is one. It has no alphabet, and any numbers are one: there are no index's checks. It is
 * passed as three parameters, allowed, low and high, and given as two, low and high. Counts and ranks are numbers below 2^64 here too:
 * where one is 2^64 or more the functions that state it, and those that unrank, are refused 9. Where a word is over an alphabet that the
 * other functions take, it has the same rank here, and its index is their bits as low, with high 0. */

/* How many words of the family have k symbols below n.
 *   1  k > 128, or the shifted alphabet of n and k is above 128
 *   9  there are 2^64 or more
 *   *count: the binomial coefficient of the shifted alphabet over k
 * Of Forbidden 128 15 there are 13216710966550396800. Forbidden 128 16 is refused 9. */
GUDRENOSS_MUST_USE gudrenoss_refusal gudrenoss_wide_count(bool allowed, uint64_t n, uint64_t k, uint64_t *count);

/* The rank of a word.
 *   1  the word has more than 128 symbols
 *   2  the word breaks the family's rule; at: the first position whose symbol may not stand after its neighbour
 *   1  its last shifted symbol is above 127
 *   9  the rank is 2^64 or more
 *   *rank: the rank
 * Forbidden (127) has rank 127. */
GUDRENOSS_MUST_USE gudrenoss_refusal gudrenoss_wide_rank(
    bool allowed, const uint64_t *word, size_t word_len, uint64_t *rank);

/* The rank of the word of a wide index.
 *   9  the rank is 2^64 or more
 *   *rank: the rank */
GUDRENOSS_MUST_USE gudrenoss_refusal gudrenoss_wide_rank_of(bool allowed, uint64_t low, uint64_t high, uint64_t *rank);

/* The word of k symbols below n that has rank r.
 *   1  k > 128, or the shifted alphabet of n and k is above 128
 *   9  the count of n and k is 2^64 or more, whatever r is
 *   3  r is not below the count of n and k
 *   8  word_room is below k
 *   word: the word;  *written: k
 * Forbidden 128 2 has the word 0 64 at rank 2016. */
GUDRENOSS_MUST_USE gudrenoss_refusal gudrenoss_wide_unrank(
    bool allowed, uint64_t n, uint64_t k, uint64_t r, uint64_t *word, size_t word_room, uint64_t *written);

/* The same as a wide index.
 *   1  k > 128, or the shifted alphabet of n and k is above 128
 *   9  the count of n and k is 2^64 or more, whatever r is
 *   3  r is not below the count of n and k
 *   *low, *high: the halves of the index */
GUDRENOSS_MUST_USE gudrenoss_refusal gudrenoss_wide_unrank_over(
    bool allowed, uint64_t n, uint64_t k, uint64_t r, uint64_t *low, uint64_t *high);

/* The wide index of degree k that has rank r, with no alphabet named: all 128 bits may be used.
 *   1  k > 128
 *   9  the binomial coefficient of 128 over k is 2^64 or more, which it is for k from 16 to 112
 *   3  r is not below it
 *   *low, *high: the halves of the index */
GUDRENOSS_MUST_USE gudrenoss_refusal gudrenoss_wide_unrank_any(
    bool allowed, uint64_t k, uint64_t r, uint64_t *low, uint64_t *high);

/* The next wide index of the same family and degree.
 *   4  no index of that degree in 128 bits is later (so for low and high 0)
 *   *next_low, *next_high: its halves
 * After low 2^63 and high 0, that is (63), comes low 0 and high 1. */
GUDRENOSS_MUST_USE gudrenoss_refusal gudrenoss_wide_successor(
    bool allowed, uint64_t low, uint64_t high, uint64_t *next_low, uint64_t *next_high);

/* The two words of one family joined into one sorted word.
 *   6  the families differ
 *   5  Forbidden, and the two share a symbol
 *   1  Allowed, and a shifted symbol of the joined word is above 127
 *   *minus: whether the number of pairs with the left symbol larger is odd, false for Allowed;  *low, *high: the joined word's index
 * Allowed low 2^63 and Allowed low 1, that is (63) and (0), is plus, low 1, high 1: the word (0, 63). */
GUDRENOSS_MUST_USE gudrenoss_refusal gudrenoss_wide_merge(
    bool left_allowed, uint64_t left_low, uint64_t left_high, bool right_allowed, uint64_t right_low,
    uint64_t right_high, bool *minus, uint64_t *low, uint64_t *high);

/* The symbol at position p taken out of a wide index's word.
 *   7  p is not below the degree
 *   *minus: whether p is odd, false for Allowed;  *symbol: the symbol, shift taken off;  *rest_low, *rest_high: the index of what is left
 * Allowed low 1 and high 1, that is (0, 63), at position 0 is plus, symbol 0, low 2^63, high 0. */
GUDRENOSS_MUST_USE gudrenoss_refusal gudrenoss_wide_delete(
    bool allowed, uint64_t low, uint64_t high, uint64_t p, bool *minus, uint64_t *symbol, uint64_t *rest_low,
    uint64_t *rest_high);

#ifdef __cplusplus
}
#endif

#endif
