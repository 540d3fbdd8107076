/* Times the check of an image, the lookup of a term, and the check in pieces: this library beside a plain reader in C of the same rules, in one
 * program. Both sides are functions of one shape and neither is inlined, so both pay for one call; both have to give the same answers.
 *
 *   plain_check, plain_lookup    the yardstick: what one would write by hand, with a table of binomials that is made once
 *   an image                     6 tables of a surface over two quantities, 64 tables, and one of 65,536 bytes
 *   least                        the least time of a round over a number of rounds, the two sides in turns */
#include <gudrenoss.h>

#include <stdio.h>
#include <stdlib.h>
#include <string.h>
#include <time.h>

enum { most_bytes = 65536, rounds = 25 };

/* ---- the plain reader ------------------------------------------------------------------------------------------------------ */

static uint64_t binomial[65][65];

static void make_binomials(void)
{
    for (int i = 0; i <= 64; i++)
        for (int j = 0; j <= i; j++)
            binomial[i][j] = j == 0 || j == i ? 1 : binomial[i - 1][j - 1] + binomial[i - 1][j];
}

static uint32_t four(const uint8_t *at)
{
    return (uint32_t)at[0] | (uint32_t)at[1] << 8 | (uint32_t)at[2] << 16 | (uint32_t)at[3] << 24;
}

static uint64_t eight(const uint8_t *at)
{
    return four(at) | (uint64_t)four(at + 4) << 32;
}

static gudrenoss_refusal refusal(uint64_t number, uint64_t at)
{
    return (gudrenoss_refusal){number, at};
}

static gudrenoss_refusal bad(uint64_t at)
{
    return refusal(GUDRENOSS_BAD_IMAGE, at);
}

static inline gudrenoss_refusal checked(const uint8_t *image, size_t len, uint64_t *tables)
{
    if (len < 4)
        return bad(len);
    uint32_t t = four(image);
    if (t == 0 || t > 64)
        return bad(0);
    bool seen[2][65] = {{false}};
    uint64_t place = 4 + 12 * (uint64_t)t;
    for (uint64_t at = 4; at < 4 + 12 * (uint64_t)t; at += 12) {
        const uint8_t *row = image + at;
        if (len < at + 1)
            return bad(len);
        if (row[0] > 1)
            return bad(at);
        if (len < at + 2)
            return bad(len);
        if (row[1] > 64 || seen[row[0]][row[1]])
            return bad(at + 1);
        if (len < at + 3)
            return bad(len);
        uint64_t wide = row[0] == 1 && row[1] > 0 ? (uint64_t)row[2] + row[1] - 1 : row[2];
        if (wide > 64)
            return bad(at + 2);
        if (len < at + 4)
            return bad(len);
        if (row[3] != 0)
            return bad(at + 3);
        if (len < at + 8)
            return bad(len);
        if (four(row + 4) != place)
            return bad(at + 4);
        if (len < at + 12)
            return bad(len);
        uint64_t entries = four(row + 8);
        if (entries == 0 || entries != binomial[wide][row[1]] || place + 8 * entries > most_bytes)
            return bad(at + 8);
        seen[row[0]][row[1]] = true;
        place += 8 * entries;
    }
    if (len != place)
        return bad(len < place ? len : place);
    *tables = t;
    return refusal(GUDRENOSS_OK, 0);
}

__attribute__((noinline)) static gudrenoss_refusal plain_check(const uint8_t *image, size_t len, uint64_t *tables)
{
    return checked(image, len, tables);
}

__attribute__((noinline)) static gudrenoss_refusal plain_lookup(
    const uint8_t *image, size_t len, bool allowed, uint64_t n, uint64_t bits, uint64_t *coefficient)
{
    uint64_t k = (uint64_t)__builtin_popcountll(bits), tables;
    if (n > 64 || (allowed && k > 0 && n + k > 65))
        return refusal(GUDRENOSS_TOO_WIDE, 0);
    uint64_t wide = allowed && k > 0 ? n + k - 1 : n;
    if (wide < 64 && bits >> wide != 0)
        return refusal(GUDRENOSS_OUTSIDE, 0);
    gudrenoss_refusal said = checked(image, len, &tables);
    if (said.number)
        return said;
    for (uint64_t i = 0; i < tables; i++) {
        const uint8_t *row = image + 4 + 12 * i;
        if (row[0] != allowed || row[1] != k)
            continue;
        uint64_t rank = 0, j = 1;
        for (uint64_t left = bits; left != 0; left &= left - 1)
            rank += binomial[__builtin_ctzll(left)][j++];
        if (rank >= four(row + 8))
            return refusal(GUDRENOSS_NO_SUCH_RANK, 0);
        *coefficient = eight(image + four(row + 4) + 8 * rank);
        return refusal(GUDRENOSS_OK, 0);
    }
    return refusal(GUDRENOSS_NO_SUCH_TABLE, 0);
}

/* ---- the images ------------------------------------------------------------------------------------------------------------- */

struct table {
    bool allowed;
    uint8_t degree, alphabet;
};

struct image {
    const char *name;
    size_t len, tables;
    uint8_t bytes[most_bytes];
};

static uint64_t state = UINT64_C(0x9e3779b97f4a7c15);

static uint64_t any(void)
{
    state ^= state << 13;
    state ^= state >> 7;
    state ^= state << 17;
    return state;
}

static void put(uint8_t *at, uint64_t n, int bytes)
{
    for (int i = 0; i < bytes; i++)
        at[i] = (uint8_t)(n >> 8 * i);
}

static uint64_t count(struct table t)
{
    uint64_t wide = t.allowed && t.degree > 0 ? (uint64_t)t.alphabet + t.degree - 1 : t.alphabet;
    return binomial[wide][t.degree];
}

static void make(struct image *image, const char *name, const struct table *tables, size_t many)
{
    image->name = name;
    image->tables = many;
    image->len = 4 + 12 * many;
    put(image->bytes, many, 4);
    for (size_t i = 0; i < many; i++) {
        uint8_t *row = image->bytes + 4 + 12 * i;
        row[0] = tables[i].allowed;
        row[1] = tables[i].degree;
        row[2] = tables[i].alphabet;
        put(row + 4, image->len, 4);
        put(row + 8, count(tables[i]), 4);
        for (uint64_t e = 0; e < count(tables[i]); e++, image->len += 8)
            put(image->bytes + image->len, any(), 8);
    }
}

static struct image surface, wide, whole;

static void make_images(void)
{
    struct table of[64];
    for (uint8_t k = 0; k < 6; k++)
        of[k] = (struct table){true, k, 2};
    make(&surface, "6 tables", of, 6);
    for (uint8_t k = 0; k < 32; k++) {
        of[2 * k] = (struct table){true, k, 2};
        of[2 * k + 1] = (struct table){false, (uint8_t)(k + 1), (uint8_t)(k + 2)};
    }
    make(&wide, "64 tables", of, 64);
    make(&whole, "65,536 bytes", (struct table[]){{false, 6, 16}, {false, 2, 19}, {false, 1, 8}}, 3);
}

/* ---- the race --------------------------------------------------------------------------------------------------------------- */

static double now(void)
{
    struct timespec t;
    clock_gettime(CLOCK_MONOTONIC, &t);
    return 1e9 * (double)t.tv_sec + (double)t.tv_nsec;
}

struct term {
    bool allowed;
    uint64_t n, bits;
};

enum { terms = 4096 };
static struct term asked[terms];

/* A word of a table of the image, drawn anew for each question. */
static void ask_terms(const struct image *image)
{
    for (size_t i = 0; i < terms; i++) {
        const uint8_t *row = image->bytes + 4 + 12 * (any() % image->tables);
        uint64_t alphabet, bits;
        gudrenoss_refusal r = gudrenoss_unrank_over(row[0], row[2], row[1], any() % four(row + 8), &alphabet, &bits);
        if (r.number)
            exit(1);
        asked[i] = (struct term){row[0], alphabet, bits};
    }
}

static uint64_t summed(uint64_t sum, gudrenoss_refusal r, uint64_t value)
{
    return 31 * sum + r.number + 7 * r.at + value;
}

#define TIMED(name, body)                                                                       \
    static double name(const struct image *image, uint64_t *sum)                                \
    {                                                                                           \
        double start = now();                                                                   \
        for (size_t i = 0; i < terms; i++) {                                                    \
            uint64_t value = 0;                                                                 \
            gudrenoss_refusal r = body;                                                         \
            *sum = summed(*sum, r, value);                                                      \
        }                                                                                       \
        return (now() - start) / terms;                                                         \
    }

TIMED(our_check, gudrenoss_image_check(image->bytes, image->len, &value))
TIMED(their_check, plain_check(image->bytes, image->len, &value))
TIMED(our_lookup, gudrenoss_image_lookup(image->bytes, image->len, asked[i].allowed, asked[i].n, asked[i].bits, &value))
TIMED(their_lookup, plain_lookup(image->bytes, image->len, asked[i].allowed, asked[i].n, asked[i].bits, &value))

typedef double timed(const struct image *, uint64_t *);

static void race(const char *name, const struct image *image, timed *ours, timed *theirs)
{
    double here = 1e18, there = 1e18;
    for (int i = 0; i < rounds; i++) {
        uint64_t a = 0, b = 0;
        double x = ours(image, &a), y = theirs(image, &b);
        here = x < here ? x : here;
        there = y < there ? y : there;
        if (a != b) {
            printf("images: the answers differ: %s, %s\n", name, image->name);
            exit(1);
        }
    }
    printf("%-8s %-14s %8.1f %8.1f %6.2f\n", name, image->name, here, there, here / there);
}

/* ---- pieces ----------------------------------------------------------------------------------------------------------------- */

/* The whole image fed in pieces of one length, and its end. */
static double in_pieces(const struct image *image, size_t length)
{
    gudrenoss_pieces p;
    uint64_t tables = 0;
    bool still = true;
    double start = now();
    (void)gudrenoss_pieces_start(p.bytes, &p.seen, &p.state, &p.at);
    for (size_t at = 0; at < image->len; at += length)
        (void)gudrenoss_pieces_feed(
            p.bytes, &p.seen, &p.state, &p.at, image->bytes + at, image->len - at < length ? image->len - at : length);
    (void)gudrenoss_pieces_end(p.bytes, &p.seen, &p.state, &p.at);
    gudrenoss_refusal said = gudrenoss_pieces_verdict(p.state, p.at, &still, &tables);
    double took = now() - start;
    if (said.number || still || tables != image->tables) {
        printf("images: the pieces tell something else than the check: %s\n", image->name);
        exit(1);
    }
    return took;
}

static void race_pieces(const struct image *image)
{
    for (size_t i = 0, lengths[] = {1, 7, 223, most_bytes}; i < 4; i++) {
        double least = 1e18;
        for (int round = 0; round < rounds; round++) {
            double took = in_pieces(image, lengths[i]);
            least = took < least ? took : least;
        }
        printf("pieces of %5zu %-12s %8.2f ns a byte, %8.1f ns a piece\n", lengths[i], image->name, least / (double)image->len,
            least / (double)((image->len + lengths[i] - 1) / lengths[i]));
    }
}

int main(void)
{
    make_binomials();
    make_images();
    printf("%-8s %-14s %8s %8s %6s\n", "call", "image", "here, ns", "C, ns", "ratio");
    const struct image *images[] = {&surface, &wide, &whole};
    for (size_t i = 0; i < 3; i++) {
        ask_terms(images[i]);
        race("check", images[i], our_check, their_check);
        race("lookup", images[i], our_lookup, their_lookup);
    }
    race_pieces(&whole);
    race_pieces(&wide);
    return 0;
}
