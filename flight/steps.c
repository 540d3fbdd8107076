/* How many x86-64 instructions each export runs, counted one by one: a child makes the calls and marks each by two traps, the parent steps it from the first
 * trap to the second. What is counted is the whole call, its arguments and its return included. For each export the greatest count over its inputs is printed,
 * with the input that gave it. The inputs are the extremes of each call and random ones from a fixed seed; they are listed by the functions below.
 * With MARKS defined, for another processor, nobody steps: the calls stand between two functions that an emulator's trace names, and the names of the exports are
 * printed in the order in which they were called (flight/ported). */
#define _GNU_SOURCE
#include "gudrenoss.h"

#include <signal.h>
#include <stdarg.h>
#include <stdio.h>
#include <stdlib.h>
#include <string.h>
#include <unistd.h>
#ifndef MARKS
#include <sys/mman.h>
#include <sys/ptrace.h>
#include <sys/wait.h>
#endif

#define GREATEST UINT64_MAX

#ifdef MARKS
enum { most_calls = 1 << 17 };

static const char *called[most_calls], *name_now;
static size_t calls;

__attribute__((noinline)) void steps_begin(void)
{
    __asm__ volatile("" ::: "memory");
}

__attribute__((noinline)) void steps_end(void)
{
    __asm__ volatile("" ::: "memory");
}

#define about(name, ...) (name_now = (name))
#define TRAP_BEFORE (called[calls++] = name_now, steps_begin())
#define TRAP_AFTER steps_end()
#else
#define TRAP_BEFORE __asm__ volatile("int3" ::: "memory")
#define TRAP_AFTER __asm__ volatile("int3" ::: "memory")

/* What the child says of the call that it is about to make. */
struct label {
    char name[48];
    char input[96];
};

static struct label *said;

static void about(const char *name, const char *format, ...)
{
    va_list rest;
    va_start(rest, format);
    snprintf(said->name, sizeof said->name, "%s", name);
    vsnprintf(said->input, sizeof said->input, format, rest);
    va_end(rest);
}
#endif

static volatile uint64_t kept;

/* One call between two traps. */
#define CALL_GIVING(refusal, call)                 \
    do {                                           \
        TRAP_BEFORE;                               \
        refusal came_back = (call);                \
        TRAP_AFTER;                                \
        kept = came_back.number + came_back.at;    \
    } while (0)

#define CALL(call) CALL_GIVING(gudrenoss_refusal, call)
#define CALL_ON_FRAME(call) CALL_GIVING(gudrenoss_frame_refusal, call)

static uint64_t state = 0x9E3779B97F4A7C15u;

static uint64_t any(void)
{
    state ^= state << 13;
    state ^= state >> 7;
    state ^= state << 17;
    return state;
}

static uint64_t below(uint64_t n)
{
    return any() % n;
}

static uint64_t low(unsigned k)
{
    return k == 64 ? GREATEST : ((uint64_t)1 << k) - 1;
}

/* Bits that are hard in one way or another: k ones at the bottom, at the top, spread out, and random. */
static uint64_t pattern(unsigned k, unsigned kind)
{
    uint64_t bits = 0;
    switch (kind) {
    case 0:
        return low(k);
    case 1:
        return k == 0 ? 0 : low(k) << (64 - k);
    case 2:
        for (unsigned i = 0; i < k; i++) {
            bits |= (uint64_t)1 << (i * 64 / k);
        }
        return bits;
    default:
        for (unsigned left = k; left > 0;) {
            uint64_t one = (uint64_t)1 << below(64);
            if ((bits & one) == 0) {
                bits |= one;
                left--;
            }
        }
        return bits;
    }
}

#define PATTERNS 4

/* The widest alphabet that k symbols of a family may have. */
static uint64_t widest(unsigned f, unsigned k)
{
    return f && k > 0 ? 65 - k : 64;
}

static uint64_t word[140], other[80], out[140], a, b, c, d, e;
static bool yes, sign;

static void version(void)
{
    about("gudrenoss_version", "none");
    CALL(gudrenoss_version(&a, &b, &c));
}

static void terms(void)
{
    for (unsigned f = 0; f < 2; f++) {
        for (uint64_t n = 0; n <= 65; n += n < 60 ? 7 : 1) {
            for (uint64_t k = 0; k <= 65; k += k < 60 ? 4 : 1) {
                about("gudrenoss_count", "allowed %u, n %lu, k %lu", f, n, k);
                CALL(gudrenoss_count(f, n, k, &a));
                uint64_t count = a;
                if (gudrenoss_count(f, n, k, &count).number != 0) {
                    count = 0;
                }
                uint64_t ranks[4] = {0, count == 0 ? 0 : count - 1, count == 0 ? 0 : below(count), count};
                for (unsigned i = 0; i < 4; i++) {
                    about("gudrenoss_unrank", "allowed %u, n %lu, k %lu, r %lu", f, n, k, ranks[i]);
                    CALL(gudrenoss_unrank(f, n, k, ranks[i], out, 64, &a));
                    about("gudrenoss_lex_unrank", "allowed %u, n %lu, k %lu, r %lu", f, n, k, ranks[i]);
                    CALL(gudrenoss_lex_unrank(f, n, k, ranks[i], out, 64, &a));
                    about("gudrenoss_unrank_over", "allowed %u, n %lu, k %lu, r %lu", f, n, k, ranks[i]);
                    CALL(gudrenoss_unrank_over(f, n, k, ranks[i], &a, &b));
                }
                about("gudrenoss_walk_start", "allowed %u, n %lu, k %lu", f, n, k);
                CALL(gudrenoss_walk_start(f, n, k, &yes, &a, &b, &c));
            }
        }
        for (unsigned k = 0; k <= 65; k++) {
            uint64_t n = widest(f, k), count = 0;
            if (gudrenoss_count(f, n, k, &count).number != 0) {
                count = 1;
            }
            uint64_t ranks[4] = {0, count - 1, below(count), count};
            for (unsigned i = 0; i < 4; i++) {
                about("gudrenoss_unrank_any", "allowed %u, k %u, r %lu", f, k, ranks[i]);
                CALL(gudrenoss_unrank_any(f, k, ranks[i], &a, &b));
            }
        }
    }
}

/* Bodies of at most 80 entries: the instructions grow with the count. */
static void old_tables(void)
{
    for (unsigned f = 0; f < 2; f++) {
        for (uint64_t n = 0; n <= 9; n++) {
            for (uint64_t k = 0; k <= 9; k++) {
                uint64_t count = 0;
                if (gudrenoss_count(f, n, k, &count).number != 0 || count > 80) {
                    continue;
                }
                about("gudrenoss_lex_to_colex", "allowed %u, n %lu, k %lu", f, n, k);
                CALL(gudrenoss_lex_to_colex(f, n, k, (const uint8_t *)word, 8 * count, (uint8_t *)out, 8 * count, &a));
                about("gudrenoss_lex_from_colex", "allowed %u, n %lu, k %lu", f, n, k);
                CALL(gudrenoss_lex_from_colex(f, n, k, (const uint8_t *)word, 8 * count, (uint8_t *)out, 8 * count, &a));
            }
        }
    }
}

static void words(void)
{
    for (unsigned f = 0; f < 2; f++) {
        for (unsigned k = 0; k <= 64; k++) {
            for (unsigned kind = 0; kind < PATTERNS; kind++) {
                uint64_t bits = pattern(k, kind), n = widest(f, k), written;
                about("gudrenoss_unpack", "allowed %u, n %lu, bits %lu", f, n, bits);
                CALL(gudrenoss_unpack(f, n, bits, word, 64, &a));
                written = a;
                about("gudrenoss_pack", "allowed %u, n %lu, the word of bits %lu", f, n, bits);
                CALL(gudrenoss_pack(f, n, word, written, &a, &b));
                about("gudrenoss_rank", "allowed %u, the word of bits %lu", f, bits);
                CALL(gudrenoss_rank(f, word, written, &a));
                about("gudrenoss_lex_rank", "allowed %u, n %lu, the word of bits %lu", f, n, bits);
                CALL(gudrenoss_lex_rank(f, n, word, written, &a));
                about("gudrenoss_lex_successor", "allowed %u, n %lu, the word of bits %lu", f, n, bits);
                CALL(gudrenoss_lex_successor(f, n, word, written, out, 64, &a));
                about("gudrenoss_rank_of", "allowed %u, n %lu, bits %lu", f, n, bits);
                CALL(gudrenoss_rank_of(f, n, bits, &a));
                about("gudrenoss_degree", "allowed %u, n %lu, bits %lu", f, n, bits);
                CALL(gudrenoss_degree(f, n, bits, &a));
                about("gudrenoss_successor", "allowed %u, n %lu, bits %lu", f, n, bits);
                CALL(gudrenoss_successor(f, n, bits, &a, &b));
                yes = true, a = n, b = bits, c = 5;
                about("gudrenoss_walk_step", "allowed %u, n %lu, bits %lu", f, n, bits);
                CALL(gudrenoss_walk_step(f, &yes, &a, &b, &c, &d, &e));
                about("gudrenoss_stabilizer", "allowed %u, n %lu, bits %lu", f, n, bits);
                CALL(gudrenoss_stabilizer(f, n, bits, &a));
                uint64_t places[3] = {0, k == 0 ? 0 : k - 1, k / 2};
                for (unsigned i = 0; i < 3; i++) {
                    about("gudrenoss_symbol", "allowed %u, n %lu, bits %lu, p %lu", f, n, bits, places[i]);
                    CALL(gudrenoss_symbol(f, n, bits, places[i], &a));
                    about("gudrenoss_delete", "allowed %u, n %lu, bits %lu, p %lu", f, n, bits, places[i]);
                    CALL(gudrenoss_delete(f, n, bits, places[i], &sign, &a, &b, &c));
                }
                about("gudrenoss_complement", "allowed %u, n %lu, bits %lu, m 64", f, n, bits);
                CALL(gudrenoss_complement(f, n, bits, 64, &sign, &a, &b));
            }
        }
    }
}

static void signed_operations(void)
{
    for (unsigned f = 0; f < 2; f++) {
        for (unsigned k = 0; k <= 65; k++) {
            for (unsigned kind = 0; kind < 5; kind++) {
                uint64_t n = k == 65 ? 64 : widest(f, k);
                for (unsigned i = 0; i < k; i++) {
                    word[i] = kind == 0 ? i : kind == 1 ? k - 1 - i : kind == 2 ? 0 : kind == 3 ? below(64) : i / 2 + (i % 2) * (k / 2 + 1);
                }
                if (kind == 4 && k > 1) {
                    word[k - 1] = word[k - 2]; /* found last */
                }
                about("gudrenoss_canonicalise", "allowed %u, n %lu, %u symbols, kind %u", f, n, k, kind);
                CALL(gudrenoss_canonicalise(f, n, word, k, &sign, &a, &b));
            }
        }
        for (unsigned k = 0; k <= 64; k++) {
            for (unsigned kind = 0; kind < PATTERNS; kind++) {
                uint64_t x = pattern(k, kind);
                uint64_t ys[4] = {~x, low(64 - k), x, any() & ~x};
                for (unsigned i = 0; i < 4; i++) {
                    uint64_t n = widest(f, k), m = widest(f, (unsigned)__builtin_popcountll(ys[i]));
                    about("gudrenoss_merge", "allowed %u, n %lu, bits %lu and n %lu, bits %lu", f, n, x, m, ys[i]);
                    CALL(gudrenoss_merge(f, n, x, f, m, ys[i], &sign, &a, &b));
                }
            }
        }
        for (unsigned k = 0; k <= 64; k++) {
            uint64_t x = f ? low(k) : pattern(k, 3), y = f ? low(64 - k) : ~x, n = f ? 1 : 64;
            about("gudrenoss_merge", "allowed %u, n %lu, bits %lu and n %lu, bits %lu", f, n, x, n, y);
            CALL(gudrenoss_merge(f, n, x, f, n, y, &sign, &a, &b));
        }
    }
}

static void sets(void)
{
    for (unsigned k = 0; k <= 64; k++) {
        for (unsigned kind = 0; kind < PATTERNS; kind++) {
            uint64_t set = pattern(k, kind), s = below(66);
            about("gudrenoss_set_insert", "set %lu, s %lu", set, s);
            CALL(gudrenoss_set_insert(set, s, &a));
            about("gudrenoss_set_contains", "set %lu, s %lu", set, s);
            CALL(gudrenoss_set_contains(set, s, &yes));
            about("gudrenoss_set_position", "set %lu, s 63", set);
            CALL(gudrenoss_set_position(set, 63, &a));
            about("gudrenoss_set_position", "set %lu, s %lu", set, s);
            CALL(gudrenoss_set_position(set, s, &a));
            uint64_t chosen[3] = {low(k), k == 0 ? 0 : (uint64_t)1 << (k - 1), any() & low(k)};
            for (unsigned i = 0; i < 3; i++) {
                about("gudrenoss_set_select", "set %lu, positions %lu", set, chosen[i]);
                CALL(gudrenoss_set_select(set, chosen[i], &a));
            }
        }
    }
}

static gudrenoss_permutation arranged(unsigned n, unsigned kind)
{
    gudrenoss_permutation p = {{0}, n};
    for (unsigned i = 0; i < n && i < 64; i++) {
        p.entries[i] = kind == 0 ? i : n - 1 - i;
    }
    for (unsigned i = n < 64 ? n : 64; kind >= 2 && i > 1; i--) {
        uint64_t j = below(i), kept_entry = p.entries[i - 1];
        p.entries[i - 1] = p.entries[j];
        p.entries[j] = kept_entry;
    }
    return p;
}

static void permutations(void)
{
    for (unsigned n = 0; n <= 65; n += n < 22 ? 1 : 21) {
        for (unsigned kind = 0; kind < 6; kind++) {
            gudrenoss_permutation p = arranged(n, kind), q = arranged(n, 5 - kind);
            about("gudrenoss_permutation_image", "%u entries, kind %u", n, kind);
            CALL(gudrenoss_permutation_image(p.entries, p.len, n == 0 ? 0 : n - 1, &a));
            about("gudrenoss_permutation_inverse", "%u entries, kind %u", n, kind);
            CALL(gudrenoss_permutation_inverse(p.entries, p.len, out, &b));
            about("gudrenoss_permutation_compose", "%u entries, kind %u", n, kind);
            CALL(gudrenoss_permutation_compose(p.entries, p.len, q.entries, q.len, out, &b));
            about("gudrenoss_permutation_sign", "%u entries, kind %u", n, kind);
            CALL(gudrenoss_permutation_sign(p.entries, p.len, &sign));
            about("gudrenoss_permutation_rank", "%u entries, kind %u", n, kind);
            CALL(gudrenoss_permutation_rank(p.entries, p.len, &a));
            about("gudrenoss_permutation_successor", "%u entries, kind %u", n, kind);
            CALL(gudrenoss_permutation_successor(p.entries, p.len, out, &b));
            /* (n-2, .., 1, 0, n-1) and the like: the search for the first fall goes far */
            for (unsigned i = 0; i + 1 < n && i < 63; i++) {
                p.entries[i] = i + 1 < n - 1 ? i : n - 1;
            }
            if (n > 1 && n <= 64) {
                p.entries[n - 1] = n - 2;
            }
            about("gudrenoss_permutation_successor", "%u entries, rising but for the last two", n);
            CALL(gudrenoss_permutation_successor(p.entries, p.len, out, &b));
            uint64_t ranks[3] = {0, below(2432902008176640000u), GREATEST};
            for (unsigned i = 0; i < 3; i++) {
                about("gudrenoss_permutation_unrank", "%u entries, r %lu", n, ranks[i]);
                CALL(gudrenoss_permutation_unrank(n, ranks[i], out, &b));
            }
        }
    }
}

static void shapes(void)
{
    static const uint64_t radices[6] = {1, 2, 3, 15, 16, 0};
    for (unsigned n = 0; n <= 17; n++) {
        for (unsigned kind = 0; kind < 8; kind++) {
            for (unsigned i = 0; i < n; i++) {
                word[i] = kind < 6 ? radices[kind] : kind == 6 ? 1 + below(15) : (uint64_t)1 << below(8);
                other[i] = word[i] == 0 ? 0 : word[i] - 1;
            }
            about("gudrenoss_shape_count", "%u radices, kind %u", n, kind);
            CALL(gudrenoss_shape_count(word, n, &a));
            about("gudrenoss_shape_strides", "%u radices, kind %u", n, kind);
            CALL(gudrenoss_shape_strides(word, n, out, 16, &a));
            about("gudrenoss_shape_linearize", "%u radices, kind %u", n, kind);
            CALL(gudrenoss_shape_linearize(word, n, other, n, &a));
            uint64_t number = 0;
            if (gudrenoss_shape_count(word, n, &number).number == 0 && number > 0) {
                number--;
            }
            about("gudrenoss_shape_delinearize", "%u radices, kind %u, number %lu", n, kind, number);
            CALL(gudrenoss_shape_delinearize(word, n, number, out, 16, &a));
            uint64_t axes[3] = {low(n), n == 0 ? 0 : (uint64_t)1 << (n - 1), any() & low(n)};
            for (unsigned i = 0; i < 3; i++) {
                about("gudrenoss_shape_corner", "%u radices, kind %u, axes %lu", n, kind, axes[i]);
                CALL(gudrenoss_shape_corner(word, n, axes[i], &a));
            }
        }
    }
}

static void digit_words(void)
{
    static const uint64_t radices[9] = {0, 1, 2, 3, 4, 5, 10, 256, 4294967296u};
    for (unsigned kind = 0; kind < 9; kind++) {
        for (unsigned k = 0; k <= 65; k += k < 60 ? 3 : 1) {
            uint64_t radix = radices[kind], count = 0, ranks[3] = {0};
            about("gudrenoss_digits_count", "radix %lu, degree %u", radix, k);
            CALL(gudrenoss_digits_count(radix, k, &a));
            if (gudrenoss_digits_count(radix, k, &count).number == 0 && count > 0) {
                ranks[0] = count - 1;
                ranks[1] = below(count);
            }
            for (unsigned i = 0; i < k; i++) {
                word[i] = radix == 0 ? 0 : radix - 1;
                other[i] = radix == 0 ? 0 : i % radix;
            }
            /* every symbol about as often: the stabilizer goes furthest before it is too big */
            kept = gudrenoss_digits_from_symbols(radix, other, k, &a, &ranks[2]).number;
            about("gudrenoss_digits_from_symbols", "radix %lu, %u symbols", radix, k);
            CALL(gudrenoss_digits_from_symbols(radix, word, k, &a, &b));
            for (unsigned i = 0; i < 3; i++) {
                uint64_t rank = ranks[i];
                about("gudrenoss_digits_symbols", "radix %lu, degree %u, rank %lu", radix, k, rank);
                CALL(gudrenoss_digits_symbols(radix, k, rank, out, 64, &a));
                about("gudrenoss_digits_symbol", "radix %lu, degree %u, rank %lu, the last", radix, k, rank);
                CALL(gudrenoss_digits_symbol(radix, k, rank, k == 0 ? 0 : k - 1, &a));
                about("gudrenoss_digits_multiplicity", "radix %lu, degree %u, rank %lu, s 0", radix, k, rank);
                CALL(gudrenoss_digits_multiplicity(radix, k, rank, 0, &a));
                about("gudrenoss_digits_stabilizer", "radix %lu, degree %u, rank %lu", radix, k, rank);
                CALL(gudrenoss_digits_stabilizer(radix, k, rank, &a));
                about("gudrenoss_digits_delete", "radix %lu, degree %u, rank %lu, the last", radix, k, rank);
                CALL(gudrenoss_digits_delete(radix, k, rank, k == 0 ? 0 : k - 1, &a, &b));
                about("gudrenoss_digits_delete", "radix %lu, degree %u, rank %lu, the first", radix, k, rank);
                CALL(gudrenoss_digits_delete(radix, k, rank, 0, &a, &b));
                about("gudrenoss_digits_concat", "radix %lu, degrees %u and %u, rank %lu", radix, k, 64 - k, rank);
                CALL(gudrenoss_digits_concat(radix, k, rank, radix, k > 64 ? 0 : 64 - k, 0, &a, &b));
                about("gudrenoss_digits_concat", "radix %lu, degrees %u and 1, rank %lu", radix, k, rank);
                CALL(gudrenoss_digits_concat(radix, k, rank, radix, 1, 0, &a, &b));
            }
        }
    }
}

/* n entries, their sum d: all at one end, in the middle, one each, or spread at random. */
static void entries(uint64_t *into, unsigned n, unsigned d, unsigned kind)
{
    memset(into, 0, 80 * sizeof *into);
    for (unsigned i = 0; i < d && n > 0; i++) {
        into[kind == 0 ? 0 : kind == 1 ? n - 1 : kind == 2 ? i % n : below(n)]++;
    }
}

static void exponents(void)
{
    for (unsigned n = 0; n <= 65; n += n < 60 ? 5 : 1) {
        unsigned most = n > 64 ? 1 : 65 - n;
        unsigned degrees[3] = {0, most / 2, most};
        for (unsigned i = 0; i < 3; i++) {
            unsigned d = n == 0 ? 0 : degrees[i];
            for (unsigned kind = 0; kind < 4; kind++) {
                entries(word, n, d, kind);
                about("gudrenoss_exponents_word", "%u entries of sum %u, kind %u", n, d, kind);
                CALL(gudrenoss_exponents_word(word, n, out, 64, &a));
                about("gudrenoss_exponents_rank", "%u entries of sum %u, kind %u", n, d, kind);
                CALL(gudrenoss_exponents_rank(word, n, &a));
                entries(other, n, 0, kind);
                about("gudrenoss_exponents_add", "%u entries of sum %u, kind %u, and zeros", n, d, kind);
                CALL(gudrenoss_exponents_add(word, n, other, n, out, 64, &a));
                for (unsigned j = 0; j < d; j++) {
                    other[j] = kind == 0 ? 0 : kind == 1 ? n - 1 : below(n);
                }
                about("gudrenoss_exponents_from_word", "n %u, %u symbols, kind %u", n, d, kind);
                CALL(gudrenoss_exponents_from_word(n, other, d, out, 64, &a));
                uint64_t count = 1;
                if (gudrenoss_count(true, n, d, &count).number != 0 || count == 0) {
                    count = 1;
                }
                uint64_t r = kind == 0 ? 0 : kind == 1 ? count - 1 : below(count);
                about("gudrenoss_exponents_from_rank", "n %u, k %u, r %lu", n, d, r);
                CALL(gudrenoss_exponents_from_rank(n, d, r, out, 64, &a));
            }
        }
    }
}

/* Surfaces of up to 70 entries, their coefficients small, or as large as their degree leaves. */
static void derivatives(void)
{
    static int64_t table[80], result[80];
    for (unsigned n = 1; n <= 64; n += n < 12 ? 1 : 13) {
        for (unsigned k = 1; k <= 65 - n; k++) {
            uint64_t count = 0;
            if (gudrenoss_count(true, n, k, &count).number != 0 || count > 70) {
                continue;
            }
            for (unsigned kind = 0; kind < 6; kind++) {
                for (unsigned i = 0; i < count; i++) {
                    table[i] = kind < 3 ? (int64_t)below(2001) - 1000 : INT64_MAX / (int64_t)k;
                }
                unsigned s = kind % 3 == 0 ? 0 : kind % 3 == 1 ? n / 2 : n - 1;
                about("gudrenoss_derivative", "n %u, k %u, s %u, %s coefficients", n, k, s, kind < 3 ? "small" : "large");
                CALL(gudrenoss_derivative(n, k, s, table, count, result, 80, &a));
            }
        }
    }
}

static uint8_t image[65536], copy[65536];

/* The image with so many tables of one symbol or none: the first half Allowed over `over`, the other Forbidden; its length. */
static size_t make_image(unsigned tables, unsigned over)
{
    size_t end = 4 + 12 * (size_t)tables;
    memset(image, 0, sizeof image);
    image[0] = (uint8_t)tables;
    for (unsigned i = 0; i < tables; i++) {
        uint8_t *row = image + 4 + 12 * i;
        unsigned f = i < (tables + 1) / 2, k = f ? i : i - (tables + 1) / 2;
        uint64_t n = f ? over : k + 1, words = 0;
        if (gudrenoss_count(f, n, k, &words).number != 0) {
            _exit(1);
        }
        row[0] = (uint8_t)f, row[1] = (uint8_t)k, row[2] = (uint8_t)n;
        row[4] = (uint8_t)end, row[5] = (uint8_t)(end >> 8);
        row[8] = (uint8_t)words, row[9] = (uint8_t)(words >> 8);
        end += 8 * words;
    }
    return end;
}

static void images(void)
{
    for (unsigned tables = 1; tables <= 64; tables++) {
        size_t len = make_image(tables, 2);
        gudrenoss_pieces p;
        about("gudrenoss_image_check", "%u tables", tables);
        CALL(gudrenoss_image_check(image, len, &a));
        for (unsigned k = 0; k <= 33 && tables % 21 == 1; k++) {
            about("gudrenoss_image_row", "%u tables, forbidden, degree %u", tables, k);
            CALL(gudrenoss_image_row(image, len, 0, k, &a, &b, &c));
            about("gudrenoss_image_lookup", "%u tables, forbidden, the first %u symbols", tables, k);
            CALL(gudrenoss_image_lookup(image, len, 0, 64, low(k), &a));
            about("gudrenoss_image_at", "%u tables, the first %u symbols", tables, k);
            CALL(gudrenoss_image_at(image, len, 64, 4, 1, 0, 64, low(k), &a));
        }
        about("gudrenoss_image_write", "%u tables, split behind the contents list", tables);
        CALL(gudrenoss_image_write(image, 4 + 12 * tables, image + 4 + 12 * tables, len - 4 - 12 * tables, copy, sizeof copy, &a));
        about("gudrenoss_pieces_start", "none");
        CALL(gudrenoss_pieces_start(p.bytes, &p.seen, &p.state, &p.at));
        for (size_t at = 0, piece = tables % 4 == 0 ? 223 : len; at < len; at += piece) {
            about("gudrenoss_pieces_feed", "%u tables, a piece of %lu bytes at byte %lu", tables, piece, at);
            CALL(gudrenoss_pieces_feed(p.bytes, &p.seen, &p.state, &p.at, image + at, len - at < piece ? len - at : piece));
        }
        about("gudrenoss_pieces_end", "%u tables", tables);
        CALL(gudrenoss_pieces_end(p.bytes, &p.seen, &p.state, &p.at));
        about("gudrenoss_pieces_verdict", "%u tables", tables);
        CALL(gudrenoss_pieces_verdict(p.state, p.at, &yes, &a));
    }
}

/* A surface of the degrees 0 up to that number, all entries 0.0; the last table stands first where it is turned. */
static size_t make_surface(unsigned degrees, bool turned)
{
    size_t end = 4 + 12 * (size_t)degrees;
    memset(image, 0, sizeof image);
    image[0] = (uint8_t)degrees;
    for (unsigned i = 0; i < degrees; i++) {
        uint8_t *row = image + 4 + 12 * i;
        unsigned k = turned ? degrees - 1 - i : i;
        row[0] = 1, row[1] = (uint8_t)k, row[2] = 2;
        row[4] = (uint8_t)end, row[5] = (uint8_t)(end >> 8);
        row[8] = (uint8_t)(k + 1);
        end += 8 * (k + 1);
    }
    return end;
}

/* The ranks of a list: lists of one kind of index, up to 64 of them. */
static void batches(void)
{
    uint64_t many[64], ranks[64];
    for (unsigned len = 0; len <= 64; len += 16) {
        for (unsigned ones = 0; ones <= 64; ones += 16) {
            for (unsigned i = 0; i < len; i++) {
                many[i] = ones == 64 ? UINT64_MAX : ((uint64_t)1 << ones) - 1;
            }
            about("gudrenoss_rank_all", "%u sets of %u symbols", len, ones);
            CALL(gudrenoss_rank_all(false, 64, many, len, ranks, 64, &a));
        }
    }
}

static void masses(void)
{
    double x, y;
    for (unsigned same = 0; same < 2; same++) {
        about("gudrenoss_join", "%s", same ? "one frame" : "two frames");
        CALL_ON_FRAME(gudrenoss_join(1, 2.0, 2 - same, 3.0, &a, &x, &y));
    }
    for (unsigned degrees = 1; degrees <= 64; degrees++) {
        for (unsigned turned = 0; turned < 2; turned++) {
            size_t len = make_surface(degrees, turned);
            about("gudrenoss_mass", "degrees 0 to %u, by degree %s", degrees - 1, turned ? "falling" : "rising");
            CALL_ON_FRAME(gudrenoss_mass(image, len, 1, 0.5, 1, 0.75, &x));
        }
    }
    size_t len = make_surface(1, false);
    image[5] = 63, image[8] = 16, image[12] = 64, len = 16 + 8 * 64;
    about("gudrenoss_mass", "degree 63 alone");
    CALL_ON_FRAME(gudrenoss_mass(image, len, 1, 0.5, 1, 0.75, &x));
}

/* Bits of 128 places with k ones: at the bottom, at the top, spread out, around the middle, and random. */
static void wide_pattern(unsigned k, unsigned kind, uint64_t half[2])
{
    half[0] = half[1] = 0;
    for (unsigned i = 0, left = k; left > 0; i++) {
        uint64_t s = kind == 0 ? i : kind == 1 ? 127 - i : kind == 2 ? i * 128 / k : kind == 3 ? (64 - k / 2 + i) % 128 : below(128);
        left -= (half[s / 64] >> s % 64 & 1) == 0;
        half[s / 64] |= (uint64_t)1 << s % 64;
    }
}

static void wides(void)
{
    for (unsigned f = 0; f < 2; f++) {
        for (unsigned k = 0; k <= 128; k++) {
            for (unsigned kind = 0; kind < 5; kind++) {
                uint64_t x[2], y[2], written = 0;
                wide_pattern(k, kind, x);
                for (unsigned s = 0; s < 128; s++) {
                    if (x[s / 64] >> s % 64 & 1) {
                        word[written] = f ? s - written : s;
                        written++;
                    }
                }
                about("gudrenoss_wide_rank", "allowed %u, the word of halves %lu, %lu", f, x[0], x[1]);
                CALL(gudrenoss_wide_rank(f, word, written, &a));
                about("gudrenoss_wide_rank_of", "allowed %u, halves %lu, %lu", f, x[0], x[1]);
                CALL(gudrenoss_wide_rank_of(f, x[0], x[1], &a));
                about("gudrenoss_wide_successor", "allowed %u, halves %lu, %lu", f, x[0], x[1]);
                CALL(gudrenoss_wide_successor(f, x[0], x[1], &a, &b));
                about("gudrenoss_wide_delete", "allowed %u, halves %lu, %lu, the last", f, x[0], x[1]);
                CALL(gudrenoss_wide_delete(f, x[0], x[1], k == 0 ? 0 : k - 1, &sign, &a, &b, &c));
                wide_pattern(f ? 128 - k : k, kind, y);
                y[0] &= f ? GREATEST : ~x[0], y[1] &= f ? GREATEST : ~x[1];
                about("gudrenoss_wide_merge", "allowed %u, halves %lu, %lu and %lu, %lu", f, x[0], x[1], y[0], y[1]);
                CALL(gudrenoss_wide_merge(f, x[0], x[1], f, y[0], y[1], &sign, &a, &b));
            }
            uint64_t n = f && k > 0 ? 129 - k : 128, fewer = k < 16 || k > 112 ? n : k < 34 ? 67 - (f ? k - 1 : 0) : f ? 1 : k;
            for (unsigned i = 0; i < 4; i++) {
                uint64_t m = i < 2 ? n : fewer, r = 0;
                about("gudrenoss_wide_count", "allowed %u, n %lu, k %u", f, m, k);
                CALL(gudrenoss_wide_count(f, m, k, &r));
                r = r == 0 ? 0 : i % 2 ? r - 1 : below(r);
                about("gudrenoss_wide_unrank", "allowed %u, n %lu, k %u, r %lu", f, m, k, r);
                CALL(gudrenoss_wide_unrank(f, m, k, r, out, 128, &a));
                about("gudrenoss_wide_unrank_over", "allowed %u, n %lu, k %u, r %lu", f, m, k, r);
                CALL(gudrenoss_wide_unrank_over(f, m, k, r, &a, &b));
                about("gudrenoss_wide_unrank_any", "allowed %u, k %u, r %lu", f, k, r);
                CALL(gudrenoss_wide_unrank_any(f, k, r, &a, &b));
            }
        }
    }
}

static void all(void)
{
    version();
    terms();
    old_tables();
    words();
    signed_operations();
    sets();
    permutations();
    shapes();
    digit_words();
    exponents();
    derivatives();
    images();
    masses();
    batches();
    wides();
}

#ifdef MARKS
int main(void)
{
    all();
    for (size_t i = 0; i < calls; i++) {
        puts(called[i]);
    }
    return 0;
}
#else
static void child(void)
{
    ptrace(PTRACE_TRACEME, 0, 0, 0);
    raise(SIGSTOP);
    all();
    _exit(0);
}

/* Steps the child from the trap that it stands at to the next one, and answers how many instructions that were. */
static long stepped(pid_t pid)
{
    for (long n = 0;; n++) {
        int status;
        siginfo_t why;
        ptrace(PTRACE_SINGLESTEP, pid, 0, 0);
        waitpid(pid, &status, 0);
        if (!WIFSTOPPED(status) || ptrace(PTRACE_GETSIGINFO, pid, 0, &why) != 0) {
            fprintf(stderr, "steps: the child ended within a call\n");
            exit(1);
        }
        if (why.si_code != TRAP_TRACE) {
            return n;
        }
    }
}

struct most {
    struct label label;
    long steps;
    long calls;
};

static struct most found[80];

static void enter(long steps)
{
    struct most *m = found;
    while (m->calls > 0 && strcmp(m->label.name, said->name) != 0) {
        m++;
    }
    m->calls++;
    if (m->calls == 1 || steps > m->steps) {
        m->label = *said;
        m->steps = steps;
    }
}

int main(void)
{
    said = mmap(0, sizeof *said, PROT_READ | PROT_WRITE, MAP_SHARED | MAP_ANONYMOUS, -1, 0);
    pid_t pid = fork();
    if (pid == 0) {
        child();
    }
    int status;
    waitpid(pid, &status, 0);
    for (;;) {
        ptrace(PTRACE_CONT, pid, 0, 0);
        waitpid(pid, &status, 0);
        if (WIFEXITED(status)) {
            break;
        }
        if (!WIFSTOPPED(status) || WSTOPSIG(status) != SIGTRAP) {
            fprintf(stderr, "steps: the child stopped with status %d\n", status);
            return 1;
        }
        enter(stepped(pid));
    }
    for (struct most *m = found; m->calls > 0; m++) {
        printf("%s\t%ld\t%ld\t%s\n", m->label.name, m->steps, m->calls, m->label.input);
    }
    return 0;
}
#endif
