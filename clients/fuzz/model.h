/* A second account of every rule of docs/RULES.md, in plain C: words are lists, sets are lists of members, products are formed in
 * 128 bits, and small ranks are found by listing all words. It shares no code with the library, and is written for clearness. */
#ifndef MODEL_H
#define MODEL_H

#include <gudrenoss.h>

/* What a call must come to: the refusal, the place and the frame that it tells, or what its places then hold, in the order of the parameters. A
 * double stands as its bits. */
struct answer {
    uint64_t refusal, at, frame;
    bool has_flag, flag;
    size_t values;
    uint64_t value[5];
    size_t len;
    uint64_t list[128];
};

/* An index as it is passed: any numbers. */
struct index {
    bool allowed;
    uint64_t n, bits;
};

/* A wide index: any halves are one. */
struct wide_index {
    bool allowed;
    uint64_t low, high;
};

struct answer model_version(void);

struct answer model_count(bool allowed, uint64_t n, uint64_t k);
struct answer model_pack(bool allowed, uint64_t n, const uint64_t *word, size_t len);
struct answer model_unpack(struct index x, size_t room);
struct answer model_degree(struct index x);
struct answer model_symbol(struct index x, uint64_t p);
struct answer model_rank(bool allowed, const uint64_t *word, size_t len);
struct answer model_rank_of(struct index x);
struct answer model_rank_all(bool allowed, uint64_t n, const uint64_t *bits, size_t len, size_t room);
struct answer model_unrank(bool allowed, uint64_t n, uint64_t k, uint64_t r, size_t room);
struct answer model_unrank_over(bool allowed, uint64_t n, uint64_t k, uint64_t r);
struct answer model_unrank_any(bool allowed, uint64_t k, uint64_t r);
struct answer model_successor(struct index x);
struct answer model_walk_start(bool allowed, uint64_t n, uint64_t k);
struct answer model_walk_step(bool standing, struct index at, uint64_t remaining);

struct answer model_canonicalise(bool allowed, uint64_t n, const uint64_t *word, size_t len);
struct answer model_merge(struct index left, struct index right);
struct answer model_delete(struct index x, uint64_t p);
struct answer model_complement(struct index x, uint64_t m);
struct answer model_stabilizer(struct index x);

struct answer model_set_insert(uint64_t set, uint64_t s);
struct answer model_set_contains(uint64_t set, uint64_t s);
struct answer model_set_position(uint64_t set, uint64_t s);
struct answer model_set_select(uint64_t set, uint64_t positions);

struct answer model_permutation_image(const gudrenoss_permutation *p, uint64_t i);
struct answer model_permutation_inverse(const gudrenoss_permutation *p);
struct answer model_permutation_compose(const gudrenoss_permutation *p, const gudrenoss_permutation *q);
struct answer model_permutation_sign(const gudrenoss_permutation *p);
struct answer model_permutation_rank(const gudrenoss_permutation *p);
struct answer model_permutation_unrank(uint64_t n, uint64_t r);
struct answer model_permutation_successor(const gudrenoss_permutation *p);

struct answer model_shape_count(const uint64_t *radices, size_t axes);
struct answer model_shape_strides(const uint64_t *radices, size_t axes, size_t room);
struct answer model_shape_linearize(const uint64_t *radices, size_t axes, const uint64_t *digits, size_t len);
struct answer model_shape_delinearize(const uint64_t *radices, size_t axes, uint64_t number, size_t room);
struct answer model_shape_corner(const uint64_t *radices, size_t axes, uint64_t chosen);

struct answer model_digits_count(uint64_t radix, uint64_t degree);
struct answer model_digits_from_symbols(uint64_t radix, const uint64_t *symbols, size_t len);
struct answer model_digits_symbols(uint64_t radix, uint64_t degree, uint64_t rank, size_t room);
struct answer model_digits_symbol(uint64_t radix, uint64_t degree, uint64_t rank, uint64_t p);
struct answer model_digits_multiplicity(uint64_t radix, uint64_t degree, uint64_t rank, uint64_t s);
struct answer model_digits_stabilizer(uint64_t radix, uint64_t degree, uint64_t rank);
struct answer model_digits_concat(uint64_t left_radix, uint64_t left_degree, uint64_t left_rank, uint64_t right_radix,
    uint64_t right_degree, uint64_t right_rank);
struct answer model_digits_delete(uint64_t radix, uint64_t degree, uint64_t rank, uint64_t p);

struct answer model_exponents_word(const uint64_t *entries, size_t len, size_t room);
struct answer model_exponents_from_word(uint64_t n, const uint64_t *word, size_t len, size_t room);
struct answer model_exponents_rank(const uint64_t *entries, size_t len);
struct answer model_exponents_from_rank(uint64_t n, uint64_t k, uint64_t r, size_t room);
struct answer model_exponents_add(const uint64_t *left, size_t left_len, const uint64_t *right, size_t right_len, size_t room);

struct answer model_image_check(const uint8_t *image, size_t len);
struct answer model_image_row(const uint8_t *image, size_t len, bool allowed, uint64_t k);
struct answer model_image_lookup(const uint8_t *image, size_t len, struct index x);
struct answer model_image_at(const uint8_t *image, size_t len, uint64_t offset, uint64_t entries, struct index x);
struct answer model_image_write(
    const uint8_t *contents, size_t contents_len, const uint8_t *bodies, size_t bodies_len, uint8_t *joined, size_t room);
bool model_image_settled(const uint8_t *image, size_t len);

uint64_t model_bits(double x);
double model_double(uint64_t bits);
struct answer model_join(uint64_t pressure_frame, double pressure, uint64_t temperature_frame, double temperature);
struct answer model_mass(const uint8_t *image, size_t len, uint64_t pressure_frame, double pressure, uint64_t temperature_frame, double temperature);

struct answer model_derivative(uint64_t n, uint64_t k, uint64_t s, const int64_t *table, size_t len, size_t room);
/* The bodies have entries that are whole numbers, and bytes of them are lent. */
struct answer model_lex_rank(bool allowed, uint64_t n, const uint64_t *word, size_t len);
struct answer model_lex_unrank(bool allowed, uint64_t n, uint64_t k, uint64_t r, size_t room);
struct answer model_lex_successor(bool allowed, uint64_t n, const uint64_t *word, size_t len, size_t room);
struct answer model_lex_converted(bool back, bool allowed, uint64_t n, uint64_t k, const uint64_t *body, size_t bytes, size_t room);

struct answer model_wide_count(bool allowed, uint64_t n, uint64_t k);
struct answer model_wide_rank(bool allowed, const uint64_t *word, size_t len);
struct answer model_wide_rank_of(struct wide_index x);
struct answer model_wide_unrank(bool allowed, uint64_t n, uint64_t k, uint64_t r, size_t room);
struct answer model_wide_unrank_over(bool allowed, uint64_t n, uint64_t k, uint64_t r);
struct answer model_wide_unrank_any(bool allowed, uint64_t k, uint64_t r);
struct answer model_wide_successor(struct wide_index x);
struct answer model_wide_merge(struct wide_index left, struct wide_index right);
struct answer model_wide_delete(struct wide_index x, uint64_t p);

#endif
