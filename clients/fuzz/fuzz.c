/* fuzz CALLS [SEED [NAME]]: calls every function of the library with structured and random values, and compares what it gives back, every
 * place that it may write, every place around those, and every list that it reads with the model. It prints for each function how
 * many calls were answers and how many refusals, by number, and a digest of all that the library gave, which is the same on every processor;
 * its last line is 'N calls, 0 broken', and its exit status then 0. With a name all calls are of that one function. */
#include "model.h"

#include <stdio.h>
#include <string.h>

/* ---- Random numbers (splitmix64): two are never drawn in one expression whose order C leaves open, so that a seed tells all ------ */

static uint64_t state;

static uint64_t any(void)
{
    uint64_t z = state += UINT64_C(0x9e3779b97f4a7c15);
    z = (z ^ z >> 30) * UINT64_C(0xbf58476d1ce4e5b9);
    z = (z ^ z >> 27) * UINT64_C(0x94d049bb133111eb);
    return z ^ z >> 31;
}

static uint64_t below(uint64_t n)
{
    return any() % n;
}

static bool coin(void)
{
    return any() >> 63;
}

/* Mostly a small number, sometimes one near `edge`, near a power of two, or any. */
static uint64_t number(uint64_t edge)
{
    uint64_t power;
    switch (below(8)) {
    case 0: return edge - 3 + below(7);
    case 1: power = (uint64_t)1 << below(64); return power - 1 + below(3);
    case 2: return below(4) == 0 ? UINT64_MAX - below(3) : any();
    case 3: return below(edge + 2);
    default: return below(7);
    }
}

/* Bits: few, many, low, high or any. */
static uint64_t bits(void)
{
    switch (below(7)) {
    case 0: return any();
    case 1: return any() & any() & any();
    case 2: return any() | any() | any();
    case 3: return below(64) == 0 ? 0 : UINT64_MAX << below(64);
    case 4: return UINT64_MAX >> below(64);
    case 5: return (uint64_t)1 << below(64) | (uint64_t)1 << below(64);
    default: return below(1024);
    }
}

/* An alphabet for k symbols, the largest of them `least` - 1: mostly one that holds them and is not too wide, often one of the least
 * and the most that do so, or one past these, sometimes any. */
static uint64_t alphabet(bool allowed, uint64_t least, uint64_t k)
{
    uint64_t widest = allowed && 0 < k && k <= 64 ? 65 - k : 64;
    switch (below(8)) {
    case 0: return number(64);
    case 1: return least - below(2);
    case 2: return widest + below(2);
    case 3: return least;
    case 4: return widest;
    default: return least < widest ? least + below(widest - least + 1) : least;
    }
}

/* An index: any bits, with an alphabet for them. */
static struct index index_with(bool allowed, uint64_t b)
{
    uint64_t least = 0, k = 0;
    for (uint64_t s = 0; s < 64; s++)
        if (b >> s & 1) {
            least = s + 1 - (allowed ? k : 0);
            k++;
        }
    return (struct index){allowed, alphabet(allowed, least, k), b};
}

static struct index some_index(void)
{
    bool allowed = coin();
    return index_with(allowed, bits());
}

/* ---- Guarded memory --------------------------------------------------------------------------------------------------------- */

enum { guard = 4, most = 140, values = 5 };

/* A list with guards at both ends, and a copy of all of it as it was before the call. */
struct list {
    uint64_t place[guard + most + guard], before[guard + most + guard];
    size_t len;
};

/* A place of a number or a truth value between guards. */
struct place {
    uint64_t low, value, high;
};
struct flag {
    uint64_t low;
    bool value;
    uint64_t high;
};

static struct list left, right, out;
static struct place value[values];
static uint64_t value_before[values];
static struct flag flag;
static bool flag_before;
static const uint64_t low_guard = UINT64_C(0x6c6f772067756172), high_guard = UINT64_C(0x6869676820677561);

static uint64_t *at(struct list *l)
{
    return l->place + guard;
}

/* What a list of that length is passed as: now and then NULL if it is empty. */
static uint64_t *pass(struct list *l)
{
    return l->len == 0 && coin() ? NULL : at(l);
}

static void scramble(struct list *l, size_t len)
{
    for (size_t i = 0; i < guard + most + guard; i++)
        l->place[i] = any();
    l->len = len;
}

static void remember(struct list *l)
{
    for (size_t i = 0; i < guard + most + guard; i++)
        l->before[i] = l->place[i];
}

static bool kept(const struct list *l, size_t from)
{
    for (size_t i = 0; i < guard + most + guard; i++)
        if ((i < guard || i >= guard + from) && l->place[i] != l->before[i])
            return false;
    return true;
}

/* A place that holds what it should, its guards too. */
static bool holds(const struct place *p, uint64_t wanted)
{
    return p->low == low_guard && p->value == wanted && p->high == high_guard;
}

static bool flag_holds(bool wanted)
{
    return flag.low == low_guard && flag.value == wanted && flag.high == high_guard;
}

/* Makes every place new: the lists are empty, the output has that much room. */
static void fresh(size_t room)
{
    scramble(&left, 0);
    scramble(&right, 0);
    scramble(&out, room);
    for (int i = 0; i < values; i++) {
        struct place p = {low_guard, any(), high_guard};
        value[i] = p;
    }
    struct flag f = {low_guard, coin(), high_guard};
    flag = f;
}

/* Called when all arguments stand, just before the call. */
static void ready(void)
{
    remember(&left);
    remember(&right);
    remember(&out);
    for (int i = 0; i < values; i++)
        value_before[i] = value[i].value;
    flag_before = flag.value;
}

/* Whether the call did what the model says, and nothing else. */
static bool agrees(gudrenoss_refusal refusal, const struct answer *a)
{
    bool answered = a->refusal == GUDRENOSS_OK, good = refusal.number == a->refusal && refusal.at == a->at;
    for (size_t i = 0; i < values; i++)
        good = good && holds(&value[i], answered && i < a->values ? a->value[i] : value_before[i]);
    good = good && flag_holds(answered && a->has_flag ? a->flag : flag_before);
    for (size_t i = 0; answered && i < a->len; i++)
        good = good && at(&out)[i] == a->list[i];
    return good && kept(&out, answered ? a->len : 0) && kept(&left, 0) && kept(&right, 0);
}

/* ---- Structured arguments --------------------------------------------------------------------------------------------------- */

/* A word: mostly one of the family, or that with one symbol changed, or any numbers. */
static void put_word(struct list *l, bool allowed)
{
    uint64_t step = 1 + below(4), symbol = below(3), size = below(10);
    l->len = size < 7 ? below(7) : size < 9 ? below(40) : below(70);
    for (size_t i = 0; i < l->len; i++) {
        at(l)[i] = symbol;
        symbol += allowed ? below(step) : 1 + below(step);
    }
    if (l->len > 0 && below(4) == 0) {
        size_t i = below(l->len);
        at(l)[i] = number(64);
    }
    if (below(16) == 0)
        for (size_t i = 0; i < l->len; i++)
            at(l)[i] = number(64);
}

/* An alphabet for a word. */
static uint64_t alphabet_for(struct list *l, bool allowed)
{
    uint64_t least = 0;
    for (size_t i = 0; i < l->len; i++)
        if (at(l)[i] >= least)
            least = at(l)[i] + 1;
    return alphabet(allowed, least, l->len);
}

static void swap(uint64_t *a, uint64_t *b)
{
    uint64_t held = *a;
    *a = *b;
    *b = held;
}

static void shuffle(uint64_t *places, size_t len)
{
    for (size_t i = len; i > 1; i--)
        swap(&places[i - 1], &places[below(i)]);
}

/* A permutation: mostly a good one, sometimes with anything past its length, at all of the places or at one. */
static gudrenoss_permutation permutation(uint64_t len)
{
    gudrenoss_permutation p;
    for (size_t i = 0; i < 64; i++)
        p.entries[i] = i < len ? i : 0;
    p.len = len;
    if (len < 64 && below(16) == 0)
        for (size_t i = len; i < 64; i++)
            p.entries[i] = number(64);
    if (len < 64 && below(16) == 0) {
        size_t i = len + below(64 - len);
        p.entries[i] = number(64);
    }
    if (len <= 64 && below(16) != 0)
        shuffle(p.entries, len);
    if (len <= 64 && len > 1 && below(8) == 0)
        for (size_t i = 0; i < len; i++)
            p.entries[i] = len - 1 - i;
    if (len > 0 && below(8) == 0) {
        size_t i = below(len < 64 ? len : 64);
        p.entries[i] = number(64);
    }
    return p;
}

static uint64_t permutation_len(void)
{
    return below(32) == 0 ? number(64) : below(2) ? below(6) : below(2) ? below(22) : below(66);
}

/* A shape: mostly small radices, sometimes a zero or a large one. */
static void put_radices(struct list *l)
{
    l->len = below(12) == 0 ? below(20) : below(2) ? below(5) : below(17);
    bool wild = below(4) == 0;
    for (size_t i = 0; i < l->len; i++)
        at(l)[i] = wild ? number(6) : below(40) == 0 ? 0 : 1 + below(9);
}

static uint64_t product(const struct list *l)
{
    uint64_t p = 1;
    for (size_t i = 0; i < l->len; i++)
        p *= at((struct list *)l)[i];
    return p;
}

/* A digit word: mostly one whose rank is below the number of words. */
static void digit_word(uint64_t *radix, uint64_t *degree, uint64_t *rank)
{
    *radix = below(3) == 0 ? number(10) : below(6);
    *degree = below(16) == 0 ? number(64) : below(3) == 0 ? below(66) : below(9);
    uint64_t words = 1;
    for (uint64_t i = 0; i < *degree && i < 64; i++)
        words *= *radix;
    *rank = below(8) == 0 ? number(64) : words == 0 ? any() : below(8) == 0 ? words - 1 + below(2) : below(words);
}

static void put_exponents(struct list *l, size_t len)
{
    l->len = len;
    for (size_t i = 0; i < l->len; i++)
        at(l)[i] = below(40) == 0 ? number(64) : below(3) == 0 ? below(5) : below(2);
}

static size_t exponents_len(void)
{
    return below(8) == 0 ? below(70) : below(9);
}

static size_t room(void)
{
    return below(4) == 0 ? below(70) : below(2) ? below(8) : most;
}

/* ---- The calls -------------------------------------------------------------------------------------------------------------- */

/* Each makes its arguments, calls, and hands back what the library gave with what the model says. */
struct outcome {
    gudrenoss_refusal refusal;
    struct answer model;
};

static struct outcome call_version(void)
{
    fresh(0);
    ready();
    return (struct outcome){gudrenoss_version(&value[0].value, &value[1].value, &value[2].value), model_version()};
}

static struct outcome call_count(void)
{
    bool allowed = coin();
    uint64_t n = number(64), k = number(64);
    fresh(0);
    ready();
    return (struct outcome){gudrenoss_count(allowed, n, k, &value[0].value), model_count(allowed, n, k)};
}

static struct outcome call_pack(void)
{
    bool allowed = coin();
    fresh(0);
    put_word(&left, allowed);
    uint64_t n = alphabet_for(&left, allowed);
    ready();
    return (struct outcome){gudrenoss_pack(allowed, n, pass(&left), left.len, &value[0].value, &value[1].value),
        model_pack(allowed, n, at(&left), left.len)};
}

static struct outcome call_unpack(void)
{
    struct index x = some_index();
    fresh(room());
    ready();
    return (struct outcome){
        gudrenoss_unpack(x.allowed, x.n, x.bits, pass(&out), out.len, &value[0].value), model_unpack(x, out.len)};
}

static struct outcome call_degree(void)
{
    struct index x = some_index();
    fresh(0);
    ready();
    return (struct outcome){gudrenoss_degree(x.allowed, x.n, x.bits, &value[0].value), model_degree(x)};
}

static struct outcome call_symbol(void)
{
    struct index x = some_index();
    uint64_t p = number(64);
    fresh(0);
    ready();
    return (struct outcome){gudrenoss_symbol(x.allowed, x.n, x.bits, p, &value[0].value), model_symbol(x, p)};
}

static struct outcome call_rank(void)
{
    bool allowed = coin();
    fresh(0);
    put_word(&left, allowed);
    ready();
    return (struct outcome){
        gudrenoss_rank(allowed, pass(&left), left.len, &value[0].value), model_rank(allowed, at(&left), left.len)};
}

static struct outcome call_rank_of(void)
{
    struct index x = some_index();
    fresh(0);
    ready();
    return (struct outcome){gudrenoss_rank_of(x.allowed, x.n, x.bits, &value[0].value), model_rank_of(x)};
}

/* Indices that are often good over the alphabet of one: its bits, and parts of them. */
static struct outcome call_rank_all(void)
{
    struct index x = some_index();
    fresh(room());
    left.len = below(8) == 0 ? below(70) : below(7);
    for (size_t i = 0; i < left.len; i++) {
        uint64_t mask = any();
        at(&left)[i] = below(16) == 0 ? any() : x.allowed && below(4) > 0 ? x.bits : x.bits & mask;
    }
    ready();
    const uint64_t *given = pass(&left);
    uint64_t *ranks = pass(&out);
    return (struct outcome){
        gudrenoss_rank_all(x.allowed, x.n, given, left.len, ranks, out.len, &value[0].value),
        model_rank_all(x.allowed, x.n, at(&left), left.len, out.len)};
}

/* A rank that is often below the count. */
static uint64_t some_rank(bool allowed, uint64_t n, uint64_t k)
{
    struct answer a = model_count(allowed, n, k);
    return a.refusal || a.value[0] == 0 || below(8) == 0 ? number(64) : below(a.value[0] + (below(8) == 0));
}

static struct outcome call_unrank(void)
{
    bool allowed = coin();
    uint64_t n = number(64), k = number(64), r = some_rank(allowed, n, k);
    fresh(room());
    ready();
    return (struct outcome){
        gudrenoss_unrank(allowed, n, k, r, pass(&out), out.len, &value[0].value), model_unrank(allowed, n, k, r, out.len)};
}

static struct outcome call_unrank_over(void)
{
    bool allowed = coin();
    uint64_t n = number(64), k = number(64), r = some_rank(allowed, n, k);
    fresh(0);
    ready();
    return (struct outcome){
        gudrenoss_unrank_over(allowed, n, k, r, &value[0].value, &value[1].value), model_unrank_over(allowed, n, k, r)};
}

static struct outcome call_unrank_any(void)
{
    bool allowed = coin();
    uint64_t k = number(64), r = some_rank(false, 64, k);
    fresh(0);
    ready();
    return (struct outcome){
        gudrenoss_unrank_any(allowed, k, r, &value[0].value, &value[1].value), model_unrank_any(allowed, k, r)};
}

static struct outcome call_successor(void)
{
    struct index x = some_index();
    fresh(0);
    ready();
    return (struct outcome){
        gudrenoss_successor(x.allowed, x.n, x.bits, &value[0].value, &value[1].value), model_successor(x)};
}

static struct outcome call_walk_start(void)
{
    bool allowed = coin();
    uint64_t n = number(64), k = number(64);
    fresh(0);
    ready();
    return (struct outcome){
        gudrenoss_walk_start(allowed, n, k, &flag.value, &value[0].value, &value[1].value, &value[2].value),
        model_walk_start(allowed, n, k)};
}

static struct outcome call_walk_step(void)
{
    struct index x = some_index();
    fresh(0);
    flag.value = below(8) != 0;
    value[0].value = x.n;
    value[1].value = x.bits;
    value[2].value = below(8) == 0 ? 0 : number(64);
    ready();
    struct answer a = model_walk_step(flag.value, x, value[2].value);
    return (struct outcome){gudrenoss_walk_step(x.allowed, &flag.value, &value[0].value, &value[1].value, &value[2].value,
                                &value[3].value, &value[4].value), a};
}

static struct outcome call_canonicalise(void)
{
    bool allowed = coin();
    fresh(0);
    put_word(&left, allowed);
    shuffle(at(&left), left.len);
    uint64_t n = alphabet_for(&left, allowed);
    ready();
    return (struct outcome){
        gudrenoss_canonicalise(allowed, n, pass(&left), left.len, &flag.value, &value[0].value, &value[1].value),
        model_canonicalise(allowed, n, at(&left), left.len)};
}

static struct outcome call_merge(void)
{
    bool l = coin(), r = below(8) == 0 ? coin() : l;
    uint64_t a = bits(), b = bits();
    if (!l && below(4) != 0)
        b &= ~a;
    if (l && below(2) == 0) {
        a >>= below(64);
        b >>= below(64);
    }
    struct index x = index_with(l, a), y = index_with(r, b);
    fresh(0);
    ready();
    return (struct outcome){gudrenoss_merge(x.allowed, x.n, x.bits, y.allowed, y.n, y.bits, &flag.value, &value[0].value,
                                &value[1].value), model_merge(x, y)};
}

static struct outcome call_delete(void)
{
    struct index x = some_index();
    uint64_t p = below(2) ? number(64) : below(65);
    fresh(0);
    ready();
    return (struct outcome){gudrenoss_delete(x.allowed, x.n, x.bits, p, &flag.value, &value[0].value, &value[1].value,
                                &value[2].value), model_delete(x, p)};
}

static struct outcome call_complement(void)
{
    bool allowed = below(8) == 0;
    uint64_t b = bits(), m = below(2) ? number(64) : below(66);
    if (m < 64 && below(4) != 0)
        b &= ((uint64_t)1 << m) - 1;
    struct index x = index_with(allowed, b);
    fresh(0);
    ready();
    return (struct outcome){
        gudrenoss_complement(x.allowed, x.n, x.bits, m, &flag.value, &value[0].value, &value[1].value), model_complement(x, m)};
}

static struct outcome call_stabilizer(void)
{
    bool allowed = below(4) != 0;
    struct index x = index_with(allowed, bits());
    fresh(0);
    ready();
    return (struct outcome){gudrenoss_stabilizer(x.allowed, x.n, x.bits, &value[0].value), model_stabilizer(x)};
}

static struct outcome call_set_insert(void)
{
    uint64_t set = bits(), s = below(2) ? number(64) : below(64);
    fresh(0);
    ready();
    return (struct outcome){gudrenoss_set_insert(set, s, &value[0].value), model_set_insert(set, s)};
}

static struct outcome call_set_contains(void)
{
    uint64_t set = bits(), s = below(2) ? number(64) : below(64);
    fresh(0);
    ready();
    return (struct outcome){gudrenoss_set_contains(set, s, &flag.value), model_set_contains(set, s)};
}

static struct outcome call_set_position(void)
{
    uint64_t set = bits(), s = below(2) ? number(64) : below(64);
    fresh(0);
    ready();
    return (struct outcome){gudrenoss_set_position(set, s, &value[0].value), model_set_position(set, s)};
}

static struct outcome call_set_select(void)
{
    uint64_t set = bits(), positions = bits();
    positions >>= below(2) ? 0 : below(64);
    fresh(0);
    ready();
    return (struct outcome){gudrenoss_set_select(set, positions, &value[0].value), model_set_select(set, positions)};
}

static struct outcome call_permutation_image(void)
{
    gudrenoss_permutation p = permutation(permutation_len());
    uint64_t i = number(64);
    fresh(0);
    ready();
    return (struct outcome){gudrenoss_permutation_image(p.entries, p.len, i, &value[0].value), model_permutation_image(&p, i)};
}

static struct outcome call_permutation_inverse(void)
{
    gudrenoss_permutation p = permutation(permutation_len());
    fresh(64);
    ready();
    return (struct outcome){gudrenoss_permutation_inverse(p.entries, p.len, at(&out), &value[0].value), model_permutation_inverse(&p)};
}

static struct outcome call_permutation_compose(void)
{
    uint64_t len = permutation_len();
    gudrenoss_permutation p = permutation(len), q = permutation(below(16) == 0 ? permutation_len() : len);
    fresh(64);
    ready();
    return (struct outcome){
        gudrenoss_permutation_compose(p.entries, p.len, q.entries, q.len, at(&out), &value[0].value),
        model_permutation_compose(&p, &q)};
}

static struct outcome call_permutation_sign(void)
{
    gudrenoss_permutation p = permutation(permutation_len());
    fresh(0);
    ready();
    return (struct outcome){gudrenoss_permutation_sign(p.entries, p.len, &flag.value), model_permutation_sign(&p)};
}

static struct outcome call_permutation_rank(void)
{
    gudrenoss_permutation p = permutation(permutation_len());
    fresh(0);
    ready();
    return (struct outcome){gudrenoss_permutation_rank(p.entries, p.len, &value[0].value), model_permutation_rank(&p)};
}

static struct outcome call_permutation_unrank(void)
{
    uint64_t n = permutation_len(), r = below(4) == 0 ? number(24) : n < 6 ? below(130) : any() >> 3;
    if (n <= 20)
        for (uint64_t i = n; i < 20 && below(8) != 0; i++)
            r /= i + 1;
    fresh(64);
    ready();
    return (struct outcome){gudrenoss_permutation_unrank(n, r, at(&out), &value[0].value), model_permutation_unrank(n, r)};
}

static struct outcome call_permutation_successor(void)
{
    gudrenoss_permutation p = permutation(permutation_len());
    fresh(64);
    ready();
    return (struct outcome){
        gudrenoss_permutation_successor(p.entries, p.len, at(&out), &value[0].value), model_permutation_successor(&p)};
}

static struct outcome call_shape_count(void)
{
    fresh(0);
    put_radices(&left);
    ready();
    return (struct outcome){
        gudrenoss_shape_count(pass(&left), left.len, &value[0].value), model_shape_count(at(&left), left.len)};
}

static struct outcome call_shape_strides(void)
{
    fresh(room());
    put_radices(&left);
    ready();
    return (struct outcome){gudrenoss_shape_strides(pass(&left), left.len, pass(&out), out.len, &value[0].value),
        model_shape_strides(at(&left), left.len, out.len)};
}

static struct outcome call_shape_linearize(void)
{
    fresh(0);
    put_radices(&left);
    right.len = below(16) == 0 ? below(20) : left.len;
    for (size_t i = 0; i < right.len; i++)
        at(&right)[i] = i >= left.len || at(&left)[i] == 0 || below(64) == 0 ? number(6) : below(at(&left)[i]);
    ready();
    return (struct outcome){
        gudrenoss_shape_linearize(pass(&left), left.len, pass(&right), right.len, &value[0].value),
        model_shape_linearize(at(&left), left.len, at(&right), right.len)};
}

static struct outcome call_shape_delinearize(void)
{
    fresh(room());
    put_radices(&left);
    uint64_t p = product(&left), x = p == 0 || below(8) == 0 ? number(6) : below(8) == 0 ? p - 1 + below(2) : below(p);
    ready();
    return (struct outcome){gudrenoss_shape_delinearize(pass(&left), left.len, x, pass(&out), out.len, &value[0].value),
        model_shape_delinearize(at(&left), left.len, x, out.len)};
}

static struct outcome call_shape_corner(void)
{
    fresh(0);
    put_radices(&left);
    uint64_t axes = below(4) == 0 ? bits() : left.len == 0 ? below(2) : any() & (((uint64_t)1 << left.len) - 1);
    ready();
    return (struct outcome){gudrenoss_shape_corner(pass(&left), left.len, axes, &value[0].value),
        model_shape_corner(at(&left), left.len, axes)};
}

static struct outcome call_digits_count(void)
{
    uint64_t radix = number(10), degree = number(64);
    fresh(0);
    ready();
    return (struct outcome){gudrenoss_digits_count(radix, degree, &value[0].value), model_digits_count(radix, degree)};
}

static struct outcome call_digits_from_symbols(void)
{
    uint64_t radix = number(10);
    fresh(0);
    left.len = below(3) == 0 ? below(70) : below(9);
    for (size_t i = 0; i < left.len; i++)
        at(&left)[i] = radix == 0 || below(64) == 0 ? number(10) : below(radix);
    ready();
    return (struct outcome){
        gudrenoss_digits_from_symbols(radix, pass(&left), left.len, &value[0].value, &value[1].value),
        model_digits_from_symbols(radix, at(&left), left.len)};
}

static struct outcome call_digits_symbols(void)
{
    uint64_t radix, degree, rank;
    digit_word(&radix, &degree, &rank);
    fresh(room());
    ready();
    return (struct outcome){gudrenoss_digits_symbols(radix, degree, rank, pass(&out), out.len, &value[0].value),
        model_digits_symbols(radix, degree, rank, out.len)};
}

static struct outcome call_digits_symbol(void)
{
    uint64_t radix, degree, rank, p = number(64);
    digit_word(&radix, &degree, &rank);
    fresh(0);
    ready();
    return (struct outcome){
        gudrenoss_digits_symbol(radix, degree, rank, p, &value[0].value), model_digits_symbol(radix, degree, rank, p)};
}

static struct outcome call_digits_multiplicity(void)
{
    uint64_t radix, degree, rank, s = number(10);
    digit_word(&radix, &degree, &rank);
    fresh(0);
    ready();
    return (struct outcome){gudrenoss_digits_multiplicity(radix, degree, rank, s, &value[0].value),
        model_digits_multiplicity(radix, degree, rank, s)};
}

static struct outcome call_digits_stabilizer(void)
{
    uint64_t radix, degree, rank;
    digit_word(&radix, &degree, &rank);
    fresh(0);
    ready();
    return (struct outcome){
        gudrenoss_digits_stabilizer(radix, degree, rank, &value[0].value), model_digits_stabilizer(radix, degree, rank)};
}

static struct outcome call_digits_concat(void)
{
    uint64_t radix, degree, rank, other_radix, other_degree, other_rank;
    digit_word(&radix, &degree, &rank);
    do
        digit_word(&other_radix, &other_degree, &other_rank);
    while (other_radix != radix && radix < 6 && below(32) != 0);
    fresh(0);
    ready();
    return (struct outcome){gudrenoss_digits_concat(radix, degree, rank, other_radix, other_degree, other_rank,
                                &value[0].value, &value[1].value),
        model_digits_concat(radix, degree, rank, other_radix, other_degree, other_rank)};
}

static struct outcome call_digits_delete(void)
{
    uint64_t radix, degree, rank, p = number(64);
    digit_word(&radix, &degree, &rank);
    fresh(0);
    ready();
    return (struct outcome){gudrenoss_digits_delete(radix, degree, rank, p, &value[0].value, &value[1].value),
        model_digits_delete(radix, degree, rank, p)};
}

static struct outcome call_exponents_word(void)
{
    fresh(room());
    put_exponents(&left, exponents_len());
    ready();
    return (struct outcome){gudrenoss_exponents_word(pass(&left), left.len, pass(&out), out.len, &value[0].value),
        model_exponents_word(at(&left), left.len, out.len)};
}

static struct outcome call_exponents_from_word(void)
{
    uint64_t n = number(64);
    fresh(room());
    left.len = below(4) == 0 ? below(70) : below(9);
    for (size_t i = 0; i < left.len; i++)
        at(&left)[i] = n == 0 || below(64) == 0 ? number(64) : below(n);
    ready();
    return (struct outcome){
        gudrenoss_exponents_from_word(n, pass(&left), left.len, pass(&out), out.len, &value[0].value),
        model_exponents_from_word(n, at(&left), left.len, out.len)};
}

static struct outcome call_exponents_rank(void)
{
    fresh(0);
    put_exponents(&left, exponents_len());
    ready();
    return (struct outcome){
        gudrenoss_exponents_rank(pass(&left), left.len, &value[0].value), model_exponents_rank(at(&left), left.len)};
}

static struct outcome call_exponents_from_rank(void)
{
    uint64_t n = number(64), k = number(64), r = some_rank(true, n, k);
    fresh(room());
    ready();
    return (struct outcome){gudrenoss_exponents_from_rank(n, k, r, pass(&out), out.len, &value[0].value),
        model_exponents_from_rank(n, k, r, out.len)};
}

static struct outcome call_exponents_add(void)
{
    size_t len = exponents_len();
    fresh(room());
    put_exponents(&left, len);
    put_exponents(&right, below(16) == 0 ? exponents_len() : len);
    ready();
    return (struct outcome){
        gudrenoss_exponents_add(pass(&left), left.len, pass(&right), right.len, pass(&out), out.len, &value[0].value),
        model_exponents_add(at(&left), left.len, at(&right), right.len, out.len)};
}

/* A table: mostly of the count of its degree, that is at most 70; coefficients of every size, many at the edge of some multiplicity. */
static int64_t coefficient(void)
{
    int64_t m = 1 + (int64_t)below(12);
    switch (below(6)) {
    case 0: return (int64_t)any();
    case 1: return INT64_MAX / m - (m > 1 ? 1 : 2) + (int64_t)below(3);
    case 2: return INT64_MIN / m + (m > 1 ? 1 : 2) - (int64_t)below(3);
    case 3: return 0;
    default: return (int64_t)below(2001) - 1000;
    }
}

static struct outcome call_derivative(void)
{
    uint64_t n = below(8) == 0 ? number(64) : 1 + below(4), k = below(8) == 0 ? number(64) : 1 + below(5);
    uint64_t s = n == 0 || below(16) == 0 ? number(64) : below(n);
    fresh(below(4) == 0 ? room() : most);
    struct answer count = model_count(true, n, k);
    left.len = count.refusal || count.value[0] > 70 || below(16) == 0 ? below(71) : count.value[0];
    bool small = coin();
    for (size_t i = 0; i < left.len; i++)
        at(&left)[i] = small ? below(2001) - 1000 : (uint64_t)coefficient();
    ready();
    return (struct outcome){gudrenoss_derivative(n, k, s, (const int64_t *)pass(&left), left.len, (int64_t *)pass(&out), out.len,
                                &value[0].value),
        model_derivative(n, k, s, (const int64_t *)at(&left), left.len, out.len)};
}

static struct outcome call_lex_rank(void)
{
    bool allowed = coin();
    fresh(0);
    put_word(&left, allowed);
    uint64_t n = alphabet_for(&left, allowed);
    ready();
    return (struct outcome){gudrenoss_lex_rank(allowed, n, pass(&left), left.len, &value[0].value),
        model_lex_rank(allowed, n, at(&left), left.len)};
}

static struct outcome call_lex_unrank(void)
{
    bool allowed = coin();
    uint64_t n = number(64), k = number(64), r = some_rank(allowed, n, k);
    fresh(room());
    ready();
    return (struct outcome){gudrenoss_lex_unrank(allowed, n, k, r, pass(&out), out.len, &value[0].value),
        model_lex_unrank(allowed, n, k, r, out.len)};
}

static struct outcome call_lex_successor(void)
{
    bool allowed = coin();
    fresh(room());
    put_word(&left, allowed);
    uint64_t n = alphabet_for(&left, allowed);
    ready();
    return (struct outcome){
        gudrenoss_lex_successor(allowed, n, pass(&left), left.len, pass(&out), out.len, &value[0].value),
        model_lex_successor(allowed, n, at(&left), left.len, out.len)};
}

/* A conversion of a body of at most 64 entries, mostly with the right lengths in bytes. */
static struct outcome converted(bool back)
{
    bool allowed = coin(), narrow = below(8) > 0;
    uint64_t n = narrow ? below(6) : number(64), k = narrow ? below(5) : number(64);
    struct answer count = model_count(allowed, n, k);
    size_t entries = !count.refusal && count.value[0] <= 64 ? (size_t)count.value[0] : below(65);
    size_t given = 8 * entries, lent = 8 * entries;
    if (below(8) == 0)
        given = below(8 * 65);
    if (below(8) == 0)
        lent = below(8 * 65);
    fresh((lent + 7) / 8);
    left.len = (given + 7) / 8;
    ready();
    const uint8_t *from = (const uint8_t *)pass(&left);
    uint8_t *to = (uint8_t *)pass(&out);
    gudrenoss_refusal refusal = back ? gudrenoss_lex_from_colex(allowed, n, k, from, given, to, lent, &value[0].value)
                                     : gudrenoss_lex_to_colex(allowed, n, k, from, given, to, lent, &value[0].value);
    return (struct outcome){refusal, model_lex_converted(back, allowed, n, k, at(&left), given, lent)};
}

static struct outcome call_lex_to_colex(void)
{
    return converted(false);
}

static struct outcome call_lex_from_colex(void)
{
    return converted(true);
}

/* ---- Images ----------------------------------------------------------------------------------------------------------------- */

enum { image_most = 66000 };

/* Bytes that are lent, between guards that are any bytes, and a copy of all of it as it was before the call. */
struct bytes {
    uint8_t place[guard + image_most + guard], before[guard + image_most + guard];
    size_t len;
};

static struct bytes image, part, filled;

static uint8_t *bytes_at(struct bytes *b)
{
    return b->place + guard;
}

static uint8_t *pass_bytes(struct bytes *b)
{
    return b->len == 0 && coin() ? NULL : bytes_at(b);
}

static void put_number(uint8_t *place, uint64_t n, size_t size)
{
    for (size_t i = 0; i < size; i++)
        place[i] = (uint8_t)(n >> 8 * i);
}

/* One row more of a good image, if a table that was drawn fits: its degree was not drawn before in this family. */
static bool put_row(size_t i, bool seen[2][65], uint64_t *end)
{
    bool allowed = coin();
    uint64_t k = below(4) ? below(5) : below(65), n = below(4) ? below(6) : alphabet(allowed, 0, k);
    struct answer words = model_count(allowed, n, k);
    if (words.refusal || words.value[0] == 0 || words.value[0] > (below(8) ? 40u : 8000u) || *end + 8 * words.value[0] > 65536 || seen[allowed][k])
        return false;
    uint8_t *row = bytes_at(&image) + 4 + 12 * i;
    seen[allowed][k] = true;
    row[0] = allowed;
    row[1] = (uint8_t)k;
    row[2] = (uint8_t)n;
    row[3] = 0;
    put_number(row + 4, *end, 4);
    put_number(row + 8, words.value[0], 4);
    *end += 8 * words.value[0];
    return true;
}

/* A good image: mostly few tables, sometimes all 64. Its bodies are what the memory held. */
static void put_image(void)
{
    bool seen[2][65] = {{false}};
    uint64_t tables = below(8) == 0 ? 1 + below(64) : 1 + below(5), end = 4 + 12 * tables;
    for (size_t i = 0; i < image_most; i += 1 + below(64))
        bytes_at(&image)[i] = (uint8_t)any();
    put_number(bytes_at(&image), tables, 4);
    for (size_t i = 0, tries = 0; i < tables && tries < 4000; tries++)
        i += put_row(i, seen, &end);
    image.len = end;
}

/* A field or byte of the image changed, the image cut or lengthened. */
static void damage(void)
{
    uint64_t tables = bytes_at(&image)[0], row = 4 + 12 * below(tables + 1);
    size_t at = below(8) ? below(4 + 12 * tables + 2) : below(image.len + 2);
    switch (below(8)) {
    case 0: image.len = below(image.len + 1); break;
    case 1: image.len += image.len < 65600 ? 1 + below(9) : 0; break;
    case 2: bytes_at(&image)[at] = (uint8_t)any(); break;
    case 3: bytes_at(&image)[at] ^= (uint8_t)(1 << below(8)); break;
    case 4: put_number(bytes_at(&image) + row + 4, number(65536), 4); break;
    case 5: put_number(bytes_at(&image) + row + 8, number(65536), 4); break;
    case 6: row += below(4); bytes_at(&image)[row] = (uint8_t)number(64); break;
    default: bytes_at(&image)[row] = bytes_at(&image)[4], bytes_at(&image)[row + 1] = bytes_at(&image)[5];
    }
}

/* An image that is good or damaged, and its state before the call. Only what lies around its length is looked at afterwards. */
static void some_image(void)
{
    put_image();
    for (uint64_t times = below(3) == 0 ? 0 : 1 + below(2); times > 0; times--)
        damage();
}

static void remember_bytes(struct bytes *b)
{
    for (size_t i = 0; i < guard + b->len + guard; i++)
        b->before[i] = b->place[i];
}

/* Whether what was lent is as it was from a place on, guards too. */
static bool kept_bytes(const struct bytes *b, size_t from)
{
    bool same = true;
    for (size_t i = 0; i < guard + b->len + guard; i++)
        same = same && ((i >= guard && i < guard + from) || b->place[i] == b->before[i]);
    return same;
}

/* A broken call is told by a refusal that there is not. */
static struct answer held(struct answer a, bool good)
{
    if (!good)
        a.refusal = 99;
    return a;
}

/* An index: mostly a word of a degree that the image has. */
static struct index term_of_image(void)
{
    const uint8_t *row = bytes_at(&image) + 4 + 12 * below(bytes_at(&image)[0] + (uint64_t)1);
    if (below(8) == 0 || row[1] > 64)
        return some_index();
    uint64_t n = below(2) ? row[2] : row[2] + below(4), r = some_rank(row[0] == 1, n, row[1]);
    struct answer a = model_unrank_over(row[0] == 1, n, row[1], r);
    return a.refusal ? some_index() : index_with(row[0] == 1, a.value[1]);
}

static struct outcome call_image_check(void)
{
    some_image();
    fresh(0);
    ready();
    remember_bytes(&image);
    gudrenoss_refusal back = gudrenoss_image_check(pass_bytes(&image), image.len, &value[0].value);
    return (struct outcome){back, held(model_image_check(bytes_at(&image), image.len), kept_bytes(&image, 0))};
}

static struct outcome call_image_row(void)
{
    some_image();
    bool allowed = coin();
    uint64_t k = below(4) ? below(6) : number(64);
    fresh(0);
    ready();
    remember_bytes(&image);
    gudrenoss_refusal back = gudrenoss_image_row(
        pass_bytes(&image), image.len, allowed, k, &value[0].value, &value[1].value, &value[2].value);
    return (struct outcome){back, held(model_image_row(bytes_at(&image), image.len, allowed, k), kept_bytes(&image, 0))};
}

static struct outcome call_image_lookup(void)
{
    some_image();
    struct index x = term_of_image();
    fresh(0);
    ready();
    remember_bytes(&image);
    gudrenoss_refusal back = gudrenoss_image_lookup(pass_bytes(&image), image.len, x.allowed, x.n, x.bits, &value[0].value);
    return (struct outcome){back, held(model_image_lookup(bytes_at(&image), image.len, x), kept_bytes(&image, 0))};
}

static struct outcome call_image_at(void)
{
    some_image();
    struct index x = term_of_image();
    const uint8_t *row = bytes_at(&image) + 4 + 12 * below(bytes_at(&image)[0] + (uint64_t)1);
    uint64_t n = below(8) ? row[2] : number(64), offset = below(4) ? row[4] + 256 * (uint64_t)row[5] : number(image.len);
    uint64_t entries = below(4) ? row[8] + 256 * (uint64_t)row[9] : number(image.len / 8);
    fresh(0);
    ready();
    remember_bytes(&image);
    gudrenoss_refusal back = gudrenoss_image_at(
        pass_bytes(&image), image.len, n, offset, entries, x.allowed, x.n, x.bits, &value[0].value);
    return (struct outcome){back, held(model_image_at(bytes_at(&image), image.len, offset, entries, x), kept_bytes(&image, 0))};
}

static struct outcome call_image_write(void)
{
    static uint8_t joined[2 * image_most];
    some_image();
    size_t split = below(4) && bytes_at(&image)[0] <= 64 ? 4 + 12 * (size_t)bytes_at(&image)[0] : below(image.len + 1);
    split = split < image.len ? split : image.len;
    part.len = image.len - split;
    for (size_t i = 0; i < part.len; i++)
        bytes_at(&part)[i] = bytes_at(&image)[split + i];
    size_t less = image.len > 0 && below(4) == 0;
    filled.len = below(4) == 0 ? below(image.len + 1) : image.len + (image.len < 65900 ? below(9) : 0) - less;
    image.len = split;
    fresh(0);
    ready();
    remember_bytes(&image), remember_bytes(&part), remember_bytes(&filled);
    gudrenoss_refusal back = gudrenoss_image_write(
        pass_bytes(&image), image.len, pass_bytes(&part), part.len, pass_bytes(&filled), filled.len, &value[0].value);
    struct answer a = model_image_write(bytes_at(&image), image.len, bytes_at(&part), part.len, joined, filled.len);
    bool good = kept_bytes(&image, 0) && kept_bytes(&part, 0) && kept_bytes(&filled, a.refusal ? 0 : a.value[0]);
    for (size_t i = 0; !a.refusal && i < a.value[0]; i++)
        good = good && bytes_at(&filled)[i] == joined[i];
    return (struct outcome){back, held(a, good)};
}

/* Feeds the image in pieces of any lengths, with the end in time, early or twice; what is told after each is held to the model. */
static struct outcome call_pieces(void)
{
    struct {
        uint64_t low;
        gudrenoss_pieces p;
        uint64_t high;
    } s = {low_guard, {{0}, 1, 2, 3}, high_guard};
    some_image();
    fresh(0);
    ready();
    remember_bytes(&image);
    gudrenoss_refusal back = gudrenoss_pieces_start(s.p.bytes, &s.p.seen, &s.p.state, &s.p.at);
    bool good = back.number == GUDRENOSS_OK && s.p.seen == 0 && s.p.state == 0 && s.p.at == 0, settled = false;
    struct answer verdict = {0};
    size_t fed = 0, longest = below(4) == 0 ? 3 : below(2) ? 224 : image_most, most_turns = 40 + below(400);
    uint64_t state = 0;
    for (size_t turn = 0; turn < most_turns; turn++) {
        size_t len = below(longest + 1) < image.len - fed ? below(longest + 1) : image.len - fed;
        bool end = (fed == image.len && below(2)) || below(200) == 0;
        len = len < image.len - fed ? len : image.len - fed;
        gudrenoss_refusal told = end ? gudrenoss_pieces_end(s.p.bytes, &s.p.seen, &s.p.state, &s.p.at)
                                     : gudrenoss_pieces_feed(s.p.bytes, &s.p.seen, &s.p.state, &s.p.at,
                                           len == 0 && coin() ? NULL : bytes_at(&image) + fed, len);
        good = good && told.number == GUDRENOSS_OK && told.at == 0;
        told = gudrenoss_pieces_verdict(s.p.state, s.p.at, &flag.value, &value[0].value);
        if (!settled) {
            fed += end ? 0 : len;
            settled = end || model_image_settled(bytes_at(&image), fed);
            verdict = settled ? model_image_check(bytes_at(&image), fed) : verdict;
            state = !settled ? 0 : verdict.refusal ? 2 : 1;
        }
        good = good && told.number == verdict.refusal && told.at == verdict.at && s.p.state == state;
        good = good && s.p.at == (state == 0 ? 0 : state == 1 ? verdict.value[0] : verdict.at);
        good = good && (state == 2 || (flag.value == (state == 0) && value[0].value == s.p.at));
        if (settled && below(4) == 0)
            break;
    }
    good = good && s.low == low_guard && s.high == high_guard && kept_bytes(&image, 0);
    value[0].value = value_before[0];
    flag.value = flag_before;
    verdict.values = 0;
    return (struct outcome){{verdict.refusal, verdict.at}, held(verdict, good)};
}

/* ---- The mass of one frame -------------------------------------------------------------------------------------------------- */

/* A double of plain size: a sign, an exponent near that of 1, and most often any digits. Numbers are drawn one at a time, in an order that C does not leave open. */
static uint64_t plain_real(uint64_t digits)
{
    uint64_t minus = below(2) << 63, exponent = (1023 - 4 + below(8)) << 52;
    return minus | exponent | digits;
}

/* A double: mostly a plain reading, sometimes one at the ends of what a double is, or any bits. */
static uint64_t real(void)
{
    const uint64_t infinite = UINT64_C(0x7ff) << 52;
    uint64_t kind = below(16), minus = below(2) << 63, digits = any() >> 12, few = below(52), exponent = below(2047) << 52;
    switch (kind) {
    case 0: return any();
    case 1: return minus | digits >> few;
    case 2: return minus | exponent;
    case 3: return minus | (infinite - few % 3);
    case 4: return minus | infinite | (few % 2 ? 0 : digits);
    case 5: return minus;
    default: return plain_real(few % 4 ? digits : 0);
    }
}

/* A surface: Allowed tables over 2 of any degrees, in any order; their entries are mostly finite. */
static void put_surface(void)
{
    uint64_t degrees[64], most_degree = below(16) == 0 ? 64 : below(4) == 0 ? 12 : 6, most_tables = below(4) ? most_degree : 3;
    uint64_t tables = 1 + below(most_tables), end = 4 + 12 * tables;
    bool wild = below(8) == 0;
    for (uint64_t k = 0; k < 64; k++)
        degrees[k] = k;
    shuffle(degrees, (size_t)most_degree);
    for (size_t i = 0; i < tables; i++) {
        uint8_t *row = bytes_at(&image) + 4 + 12 * i;
        put_number(row, 1 + 256 * degrees[i] + 2 * 65536, 4);
        put_number(row + 4, end, 4);
        put_number(row + 8, degrees[i] + 1, 4);
        for (uint64_t r = 0; r <= degrees[i]; r++, end += 8)
            put_number(bytes_at(&image) + end, wild ? real() : plain_real(any() >> 12), 8);
    }
    put_number(bytes_at(&image), tables, 4);
    image.len = (size_t)end;
}

/* A double between guards. */
struct real_place {
    uint64_t low;
    double value;
    uint64_t high;
};

/* The bits of what such a place holds, or 1 more than they should be if a guard has changed. A NaN where one is wanted is that one. */
static uint64_t real_bits(const struct real_place *p, uint64_t wanted)
{
    uint64_t held_bits = model_bits(p->value), infinite = UINT64_C(0x7ff) << 52, no_sign = UINT64_MAX >> 1;
    bool both = (held_bits & no_sign) > infinite && (wanted & no_sign) > infinite;
    return p->low != low_guard || p->high != high_guard ? wanted + 1 : both ? wanted : held_bits;
}

/* What a function on a frame gave back, where it names the frame that the model names. */
static struct outcome framed(gudrenoss_frame_refusal back, struct answer a, bool good)
{
    return (struct outcome){{back.number, back.at}, held(a, good && back.frame == a.frame)};
}

static void some_frames(uint64_t frames[2])
{
    frames[0] = below(4) ? below(1000) : number(64);
    frames[1] = below(12) ? frames[0] : below(2) ? frames[0] ^ 1 : number(64);
}

static struct outcome call_join(void)
{
    uint64_t frames[2], p = real(), t = real();
    some_frames(frames);
    fresh(0);
    struct real_place first = {low_guard, model_double(value[1].value), high_guard}, second = {low_guard, model_double(value[2].value), high_guard};
    ready();
    gudrenoss_frame_refusal back = gudrenoss_join(frames[0], model_double(p), frames[1], model_double(t), &value[0].value, &first.value, &second.value);
    struct answer a = model_join(frames[0], model_double(p), frames[1], model_double(t));
    value[1].value = real_bits(&first, a.refusal ? value_before[1] : a.value[1]);
    value[2].value = real_bits(&second, a.refusal ? value_before[2] : a.value[2]);
    return framed(back, a, true);
}

static struct outcome call_mass(void)
{
    uint64_t frames[2], p = real(), t = real();
    some_frames(frames);
    if (below(24))
        put_surface();
    else
        put_image();
    if (below(12) == 0)
        damage();
    fresh(0);
    struct real_place mass = {low_guard, model_double(value[0].value), high_guard};
    ready();
    remember_bytes(&image);
    gudrenoss_frame_refusal back = gudrenoss_mass(pass_bytes(&image), image.len, frames[0], model_double(p), frames[1], model_double(t), &mass.value);
    struct answer a = model_mass(bytes_at(&image), image.len, frames[0], model_double(p), frames[1], model_double(t));
    value[0].value = real_bits(&mass, a.refusal ? value_before[0] : a.value[0]);
    return framed(back, a, kept_bytes(&image, 0));
}

/* ---- Wide indices ----------------------------------------------------------------------------------------------------------- */

/* A wide index: any halves, one half empty or full, or a few bits on both sides of the seam. */
static struct wide_index some_wide(bool allowed)
{
    struct wide_index x = {allowed, bits(), 0};
    x.high = bits();
    switch (below(8)) {
    case 0: x.high = 0; break;
    case 1: x.low = 0; break;
    case 2: x.low &= UINT64_MAX << (56 + below(8)), x.high &= UINT64_MAX >> (56 + below(8)); break;
    case 3: x.low = UINT64_MAX << below(64), x.high = UINT64_MAX >> below(64); break;
    case 4: x.low &= any() & any() & any(), x.high &= any() & any() & any(); break;
    case 5: x.high = UINT64_MAX << below(64), x.low = below(2) ? 0 : x.low; break;
    }
    return x;
}

/* A wide index of few symbols, drawn one by one. */
static struct wide_index few_wide(bool allowed)
{
    struct wide_index x = {allowed, 0, 0};
    for (uint64_t k = below(16); k > 0; k--) {
        uint64_t *half = coin() ? &x.low : &x.high;
        *half |= (uint64_t)1 << below(64);
    }
    return x;
}

static struct wide_index wide_index(void)
{
    bool allowed = coin();
    return coin() ? some_wide(allowed) : few_wide(allowed);
}

/* A degree whose words all have a rank, or any. */
static uint64_t wide_degree(void)
{
    switch (below(6)) {
    case 0: return number(128);
    case 1: return 110 + below(20);
    case 2: return below(129);
    case 3: return 13 + below(5);
    default: return below(16);
    }
}

/* An alphabet for a degree: often the widest whose words are fewer than 2^64, or one more. */
static uint64_t wide_alphabet(bool allowed, uint64_t k)
{
    uint64_t widest = k <= 128 ? 128 : below(129);
    if (k <= 128 && coin())
        while (widest > k && model_wide_count(false, widest, k).refusal)
            widest--;
    uint64_t n = allowed && 0 < k && k <= widest ? widest + 1 - k : widest;
    switch (below(6)) {
    case 0: return number(128);
    case 1: return n + below(2);
    case 2: return below(n + 1);
    case 3: return n - below(2);
    default: return n;
    }
}

/* A rank that is often below the count. */
static uint64_t wide_rank(bool allowed, uint64_t n, uint64_t k)
{
    struct answer a = model_wide_count(allowed, n, k);
    return a.refusal || a.value[0] == 0 || below(8) == 0 ? number(64) : below(8) == 0 ? a.value[0] - below(2) : below(a.value[0]);
}

/* A word of a wide index, or that with one symbol changed, or one that is longer. */
static void put_wide_word(struct list *l, bool allowed)
{
    struct wide_index x = coin() ? some_wide(allowed) : few_wide(allowed);
    l->len = 0;
    for (uint64_t b = 0; b < 128; b++)
        if ((b < 64 ? x.low >> b : x.high >> (b - 64)) & 1) {
            at(l)[l->len] = allowed ? b - l->len : b;
            l->len++;
        }
    if (below(32) == 0)
        for (uint64_t longer = below(12); longer > 0; longer--, l->len++)
            at(l)[l->len] = 128 + below(3);
    if (l->len > 0 && below(4) == 0) {
        uint64_t p = below(l->len);
        at(l)[p] = number(128);
    }
    if (l->len > 0 && below(8) == 0)
        at(l)[l->len - 1] += below(4);
}

static struct outcome call_wide_count(void)
{
    bool allowed = coin();
    uint64_t k = wide_degree(), n = wide_alphabet(allowed, k);
    fresh(0);
    ready();
    return (struct outcome){gudrenoss_wide_count(allowed, n, k, &value[0].value), model_wide_count(allowed, n, k)};
}

static struct outcome call_wide_rank(void)
{
    bool allowed = coin();
    fresh(0);
    put_wide_word(&left, allowed);
    ready();
    return (struct outcome){
        gudrenoss_wide_rank(allowed, pass(&left), left.len, &value[0].value), model_wide_rank(allowed, at(&left), left.len)};
}

static struct outcome call_wide_rank_of(void)
{
    struct wide_index x = wide_index();
    fresh(0);
    ready();
    return (struct outcome){gudrenoss_wide_rank_of(x.allowed, x.low, x.high, &value[0].value), model_wide_rank_of(x)};
}

static struct outcome call_wide_unrank(void)
{
    bool allowed = coin();
    uint64_t k = wide_degree(), n = wide_alphabet(allowed, k), r = wide_rank(allowed, n, k);
    fresh(below(4) == 0 ? room() : most);
    ready();
    return (struct outcome){gudrenoss_wide_unrank(allowed, n, k, r, pass(&out), out.len, &value[0].value),
        model_wide_unrank(allowed, n, k, r, out.len)};
}

static struct outcome call_wide_unrank_over(void)
{
    bool allowed = coin();
    uint64_t k = wide_degree(), n = wide_alphabet(allowed, k), r = wide_rank(allowed, n, k);
    fresh(0);
    ready();
    return (struct outcome){gudrenoss_wide_unrank_over(allowed, n, k, r, &value[0].value, &value[1].value),
        model_wide_unrank_over(allowed, n, k, r)};
}

static struct outcome call_wide_unrank_any(void)
{
    bool allowed = coin();
    uint64_t k = wide_degree(), r = wide_rank(false, 128, k);
    fresh(0);
    ready();
    return (struct outcome){gudrenoss_wide_unrank_any(allowed, k, r, &value[0].value, &value[1].value),
        model_wide_unrank_any(allowed, k, r)};
}

static struct outcome call_wide_successor(void)
{
    struct wide_index x = wide_index();
    fresh(0);
    ready();
    return (struct outcome){gudrenoss_wide_successor(x.allowed, x.low, x.high, &value[0].value, &value[1].value),
        model_wide_successor(x)};
}

static struct outcome call_wide_merge(void)
{
    struct wide_index x = wide_index(), y = coin() ? few_wide(x.allowed) : some_wide(x.allowed);
    if (below(2)) {
        y.low &= ~x.low;
        y.high &= ~x.high;
    }
    if (below(16) == 0)
        y.allowed = !y.allowed;
    fresh(0);
    ready();
    return (struct outcome){gudrenoss_wide_merge(x.allowed, x.low, x.high, y.allowed, y.low, y.high, &flag.value, &value[0].value,
                                &value[1].value), model_wide_merge(x, y)};
}

static struct outcome call_wide_delete(void)
{
    struct wide_index x = wide_index();
    uint64_t p = below(3) == 0 ? number(128) : below(2) ? below(10) : below(129);
    fresh(0);
    ready();
    return (struct outcome){gudrenoss_wide_delete(x.allowed, x.low, x.high, p, &flag.value, &value[0].value, &value[1].value,
                                &value[2].value), model_wide_delete(x, p)};
}

/* ---- The run ---------------------------------------------------------------------------------------------------------------- */

struct target {
    const char *name;
    uint64_t given[15], broken; /* how often each refusal was given, 0 for an answer */
};

/* The functions, by name. None is called through a pointer, for which WebAssembly wants a table that not every engine has. */
#define TARGETS \
    TARGET(version) \
    TARGET(count) TARGET(pack) TARGET(unpack) TARGET(degree) TARGET(symbol) TARGET(rank) TARGET(rank_of) TARGET(rank_all) \
    TARGET(unrank) TARGET(unrank_over) TARGET(unrank_any) TARGET(successor) TARGET(walk_start) TARGET(walk_step) \
    TARGET(canonicalise) TARGET(merge) TARGET(delete) TARGET(complement) TARGET(stabilizer) \
    TARGET(set_insert) TARGET(set_contains) TARGET(set_position) TARGET(set_select) \
    TARGET(permutation_image) TARGET(permutation_inverse) TARGET(permutation_compose) TARGET(permutation_sign) \
    TARGET(permutation_rank) TARGET(permutation_unrank) TARGET(permutation_successor) \
    TARGET(shape_count) TARGET(shape_strides) TARGET(shape_linearize) TARGET(shape_delinearize) TARGET(shape_corner) \
    TARGET(digits_count) TARGET(digits_from_symbols) TARGET(digits_symbols) TARGET(digits_symbol) \
    TARGET(digits_multiplicity) TARGET(digits_stabilizer) TARGET(digits_concat) TARGET(digits_delete) \
    TARGET(exponents_word) TARGET(exponents_from_word) TARGET(exponents_rank) TARGET(exponents_from_rank) \
    TARGET(exponents_add) \
    TARGET(derivative) \
    TARGET(lex_rank) TARGET(lex_unrank) TARGET(lex_successor) TARGET(lex_to_colex) TARGET(lex_from_colex) \
    TARGET(wide_count) TARGET(wide_rank) TARGET(wide_rank_of) TARGET(wide_unrank) TARGET(wide_unrank_over) \
    TARGET(wide_unrank_any) TARGET(wide_successor) TARGET(wide_merge) TARGET(wide_delete) \
    TARGET(image_check) TARGET(image_row) TARGET(image_lookup) TARGET(image_at) TARGET(image_write) TARGET(pieces) \
    TARGET(join) TARGET(mass)

#define TARGET(name) {#name, {0}, 0},
static struct target targets[] = {TARGETS};
#undef TARGET

static struct outcome call(const struct target *t)
{
    const struct target *next = targets;
#define TARGET(name) if (t == next++) return call_##name();
    TARGETS
#undef TARGET
    return (struct outcome){{0, 0}, {.refusal = 99}};
}

/* The decimal number in text, or 0 where it is none. */
static uint64_t parse(const char *text)
{
    uint64_t n = 0;
    for (; *text >= '0' && *text <= '9'; text++)
        n = 10 * n + (uint64_t)(*text - '0');
    return *text == '\0' ? n : 0;
}

static void print_grouped(uint64_t n)
{
    if (n >= 1000) {
        print_grouped(n / 1000);
        printf(",%03u", (unsigned)(n % 1000));
    } else {
        printf("%u", (unsigned)n);
    }
}

/* All that the calls gave, in one number. */
static uint64_t digest = UINT64_C(0xcbf29ce484222325);

static void told(uint64_t n)
{
    digest = (digest ^ n) * UINT64_C(0x100000001b3);
    digest ^= digest >> 32;
}

static void tell(gudrenoss_refusal refusal)
{
    told(refusal.number);
    told(refusal.at);
    told(flag.value);
    for (size_t i = 0; i < values; i++)
        told(value[i].value);
    for (size_t i = 0; i < most; i++)
        told(at(&out)[i]);
}

/* One call, from a seed of its own, so that a broken one can be made again. */
static void run(struct target *t, uint64_t seed)
{
    state = seed;
    struct outcome o = call(t);
    tell(o.refusal);
    if (agrees(o.refusal, &o.model)) {
        t->given[o.refusal.number]++;
    } else if (t->broken++ == 0) {
        printf("%s: broken at seed %llu: refusal %llu at %llu, the model's %llu at %llu\n", t->name, (unsigned long long)seed,
            (unsigned long long)o.refusal.number, (unsigned long long)o.refusal.at, (unsigned long long)o.model.refusal,
            (unsigned long long)o.model.at);
    }
}

/* The line of a function: its calls, its answers, its refusals, and how many of each number these were. */
static void print_target(const struct target *t)
{
    uint64_t refusals = 0;
    for (int i = 1; i <= 14; i++)
        refusals += t->given[i];
    printf("%-22s %9llu calls %9llu answers %9llu refusals ", t->name,
        (unsigned long long)(t->given[0] + refusals + t->broken), (unsigned long long)t->given[0],
        (unsigned long long)refusals);
    for (int i = 1; i <= 14; i++)
        if (t->given[i] > 0)
            printf(" %d: %llu", i, (unsigned long long)t->given[i]);
    printf("\n");
}

/* The place of the function with that name, or one past the last. */
static size_t called(const char *name)
{
    size_t i = 0;
    while (i < sizeof targets / sizeof *targets && strcmp(targets[i].name, name) != 0)
        i++;
    return i;
}

int main(int argc, char **argv)
{
    uint64_t calls = argc > 1 ? parse(argv[1]) : 100000, seed = argc > 2 ? parse(argv[2]) : 1, broken = 0;
    const size_t all = sizeof targets / sizeof *targets, first = argc > 3 ? called(argv[3]) : 0, many = argc > 3 ? 1 : all;
    if (argc > 4 || calls == 0 || first == all) {
        printf("usage: fuzz CALLS [SEED [NAME]]\n");
        return 2;
    }
    for (uint64_t i = 0; i < calls; i++) {
        state = seed + i;
        run(&targets[first + i % many], any());
    }
    for (size_t i = first; i < first + many; i++) {
        print_target(&targets[i]);
        broken += targets[i].broken;
    }
    printf("digest %08x%08x\n", (unsigned)(digest >> 32), (unsigned)digest);
    print_grouped(calls);
    printf(" calls, ");
    print_grouped(broken);
    printf(" broken\n");
    return broken > 0;
}
