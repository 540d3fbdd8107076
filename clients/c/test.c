/* Every function of gudrenoss.h with good and bad input. Each result place, each buffer and each list that is read stands between
 * guards; after every call all of them are looked at: what is not the answer must be as it was. The last line is
 * 'N checks, 0 failed', and the exit status then 0. */
#include <gudrenoss.h>

#include <stdio.h>
#include <string.h>

enum { guard = 2, most = 140, numbers = 5 };

/* A list between guards. */
struct list {
    uint64_t low[guard], place[most], high[guard];
};

/* A number and a guard after it. */
struct number {
    uint64_t is, guard;
};

/* The places that are lent: five numbers, a truth value, a buffer that is filled, two lists that are read. */
static struct {
    uint64_t first_guard;
    struct number number[numbers];
    bool flag;
    uint64_t last_guard;
    struct list out, in[2];
} lent, before;

static int ins, checks, failed;

#define X (&lent.number[0].is)
#define Y (&lent.number[1].is)
#define Z (&lent.number[2].is)
#define V (&lent.number[3].is)
#define W (&lent.number[4].is)
#define FLAG (&lent.flag)
#define OUT(room) lent.out.place, room
#define COUNT(...) (sizeof((uint64_t[]){__VA_ARGS__}) / sizeof(uint64_t))
#define LIST(...) (const uint64_t[]){__VA_ARGS__}, COUNT(__VA_ARGS__)
#define IN(...) lend(LIST(__VA_ARGS__)), COUNT(__VA_ARGS__)
#define EMPTY lent.in[0].place, 0
#define P(...) permutation(LIST(__VA_ARGS__)), COUNT(__VA_ARGS__)
#define TABLE(...) (const int64_t *)IN(__VA_ARGS__)
#define ENTRIES_OUT(room) (int64_t *)lent.out.place, room
#define RISING(len) rising_entries(len), len
#define ENTRIES lent.out.place, X

static const uint64_t top = UINT64_MAX, high_bit = (uint64_t)1 << 63, big = (uint64_t)1 << 40;

/* ---- Looking ---------------------------------------------------------------------------------------------------------------- */

static void fill(struct list *l, uint64_t seed)
{
    uint64_t *all[] = {l->low, l->place, l->high};
    const size_t len[] = {guard, most, guard};
    for (size_t part = 0; part < 3; part++)
        for (size_t i = 0; i < len[part]; i++)
            all[part][i] = seed = seed * 6364136223846793005u + 1442695040888963407u;
}

/* Every place new, and no list lent. */
static void fresh(void)
{
    static uint64_t seed = 1;
    struct list *lists[] = {&lent.out, &lent.in[0], &lent.in[1]};
    for (size_t i = 0; i < sizeof lists / sizeof *lists; i++)
        fill(lists[i], ++seed);
    for (size_t i = 0; i < numbers; i++) {
        lent.number[i].is = ++seed * 0x9e3779b97f4a7c15u;
        lent.number[i].guard = ++seed * 0x9e3779b97f4a7c15u;
    }
    lent.first_guard = ++seed * 0x9e3779b97f4a7c15u;
    lent.last_guard = ++seed * 0x9e3779b97f4a7c15u;
    lent.flag = seed % 2;
    before = lent;
    ins = 0;
}

/* Copies a list to the next place of lists that are read. */
static const uint64_t *lend(const uint64_t *list, size_t len)
{
    uint64_t *place = lent.in[ins].place;
    for (size_t i = 0; i < len; i++)
        before.in[ins].place[i] = place[i] = list[i];
    ins++;
    return place;
}

static void check(int line, bool holds, const char *what)
{
    checks++;
    if (!holds) {
        failed++;
        printf("line %d: %s\n", line, what);
    }
}

static bool same_list(const struct list *a, const struct list *b)
{
    bool same = a->low[0] == b->low[0] && a->low[1] == b->low[1] && a->high[0] == b->high[0] && a->high[1] == b->high[1];
    for (size_t i = 0; i < most; i++)
        same = same && a->place[i] == b->place[i];
    return same;
}

static bool same_numbers(void)
{
    bool same = true;
    for (size_t i = 0; i < numbers; i++)
        same = same && lent.number[i].is == before.number[i].is;
    return same;
}

static bool same_guards(void)
{
    bool same = lent.first_guard == before.first_guard && lent.last_guard == before.last_guard;
    for (size_t i = 0; i < numbers; i++)
        same = same && lent.number[i].guard == before.number[i].guard;
    return same;
}

/* The places are as `before` says, which has by now the answer in it. */
static void look(int line, gudrenoss_refusal back, uint64_t number, uint64_t at)
{
    check(line, back.number == number, "the refusal's number");
    check(line, back.at == at, "the refusal's place");
    check(line, same_numbers(), "a number");
    check(line, lent.flag == before.flag, "a truth value");
    check(line, same_guards(), "a guard of a number");
    check(line, same_list(&lent.out, &before.out), "the buffer");
    check(line, same_list(&lent.in[0], &before.in[0]) && same_list(&lent.in[1], &before.in[1]), "a list that is read");
    fresh();
}

static void looks_refused(int line, gudrenoss_refusal back, enum gudrenoss_number number)
{
    look(line, back, number, 0);
}

/* The word breaks its rule at a position. */
static void looks_broken(int line, gudrenoss_refusal back, uint64_t at)
{
    look(line, back, GUDRENOSS_NOT_MONOTONE, at);
}

static void looks_number(int line, gudrenoss_refusal back, uint64_t x)
{
    before.number[0].is = x;
    look(line, back, GUDRENOSS_OK, 0);
}

static void looks_two(int line, gudrenoss_refusal back, uint64_t x, uint64_t y)
{
    before.number[1].is = y;
    looks_number(line, back, x);
}

/* A refusal that tells a position. */
static void looks_refused_at(int line, gudrenoss_refusal back, uint64_t number, uint64_t at)
{
    look(line, back, number, at);
}

static void looks_flag(int line, gudrenoss_refusal back, bool flag)
{
    before.flag = flag;
    look(line, back, GUDRENOSS_OK, 0);
}

static void looks_flag_two(int line, gudrenoss_refusal back, bool flag, uint64_t x, uint64_t y)
{
    before.flag = flag;
    looks_two(line, back, x, y);
}

static void looks_flag_three(int line, gudrenoss_refusal back, bool flag, uint64_t x, uint64_t y, uint64_t z)
{
    before.number[2].is = z;
    looks_flag_two(line, back, flag, x, y);
}

static void put(const uint64_t *list, size_t len)
{
    for (size_t i = 0; i < len; i++)
        before.out.place[i] = list[i];
}

static void looks_list(int line, gudrenoss_refusal back, const uint64_t *list, size_t len)
{
    put(list, len);
    looks_number(line, back, len);
}

/* All entries of a permutation, those listed and then zeros, and its length. */
static void looks_entries(int line, gudrenoss_refusal back, const uint64_t *list, size_t len)
{
    const uint64_t zeros[64] = {0};
    put(zeros, 64);
    put(list, len);
    looks_number(line, back, len);
}

#define refused(back, number) looks_refused(__LINE__, back, GUDRENOSS_##number)
#define breaks(back, at) looks_broken(__LINE__, back, at)
#define refused_at(back, number, at) looks_refused_at(__LINE__, back, GUDRENOSS_##number, at)
#define number(back, x) looks_number(__LINE__, back, x)
#define two(back, x, y) looks_two(__LINE__, back, x, y)
#define flag(back, f) looks_flag(__LINE__, back, f)
#define flag_and_two(back, f, x, y) looks_flag_two(__LINE__, back, f, x, y)
#define flag_and_three(back, f, x, y, z) looks_flag_three(__LINE__, back, f, x, y, z)
#define list(back, ...) looks_list(__LINE__, back, LIST(__VA_ARGS__))
#define nothing(back) looks_list(__LINE__, back, NULL, 0)
#define entries(back, ...) looks_entries(__LINE__, back, LIST(__VA_ARGS__))
#define no_entries(back) looks_entries(__LINE__, back, NULL, 0)

/* Copies the entries of a permutation to the next place of lists that are read, with zeros past its length. */
static const uint64_t *permutation(const uint64_t *list, size_t len)
{
    uint64_t all[64];
    for (size_t i = 0; i < 64; i++)
        all[i] = i < len ? list[i] : 0;
    return lend(all, 64);
}

/* The entries 0, 1, 2, .. up to the length, then zeros. */
static const uint64_t *rising_entries(uint64_t len)
{
    uint64_t all[64];
    for (size_t i = 0; i < 64; i++)
        all[i] = i < len ? i : 0;
    return lend(all, 64);
}

/* 0, 1, 2, .. or the same number again and again, as many as there is place for. */
static const uint64_t *rising(void)
{
    static uint64_t all[most];
    for (size_t i = 0; i < most; i++)
        all[i] = i;
    return all;
}

static const uint64_t *same(uint64_t s)
{
    static uint64_t all[most];
    for (size_t i = 0; i < most; i++)
        all[i] = s;
    return all;
}

/* 0, 1, 2, .. with position 63 no higher than the one before it. */
static const uint64_t *last_falls(void)
{
    static uint64_t all[most];
    for (size_t i = 0; i < most; i++)
        all[i] = i == 63 ? 0 : i;
    return all;
}

static const bool forbidden = false, allowed = true, plus = false, minus = true;

/* ---- Version and texts ------------------------------------------------------------------------------------------------------ */

static void test_version(void)
{
    before.number[0].is = GUDRENOSS_VERSION_MAJOR;
    before.number[1].is = GUDRENOSS_VERSION_MINOR;
    before.number[2].is = GUDRENOSS_VERSION_PATCH;
    look(__LINE__, gudrenoss_version(X, Y, Z), GUDRENOSS_OK, 0);
}

static bool same_text(const char *a, const char *b)
{
    while (*a != '\0' && *a == *b)
        a++, b++;
    return *a == *b;
}

/* Every number has a text of its own, and one that no function gives has another. */
static void test_texts(void)
{
    for (uint64_t i = 0; i <= 15; i++)
        for (uint64_t j = 0; j < i; j++)
            check(__LINE__, !same_text(gudrenoss_refusal_text(i), gudrenoss_refusal_text(j)), "two numbers have one text");
    check(__LINE__, same_text(gudrenoss_refusal_text(15), gudrenoss_refusal_text(top)), "the text of no number");
    check(__LINE__, same_text(gudrenoss_refusal_text(GUDRENOSS_LAST), "there is no next word"), "the text of a number");
}

/* ---- Terms ------------------------------------------------------------------------------------------------------------------ */

static void test_count(void)
{
    number(gudrenoss_count(forbidden, 4, 2, X), 6);
    number(gudrenoss_count(allowed, 3, 2, X), 6);
    number(gudrenoss_count(forbidden, 0, 0, X), 1);
    number(gudrenoss_count(allowed, 0, 0, X), 1);
    number(gudrenoss_count(allowed, 0, 3, X), 0);
    number(gudrenoss_count(allowed, 1, 64, X), 1);
    number(gudrenoss_count(forbidden, 64, 32, X), 1832624140942590534u);
    number(gudrenoss_count(allowed, 33, 32, X), 1832624140942590534u);
    number(gudrenoss_count(forbidden, 3, 64, X), 0);
    refused(gudrenoss_count(allowed, 1, 65, X), TOO_WIDE);
    refused(gudrenoss_count(forbidden, 3, 65, X), TOO_WIDE);
    refused(gudrenoss_count(forbidden, 65, 0, X), TOO_WIDE);
    refused(gudrenoss_count(allowed, 65, 0, X), TOO_WIDE);
    refused(gudrenoss_count(allowed, top, 2, X), TOO_WIDE);
    refused(gudrenoss_count(forbidden, top, top, X), TOO_WIDE);
}

static void test_pack(void)
{
    two(gudrenoss_pack(allowed, 3, IN(0, 2), X, Y), 3, 9);
    two(gudrenoss_pack(allowed, 3, IN(1, 1, 2), X, Y), 3, 22);
    two(gudrenoss_pack(forbidden, 4, IN(0, 2), X, Y), 4, 5);
    two(gudrenoss_pack(forbidden, 64, IN(63), X, Y), 64, high_bit);
    two(gudrenoss_pack(allowed, 0, EMPTY, X, Y), 0, 0);
    two(gudrenoss_pack(forbidden, 64, NULL, 0, X, Y), 64, 0);
    two(gudrenoss_pack(forbidden, 64, rising(), 64, X, Y), 64, top);
    two(gudrenoss_pack(allowed, 1, same(0), 64, X, Y), 1, top);
    refused(gudrenoss_pack(allowed, 1, same(0), 65, X, Y), TOO_WIDE);
    refused(gudrenoss_pack(forbidden, 1, same(0), 65, X, Y), TOO_WIDE);
    refused(gudrenoss_pack(forbidden, 65, EMPTY, X, Y), TOO_WIDE);
    refused(gudrenoss_pack(forbidden, 65, IN(1, 1), X, Y), TOO_WIDE);
    refused(gudrenoss_pack(allowed, 64, IN(0, 0), X, Y), TOO_WIDE);
    refused(gudrenoss_pack(allowed, top, IN(0, 0), X, Y), TOO_WIDE);
    breaks(gudrenoss_pack(forbidden, 64, IN(1, 1), X, Y), 1);
    breaks(gudrenoss_pack(allowed, 3, IN(2, 1), X, Y), 1);
    breaks(gudrenoss_pack(allowed, 6, IN(3, 5, 4, 1), X, Y), 2);
    breaks(gudrenoss_pack(forbidden, 3, IN(0, 2, 2, 1), X, Y), 2);
    breaks(gudrenoss_pack(allowed, 3, IN(0, 2, 2, 1), X, Y), 3);
    breaks(gudrenoss_pack(forbidden, 1, same(0), 64, X, Y), 1);
    breaks(gudrenoss_pack(forbidden, 64, IN(64, 0), X, Y), 1);
    breaks(gudrenoss_pack(forbidden, 64, IN(70, 69), X, Y), 1);
    breaks(gudrenoss_pack(forbidden, 3, IN(9, 9), X, Y), 1);
    breaks(gudrenoss_pack(forbidden, 64, last_falls(), 64, X, Y), 63);
    breaks(gudrenoss_pack(allowed, 1, last_falls(), 64, X, Y), 63);
    refused(gudrenoss_pack(allowed, 1, last_falls(), 65, X, Y), TOO_WIDE);
    refused(gudrenoss_pack(forbidden, 64, IN(64), X, Y), TOO_WIDE);
    refused(gudrenoss_pack(forbidden, 3, IN(64), X, Y), TOO_WIDE);
    refused(gudrenoss_pack(allowed, 63, IN(0, top), X, Y), TOO_WIDE);
    refused(gudrenoss_pack(allowed, 63, IN(0, 63), X, Y), TOO_WIDE);
    refused(gudrenoss_pack(allowed, 62, IN(0, 62), X, Y), OUTSIDE);
    refused(gudrenoss_pack(forbidden, 3, IN(3), X, Y), OUTSIDE);
    refused(gudrenoss_pack(forbidden, 3, IN(63), X, Y), OUTSIDE);
    refused(gudrenoss_pack(allowed, 0, IN(0), X, Y), OUTSIDE);
}

static void test_unpack(void)
{
    list(gudrenoss_unpack(allowed, 3, 25, OUT(3), X), 0, 2, 2);
    list(gudrenoss_unpack(forbidden, 64, 25, OUT(64), X), 0, 3, 4);
    nothing(gudrenoss_unpack(allowed, 0, 0, OUT(0), X));
    nothing(gudrenoss_unpack(allowed, 64, 0, NULL, 0, X));
    list(gudrenoss_unpack(allowed, 64, high_bit, OUT(1), X), 63);
    refused(gudrenoss_unpack(allowed, 3, 25, OUT(2), X), SHAPE);
    refused(gudrenoss_unpack(forbidden, 1, 1, OUT(0), X), SHAPE);
    refused(gudrenoss_unpack(forbidden, 64, 1, NULL, 0, X), SHAPE);
    refused(gudrenoss_unpack(forbidden, 64, top, OUT(63), X), SHAPE);
    refused(gudrenoss_unpack(allowed, 2, 25, OUT(3), X), OUTSIDE);
    refused(gudrenoss_unpack(allowed, 2, 25, OUT(0), X), OUTSIDE);
    refused(gudrenoss_unpack(allowed, 63, 25, OUT(0), X), TOO_WIDE);
    refused(gudrenoss_unpack(forbidden, top, 0, NULL, 0, X), TOO_WIDE);
}

static void test_rank_all(void)
{
    list(gudrenoss_rank_all(forbidden, 4, IN(10, 3), OUT(2), X), 4, 0);
    list(gudrenoss_rank_all(allowed, 2, IN(6, 3, 0), OUT(64), X), 2, 0, 0);
    nothing(gudrenoss_rank_all(forbidden, 64, EMPTY, OUT(0), X));
    nothing(gudrenoss_rank_all(forbidden, 65, NULL, 0, NULL, 0, X));
    refused_at(gudrenoss_rank_all(forbidden, 4, IN(10, 3, 16, 32), OUT(4), X), OUTSIDE, 2);
    refused_at(gudrenoss_rank_all(allowed, 64, IN(1, 3), OUT(0), X), TOO_WIDE, 1);
    refused_at(gudrenoss_rank_all(forbidden, 65, IN(0), OUT(1), X), TOO_WIDE, 0);
    refused_at(gudrenoss_rank_all(forbidden, 4, IN(10, 3), OUT(1), X), SHAPE, 1);
}

static void test_index(void)
{
    number(gudrenoss_degree(allowed, 3, 25, X), 3);
    number(gudrenoss_degree(forbidden, 0, 0, X), 0);
    number(gudrenoss_degree(forbidden, 64, top, X), 64);
    refused(gudrenoss_degree(forbidden, 63, top, X), OUTSIDE);
    refused(gudrenoss_degree(allowed, 0, 1, X), OUTSIDE);
    refused(gudrenoss_degree(allowed, 64, 3, X), TOO_WIDE);
    refused(gudrenoss_degree(allowed, top, 3, X), TOO_WIDE);
    number(gudrenoss_symbol(allowed, 2, 6, 1, X), 1);
    number(gudrenoss_symbol(forbidden, 3, 6, 1, X), 2);
    number(gudrenoss_symbol(allowed, 1, top, 63, X), 0);
    refused(gudrenoss_symbol(allowed, 2, 6, 2, X), OUTSIDE);
    refused(gudrenoss_symbol(forbidden, 0, 0, 0, X), OUTSIDE);
    refused(gudrenoss_symbol(forbidden, 64, top, top, X), OUTSIDE);
    refused(gudrenoss_symbol(forbidden, 2, 6, 0, X), OUTSIDE);
    refused(gudrenoss_symbol(allowed, 2, top, top, X), TOO_WIDE);
    number(gudrenoss_rank_of(forbidden, 4, 10, X), 4);
    number(gudrenoss_rank_of(forbidden, 64, 10, X), 4);
    number(gudrenoss_rank_of(allowed, 2, 6, X), 2);
    number(gudrenoss_rank_of(allowed, 0, 0, X), 0);
    number(gudrenoss_rank_of(allowed, 1, top, X), 0);
    number(gudrenoss_rank_of(forbidden, 64, ~(uint64_t)0 << 32, X), 1832624140942590533u);
    refused(gudrenoss_rank_of(forbidden, 3, 10, X), OUTSIDE);
    refused(gudrenoss_rank_of(allowed, 1, 6, X), OUTSIDE);
    refused(gudrenoss_rank_of(allowed, 2, top, X), TOO_WIDE);
    refused(gudrenoss_rank_of(forbidden, 65, 0, X), TOO_WIDE);
}

static void test_successor(void)
{
    two(gudrenoss_successor(forbidden, 64, 3, X, Y), 64, 5);
    two(gudrenoss_successor(allowed, 3, 3, X, Y), 3, 5);
    two(gudrenoss_successor(allowed, 4, 12, X, Y), 4, 17);
    two(gudrenoss_successor(forbidden, 64, high_bit >> 1, X, Y), 64, high_bit);
    *X = 4; /* values that are passed may be those of the places of the result */
    *Y = 3;
    two(gudrenoss_successor(forbidden, *X, *Y, X, Y), 4, 5);
    refused(gudrenoss_successor(allowed, 3, 12, X, Y), LAST);
    refused(gudrenoss_successor(forbidden, 4, 12, X, Y), LAST);
    refused(gudrenoss_successor(forbidden, 64, high_bit, X, Y), LAST);
    refused(gudrenoss_successor(forbidden, 64, 0, X, Y), LAST);
    refused(gudrenoss_successor(allowed, 0, 0, X, Y), LAST);
    refused(gudrenoss_successor(allowed, 1, top, X, Y), LAST);
    refused(gudrenoss_successor(allowed, 33, ~(uint64_t)0 << 32, X, Y), LAST);
    refused(gudrenoss_successor(forbidden, 2, 4, X, Y), OUTSIDE);
    refused(gudrenoss_successor(allowed, 2, 12, X, Y), OUTSIDE);
    refused(gudrenoss_successor(forbidden, 65, 0, X, Y), TOO_WIDE);
}

static void test_rank(void)
{
    number(gudrenoss_rank(forbidden, IN(1, 3), X), 4);
    number(gudrenoss_rank(allowed, IN(1, 1), X), 2);
    number(gudrenoss_rank(allowed, EMPTY, X), 0);
    number(gudrenoss_rank(forbidden, NULL, 0, X), 0);
    number(gudrenoss_rank(forbidden, rising(), 64, X), 0);
    refused(gudrenoss_rank(forbidden, rising(), 65, X), TOO_WIDE);
    breaks(gudrenoss_rank(forbidden, IN(1, 1), X), 1);
    breaks(gudrenoss_rank(allowed, IN(3, 5, 4, 1), X), 2);
    breaks(gudrenoss_rank(forbidden, IN(0, 2, 2, 1), X), 2);
    breaks(gudrenoss_rank(allowed, IN(0, 2, 2, 1), X), 3);
    breaks(gudrenoss_rank(allowed, last_falls(), 64, X), 63);
    breaks(gudrenoss_rank(forbidden, IN(64, 0), X), 1);
    refused(gudrenoss_rank(forbidden, IN(64), X), TOO_WIDE);
    refused(gudrenoss_rank(allowed, IN(0, top), X), TOO_WIDE);
}

static void test_unrank(void)
{
    list(gudrenoss_unrank(allowed, 3, 2, 3, OUT(2), X), 0, 2);
    list(gudrenoss_unrank(forbidden, 4, 2, 4, OUT(70), X), 1, 3);
    nothing(gudrenoss_unrank(forbidden, 5, 0, 0, NULL, 0, X));
    refused(gudrenoss_unrank(allowed, 3, 2, 3, OUT(1), X), SHAPE);
    refused(gudrenoss_unrank(allowed, 2, 2, 3, OUT(0), X), NO_SUCH_RANK);
    refused(gudrenoss_unrank(allowed, 3, 0, 1, OUT(2), X), NO_SUCH_RANK);
    refused(gudrenoss_unrank(forbidden, 2, 3, 0, OUT(3), X), NO_SUCH_RANK);
    refused(gudrenoss_unrank(forbidden, 65, 2, 0, OUT(2), X), TOO_WIDE);
    two(gudrenoss_unrank_over(allowed, 3, 2, 3, X, Y), 3, 9);
    two(gudrenoss_unrank_over(forbidden, 7, 0, 0, X, Y), 7, 0);
    two(gudrenoss_unrank_over(allowed, 1, 64, 0, X, Y), 1, top);
    refused(gudrenoss_unrank_over(allowed, 2, 2, 3, X, Y), NO_SUCH_RANK);
    refused(gudrenoss_unrank_over(allowed, 2, 0, 1, X, Y), NO_SUCH_RANK);
    refused(gudrenoss_unrank_over(allowed, 2, 65, 0, X, Y), TOO_WIDE);
    two(gudrenoss_unrank_any(allowed, 2, 3, X, Y), 63, 9);
    two(gudrenoss_unrank_any(forbidden, 2, 3, X, Y), 64, 9);
    two(gudrenoss_unrank_any(forbidden, 1, 63, X, Y), 64, high_bit);
    two(gudrenoss_unrank_any(allowed, 64, 0, X, Y), 1, top);
    two(gudrenoss_unrank_any(allowed, 0, 0, X, Y), 64, 0);
    two(gudrenoss_unrank_any(forbidden, 32, 1832624140942590533u, X, Y), 64, ~(uint64_t)0 << 32);
    refused(gudrenoss_unrank_any(forbidden, 1, 64, X, Y), NO_SUCH_RANK);
    refused(gudrenoss_unrank_any(allowed, 0, 1, X, Y), NO_SUCH_RANK);
    refused(gudrenoss_unrank_any(allowed, 64, 1, X, Y), NO_SUCH_RANK);
    refused(gudrenoss_unrank_any(allowed, 65, 0, X, Y), TOO_WIDE);
}

/* Sets the state of a walk in the lent places. */
static void stand(bool standing, uint64_t over, uint64_t at, uint64_t remaining)
{
    before.flag = lent.flag = standing;
    before.number[0].is = lent.number[0].is = over;
    before.number[1].is = lent.number[1].is = at;
    before.number[2].is = lent.number[2].is = remaining;
}

/* A step of a walk that stands at the index of n and bits gives that index, and leads to the next bits over n. */
static void steps(int line, bool family, uint64_t n, uint64_t bits, uint64_t remaining, uint64_t next)
{
    stand(true, n, bits, remaining);
    gudrenoss_refusal back = gudrenoss_walk_step(family, FLAG, X, Y, Z, V, W);
    before.number[3].is = n;
    before.number[4].is = bits;
    looks_flag_three(line, back, true, n, next, remaining - 1);
}

/* The same where there is no next index: the walk then stands nowhere. */
static void ends(int line, bool family, uint64_t n, uint64_t bits, uint64_t remaining)
{
    stand(true, n, bits, remaining);
    gudrenoss_refusal back = gudrenoss_walk_step(family, FLAG, X, Y, Z, V, W);
    before.number[3].is = n;
    before.number[4].is = bits;
    looks_flag_three(line, back, false, 0, 0, remaining - 1);
}

static void stops(int line, bool family, bool standing, uint64_t n, uint64_t bits, uint64_t remaining, enum gudrenoss_number number)
{
    stand(standing, n, bits, remaining);
    look(line, gudrenoss_walk_step(family, FLAG, X, Y, Z, V, W), number, 0);
}

static void test_walk(void)
{
    flag_and_three(gudrenoss_walk_start(forbidden, 2, 1, FLAG, X, Y, Z), true, 2, 1, 2);
    flag_and_three(gudrenoss_walk_start(allowed, 3, 2, FLAG, X, Y, Z), true, 3, 3, 6);
    flag_and_three(gudrenoss_walk_start(allowed, 3, 0, FLAG, X, Y, Z), true, 3, 0, 1);
    flag_and_three(gudrenoss_walk_start(allowed, 0, 3, FLAG, X, Y, Z), false, 0, 0, 0);
    flag_and_three(gudrenoss_walk_start(forbidden, 2, 3, FLAG, X, Y, Z), false, 0, 0, 0);
    flag_and_three(gudrenoss_walk_start(forbidden, 64, 64, FLAG, X, Y, Z), true, 64, top, 1);
    refused(gudrenoss_walk_start(forbidden, 65, 1, FLAG, X, Y, Z), TOO_WIDE);
    refused(gudrenoss_walk_start(allowed, 2, 65, FLAG, X, Y, Z), TOO_WIDE);
    steps(__LINE__, forbidden, 2, 1, 2, 2);
    steps(__LINE__, forbidden, 3, 2, 1, 4);
    steps(__LINE__, allowed, 4, 12, top, 17);
    ends(__LINE__, forbidden, 2, 2, 1);
    ends(__LINE__, forbidden, 2, 2, 9);
    ends(__LINE__, allowed, 3, 12, top);
    ends(__LINE__, forbidden, 64, 0, 1);
    ends(__LINE__, allowed, 0, 0, 5);
    ends(__LINE__, forbidden, 64, high_bit, 7);
    stops(__LINE__, forbidden, true, 3, 4, 0, GUDRENOSS_LAST);
    stops(__LINE__, forbidden, false, 3, 0, 4, GUDRENOSS_LAST);
    stops(__LINE__, allowed, false, 65, 77, 4, GUDRENOSS_LAST);
    stops(__LINE__, allowed, false, 0, 0, 0, GUDRENOSS_LAST);
    stops(__LINE__, forbidden, true, 2, 4, 1, GUDRENOSS_OUTSIDE);
    stops(__LINE__, forbidden, true, 2, 4, 0, GUDRENOSS_OUTSIDE);
    stops(__LINE__, allowed, true, 0, 1, 3, GUDRENOSS_OUTSIDE);
    stops(__LINE__, allowed, true, 64, 3, 1, GUDRENOSS_TOO_WIDE);
    stops(__LINE__, allowed, true, top, 3, 0, GUDRENOSS_TOO_WIDE);
}

/* Each walk gives the indices of ranks 0, 1, 2, .. over its alphabet and as many as there are, and then stands nowhere. */
static void test_whole_walk(bool family, uint64_t n, uint64_t k)
{
    bool standing;
    uint64_t over, at, remaining, alphabet, bits, rank = 0, count, degree, other, other_alphabet;
    check(__LINE__, gudrenoss_walk_start(family, n, k, &standing, &over, &at, &remaining).number == GUDRENOSS_OK, "a walk starts");
    check(__LINE__, gudrenoss_count(family, n, k, &count).number == GUDRENOSS_OK && count == remaining, "a walk has the count to give");
    while (gudrenoss_walk_step(family, &standing, &over, &at, &remaining, &alphabet, &bits).number == GUDRENOSS_OK) {
        check(__LINE__, alphabet == n, "the alphabet on a walk");
        check(__LINE__, gudrenoss_degree(family, alphabet, bits, &degree).number == GUDRENOSS_OK && degree == k, "the degree on a walk");
        check(__LINE__, gudrenoss_rank_of(family, alphabet, bits, &other).number == GUDRENOSS_OK && other == rank, "the rank on a walk");
        check(__LINE__, gudrenoss_unrank_over(family, n, k, rank, &other_alphabet, &other).number == GUDRENOSS_OK && other == bits
                && other_alphabet == n, "the index of the rank");
        rank++;
    }
    check(__LINE__, rank == count, "a walk gives the count");
    check(__LINE__, !standing && over == 0 && at == 0 && remaining == 0, "a walk that is finished stands nowhere");
}

/* ---- Signed operations ------------------------------------------------------------------------------------------------------ */

static void test_canonicalise(void)
{
    flag_and_two(gudrenoss_canonicalise(forbidden, 4, IN(2, 0), FLAG, X, Y), minus, 4, 5);
    flag_and_two(gudrenoss_canonicalise(forbidden, 64, IN(2, 0, 1), FLAG, X, Y), plus, 64, 7);
    flag_and_two(gudrenoss_canonicalise(allowed, 3, IN(2, 0, 2), FLAG, X, Y), plus, 3, 25);
    flag_and_two(gudrenoss_canonicalise(allowed, 0, EMPTY, FLAG, X, Y), plus, 0, 0);
    flag_and_two(gudrenoss_canonicalise(forbidden, 64, NULL, 0, FLAG, X, Y), plus, 64, 0);
    flag_and_two(gudrenoss_canonicalise(allowed, 1, same(0), 64, FLAG, X, Y), plus, 1, top);
    refused(gudrenoss_canonicalise(allowed, 1, same(0), 65, FLAG, X, Y), TOO_WIDE);
    refused(gudrenoss_canonicalise(forbidden, 65, IN(3, 3), FLAG, X, Y), TOO_WIDE);
    refused(gudrenoss_canonicalise(allowed, 64, IN(0, 0), FLAG, X, Y), TOO_WIDE);
    refused(gudrenoss_canonicalise(allowed, top, IN(0, 0), FLAG, X, Y), TOO_WIDE);
    refused(gudrenoss_canonicalise(forbidden, 64, IN(64, 64), FLAG, X, Y), REPEATED);
    refused(gudrenoss_canonicalise(forbidden, 4, IN(3, 1, 3), FLAG, X, Y), REPEATED);
    refused(gudrenoss_canonicalise(forbidden, 3, IN(9, 9), FLAG, X, Y), REPEATED);
    refused(gudrenoss_canonicalise(forbidden, 64, IN(64, 0), FLAG, X, Y), TOO_WIDE);
    refused(gudrenoss_canonicalise(forbidden, 3, IN(64, 0), FLAG, X, Y), TOO_WIDE);
    refused(gudrenoss_canonicalise(allowed, 63, IN(63, 0), FLAG, X, Y), TOO_WIDE);
    refused(gudrenoss_canonicalise(allowed, 62, IN(62, 0), FLAG, X, Y), OUTSIDE);
    refused(gudrenoss_canonicalise(forbidden, 3, IN(3, 0), FLAG, X, Y), OUTSIDE);
}

static void test_merge(void)
{
    flag_and_two(gudrenoss_merge(forbidden, 2, 2, forbidden, 2, 1, FLAG, X, Y), minus, 2, 3);
    flag_and_two(gudrenoss_merge(forbidden, 3, 1, forbidden, 5, 2, FLAG, X, Y), plus, 5, 3);
    flag_and_two(gudrenoss_merge(forbidden, 5, 1, forbidden, 3, 2, FLAG, X, Y), plus, 5, 3);
    flag_and_two(gudrenoss_merge(allowed, 3, 9, allowed, 3, 4, FLAG, X, Y), plus, 3, 25);
    flag_and_two(gudrenoss_merge(allowed, 64, high_bit, allowed, 0, 0, FLAG, X, Y), plus, 64, high_bit);
    flag_and_two(gudrenoss_merge(allowed, 63, 1, allowed, 1, 1, FLAG, X, Y), plus, 63, 3);
    refused(gudrenoss_merge(allowed, 64, 1, allowed, 1, 1, FLAG, X, Y), TOO_WIDE);
    refused(gudrenoss_merge(allowed, 64, high_bit, allowed, 64, 1, FLAG, X, Y), TOO_WIDE);
    refused(gudrenoss_merge(allowed, 64, 0, allowed, 1, 3, FLAG, X, Y), TOO_WIDE);
    refused(gudrenoss_merge(allowed, 1, top, allowed, 1, top, FLAG, X, Y), TOO_WIDE);
    refused(gudrenoss_merge(forbidden, 3, 3, forbidden, 3, 6, FLAG, X, Y), REPEATED);
    refused(gudrenoss_merge(forbidden, 0, 0, allowed, 0, 0, FLAG, X, Y), FAMILY);
    refused(gudrenoss_merge(allowed, 64, 1, forbidden, 64, 3, FLAG, X, Y), FAMILY);
    refused(gudrenoss_merge(forbidden, 2, 4, allowed, 1, 1, FLAG, X, Y), OUTSIDE);
    refused(gudrenoss_merge(allowed, 1, 1, forbidden, 2, 4, FLAG, X, Y), OUTSIDE);
    refused(gudrenoss_merge(forbidden, 2, 4, allowed, 64, 3, FLAG, X, Y), TOO_WIDE);
    refused(gudrenoss_merge(allowed, 64, 3, forbidden, 2, 4, FLAG, X, Y), TOO_WIDE);
    refused(gudrenoss_merge(forbidden, 65, 1, forbidden, 3, 1, FLAG, X, Y), TOO_WIDE);
    refused(gudrenoss_merge(forbidden, 3, 1, forbidden, top, 1, FLAG, X, Y), TOO_WIDE);
}

static void test_delete(void)
{
    flag_and_three(gudrenoss_delete(allowed, 3, 22, 1, FLAG, X, Y, Z), plus, 1, 3, 10);
    flag_and_three(gudrenoss_delete(forbidden, 64, 5 | high_bit, 2, FLAG, X, Y, Z), plus, 63, 64, 5);
    flag_and_three(gudrenoss_delete(forbidden, 5, 22, 1, FLAG, X, Y, Z), minus, 2, 5, 18);
    flag_and_three(gudrenoss_delete(allowed, 64, high_bit, 0, FLAG, X, Y, Z), plus, 63, 64, 0);
    flag_and_three(gudrenoss_delete(allowed, 63, high_bit | high_bit >> 1, 0, FLAG, X, Y, Z), plus, 62, 63, high_bit >> 1);
    flag_and_three(gudrenoss_delete(allowed, 63, high_bit | high_bit >> 1, 1, FLAG, X, Y, Z), plus, 62, 63, high_bit >> 1);
    flag_and_three(gudrenoss_delete(forbidden, 64, high_bit, 0, FLAG, X, Y, Z), plus, 63, 64, 0);
    refused(gudrenoss_delete(forbidden, 5, 22, 3, FLAG, X, Y, Z), OUTSIDE);
    refused(gudrenoss_delete(allowed, 0, 0, 0, FLAG, X, Y, Z), OUTSIDE);
    refused(gudrenoss_delete(allowed, 1, top, 64, FLAG, X, Y, Z), OUTSIDE);
    refused(gudrenoss_delete(forbidden, 4, 22, 0, FLAG, X, Y, Z), OUTSIDE);
    refused(gudrenoss_delete(allowed, 64, high_bit | high_bit >> 1, 0, FLAG, X, Y, Z), TOO_WIDE);
    refused(gudrenoss_delete(forbidden, 65, 22, 9, FLAG, X, Y, Z), TOO_WIDE);
}

static void test_complement(void)
{
    flag_and_two(gudrenoss_complement(forbidden, 64, 5, 4, FLAG, X, Y), minus, 4, 10);
    flag_and_two(gudrenoss_complement(forbidden, 3, 5, 4, FLAG, X, Y), minus, 4, 10);
    flag_and_two(gudrenoss_complement(forbidden, 64, top, 64, FLAG, X, Y), plus, 64, 0);
    flag_and_two(gudrenoss_complement(forbidden, 64, 0, 64, FLAG, X, Y), plus, 64, top);
    flag_and_two(gudrenoss_complement(forbidden, 0, 0, 0, FLAG, X, Y), plus, 0, 0);
    refused(gudrenoss_complement(forbidden, 64, 5, 2, FLAG, X, Y), OUTSIDE);
    refused(gudrenoss_complement(allowed, 64, 0, 65, FLAG, X, Y), FAMILY);
    refused(gudrenoss_complement(allowed, 3, 1, 0, FLAG, X, Y), FAMILY);
    refused(gudrenoss_complement(forbidden, 64, high_bit, 65, FLAG, X, Y), TOO_WIDE);
    refused(gudrenoss_complement(forbidden, 64, 1, 0, FLAG, X, Y), OUTSIDE);
    refused(gudrenoss_complement(forbidden, 64, high_bit, 63, FLAG, X, Y), OUTSIDE);
    refused(gudrenoss_complement(forbidden, 65, 0, 4, FLAG, X, Y), TOO_WIDE);
    refused(gudrenoss_complement(allowed, 65, 0, 4, FLAG, X, Y), TOO_WIDE);
    refused(gudrenoss_complement(allowed, 0, 1, 4, FLAG, X, Y), OUTSIDE);
    refused(gudrenoss_complement(forbidden, 2, 4, 65, FLAG, X, Y), OUTSIDE);
}

static void test_stabilizer(void)
{
    number(gudrenoss_stabilizer(allowed, 3, 22, X), 2);
    number(gudrenoss_stabilizer(forbidden, 64, top, X), 1);
    number(gudrenoss_stabilizer(allowed, 0, 0, X), 1);
    number(gudrenoss_stabilizer(allowed, 1, 0xfffff, X), 2432902008176640000u);
    number(gudrenoss_stabilizer(allowed, 2, 0xefffff, X), 14597412049059840000u);
    refused(gudrenoss_stabilizer(allowed, 2, 0x1efffff, X), TOO_BIG);
    refused(gudrenoss_stabilizer(allowed, 1, 0x1fffff, X), TOO_BIG);
    refused(gudrenoss_stabilizer(allowed, 1, 0xefffff, X), OUTSIDE);
    refused(gudrenoss_stabilizer(allowed, 1, 0x1efffff, X), OUTSIDE);
    refused(gudrenoss_stabilizer(allowed, 64, 0x1fffff, X), TOO_WIDE);
}

/* ---- Sets ------------------------------------------------------------------------------------------------------------------- */

static void test_sets(void)
{
    number(gudrenoss_set_insert(5, 1, X), 7);
    number(gudrenoss_set_insert(0, 63, X), high_bit);
    refused(gudrenoss_set_insert(5, 2, X), REPEATED);
    refused(gudrenoss_set_insert(5, 64, X), OUTSIDE);
    refused(gudrenoss_set_insert(top, top, X), OUTSIDE);
    flag(gudrenoss_set_contains(5, 2, FLAG), true);
    flag(gudrenoss_set_contains(5, 1, FLAG), false);
    flag(gudrenoss_set_contains(top, 63, FLAG), true);
    flag(gudrenoss_set_contains(top, 64, FLAG), false);
    number(gudrenoss_set_position(42, 3, X), 1);
    number(gudrenoss_set_position(top, 63, X), 63);
    refused(gudrenoss_set_position(42, 2, X), OUTSIDE);
    refused(gudrenoss_set_position(top, 64, X), OUTSIDE);
    number(gudrenoss_set_select(42, 5, X), 34);
    number(gudrenoss_set_select(42, 0, X), 0);
    number(gudrenoss_set_select(top, top, X), top);
    refused(gudrenoss_set_select(42, 8, X), OUTSIDE);
    refused(gudrenoss_set_select(0, 1, X), OUTSIDE);
}

/* ---- Permutations ----------------------------------------------------------------------------------------------------------- */

/* 63, 62, .. 0 has 2016 inversions, and is its own inverse. */
static void test_longest_permutations(void)
{
    uint64_t falling[64], rises[64];
    for (size_t i = 0; i < 64; i++) {
        falling[i] = 63 - i;
        rises[i] = i;
    }
    number(gudrenoss_permutation_image(lend(falling, 64), 64, 63, X), 0);
    refused(gudrenoss_permutation_image(lend(falling, 64), 64, 64, X), OUTSIDE);
    flag(gudrenoss_permutation_sign(lend(falling, 64), 64, FLAG), plus);
    looks_entries(__LINE__, gudrenoss_permutation_inverse(lend(falling, 64), 64, ENTRIES), falling, 64);
    looks_entries(__LINE__, gudrenoss_permutation_compose(lend(falling, 64), 64, lend(falling, 64), 64, ENTRIES), rises, 64);
    falling[63] = 1;
    refused(gudrenoss_permutation_sign(lend(falling, 64), 64, FLAG), NOT_A_PERMUTATION);
    falling[63] = 64;
    refused(gudrenoss_permutation_inverse(lend(falling, 64), 64, ENTRIES), NOT_A_PERMUTATION);
}

/* Anything but zeros past the length is refused, at the first place past it and at the last, and zeros are not. */
static void test_past_the_length(void)
{
    const uint64_t zeros[64] = {0};
    uint64_t entries[64] = {1, 0};
    for (size_t past = 2; past < 64; past += past == 2 ? 18 : 43) {
        entries[past] = 1;
        refused(gudrenoss_permutation_image(lend(entries, 64), 2, 2, X), NOT_A_PERMUTATION);
        refused(gudrenoss_permutation_inverse(lend(entries, 64), 2, ENTRIES), NOT_A_PERMUTATION);
        refused(gudrenoss_permutation_compose(lend(entries, 64), 2, P(1, 0), ENTRIES), NOT_A_PERMUTATION);
        refused(gudrenoss_permutation_compose(P(1, 0), lend(entries, 64), 2, ENTRIES), NOT_A_PERMUTATION);
        refused(gudrenoss_permutation_compose(lend(entries, 64), 2, P(0), ENTRIES), SHAPE);
        refused(gudrenoss_permutation_sign(lend(entries, 64), 2, FLAG), NOT_A_PERMUTATION);
        refused(gudrenoss_permutation_rank(lend(entries, 64), 2, X), NOT_A_PERMUTATION);
        refused(gudrenoss_permutation_successor(lend(entries, 64), 2, ENTRIES), NOT_A_PERMUTATION);
        refused(gudrenoss_permutation_sign(lend(entries, 64), 65, FLAG), TOO_WIDE);
        refused(gudrenoss_permutation_rank(lend(entries, 64), 21, X), TOO_WIDE);
        entries[past] = 0;
    }
    flag(gudrenoss_permutation_sign(lend(entries, 64), 2, FLAG), minus);
    flag(gudrenoss_permutation_sign(lend(zeros, 64), 0, FLAG), plus);
    flag(gudrenoss_permutation_sign(lend(zeros, 64), 1, FLAG), plus);
}

/* Two ways to one permutation give the same bytes, and two permutations do not: (0) and the empty one differ in their length alone. */
static void test_same_bytes(void)
{
    gudrenoss_permutation p = {{2, 0, 1}, 3}, back = {{1, 2, 3}, 9}, again = {{7, 7, 7}, 7}, none = {{0}, 0}, one = {{0}, 1};
    check(__LINE__, gudrenoss_permutation_inverse(p.entries, p.len, back.entries, &back.len).number == GUDRENOSS_OK, "the inverse");
    check(__LINE__, memcmp(&p, &back, sizeof p) != 0, "the bytes of a permutation and its inverse");
    check(__LINE__, gudrenoss_permutation_inverse(back.entries, back.len, again.entries, &again.len).number == GUDRENOSS_OK, "the inverse");
    check(__LINE__, memcmp(&p, &again, sizeof p) == 0, "the bytes of one permutation");
    check(__LINE__, memcmp(&none, &one, sizeof none) != 0, "the bytes of two lengths");
}

static void test_permutations(void)
{
    test_past_the_length();
    test_same_bytes();
    number(gudrenoss_permutation_image(P(2, 0, 1), 0, X), 2);
    number(gudrenoss_permutation_image(RISING(20), 19, X), 19);
    number(gudrenoss_permutation_image(RISING(64), 63, X), 63);
    refused(gudrenoss_permutation_image(RISING(65), 0, X), TOO_WIDE);
    refused(gudrenoss_permutation_image(P(0, 0), 5, X), NOT_A_PERMUTATION);
    refused(gudrenoss_permutation_image(P(0, 1), 2, X), OUTSIDE);
    refused(gudrenoss_permutation_image(RISING(0), 0, X), OUTSIDE);

    entries(gudrenoss_permutation_inverse(P(2, 0, 1), ENTRIES), 1, 2, 0);
    no_entries(gudrenoss_permutation_inverse(RISING(0), ENTRIES));
    refused(gudrenoss_permutation_inverse(RISING(top), ENTRIES), TOO_WIDE);
    refused(gudrenoss_permutation_inverse(P(0, 2), ENTRIES), NOT_A_PERMUTATION);
    test_longest_permutations();

    entries(gudrenoss_permutation_compose(P(1, 0, 2), P(2, 0, 1), ENTRIES), 2, 1, 0);
    entries(gudrenoss_permutation_compose(P(2, 0, 1), P(1, 0, 2), ENTRIES), 0, 2, 1);
    no_entries(gudrenoss_permutation_compose(RISING(0), RISING(0), ENTRIES));
    refused(gudrenoss_permutation_compose(P(0, 0), RISING(65), ENTRIES), TOO_WIDE);
    refused(gudrenoss_permutation_compose(RISING(65), RISING(64), ENTRIES), TOO_WIDE);
    refused(gudrenoss_permutation_compose(RISING(64), RISING(65), ENTRIES), TOO_WIDE);
    refused(gudrenoss_permutation_compose(RISING(64), RISING(63), ENTRIES), SHAPE);
    refused(gudrenoss_permutation_compose(P(0, 0), P(0), ENTRIES), SHAPE);
    refused(gudrenoss_permutation_compose(P(0, 1), P(0, 0), ENTRIES), NOT_A_PERMUTATION);
    refused(gudrenoss_permutation_compose(P(1, 1), P(0, 1), ENTRIES), NOT_A_PERMUTATION);

    flag(gudrenoss_permutation_sign(P(1, 0, 2), FLAG), minus);
    flag(gudrenoss_permutation_sign(P(1, 2, 0), FLAG), plus);
    flag(gudrenoss_permutation_sign(RISING(0), FLAG), plus);
    flag(gudrenoss_permutation_sign(RISING(64), FLAG), plus);
    refused(gudrenoss_permutation_sign(RISING(65), FLAG), TOO_WIDE);
    refused(gudrenoss_permutation_sign(P(3, 0, 1), FLAG), NOT_A_PERMUTATION);

    number(gudrenoss_permutation_rank(P(2, 1, 0), X), 0);
    number(gudrenoss_permutation_rank(P(0, 2, 1), X), 3);
    number(gudrenoss_permutation_rank(P(0, 1, 2), X), 5);
    number(gudrenoss_permutation_rank(RISING(0), X), 0);
    number(gudrenoss_permutation_rank(RISING(20), X), 2432902008176639999u);
    refused(gudrenoss_permutation_rank(RISING(21), X), TOO_WIDE);
    refused(gudrenoss_permutation_rank(RISING(64), X), TOO_WIDE);
    refused(gudrenoss_permutation_rank(P(1), X), NOT_A_PERMUTATION);

    entries(gudrenoss_permutation_unrank(3, 3, ENTRIES), 0, 2, 1);
    no_entries(gudrenoss_permutation_unrank(0, 0, ENTRIES));
    entries(gudrenoss_permutation_unrank(20, 2432902008176639999u, ENTRIES), 0, 1, 2, 3, 4, 5, 6, 7, 8, 9, 10, 11, 12, 13, 14,
        15, 16, 17, 18, 19);
    refused(gudrenoss_permutation_unrank(21, 0, ENTRIES), TOO_WIDE);
    refused(gudrenoss_permutation_unrank(3, 6, ENTRIES), NO_SUCH_RANK);
    refused(gudrenoss_permutation_unrank(0, 1, ENTRIES), NO_SUCH_RANK);
    refused(gudrenoss_permutation_unrank(20, 2432902008176640000u, ENTRIES), NO_SUCH_RANK);

    entries(gudrenoss_permutation_successor(P(2, 1, 0), ENTRIES), 1, 2, 0);
    entries(gudrenoss_permutation_successor(P(0, 2, 1), ENTRIES), 1, 0, 2);
    refused(gudrenoss_permutation_successor(P(0, 1, 2), ENTRIES), LAST);
    refused(gudrenoss_permutation_successor(RISING(0), ENTRIES), LAST);
    refused(gudrenoss_permutation_successor(RISING(1), ENTRIES), LAST);
    refused(gudrenoss_permutation_successor(RISING(21), ENTRIES), TOO_WIDE);
    refused(gudrenoss_permutation_successor(RISING(64), ENTRIES), TOO_WIDE);
    refused(gudrenoss_permutation_successor(P(1, 1), ENTRIES), NOT_A_PERMUTATION);
}

/* ---- Shapes ----------------------------------------------------------------------------------------------------------------- */

static void test_shapes(void)
{
    number(gudrenoss_shape_count(IN(2, 3, 4), X), 24);
    number(gudrenoss_shape_count(EMPTY, X), 1);
    number(gudrenoss_shape_count(NULL, 0, X), 1);
    number(gudrenoss_shape_count(IN(0, big, big), X), 0);
    number(gudrenoss_shape_count(same(1), 16, X), 1);
    refused(gudrenoss_shape_count(same(1), 17, X), TOO_WIDE);
    number(gudrenoss_shape_count(IN(big, big, 0), X), 0);
    refused(gudrenoss_shape_count(IN(high_bit, 2), X), TOO_BIG);

    list(gudrenoss_shape_strides(IN(2, 3, 4), OUT(3), X), 1, 2, 6);
    list(gudrenoss_shape_strides(IN(high_bit, 2), OUT(16), X), 1, high_bit);
    nothing(gudrenoss_shape_strides(EMPTY, OUT(0), X));
    nothing(gudrenoss_shape_strides(NULL, 0, NULL, 0, X));
    refused(gudrenoss_shape_strides(IN(2, 3, 4), OUT(2), X), SHAPE);
    refused(gudrenoss_shape_strides(IN(big, big, 1), OUT(0), X), TOO_BIG);
    refused(gudrenoss_shape_strides(IN(big, big, 0), OUT(3), X), TOO_BIG);
    refused(gudrenoss_shape_strides(same(1), 17, OUT(70), X), TOO_WIDE);

    number(gudrenoss_shape_linearize(IN(2, 3, 4), IN(1, 2, 3), X), 23);
    number(gudrenoss_shape_linearize(EMPTY, EMPTY, X), 0);
    number(gudrenoss_shape_linearize(NULL, 0, NULL, 0, X), 0);
    refused(gudrenoss_shape_linearize(IN(2, 3, 4), IN(1, 2), X), SHAPE);
    refused(gudrenoss_shape_linearize(IN(2, 3), IN(1, 2, 3), X), SHAPE);
    refused(gudrenoss_shape_linearize(IN(2, 3), NULL, 0, X), SHAPE);
    refused(gudrenoss_shape_linearize(IN(2, 3, 4), IN(1, 3, 0), X), OUTSIDE);
    refused(gudrenoss_shape_linearize(IN(big, big, 0), IN(0, 0, 0), X), OUTSIDE);
    refused(gudrenoss_shape_linearize(IN(big, big), IN(0, 0), X), TOO_BIG);
    refused(gudrenoss_shape_linearize(same(1), 16, same(1), 17, X), SHAPE);
    refused(gudrenoss_shape_linearize(same(1), 17, same(1), 17, X), TOO_WIDE);

    list(gudrenoss_shape_delinearize(IN(2, 3, 4), 23, OUT(3), X), 1, 2, 3);
    nothing(gudrenoss_shape_delinearize(NULL, 0, 0, NULL, 0, X));
    refused(gudrenoss_shape_delinearize(IN(2, 3, 4), 24, OUT(3), X), NO_SUCH_RANK);
    refused(gudrenoss_shape_delinearize(IN(2, 3, 4), 23, OUT(2), X), SHAPE);
    refused(gudrenoss_shape_delinearize(IN(0), 0, OUT(1), X), NO_SUCH_RANK);
    refused(gudrenoss_shape_delinearize(EMPTY, 1, OUT(1), X), NO_SUCH_RANK);
    refused(gudrenoss_shape_delinearize(IN(big, big, 0), 0, OUT(3), X), NO_SUCH_RANK);
    refused(gudrenoss_shape_delinearize(IN(big, big), 0, OUT(3), X), TOO_BIG);
    refused(gudrenoss_shape_delinearize(IN(0, big, big), 0, OUT(3), X), NO_SUCH_RANK);
    refused(gudrenoss_shape_delinearize(same(1), 17, 0, OUT(17), X), TOO_WIDE);

    number(gudrenoss_shape_corner(IN(2, 3, 4), 6, X), 8);
    number(gudrenoss_shape_corner(NULL, 0, 0, X), 0);
    number(gudrenoss_shape_corner(IN(big, big, 0, 1), 8, X), 0);
    number(gudrenoss_shape_corner(IN(big, big, 0, 1), 0, X), 0);
    refused(gudrenoss_shape_corner(IN(big, big, 0, 1), 4, X), TOO_BIG);
    refused(gudrenoss_shape_corner(IN(high_bit, 1, 1), 6, X), TOO_BIG);
    refused(gudrenoss_shape_corner(IN(2, 3, 4), 8, X), OUTSIDE);
    refused(gudrenoss_shape_corner(EMPTY, 1, X), OUTSIDE);
    refused(gudrenoss_shape_corner(same(1), 17, 0, X), TOO_WIDE);
}

/* ---- Digit words ------------------------------------------------------------------------------------------------------------ */

static void test_digits(void)
{
    number(gudrenoss_digits_count(3, 4, X), 81);
    number(gudrenoss_digits_count(0, 0, X), 1);
    number(gudrenoss_digits_count(0, 64, X), 0);
    number(gudrenoss_digits_count(2, 63, X), high_bit);
    number(gudrenoss_digits_count(top, 1, X), top);
    refused(gudrenoss_digits_count(2, 64, X), TOO_BIG);
    refused(gudrenoss_digits_count(1, 65, X), TOO_WIDE);

    two(gudrenoss_digits_from_symbols(3, IN(2, 0, 1), X, Y), 3, 11);
    two(gudrenoss_digits_from_symbols(0, NULL, 0, X, Y), 0, 0);
    two(gudrenoss_digits_from_symbols(1, same(0), 64, X, Y), 64, 0);
    refused(gudrenoss_digits_from_symbols(1, same(0), 65, X, Y), TOO_WIDE);
    refused(gudrenoss_digits_from_symbols(3, IN(2, 3), X, Y), OUTSIDE);
    refused(gudrenoss_digits_from_symbols(0, IN(0), X, Y), OUTSIDE);
    refused(gudrenoss_digits_from_symbols(2, same(1), 64, X, Y), TOO_BIG);

    list(gudrenoss_digits_symbols(3, 3, 11, OUT(3), X), 2, 0, 1);
    nothing(gudrenoss_digits_symbols(0, 0, 0, NULL, 0, X));
    refused(gudrenoss_digits_symbols(3, 3, 11, OUT(2), X), SHAPE);
    refused(gudrenoss_digits_symbols(3, 3, 27, OUT(3), X), NO_SUCH_RANK);
    refused(gudrenoss_digits_symbols(0, 1, 0, OUT(3), X), NO_SUCH_RANK);
    refused(gudrenoss_digits_symbols(2, 64, 0, OUT(70), X), TOO_BIG);
    refused(gudrenoss_digits_symbols(1, 65, 0, OUT(70), X), TOO_WIDE);

    number(gudrenoss_digits_symbol(3, 3, 11, 0, X), 2);
    number(gudrenoss_digits_symbol(3, 3, 11, 2, X), 1);
    refused(gudrenoss_digits_symbol(3, 3, 11, 3, X), OUTSIDE);
    refused(gudrenoss_digits_symbol(0, 0, 0, 0, X), OUTSIDE);
    refused(gudrenoss_digits_symbol(3, 3, 27, 9, X), NO_SUCH_RANK);
    refused(gudrenoss_digits_symbol(2, 64, 0, 0, X), TOO_BIG);
    refused(gudrenoss_digits_symbol(2, 65, 0, 0, X), TOO_WIDE);

    number(gudrenoss_digits_multiplicity(3, 3, 11, 0, X), 1);
    number(gudrenoss_digits_multiplicity(2, 4, 0, 0, X), 4);
    number(gudrenoss_digits_multiplicity(2, 4, 0, 9, X), 0);
    refused(gudrenoss_digits_multiplicity(3, 3, 27, 0, X), NO_SUCH_RANK);
    refused(gudrenoss_digits_multiplicity(2, 64, 0, 0, X), TOO_BIG);
    refused(gudrenoss_digits_multiplicity(2, top, 0, 0, X), TOO_WIDE);

    number(gudrenoss_digits_stabilizer(2, 4, 0, X), 24);
    number(gudrenoss_digits_stabilizer(0, 0, 0, X), 1);
    refused(gudrenoss_digits_stabilizer(1, 21, 0, X), TOO_BIG);
    refused(gudrenoss_digits_stabilizer(1, 21, 1, X), NO_SUCH_RANK);
    refused(gudrenoss_digits_stabilizer(1, 65, 1, X), TOO_WIDE);

    two(gudrenoss_digits_concat(3, 2, 5, 3, 1, 2, X, Y), 3, 23);
    two(gudrenoss_digits_concat(0, 0, 0, 0, 0, 0, X, Y), 0, 0);
    refused(gudrenoss_digits_concat(2, 3, 8, 2, 65, 0, X, Y), NO_SUCH_RANK);
    refused(gudrenoss_digits_concat(2, 3, 0, 2, 65, 0, X, Y), TOO_WIDE);
    refused(gudrenoss_digits_concat(2, 3, 0, 2, 64, 0, X, Y), TOO_BIG);
    refused(gudrenoss_digits_concat(2, 3, 0, 2, 2, 4, X, Y), NO_SUCH_RANK);
    refused(gudrenoss_digits_concat(2, 0, 0, 3, 0, 0, X, Y), SHAPE);
    refused(gudrenoss_digits_concat(2, 40, 0, 2, 40, 0, X, Y), TOO_WIDE);
    refused(gudrenoss_digits_concat(2, 32, 0, 2, 32, 0, X, Y), TOO_BIG);

    two(gudrenoss_digits_delete(3, 3, 11, 1, X, Y), 0, 5);
    two(gudrenoss_digits_delete(5, 1, 4, 0, X, Y), 4, 0);
    refused(gudrenoss_digits_delete(3, 3, 11, 3, X, Y), OUTSIDE);
    refused(gudrenoss_digits_delete(0, 0, 0, 0, X, Y), OUTSIDE);
    refused(gudrenoss_digits_delete(3, 3, 27, 0, X, Y), NO_SUCH_RANK);
    refused(gudrenoss_digits_delete(2, 64, 0, 0, X, Y), TOO_BIG);
    refused(gudrenoss_digits_delete(1, 65, 0, 0, X, Y), TOO_WIDE);
}

/* ---- Exponents -------------------------------------------------------------------------------------------------------------- */

static void test_exponents(void)
{
    list(gudrenoss_exponents_word(IN(1, 0, 2), OUT(3), X), 0, 2, 2);
    nothing(gudrenoss_exponents_word(IN(0, 0), OUT(0), X));
    nothing(gudrenoss_exponents_word(NULL, 0, NULL, 0, X));
    refused(gudrenoss_exponents_word(IN(1, 0, 2), OUT(2), X), SHAPE);
    refused(gudrenoss_exponents_word(IN(high_bit, high_bit), OUT(0), X), TOO_WIDE);
    refused(gudrenoss_exponents_word(IN(64, 1), OUT(70), X), TOO_WIDE);
    refused(gudrenoss_exponents_word(same(0), 65, OUT(70), X), TOO_WIDE);

    list(gudrenoss_exponents_from_word(3, IN(2, 0, 2), OUT(3), X), 1, 0, 2);
    list(gudrenoss_exponents_from_word(2, NULL, 0, OUT(2), X), 0, 0);
    nothing(gudrenoss_exponents_from_word(0, EMPTY, NULL, 0, X));
    refused(gudrenoss_exponents_from_word(3, IN(2, 0, 2), OUT(2), X), SHAPE);
    refused(gudrenoss_exponents_from_word(3, IN(2, 3), OUT(2), X), OUTSIDE);
    refused(gudrenoss_exponents_from_word(0, IN(0), OUT(2), X), OUTSIDE);
    refused(gudrenoss_exponents_from_word(64, IN(0, 0), OUT(70), X), TOO_WIDE);
    refused(gudrenoss_exponents_from_word(65, EMPTY, OUT(70), X), TOO_WIDE);
    refused(gudrenoss_exponents_from_word(1, same(0), 65, OUT(70), X), TOO_WIDE);

    number(gudrenoss_exponents_rank(IN(1, 0, 1), X), 3);
    number(gudrenoss_exponents_rank(EMPTY, X), 0);
    number(gudrenoss_exponents_rank(NULL, 0, X), 0);
    number(gudrenoss_exponents_rank(same(0), 64, X), 0);
    refused(gudrenoss_exponents_rank(same(0), 65, X), TOO_WIDE);
    refused(gudrenoss_exponents_rank(IN(64, 1), X), TOO_WIDE);
    refused(gudrenoss_exponents_rank(IN(top, 1), X), TOO_WIDE);

    list(gudrenoss_exponents_from_rank(3, 2, 3, OUT(3), X), 1, 0, 1);
    list(gudrenoss_exponents_from_rank(1, 64, 0, OUT(1), X), 64);
    nothing(gudrenoss_exponents_from_rank(0, 0, 0, NULL, 0, X));
    refused(gudrenoss_exponents_from_rank(3, 2, 3, OUT(2), X), SHAPE);
    refused(gudrenoss_exponents_from_rank(2, 2, 3, OUT(2), X), NO_SUCH_RANK);
    refused(gudrenoss_exponents_from_rank(0, 1, 0, OUT(2), X), NO_SUCH_RANK);
    refused(gudrenoss_exponents_from_rank(2, 64, 0, OUT(2), X), TOO_WIDE);
    refused(gudrenoss_exponents_from_rank(65, 0, 0, OUT(70), X), TOO_WIDE);

    list(gudrenoss_exponents_add(IN(1, 0, 2), IN(0, 3, 1), OUT(3), X), 1, 3, 3);
    nothing(gudrenoss_exponents_add(NULL, 0, NULL, 0, NULL, 0, X));
    refused(gudrenoss_exponents_add(IN(1, 0, 2), IN(0, 3, 1), OUT(2), X), SHAPE);
    refused(gudrenoss_exponents_add(IN(1, 0), IN(0), OUT(3), X), SHAPE);
    refused(gudrenoss_exponents_add(IN(65), IN(0, 1), OUT(3), X), TOO_WIDE);
    refused(gudrenoss_exponents_add(IN(1, 0), IN(top), OUT(3), X), TOO_WIDE);
    refused(gudrenoss_exponents_add(IN(33), IN(32), OUT(3), X), TOO_WIDE);
}

/* ---- Derivatives ------------------------------------------------------------------------------------------------------------ */

static void test_derivative(void)
{
    const uint64_t half = (uint64_t)1 << 62, minus_half = (uint64_t)0 - half, lowest = high_bit, less = high_bit + half - 1;
    list(gudrenoss_derivative(2, 2, 0, TABLE(5, 6, 7), ENTRIES_OUT(2), X), 10, 6);
    list(gudrenoss_derivative(2, 2, 1, TABLE(5, 6, 7), ENTRIES_OUT(5), X), 6, 14);
    list(gudrenoss_derivative(3, 2, 1, TABLE(1, 2, 3, 4, 5, 6), ENTRIES_OUT(3), X), 2, 6, 5);
    list(gudrenoss_derivative(1, 64, 0, TABLE(top), ENTRIES_OUT(1), X), (uint64_t)0 - 64);
    list(gudrenoss_derivative(64, 1, 63, (const int64_t *)same(9), 64, ENTRIES_OUT(1), X), 9);
    list(gudrenoss_derivative(2, 2, 0, TABLE(minus_half, lowest, 0), ENTRIES_OUT(2), X), lowest, lowest);
    refused(gudrenoss_derivative(2, 2, 0, TABLE(half, 0, 0), ENTRIES_OUT(2), X), TOO_BIG);
    refused(gudrenoss_derivative(2, 2, 1, TABLE(0, 0, less), ENTRIES_OUT(2), X), TOO_BIG);
    refused(gudrenoss_derivative(2, 2, 0, TABLE(half, 0, 0), ENTRIES_OUT(1), X), SHAPE);
    refused(gudrenoss_derivative(2, 2, 0, TABLE(5, 6), ENTRIES_OUT(2), X), SHAPE);
    refused(gudrenoss_derivative(2, 2, 0, TABLE(5, 6, 7, 8), ENTRIES_OUT(2), X), SHAPE);
    refused(gudrenoss_derivative(2, 2, 2, TABLE(5, 6), ENTRIES_OUT(0), X), OUTSIDE);
    refused(gudrenoss_derivative(2, 2, top, TABLE(5, 6), ENTRIES_OUT(0), X), OUTSIDE);
    refused(gudrenoss_derivative(0, 1, 0, NULL, 0, NULL, 0, X), OUTSIDE);
    refused(gudrenoss_derivative(2, 0, 0, NULL, 0, NULL, 0, X), OUTSIDE);
    refused(gudrenoss_derivative(65, 0, 0, NULL, 0, NULL, 0, X), TOO_WIDE);
    refused(gudrenoss_derivative(64, 2, 0, NULL, 0, NULL, 0, X), TOO_WIDE);
    refused(gudrenoss_derivative(0, 65, 0, NULL, 0, NULL, 0, X), TOO_WIDE);
    refused(gudrenoss_derivative(top, 2, 0, NULL, 0, NULL, 0, X), TOO_WIDE);
}

/* ---- Old tables -------------------------------------------------------------------------------------------------------------- */

/* A body of entries, which are the places of a list: 8 bytes each. */
#define BODY(...) (const uint8_t *)lend(LIST(__VA_ARGS__)), 8 * COUNT(__VA_ARGS__)
#define BYTES(room) (uint8_t *)lent.out.place, room

static void looks_body(int line, gudrenoss_refusal back, const uint64_t *list, size_t len)
{
    put(list, len);
    looks_number(line, back, 8 * len);
}

#define body(back, ...) looks_body(__LINE__, back, LIST(__VA_ARGS__))

static void test_old_tables(void)
{
    number(gudrenoss_lex_rank(allowed, 2, IN(1, 1), X), 2);
    number(gudrenoss_lex_rank(allowed, 3, IN(1, 1), X), 3);
    number(gudrenoss_lex_rank(forbidden, 4, IN(0, 3), X), 2);
    number(gudrenoss_lex_rank(forbidden, 64, NULL, 0, X), 0);
    number(gudrenoss_lex_rank(forbidden, 64, rising(), 64, X), 0);
    refused(gudrenoss_lex_rank(forbidden, 65, IN(5, 4), X), TOO_WIDE);
    breaks(gudrenoss_lex_rank(forbidden, 4, IN(5, 4), X), 1);
    refused(gudrenoss_lex_rank(forbidden, 4, IN(64), X), TOO_WIDE);
    refused(gudrenoss_lex_rank(forbidden, 4, IN(4), X), OUTSIDE);
    refused(gudrenoss_lex_rank(allowed, 64, IN(0, 0), X), TOO_WIDE);
    list(gudrenoss_lex_unrank(allowed, 3, 2, 3, OUT(2), X), 1, 1);
    list(gudrenoss_lex_unrank(forbidden, 4, 2, 2, OUT(70), X), 0, 3);
    nothing(gudrenoss_lex_unrank(forbidden, 5, 0, 0, NULL, 0, X));
    refused(gudrenoss_lex_unrank(allowed, 3, 2, 3, OUT(1), X), SHAPE);
    refused(gudrenoss_lex_unrank(allowed, 2, 2, 3, OUT(0), X), NO_SUCH_RANK);
    refused(gudrenoss_lex_unrank(allowed, 64, 2, 0, OUT(2), X), TOO_WIDE);
    list(gudrenoss_lex_successor(allowed, 3, IN(0, 2), OUT(2), X), 1, 1);
    list(gudrenoss_lex_successor(forbidden, 5, IN(0, 3, 4), OUT(9), X), 1, 2, 3);
    refused(gudrenoss_lex_successor(allowed, 3, IN(2, 2), OUT(0), X), LAST);
    refused(gudrenoss_lex_successor(forbidden, 3, NULL, 0, OUT(2), X), LAST);
    refused(gudrenoss_lex_successor(allowed, 3, IN(0, 2), OUT(1), X), SHAPE);
    refused(gudrenoss_lex_successor(allowed, 2, IN(0, 2), OUT(0), X), OUTSIDE);
    breaks(gudrenoss_lex_successor(allowed, 2, IN(2, 0), OUT(0), X), 1);
    body(gudrenoss_lex_to_colex(allowed, 3, 2, BODY(10, 11, 12, 13, 14, 15), BYTES(48), X), 10, 11, 13, 12, 14, 15);
    body(gudrenoss_lex_from_colex(allowed, 3, 2, BODY(10, 11, 13, 12, 14, 15), BYTES(48), X), 10, 11, 12, 13, 14, 15);
    body(gudrenoss_lex_to_colex(forbidden, 4, 2, BODY(1, 2, 3, 4, 5, 6), BYTES(48), X), 1, 2, 4, 3, 5, 6);
    body(gudrenoss_lex_to_colex(forbidden, 3, 3, BODY(9), BYTES(8), X), 9);
    nothing(gudrenoss_lex_to_colex(allowed, 0, 3, NULL, 0, NULL, 0, X));
    nothing(gudrenoss_lex_from_colex(allowed, 0, 3, NULL, 0, NULL, 0, X));
    refused(gudrenoss_lex_to_colex(allowed, 0, 3, NULL, 0, BYTES(1), X), SHAPE);
    refused(gudrenoss_lex_to_colex(allowed, 3, 2, BODY(10, 11, 12, 13, 14, 15), BYTES(56), X), SHAPE);
    refused(gudrenoss_lex_to_colex(allowed, 3, 2, BODY(10, 11, 12, 13, 14, 15), BYTES(47), X), SHAPE);
    refused(gudrenoss_lex_from_colex(allowed, 3, 2, BODY(10, 11, 12, 13, 14), BYTES(48), X), SHAPE);
    refused(gudrenoss_lex_from_colex(allowed, 64, 2, BODY(10), BYTES(48), X), TOO_WIDE);
}

/* ---- Wide indices ------------------------------------------------------------------------------------------------------------ */

static void test_wide_words(void)
{
    const uint64_t first[128] = {0};
    number(gudrenoss_wide_count(forbidden, 128, 15, X), 13216710966550396800u);
    number(gudrenoss_wide_count(forbidden, 128, 113, X), 13216710966550396800u);
    number(gudrenoss_wide_count(forbidden, 67, 33, X), 14226520737620288370u);
    number(gudrenoss_wide_count(allowed, 127, 2, X), 8128);
    number(gudrenoss_wide_count(allowed, 1, 128, X), 1);
    number(gudrenoss_wide_count(allowed, 0, 3, X), 0);
    number(gudrenoss_wide_count(forbidden, 0, 0, X), 1);
    refused(gudrenoss_wide_count(forbidden, 128, 16, X), TOO_BIG);
    refused(gudrenoss_wide_count(forbidden, 128, 112, X), TOO_BIG);
    refused(gudrenoss_wide_count(forbidden, 68, 33, X), TOO_BIG);
    refused(gudrenoss_wide_count(allowed, 128, 2, X), TOO_WIDE);
    refused(gudrenoss_wide_count(allowed, top, 2, X), TOO_WIDE);
    refused(gudrenoss_wide_count(forbidden, 129, 64, X), TOO_WIDE);
    refused(gudrenoss_wide_count(forbidden, 0, 129, X), TOO_WIDE);

    number(gudrenoss_wide_rank(forbidden, IN(127), X), 127);
    number(gudrenoss_wide_rank(allowed, IN(0, 126), X), 8001);
    number(gudrenoss_wide_rank(allowed, IN(1, 1), X), 2);
    number(gudrenoss_wide_rank(forbidden, NULL, 0, X), 0);
    number(gudrenoss_wide_rank(forbidden, rising(), 128, X), 0);
    number(gudrenoss_wide_rank(allowed, same(0), 128, X), 0);
    number(gudrenoss_wide_rank(forbidden, IN(3, 26, 36, 41, 45, 46, 51, 58, 63, 64, 66, 72, 94, 101, 109, 116), X), top);
    refused(gudrenoss_wide_rank(forbidden, IN(4, 26, 36, 41, 45, 46, 51, 58, 63, 64, 66, 72, 94, 101, 109, 116), X), TOO_BIG);
    refused(gudrenoss_wide_rank(forbidden, rising() + 64, 64, X), TOO_BIG);
    refused(gudrenoss_wide_rank(forbidden, rising(), 129, X), TOO_WIDE);
    refused(gudrenoss_wide_rank(forbidden, same(0), 129, X), TOO_WIDE);
    refused(gudrenoss_wide_rank(forbidden, rising() + 65, 64, X), TOO_WIDE);
    refused(gudrenoss_wide_rank(allowed, IN(0, 127), X), TOO_WIDE);
    refused(gudrenoss_wide_rank(allowed, IN(0, top), X), TOO_WIDE);
    breaks(gudrenoss_wide_rank(forbidden, IN(200, 199), X), 1);
    breaks(gudrenoss_wide_rank(allowed, IN(3, 5, 4, 1), X), 2);
    breaks(gudrenoss_wide_rank(forbidden, last_falls(), 128, X), 63);

    list(gudrenoss_wide_unrank(forbidden, 128, 2, 2016, OUT(2), X), 0, 64);
    list(gudrenoss_wide_unrank(allowed, 3, 2, 3, OUT(128), X), 0, 2);
    looks_list(__LINE__, gudrenoss_wide_unrank(allowed, 1, 128, 0, OUT(128), X), first, 128);
    nothing(gudrenoss_wide_unrank(forbidden, 128, 0, 0, NULL, 0, X));
    refused(gudrenoss_wide_unrank(allowed, 1, 128, 0, OUT(127), X), SHAPE);
    refused(gudrenoss_wide_unrank(forbidden, 128, 1, 128, OUT(0), X), NO_SUCH_RANK);
    refused(gudrenoss_wide_unrank(forbidden, 128, 64, 0, OUT(0), X), TOO_BIG);
    refused(gudrenoss_wide_unrank(forbidden, 128, 64, top, OUT(64), X), TOO_BIG);
    refused(gudrenoss_wide_unrank(forbidden, 129, 64, 0, OUT(0), X), TOO_WIDE);
}

static void test_wide_indices(void)
{
    number(gudrenoss_wide_rank_of(forbidden, 0, high_bit, X), 127);
    number(gudrenoss_wide_rank_of(allowed, 10, 0, X), 4);
    number(gudrenoss_wide_rank_of(forbidden, top, top, X), 0);
    number(gudrenoss_wide_rank_of(forbidden, 9513962033746280456u, 4538922512154885u, X), top);
    refused(gudrenoss_wide_rank_of(forbidden, 9513962033746280464u, 4538922512154885u, X), TOO_BIG);
    refused(gudrenoss_wide_rank_of(allowed, 0, top, X), TOO_BIG);

    two(gudrenoss_wide_unrank_over(forbidden, 128, 1, 127, X, Y), 0, high_bit);
    two(gudrenoss_wide_unrank_over(forbidden, 128, 1, 63, X, Y), high_bit, 0);
    two(gudrenoss_wide_unrank_over(allowed, 3, 2, 3, X, Y), 9, 0);
    refused(gudrenoss_wide_unrank_over(allowed, 2, 2, 3, X, Y), NO_SUCH_RANK);
    refused(gudrenoss_wide_unrank_over(forbidden, 128, 64, 0, X, Y), TOO_BIG);
    refused(gudrenoss_wide_unrank_over(allowed, 128, 64, 0, X, Y), TOO_WIDE);
    two(gudrenoss_wide_unrank_any(forbidden, 1, 64, X, Y), 0, 1);
    two(gudrenoss_wide_unrank_any(allowed, 15, 13216710966550396799u, X, Y), 0, top << 49);
    two(gudrenoss_wide_unrank_any(allowed, 128, 0, X, Y), top, top);
    refused(gudrenoss_wide_unrank_any(allowed, 128, 1, X, Y), NO_SUCH_RANK);
    refused(gudrenoss_wide_unrank_any(forbidden, 16, 0, X, Y), TOO_BIG);
    refused(gudrenoss_wide_unrank_any(allowed, 112, top, X, Y), TOO_BIG);
    refused(gudrenoss_wide_unrank_any(allowed, 129, 0, X, Y), TOO_WIDE);

    two(gudrenoss_wide_successor(forbidden, high_bit, 0, X, Y), 0, 1);
    two(gudrenoss_wide_successor(allowed, high_bit | high_bit >> 1, 0, X, Y), 1, 1);
    two(gudrenoss_wide_successor(forbidden, top, 0, X, Y), top >> 1, 1);
    two(gudrenoss_wide_successor(forbidden, high_bit, 1, X, Y), 1, 2);
    two(gudrenoss_wide_successor(forbidden, high_bit, top >> 1, X, Y), top >> 1, high_bit);
    *X = 3; /* values that are passed may be those of the places of the result */
    *Y = 0;
    two(gudrenoss_wide_successor(forbidden, *X, *Y, X, Y), 5, 0);
    refused(gudrenoss_wide_successor(forbidden, 0, high_bit, X, Y), LAST);
    refused(gudrenoss_wide_successor(allowed, 0, 0, X, Y), LAST);
    refused(gudrenoss_wide_successor(allowed, top, top, X, Y), LAST);
    refused(gudrenoss_wide_successor(allowed, high_bit, top, X, Y), LAST);
}

static void test_wide_signed(void)
{
    flag_and_two(gudrenoss_wide_merge(forbidden, 0, 1, forbidden, 1, 0, FLAG, X, Y), minus, 1, 1);
    flag_and_two(gudrenoss_wide_merge(forbidden, 1, 0, forbidden, 0, 1, FLAG, X, Y), plus, 1, 1);
    flag_and_two(gudrenoss_wide_merge(forbidden, top, 0, forbidden, 0, top, FLAG, X, Y), plus, top, top);
    flag_and_two(gudrenoss_wide_merge(allowed, high_bit, 0, allowed, 1, 0, FLAG, X, Y), plus, 1, 1);
    flag_and_two(gudrenoss_wide_merge(allowed, 9, 0, allowed, 4, 0, FLAG, X, Y), plus, 25, 0);
    flag_and_two(gudrenoss_wide_merge(allowed, 0, high_bit, allowed, 0, 0, FLAG, X, Y), plus, 0, high_bit);
    refused(gudrenoss_wide_merge(allowed, 0, high_bit, allowed, 1, 0, FLAG, X, Y), TOO_WIDE);
    refused(gudrenoss_wide_merge(allowed, top, top, allowed, 1, 0, FLAG, X, Y), TOO_WIDE);
    refused(gudrenoss_wide_merge(forbidden, 0, 3, forbidden, 0, 6, FLAG, X, Y), REPEATED);
    refused(gudrenoss_wide_merge(forbidden, 1, 0, forbidden, 1, 8, FLAG, X, Y), REPEATED);
    refused(gudrenoss_wide_merge(forbidden, 0, 1, allowed, 0, 1, FLAG, X, Y), FAMILY);
    refused(gudrenoss_wide_merge(allowed, 0, 0, forbidden, 0, 0, FLAG, X, Y), FAMILY);

    flag_and_three(gudrenoss_wide_delete(allowed, 1, 1, 0, FLAG, X, Y, Z), plus, 0, high_bit, 0);
    flag_and_three(gudrenoss_wide_delete(allowed, 1, 1, 1, FLAG, X, Y, Z), plus, 63, 1, 0);
    flag_and_three(gudrenoss_wide_delete(forbidden, 1, 1, 0, FLAG, X, Y, Z), plus, 0, 0, 1);
    flag_and_three(gudrenoss_wide_delete(forbidden, 1, 1, 1, FLAG, X, Y, Z), minus, 64, 1, 0);
    flag_and_three(gudrenoss_wide_delete(allowed, 0, high_bit, 0, FLAG, X, Y, Z), plus, 127, 0, 0);
    flag_and_three(gudrenoss_wide_delete(allowed, top, top, 127, FLAG, X, Y, Z), plus, 0, top, top >> 1);
    flag_and_three(gudrenoss_wide_delete(allowed, high_bit, 3, 1, FLAG, X, Y, Z), plus, 63, high_bit, 1);
    refused(gudrenoss_wide_delete(allowed, top, top, 128, FLAG, X, Y, Z), OUTSIDE);
    refused(gudrenoss_wide_delete(forbidden, 1, 1, 2, FLAG, X, Y, Z), OUTSIDE);
    refused(gudrenoss_wide_delete(forbidden, 0, 0, 0, FLAG, X, Y, Z), OUTSIDE);
    refused(gudrenoss_wide_delete(forbidden, top, 0, top, FLAG, X, Y, Z), OUTSIDE);
}

int main(void)
{
    fresh();
    test_version();
    test_texts();
    test_count();
    test_pack();
    test_unpack();
    test_index();
    test_rank_all();
    test_successor();
    test_rank();
    test_unrank();
    test_walk();
    test_whole_walk(allowed, 3, 2);
    test_whole_walk(forbidden, 6, 3);
    test_whole_walk(allowed, 4, 0);
    test_whole_walk(forbidden, 2, 3);
    test_whole_walk(forbidden, 64, 63);
    test_canonicalise();
    test_merge();
    test_delete();
    test_complement();
    test_stabilizer();
    test_sets();
    test_permutations();
    test_shapes();
    test_digits();
    test_exponents();
    test_derivative();
    test_old_tables();
    test_wide_words();
    test_wide_indices();
    test_wide_signed();
    printf("%d checks, %d failed\n", checks, failed);
    return failed > 0;
}
