/* replay: answers requests of the language of ask (docs/RULES.md, section 13), one to a line of standard input, through the C library, one
 * line each. It knows the verbs of crates/vectors, whose answers are those of the Rust (compare/README.md), so that the library of any
 * processor can be held to them: what it writes for crates/vectors/stdin has to be crates/vectors/stdout. A line that is none of these requests
 * is answered 'bad line'.
 *
 *     replay < crates/vectors/stdin | cmp - crates/vectors/stdout */
#include <gudrenoss.h>

#include <stdio.h>

enum { most = 80, longest = 4096, places = 64, far = 4096 };

/* ---- The request: a verb, and numbers before and after the lone '/' ------------------------------------------------------------------ */

struct list {
    uint64_t place[most];
    size_t len;
};

static char verb[32];
static struct list left, right;
static bool parted;
static size_t room;

/* The next word of the line, cut off at its end; NULL where there is none. */
static char *next_word(char **line)
{
    char *word = *line, *end = word;
    if (word == NULL)
        return NULL;
    while (*end != ' ' && *end != '\0')
        end++;
    *line = *end == ' ' ? end + 1 : NULL;
    *end = '\0';
    return word;
}

static bool same(const char *a, const char *b)
{
    while (*a != '\0' && *a == *b)
        a++, b++;
    return *a == *b;
}

/* A decimal number, or a family as the bool that stands for it. */
static bool parse(const char *word, uint64_t *n)
{
    bool family = same(word, "allowed") || same(word, "forbidden");
    *n = family && word[0] == 'a';
    for (const char *c = word; !family && *c != '\0'; c++) {
        uint64_t digit = (uint64_t)(*c - '0');
        if (*c < '0' || *c > '9' || *n > (UINT64_MAX - digit) / 10)
            return false;
        *n = 10 * *n + digit;
    }
    return word[0] != '\0';
}

static bool read_request(char *line)
{
    char *word = next_word(&line);
    uint64_t n;
    room = most, left.len = right.len = 0, parted = false;
    if (word != NULL && same(word, "room")) {
        word = next_word(&line);
        if (word == NULL || !parse(word, &n))
            return false;
        room = n < most ? (size_t)n : most;
        word = next_word(&line);
    }
    size_t size = 0;
    for (; word != NULL && word[size] != '\0' && size < sizeof verb - 1; size++)
        verb[size] = word[size];
    verb[size] = '\0';
    while ((word = next_word(&line)) != NULL) {
        struct list *to = parted ? &right : &left;
        if (!parted && same(word, "/"))
            parted = true;
        else if (to->len == most || !parse(word, &to->place[to->len++]))
            return false;
    }
    return size > 0;
}

/* The number at a place of the first list, and what follows it. */
static uint64_t arg(size_t i)
{
    return left.place[i];
}

static bool family(size_t i)
{
    return left.place[i] == 1;
}

static const uint64_t *rest(size_t i)
{
    return left.place + i;
}

static size_t rest_len(size_t i)
{
    return left.len - i;
}

/* ---- The answer ------------------------------------------------------------------------------------------------------------------------- */

static bool first;

static void text(const char *word)
{
    printf("%s%s", first ? "" : " ", word);
    first = false;
}

static void number(uint64_t n)
{
    printf("%s%llu", first ? "" : " ", (unsigned long long)n);
    first = false;
}

static void numbers(const uint64_t *list, uint64_t len)
{
    for (uint64_t i = 0; i < len; i++)
        number(list[i]);
}

static void sign(bool minus)
{
    text(minus ? "-" : "+");
}

/* Whether it is an answer; a refusal is written. */
static bool given(gudrenoss_refusal r)
{
    if (r.number == GUDRENOSS_OK)
        return true;
    text("refused");
    number(r.number);
    if (r.number == GUDRENOSS_NOT_MONOTONE || r.number == GUDRENOSS_BAD_IMAGE) {
        text("at");
        number(r.at);
    }
    return false;
}

/* ---- The verbs -------------------------------------------------------------------------------------------------------------------------- */

static uint64_t x, y, z, out[most];
static bool minus;

/* What most of them write, if the call was not refused. */
static void one(gudrenoss_refusal r)
{
    if (given(r))
        number(x);
}

static void two(gudrenoss_refusal r)
{
    if (given(r))
        number(x), number(y);
}

static void filled(gudrenoss_refusal r)
{
    if (given(r))
        numbers(out, x);
}

static void signed_index(gudrenoss_refusal r)
{
    if (given(r))
        sign(minus), number(x), number(y);
}

static void count(void) { one(gudrenoss_count(family(0), arg(1), arg(2), &x)); }
static void rank(void) { one(gudrenoss_rank(family(0), rest(1), rest_len(1), &x)); }
static void rankof(void) { one(gudrenoss_rank_of(family(0), arg(1), arg(2), &x)); }
static void degree(void) { one(gudrenoss_degree(family(0), arg(1), arg(2), &x)); }
static void unrankover(void) { two(gudrenoss_unrank_over(family(0), arg(1), arg(2), arg(3), &x, &y)); }
static void unrank(void) { filled(gudrenoss_unrank(family(0), arg(1), arg(2), arg(3), out, room, &x)); }
static void unrankany(void) { two(gudrenoss_unrank_any(family(0), arg(1), arg(2), &x, &y)); }
static void pack(void) { two(gudrenoss_pack(family(0), arg(1), rest(2), rest_len(2), &x, &y)); }
static void unpack(void) { filled(gudrenoss_unpack(family(0), arg(1), arg(2), out, room, &x)); }
static void symbol(void) { one(gudrenoss_symbol(family(0), arg(1), arg(2), arg(3), &x)); }
static void next(void) { two(gudrenoss_successor(family(0), arg(1), arg(2), &x, &y)); }

/* Step s of a walk: by so many steps, or far away by its rank, as ask does. */
static void walk(void)
{
    bool standing;
    uint64_t over, at, remaining, s = arg(3);
    gudrenoss_refusal r = gudrenoss_walk_start(family(0), arg(1), arg(2), &standing, &over, &at, &remaining);
    if (r.number == GUDRENOSS_OK && s > far) {
        r = s - 1 < remaining ? gudrenoss_unrank_over(family(0), arg(1), arg(2), s - 1, &x, &y) : (gudrenoss_refusal){GUDRENOSS_LAST, 0};
        s = 0;
    }
    for (; r.number == GUDRENOSS_OK && s > 0; s--)
        r = gudrenoss_walk_step(family(0), &standing, &over, &at, &remaining, &x, &y);
    two(r);
}

static void canonical(void) { signed_index(gudrenoss_canonicalise(family(0), arg(1), rest(2), rest_len(2), &minus, &x, &y)); }
static void merge(void) { signed_index(gudrenoss_merge(family(0), arg(1), arg(2), family(3), arg(4), arg(5), &minus, &x, &y)); }

static void delete(void)
{
    if (given(gudrenoss_delete(family(0), arg(1), arg(2), arg(3), &minus, &x, &y, &z)))
        sign(minus), number(x), number(y), number(z);
}

static void complement(void) { signed_index(gudrenoss_complement(family(0), arg(1), arg(2), arg(3), &minus, &x, &y)); }
static void stabilizer(void) { one(gudrenoss_stabilizer(family(0), arg(1), arg(2), &x)); }
static void insert(void) { one(gudrenoss_set_insert(arg(0), arg(1), &x)); }

static void contains(void)
{
    if (given(gudrenoss_set_contains(arg(0), arg(1), &minus)))
        text(minus ? "yes" : "no");
}

static void position(void) { one(gudrenoss_set_position(arg(0), arg(1), &x)); }
static void select(void) { one(gudrenoss_set_select(arg(0), arg(1), &x)); }

/* The record of a permutation: its first places, and zeros; a longer list has that length. */
static const uint64_t *entries(const struct list *l)
{
    static uint64_t record[2][places];
    uint64_t *to = record[l == &right];
    for (size_t i = 0; i < places; i++)
        to[i] = i < l->len ? l->place[i] : 0;
    return to;
}

static void permimage(void) { one(gudrenoss_permutation_image(entries(&right), right.len, arg(0), &x)); }
static void perminverse(void) { filled(gudrenoss_permutation_inverse(entries(&left), left.len, out, &x)); }

static void permcompose(void)
{
    filled(gudrenoss_permutation_compose(entries(&left), left.len, entries(&right), right.len, out, &x));
}

static void permsign(void)
{
    if (given(gudrenoss_permutation_sign(entries(&left), left.len, &minus)))
        sign(minus);
}

static void permrank(void) { one(gudrenoss_permutation_rank(entries(&left), left.len, &x)); }
static void permunrank(void) { filled(gudrenoss_permutation_unrank(arg(0), arg(1), out, &x)); }
static void permnext(void) { filled(gudrenoss_permutation_successor(entries(&left), left.len, out, &x)); }

static void shapecount(void) { one(gudrenoss_shape_count(rest(0), rest_len(0), &x)); }
static void strides(void) { filled(gudrenoss_shape_strides(rest(0), rest_len(0), out, room, &x)); }
static void linearize(void) { one(gudrenoss_shape_linearize(rest(0), rest_len(0), right.place, right.len, &x)); }
static void delinearize(void) { filled(gudrenoss_shape_delinearize(right.place, right.len, arg(0), out, room, &x)); }
static void corner(void) { one(gudrenoss_shape_corner(right.place, right.len, arg(0), &x)); }

static void digitcount(void) { one(gudrenoss_digits_count(arg(0), arg(1), &x)); }
static void digits(void) { two(gudrenoss_digits_from_symbols(arg(0), right.place, right.len, &x, &y)); }
static void digitsymbols(void) { filled(gudrenoss_digits_symbols(arg(0), arg(1), arg(2), out, room, &x)); }
static void digitsymbol(void) { one(gudrenoss_digits_symbol(arg(0), arg(1), arg(2), arg(3), &x)); }
static void digitmultiplicity(void) { one(gudrenoss_digits_multiplicity(arg(0), arg(1), arg(2), arg(3), &x)); }
static void digitstabilizer(void) { one(gudrenoss_digits_stabilizer(arg(0), arg(1), arg(2), &x)); }
static void digitconcat(void) { two(gudrenoss_digits_concat(arg(0), arg(1), arg(2), arg(3), arg(4), arg(5), &x, &y)); }
static void digitdelete(void) { two(gudrenoss_digits_delete(arg(0), arg(1), arg(2), arg(3), &x, &y)); }

static void exprank(void) { one(gudrenoss_exponents_rank(rest(0), rest_len(0), &x)); }
static void expword(void) { filled(gudrenoss_exponents_word(rest(0), rest_len(0), out, room, &x)); }
static void expfrom(void) { filled(gudrenoss_exponents_from_word(arg(0), right.place, right.len, out, room, &x)); }
static void expunrank(void) { filled(gudrenoss_exponents_from_rank(arg(0), arg(1), arg(2), out, room, &x)); }
static void expadd(void) { filled(gudrenoss_exponents_add(rest(0), rest_len(0), right.place, right.len, out, room, &x)); }

/* Whether the request has so many numbers, or more where they are a list, and a second list exactly if it should. */
static bool has(size_t least, bool more, bool second)
{
    return left.len >= least && (more || left.len == least) && parted == second;
}

#define VERB(name, least, more, second) \
    if (same(verb, #name))              \
        return has(least, more, second) && (name(), true)

/* The verb of the request, if it is one. */
static bool called(void)
{
    const bool closed = false, list = true, alone = false, two_lists = true;
    VERB(count, 3, closed, alone);
    VERB(rank, 1, list, alone);
    VERB(rankof, 3, closed, alone);
    VERB(degree, 3, closed, alone);
    VERB(unrankover, 4, closed, alone);
    VERB(unrank, 4, closed, alone);
    VERB(unrankany, 3, closed, alone);
    VERB(pack, 2, list, alone);
    VERB(unpack, 3, closed, alone);
    VERB(symbol, 4, closed, alone);
    VERB(next, 3, closed, alone);
    VERB(walk, 4, closed, alone);
    VERB(canonical, 2, list, alone);
    VERB(merge, 6, closed, alone);
    VERB(delete, 4, closed, alone);
    VERB(complement, 4, closed, alone);
    VERB(stabilizer, 3, closed, alone);
    VERB(insert, 2, closed, alone);
    VERB(contains, 2, closed, alone);
    VERB(position, 2, closed, alone);
    VERB(select, 2, closed, alone);
    VERB(permimage, 1, closed, two_lists);
    VERB(perminverse, 0, list, alone);
    VERB(permcompose, 0, list, two_lists);
    VERB(permsign, 0, list, alone);
    VERB(permrank, 0, list, alone);
    VERB(permunrank, 2, closed, alone);
    VERB(permnext, 0, list, alone);
    VERB(shapecount, 0, list, alone);
    VERB(strides, 0, list, alone);
    VERB(linearize, 0, list, two_lists);
    VERB(delinearize, 1, closed, two_lists);
    VERB(corner, 1, closed, two_lists);
    VERB(digitcount, 2, closed, alone);
    VERB(digits, 1, closed, two_lists);
    VERB(digitsymbols, 3, closed, alone);
    VERB(digitsymbol, 4, closed, alone);
    VERB(digitmultiplicity, 4, closed, alone);
    VERB(digitstabilizer, 3, closed, alone);
    VERB(digitconcat, 6, closed, alone);
    VERB(digitdelete, 4, closed, alone);
    VERB(exprank, 0, list, alone);
    VERB(expword, 0, list, alone);
    VERB(expfrom, 1, closed, two_lists);
    VERB(expunrank, 3, closed, alone);
    VERB(expadd, 0, list, two_lists);
    return false;
}

static void answer(char *line)
{
    first = true;
    printf(read_request(line) && called() ? "\n" : "bad line\n");
}

int main(void)
{
    static char line[longest];
    size_t len = 0;
    for (int c = getchar(); c >= 0; c = getchar()) {
        if (c != '\n' && len < longest - 1) {
            line[len++] = (char)c;
            continue;
        }
        line[len] = '\0';
        answer(line);
        len = 0;
    }
    return 0;
}
