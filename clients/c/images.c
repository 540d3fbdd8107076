/* The functions on images, and on images in pieces: a small image at every length, split and cut at every place, written to every room. What is
 * read and what is filled stands between guards, and every call is made with two kinds of bytes around what it may read, which may not matter. The
 * last line is 'N checks, 0 failed', and the exit status then 0. */
#include <gudrenoss.h>

#include <stdio.h>
#include <string.h>

enum { guard = 16, most = 256 };

static const uint64_t top = UINT64_MAX, untouched = 0x756e746f75636865;
static const bool forbidden = false, allowed = true;
static int checks, failed;

static void check(int line, bool holds, const char *what)
{
    checks++;
    if (!holds) {
        failed++;
        printf("line %d: %s\n", line, what);
    }
}

#define holds(what) check(__LINE__, what, #what)

static bool same(gudrenoss_refusal back, uint64_t number, uint64_t at)
{
    return back.number == number && back.at == at;
}

#define answers(back) check(__LINE__, same(back, GUDRENOSS_OK, 0), "an answer: " #back)
#define refused(back, why) check(__LINE__, same(back, GUDRENOSS_##why, 0), #why ": " #back)
#define bad(back, at) check(__LINE__, same(back, GUDRENOSS_BAD_IMAGE, at), "bad at " #at ": " #back)

/* ---- What is lent ----------------------------------------------------------------------------------------------------------- */

/* Allowed 0 over 2: 100; Allowed 2 over 2: 5, 6, 2^64 - 1; Forbidden 2 over 4: 10 to 15. */
static const uint8_t whole[] = {
    3, 0, 0, 0,
    1, 0, 2, 0, 40, 0, 0, 0, 1, 0, 0, 0,
    1, 2, 2, 0, 48, 0, 0, 0, 3, 0, 0, 0,
    0, 2, 4, 0, 72, 0, 0, 0, 6, 0, 0, 0,
    100, 0, 0, 0, 0, 0, 0, 0,
    5, 0, 0, 0, 0, 0, 0, 0, 6, 0, 0, 0, 0, 0, 0, 0, 255, 255, 255, 255, 255, 255, 255, 255,
    10, 0, 0, 0, 0, 0, 0, 0, 11, 0, 0, 0, 0, 0, 0, 0, 12, 0, 0, 0, 0, 0, 0, 0,
    13, 0, 0, 0, 0, 0, 0, 0, 14, 0, 0, 0, 0, 0, 0, 0, 15, 0, 0, 0, 0, 0, 0, 0,
};
enum { len = sizeof whole, contents = 40 };

/* Bytes between guards, all of one kind. */
static uint8_t place[guard + most + guard];

static uint8_t *surrounded(uint8_t kind, const uint8_t *bytes, size_t n)
{
    memset(place, kind, sizeof place);
    memcpy(place + guard, bytes, n);
    return place + guard;
}

/* Nothing around what was lent has changed, nor that itself. */
static bool kept(uint8_t kind, const uint8_t *bytes, size_t n)
{
    bool good = memcmp(place + guard, bytes, n) == 0;
    for (size_t i = 0; i < sizeof place; i++)
        good = good && ((i >= guard && i < guard + n) || place[i] == kind);
    return good;
}

static const uint8_t kinds[] = {0x00, 0xff};

/* ---- Plain calls ------------------------------------------------------------------------------------------------------------ */

static void test_check(void)
{
    for (size_t n = 0; n <= len + 1; n++)
        for (size_t k = 0; k < 2; k++) {
            uint8_t bytes[len + 1];
            uint64_t tables = untouched;
            memcpy(bytes, whole, len);
            bytes[len] = 7;
            const uint8_t *image = surrounded(kinds[k], bytes, n);
            gudrenoss_refusal back = gudrenoss_image_check(image, n, &tables);
            if (n == len)
                answers(back), holds(tables == 3);
            else
                bad(back, n < len ? n : len), holds(tables == untouched);
            holds(kept(kinds[k], bytes, n));
        }
}

/* One byte of the contents list at a time is made wrong. */
static void test_fields(void)
{
    static const struct {
        size_t at;
        uint8_t value;
        uint64_t wrong;
    } cases[] = {
        {0, 0, 0}, {0, 65, 0}, {3, 1, 0}, {4, 2, 4}, {5, 65, 5}, {6, 65, 6}, {7, 1, 7}, {8, 41, 8}, {11, 1, 8}, {12, 2, 12}, {12, 0, 12},
        {16, 0xff, 16}, {17, 0, 17}, {17, 64, 18}, {18, 64, 18}, {18, 1, 24}, {19, 0x80, 19}, {20, 47, 20}, {24, 4, 24}, {27, 1, 24},
        {28, 1, 29}, {29, 3, 36}, {30, 0, 36}, {32, 73, 32}, {36, 5, 36}, {2, 1, 0}, {0, 2, 8}, {0, 4, 8},
    };
    for (size_t i = 0; i < sizeof cases / sizeof *cases; i++) {
        uint8_t bytes[len];
        uint64_t tables = untouched;
        memcpy(bytes, whole, len);
        bytes[cases[i].at] = cases[i].value;
        bad(gudrenoss_image_check(bytes, len, &tables), cases[i].wrong);
        holds(tables == untouched);
    }
    uint64_t tables = untouched;
    bad(gudrenoss_image_check(NULL, 0, &tables), 0);
    bad(gudrenoss_image_check((const uint8_t *)"\xff\xff\xff\0", 3, &tables), 3);
    bad(gudrenoss_image_check((const uint8_t *)"\xff\xff\xff\0", 4, &tables), 0);
    holds(tables == untouched);
}

static void test_row(void)
{
    uint64_t alphabet = untouched, offset = untouched, entries = untouched;
    refused(gudrenoss_image_row(whole, len, allowed, 1, &alphabet, &offset, &entries), NO_SUCH_TABLE);
    refused(gudrenoss_image_row(whole, len, allowed, 258, &alphabet, &offset, &entries), NO_SUCH_TABLE);
    refused(gudrenoss_image_row(whole, len, forbidden, 0, &alphabet, &offset, &entries), NO_SUCH_TABLE);
    refused(gudrenoss_image_row(whole, len, forbidden, top, &alphabet, &offset, &entries), NO_SUCH_TABLE);
    bad(gudrenoss_image_row(whole, len - 1, allowed, 0, &alphabet, &offset, &entries), len - 1);
    holds(alphabet == untouched && offset == untouched && entries == untouched);
    answers(gudrenoss_image_row(whole, len, allowed, 0, &alphabet, &offset, &entries));
    holds(alphabet == 2 && offset == 40 && entries == 1);
    answers(gudrenoss_image_row(whole, len, allowed, 2, &alphabet, &offset, &entries));
    holds(alphabet == 2 && offset == 48 && entries == 3);
    answers(gudrenoss_image_row(whole, len, forbidden, 2, &alphabet, &offset, &entries));
    holds(alphabet == 4 && offset == 72 && entries == 6);
}

static void test_lookup(void)
{
    uint64_t c = untouched;
    refused(gudrenoss_image_lookup(whole, len, allowed, 3, 9, &c), NO_SUCH_RANK);
    refused(gudrenoss_image_lookup(whole, len, allowed, 2, 1, &c), NO_SUCH_TABLE);
    refused(gudrenoss_image_lookup(whole, len, forbidden, 64, 0, &c), NO_SUCH_TABLE);
    refused(gudrenoss_image_lookup(whole, len, allowed, 2, 9, &c), OUTSIDE);
    refused(gudrenoss_image_lookup(whole, len, allowed, 64, 3, &c), TOO_WIDE);
    refused(gudrenoss_image_lookup(NULL, 0, allowed, 2, 9, &c), OUTSIDE);
    bad(gudrenoss_image_lookup(whole, len - 1, allowed, 2, 3, &c), len - 1);
    bad(gudrenoss_image_lookup(whole, len - 1, allowed, 2, 1, &c), len - 1);
    refused(gudrenoss_image_lookup(whole, len, forbidden, 64, (uint64_t)1 << 63 | 1, &c), NO_SUCH_RANK);
    holds(c == untouched);
    answers(gudrenoss_image_lookup(whole, len, allowed, 64, 0, &c)), holds(c == 100);
    answers(gudrenoss_image_lookup(whole, len, allowed, 2, 3, &c)), holds(c == 5);
    answers(gudrenoss_image_lookup(whole, len, allowed, 63, 5, &c)), holds(c == 6);
    answers(gudrenoss_image_lookup(whole, len, allowed, 2, 6, &c)), holds(c == top);
    for (uint64_t i = 0, bits[] = {3, 5, 6, 9, 10, 12}; i < 6; i++)
        answers(gudrenoss_image_lookup(whole, len, forbidden, 4, bits[i], &c)), holds(c == 10 + i);
}

/* Every split, and every room from none to more than enough. */
static void test_write(void)
{
    for (size_t split = 0; split <= len; split++)
        for (size_t room = 0; room <= len + 2; room += room + 8 < len && split != contents ? 8 : 1) {
            uint8_t empty[most], after[most];
            memset(empty, 0x5a, sizeof empty);
            memset(after, 0x5a, sizeof after);
            uint8_t *image = surrounded(0x5a, empty, room);
            uint64_t written = untouched;
            gudrenoss_refusal back = gudrenoss_image_write(whole, split, whole + split, len - split, image, room, &written);
            if (room < len) {
                refused(back, SHAPE), holds(written == untouched);
            } else {
                memcpy(after, whole, len);
                answers(back), holds(written == len);
            }
            holds(kept(0x5a, after, room));
        }
    uint8_t image[most];
    uint64_t written = untouched;
    memset(image, 0x5a, sizeof image);
    bad(gudrenoss_image_write(whole, contents, whole + contents, len - contents - 1, image, 0, &written), len - 1);
    bad(gudrenoss_image_write(whole, 3, NULL, 0, image, most, &written), 3);
    bad(gudrenoss_image_write(NULL, 0, NULL, 0, NULL, 0, &written), 0);
    holds(written == untouched && image[0] == 0x5a);
}

/* ---- Pieces ----------------------------------------------------------------------------------------------------------------- */

/* What is told, which the state tells too. */
static gudrenoss_refusal verdict(const gudrenoss_pieces *p)
{
    bool still = p->state != 0;
    uint64_t tables = untouched;
    gudrenoss_refusal back = gudrenoss_pieces_verdict(p->state, p->at, &still, &tables);
    if (p->state > 1)
        holds(same(back, GUDRENOSS_BAD_IMAGE, p->at) && still && tables == untouched);
    else
        answers(back), holds(still == (p->state == 0) && tables == (still ? 0 : p->at));
    return back;
}

static gudrenoss_refusal feed(gudrenoss_pieces *p, const uint8_t *piece, size_t n)
{
    answers(gudrenoss_pieces_feed(p->bytes, &p->seen, &p->state, &p->at, piece, n));
    return verdict(p);
}

static gudrenoss_refusal end(gudrenoss_pieces *p)
{
    answers(gudrenoss_pieces_end(p->bytes, &p->seen, &p->state, &p->at));
    return verdict(p);
}

static gudrenoss_pieces start(void)
{
    gudrenoss_pieces p;
    memset(&p, 0x5a, sizeof p);
    answers(gudrenoss_pieces_start(p.bytes, &p.seen, &p.state, &p.at));
    holds(p.seen == 0 && p.state == 0 && p.at == 0);
    return p;
}

static bool same_state(gudrenoss_pieces p, gudrenoss_pieces q)
{
    return memcmp(p.bytes, q.bytes, sizeof p.bytes) == 0 && p.seen == q.seen && p.state == q.state && p.at == q.at;
}

/* After the end nothing changes, and the verdict is told again. */
static void test_settled(gudrenoss_pieces p, uint64_t number, uint64_t at)
{
    gudrenoss_pieces q = p;
    holds(same(feed(&q, whole, len), number, at) && same(feed(&q, NULL, 0), number, at) && same(end(&q), number, at));
    holds(same_state(p, q));
}

static void test_cuts(void)
{
    for (size_t i = 0; i <= len; i++)
        for (size_t j = i; j <= len; j++) {
            gudrenoss_pieces p = start();
            answers(feed(&p, whole, i)), answers(feed(&p, whole + i, j - i)), answers(feed(&p, whole + j, len - j));
            holds(p.state == 0);
            answers(end(&p)), holds(p.state == 1 && p.at == 3);
            if (i == j)
                test_settled(p, GUDRENOSS_OK, 0);
        }
    for (size_t n = 0; n <= len; n++) {
        gudrenoss_pieces p = start();
        for (size_t i = 0; i < n; i++)
            answers(feed(&p, whole + i, 1));
        if (n == len)
            bad(feed(&p, whole, 1), len), test_settled(p, GUDRENOSS_BAD_IMAGE, len);
        else
            bad(end(&p), n), test_settled(p, GUDRENOSS_BAD_IMAGE, n);
    }
}

static void test_told(void)
{
    gudrenoss_pieces p = start();
    answers(feed(&p, (const uint8_t *)"\xff\xff\xff", 3));
    gudrenoss_pieces q = p;
    bad(end(&q), 3);
    bad(feed(&p, (const uint8_t *)"\0", 1), 0);
    holds(p.state == 2 && p.at == 0);
    test_settled(p, GUDRENOSS_BAD_IMAGE, 0);
    p = start();
    bad(end(&p), 0);
}

/* States that nobody was given: any numbers, and nothing but the state is touched. */
static void test_made_up(void)
{
    const uint64_t numbers[] = {0, 1, 2, 3, 771, 772, 773, 65536, 65537, top};
    for (size_t i = 0; i < 10; i++)
        for (size_t j = 0; j < 10; j++) {
            struct {
                uint64_t low;
                gudrenoss_pieces p;
                uint64_t high;
            } s = {untouched, start(), untouched};
            memset(s.p.bytes, 0xff, sizeof s.p.bytes);
            s.p.seen = numbers[i], s.p.state = numbers[j], s.p.at = numbers[9 - i];
            gudrenoss_refusal back = feed(&s.p, whole, len);
            holds(back.number == GUDRENOSS_OK || back.number == GUDRENOSS_BAD_IMAGE);
            back = end(&s.p);
            holds(back.number == GUDRENOSS_OK || back.number == GUDRENOSS_BAD_IMAGE);
            holds(s.low == untouched && s.high == untouched);
        }
}

int main(void)
{
    test_check();
    test_fields();
    test_row();
    test_lookup();
    test_write();
    test_cuts();
    test_told();
    test_made_up();
    printf("%d checks, %d failed\n", checks, failed);
    return failed > 0;
}
