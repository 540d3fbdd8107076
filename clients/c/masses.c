/* The mass of one frame: the surfaces that tell the sequence of operations from one that is near it, and every refusal with its frame. What is
 * written stands between guards. The last line is 'N checks, 0 failed', and the exit status then 0. */
#include <gudrenoss.h>

#include <stdio.h>
#include <string.h>

enum { most = 1024, contents_of_one = 16 };

static const uint64_t top = UINT64_MAX, untouched = 0x756e746f75636865;
static int checks, failed;

static void check(int line, bool holds, const char *what)
{
    checks++;
    if (!holds) {
        failed++;
        printf("line %d: %s\n", line, what);
    }
}

#define holds(what) check(__LINE__, what, #what)

static uint64_t bits_of(double x)
{
    uint64_t bits;
    memcpy(&bits, &x, sizeof bits);
    return bits;
}

static double double_of(uint64_t bits)
{
    double x;
    memcpy(&x, &bits, sizeof x);
    return x;
}

/* ---- Surfaces --------------------------------------------------------------------------------------------------------------- */

/* A table of a surface: its degree and its entries by rank. */
struct table {
    uint8_t degree;
    double entry[5];
};

static uint8_t surface[most];
static size_t surface_len;

static void put(uint64_t n, size_t size)
{
    for (size_t i = 0; i < size; i++)
        surface[surface_len++] = (uint8_t)(n >> 8 * i);
}

/* The image of a surface, its tables in the order in which they are given. */
static void make(const struct table *tables, size_t many)
{
    uint64_t end = 4 + 12 * many;
    surface_len = 0;
    put(many, 4);
    for (size_t i = 0; i < many; i++) {
        put(1 + 256 * (uint64_t)tables[i].degree + 2 * 65536, 4);
        put(end, 4);
        put(tables[i].degree + 1u, 4);
        end += 8 * (tables[i].degree + 1u);
    }
    for (size_t i = 0; i < many; i++)
        for (size_t r = 0; r <= tables[i].degree; r++)
            put(bits_of(tables[i].entry[r]), 8);
}

#define MAKE(...) make((const struct table[]){__VA_ARGS__}, sizeof((const struct table[]){__VA_ARGS__}) / sizeof(struct table))

/* A double between guards. */
static struct {
    uint64_t low;
    double mass;
    uint64_t high;
} place;

static gudrenoss_frame_refusal back;

/* Asks for a mass of the surface. */
static void ask(uint64_t pressure_frame, double p, uint64_t temperature_frame, double t)
{
    uint8_t before[most];
    memcpy(before, surface, sizeof surface);
    place.low = place.high = untouched;
    place.mass = double_of(untouched);
    back = gudrenoss_mass(surface, surface_len, pressure_frame, p, temperature_frame, t, &place.mass);
    holds(place.low == untouched && place.high == untouched);
    holds(memcmp(before, surface, sizeof surface) == 0);
}

static bool gives(uint64_t bits)
{
    return back.number == GUDRENOSS_OK && back.at == 0 && back.frame == 0 && bits_of(place.mass) == bits;
}

/* Nothing is written, and the frame is named. */
static bool refuses(uint64_t number, uint64_t at, uint64_t frame)
{
    return back.number == number && back.at == at && back.frame == frame && bits_of(place.mass) == untouched;
}

#define mass_is(p, t, bits) ask(4, p, 4, t), holds(gives(UINT64_C(bits)))
#define refused(p, t, why) ask(4, p, 4, t), holds(refuses(GUDRENOSS_##why, 0, 4))

/* ---- Masses ----------------------------------------------------------------------------------------------------------------- */

/* A fused step would end in 15, degrees falling in 1e, the coefficient first in 16, symbols falling in 0f, two powers multiplied in b5. */
static void test_sequence(void)
{
    MAKE({0, {1.0}}, {1, {0.1, 0.0}});
    mass_is(1.3, 0.1, 0x3ff2147ae147ae14);
    MAKE({0, {0.1}}, {1, {0.2, 0.3}});
    mass_is(0.1, 0.7, 0x3fd51eb851eb851f);
    MAKE({1, {0.2, 0.3}}, {0, {0.1}});
    mass_is(0.1, 0.7, 0x3fd51eb851eb851f);
    MAKE({2, {0.1, 0.0, 0.0}});
    mass_is(1.0 / 3.0, 0.1, 0x3f86c16c16c16c17);
    MAKE({3, {0.0, 0.1, 0.2, 0.0}});
    mass_is(0.1, 1.3, 0x3fa1f8a0902de00e);
    MAKE({4, {0.0, 0.1, 0.2, 0.3, 0.0}});
    mass_is(0.1, 0.7, 0x3f87396d0917d6b6);
    MAKE({0, {2.0}}, {1, {0.5, -0.25}});
    mass_is(8.0, 2.0, 0x4016000000000000);
}

/* A missing degree is not one of zeros; zeros, negative masses and subnormal numbers. */
static void test_corners(void)
{
    MAKE({0, {1.0}});
    mass_is(1e200, 1e200, 0x3ff0000000000000);
    ask(top, 1.0, top, 1.0), holds(gives(UINT64_C(0x3ff0000000000000)));
    ask(0, -0.0, 0, -0.0), holds(gives(UINT64_C(0x3ff0000000000000)));
    MAKE({0, {-0.0}});
    mass_is(1.0, 1.0, 0);
    MAKE({0, {-2.0}});
    mass_is(1.0, 1.0, 0xc000000000000000);
    MAKE({0, {double_of(1)}});
    mass_is(1.0, 1.0, 1);
    MAKE({1, {double_of(3), 0.0}});
    mass_is(0.5, 1.0, 2);
    MAKE({1, {1.0, 0.0}});
    mass_is(double_of(1), 1.0, 1);
}

static void test_not_finite(void)
{
    const double infinite = double_of(UINT64_C(0x7ff0000000000000)), none = double_of(UINT64_C(0x7ff8000000000000));
    MAKE({0, {1.0}});
    refused(infinite, 1.0, NOT_FINITE);
    refused(1.0, infinite, NOT_FINITE);
    refused(-infinite, 1.0, NOT_FINITE);
    refused(none, 1.0, NOT_FINITE);
    refused(1.0, none, NOT_FINITE);
    refused(1.0, double_of(top), NOT_FINITE);
    MAKE({0, {1.0}}, {2, {0.0, 0.0, 0.0}});
    refused(1e200, 1e200, NOT_FINITE);
    MAKE({0, {infinite}});
    refused(1.0, 1.0, NOT_FINITE);
    MAKE({1, {infinite, 0.0}});
    refused(0.0, 1.0, NOT_FINITE);
    MAKE({0, {double_of(UINT64_C(0x7ff0000000000001))}});
    refused(1.0, 1.0, NOT_FINITE);
    MAKE({0, {1.7e308}}, {1, {1.7e308, 0.0}});
    refused(1.0, 1.0, NOT_FINITE);
}

/* 13, 11, 7, 14: of two faults the earlier is told. */
static void test_order(void)
{
    const double none = double_of(UINT64_C(0x7ff8000000000000));
    MAKE({0, {1.0}});
    ask(4, none, 5, 1.0), holds(refuses(GUDRENOSS_FRAME, 0, 4));
    ask(top, 1.0, 0, 1.0), holds(refuses(GUDRENOSS_FRAME, 0, top));
    surface_len--;
    ask(4, none, 5, 1.0), holds(refuses(GUDRENOSS_FRAME, 0, 4));
    ask(4, none, 4, 1.0), holds(refuses(GUDRENOSS_BAD_IMAGE, 23, 4));
    surface_len = 0;
    ask(top, none, top, 1.0), holds(refuses(GUDRENOSS_BAD_IMAGE, 0, top));
    MAKE({0, {1.0}});
    surface[6] = 3;
    refused(none, 1.0, OUTSIDE);
    surface[6] = 2, surface[4] = 0;
    refused(none, 1.0, OUTSIDE);
    surface[contents_of_one + 7] = 0x7f, surface[contents_of_one + 6] = 0xf0;
    refused(1.0, 1.0, OUTSIDE);
    surface[4] = 1;
    refused(1.0, 1.0, NOT_FINITE);
    surface[4] = 2;
    ask(4, 1.0, 4, 1.0), holds(refuses(GUDRENOSS_BAD_IMAGE, 4, 4));
}

static void test_join(void)
{
    const double none = double_of(UINT64_C(0x7ff8000000000000));
    uint64_t frame = untouched;
    double p = 7.0, t = 8.0;
    back = gudrenoss_join(9, 2.5, 8, 3.5, &frame, &p, &t);
    holds(back.number == GUDRENOSS_FRAME && back.at == 0 && back.frame == 9);
    holds(frame == untouched && p == 7.0 && t == 8.0);
    back = gudrenoss_join(top, 2.5, top, -0.0, &frame, &p, &t);
    holds(back.number == GUDRENOSS_OK && back.at == 0 && back.frame == 0);
    holds(frame == top && p == 2.5 && bits_of(t) == UINT64_C(0x8000000000000000));
    back = gudrenoss_join(0, none, 0, double_of(1), &frame, &p, &t);
    holds(back.number == GUDRENOSS_OK && frame == 0 && p != p && bits_of(t) == 1);
}

int main(void)
{
    test_sequence();
    test_corners();
    test_not_finite();
    test_order();
    test_join();
    printf("%d checks, %d failed\n", checks, failed);
    return failed > 0;
}
