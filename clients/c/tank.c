/* A small tank by an uplinked surface: the image is checked once when it comes, one coefficient is looked up, and then each frame has a mass or is
 * refused. The surface is that of examples/tank.txt. Link with libgudrenoss.a. */
#include <gudrenoss.h>

#include <stdio.h>
#include <string.h>

enum { tables = 3, terms = 6, contents = 4 + 12 * tables, size = contents + 8 * terms };

/* The mass in kilograms, by the pressure p in bar and the temperature t in kelvin: 1, then p and t, then p p, p t and t t, by rank. */
static const double coefficient[terms] = {12.5, 3.25, -0.03125, 0.125, -0.0078125, 0.0000152587890625};

static void put(uint8_t *place, uint64_t n, size_t bytes)
{
    for (size_t i = 0; i < bytes; i++)
        place[i] = (uint8_t)(n >> 8 * i);
}

/* The image of the surface, as the ground makes it: one Allowed table over two quantities for each degree. */
static void make(uint8_t image[size])
{
    uint64_t body = contents;
    put(image, tables, 4);
    for (uint64_t k = 0; k < tables; k++) {
        uint8_t *row = image + 4 + 12 * k;
        put(row, 1 + 256 * k + 2 * 65536, 4);
        put(row + 4, body, 4);
        put(row + 8, k + 1, 4);
        body += 8 * (k + 1);
    }
    for (size_t i = 0; i < terms; i++) {
        uint64_t bits;
        memcpy(&bits, &coefficient[i], sizeof bits);
        put(image + contents + 8 * i, bits, 8);
    }
}

int main(void)
{
    uint8_t image[size];
    uint64_t found, alphabet, term, bits;
    const uint64_t p_t[] = {0, 1};
    double value, mass = 0.0;
    make(image);

    gudrenoss_refusal refusal = gudrenoss_image_check(image, size, &found);
    if (refusal.number == GUDRENOSS_OK)
        refusal = gudrenoss_pack(true, 2, p_t, 2, &alphabet, &term);
    if (refusal.number == GUDRENOSS_OK)
        refusal = gudrenoss_image_lookup(image, size, true, alphabet, term, &bits);
    if (refusal.number != GUDRENOSS_OK)
        return 1;
    memcpy(&value, &bits, sizeof value);
    printf("the image has %u tables, and the coefficient of p t is %.7f\n", (unsigned)found, value);

    gudrenoss_frame_refusal back = gudrenoss_mass(image, size, 1001, 18.25, 1001, 293.5, &mass);
    if (back.number != GUDRENOSS_OK)
        return 1;
    printf("frame 1001: %.6f kg\n", mass);
    back = gudrenoss_mass(image, size, 1002, 18.25, 1001, 293.5, &mass);
    printf("frame %u: refusal %u, %s; the mass is still %.6f kg\n", (unsigned)back.frame, (unsigned)back.number,
        gudrenoss_refusal_text(back.number), mass);
    return 0;
}
