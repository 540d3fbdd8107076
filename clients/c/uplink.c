/* The surface of the small tank (example.c) as it is uplinked: one image with a table of degree 2 over three readings. It is made, checked, and asked for its table
 * and for the coefficient of a term; a damaged copy is refused with the place of the damage, and in pieces like the whole. Link with libgudrenoss.a. */
#include <gudrenoss.h>

#include <stdio.h>
#include <string.h>

enum { readings = 3, degree = 2, terms = 6, contents_len = 4 + 12, image_len = contents_len + 8 * terms, piece_len = 7 };

/* The coefficients of p p, p t, t t, p w, t w and w w, by the rank of the term. p, t, w are the readings 0, 1, 2. */
static const double coefficient[terms] = {0.25, -0.50, 0.125, 1.00, 0.75, -0.0625};

static void put(uint8_t *to, uint64_t number, int bytes)
{
    for (int i = 0; i < bytes; i++)
        to[i] = (uint8_t)(number >> 8 * i);
}

/* The image: how many tables there are, the one row, and its entries. */
static gudrenoss_refusal make(uint8_t image[image_len])
{
    uint8_t contents[contents_len], bodies[8 * terms];
    uint64_t bits, written;
    put(contents, 1, 4);
    put(contents + 4, 1 | degree << 8 | readings << 16, 4);
    put(contents + 8, contents_len, 4);
    put(contents + 12, terms, 4);
    for (int i = 0; i < terms; i++) {
        memcpy(&bits, &coefficient[i], 8);
        put(bodies + 8 * i, bits, 8);
    }
    return gudrenoss_image_write(contents, sizeof contents, bodies, sizeof bodies, image, image_len, &written);
}

/* The coefficient of a term, with the whole image judged first. */
static gudrenoss_refusal look_up(const uint8_t *image, const uint64_t *word, size_t len, double *value)
{
    uint64_t alphabet, bits, found;
    gudrenoss_refusal refusal = gudrenoss_pack(true, readings, word, len, &alphabet, &bits);
    if (refusal.number == GUDRENOSS_OK)
        refusal = gudrenoss_image_lookup(image, image_len, true, alphabet, bits, &found);
    if (refusal.number == GUDRENOSS_OK)
        memcpy(value, &found, 8);
    return refusal;
}

/* The verdict of the image as it comes, a few bytes at a time. */
static gudrenoss_refusal in_pieces(const uint8_t *image)
{
    uint8_t bytes[772];
    uint64_t seen, state, at, tables;
    bool open;
    (void)gudrenoss_pieces_start(bytes, &seen, &state, &at);
    for (size_t i = 0; i < image_len; i += piece_len)
        (void)gudrenoss_pieces_feed(bytes, &seen, &state, &at, image + i, image_len - i < piece_len ? image_len - i : piece_len);
    (void)gudrenoss_pieces_end(bytes, &seen, &state, &at);
    return gudrenoss_pieces_verdict(state, at, &open, &tables);
}

int main(void)
{
    const uint64_t pw[] = {0, 2}, one[] = {2};
    uint8_t image[image_len];
    uint64_t tables, alphabet, offset, entries;
    double value;
    gudrenoss_refusal refusal;

    if (make(image).number != GUDRENOSS_OK || gudrenoss_image_check(image, image_len, &tables).number != GUDRENOSS_OK
        || gudrenoss_image_row(image, image_len, true, degree, &alphabet, &offset, &entries).number != GUDRENOSS_OK
        || look_up(image, pw, 2, &value).number != GUDRENOSS_OK || in_pieces(image).number != GUDRENOSS_OK)
        return 1;
    printf("an image of %u bytes is good: %u table\n", (unsigned)image_len, (unsigned)tables);
    printf("degree %u: over %u readings, %u entries from byte %u\n", (unsigned)degree, (unsigned)alphabet, (unsigned)entries, (unsigned)offset);
    printf("the term p w has coefficient %.3f\n", value);
    printf("a term of degree 1, which has no table: refusal %u\n", (unsigned)look_up(image, one, 1, &value).number);
    image[5] = 65;
    refusal = gudrenoss_image_check(image, image_len, &tables);
    printf("with degree 65: refusal %u at byte %u\n", (unsigned)refusal.number, (unsigned)refusal.at);
    refusal = in_pieces(image);
    printf("in pieces of %u bytes: refusal %u at byte %u\n", (unsigned)piece_len, (unsigned)refusal.number, (unsigned)refusal.at);
    return 0;
}
