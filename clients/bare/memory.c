/* For WebAssembly, where there is no C library: the functions that the compiler and the clients call. */
#include <stdbool.h>
#include <stdint.h>
#include <string.h>

int memcmp(const void *a, const void *b, size_t len)
{
    const unsigned char *p = a, *q = b;
    for (size_t i = 0; i < len; i++)
        if (p[i] != q[i])
            return p[i] < q[i] ? -1 : 1;
    return 0;
}

void *memcpy(void *to, const void *from, size_t len)
{
    unsigned char *p = to;
    const unsigned char *q = from;
    for (size_t i = 0; i < len; i++)
        p[i] = q[i];
    return to;
}

void *memset(void *to, int byte, size_t len)
{
    unsigned char *p = to;
    for (size_t i = 0; i < len; i++)
        p[i] = (unsigned char)byte;
    return to;
}

int strcmp(const char *a, const char *b)
{
    while (*a != '\0' && *a == *b)
        a++, b++;
    return (unsigned char)*a < (unsigned char)*b ? -1 : *a != *b;
}

/* Division of numbers of 128 bits, which the model uses and the compiler calls. */
__extension__ typedef unsigned __int128 wide;

static wide divided(wide n, wide d, wide *rest)
{
    uint64_t high = (uint64_t)(n >> 64), low = (uint64_t)n, by_high = (uint64_t)(d >> 64), by_low = (uint64_t)d;
    uint64_t left_high = 0, left_low = 0, times_high = 0, times_low = 0;
    for (int i = 0; i < 128; i++) {
        bool carry = left_high >> 63;
        left_high = left_high << 1 | left_low >> 63;
        left_low = left_low << 1 | high >> 63;
        high = high << 1 | low >> 63;
        low <<= 1;
        bool fits = carry || left_high > by_high || (left_high == by_high && left_low >= by_low);
        if (fits) {
            left_high -= by_high + (left_low < by_low);
            left_low -= by_low;
        }
        times_high = times_high << 1 | times_low >> 63;
        times_low = times_low << 1 | fits;
    }
    *rest = (wide)left_high << 64 | left_low;
    return (wide)times_high << 64 | times_low;
}

wide __udivti3(wide n, wide d);
wide __umodti3(wide n, wide d);

wide __udivti3(wide n, wide d)
{
    wide rest;
    return divided(n, d, &rest);
}

wide __umodti3(wide n, wide d)
{
    wide rest;
    divided(n, d, &rest);
    return rest;
}
