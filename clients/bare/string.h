/* For the kit's compiler, which brings no headers: what the clients use of this one, on x86-64 Linux. */
#ifndef BARE_STRING_H
#define BARE_STRING_H
#include <stddef.h>
int memcmp(const void *a, const void *b, size_t len);
void *memcpy(void *to, const void *from, size_t len);
int strcmp(const char *a, const char *b);
void *memset(void *to, int byte, size_t len);
#endif
