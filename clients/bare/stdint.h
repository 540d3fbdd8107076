/* For the kit's compiler, which brings no headers: what the clients use of this one, where long has 64 bits. */
#ifndef BARE_STDINT_H
#define BARE_STDINT_H
typedef __UINT8_TYPE__ uint8_t;
typedef __UINT64_TYPE__ uint64_t;
typedef __INT64_TYPE__ int64_t;
#define UINT64_C(n) n##UL
#define UINT64_MAX (~UINT64_C(0))
#define INT64_MAX ((int64_t)(UINT64_MAX >> 1))
#define INT64_MIN (-INT64_MAX - 1)
#endif
