/* For the kit's compiler, which brings no headers: what the clients use of this one, on x86-64 Linux. */
#ifndef BARE_STDDEF_H
#define BARE_STDDEF_H
typedef __SIZE_TYPE__ size_t;
#ifdef __cplusplus
#define NULL nullptr
#else
#define NULL ((void *)0)
#endif
#endif
