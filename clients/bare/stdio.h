/* For the kit's compiler, which brings no headers: what the clients use of this one, on x86-64 Linux. */
#ifndef BARE_STDIO_H
#define BARE_STDIO_H
int printf(const char *format, ...);
int getchar(void);
#endif
