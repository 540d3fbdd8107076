/* For the kit's compiler, which brings no headers: what the clients use of this one, on x86-64 Linux. */
#ifndef BARE_STDBOOL_H
#define BARE_STDBOOL_H
#ifndef __cplusplus
#define bool _Bool
#define false 0
#define true 1
#endif
#endif
