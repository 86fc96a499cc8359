/* For a compiler that has no C library's headers beside it: <stdbool.h> of C11. */
#ifndef FREESTANDING_STDBOOL_H
#define FREESTANDING_STDBOOL_H

#ifndef __cplusplus
#define bool _Bool
#define true 1
#define false 0
#endif

#endif
