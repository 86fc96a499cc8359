/* For a compiler that has no C library's headers beside it: what the example uses of <stdio.h>. */
#ifndef FREESTANDING_STDIO_H
#define FREESTANDING_STDIO_H

int printf(const char *form, ...);

#endif
