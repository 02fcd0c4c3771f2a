/* The part of the C library's <stdlib.h> that needs no system. */
#ifndef STDLIB_H
#define STDLIB_H

#include <stddef.h>

#define INLINE static inline __attribute__((always_inline, unused))

INLINE int abs(int number) { return number < 0 ? -number : number; }
INLINE long labs(long number) { return number < 0 ? -number : number; }
INLINE long long llabs(long long number) { return number < 0 ? -number : number; }

#undef INLINE
#endif
