/* The part of the C library's <string.h> that needs no system. */
#ifndef STRING_H
#define STRING_H

#include <stddef.h>

#define INLINE static inline __attribute__((always_inline, unused))

INLINE int memcmp(const void *one, const void *other, size_t length)
{
    const unsigned char *a = one, *b = other;
    for (size_t i = 0; i < length; i++)
        if (a[i] != b[i])
            return a[i] < b[i] ? -1 : 1;
    return 0;
}

INLINE void *memcpy(void *to, const void *from, size_t length)
{
    for (size_t i = 0; i < length; i++)
        ((unsigned char *) to)[i] = ((const unsigned char *) from)[i];
    return to;
}

INLINE void *memset(void *to, int value, size_t length)
{
    for (size_t i = 0; i < length; i++)
        ((unsigned char *) to)[i] = (unsigned char) value;
    return to;
}

INLINE void *memchr(const void *bytes, int value, size_t length)
{
    for (size_t i = 0; i < length; i++)
        if (((const unsigned char *) bytes)[i] == (unsigned char) value)
            return (unsigned char *) bytes + i;
    return NULL;
}

INLINE size_t strlen(const char *text)
{
    size_t length = 0;
    while (text[length])
        length++;
    return length;
}

INLINE int strncmp(const char *one, const char *other, size_t length)
{
    for (size_t i = 0; i < length; i++) {
        unsigned char a = (unsigned char) one[i], b = (unsigned char) other[i];
        if (a != b)
            return a < b ? -1 : 1;
        if (a == 0)
            break;
    }
    return 0;
}

INLINE int strcmp(const char *one, const char *other)
{
    return strncmp(one, other, (size_t) -1);
}

INLINE char *strchr(const char *text, int value)
{
    for (; *text != (char) value; text++)
        if (*text == 0)
            return NULL;
    return (char *) text;
}

#undef INLINE
#endif
