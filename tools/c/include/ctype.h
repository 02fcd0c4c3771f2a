/* <ctype.h> of the C locale. */
#ifndef CTYPE_H
#define CTYPE_H

#define INLINE static inline __attribute__((always_inline, unused))

INLINE int isdigit(int c) { return c >= '0' && c <= '9'; }
INLINE int isupper(int c) { return c >= 'A' && c <= 'Z'; }
INLINE int islower(int c) { return c >= 'a' && c <= 'z'; }
INLINE int isalpha(int c) { return isupper(c) || islower(c); }
INLINE int isalnum(int c) { return isalpha(c) || isdigit(c); }
INLINE int isspace(int c) { return c == ' ' || (c >= '\t' && c <= '\r'); }
INLINE int isgraph(int c) { return c > ' ' && c <= '~'; }
INLINE int isprint(int c) { return c >= ' ' && c <= '~'; }
INLINE int ispunct(int c) { return isgraph(c) && !isalnum(c); }
INLINE int isxdigit(int c) { return isdigit(c) || (c >= 'a' && c <= 'f') || (c >= 'A' && c <= 'F'); }
INLINE int tolower(int c) { return isupper(c) ? c + ('a' - 'A') : c; }
INLINE int toupper(int c) { return islower(c) ? c - ('a' - 'A') : c; }

#undef INLINE
#endif
