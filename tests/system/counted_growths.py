"""A C library that counts calls of malloc and realloc, and reports their number, the largest, and the sum of bytes."""

COUNTING = r"""
#include <stddef.h>
#include <stdio.h>
extern void *__libc_malloc(size_t);
extern void *__libc_realloc(void *, size_t);
static unsigned long growths = 0, largest = 0, all = 0;
static size_t counted(size_t n) { growths++; all += n; if (n > largest) largest = n; return n; }
void *malloc(size_t n) { return __libc_malloc(counted(n)); }
void *realloc(void *p, size_t n) { return __libc_realloc(p, counted(n)); }
__attribute__((destructor)) static void told(void) { dprintf(2, "\ngrowths %lu %lu %lu\n", growths, largest, all); }
"""
