/* Counts the bytes that a program has allocated and not yet freed. Link with --wrap=malloc, --wrap=realloc and
 * --wrap=free. Each allocation has its length in front of it. */
#ifndef COUNTING_H
#define COUNTING_H
#include <stddef.h>

enum { LENGTH = 16 }; /* bytes in front, which keep the alignment of malloc(3) */

void *__real_malloc(size_t n);
void *__real_realloc(void *p, size_t n);
void __real_free(void *p);
void *__wrap_malloc(size_t n);
void *__wrap_realloc(void *p, size_t n);
void __wrap_free(void *p);

static size_t allocated; /* bytes that are not freed */

static char *noted(char *p, size_t n) {
    *(size_t *)p = n;
    allocated += n;
    return p + LENGTH;
}

void *__wrap_malloc(size_t n) {
    char *p = __real_malloc(n + LENGTH);
    return p ? noted(p, n) : NULL;
}

void *__wrap_realloc(void *of, size_t n) {
    char *before = of ? (char *)of - LENGTH : NULL;
    size_t old = of ? *(size_t *)before : 0;
    char *p = __real_realloc(before, n + LENGTH);
    if (!p) return NULL;
    allocated -= old;
    return noted(p, n);
}

void __wrap_free(void *of) {
    if (!of) return;
    char *p = (char *)of - LENGTH;
    allocated -= *(size_t *)p;
    __real_free(p);
}
#endif
