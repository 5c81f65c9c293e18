/* What the test programs of `under` share: how they end at what must not fail, and how they print what a call answers.
 * Define _GNU_SOURCE first. */
#ifndef CHECKS_H
#define CHECKS_H
#include <errno.h>
#include <stdio.h>
#include <stdlib.h>
#include <string.h>

_Noreturn static inline void fail(const char *what) {
    printf("%s: %s\n", what, strerror(errno));
    exit(1);
}

static inline int must(int result, const char *what) {
    if (result < 0) fail(what);
    return result;
}

static inline void show(const char *name, long result) {
    printf("%s: %s\n", name, result < 0 ? strerrorname_np(errno) : "ok");
    fflush(stdout);
}
#endif
