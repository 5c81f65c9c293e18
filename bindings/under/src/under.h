/* watchtree under: runs an unmodified program on a watchtree, by a FUSE mount and a seccomp filter. docs/UNDER.md says
 * what it does. This header has what every part uses. */
#ifndef UNDER_H
#define UNDER_H
#define _GNU_SOURCE
#include "watchtree.h"
#include <stdbool.h>
#include <stdint.h>
#include <string.h>
#include <sys/types.h>
#include <time.h>

/* A path or a name as wt_* take it. */
#define PATH(s) s, strlen(s)

/* A path of the tree (4,095 bytes), a slash, a name (255 bytes) and a zero byte. */
enum { PATH_SIZE = 4096 + 256 };

/* The exit statuses that are not the program's own. */
enum {
    STATUS_NOTHING_DELIVERED = 122,
    STATUS_LINES_LEFT = 123,
    STATUS_STALLED = 124,
    STATUS_FAULT = 125,
    STATUS_NOT_EXECUTABLE = 126,
    STATUS_NOT_FOUND = 127,
};

/* Prints a line on standard error. */
__attribute__((format(printf, 1, 2))) void say(const char *format, ...);
/* Prints a line and exits with STATUS_FAULT. */
__attribute__((format(printf, 1, 2))) _Noreturn void fault(const char *format, ...);
/* The same, with the text of errno. */
_Noreturn void fail(const char *what);

/* Milliseconds since some moment. */
int64_t clock_ms(void);
#endif
