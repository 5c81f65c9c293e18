/* How the tests of watchtree.h and watchtree_threads.h compare what a call returns. */
#ifndef CHECKS_H
#define CHECKS_H
#include <inttypes.h>
#include <stdio.h>
#include <string.h>
#include <unistd.h>

#define PATH(s) s, strlen(s)
#define IS(call, wanted) is(__FILE__, __LINE__, #call, (call), (wanted))
#define HOLDS(what) is(__FILE__, __LINE__, #what, !!(what), 1)

/* Ends the test at the first answer that is wrong. */
static inline void is(const char *file, int line, const char *what, int64_t number, int64_t wanted) {
    if (number == wanted) return;
    printf("%s:%d: %s is %" PRId64 ", expected %" PRId64 "\n", file, line, what, number, wanted);
    fflush(NULL);
    _exit(1);
}
#endif
