/* What the tool says on standard error, and the clock that its waits go by. */
#include "command/options.h"
#include <errno.h>
#include <stdarg.h>
#include <stdio.h>
#include <unistd.h>

static void say_list(const char *format, va_list list) {
    char text[2048];
    int start = snprintf(text, sizeof text, "watchtree %s: ", options.is_record ? "record" : "under");
    vsnprintf(text + start, sizeof text - (size_t)start - 1, format, list);
    /* One write, so that the program's own lines do not cut it. */
    dprintf(STDERR_FILENO, "%s\n", text);
}

void say(const char *format, ...) {
    va_list list;
    va_start(list, format);
    say_list(format, list);
    va_end(list);
}

void fault(const char *format, ...) {
    va_list list;
    va_start(list, format);
    say_list(format, list);
    va_end(list);
    _exit(STATUS_FAULT);
}

void fail(const char *what) { fault("%s: %s", what, strerror(errno)); }

int64_t clock_ms(void) {
    struct timespec t;
    clock_gettime(CLOCK_MONOTONIC, &t);
    return t.tv_sec * 1000 + t.tv_nsec / 1000000;
}
