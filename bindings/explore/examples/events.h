/* What the examples have in common: the records of an instance, one after the other, and a set of paths that is printed as it
 * changes, `+ PATH` and `- PATH`. */
#ifndef EVENTS_H
#define EVENTS_H
#define _GNU_SOURCE
#include <dirent.h>
#include <limits.h>
#include <stdbool.h>
#include <stdio.h>
#include <stdlib.h>
#include <string.h>
#include <sys/inotify.h>
#include <sys/stat.h>
#include <unistd.h>

enum { MOST = 4096 };

static int inotify_fd;
static char *known[MOST];
static int known_count;

static inline int find_path(const char *path) {
    for (int i = 0; i < known_count; i++) if (!strcmp(known[i], path)) return i;
    return -1;
}

static inline void add_path(const char *path) {
    if (find_path(path) >= 0) return;
    if (known_count == MOST) exit(3);
    known[known_count++] = strdup(path);
    printf("+ %s\n", path);
    fflush(stdout);
}

static inline void remove_path(const char *path) {
    int at = find_path(path);
    if (at < 0) return;
    printf("- %s\n", path);
    fflush(stdout);
    free(known[at]);
    known[at] = known[--known_count];
}

/* The directory of a watch, and a path in it. */
static char *directories[MOST];

static inline void path_in(const char *directory, const char *name, char path[PATH_MAX]) {
    if ((size_t)snprintf(path, PATH_MAX, "%s/%s", directory, name) >= PATH_MAX) exit(3);
}

static inline int watch_directory(const char *path, uint32_t mask) {
    int wd = inotify_add_watch(inotify_fd, path, mask | IN_ONLYDIR);
    if (wd < 0) return wd;
    if (wd >= MOST) exit(3);
    free(directories[wd]);
    directories[wd] = strdup(path);
    return wd;
}

static inline void open_instance(void) {
    inotify_fd = inotify_init1(IN_CLOEXEC);
    if (inotify_fd < 0) {
        perror("inotify_init1");
        exit(1);
    }
}

/* Reads forever, and hands over each read as a whole. */
static inline void read_events(void (*handle)(const char *bytes, size_t size)) {
    static char bytes[65536] __attribute__((aligned(8)));
    for (ssize_t size; (size = read(inotify_fd, bytes, sizeof bytes)) > 0;) handle(bytes, (size_t)size);
    perror("read");
    exit(1);
}

static inline const struct inotify_event *event_at(const char *bytes, size_t at) {
    return (const struct inotify_event *)(const void *)(bytes + at);
}

static inline size_t event_size(const struct inotify_event *event) { return sizeof *event + event->len; }
#endif
