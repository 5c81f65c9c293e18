/* Processes that change files at once.
 *   together same DIRECTORY ROUNDS       four make, rename and remove the same names; nothing but ENOENT may come of it
 *   together watched DIRECTORY ROUNDS    four change names of their own while four watch, and must get every event */
#define _GNU_SOURCE
#include "checks.h"
#include <errno.h>
#include <fcntl.h>
#include <poll.h>
#include <stdio.h>
#include <stdlib.h>
#include <string.h>
#include <sys/inotify.h>
#include <sys/wait.h>
#include <unistd.h>

enum { PROCESSES = 4 };

/* The statuses of all children: 0 where all are 0. */
static int wait_all(void) {
    int status, all = 0;
    while (wait(&status) > 0) all |= status != 0;
    return all;
}

/* ---- the same names */

static void change_same(unsigned process, long rounds) {
    long odd = 0;
    srand(process);
    for (long i = 0; i < rounds; i++) {
        char name[8] = { 'f', (char)('0' + rand() % 4), 0 }, other[8] = { 'f', (char)('0' + rand() % 4), 0 };
        int fd = open(name, O_CREAT | O_RDWR | (rand() % 2 ? O_TRUNC : 0), 0644);
        if (fd < 0) odd++, printf("open: %s\n", strerror(errno));
        else if (write(fd, "x", 1) != 1) odd++, printf("write: %s\n", strerror(errno));
        if (fd >= 0) close(fd);
        if ((rand() % 2 ? unlink(name) : rename(name, other)) && errno != ENOENT) odd++, printf("name: %s\n", strerror(errno));
    }
    exit(odd != 0);
}

/* ---- names of their own */

struct counts { long made, from, to, deleted, open_moves; };

static void count(struct counts *all, const char *bytes, ssize_t size) {
    static uint32_t moving;
    for (const char *at = bytes; at < bytes + size;) {
        const struct inotify_event *event = (const void *)at;
        if (event->mask & IN_Q_OVERFLOW) errno = EOVERFLOW, fail("queue");
        all->made += !!(event->mask & IN_CREATE);
        all->deleted += !!(event->mask & IN_DELETE);
        if (event->mask & IN_MOVED_FROM) all->from++, moving = event->cookie;
        if (event->mask & IN_MOVED_TO) all->to++, all->open_moves += event->cookie != moving;
        at += sizeof *event + event->len;
    }
}

/* Reads until every event came; if none comes for ten seconds, one is lost. */
static void watch(int fd, long all) {
    static _Alignas(8) char bytes[65536];
    struct counts counts = { 0 };
    struct pollfd it = { fd, POLLIN, 0 };
    while (counts.deleted < all && poll(&it, 1, 10000) == 1) {
        ssize_t size = read(fd, bytes, sizeof bytes);
        if (size < 0) fail("read");
        count(&counts, bytes, size);
    }
    if (counts.made == all && counts.from == all && counts.to == all && counts.deleted == all && !counts.open_moves) exit(0);
    printf("of %ld events: %ld made, %ld from, %ld to, %ld deleted, %ld without a pair\n", all, counts.made, counts.from,
           counts.to, counts.deleted, counts.open_moves);
    exit(1);
}

static void change_own(unsigned process, long rounds) {
    for (long i = 0; i < rounds; i++) {
        char name[32], other[32];
        snprintf(name, sizeof name, "%u-%ld", process, i);
        snprintf(other, sizeof other, "%u-%ld-moved", process, i);
        int fd = open(name, O_CREAT | O_EXCL | O_WRONLY, 0644);
        if (fd < 0 || write(fd, "x", 1) != 1 || close(fd)) fail(name);
        if (rename(name, other) || unlink(other)) fail(other);
    }
    exit(0);
}

int main(int words, char **word) {
    if (words != 4 || chdir(word[2])) return 2;
    long rounds = atol(word[3]);
    int watched = !strcmp(word[1], "watched");
    for (int i = 0; watched && i < PROCESSES; i++) {
        int fd = inotify_init1(IN_CLOEXEC);
        if (fd < 0 || inotify_add_watch(fd, ".", IN_CREATE | IN_DELETE | IN_MOVE) < 0) fail("watch");
        if (!fork()) watch(fd, PROCESSES * rounds);
        close(fd);
    }
    for (unsigned i = 0; i < PROCESSES; i++) {
        if (fork()) continue;
        if (watched) change_own(i, rounds);
        change_same(i, rounds);
    }
    int status = wait_all();
    if (!status) printf("%d processes of %ld rounds\n", PROCESSES, rounds);
    return status;
}
