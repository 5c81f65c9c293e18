/* The calls of churn.make without and with the lock of watchtree_threads.h: nanoseconds of processor time a call, and
 * of the clock where two threads call.
 *   threads MODE ROUNDS
 * plain      wt_*, without a lock
 * locked     wtt_*, and nobody waits
 * fd         the instance that is read has a descriptor
 * fds        128 instances have one each
 * waiting    another thread waits in wtt_read for an instance of another directory
 * two        two threads call at the same time, each in a directory of its own */
#include "watchtree_threads.h"
#include <pthread.h>
#include <stdio.h>
#include <stdlib.h>
#include <string.h>
#include <time.h>
#include <unistd.h>

#define PATH(s) s, strlen(s)
enum { PER_ROUND = 5 };

static struct wt_tree plain = WT_TREE_INIT;
static struct wtt *tree;
static long rounds;
static int64_t refused;

static void must(int64_t number) {
    if (number < 0) __atomic_fetch_add(&refused, 1, __ATOMIC_RELAXED);
}

static void call_plain(void) {
    char out[4096];
    for (long i = 0; i < rounds; i++) {
        must(wt_create(&plain, PATH("/d/f"), 0644));
        must(wt_write(&plain, PATH("/d/f"), 0, "ab", 2));
        must(wt_rename(&plain, PATH("/d/f"), PATH("/d/g")));
        must(wt_unlink(&plain, PATH("/d/g")));
        must(wt_read(&plain, 1, out, sizeof out));
        if (i % 100000 == 99999) must(wt_cut(&plain));
    }
}

/* As call_plain; the directory and the instance are those of a thread. */
static void *call_locked(void *of) {
    uint32_t instance = (uint32_t)(long)of;
    char out[4096], f[] = "/d/f", g[] = "/d/g";
    f[1] = g[1] = instance == 1 ? 'd' : 'e';
    for (long i = 0; i < rounds; i++) {
        must(wtt_create(tree, PATH(f), 0644));
        must(wtt_write(tree, PATH(f), 0, "ab", 2));
        must(wtt_rename(tree, PATH(f), PATH(g)));
        must(wtt_unlink(tree, PATH(g)));
        must(wtt_read(tree, instance, out, sizeof out, 0));
        if (i % 100000 == 99999) must(wtt_cut(tree));
    }
    return NULL;
}

static void *wait_in_vain(void *of) {
    char out[64];
    wtt_read(tree, 2, out, sizeof out, -1);
    return of;
}

int main(int count, char **words) {
    struct timespec begin, end;
    if (count != 3) return 2;
    const char *mode = words[1];
    rounds = atol(words[2]);
    must(wt_open(&plain)), must(wt_mkdir(&plain, PATH("/d"), 0755)), must(wt_inotify_init(&plain, 16384));
    must(wt_inotify_add_watch(&plain, 1, PATH("/d"), 0xfff));
    must(wtt_open(&tree)), must(wtt_mkdir(tree, PATH("/d"), 0755)), must(wtt_mkdir(tree, PATH("/e"), 0755));
    must(wtt_inotify_init(tree, 16384)), must(wtt_inotify_init(tree, 16384));
    must(wtt_inotify_add_watch(tree, 1, PATH("/d"), 0xfff)), must(wtt_inotify_add_watch(tree, 2, PATH("/e"), 0xfff));
    if (!strcmp(mode, "fds"))
        for (int i = 3; i <= 128; i++) must(wtt_inotify_init(tree, 16384));
    for (uint32_t i = 1; !strcmp(mode, "fds") ? i <= 128 : !strcmp(mode, "fd") && i == 1; i++) must(wtt_fd(tree, i));
    pthread_t other;
    if (!strcmp(mode, "waiting")) pthread_create(&other, NULL, wait_in_vain, NULL);
    clockid_t clock = strcmp(mode, "two") ? CLOCK_THREAD_CPUTIME_ID : CLOCK_MONOTONIC;
    clock_gettime(clock, &begin);
    if (!strcmp(mode, "two")) pthread_create(&other, NULL, call_locked, (void *)2L);
    if (!strcmp(mode, "plain")) call_plain();
    else call_locked((void *)1L);
    if (!strcmp(mode, "two")) pthread_join(other, NULL);
    clock_gettime(clock, &end);
    wtt_shutdown(tree);
    if (!strcmp(mode, "waiting")) pthread_join(other, NULL);
    wtt_close(tree), wt_close(&plain);
    double took = (double)(end.tv_sec - begin.tv_sec) * 1e9 + (double)(end.tv_nsec - begin.tv_nsec);
    printf("%.0f\n", took / (double)(PER_ROUND * rounds * (strcmp(mode, "two") ? 1 : 2)));
    return refused != 0;
}
