/* Shared by the tests of watchtree_threads.h. */
#ifndef THREADS_CHECKS_H
#define THREADS_CHECKS_H
#include "../checks.h"
#include "watchtree_threads.h"
#include <errno.h>
#include <inttypes.h>
#include <pthread.h>
#include <semaphore.h>
#include <stdio.h>
#include <stdlib.h>
#include <string.h>
#include <sys/inotify.h>
#include <unistd.h>

static inline pthread_t start(void *(*run)(void *), void *of) {
    pthread_t thread;
    IS(pthread_create(&thread, NULL, run, of), 0);
    return thread;
}

static inline void *join(pthread_t thread) {
    void *end;
    IS(pthread_join(thread, &end), 0);
    return end;
}

static inline void wait_for_post(sem_t *semaphore) {
    while (sem_wait(semaphore)) IS(errno, EINTR);
}

/* In watched.c. Returns once `wanted` waits have begun since the last call or since forget_waits. */
void wait_for_waits(unsigned wanted);
void forget_waits(void);
/* From now on a thread whose wait is over leaves it only once another wait has begun. */
void hold_until_next_wait(void);
/* Makes the next allocations of the layer fail. */
void fail_next(int count_of);
#endif
