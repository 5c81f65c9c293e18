/* Linked with --wrap for each wt_* function with a tree, for pthread_cond_wait and pthread_cond_timedwait, and for
 * calloc and mmap: bindings/test_threads reads the names from this file.
 * The library is not compiled for ThreadSanitizer, which does not see what it touches. So each call of it also writes
 * the struct wt_tree here, and two calls at the same time are a data race that the sanitizer reports. */
#include "checks.h"
#include <sys/mman.h>

static void touch(struct wt_tree *t) {
    volatile bool *ready = &t->ready;
    *ready = *ready;
}

#define WRAP(name, parameters, arguments) \
    int64_t __real_##name parameters; \
    int64_t __wrap_##name parameters; \
    int64_t __wrap_##name parameters { \
        touch(t); \
        int64_t number = __real_##name arguments; \
        touch(t); \
        return number; \
    }
#define TREE struct wt_tree *t
#define WITH_PATH struct wt_tree *t, const char *p, size_t n
WRAP(wt_fork, (TREE, struct wt_tree *f), (t, f))
WRAP(wt_cut, (TREE), (t))
WRAP(wt_mkdir, (WITH_PATH, uint32_t a), (t, p, n, a))
WRAP(wt_create, (WITH_PATH, uint32_t a), (t, p, n, a))
WRAP(wt_write, (WITH_PATH, uint64_t a, const void *q, size_t m), (t, p, n, a, q, m))
WRAP(wt_pread, (WITH_PATH, uint64_t a, void *q, size_t m), (t, p, n, a, q, m))
WRAP(wt_truncate, (WITH_PATH, uint64_t a), (t, p, n, a))
WRAP(wt_chmod, (WITH_PATH, uint32_t a), (t, p, n, a))
WRAP(wt_link, (WITH_PATH, const char *q, size_t m), (t, p, n, q, m))
WRAP(wt_unlink, (WITH_PATH), (t, p, n))
WRAP(wt_rmdir, (WITH_PATH), (t, p, n))
WRAP(wt_rename, (WITH_PATH, const char *q, size_t m), (t, p, n, q, m))
WRAP(wt_rename2, (WITH_PATH, const char *q, size_t m, uint32_t a), (t, p, n, q, m, a))
WRAP(wt_stat, (WITH_PATH, struct wt_stat *a), (t, p, n, a))
WRAP(wt_list, (WITH_PATH, void *q, size_t m), (t, p, n, q, m))
WRAP(wt_inotify_init, (TREE, uint32_t a), (t, a))
WRAP(wt_inotify_add_watch, (TREE, uint32_t i, const char *p, size_t n, uint32_t a), (t, i, p, n, a))
WRAP(wt_inotify_rm_watch, (TREE, uint32_t i, int32_t a), (t, i, a))
WRAP(wt_read, (TREE, uint32_t i, void *q, size_t m), (t, i, q, m))
WRAP(wt_waiting, (TREE, uint32_t i), (t, i))
WRAP(wt_bytes_waiting, (TREE, uint32_t i), (t, i))
WRAP(wt_ready, (TREE, uint32_t *q, size_t m), (t, q, m))
WRAP(wt_peek_stat, (WITH_PATH, struct wt_stat *a), (t, p, n, a))
WRAP(wt_peek_list, (WITH_PATH, void *q, size_t m), (t, p, n, q, m))
WRAP(wt_peek_pread, (WITH_PATH, uint64_t a, void *q, size_t m), (t, p, n, a, q, m))
WRAP(wt_path_of, (TREE, uint64_t a, void *q, size_t m), (t, a, q, m))
WRAP(wt_first_place, (TREE), (t))
WRAP(wt_last_place, (TREE), (t))
WRAP(wt_entry, (TREE, uint64_t a, void *q, size_t m), (t, a, q, m))
WRAP(wt_inotify_close, (TREE, uint32_t i), (t, i))
WRAP(wt_line, (TREE, uint32_t i, const char *p, size_t n, void *q, size_t m), (t, i, p, n, q, m))
WRAP(wt_text, (TREE, void *q, size_t m), (t, q, m))

/* A thread is counted while it holds the tree's lock. Once another thread that saw the count has had the lock, the first
 * one waits. */
static pthread_mutex_t lock = PTHREAD_MUTEX_INITIALIZER;
static pthread_cond_t changed = PTHREAD_COND_INITIALIZER;
static unsigned waits;
static bool is_held; /* threads whose wait is over stay in it until another one begins */

int __real_pthread_cond_wait(pthread_cond_t *it, pthread_mutex_t *held);
int __wrap_pthread_cond_wait(pthread_cond_t *it, pthread_mutex_t *held);
int __real_pthread_cond_timedwait(pthread_cond_t *it, pthread_mutex_t *held, const struct timespec *end);
int __wrap_pthread_cond_timedwait(pthread_cond_t *it, pthread_mutex_t *held, const struct timespec *end);

static void count(void) {
    pthread_mutex_lock(&lock);
    waits++;
    is_held = false;
    pthread_cond_broadcast(&changed);
    pthread_mutex_unlock(&lock);
}

static void stay_if_held(void) {
    pthread_mutex_lock(&lock);
    while (is_held) __real_pthread_cond_wait(&changed, &lock);
    pthread_mutex_unlock(&lock);
}

void hold_until_next_wait(void) {
    pthread_mutex_lock(&lock);
    is_held = true;
    pthread_mutex_unlock(&lock);
}

int __wrap_pthread_cond_wait(pthread_cond_t *it, pthread_mutex_t *held) {
    count();
    int error = __real_pthread_cond_wait(it, held);
    stay_if_held();
    return error;
}

int __wrap_pthread_cond_timedwait(pthread_cond_t *it, pthread_mutex_t *held, const struct timespec *end) {
    count();
    return __real_pthread_cond_timedwait(it, held, end);
}

void wait_for_waits(unsigned wanted) {
    pthread_mutex_lock(&lock);
    while (waits < wanted) __real_pthread_cond_wait(&changed, &lock);
    waits = 0;
    pthread_mutex_unlock(&lock);
}

void forget_waits(void) {
    pthread_mutex_lock(&lock);
    waits = 0;
    pthread_mutex_unlock(&lock);
}

/* The next `count_of` allocations of the layer fail. */
static int failing;
void fail_next(int count_of) { failing = count_of; }
static bool fails(void) { return failing > 0 && failing--; }

void *__real_calloc(size_t count_of, size_t size);
void *__wrap_calloc(size_t count_of, size_t size);
void *__wrap_calloc(size_t count_of, size_t size) { return fails() ? NULL : __real_calloc(count_of, size); }
void *__real_mmap(void *at, size_t n, int prot, int flags, int fd, off_t offset);
void *__wrap_mmap(void *at, size_t n, int prot, int flags, int fd, off_t offset);
void *__wrap_mmap(void *at, size_t n, int prot, int flags, int fd, off_t offset) {
    if (!fails()) return __real_mmap(at, n, prot, flags, fd, offset);
    errno = ENOMEM;
    return MAP_FAILED;
}
int __real_madvise(void *at, size_t n, int advice);
int __wrap_madvise(void *at, size_t n, int advice);
int __wrap_madvise(void *at, size_t n, int advice) {
    if (!fails()) return __real_madvise(at, n, advice);
    errno = EINVAL;
    return -1;
}
