/* One tree for several threads, over the proved library. Nothing here is proved. The argument is: the struct wt_tree is
 * touched only between `lock` and `unlock`, so one thread at a time calls the library, as its contracts ask. `tree_of`
 * is the only way to it, and clang -Wthread-safety refuses a use of that without the lock. Before each unlock `notify`
 * makes the descriptors and the waiting threads agree with the queues. */
#define _GNU_SOURCE
#include "watchtree_threads.h"
#include <errno.h>
#include <fcntl.h>
#include <pthread.h>
#include <stdlib.h>
#include <sys/eventfd.h>
#include <sys/mman.h>
#include <time.h>
#include <unistd.h>

#ifdef __clang__
#define CAPABILITY __attribute__((capability("mutex")))
#define NEEDS_LOCK __attribute__((requires_capability(t->mutex)))
#define TAKES_LOCK __attribute__((acquire_capability(t->mutex), no_thread_safety_analysis))
#define GIVES_LOCK __attribute__((release_capability(t->mutex), no_thread_safety_analysis))
#define UNCHECKED __attribute__((no_thread_safety_analysis))
#else
#define CAPABILITY
#define NEEDS_LOCK
#define TAKES_LOCK
#define GIVES_LOCK
#define UNCHECKED
#endif

enum { INSTANCES = 128 }; /* that are open at a time, at most */
enum { NONE = 0, ANY = UINT32_MAX }; /* beside the numbers of instances */

/* An instance that a thread has waited for or that has a descriptor. */
struct listened {
    struct listened *next; /* of a higher number */
    uint32_t instance;
    unsigned waiters;
    int fd; /* an eventfd, or -1 */
    bool has_records, is_closed;
    pthread_cond_t changed;
};

struct CAPABILITY mutex { pthread_mutex_t of; };

/* A page of its own, which fork(2) fills with zero bytes in the child: an unlocked lock and a tree that is not open. */
struct wtt {
    struct mutex mutex;
    struct wt_tree tree_;
    struct listened *first;
    unsigned waiters; /* of all instances */
    pthread_cond_t left; /* none waits any more */
    bool has_line;
    pthread_t line_by;
};

static void lock(struct wtt *t) TAKES_LOCK { pthread_mutex_lock(&t->mutex.of); }
static void unlock(struct wtt *t) GIVES_LOCK { pthread_mutex_unlock(&t->mutex.of); }
static struct wt_tree *tree_of(struct wtt *t) NEEDS_LOCK { return &t->tree_; }

/* write(2), read(2) and close(2) are cancellation points, and a thread cancelled in one would keep the lock. */
static void set_readable(int fd, bool is_readable) {
    uint64_t count = 1;
    int state;
    pthread_setcancelstate(PTHREAD_CANCEL_DISABLE, &state);
    ssize_t done = is_readable ? write(fd, &count, sizeof count) : read(fd, &count, sizeof count);
    (void)done; /* neither fails: the count stays small, and a read finds what a write left */
    pthread_setcancelstate(state, NULL);
}

static void close_descriptor(int fd) {
    int state;
    pthread_setcancelstate(PTHREAD_CANCEL_DISABLE, &state);
    close(fd);
    pthread_setcancelstate(state, NULL);
}

static void end_listened(struct listened *it) {
    pthread_cond_destroy(&it->changed);
    free(it);
}

/* After a call: each descriptor is readable exactly while records wait, and a thread that waits for them is woken.
 * `has_read` is the instance that the call read: if it left records behind, they are announced again. */
static void notify(struct wtt *t, uint32_t has_read) NEEDS_LOCK {
    uint32_t ready[INSTANCES];
    if (!t->first) return;
    int64_t count = wt_ready(tree_of(t), ready, INSTANCES), at = 0;
    if (count > INSTANCES) abort(); /* the library has another limit than this file */
    for (struct listened *it = t->first; it; it = it->next) {
        while (at < count && ready[at] < it->instance) at++;
        bool has_records = at < count && ready[at] == it->instance;
        bool is_left = has_records && (has_read == ANY || has_read == it->instance);
        if (it->fd >= 0 && (is_left || has_records != it->has_records)) set_readable(it->fd, has_records);
        if (it->waiters && has_records) pthread_cond_signal(&it->changed);
        it->has_records = has_records;
    }
}

/* Ends what is kept of an instance that is closed; the last thread that waits for it frees it. The callers' copies of
 * its descriptor stay readable. */
static void end_instance(struct wtt *t, struct listened **at) NEEDS_LOCK {
    struct listened *it = *at;
    *at = it->next;
    it->is_closed = true;
    if (it->fd >= 0) {
        set_readable(it->fd, true);
        close_descriptor(it->fd);
    }
    if (it->waiters) pthread_cond_broadcast(&it->changed);
    else end_listened(it);
    (void)t;
}

/* After a call that can close an instance. */
static void end_closed(struct wtt *t) NEEDS_LOCK {
    for (struct listened **at = &t->first; *at;)
        if (wt_waiting(tree_of(t), (*at)->instance) < 0) end_instance(t, at);
        else at = &(*at)->next;
}

/* What is kept of an open instance, which is made if there is nothing yet. NULL if there is no memory. */
static struct listened *listen_to(struct wtt *t, uint32_t instance) NEEDS_LOCK {
    struct listened **at = &t->first, *it;
    pthread_condattr_t monotonic;
    while (*at && (*at)->instance < instance) at = &(*at)->next;
    if (*at && (*at)->instance == instance) return *at;
    it = calloc(1, sizeof *it);
    if (!it) return NULL;
    pthread_condattr_init(&monotonic);
    pthread_condattr_setclock(&monotonic, CLOCK_MONOTONIC);
    pthread_cond_init(&it->changed, &monotonic);
    pthread_condattr_destroy(&monotonic);
    it->next = *at;
    it->instance = instance;
    it->fd = -1;
    it->has_records = wt_waiting(tree_of(t), instance) > 0;
    return *at = it;
}

/* Stores a tree that is not open. 0, or the errno of mmap(2) or madvise(2). */
static int64_t new_tree(struct wtt **tree) {
    *tree = NULL;
    struct wtt *t = mmap(NULL, sizeof *t, PROT_READ | PROT_WRITE, MAP_PRIVATE | MAP_ANONYMOUS, -1, 0);
    if (t == MAP_FAILED) return -errno;
    if (madvise(t, sizeof *t, MADV_WIPEONFORK)) {
        int64_t number = -errno;
        munmap(t, sizeof *t);
        return number;
    }
    pthread_mutex_init(&t->mutex.of, NULL);
    pthread_cond_init(&t->left, NULL);
    *tree = t;
    return 0;
}

/* Frees a new tree if opening it failed, and returns what opening it returned. */
static int64_t opened(struct wtt **tree, int64_t number) {
    if (number) {
        wtt_close(*tree);
        *tree = NULL;
    }
    return number;
}

int64_t wtt_open(struct wtt **tree) {
    int64_t number = new_tree(tree);
    struct wtt *t = *tree;
    if (number) return number;
    lock(t);
    number = wt_open(tree_of(t));
    unlock(t);
    return opened(tree, number);
}

/* Nobody knows the fork yet, so its lock, which comes first, keeps nobody waiting. */
int64_t wtt_fork(struct wtt *t, struct wtt **fork) {
    int64_t number = new_tree(fork);
    struct wtt *copy = *fork;
    if (number) return number;
    lock(copy);
    lock(t);
    number = wt_fork(tree_of(t), tree_of(copy));
    unlock(t);
    unlock(copy);
    return opened(fork, number);
}

/* Ends each instance and the tree. Threads that wait are woken, and leave once they have the lock. */
static void shut(struct wtt *t) NEEDS_LOCK {
    while (t->first) end_instance(t, &t->first);
    wt_close(tree_of(t));
}

void wtt_shutdown(struct wtt *t) {
    lock(t);
    shut(t);
    unlock(t);
}

void wtt_close(struct wtt *t) {
    int state;
    if (!t) return;
    pthread_setcancelstate(PTHREAD_CANCEL_DISABLE, &state);
    lock(t);
    shut(t);
    while (t->waiters) pthread_cond_wait(&t->left, &t->mutex.of);
    unlock(t);
    pthread_cond_destroy(&t->left);
    pthread_mutex_destroy(&t->mutex.of);
    munmap(t, sizeof *t);
    pthread_setcancelstate(state, NULL);
}

struct wait {
    struct wtt *tree;
    struct listened *instance;
};

static void stop_waiting(struct wait *w) {
    if (--w->instance->waiters == 0 && w->instance->is_closed) end_listened(w->instance);
    if (--w->tree->waiters == 0) pthread_cond_signal(&w->tree->left);
}

/* A thread that is cancelled while it waits has the lock here. It used up no signal: pthread_cond_wait says so. */
UNCHECKED static void end_cancelled(void *of) {
    struct wait *w = of;
    stop_waiting(w);
    unlock(w->tree);
}

/* Waits until records of an instance wait, at most until `end` if that is not NULL. As wt_waiting, or -ENOMEM. */
static int64_t wait_for(struct wtt *t, uint32_t instance, const struct timespec *end) NEEDS_LOCK {
    struct wait w = { t, listen_to(t, instance) };
    int64_t number = 0;
    int is_over = 0;
    if (!w.instance) return -ENOMEM;
    w.instance->waiters++;
    t->waiters++;
    pthread_cleanup_push(end_cancelled, &w);
    while (number == 0 && !is_over) {
        if (end) is_over = pthread_cond_timedwait(&w.instance->changed, &t->mutex.of, end);
        else pthread_cond_wait(&w.instance->changed, &t->mutex.of);
        number = w.instance->is_closed ? -EBADF : wt_waiting(tree_of(t), instance);
    }
    pthread_cleanup_pop(0);
    stop_waiting(&w);
    return number;
}

int64_t wtt_read(struct wtt *t, uint32_t instance, void *out, size_t out_len, int milliseconds) {
    struct timespec end = { 0 };
    if (milliseconds > 0) {
        clock_gettime(CLOCK_MONOTONIC, &end);
        long nanoseconds = end.tv_nsec + milliseconds % 1000 * 1000000L;
        end.tv_sec += milliseconds / 1000 + nanoseconds / 1000000000L;
        end.tv_nsec = nanoseconds % 1000000000L;
    }
    lock(t);
    int64_t number = wt_waiting(tree_of(t), instance);
    if (number == 0 && milliseconds) number = wait_for(t, instance, milliseconds > 0 ? &end : NULL);
    if (number == 0) number = -EAGAIN;
    if (number > 0) number = wt_read(tree_of(t), instance, out, out_len);
    notify(t, instance);
    unlock(t);
    return number;
}

int64_t wtt_fd(struct wtt *t, uint32_t instance) {
    lock(t);
    int64_t number = wt_waiting(tree_of(t), instance);
    if (number >= 0) {
        struct listened *it = listen_to(t, instance);
        if (it && it->fd < 0) it->fd = eventfd(it->has_records, EFD_CLOEXEC | EFD_NONBLOCK);
        number = !it ? -ENOMEM : it->fd < 0 ? -errno : fcntl(it->fd, F_DUPFD_CLOEXEC, 0);
        if (number == -1) number = -errno;
    }
    unlock(t);
    return number;
}

int64_t wtt_line(struct wtt *t, uint32_t queue, const char *line, size_t line_len, void *out, size_t out_len) {
    lock(t);
    int64_t number = wt_line(tree_of(t), queue, line, line_len, out, out_len);
    t->has_line = true;
    t->line_by = pthread_self();
    end_closed(t);
    notify(t, ANY);
    unlock(t);
    return number;
}

int64_t wtt_text(struct wtt *t, void *out, size_t out_len) {
    lock(t);
    bool is_own = !t->has_line || pthread_equal(t->line_by, pthread_self());
    int64_t number = is_own ? wt_text(tree_of(t), out, out_len) : -ESTALE;
    unlock(t);
    return number;
}

int64_t wtt_inotify_close(struct wtt *t, uint32_t instance) {
    lock(t);
    int64_t number = wt_inotify_close(tree_of(t), instance);
    end_closed(t);
    unlock(t);
    return number;
}

/* The calls with nothing more to them. */
#define CALL(name, parameters, call) \
    int64_t wtt_##name parameters { \
        lock(t); \
        int64_t number = call; \
        notify(t, NONE); \
        unlock(t); \
        return number; \
    }
CALL(cut, (struct wtt *t), wt_cut(tree_of(t)))
CALL(mkdir, (struct wtt *t, const char *path, size_t n, uint32_t mode), wt_mkdir(tree_of(t), path, n, mode))
CALL(create, (struct wtt *t, const char *path, size_t n, uint32_t mode), wt_create(tree_of(t), path, n, mode))
CALL(write, (struct wtt *t, const char *path, size_t n, uint64_t offset, const void *bytes, size_t m),
     wt_write(tree_of(t), path, n, offset, bytes, m))
CALL(pread, (struct wtt *t, const char *path, size_t n, uint64_t offset, void *out, size_t m),
     wt_pread(tree_of(t), path, n, offset, out, m))
CALL(truncate, (struct wtt *t, const char *path, size_t n, uint64_t len), wt_truncate(tree_of(t), path, n, len))
CALL(chmod, (struct wtt *t, const char *path, size_t n, uint32_t mode), wt_chmod(tree_of(t), path, n, mode))
CALL(link, (struct wtt *t, const char *old, size_t n, const char *to, size_t m), wt_link(tree_of(t), old, n, to, m))
CALL(unlink, (struct wtt *t, const char *path, size_t n), wt_unlink(tree_of(t), path, n))
CALL(rmdir, (struct wtt *t, const char *path, size_t n), wt_rmdir(tree_of(t), path, n))
CALL(rename, (struct wtt *t, const char *old, size_t n, const char *to, size_t m), wt_rename(tree_of(t), old, n, to, m))
CALL(rename2, (struct wtt *t, const char *old, size_t n, const char *to, size_t m, uint32_t flags),
     wt_rename2(tree_of(t), old, n, to, m, flags))
CALL(stat, (struct wtt *t, const char *path, size_t n, struct wt_stat *out), wt_stat(tree_of(t), path, n, out))
CALL(list, (struct wtt *t, const char *path, size_t n, void *out, size_t m), wt_list(tree_of(t), path, n, out, m))
CALL(inotify_init, (struct wtt *t, uint32_t limit), wt_inotify_init(tree_of(t), limit))
CALL(inotify_add_watch, (struct wtt *t, uint32_t instance, const char *path, size_t n, uint32_t mask),
     wt_inotify_add_watch(tree_of(t), instance, path, n, mask))
CALL(inotify_rm_watch, (struct wtt *t, uint32_t instance, int32_t wd), wt_inotify_rm_watch(tree_of(t), instance, wd))
CALL(waiting, (struct wtt *t, uint32_t instance), wt_waiting(tree_of(t), instance))
CALL(bytes_waiting, (struct wtt *t, uint32_t instance), wt_bytes_waiting(tree_of(t), instance))
CALL(ready, (struct wtt *t, uint32_t *out, size_t m), wt_ready(tree_of(t), out, m))
CALL(peek_stat, (struct wtt *t, const char *path, size_t n, struct wt_stat *out), wt_peek_stat(tree_of(t), path, n, out))
CALL(peek_list, (struct wtt *t, const char *path, size_t n, void *out, size_t m),
     wt_peek_list(tree_of(t), path, n, out, m))
CALL(peek_pread, (struct wtt *t, const char *path, size_t n, uint64_t offset, void *out, size_t m),
     wt_peek_pread(tree_of(t), path, n, offset, out, m))
CALL(path_of, (struct wtt *t, uint64_t file, void *out, size_t m), wt_path_of(tree_of(t), file, out, m))
CALL(first_place, (struct wtt *t), wt_first_place(tree_of(t)))
CALL(last_place, (struct wtt *t), wt_last_place(tree_of(t)))
CALL(entry, (struct wtt *t, uint64_t place, void *out, size_t m), wt_entry(tree_of(t), place, out, m))
