/* Writers, readers and closers on one tree at the same time. Three writers rename files back and forth, and every instance
 * is notified: two are read by threads that wait, one by two threads in turn, one by epoll level-triggered and one
 * edge-triggered. The cookies rise by one with each rename, so each reader sees whether a record was lost or came
 * twice. Meanwhile instances are opened, waited for by one thread, and closed by another, and the tree is forked. */
#include "checks.h"
#include <sys/epoll.h>

enum { WRITERS = 3, RENAMES = 120000, RECORDS = 2 * RENAMES, KEPT = 5, BEHIND = 30000, CLOSED = 300, FORKS = 60 };

static struct wtt *tree;
static uint32_t instances[KEPT];
static pthread_mutex_t lock = PTHREAD_MUTEX_INITIALIZER;
static pthread_cond_t changed = PTHREAD_COND_INITIALIZER;
static long renames, records[KEPT];
static unsigned char seen[RENAMES + 1];

static bool may_go_on(void) {
    for (int i = 0; i < KEPT; i++)
        if (2 * renames - records[i] > BEHIND) return false;
    return true;
}

/* The next rename, once no reader is so far behind that its queue could overflow; -1 after the last one. */
static long next_rename(void) {
    pthread_mutex_lock(&lock);
    while (renames < RENAMES && !may_go_on()) pthread_cond_wait(&changed, &lock);
    long number = renames < RENAMES ? renames++ : -1;
    pthread_mutex_unlock(&lock);
    return number;
}

static void *write_to_tree(void *of) {
    char paths[2][16];
    snprintf(paths[0], sizeof paths[0], "/d/a%ld", (long)of);
    snprintf(paths[1], sizeof paths[1], "/d/b%ld", (long)of);
    IS(wtt_create(tree, PATH(paths[0]), 0644) > 0, 1);
    long number;
    for (int at = 0; (number = next_rename()) >= 0; at = !at) {
        IS(wtt_rename(tree, PATH(paths[at]), PATH(paths[!at])), 0);
        if (number % 20000 == 0) HOLDS(wtt_cut(tree) > 0);
    }
    return NULL;
}

/* Takes the records of a read: in order if the instance has one reader, else each once. */
static void take(int i, const char *bytes, int64_t count, uint32_t *last) {
    HOLDS(count > 0 && count % 32 == 0);
    for (int64_t at = 0; at < count; at += 32) {
        struct inotify_event event;
        memcpy(&event, bytes + at, sizeof event);
        bool is_from = event.mask == IN_MOVED_FROM;
        HOLDS((is_from || event.mask == IN_MOVED_TO) && event.len == 16 && event.cookie <= RENAMES);
        if (last) {
            IS(event.cookie, is_from ? *last + 1 : *last);
            *last = event.cookie;
        } else {
            unsigned char bit = is_from ? 1 : 2;
            HOLDS(!(__atomic_fetch_or(&seen[event.cookie], bit, __ATOMIC_RELAXED) & bit));
        }
    }
    pthread_mutex_lock(&lock);
    records[i] += count / 32;
    pthread_cond_broadcast(&changed);
    pthread_mutex_unlock(&lock);
}

static bool is_done(int i) {
    pthread_mutex_lock(&lock);
    bool is = records[i] == RECORDS;
    pthread_mutex_unlock(&lock);
    return is;
}

/* Instance 0 with a large buffer, 1 with one for three records. */
static void *wait_and_read(void *of) {
    int i = (int)(long)of;
    uint32_t last = 0;
    char bytes[8192];
    while (!is_done(i)) take(i, bytes, wtt_read(tree, instances[i], bytes, i ? 100 : sizeof bytes, -1), &last);
    return NULL;
}

/* Instance 2, by two threads: a time limit, as the other thread may take the last record. */
static void *share_reading(void *of) {
    char bytes[256];
    while (!is_done(2)) {
        int64_t count = wtt_read(tree, instances[2], bytes, sizeof bytes, 20);
        if (count != -EAGAIN) take(2, bytes, count, NULL);
    }
    return of;
}

static int watching(int fd, uint32_t events) {
    int loop = epoll_create1(EPOLL_CLOEXEC);
    struct epoll_event event = { .events = events };
    HOLDS(loop >= 0 && fd >= 0);
    IS(epoll_ctl(loop, EPOLL_CTL_ADD, fd, &event), 0);
    return loop;
}

/* Instance 3: level-triggered, one read for each wake-up, which never finds nothing. */
static void *poll_level(void *of) {
    int fd = (int)wtt_fd(tree, instances[3]), loop = watching(fd, EPOLLIN);
    struct epoll_event event;
    uint32_t last = 0;
    char bytes[512];
    while (!is_done(3)) {
        IS(epoll_wait(loop, &event, 1, -1), 1);
        take(3, bytes, wtt_read(tree, instances[3], bytes, sizeof bytes, 0), &last);
    }
    IS(epoll_wait(loop, &event, 1, 0), 0);
    close(loop), close(fd);
    return of;
}

/* Instance 4: edge-triggered, all that there is for each wake-up. */
static void *poll_edge(void *of) {
    int fd = (int)wtt_fd(tree, instances[4]), loop = watching(fd, EPOLLIN | EPOLLET);
    struct epoll_event event;
    uint32_t last = 0;
    char bytes[512];
    while (!is_done(4)) {
        IS(epoll_wait(loop, &event, 1, -1), 1);
        int64_t count;
        while ((count = wtt_read(tree, instances[4], bytes, sizeof bytes, 0)) > 0) take(4, bytes, count, &last);
        IS(count, -EAGAIN);
    }
    close(loop), close(fd);
    return of;
}

static sem_t opened, heard;
static uint32_t short_lived;

/* Waits for records of an instance until another thread closes it. */
static void *read_until_closed(void *of) {
    char bytes[512];
    for (int turn = 0; turn < CLOSED; turn++) {
        int64_t instance = wtt_inotify_init(tree, 65535), count;
        HOLDS(instance > 0);
        IS(wtt_inotify_add_watch(tree, (uint32_t)instance, PATH("/d"), IN_MOVE), 1);
        short_lived = (uint32_t)instance;
        sem_post(&opened);
        uint32_t last = 0;
        while ((count = wtt_read(tree, (uint32_t)instance, bytes, sizeof bytes, -1)) > 0)
            for (int64_t at = 0; at < count;) {
                struct inotify_event event;
                memcpy(&event, bytes + at, sizeof event);
                /* Nobody waits for this reader, so its queue may overflow. */
                bool is_lost = event.mask == IN_Q_OVERFLOW;
                if (last && !is_lost) IS(event.cookie, event.mask == IN_MOVED_FROM ? last + 1 : last);
                last = is_lost ? 0 : event.cookie;
                at += (int64_t)sizeof event + event.len;
            }
        IS(count, -EBADF);
        sem_post(&heard);
    }
    return of;
}

static void *close_others(void *of) {
    for (int turn = 0; turn < CLOSED; turn++) {
        wait_for_post(&opened);
        int fd = turn % 2 ? (int)wtt_fd(tree, short_lived) : -1;
        IS(wtt_inotify_close(tree, short_lived), 0);
        wait_for_post(&heard);
        if (fd >= 0) close(fd);
    }
    return of;
}

/* Forks the tree. What waited then waits in the fork, in order, and nobody else reads or changes it. */
static void *fork_often(void *of) {
    char bytes[8192];
    struct wt_stat s;
    for (int turn = 0; turn < FORKS; turn++) {
        struct wtt *copy;
        uint32_t last = 0;
        int64_t count, waited = 0;
        IS(wtt_fork(tree, &copy), 0), IS(wtt_first_place(copy), wtt_last_place(copy) + 1);
        int64_t waiting = wtt_waiting(copy, instances[0]);
        while ((count = wtt_read(copy, instances[0], bytes, sizeof bytes, 0)) > 0)
            for (int64_t at = 0; at < count; at += 32, waited++) {
                struct inotify_event event;
                memcpy(&event, bytes + at, sizeof event);
                if (last) IS(event.cookie, event.mask == IN_MOVED_FROM ? last + 1 : last);
                last = event.cookie;
            }
        IS(count, -EAGAIN), IS(waited, waiting), HOLDS(wtt_mkdir(copy, PATH("/d/own"), 0755) > 0);
        wtt_close(copy);
    }
    IS(wtt_peek_stat(tree, PATH("/d/own"), &s), -ENOENT);
    return of;
}

int main(void) {
    IS(wtt_open(&tree), 0), IS(wtt_mkdir(tree, PATH("/d"), 0755), 2);
    for (int i = 0; i < KEPT; i++) {
        instances[i] = (uint32_t)wtt_inotify_init(tree, 65535);
        IS(wtt_inotify_add_watch(tree, instances[i], PATH("/d"), IN_MOVE), 1);
    }
    sem_init(&opened, 0, 0), sem_init(&heard, 0, 0);
    pthread_t threads[] = {
        start(wait_and_read, (void *)0L), start(wait_and_read, (void *)1L), start(share_reading, NULL),
        start(share_reading, NULL), start(poll_level, NULL), start(poll_edge, NULL), start(read_until_closed, NULL),
        start(close_others, NULL), start(write_to_tree, (void *)0L), start(write_to_tree, (void *)1L),
        start(write_to_tree, (void *)2L), start(fork_often, NULL),
    };
    for (size_t i = 0; i < sizeof threads / sizeof *threads; i++) join(threads[i]);
    long all = 0;
    for (int i = 0; i < KEPT; i++) IS(wtt_waiting(tree, instances[i]), 0), all += records[i];
    for (int i = 1; i <= RENAMES; i++) IS(seen[i], 3);
    wtt_close(tree);
    printf("%d writers, 7 readers, %d closes, %d forks: %ld records, none lost, none twice\n", WRITERS, CLOSED, FORKS, all);
    return all < 1000000;
}
