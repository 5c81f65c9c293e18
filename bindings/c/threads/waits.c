/* What waiting promises: time limits, closes, cancellation, fork(2), forks of a tree, descriptors, and what happens without
 * memory. */
#include "checks.h"
#include <poll.h>
#include <sys/epoll.h>
#include <sys/resource.h>
#include <sys/wait.h>
#include <time.h>

static struct wtt *tree;
static char bytes[256];

static uint32_t instance_on(const char *path, uint32_t mask) {
    int64_t instance = wtt_inotify_init(tree, 64);
    HOLDS(instance > 0 && wtt_inotify_add_watch(tree, (uint32_t)instance, PATH(path), mask) > 0);
    return (uint32_t)instance;
}

static long milliseconds(void) {
    struct timespec now;
    clock_gettime(CLOCK_MONOTONIC, &now);
    return now.tv_sec * 1000 + now.tv_nsec / 1000000;
}

static void *read_one(void *of) {
    char own[256];
    return (void *)(long)wtt_read(tree, *(uint32_t *)of, own, 32, -1);
}

static bool is_readable(int fd) {
    struct pollfd it = { fd, POLLIN, 0 };
    return poll(&it, 1, 0) == 1 && it.revents == POLLIN;
}

/* A read that finds nothing waits as long as it should, and has no entry in the journal. */
static void time_limits(void) {
    uint32_t instance = instance_on("/d", IN_CREATE);
    int64_t before = wtt_cut(tree);
    long begin = milliseconds();
    IS(wtt_read(tree, instance, bytes, sizeof bytes, 0), -EAGAIN);
    IS(wtt_read(tree, instance, bytes, sizeof bytes, 30), -EAGAIN);
    long took = milliseconds() - begin;
    HOLDS(took >= 30 && took < 20000);
    IS(wtt_read(tree, instance + 9, bytes, sizeof bytes, -1), -EBADF);
    IS(wtt_cut(tree), before);
    HOLDS(wtt_create(tree, PATH("/d/a"), 0644) > 0);
    IS(wtt_read(tree, instance, bytes, 31, -1), -EINVAL);
    IS(wtt_read(tree, instance, bytes, sizeof bytes, 2000000000), 32);
    forget_waits();
    pthread_t reader = start(read_one, &instance);
    wait_for_waits(1);
    IS(wtt_unlink(tree, PATH("/d/a")), 0), HOLDS(wtt_create(tree, PATH("/d/a"), 0644) > 0);
    IS((long)join(reader), 32);
    IS(wtt_unlink(tree, PATH("/d/a")), 0), IS(wtt_inotify_close(tree, instance), 0);
}

/* Two threads wait: each is woken for a record of its own, also if both come with one call. */
static void two_readers(void) {
    uint32_t instance = instance_on("/d", IN_CREATE | IN_OPEN);
    pthread_t readers[] = { start(read_one, &instance), start(read_one, &instance) };
    wait_for_waits(2);
    HOLDS(wtt_create(tree, PATH("/d/a"), 0644) > 0);
    IS((long)join(readers[0]), 32), IS((long)join(readers[1]), 32);
    IS(wtt_unlink(tree, PATH("/d/a")), 0), IS(wtt_inotify_close(tree, instance), 0);
}

/* A close wakes each thread that waits, whichever call makes it. */
static void closes(void) {
    uint32_t instances[] = { instance_on("/d", IN_CREATE), instance_on("/d", IN_CREATE) };
    char line[32];
    for (int by_line = 0; by_line < 2; by_line++) {
        uint32_t *it = &instances[by_line];
        int fd = (int)wtt_fd(tree, *it);
        pthread_t readers[] = { start(read_one, it), start(read_one, it) };
        wait_for_waits(2);
        HOLDS(!is_readable(fd));
        snprintf(line, sizeof line, "close %u", *it);
        if (by_line) IS(wtt_line(tree, 64, PATH(line), NULL, 0), 3);
        else IS(wtt_inotify_close(tree, *it), 0);
        IS((long)join(readers[0]), -EBADF), IS((long)join(readers[1]), -EBADF);
        HOLDS(is_readable(fd));
        IS(wtt_read(tree, *it, bytes, sizeof bytes, -1), -EBADF), IS(wtt_fd(tree, *it), -EBADF);
        IS(close(fd), 0);
    }
}

static sem_t taken;
static int taken_by;

struct reader { uint32_t instance; int name; bool reads_on; };

static void *read_and_say(void *of) {
    struct reader *it = of;
    char own[256];
    int64_t count;
    do {
        count = wtt_read(tree, it->instance, own, 32, -1);
        if (count != 32) break;
        taken_by = it->name;
        sem_post(&taken);
    } while (it->reads_on);
    return (void *)(long)count;
}

/* A cancelled thread holds no lock and takes no record. A wake-up that it may have had goes to another reader. */
static void cancellation(void) {
    struct reader stays = { instance_on("/d", IN_CREATE), 1, true }, goes = { stays.instance, 2, false };
    int cancelled = 0;
    sem_init(&taken, 0, 0);
    pthread_t staying = start(read_and_say, &stays);
    wait_for_waits(1);
    for (int turn = 0; turn < 300; turn++) {
        pthread_t going = start(read_and_say, &goes);
        wait_for_waits(1);
        if (turn % 2) IS(pthread_cancel(going), 0);
        HOLDS(wtt_create(tree, PATH("/d/a"), 0644) > 0);
        if (turn % 2 == 0) IS(pthread_cancel(going), 0);
        wait_for_post(&taken);
        bool is_cancelled = join(going) == PTHREAD_CANCELED;
        HOLDS(is_cancelled || taken_by == 2);
        cancelled += is_cancelled;
        IS(wtt_waiting(tree, stays.instance), 0), IS(wtt_unlink(tree, PATH("/d/a")), 0);
        if (taken_by == 1) wait_for_waits(1);
    }
    IS(wtt_inotify_close(tree, stays.instance), 0);
    IS((long)join(staying), -EBADF);
    HOLDS(cancelled > 0);
}

/* No other call is a cancellation point, also where it changes a descriptor or closes one. */
static void *call_while_cancelled(void *of) {
    uint32_t instance = *(uint32_t *)of;
    int64_t fd = wtt_fd(tree, instance);
    IS(pthread_cancel(pthread_self()), 0);
    HOLDS(wtt_create(tree, PATH("/d/a"), 0644) > 0);
    IS(wtt_read(tree, instance, bytes, sizeof bytes, 0), 32), HOLDS(wtt_fd(tree, instance) > fd);
    IS(wtt_unlink(tree, PATH("/d/a")), 0), IS(wtt_inotify_close(tree, instance), 0);
    taken_by = 3;
    pthread_testcancel();
    return NULL;
}

static void pending_cancellation(void) {
    uint32_t instance = instance_on("/d", IN_CREATE);
    HOLDS(join(start(call_while_cancelled, &instance)) == PTHREAD_CANCELED && taken_by == 3);
    IS(wtt_waiting(tree, instance), -EBADF);
}

static bool is_over;

/* It makes no file and cuts the journal, so that it can go on for as long as it takes. */
static void *keep_calling(void *of) {
    char own[256];
    HOLDS(wtt_create(tree, PATH("/d/b"), 0644) > 0);
    for (int turn = 0; !__atomic_load_n(&is_over, __ATOMIC_RELAXED); turn++) {
        IS(wtt_rename(tree, PATH("/d/b"), PATH("/d/c")), 0), IS(wtt_rename(tree, PATH("/d/c"), PATH("/d/b")), 0);
        while (wtt_read(tree, *(uint32_t *)of, own, sizeof own, 0) > 0) {}
        if (turn % 10000 == 0) HOLDS(wtt_cut(tree) > 0);
    }
    IS(wtt_unlink(tree, PATH("/d/b")), 0);
    return NULL;
}

/* What a child finds: the parent's tree is not open there, whichever thread held its lock, and the parent continues. */
static int in_child(uint32_t instance) {
    struct wt_stat s;
    struct wtt *own;
    char name[32];
    IS(wtt_mkdir(tree, PATH("/x"), 0755), -EBADF), IS(wtt_stat(tree, PATH("/"), &s), -EBADF);
    IS(wtt_read(tree, instance, bytes, sizeof bytes, -1), -EBADF), IS(wtt_fd(tree, instance), -EBADF);
    IS(wtt_line(tree, 64, PATH("list /"), name, sizeof name), -EBADF), IS(wtt_cut(tree), -EBADF);
    IS(wtt_fork(tree, &own), -EBADF), HOLDS(!own);
    wtt_close(tree);
    IS(wtt_open(&own), 0), IS(wtt_mkdir(own, PATH("/x"), 0755), 2);
    wtt_close(own);
    return 7;
}

static void forks(void) {
    uint32_t instance = instance_on("/d", IN_MOVE), other = instance_on("/", IN_CREATE);
    int fd = (int)wtt_fd(tree, other), status;
    pthread_t reader = start(read_one, &other), caller = start(keep_calling, &instance);
    wait_for_waits(1);
    for (int turn = 0; turn < 30; turn++) {
        pid_t child = fork();
        if (child == 0) _exit(in_child(other));
        IS(waitpid(child, &status, 0), child);
        HOLDS(WIFEXITED(status) && WEXITSTATUS(status) == 7);
        HOLDS(!is_readable(fd));
    }
    __atomic_store_n(&is_over, true, __ATOMIC_RELAXED);
    join(caller);
    HOLDS(wtt_mkdir(tree, PATH("/y"), 0755) > 0);
    IS((long)join(reader), 32);
    IS(wtt_inotify_close(tree, instance), 0), IS(wtt_inotify_close(tree, other), 0), close(fd);
}

/* A fork has the instances of its tree, and neither its descriptors nor its threads. */
static void copies(void) {
    uint32_t instance = instance_on("/d", IN_CREATE);
    int fd = (int)wtt_fd(tree, instance);
    struct wtt *copy = NULL, *none = tree;
    pthread_t reader = start(read_one, &instance);
    wait_for_waits(1);
    IS(wtt_fork(tree, &copy), 0), HOLDS(wtt_create(copy, PATH("/d/a"), 0644) > 0);
    HOLDS(!is_readable(fd)), IS(wtt_waiting(tree, instance), 0);
    int own = (int)wtt_fd(copy, instance);
    HOLDS(is_readable(own)), IS(wtt_read(copy, instance, bytes, sizeof bytes, -1), 32), HOLDS(!is_readable(own));
    HOLDS(wtt_create(tree, PATH("/d/a"), 0644) > 0), IS((long)join(reader), 32), HOLDS(!is_readable(own));
    IS(wtt_inotify_close(tree, instance), 0), HOLDS(is_readable(fd)), IS(wtt_waiting(copy, instance), 0);
    wtt_shutdown(copy);
    HOLDS(is_readable(own)), IS(wtt_fork(copy, &none), -EBADF), HOLDS(!none);
    wtt_close(copy), close(own), close(fd);
    none = tree;
    fail_next(1), IS(wtt_fork(tree, &none), -ENOMEM), HOLDS(!none);
    IS(wtt_unlink(tree, PATH("/d/a")), 0);
}

/* After each of many calls a descriptor is readable exactly if records wait. */
static void levels(void) {
    uint32_t instances[] = { instance_on("/d", IN_CREATE), instance_on("/d", IN_DELETE), instance_on("/", IN_CREATE) };
    int fds[3], readable = 0;
    for (int i = 0; i < 3; i++) fds[i] = (int)wtt_fd(tree, instances[i]);
    for (int turn = 0; turn < 3000; turn++) {
        unsigned which = (unsigned)turn * 2654435761u >> 24;
        if (which % 5 == 0) wtt_create(tree, PATH("/d/a"), 0644);
        else if (which % 5 == 1) wtt_unlink(tree, PATH("/d/a"));
        else if (which % 5 == 2) wtt_line(tree, 64, PATH("create /d/a 644"), NULL, 0);
        else wtt_read(tree, instances[which % 3], bytes, which % 2 ? 32 : sizeof bytes, 0);
        for (int i = 0; i < 3; i++) {
            IS(is_readable(fds[i]), wtt_waiting(tree, instances[i]) > 0);
            readable += is_readable(fds[i]);
        }
    }
    HOLDS(readable > 100 && readable < 8000);
    for (int i = 0; i < 3; i++) IS(wtt_inotify_close(tree, instances[i]), 0), close(fds[i]);
    wtt_unlink(tree, PATH("/d/a"));
}

/* An edge for the first record, and for what a read leaves behind. */
static void edges(void) {
    uint32_t instance = instance_on("/d", IN_CREATE | IN_DELETE | IN_OPEN);
    int fd = (int)wtt_fd(tree, instance), loop = epoll_create1(0);
    struct epoll_event event = { .events = EPOLLIN | EPOLLET };
    char line[32];
    IS(epoll_ctl(loop, EPOLL_CTL_ADD, fd, &event), 0);
    IS(epoll_wait(loop, &event, 1, 0), 0);
    HOLDS(wtt_create(tree, PATH("/d/a"), 0644) > 0);
    IS(epoll_wait(loop, &event, 1, 0), 1), IS(epoll_wait(loop, &event, 1, 0), 0);
    IS(wtt_unlink(tree, PATH("/d/a")), 0), IS(epoll_wait(loop, &event, 1, 0), 0);
    IS(wtt_read(tree, instance, bytes, 32, 0), 32);
    IS(epoll_wait(loop, &event, 1, 0), 1), IS(epoll_wait(loop, &event, 1, 0), 0);
    snprintf(line, sizeof line, "read %u 32", instance);
    HOLDS(wtt_line(tree, 64, PATH(line), NULL, 0) > 0);
    IS(epoll_wait(loop, &event, 1, 0), 1), IS(epoll_wait(loop, &event, 1, 0), 0);
    IS(wtt_read(tree, instance, bytes, sizeof bytes, 0), 32), IS(epoll_wait(loop, &event, 1, 0), 0);
    HOLDS(wtt_create(tree, PATH("/d/a"), 0644) > 0), IS(epoll_wait(loop, &event, 1, 0), 1);
    IS(wtt_inotify_close(tree, instance), 0), IS(epoll_wait(loop, &event, 1, 0), 1);
    IS(wtt_unlink(tree, PATH("/d/a")), 0), close(loop), close(fd);
}

/* A descriptor is the caller's: a second one is another, and both outlive the instance. */
static void owners(void) {
    uint32_t instance = instance_on("/d", IN_CREATE);
    int first = (int)wtt_fd(tree, instance), second = (int)wtt_fd(tree, instance);
    struct rlimit limit, none;
    HOLDS(first >= 0 && second >= 0 && first != second);
    IS(close(first), 0);
    HOLDS(wtt_create(tree, PATH("/d/a"), 0644) > 0 && is_readable(second));
    IS(wtt_unlink(tree, PATH("/d/a")), 0);
    int lowest = dup(0);
    close(lowest), getrlimit(RLIMIT_NOFILE, &limit);
    none = (struct rlimit){ (rlim_t)lowest, limit.rlim_max };
    setrlimit(RLIMIT_NOFILE, &none);
    IS(wtt_fd(tree, instance), -EMFILE);
    setrlimit(RLIMIT_NOFILE, &limit);
    IS(wtt_read(tree, instance, bytes, sizeof bytes, 0), 32), HOLDS(!is_readable(second));
    IS(wtt_inotify_close(tree, instance), 0), HOLDS(is_readable(second));
    close(second);
}

static void without_memory(void) {
    uint32_t instance = instance_on("/d", IN_CREATE);
    struct wtt *other = tree;
    fail_next(1), IS(wtt_open(&other), -ENOMEM), HOLDS(!other);
    fail_next(1), IS(wtt_fd(tree, instance), -ENOMEM);
    fail_next(1), IS(wtt_read(tree, instance, bytes, sizeof bytes, -1), -ENOMEM);
    IS(wtt_read(tree, instance, bytes, sizeof bytes, 1), -EAGAIN);
    IS(wtt_inotify_close(tree, instance), 0);
}

static void *run_line(void *of) {
    return (void *)(long)wtt_line(tree, 64, PATH("stat /d"), of, 32);
}

/* The text of a line is that of the thread that ran it. */
static void texts(void) {
    char text[32], own[32] = "";
    IS(wtt_line(tree, 64, PATH("list /d"), NULL, 0), 5), IS(wtt_text(tree, text, sizeof text), 5);
    HOLDS(!memcmp(text, "ok 0\n", 5));
    HOLDS((long)join(start(run_line, own)) > 5 && !memcmp(own, "ok 2 d", 6));
    IS(wtt_text(tree, text, sizeof text), -ESTALE);
    IS(wtt_line(tree, 64, PATH("list /d"), NULL, 0), 5), IS(wtt_text(tree, text, sizeof text), 5);
}

static void *create_until_shut(void *of) {
    int64_t number;
    while ((number = wtt_create(of, PATH("/d/b"), 0644)) != -EBADF) wtt_unlink(of, PATH("/d/b"));
    return (void *)(long)number;
}

/* A tree is ended while threads call it and wait. */
static void shutdowns(void) {
    struct wtt *kept = tree;
    for (int turn = 0; turn < 30; turn++) {
        IS(wtt_open(&tree), 0), IS(wtt_mkdir(tree, PATH("/d"), 0755), 2);
        uint32_t instance = instance_on("/", IN_CREATE);
        int fd = (int)wtt_fd(tree, instance);
        forget_waits();
        pthread_t threads[] = { start(read_one, &instance), start(create_until_shut, tree), start(create_until_shut, tree) };
        wait_for_waits(1);
        wtt_shutdown(tree);
        IS(wtt_mkdir(tree, PATH("/e"), 0755), -EBADF), IS(wtt_waiting(tree, instance), -EBADF);
        HOLDS(is_readable(fd));
        IS((long)join(threads[0]), -EBADF);
        for (int i = 1; i < 3; i++) IS((long)join(threads[i]), -EBADF);
        wtt_shutdown(tree), wtt_close(tree), close(fd);
    }
    tree = kept;
}

/* Closing a tree ends every wait first. */
static void end_of_tree(void) {
    for (int turn = 0; turn < 100; turn++) {
        uint32_t instances[] = { instance_on("/d", IN_CREATE), instance_on("/", IN_CREATE) };
        int fd = (int)wtt_fd(tree, instances[0]);
        forget_waits();
        pthread_t readers[] = { start(read_one, &instances[0]), start(read_one, &instances[1]) };
        wait_for_waits(2);
        HOLDS(!is_readable(fd));
        /* In the first turn no reader leaves before the close waits for them. */
        if (turn == 0) hold_until_next_wait();
        wtt_close(tree);
        IS((long)join(readers[0]), -EBADF), IS((long)join(readers[1]), -EBADF);
        HOLDS(is_readable(fd));
        close(fd);
        IS(wtt_open(&tree), 0), IS(wtt_mkdir(tree, PATH("/d"), 0755), 2);
    }
    wtt_close(tree), wtt_close(NULL);
}

int main(void) {
    IS(wtt_open(&tree), 0), IS(wtt_mkdir(tree, PATH("/d"), 0755), 2);
    void (*const parts[])(void) = {
        time_limits, two_readers, closes, cancellation, pending_cancellation, forks, copies,
        texts, levels, edges, owners, without_memory, shutdowns, end_of_tree,
    };
    for (size_t i = 0; i < sizeof parts / sizeof *parts; i++) forget_waits(), parts[i]();
    puts("time limits, closes, cancellation, forks, descriptors, memory: as promised");
    return 0;
}
