/* Ways to wait for an instance of inotify, most of which no library has: waits MODE DIRECTORY. Each prints its events
 * as `MASK NAME`, and ends after the name "end". `waits --list` prints the modes. */
#define _GNU_SOURCE
#include "checks.h"
#include <aio.h>
#include <errno.h>
#include <fcntl.h>
#include <liburing.h>
#include <poll.h>
#include <pthread.h>
#include <signal.h>
#include <stdio.h>
#include <stdlib.h>
#include <string.h>
#include <sys/epoll.h>
#include <sys/inotify.h>
#include <sys/ioctl.h>
#include <sys/select.h>
#include <sys/signalfd.h>
#include <sys/socket.h>
#include <sys/timerfd.h>
#include <sys/wait.h>
#include <time.h>
#include <unistd.h>

static int fd;
static const char *directory;
static pthread_mutex_t lock = PTHREAD_MUTEX_INITIALIZER;

static void show_events(const char *bytes, ssize_t count) {
    for (const char *at = bytes; at < bytes + count;) {
        const struct inotify_event *event = (const void *)at;
        printf("%x %s\n", event->mask, event->len ? event->name : "");
        fflush(stdout);
        if (event->len && !strcmp(event->name, "end")) exit(0);
        at += sizeof *event + event->len;
    }
}

/* One read: 1, or an errno below 0. */
static int take(int from) {
    _Alignas(8) char bytes[4096];
    ssize_t count = read(from, bytes, sizeof bytes);
    if (count < 0) return -errno;
    pthread_mutex_lock(&lock);
    show_events(bytes, count);
    pthread_mutex_unlock(&lock);
    return 1;
}

static void open_watch(int flags) {
    fd = inotify_init1(flags);
    if (fd < 0 || inotify_add_watch(fd, directory, IN_CREATE | IN_DELETE) < 0) fail("watch");
}

static void *read_on(void *unused) {
    while (take(fd) > 0) {}
    return unused;
}

static void start(void *(*what)(void *), void *of, int count) {
    for (pthread_t thread; count > 0; count--) if (pthread_create(&thread, NULL, what, of)) fail("thread");
}

/* Waits until a task sleeps, by its state in /proc. */
static void await_sleep(pid_t task) {
    char name[64], state = 0;
    snprintf(name, sizeof name, "/proc/%d/stat", task);
    while (state != 'S') {
        FILE *file = fopen(name, "r");
        if (!file || fscanf(file, "%*d (%*[^)]) %c", &state) != 1) fail(name);
        fclose(file);
    }
}

/* ---- readiness */

static void *wait_on_epoll(void *of) {
    for (struct epoll_event got;;) if (epoll_wait(*(int *)of, &got, 1, -1) == 1) while (take(fd) > 0) {}
    return NULL;
}

static void by_epoll(uint32_t flags, int threads) {
    static int ep;
    open_watch(IN_NONBLOCK);
    struct epoll_event event = { EPOLLIN | flags, { .fd = fd } };
    if ((ep = epoll_create1(0)) < 0 || epoll_ctl(ep, EPOLL_CTL_ADD, fd, &event) < 0) fail("epoll");
    start(wait_on_epoll, &ep, threads - 1);
    wait_on_epoll(&ep);
}

static void epoll_level(void) { by_epoll(0, 1); }
static void epoll_edge(void) { by_epoll(EPOLLET, 1); }
static void epoll_threads(void) { by_epoll(0, 4); }
static void epoll_edge_threads(void) { by_epoll(EPOLLET, 4); }
static void epoll_exclusive(void) { by_epoll(EPOLLEXCLUSIVE, 4); }

/* One read for each edge: what is left has to come with the next one. */
static void epoll_oneshot(void) {
    open_watch(IN_NONBLOCK);
    int ep = epoll_create1(0);
    struct epoll_event event = { EPOLLIN | EPOLLONESHOT, { .fd = fd } }, got;
    if (epoll_ctl(ep, EPOLL_CTL_ADD, fd, &event) < 0) fail("epoll");
    for (;;) {
        if (epoll_wait(ep, &got, 1, -1) == 1) take(fd);
        epoll_ctl(ep, EPOLL_CTL_MOD, fd, &event);
    }
}

/* The instance is in an epoll that is in another one, beside a timer and signals. */
static void epoll_nested(void) {
    sigset_t set;
    struct itimerspec often = { { 0, 20000000 }, { 0, 20000000 } };
    sigemptyset(&set);
    sigaddset(&set, SIGUSR1);
    sigprocmask(SIG_BLOCK, &set, NULL);
    open_watch(IN_NONBLOCK);
    int inner = epoll_create1(0), outer = epoll_create1(0), signals = signalfd(-1, &set, SFD_NONBLOCK),
        timer = timerfd_create(CLOCK_MONOTONIC, TFD_NONBLOCK);
    struct epoll_event event = { EPOLLIN, { .fd = fd } }, got;
    if (epoll_ctl(inner, EPOLL_CTL_ADD, fd, &event) < 0) fail("epoll");
    for (int i = 0, all[] = { inner, signals, timer }; i < 3; i++) {
        event.data.fd = all[i];
        if (epoll_ctl(outer, EPOLL_CTL_ADD, all[i], &event) < 0) fail("epoll");
    }
    timerfd_settime(timer, 0, &often, NULL);
    while (epoll_wait(outer, &got, 1, -1) == 1) {
        uint64_t ticks;
        if (got.data.fd == timer && read(timer, &ticks, sizeof ticks) < 0) fail("timer");
        if (got.data.fd == inner && epoll_wait(inner, &got, 1, 0) == 1) take(fd);
    }
}

static void by_poll(void) {
    open_watch(0);
    for (struct pollfd it = { fd, POLLIN, 0 };;) if (poll(&it, 1, -1) == 1) take(fd);
}

static void by_select(void) {
    open_watch(0);
    for (fd_set set;;) {
        FD_ZERO(&set);
        FD_SET(fd, &set);
        if (select(fd + 1, &set, NULL, NULL, NULL) == 1) take(fd);
    }
}

static void by_pselect(void) {
    sigset_t none;
    sigemptyset(&none);
    open_watch(0);
    for (fd_set set;;) {
        struct timespec limit = { .tv_nsec = 10000000 };
        FD_ZERO(&set);
        FD_SET(fd, &set);
        if (pselect(fd + 1, &set, NULL, NULL, &limit, &none) == 1) take(fd);
    }
}

/* Nothing waits: it looks every five milliseconds. */
static void by_sleep(void) {
    struct timespec pause = { .tv_nsec = 5000000 };
    for (open_watch(IN_NONBLOCK);; nanosleep(&pause, NULL)) while (take(fd) > 0) {}
}

static void by_aio(void) {
    static _Alignas(8) char bytes[4096];
    struct aiocb call = { .aio_buf = bytes, .aio_nbytes = sizeof bytes };
    const struct aiocb *const all[] = { &call };
    for (open_watch(0);;) {
        call.aio_fildes = fd;
        if (aio_read(&call) < 0) fail("aio_read");
        while (aio_error(&call) == EINPROGRESS) aio_suspend(all, 1, NULL);
        ssize_t count = aio_return(&call);
        if (count < 0) fail("aio_return");
        show_events(bytes, count);
    }
}

static void by_fionread(void) {
    open_watch(0);
    for (struct pollfd it = { fd, POLLIN, 0 };;) {
        int bytes = -1;
        if (poll(&it, 1, -1) != 1 || ioctl(fd, FIONREAD, &bytes) < 0) fail("FIONREAD");
        printf("bytes %d\n", bytes);
        take(fd);
    }
}

/* ---- io_uring */

static void by_uring(int polls) {
    static _Alignas(8) char bytes[4096];
    struct io_uring ring;
    open_watch(0);
    if ((errno = -io_uring_queue_init(8, &ring, 0))) fail("io_uring");
    for (;;) {
        struct io_uring_sqe *entry = io_uring_get_sqe(&ring);
        struct io_uring_cqe *done;
        if (polls) io_uring_prep_poll_add(entry, fd, POLLIN);
        else io_uring_prep_read(entry, fd, bytes, sizeof bytes, 0);
        io_uring_submit(&ring);
        if (io_uring_wait_cqe(&ring, &done)) continue;
        int result = done->res;
        io_uring_cqe_seen(&ring, done);
        if (result < 0) errno = -result, fail("io_uring");
        if (polls) take(fd);
        else show_events(bytes, result);
    }
}

static void uring_read(void) { by_uring(0); }
static void uring_poll(void) { by_uring(1); }

/* ---- reads that wait */

static void one_reader(void) {
    open_watch(0);
    read_on(NULL);
}

static void four_readers(void) {
    open_watch(0);
    start(read_on, NULL, 3);
    read_on(NULL);
}

static volatile sig_atomic_t alarms;
static void on_alarm(int number) { alarms += number > 0; }

/* A child sends a signal to the first read. */
static void send_alarm(int flags) {
    struct sigaction action = { .sa_handler = on_alarm, .sa_flags = flags };
    pid_t parent = getpid();
    open_watch(0);
    sigaction(SIGALRM, &action, NULL);
    if (fork()) return;
    await_sleep(parent);
    kill(parent, SIGALRM);
    _exit(0);
}

static void by_signal(void) {
    send_alarm(0);
    int result = take(fd);
    printf("%s, %d signal\n", result == -EINTR ? "interrupted" : strerror(-result), (int)alarms);
    read_on(NULL);
}

/* The handler wants the read to go on. */
static void by_restart(void) {
    send_alarm(SA_RESTART);
    for (int result; (result = take(fd)) != 0;) if (result < 0) errno = -result, fail("read");
}

/* A child is killed in its read. */
static void by_kill(void) {
    open_watch(0);
    pid_t child = fork();
    if (!child) read_on(NULL);
    await_sleep(child);
    kill(child, SIGKILL);
    waitpid(child, NULL, 0);
    puts("killed");
    read_on(NULL);
}

static pid_t reader;
static void *read_as(void *unused) {
    __atomic_store_n(&reader, gettid(), __ATOMIC_SEQ_CST);
    return read_on(unused);
}

/* The descriptor is closed while another thread reads: the read goes on. */
static void by_close(void) {
    open_watch(0);
    start(read_as, NULL, 1);
    while (!__atomic_load_n(&reader, __ATOMIC_SEQ_CST)) {}
    await_sleep(reader);
    int other = dup(fd);
    close(fd);
    fd = other;
    pause();
}

/* A thread is cancelled in its read. */
static void by_cancel(void) {
    pthread_t thread;
    open_watch(0);
    if (pthread_create(&thread, NULL, read_as, NULL)) fail("thread");
    while (!__atomic_load_n(&reader, __ATOMIC_SEQ_CST)) {}
    await_sleep(reader);
    pthread_cancel(thread);
    pthread_join(thread, NULL);
    puts("cancelled");
    read_on(NULL);
}

/* ---- descriptors that go elsewhere */

/* A child reads, and what it reads comes to its parent by a pipe. */
static void by_pipe(void) {
    _Alignas(8) char bytes[4096];
    int ends[2];
    if (pipe(ends) < 0) fail("pipe");
    if (!fork()) {
        open_watch(0);
        for (ssize_t count; (count = read(fd, bytes, sizeof bytes)) > 0;) if (write(ends[1], bytes, (size_t)count) < 0) fail("pipe");
        _exit(1);
    }
    close(ends[1]);
    for (ssize_t count; (count = read(ends[0], bytes, sizeof bytes)) > 0;) show_events(bytes, count);
}

static void by_fork(void) {
    open_watch(0);
    if (fork()) {
        close(fd);
        wait(NULL);
        exit(0);
    }
    read_on(NULL);
}

static void by_dup(void) {
    open_watch(0);
    int other = fcntl(fd, F_DUPFD_CLOEXEC, 200);
    close(fd);
    fd = other;
    read_on(NULL);
}

/* Through a socket to a child that was not born with it. */
static void by_message(void) {
    int pair[2];
    char byte = 0;
    union { struct cmsghdr head; char bytes[CMSG_SPACE(sizeof(int))]; } control = { .head = {
        .cmsg_len = CMSG_LEN(sizeof(int)), .cmsg_level = SOL_SOCKET, .cmsg_type = SCM_RIGHTS } };
    struct iovec one = { &byte, 1 };
    struct msghdr message = { .msg_iov = &one, .msg_iovlen = 1, .msg_control = &control, .msg_controllen = sizeof control };
    if (socketpair(AF_UNIX, SOCK_STREAM, 0, pair) < 0) fail("socketpair");
    if (fork()) {
        open_watch(0);
        memcpy(CMSG_DATA(&control.head), &fd, sizeof fd);
        sendmsg(pair[1], &message, 0);
        close(fd);
        wait(NULL);
        exit(0);
    }
    if (recvmsg(pair[0], &message, 0) != 1) fail("recvmsg");
    memcpy(&fd, CMSG_DATA(&control.head), sizeof fd);
    read_on(NULL);
}

static void by_exec(void) {
    char number[16];
    open_watch(0);
    snprintf(number, sizeof number, "%d", fd);
    execl("/proc/self/exe", "waits", "--read", number, NULL);
    fail("exec");
}

static const struct { const char *name; void (*run)(void); } modes[] = {
    { "epoll", epoll_level }, { "epoll-edge", epoll_edge }, { "epoll-threads", epoll_threads },
    { "epoll-edge-threads", epoll_edge_threads }, { "epoll-exclusive", epoll_exclusive }, { "epoll-oneshot", epoll_oneshot },
    { "epoll-nested", epoll_nested }, { "poll", by_poll }, { "select", by_select }, { "pselect", by_pselect },
    { "sleep", by_sleep }, { "aio", by_aio }, { "cancel", by_cancel }, { "pipe", by_pipe }, { "fionread", by_fionread }, { "uring-read", uring_read },
    { "uring-poll", uring_poll }, { "read", one_reader }, { "readers", four_readers }, { "signal", by_signal },
    { "restart", by_restart }, { "kill", by_kill }, { "close", by_close }, { "fork", by_fork }, { "dup", by_dup },
    { "message", by_message }, { "exec", by_exec },
};
enum { MODES = sizeof modes / sizeof *modes };

int main(int count, char **words) {
    if (count == 2 && !strcmp(words[1], "--list")) {
        for (int i = 0; i < MODES; i++) puts(modes[i].name);
        return 0;
    }
    if (count != 3) return 2;
    if (!strcmp(words[1], "--read")) {
        fd = atoi(words[2]);
        read_on(NULL);
    }
    directory = words[2];
    for (int i = 0; i < MODES; i++) if (!strcmp(words[1], modes[i].name)) modes[i].run();
    return 1;
}
