/* A program that waits for events and, in a way of its own, for a time: timers WAY DIRECTORY. It prints `late` when the time is
 * over, and then waits for events alone. */
#define _GNU_SOURCE
#include <poll.h>
#include <pthread.h>
#include <semaphore.h>
#include <signal.h>
#include <stdint.h>
#include <stdio.h>
#include <string.h>
#include <sys/epoll.h>
#include <sys/inotify.h>
#include <sys/select.h>
#include <sys/timerfd.h>
#include <time.h>
#include <unistd.h>

enum { TIME_MS = 300, SHORT_TIMES = 500 };
static const struct timespec some_time = { .tv_nsec = TIME_MS * 1000000 };
static int fd;

static void say_late(void) {
    puts("late");
    fflush(stdout);
}

static void read_forever(void) {
    char bytes[4096] __attribute__((aligned(8)));
    while (read(fd, bytes, sizeof bytes) > 0) {}
}

static void *sleep_in_thread(void *nothing) {
    nanosleep(&some_time, NULL);
    say_late();
    return nothing;
}

static void wait_by_thread(void) {
    pthread_t thread;
    pthread_create(&thread, NULL, sleep_in_thread, NULL);
}

static void wait_by_condition(void) {
    pthread_mutex_t lock = PTHREAD_MUTEX_INITIALIZER;
    pthread_cond_t none = PTHREAD_COND_INITIALIZER;
    struct timespec until;
    clock_gettime(CLOCK_REALTIME, &until);
    until.tv_nsec += some_time.tv_nsec;
    until.tv_sec += until.tv_nsec / 1000000000;
    until.tv_nsec %= 1000000000;
    pthread_mutex_lock(&lock);
    pthread_cond_timedwait(&none, &lock, &until);
    say_late();
}

static void wait_by_poll(void) {
    struct pollfd one = { fd, POLLIN, 0 };
    char bytes[4096];
    while (poll(&one, 1, TIME_MS) > 0) if (read(fd, bytes, sizeof bytes) < 0) return;
    say_late();
}

static void wait_by_select(void) {
    char bytes[4096];
    for (;;) {
        struct timeval limit = { .tv_usec = TIME_MS * 1000 };
        fd_set set;
        FD_ZERO(&set);
        FD_SET(fd, &set);
        if (select(fd + 1, &set, NULL, NULL, &limit) <= 0) break;
        if (read(fd, bytes, sizeof bytes) < 0) return;
    }
    say_late();
}

static void wait_by_epoll(int other, int limit) {
    int all = epoll_create1(0);
    struct epoll_event event = { .events = EPOLLIN };
    char bytes[4096];
    event.data.fd = fd;
    epoll_ctl(all, EPOLL_CTL_ADD, fd, &event);
    event.data.fd = other;
    if (other >= 0) epoll_ctl(all, EPOLL_CTL_ADD, other, &event);
    while (epoll_wait(all, &event, 1, limit) > 0) {
        if (event.data.fd != fd) break;
        if (read(fd, bytes, sizeof bytes) < 0) return;
    }
    say_late();
}

static void wait_by_timerfd(void) {
    int timer = timerfd_create(CLOCK_MONOTONIC, 0);
    struct itimerspec when = { .it_value = some_time };
    timerfd_settime(timer, 0, &when, NULL);
    wait_by_epoll(timer, -1);
}

/* A time of 3 to 6.3 ms, so that it ends at any moment of the runner's looks. */
static struct timespec short_time(int i) { return (struct timespec){ .tv_nsec = 3000000 + i % 10 * 370000 }; }

/* One timer after another: each wakes the program, which arms the next. */
static void wait_by_many(void) {
    int timer = timerfd_create(CLOCK_MONOTONIC, 0);
    struct pollfd both[] = { { fd, POLLIN, 0 }, { timer, POLLIN, 0 } };
    char bytes[4096];
    for (int i = 0; i < SHORT_TIMES; i++) {
        struct itimerspec when = { .it_value = short_time(i) };
        timerfd_settime(timer, 0, &when, NULL);
        while (poll(both, 2, -1) > 0 && !both[1].revents) if (read(fd, bytes, sizeof bytes) < 0) return;
        if (read(timer, bytes, sizeof bytes) < 0) return;
    }
    say_late();
}

static sem_t first_turn, second_turn;

static void *read_in_thread(void *nothing) {
    read_forever();
    return nothing;
}

static void *take_second_turns(void *nothing) {
    for (int i = 0; i < SHORT_TIMES; i++) {
        struct timespec some = short_time(i);
        nanosleep(&some, NULL);
        sem_post(&first_turn);
        sem_wait(&second_turn);
    }
    return nothing;
}

static void work(void) {
    for (volatile int i = 0; i < 20000; i++) {}
}

/* A thread sleeps for a time, wakes the first one, and waits until it has worked. */
static void wait_by_turns(void) {
    pthread_t thread;
    sem_init(&first_turn, 0, 0);
    sem_init(&second_turn, 0, 0);
    pthread_create(&thread, NULL, read_in_thread, NULL);
    pthread_create(&thread, NULL, take_second_turns, NULL);
    for (int i = 0; i < SHORT_TIMES; i++) {
        sem_wait(&first_turn);
        work();
        sem_post(&second_turn);
    }
    say_late();
}

static void on_alarm(union sigval nothing) {
    (void)nothing;
    say_late();
}

static void wait_by_timer(void) {
    timer_t timer;
    struct sigevent how = { .sigev_notify = SIGEV_THREAD, .sigev_notify_function = on_alarm };
    struct itimerspec when = { .it_value = some_time };
    timer_create(CLOCK_MONOTONIC, &how, &timer);
    timer_settime(timer, 0, &when, NULL);
}

int main(int count, char **words) {
    if (count != 3) return 2;
    fd = inotify_init();
    if (inotify_add_watch(fd, words[2], IN_CREATE) < 0) return 1;
    if (!strcmp(words[1], "thread")) wait_by_thread();
    if (!strcmp(words[1], "condition")) wait_by_condition();
    if (!strcmp(words[1], "poll")) wait_by_poll();
    if (!strcmp(words[1], "select")) wait_by_select();
    if (!strcmp(words[1], "epoll")) wait_by_epoll(-1, TIME_MS);
    if (!strcmp(words[1], "timerfd")) wait_by_timerfd();
    if (!strcmp(words[1], "many")) wait_by_many();
    if (!strcmp(words[1], "turns")) wait_by_turns();
    if (!strcmp(words[1], "timer")) wait_by_timer();
    read_forever();
    return 1;
}
