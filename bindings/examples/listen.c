/* One thread changes a tree. The event loop of another is woken by epoll(7), as by an inotify descriptor.
 *   cc listen.c $(pkg-config --cflags --libs watchtree) -o listen */
#include <errno.h>
#include <pthread.h>
#include <stdio.h>
#include <string.h>
#include <sys/epoll.h>
#include <sys/inotify.h>
#include <unistd.h>
#include <watchtree_threads.h>

#define PATH(s) s, strlen(s)

static struct wtt *tree;

static void *change_files(void *unused) {
    wtt_create(tree, PATH("/d/f"), 0644);
    wtt_rename(tree, PATH("/d/f"), PATH("/d/g"));
    wtt_unlink(tree, PATH("/d/g"));
    wtt_rmdir(tree, PATH("/d"));
    return unused;
}

/* Prints the records of one read. 1 when the watch has ended. */
static int print_records(const char *bytes, int64_t count) {
    struct inotify_event event;
    for (int64_t at = 0; at < count; at += (int64_t)sizeof event + event.len) {
        memcpy(&event, bytes + at, sizeof event);
        printf("mask 0x%x name %s\n", event.mask, event.len ? bytes + at + sizeof event : "-");
        if (event.mask & IN_IGNORED) return 1;
    }
    return 0;
}

int main(void) {
    char bytes[4096];
    int64_t number = wtt_open(&tree), count;
    if (number < 0) {
        fprintf(stderr, "open: %s\n", strerror((int)-number));
        return 1;
    }
    wtt_mkdir(tree, PATH("/d"), 0755);
    uint32_t instance = (uint32_t)wtt_inotify_init(tree, 16384);
    wtt_inotify_add_watch(tree, instance, PATH("/d"), IN_CREATE | IN_DELETE | IN_MOVE | IN_DELETE_SELF);

    int fd = (int)wtt_fd(tree, instance), loop = epoll_create1(EPOLL_CLOEXEC);
    struct epoll_event wanted = { .events = EPOLLIN, .data = { .fd = fd } }, found;
    if (fd < 0 || loop < 0 || epoll_ctl(loop, EPOLL_CTL_ADD, fd, &wanted)) return 1;

    pthread_t writer;
    if (pthread_create(&writer, NULL, change_files, NULL)) return 1;
    for (int has_ended = 0; !has_ended;) {
        if (epoll_wait(loop, &found, 1, -1) < 0) continue; /* EINTR */
        count = wtt_read(tree, instance, bytes, sizeof bytes, 0);
        if (count < 0 && count != -EAGAIN) return 1;
        if (count > 0) has_ended = print_records(bytes, count);
    }
    pthread_join(writer, NULL);
    close(loop);
    close(fd);
    wtt_close(tree);
    return 0;
}
