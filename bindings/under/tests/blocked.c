/* Calls that wait for the program itself, and others that do not: blocked TREE MOUNTPOINT [many]. A thread serves a
 * FUSE mount and a page of memory that comes when it is asked for. Others make calls of a path there, and wait.
 * Meanwhile calls of other paths are answered. With `many`, threads make calls until one is refused by ENOMEM. */
#define _GNU_SOURCE
#include "checks.h"
#include <errno.h>
#include <fcntl.h>
#include <linux/fuse.h>
#include <linux/userfaultfd.h>
#include <poll.h>
#include <pthread.h>
#include <stdatomic.h>
#include <stdbool.h>
#include <stdint.h>
#include <stdio.h>
#include <stdlib.h>
#include <string.h>
#include <sys/inotify.h>
#include <sys/ioctl.h>
#include <sys/mman.h>
#include <sys/mount.h>
#include <sys/stat.h>
#include <sys/syscall.h>
#include <sys/vfs.h>
#include <unistd.h>

enum { PAGE = 4096, REQUEST = 1 << 17, WAITERS = 500, MOST = 600, FILE_NODE = 2 };
#define REFUSED UINT64_MAX              /* in place of the number of a request */
static const char *mountpoint;
static char *page;
static int device, faults, instance, is_held[2];
static atomic_bool holds = true;

/* ---- the mount */

static void reply(uint64_t unique, int error, const void *bytes, size_t size) {
    struct { struct fuse_out_header head; char bytes[256]; } out = { .head = { .unique = unique, .error = error } };
    out.head.len = (uint32_t)(sizeof out.head + size);
    if (size) memcpy(out.bytes, bytes, size);
    if (write(device, &out, out.head.len) < 0 && errno != ENOENT) fail("/dev/fuse");
}

static struct fuse_attr attributes(uint64_t node) {
    return (struct fuse_attr){ .ino = node, .mode = node == FILE_NODE ? S_IFREG | 0644 : S_IFDIR | 0755, .nlink = 1 };
}

/* What is not answered yet: its number goes into a pipe. */
static void hold(uint64_t unique) { must((int)write(is_held[1], &unique, sizeof unique), "pipe"); }

static void serve_request(void) {
    static char request[REQUEST];
    if (read(device, request, sizeof request) < (ssize_t)sizeof(struct fuse_in_header)) {
        if (errno != ENODEV) fail("/dev/fuse");
        for (;;) pause();               /* it is unmounted */
    }
    const struct fuse_in_header *head = (const void *)request;
    const char *name = request + sizeof *head;
    if (head->opcode == FUSE_INIT) {
        struct fuse_init_out out = { .major = FUSE_KERNEL_VERSION, .minor = 31, .max_write = PAGE,
                                     .flags = FUSE_PARALLEL_DIROPS };
        reply(head->unique, 0, &out, sizeof out);
    } else if (head->opcode == FUSE_GETATTR && head->nodeid == FUSE_ROOT_ID) {
        struct fuse_attr_out out = { .attr = attributes(head->nodeid) };
        reply(head->unique, 0, &out, sizeof out);
    } else if (head->opcode == FUSE_LOOKUP && !strcmp(name, "file")) {
        struct fuse_entry_out out = { .nodeid = FILE_NODE, .attr = attributes(FILE_NODE) };
        reply(head->unique, 0, &out, sizeof out);
    } else if (head->opcode == FUSE_OPEN) {
        struct fuse_open_out out = { 0 };
        reply(head->unique, 0, &out, sizeof out);
    } else if (head->opcode == FUSE_LOOKUP && !holds) reply(head->unique, -ENOENT, NULL, 0);
    else if (head->opcode == FUSE_LOOKUP || head->opcode == FUSE_GETATTR) hold(head->unique);
    else if (head->opcode != FUSE_FORGET && head->opcode != FUSE_INTERRUPT) reply(head->unique, -ENOSYS, NULL, 0);
}

static void *serve(void *unused) {
    struct pollfd both[] = { { device, POLLIN, 0 }, { faults, POLLIN, 0 } };
    for (;;) {
        must(poll(both, 2, -1), "poll");
        if (both[0].revents) serve_request();
        struct uffd_msg message;
        if (both[1].revents && read(faults, &message, sizeof message) > 0) hold(0);
    }
    return unused;
}

static void start_serving(void) {
    char text[64];
    pthread_t thread;
    must(pipe(is_held), "pipe");
    device = must(open("/dev/fuse", O_RDWR), "/dev/fuse");
    snprintf(text, sizeof text, "fd=%d,rootmode=40000,user_id=0,group_id=0", device);
    must(mount("own", mountpoint, "fuse", 0, text), "mount");
    struct uffdio_api api = { .api = UFFD_API };
    faults = must((int)syscall(SYS_userfaultfd, O_CLOEXEC | O_NONBLOCK), "userfaultfd");
    must(ioctl(faults, UFFDIO_API, &api), "userfaultfd");
    page = mmap(NULL, PAGE, PROT_READ | PROT_WRITE, MAP_PRIVATE | MAP_ANONYMOUS, -1, 0);
    struct uffdio_register range = { .range = { (uintptr_t)page, PAGE }, .mode = UFFDIO_REGISTER_MODE_MISSING };
    must(ioctl(faults, UFFDIO_REGISTER, &range), "userfaultfd");
    if (pthread_create(&thread, NULL, serve, NULL)) fail("pthread_create");
}

/* ---- calls */

static long watch(const char *path) { return inotify_add_watch(instance, path, IN_CREATE); }

/* A call that waits, and what it answered. */
struct waiter { pthread_t thread; int kind, error; };

static void *wait_in_call(void *of) {
    struct waiter *it = of;
    char path[PAGE];
    struct statfs is;
    snprintf(path, sizeof path, "%s/none%d", mountpoint, it->kind);
    long result = it->kind == 0 ? watch(page) : it->kind % 2 ? watch(path) : statfs(path, &is);
    it->error = result < 0 ? errno : 0;
    if (it->error == ENOMEM) hold(REFUSED);
    return NULL;
}

/* Calls of the tree, and of a file of the mount by its descriptor, about which it need not be asked. */
static void make_calls(void) {
    char path[PAGE];
    struct statfs is;
    int other, count;
    snprintf(path, sizeof path, "%s/file", mountpoint);
    int file = must(open(path, O_RDONLY), path);
    show("another instance", other = inotify_init1(IN_NONBLOCK));
    show("watch", watch("d"));
    show("watch of nothing", watch("none"));
    show("watch by another", inotify_add_watch(other, "d/..", IN_CREATE));
    show("watch by the file", inotify_add_watch(file, "d", IN_CREATE));
    show("unwatch by the file", inotify_rm_watch(file, 1));
    show("FIONREAD", ioctl(other, FIONREAD, &count));
    show("statfs", statfs("d", &is));
    show("unwatch", inotify_rm_watch(other, 1));
    show("close", close(other));
    show("close of the file", close(file));
}

static struct waiter waiters[MOST];
static uint64_t held[MOST];

/* Starts a call. Whether it waits now. */
static bool start_waiter(int i, int kind) {
    waiters[i].kind = kind;
    if (pthread_create(&waiters[i].thread, NULL, wait_in_call, waiters + i)) fail("pthread_create");
    if (read(is_held[0], held + i, 8) != 8) fail("pipe");
    return held[i] != REFUSED;
}

static void release(int count) {
    struct uffdio_copy copy = { .dst = (uintptr_t)page, .src = (uintptr_t)memcpy(malloc(PAGE), "d", 2), .len = PAGE };
    must(ioctl(faults, UFFDIO_COPY, &copy), "userfaultfd");
    holds = false;
    for (int i = 0; i < count; i++) if (held[i] && held[i] != REFUSED) reply(held[i], -ENOENT, NULL, 0);
    for (int i = 0; i < count; i++) pthread_join(waiters[i].thread, NULL);
}

static void wait_in_some(void) {
    for (int i = 0; i < WAITERS; i++) start_waiter(i, i);
    show("all wait", 0);
    make_calls();
    release(WAITERS);
    int answered = 0, refused = 0;
    for (int i = 0; i < WAITERS; i++) {
        answered += waiters[i].error == 0;
        refused += waiters[i].error == ENOENT;
    }
    printf("of %d calls that waited %d are answered, and %d are ENOENT\n", WAITERS, answered, refused);
}

static void wait_in_many(void) {
    int count = 0;
    while (count < MOST && start_waiter(count, 2 * count + 1)) count++;
    if (count == MOST) fail("all wait");
    show("a further call", watch("d"));
    release(count + 1);
    show("a call after them", watch("d"));
}

int main(int words, char **word) {
    if (words < 3) return 2;
    mountpoint = word[2];
    must(chdir(word[1]), word[1]);
    must(mkdir("d", 0755), "d");
    instance = must(inotify_init1(0), "inotify_init1");
    start_serving();
    if (words == 3) wait_in_some();
    else wait_in_many();
    must(umount2(mountpoint, MNT_DETACH), mountpoint);
    return 0;
}
