/* The supervisor: a process of its own, as it opens and calls files of the mount, which the tool answers meanwhile. It knows
 * nothing of the tree: each of its answers is an ioctl(2) of an instance. */
#include "inotify/supervisor.h"
#include "command/options.h"
#include "inotify/caller.h"
#include "inotify/filter.h"
#include "inotify/instances.h"
#include "inotify/paths.h"
#include "inotify/rights.h"
#include "output/trace.h"
#include <errno.h>
#include <fcntl.h>
#include <linux/magic.h>
#include <poll.h>
#include <pthread.h>
#include <sched.h>
#include <signal.h>
#include <stdatomic.h>
#include <stdio.h>
#include <stdlib.h>
#include <sys/inotify.h>
#include <sys/resource.h>
#include <sys/stat.h>
#include <sys/syscall.h>
#include <sys/vfs.h>
#include <unistd.h>

static int root = -1;
static bool serves_second;
static int turns = -1;              /* of the second program: the root, to ask for turns by */

/* An answer that is the kernel's own: the call goes on as if nobody had held it. */
enum { GOES_ON = INT32_MIN, IS_ANSWERED = INT32_MIN + 1 };

/* ---- the calls */

/* The caller's instance; -EINVAL if the descriptor is of another kind, -EBADF if it is one of O_PATH. */
static int borrow_instance(const struct seccomp_notif *call, int fd) {
    struct statx is;
    int mine = borrow(call, fd);
    if (mine < 0) return mine;
    bool is_path = fcntl(mine, F_GETFL) & O_PATH;
    if (!is_path && look(mine, &is) && is_of_tree(&is) && is.stx_ino == INSTANCE) return mine;
    close(mine);
    return is_path ? -EBADF : -EINVAL;
}

/* A new instance goes into the caller before the call is answered, and is closed here before that too: what the caller does
 * next finds one descriptor of it. The call was received, so only a fatal signal can come between. */
static int init(const struct seccomp_notif *call) {
    static atomic_flag is_said = ATOMIC_FLAG_INIT;
    if (serves_second) {
        if (!atomic_flag_test_and_set(&is_said))
            say("the second program has no inotify: inotify_init is refused (%s)", strerror(ENOSYS));
        return -ENOSYS;
    }
    int flags = call->data.nr == SYS_inotify_init ? 0 : (int)call->data.args[0];
    if (flags & ~(IN_CLOEXEC | IN_NONBLOCK)) return -EINVAL;
    int mine = openat(root, INSTANCE_NAME, O_RDONLY | O_CLOEXEC | (flags & IN_NONBLOCK));
    if (mine < 0) return -errno;
    struct seccomp_notif_addfd add = { .id = call->id, .srcfd = (uint32_t)mine,
                                       .newfd_flags = flags & IN_CLOEXEC ? O_CLOEXEC : 0 };
    int number = ioctl(listener, SECCOMP_IOCTL_NOTIF_ADDFD, &add), error = errno;
    close(mine);
    return number >= 0 ? number : error == ENOENT ? IS_ANSWERED : -error;
}

/* The number of the file that a path names: 0 if it is outside the mount; -errno. */
static int64_t number_for(const struct seccomp_notif *call, const char *path, int how) {
    struct statx is;
    int fd = open_for(call, path, how);
    if (fd < 0) return fd;
    int64_t number = look(fd, &is) && is_of_tree(&is) ? (int64_t)is.stx_ino : 0;
    close(fd);
    return number;
}

/* The kernel looks at the mask before it looks at the path. */
static bool is_mask(uint32_t mask) {
    enum { OTHERS = IN_UNMOUNT | IN_Q_OVERFLOW | IN_IGNORED | IN_ONLYDIR | IN_DONT_FOLLOW | IN_EXCL_UNLINK | IN_ISDIR };
    uint32_t both = IN_MASK_ADD | IN_MASK_CREATE, known = IN_ALL_EVENTS | OTHERS | IN_ONESHOT | both;
    return (mask & known) && !(mask & ~known) && (mask & both) != both;
}

static int add_watch(const struct seccomp_notif *call) {
    char path[PATH_MAX];
    struct watch_call watch = { .mask = (uint32_t)call->data.args[2] };
    int mine = borrow_instance(call, (int)call->data.args[0]);
    if (mine < 0) return mine;
    int64_t number = is_mask(watch.mask) ? read_path(call, call->data.args[1], path) : -EINVAL;
    if (number == 0) number = number_for(call, path, READS | (watch.mask & IN_DONT_FOLLOW ? 0 : FOLLOWS));
    int reply = (int)number;
    if (number >= 0) {
        watch.number = (uint64_t)number;
        reply = ioctl(mine, CALL_WATCH, &watch);
        if (reply < 0) reply = -errno;
    }
    close(mine);
    return reply;
}

static int remove_watch(const struct seccomp_notif *call) {
    int mine = borrow_instance(call, (int)call->data.args[0]);
    int32_t wd = (int32_t)call->data.args[1];
    if (mine < 0) return mine;
    int reply = ioctl(mine, CALL_UNWATCH, &wd) < 0 ? -errno : 0;
    close(mine);
    return reply;
}

/* The kernel answers FIONREAD of a regular file by itself, so it never comes to FUSE. */
static int bytes_waiting(const struct seccomp_notif *call) {
    int mine = borrow_instance(call, (int)call->data.args[0]);
    if (mine < 0) return GOES_ON;
    int count = ioctl(mine, CALL_BYTES), error = errno;
    close(mine);
    return count < 0 ? -error : write_memory(call, call->data.args[2], &count, sizeof count);
}

/* FUSE counts as a network file system, on which tail(1) and others do without inotify: the tree says it is a tmpfs. */
static int file_system(const struct seccomp_notif *call) {
    char path[PATH_MAX];
    struct statfs is;
    struct statx seen;
    int fd = call->data.nr == SYS_fstatfs ? borrow(call, (int)call->data.args[0])
           : read_path(call, call->data.args[0], path) == 0 ? open_for(call, path, FOLLOWS) : -1;
    if (fd < 0) return GOES_ON;
    bool is_ours = look(fd, &seen) && is_of_tree(&seen) && fstatfs(fd, &is) == 0;
    close(fd);
    if (!is_ours) return GOES_ON;
    is.f_type = TMPFS_MAGIC;
    return write_memory(call, call->data.args[1], &is, sizeof is);
}

/* A file of FUSE sends no SIGIO, and the kernel would take the wish for it without a word. */
static int refuse_signals(const struct seccomp_notif *call) {
    int mine = borrow_instance(call, (int)call->data.args[0]);
    if (mine < 0) return GOES_ON;
    close(mine);
    return -EINVAL;
}

/* The kernel refuses to map a file of the tree so that others see what is written, and asks nobody: a recording names it. */
static int map_shared(const struct seccomp_notif *call) {
    char link[32], path[PATH_MAX], shown[3 * PATH_MAX];
    struct statx is;
    int mine = options.is_record ? borrow(call, (int)call->data.args[4]) : -1;
    if (mine < 0) return GOES_ON;
    snprintf(link, sizeof link, "self/fd/%d", mine);
    ssize_t length = look(mine, &is) && is_of_tree(&is) ? readlinkat(proc_root, link, path, sizeof path - 1) : -1;
    if (length > 0) {
        path[length] = 0;
        spell(path, shown);
        say("mmap %s with MAP_SHARED: a tree has none, so it is refused (%s) and not recorded", shown, strerror(ENODEV));
    }
    close(mine);
    return GOES_ON;
}

/* The tool answers when it is the caller's turn. */
static int wait_for_turn(const struct seccomp_notif *call) {
    int32_t task = (int32_t)call->pid;
    ioctl(turns, CALL_TURN, &task);         /* refused at the end of the run, when no turn comes any more */
    return GOES_ON;
}

static int answer(const struct seccomp_notif *call) {
    if (waits_for_turn(call->data.nr)) return wait_for_turn(call);
    switch (call->data.nr) {
    case SYS_inotify_init:
    case SYS_inotify_init1: return init(call);
    case SYS_inotify_add_watch: return add_watch(call);
    case SYS_inotify_rm_watch: return remove_watch(call);
    case SYS_statfs:
    case SYS_fstatfs: return file_system(call);
    case SYS_fcntl: return refuse_signals(call);
    case SYS_mmap: return map_shared(call);
    default: return (unsigned)call->data.args[1] == FIONREAD ? bytes_waiting(call) : refuse_signals(call);
    }
}

#ifndef SECCOMP_IOCTL_NOTIF_SET_FLAGS           /* Linux 6.6 */
#define SECCOMP_USER_NOTIF_FD_SYNC_WAKE_UP (1UL << 0)
#define SECCOMP_IOCTL_NOTIF_SET_FLAGS SECCOMP_IOW(4, __u64)
#endif

/* Until the supervisor has a call, a signal interrupts it, so it takes calls as soon as it can. Each of these may fail. */
static void take_calls_soon(void) {
    ioctl(listener, SECCOMP_IOCTL_NOTIF_SET_FLAGS, SECCOMP_USER_NOTIF_FD_SYNC_WAKE_UP);
    setpriority(PRIO_PROCESS, 0, -20);
}

/* A call that waits keeps some descriptors. */
static void allow_descriptors(void) {
    struct rlimit limit;
    if (getrlimit(RLIMIT_NOFILE, &limit) < 0) fail("getrlimit");
    limit.rlim_cur = limit.rlim_max;
    if (setrlimit(RLIMIT_NOFILE, &limit) < 0) fail("setrlimit");
}

/* The descriptor that shows when the tool is gone. */
static int prepare(int from, pid_t tool) {
    struct stat is;
    sigset_t all;
    sigfillset(&all);               /* the program and a terminal signal whole process groups */
    sigprocmask(SIG_SETMASK, &all, NULL);
    /* The tool's descriptors are not for here: while one of /dev/fuse is open the mount lives. */
    if (dup2(from, 3) < 0 || close_range(4, ~0u, 0) < 0) fail("close_range");
    int gone = (int)syscall(SYS_pidfd_open, tool, 0);
    if (getppid() != tool || (listener = take_fd(3)) < 0) _exit(0);
    if (gone < 0) fail("pidfd_open");
    if ((root = open(options.dir, O_PATH | O_DIRECTORY | O_CLOEXEC)) < 0 || fstat(root, &is) < 0) fail(options.dir);
    if ((proc_root = open("/proc", O_PATH | O_DIRECTORY | O_CLOEXEC)) < 0) fail("/proc");
    if (serves_second && (turns = open(options.dir, O_RDONLY | O_DIRECTORY | O_CLOEXEC)) < 0) fail(options.dir);
    device = is.st_dev;
    keep_own_root();
    keep_own_rights();
    allow_descriptors();
    take_calls_soon();
    if (write(3, "", 1) != 1) fail("socketpair");
    close(3);
    return gone;
}

/* ---- threads: a call may wait for a file system of the program's own, and holds up no other call */

static pthread_mutex_t turn = PTHREAD_MUTEX_INITIALIZER;    /* of the thread that takes the next call */
static atomic_int idle;                                     /* the threads that wait for it */

/* The next call: false if the caller is gone. */
static bool take_call(struct seccomp_notif *call) {
    struct pollfd one = { listener, POLLIN, 0 };
    if (poll(&one, 1, -1) < 0) fail("poll");
    while (!(one.revents & POLLIN)) pause();        /* nobody is left to call: the tool ends this process */
    memset(call, 0, sizeof *call);
    if (ioctl(listener, SECCOMP_IOCTL_NOTIF_RECV, call) == 0) return true;
    if (errno != EINTR && errno != ENOENT) fail("seccomp");
    return false;
}

static void reply_to(const struct seccomp_notif *call, int value) {
    struct seccomp_notif_resp reply = { .id = call->id };
    if (value == IS_ANSWERED) return;
    if (value == GOES_ON) reply.flags = SECCOMP_USER_NOTIF_FLAG_CONTINUE;
    else if (value < 0) reply.error = value;
    else reply.val = value;
    ioctl(listener, SECCOMP_IOCTL_NOTIF_SEND, &reply);
}

static void *serve_calls(void *unused);

/* Whether another thread takes the next call while this one answers its own. */
static bool has_another(void) {
    pthread_t thread;
    if (idle) return true;
    if (pthread_create(&thread, NULL, serve_calls, NULL)) return false;
    idle++;
    return true;
}

static void *serve_calls(void *unused) {
    (void)unused;
    if (unshare(CLONE_FS) < 0) fail("unshare");
    for (;;) {
        struct seccomp_notif call;
        pthread_mutex_lock(&turn);
        idle--;
        bool is_taken = take_call(&call), has_other = has_another();
        pthread_mutex_unlock(&turn);
        if (is_taken) reply_to(&call, has_other ? answer(&call) : -ENOMEM);
        idle++;
    }
}

void supervise(int from, pid_t tool, bool is_of_second) {
    serves_second = is_of_second;
    int gone = prepare(from, tool);
    struct pollfd one = { gone, POLLIN, 0 };
    if (!has_another()) fail("pthread_create");
    if (poll(&one, 1, -1) < 0) fail("poll");
    _exit(STATUS_FAULT);            /* and the keeper ends the run */
}
