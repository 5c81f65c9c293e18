/* What the supervisor takes from a caller. After each use of the caller's number the call is looked at again: if it is
 * over, the number may be another task's. */
#include "inotify/caller.h"
#include "inotify/rights.h"
#include <errno.h>
#include <fcntl.h>
#include <stdio.h>
#include <stdlib.h>
#include <sys/ioctl.h>
#include <sys/syscall.h>
#include <sys/uio.h>
#include <unistd.h>

#ifndef PIDFD_THREAD                /* Linux 6.9 */
#define PIDFD_THREAD O_EXCL
#endif

int listener = -1, proc_root = -1;

bool is_valid(const struct seccomp_notif *call) {
    return ioctl(listener, SECCOMP_IOCTL_NOTIF_ID_VALID, &call->id) == 0;
}

int open_in_proc(const struct seccomp_notif *call, const char *name, int flags) {
    char path[64];
    snprintf(path, sizeof path, "%u/%s", call->pid, name);
    int fd = openat(proc_root, path, flags | O_CLOEXEC);
    return fd < 0 ? -errno : fd;
}

int borrow(const struct seccomp_notif *call, int fd) {
    static _Thread_local struct identity who;
    int pidfd = (int)syscall(SYS_pidfd_open, call->pid, PIDFD_THREAD);
    if (pidfd < 0 && read_identity(call, &who)) pidfd = (int)syscall(SYS_pidfd_open, who.process, 0);
    if (pidfd < 0) return -ESRCH;
    int copy = is_valid(call) ? (int)syscall(SYS_pidfd_getfd, pidfd, fd, 0) : (errno = ESRCH, -1);
    int reply = copy < 0 ? -errno : copy;
    close(pidfd);
    return reply;
}

/* ---- its memory */

int read_path(const struct seccomp_notif *call, uint64_t from, char path[PATH_MAX]) {
    enum { PAGE = 4096 };
    /* A page that is not there ends what is read before it. */
    size_t first = PAGE - from % PAGE;
    struct iovec to = { path, PATH_MAX };
    struct iovec pages[] = { { (void *)(uintptr_t)from, first },
                             { (void *)(uintptr_t)(from + first), PATH_MAX - first } };
    ssize_t count = process_vm_readv((pid_t)call->pid, &to, 1, pages, first < PATH_MAX ? 2 : 1, 0);
    int error = errno;
    if (!is_valid(call)) return -ESRCH;
    if (count < 0) return error == EFAULT ? -EFAULT : -EACCES;
    return memchr(path, 0, (size_t)count) ? 0 : count == PATH_MAX ? -ENAMETOOLONG : -EFAULT;
}

/* Whether all of a piece of memory may be written to, by the text of /proc/PID/maps. */
static bool is_writable(FILE *maps, uint64_t at, size_t size) {
    static _Thread_local char *line;
    static _Thread_local size_t capacity;
    unsigned long long start, end;
    char write;
    uint64_t last = at + size;
    while (at < last && getline(&line, &capacity, maps) > 0) {
        if (sscanf(line, "%llx-%llx %*c%c", &start, &end, &write) != 3) return false;
        if (end <= at) continue;
        if (start > at || write != 'w') return false;
        at = end;
    }
    return at >= last && last >= size;
}

/* Not by process_vm_writev(2): if the call ended between the look and the write, the number could be another task's,
 * whose memory would change. Files of /proc stay the caller's whatever becomes of its number. /proc/PID/mem forces
 * bytes into memory that may only be read, so /proc/PID/maps is asked first. If a thread of the caller takes the
 * right to write away between the two, it is as if the bytes had come before. */
int write_memory(const struct seccomp_notif *call, uint64_t to, const void *bytes, size_t size) {
    int memory = open_in_proc(call, "mem", O_WRONLY), fd = open_in_proc(call, "maps", O_RDONLY), reply = -EACCES;
    FILE *maps = fd < 0 ? NULL : fdopen(fd, "r");
    if (!is_valid(call)) reply = -ESRCH;
    else if (memory >= 0 && maps)
        reply = is_writable(maps, to, size) && pwrite(memory, bytes, size, (off_t)to) == (ssize_t)size ? 0 : -EFAULT;
    if (maps) fclose(maps);
    else if (fd >= 0) close(fd);
    if (memory >= 0) close(memory);
    return reply;
}
