/* The filter of the program's system calls. Handed to the supervisor are those of inotify, FIONREAD, what asks for SIGIO,
 * mmap(2) of a file that others see written, which a recording names, and statfs(2), as programs look there whether inotify
 * works; of the second program also those that lock a directory. fanotify and dnotify are refused: they would see no line of
 * the script. A 32-bit program runs without inotify. */
#include "inotify/filter.h"
#include "under.h"
#include <errno.h>
#include <fcntl.h>
#include <linux/audit.h>
#include <linux/filter.h>
#include <linux/seccomp.h>
#include <stddef.h>
#include <sys/ioctl.h>
#include <sys/mman.h>
#include <sys/prctl.h>
#include <sys/socket.h>
#include <sys/syscall.h>
#include <unistd.h>

#ifndef SECCOMP_FILTER_FLAG_WAIT_KILLABLE_RECV  /* Linux 5.19 */
#define SECCOMP_FILTER_FLAG_WAIT_KILLABLE_RECV (1UL << 5)
#endif

#define LOAD(field) BPF_STMT(BPF_LD | BPF_W | BPF_ABS, offsetof(struct seccomp_data, field))
#define RETURN(action) BPF_STMT(BPF_RET | BPF_K, action)
/* Runs the next instruction if the number is the value, and skips it otherwise. */
#define IF(value) BPF_JUMP(BPF_JMP | BPF_JEQ | BPF_K, value, 0, 1)
#define ON(value, action) IF(value), RETURN(action)
/* Skips `count` instructions if the number is not the value. */
#define UNLESS(value, count) BPF_JUMP(BPF_JMP | BPF_JEQ | BPF_K, value, 0, count)
/* Skips `count` instructions if the number has the bit, and if it does not. */
#define WITH(bit, count) BPF_JUMP(BPF_JMP | BPF_JSET | BPF_K, bit, count, 0)
#define WITHOUT(bit, count) BPF_JUMP(BPF_JMP | BPF_JSET | BPF_K, bit, 0, count)

/* The numbers of a 32-bit program. */
enum { I386_FCNTL = 55, I386_FCNTL64 = 221, I386_INOTIFY_INIT = 291, I386_INOTIFY_ADD_WATCH = 292,
       I386_INOTIFY_RM_WATCH = 293, I386_INOTIFY_INIT1 = 332, I386_FANOTIFY_INIT = 338 };

enum { HELD = SECCOMP_RET_USER_NOTIF, NONE = SECCOMP_RET_ERRNO | ENOSYS, INVALID = SECCOMP_RET_ERRNO | EINVAL,
       X32 = 0x40000000 };

/* What the filter does with each call: it is held for the supervisor, refused, or let through. */
static const struct sock_filter first[] = {
    LOAD(arch),
    UNLESS(AUDIT_ARCH_I386, 17),
    LOAD(nr),
    ON(I386_INOTIFY_INIT, NONE),
    ON(I386_INOTIFY_ADD_WATCH, NONE),
    ON(I386_INOTIFY_RM_WATCH, NONE),
    ON(I386_INOTIFY_INIT1, NONE),
    ON(I386_FANOTIFY_INIT, NONE),
    BPF_JUMP(BPF_JMP | BPF_JEQ | BPF_K, I386_FCNTL, 1, 0),
    UNLESS(I386_FCNTL64, 3),
    LOAD(args[1]),
    ON(F_NOTIFY, INVALID),
    RETURN(SECCOMP_RET_ALLOW),

    BPF_JUMP(BPF_JMP | BPF_JEQ | BPF_K, AUDIT_ARCH_X86_64, 1, 0),
    RETURN(NONE),
    LOAD(nr),
    BPF_JUMP(BPF_JMP | BPF_JGE | BPF_K, X32, 0, 1),
    RETURN(NONE),
};

/* The calls that make, move or remove a name, whatever their words. open(2) and openat(2) may. */
#define NAMING(DO) DO(SYS_mkdir) DO(SYS_mkdirat) DO(SYS_mknod) DO(SYS_mknodat) DO(SYS_rmdir) DO(SYS_unlink) DO(SYS_unlinkat) \
    DO(SYS_rename) DO(SYS_renameat) DO(SYS_renameat2) DO(SYS_link) DO(SYS_linkat) DO(SYS_symlink) DO(SYS_symlinkat) \
    DO(SYS_creat) DO(SYS_openat2)
#define HOLD(call) ON(call, HELD),
#define CASE(call) case call:

/* Of the second program. */
static const struct sock_filter turns[] = {
    NAMING(HOLD)

    UNLESS(SYS_open, 4),
    LOAD(args[1]),
    WITHOUT(O_CREAT, 1),
    RETURN(HELD),
    RETURN(SECCOMP_RET_ALLOW),

    UNLESS(SYS_openat, 4),
    LOAD(args[2]),
    WITHOUT(O_CREAT, 1),
    RETURN(HELD),
    RETURN(SECCOMP_RET_ALLOW),
};

static const struct sock_filter rest[] = {
    ON(SYS_inotify_init, HELD),
    ON(SYS_inotify_init1, HELD),
    ON(SYS_inotify_add_watch, HELD),
    ON(SYS_inotify_rm_watch, HELD),
    ON(SYS_statfs, HELD),
    ON(SYS_fstatfs, HELD),
    ON(SYS_fanotify_init, NONE),

    UNLESS(SYS_ioctl, 6),
    LOAD(args[1]),
    ON(FIONREAD, HELD),
    ON(FIOASYNC, HELD),
    RETURN(SECCOMP_RET_ALLOW),

    UNLESS(SYS_mmap, 7),
    LOAD(args[2]),
    WITHOUT(PROT_WRITE, 4),
    LOAD(args[3]),
    WITH(MAP_ANONYMOUS, 2),
    WITHOUT(MAP_SHARED, 1),
    RETURN(HELD),
    RETURN(SECCOMP_RET_ALLOW),

    UNLESS(SYS_fcntl, 7),
    LOAD(args[1]),
    ON(F_NOTIFY, INVALID),
    UNLESS(F_SETFL, 3),
    LOAD(args[2]),
    WITHOUT(O_ASYNC, 1),
    RETURN(HELD),
    RETURN(SECCOMP_RET_ALLOW),
};

bool waits_for_turn(int call) {
    switch (call) {
    NAMING(CASE) case SYS_open: case SYS_openat: return true;
    default: return false;
    }
}

int install_filter(bool is_of_second) {
    struct sock_filter filter[(sizeof first + sizeof turns + sizeof rest) / sizeof *first];
    char *end = mempcpy(filter, first, sizeof first);
    if (is_of_second) end = mempcpy(end, turns, sizeof turns);
    end = mempcpy(end, rest, sizeof rest);
    struct sock_fprog program = { (unsigned short)((struct sock_filter *)(void *)end - filter), filter };
    /* Once the supervisor has a call, a signal (Go sends many) does not interrupt and repeat it. */
    unsigned long flags = SECCOMP_FILTER_FLAG_NEW_LISTENER | SECCOMP_FILTER_FLAG_WAIT_KILLABLE_RECV;
    int fd = (int)syscall(SYS_seccomp, SECCOMP_SET_MODE_FILTER, flags, &program);
    if (fd >= 0 || errno != EACCES) return fd;
    if (prctl(PR_SET_NO_NEW_PRIVS, 1, 0, 0, 0) < 0) return -1;
    return (int)syscall(SYS_seccomp, SECCOMP_SET_MODE_FILTER, flags, &program);
}

union fd_message { struct cmsghdr head; char bytes[CMSG_SPACE(sizeof(int))]; };

void send_fd(int to, int fd) {
    union fd_message control = { .head = { .cmsg_len = CMSG_LEN(sizeof fd), .cmsg_level = SOL_SOCKET,
                                           .cmsg_type = SCM_RIGHTS } };
    char byte = 0;
    struct iovec one = { &byte, 1 };
    struct msghdr message = { .msg_iov = &one, .msg_iovlen = 1, .msg_control = &control,
                              .msg_controllen = sizeof control };
    memcpy(CMSG_DATA(&control.head), &fd, sizeof fd);
    if (sendmsg(to, &message, 0) < 0) fail("sendmsg");
}

int take_fd(int from) {
    union fd_message control;
    char byte;
    struct iovec one = { &byte, 1 };
    struct msghdr message = { .msg_iov = &one, .msg_iovlen = 1, .msg_control = &control,
                              .msg_controllen = sizeof control };
    int fd = -1;
    if (recvmsg(from, &message, MSG_CMSG_CLOEXEC) > 0 && message.msg_controllen >= CMSG_LEN(sizeof fd))
        memcpy(&fd, CMSG_DATA(&control.head), sizeof fd);
    return fd;
}
