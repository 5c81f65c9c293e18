/* What a path is to a caller. The kernel walks it, with the caller's root, working directory and rights, if there is no
 * link on the way: a link of /proc may speak of whoever follows it. A path with links is walked here, name by name. */
#include "inotify/paths.h"
#include "inotify/caller.h"
#include "inotify/rights.h"
#include <errno.h>
#include <fcntl.h>
#include <linux/magic.h>
#include <linux/openat2.h>
#include <stdio.h>
#include <stdlib.h>
#include <sys/syscall.h>
#include <sys/sysmacros.h>
#include <sys/vfs.h>
#include <unistd.h>

bool look(int fd, struct statx *out) {
    enum { WANTED = STATX_TYPE | STATX_MODE | STATX_INO | STATX_UID };
    return statx(fd, "", AT_EMPTY_PATH | AT_STATX_DONT_SYNC, WANTED | STATX_MNT_ID, out) == 0;
}

dev_t device;

bool is_of_tree(const struct statx *it) { return makedev(it->stx_dev_major, it->stx_dev_minor) == device; }

static int open_path(int at, const char *path, int flags, uint64_t resolve) {
    struct open_how how = { .flags = (uint64_t)(O_PATH | O_CLOEXEC | flags), .resolve = resolve };
    int fd = (int)syscall(SYS_openat2, at, path, &how, sizeof how);
    return fd < 0 ? -errno : fd;
}

/* ---- a walk with links */

struct walk {
    const struct seccomp_notif *call;
    const struct identity *who;
    int at;                         /* the directory that is reached */
    int own;                        /* how deep it is in the caller's own directory of /proc, which is open to it */
    int links;
    char left[2 * PATH_MAX];        /* the names that are left */
};

static void move_to(struct walk *it, int fd, int own) {
    close(it->at);
    it->at = fd;
    it->own = own;
}

static bool is_in_proc(int fd) {
    struct statfs is;
    return fstatfs(fd, &is) == 0 && is.f_type == PROC_SUPER_MAGIC;
}

static bool is_root_of_proc(int fd) {
    enum { PROC_ROOT = 1 };
    struct statx is;
    return look(fd, &is) && is.stx_ino == PROC_ROOT && is_in_proc(fd);
}

/* Whether a /proc has the numbers of processes that the supervisor's has. */
static bool has_our_numbers(int fd) {
    char text[32];
    ssize_t length = readlinkat(fd, "self", text, sizeof text - 1);
    text[length > 0 ? length : 0] = 0;
    return atoi(text) == getpid();
}

/* How deep a name leads into the caller's own directory of /proc: 0 if it does not. The files of map_files take further
 * rights. */
static int next_own(const struct walk *it, const char *name) {
    char own[32];
    if (!strcmp(name, "map_files")) return 0;
    if (it->own) return it->own + (!strcmp(name, "..") ? -1 : strcmp(name, ".") != 0);
    snprintf(own, sizeof own, "%d", it->who->process);
    return !strcmp(name, own) && is_root_of_proc(it->at) && has_our_numbers(it->at);
}

/* Opens a name of the directory that is reached. */
static int open_name(struct walk *it, const char *name, int flags) {
    if (it->own) act_as_self();
    int fd = open_path(it->at, name, flags, 0);
    if (it->own && !act_as(it->who)) fail("setgroups");
    return fd;
}

/* The text of a link: 0 or -errno. Links in the root of /proc that speak of the reader are made to speak of the
 * caller. */
static int read_link(const struct walk *it, int link, const char *name, char text[PATH_MAX]) {
    bool is_thread = !strcmp(name, "thread-self");
    if ((is_thread || !strcmp(name, "self")) && is_root_of_proc(it->at)) {
        if (!has_our_numbers(it->at)) return -EACCES;
        if (is_thread) snprintf(text, PATH_MAX, "%d/task/%u", it->who->process, it->call->pid);
        else snprintf(text, PATH_MAX, "%d", it->who->process);
        return 0;
    }
    ssize_t length = readlinkat(link, "", text, PATH_MAX - 1);
    if (length < 0) return -errno;
    text[length] = 0;
    return length ? 0 : -ENOENT;
}

static bool has_protected_links(void) {
    char digit = '1';
    int fd = openat(proc_root, "sys/fs/protected_symlinks", O_RDONLY | O_CLOEXEC);
    if (fd >= 0 && read(fd, &digit, 1) != 1) digit = '1';
    if (fd >= 0) close(fd);
    return digit != '0';
}

/* With fs.protected_symlinks, in a directory such as /tmp only links of its owner and of the caller are followed. */
static bool may_follow(const struct walk *it, const struct statx *link) {
    enum { SHARED = S_ISVTX | S_IWOTH };
    struct statx in;
    if (!look(it->at, &in)) return false;
    return (in.stx_mode & SHARED) != SHARED || link->stx_uid == in.stx_uid || link->stx_uid == it->who->uid ||
           !has_protected_links();
}

/* Goes where a link leads, or puts its text before the names that are left. */
static int follow(struct walk *it, int link, const struct statx *is, const char *name) {
    enum { MOST_LINKS = 40 };
    char text[PATH_MAX], left[PATH_MAX];
    if (++it->links > MOST_LINKS) return -ELOOP;
    if (is_in_proc(link) && !is_root_of_proc(it->at)) {     /* no text, but the file itself */
        int fd = open_name(it, name, 0);
        if (fd < 0) return fd;
        move_to(it, fd, 0);
        return 0;
    }
    if (!may_follow(it, is)) return -EACCES;
    int error = read_link(it, link, name, text);
    if (error) return error;
    if ((size_t)snprintf(left, sizeof left, "%s", it->left) >= sizeof left) return -ENAMETOOLONG;
    snprintf(it->left, sizeof it->left, "%s%s%s", text, *left ? "/" : "", left);
    return 0;
}

/* Takes `length` bytes, and the slashes after them, off what is left. */
static void take(struct walk *it, size_t length) {
    const char *rest = it->left + length + strspn(it->left + length, "/");
    memmove(it->left, rest, strlen(rest) + 1);
}

/* Takes the next name. A slash after the last one counts as "." there: it is to be a directory. */
static bool take_name(struct walk *it, char name[NAME_MAX + 1]) {
    size_t length = strcspn(it->left, "/");
    bool is_directory = it->left[length] == '/';
    if (length > NAME_MAX) return false;
    memcpy(name, it->left, length);
    name[length] = 0;
    take(it, length);
    if (is_directory && !*it->left) strcpy(it->left, ".");
    return true;
}

static bool is_same_mount(int fd, const struct statx *is) {
    struct statx other;
    return look(fd, &other) && other.stx_mnt_id == is->stx_mnt_id;
}

/* One name: 0 or -errno. */
static int step(struct walk *it, bool follows) {
    char name[NAME_MAX + 1];
    struct statx is;
    if (!take_name(it, name)) return -ENAMETOOLONG;
    int own = next_own(it, name);
    if (own) it->own = own;
    int fd = open_name(it, name, O_NOFOLLOW), error = 0;
    if (fd < 0) return fd;
    if (!look(fd, &is)) error = -EACCES;
    else {
        if (!is_same_mount(it->at, &is)) it->own = own = 0;     /* something is mounted there */
        if (!S_ISLNK(is.stx_mode) || (!follows && !*it->left)) {
            move_to(it, fd, own);
            return 0;
        }
        error = follow(it, fd, &is, name);
    }
    close(fd);
    return error;
}

static int go_to_root(struct walk *it) {
    int root = open_path(AT_FDCWD, "/", O_DIRECTORY, 0);
    if (root < 0) return root;
    move_to(it, root, 0);
    take(it, 0);
    return 0;
}

static int walk(const struct seccomp_notif *call, const struct identity *who, int start, const char *path,
                bool follows) {
    static _Thread_local struct walk it;
    it = (struct walk){ .call = call, .who = who, .at = fcntl(start, F_DUPFD_CLOEXEC, 3) };
    if (it.at < 0) return -errno;
    snprintf(it.left, sizeof it.left, "%s", path);
    while (*it.left) {
        int error = *it.left == '/' ? go_to_root(&it) : step(&it, follows);
        if (!error) continue;
        close(it.at);
        return error;
    }
    return it.at;
}

/* ---- a path */

static int own_root = -1;

void keep_own_root(void) {
    if ((own_root = open("/", O_PATH | O_DIRECTORY | O_CLOEXEC)) < 0) fail("/");
}

/* Whether a directory is the root of this thread. (A program may change it with its own, by pivot_root(2).) A mount may
 * have files of several devices. */
static bool is_root(int fd) {
    struct statx root, is;
    return look(fd, &is) && statx(AT_FDCWD, "/", AT_STATX_DONT_SYNC, STATX_INO | STATX_MNT_ID, &root) == 0 &&
           is.stx_mnt_id == root.stx_mnt_id && is.stx_ino == root.stx_ino &&
           is.stx_dev_major == root.stx_dev_major && is.stx_dev_minor == root.stx_dev_minor;
}

static bool change_root(int fd) { return fchdir(fd) == 0 && chroot(".") == 0; }

/* Every file of the tree may be read. */
static bool is_readable(int fd) {
    struct statx is;
    return (look(fd, &is) && is_of_tree(&is)) || syscall(SYS_faccessat2, fd, "", R_OK, AT_EMPTY_PATH | AT_EACCESS) == 0;
}

static int open_as(const struct seccomp_notif *call, const struct identity *who, int start, const char *path, int how) {
    if (!act_as(who)) return -EACCES;
    int fd = open_path(start, path, how & FOLLOWS ? 0 : O_NOFOLLOW, RESOLVE_NO_SYMLINKS);
    if (fd == -ELOOP) fd = walk(call, who, start, path, how & FOLLOWS);
    if (fd >= 0 && (how & READS) && !is_readable(fd)) {
        int error = errno;
        close(fd);
        fd = -error;
    }
    act_as_self();
    return fd;
}

static int open_from(const struct seccomp_notif *call, int root, int start, const char *path, int how) {
    static _Thread_local struct identity who;
    if (!read_identity(call, &who) || !is_valid(call)) return -ESRCH;
    bool has_other_root = !is_root(root);
    if (has_other_root && !change_root(root)) return -EACCES;
    int fd = open_as(call, &who, start, path, how);
    if (has_other_root && !change_root(own_root)) fail("/");
    if (fd < 0 || is_valid(call)) return fd;
    close(fd);
    return -ESRCH;
}

int open_for(const struct seccomp_notif *call, const char *path, int how) {
    if (!*path) return -ENOENT;
    int root = open_in_proc(call, "root", O_PATH), start = open_in_proc(call, "cwd", O_PATH);
    int fd = root < 0 ? root : start < 0 ? start : open_from(call, root, start, path, how);
    if (root >= 0) close(root);
    if (start >= 0) close(start);
    return fd;
}
