/* The mount, in a mount namespace of its own; for others than root in a user namespace too. */
#include "tree/mount.h"
#include "command/needs.h"
#include "command/options.h"
#include "output/asked.h"
#include "tree/requests.h"
#include <dirent.h>
#include <errno.h>
#include <fcntl.h>
#include <limits.h>
#include <sched.h>
#include <stdio.h>
#include <sys/mount.h>
#include <sys/syscall.h>
#include <unistd.h>

static void put(const char *file, const char *text) {
    int fd = open(file, O_WRONLY | O_CLOEXEC);
    if (fd < 0 || write(fd, text, strlen(text)) < 0) lack_namespace(errno);
    close(fd);
}

static void enter_namespaces(void) {
    uid_t uid = geteuid();
    gid_t gid = getegid();
    char text[64];
    if (unshare(uid ? CLONE_NEWUSER | CLONE_NEWNS : CLONE_NEWNS) < 0) lack_namespace(errno);
    if (uid) {
        put("/proc/self/setgroups", "deny");
        snprintf(text, sizeof text, "%u %u 1", uid, uid);
        put("/proc/self/uid_map", text);
        snprintf(text, sizeof text, "%u %u 1", gid, gid);
        put("/proc/self/gid_map", text);
    }
    if (mount(NULL, "/", NULL, MS_REC | MS_PRIVATE, NULL) < 0) lack_mount("/", errno);
}

/* ---- a directory that is not there
 * It is not made where all would see it: made and removed again, it would take along the mounts of other runs, as rmdir(2)
 * ends what other namespaces have mounted on a directory. So the root becomes a file system of ours, in which all that
 * stood in the old one stands, and the directory too. */

static void copy_link(const char *from, const char *to) {
    char target[PATH_MAX];
    ssize_t length = readlink(from, target, sizeof target - 1);
    target[length > 0 ? length : 0] = 0;
    if (symlink(target, to) < 0) fail(to);
}

static void bind_entries(void) {
    struct dirent *it;
    DIR *all = opendir("/old");
    if (!all) fail("/old");
    while ((it = readdir(all))) {
        char from[300], to[300];
        struct stat is;
        if (!strcmp(it->d_name, ".") || !strcmp(it->d_name, "..")) continue;
        snprintf(from, sizeof from, "/old/%s", it->d_name);
        snprintf(to, sizeof to, "/new/%s", it->d_name);
        if (lstat(from, &is) < 0) continue;
        if (S_ISLNK(is.st_mode)) {
            copy_link(from, to);
            continue;
        }
        int made = S_ISDIR(is.st_mode) ? mkdir(to, 0755) : open(to, O_CREAT | O_RDONLY | O_CLOEXEC, 0600);
        if (made > 0) close(made);
        if (made < 0 || mount(from, to, NULL, MS_BIND | MS_REC, NULL) < 0) lack_mount(it->d_name, errno);
    }
    closedir(all);
}

static void make_private_root(const char *here) {
    static const char *const stages[] = { "/tmp", "/mnt", "/run", NULL };
    char path[PATH_MAX], old[64];
    int i = 0;
    if (strchr(options.dir + 1, '/')) fault("%s is not there: make it, or name a directory below / alone", options.dir);
    while (stages[i] && access(stages[i], F_OK) < 0) i++;
    const char *stage = stages[i] ? stages[i] : "/proc";
    snprintf(old, sizeof old, "%s/old", stage);
    snprintf(path, sizeof path, "%s/new", stage);
    if (mount("root", stage, "tmpfs", 0, "mode=755") < 0) lack_mount(stage, errno);
    if (mkdir(old, 0755) < 0 || mkdir(path, 0755) < 0) fail(stage);
    if (syscall(SYS_pivot_root, stage, old) < 0) lack_mount("pivot_root", errno);
    if (mount("root", "/new", "tmpfs", 0, "mode=755") < 0) lack_mount("/new", errno);
    bind_entries();
    snprintf(path, sizeof path, "/new%s", options.dir);
    if (mkdir(path, 0755) < 0 || chdir("/new") < 0) fail(options.dir);
    if (syscall(SYS_pivot_root, ".", ".") < 0) lack_mount("pivot_root", errno);
    if (umount2(".", MNT_DETACH) < 0) fail(options.dir);
    /* What a program would write into this root would be lost, so it is refused. */
    if (mount(NULL, "/", NULL, MS_REMOUNT | MS_RDONLY, NULL) < 0) lack_mount("/", errno);
    if (chdir(here) < 0) fail(here);
}

/* ---- the mount */

struct fuse_session *mount_tree(const char *here) {
    char text[256];
    struct stat is;
    if (options.dir[0] != '/' || !options.dir[1]) fault("--dir: %s is not an absolute path below /", options.dir);
    uid_t uid = geteuid();
    gid_t gid = getegid();
    enter_namespaces();
    if (stat(options.dir, &is) < 0) {
        if (errno != ENOENT) fail(options.dir);
        make_private_root(here);
    } else if (!S_ISDIR(is.st_mode)) fault("--dir: %s is not a directory", options.dir);
    int fd = open("/dev/fuse", O_RDWR | O_CLOEXEC | O_NONBLOCK);
    if (fd < 0) lack_mount("/dev/fuse", errno);
    snprintf(text, sizeof text, "fd=%d,rootmode=40000,user_id=%u,group_id=%u,allow_other", fd, uid, gid);
    if (mount("watchtree", options.dir, "fuse.watchtree", MS_NOSUID | MS_NODEV, text) < 0) lack_mount(options.dir, errno);
    char *words[] = { "under", NULL };
    struct fuse_args args = FUSE_ARGS_INIT(1, words);
    struct fuse_lowlevel_ops handlers = requests;
    trace_handlers(&handlers);
    struct fuse_session *session = fuse_session_new(&args, &handlers, sizeof handlers, NULL);
    fuse_opt_free_args(&args);
    snprintf(text, sizeof text, "/dev/fd/%d", fd);
    if (!session || fuse_session_mount(session, text) < 0) fault("libfuse3 does not take a mounted descriptor: 3.3 is needed");
    return session;
}

void unmount_tree(struct fuse_session *session) {
    umount2(options.dir, MNT_DETACH);
    fuse_session_destroy(session);
}
