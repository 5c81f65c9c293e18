/* Requests about what a file is: lookup, stat, chmod and the like. */
#include "inotify/instances.h"
#include "tree/files.h"
#include "tree/requests.h"
#include "tree/tree.h"
#include <errno.h>
#include <sys/statvfs.h>
#include <unistd.h>

static void instance_attributes(struct stat *out) {
    out->st_mode = S_IFREG | 0600;
    out->st_nlink = 1;
    out->st_size = 1 << 30;         /* io_uring ends its reads at the size */
}

bool attributes_of(uint64_t number, struct stat *out) {
    char path[PATH_SIZE];
    struct wt_stat is;
    memset(out, 0, sizeof *out);
    out->st_ino = number;
    out->st_uid = getuid();
    out->st_gid = getgid();
    out->st_blksize = 4096;
    if (number == INSTANCE) return instance_attributes(out), true;
    struct node *it = node_of(number);
    bool is_found = find_file(number, path, &is);
    if (!is_found && !it->is_gone) return false;
    out->st_mode = it->last.mode | (it->last.is_directory ? S_IFDIR : S_IFREG);
    out->st_nlink = is_found ? is.links : 0;
    out->st_size = it->last.is_directory ? 0 : (off_t)length_of(number);
    out->st_blocks = (out->st_size + 511) / 512;
    out->st_atim = it->atime;
    out->st_mtim = it->mtime;
    out->st_ctim = it->ctime;
    return true;
}

void reply_entry(fuse_req_t req, uint64_t number) {
    struct fuse_entry_param entry = { .ino = number, .generation = 1 };
    if (!attributes_of(number, &entry.attr)) {
        fuse_reply_err(req, ENOENT);
        return;
    }
    if (number == INSTANCE) {
        fuse_reply_entry(req, &entry);
        return;
    }
    node_of(number)->lookups++;
    if (fuse_reply_entry(req, &entry) < 0) node_of(number)->lookups--;
}

void on_lookup(fuse_req_t req, fuse_ino_t parent, const char *name) {
    char path[PATH_SIZE];
    struct wt_stat is;
    if (parent == ROOT && !strcmp(name, INSTANCE_NAME) && by_supervisor(req)) {
        reply_entry(req, INSTANCE);
        return;
    }
    begin(req);
    if (parent == ROOT && !strcmp(name, NURSERY)) {
        fuse_reply_err(req, ENOENT);
        return;
    }
    int error = path_in(parent, name, path);
    int64_t reply = error ? -error : wt_peek_stat(&tree, PATH(path), &is);
    if (is_refused(req, reply)) return;
    seen_at(is.number, parent, name);
    reply_entry(req, is.number);
}

static void forget(uint64_t number, uint64_t count) {
    struct node *it = known_node(number);
    if (!it) return;
    it->lookups -= count < it->lookups ? count : it->lookups;
    drop_if_unused(number);
}

void on_forget(fuse_req_t req, fuse_ino_t number, uint64_t count) {
    forget(number, count);
    fuse_reply_none(req);
}

void on_forget_multi(fuse_req_t req, size_t count, struct fuse_forget_data *all) {
    for (size_t i = 0; i < count; i++) forget(all[i].ino, all[i].nlookup);
    fuse_reply_none(req);
}

/* Who looks at a file that somebody else wrote finds that its watchers were notified before. */
static void look(fuse_req_t req, uint64_t number) {
    pid_t writer = silent_writer(number);
    if (!writer || writer == fuse_req_ctx(req)->pid || by_supervisor(req)) return;
    announce(number);
    deliver();
}

void on_getattr(fuse_req_t req, fuse_ino_t number, struct fuse_file_info *file) {
    struct stat is;
    (void)file;
    begin(req);
    if (number != INSTANCE) look(req, number);
    if (attributes_of(number, &is)) fuse_reply_attr(req, &is, 0);
    else fuse_reply_err(req, ENOENT);
}

enum { TIMES = FUSE_SET_ATTR_ATIME | FUSE_SET_ATTR_MTIME,
       ALTERS = FUSE_SET_ATTR_MODE | FUSE_SET_ATTR_UID | FUSE_SET_ATTR_GID | TIMES };

/* A change of attributes raises IN_ATTRIB, and one of the time of modification alone IN_MODIFY. */
static int64_t raise_change(uint64_t number, uint32_t mode, int which) {
    char path[PATH_SIZE];
    struct wt_stat is;
    if (!find_file(number, path, &is)) return 0;
    if ((which & ALTERS) != FUSE_SET_ATTR_MTIME || is.is_directory)
        return CALL(0, wt_chmod(&tree, PATH(path), mode));
    if (!silent_writer(number)) return CALL(0, wt_truncate(&tree, PATH(path), is.size));
    announce(number);
    return 0;
}

static int64_t alter(uint64_t number, const struct stat *is, const struct stat *wanted, int which) {
    struct node *it = node_of(number);
    uint32_t mode = (which & FUSE_SET_ATTR_MODE ? wanted->st_mode : is->st_mode) & 07777;
    if (!(which & ALTERS)) return 0;
    tick();
    int64_t reply = raise_change(number, mode, which);
    if (reply < 0) return reply;
    it->last.mode = mode;
    stamp(number, ALTERED);
    if (which & FUSE_SET_ATTR_MTIME) it->mtime = which & FUSE_SET_ATTR_MTIME_NOW ? now() : wanted->st_mtim;
    if (which & FUSE_SET_ATTR_ATIME) it->atime = which & FUSE_SET_ATTR_ATIME_NOW ? now() : wanted->st_atim;
    return 0;
}

void on_setattr(fuse_req_t req, fuse_ino_t number, struct stat *wanted, int which, struct fuse_file_info *file) {
    struct stat is;
    (void)file;
    begin(req);
    int64_t reply = 0;
    if (number == INSTANCE) reply = -EINVAL;
    else if (!attributes_of(number, &is)) reply = -ENOENT;
    else if (((which & FUSE_SET_ATTR_UID) && wanted->st_uid != is.st_uid) ||
             ((which & FUSE_SET_ATTR_GID) && wanted->st_gid != is.st_gid)) reply = -EPERM;
    else if (which & FUSE_SET_ATTR_SIZE) reply = resize_file(number, (uint64_t)wanted->st_size);
    else reply = alter(number, &is, wanted, which);
    if (reply == -EPERM || reply == -EFBIG) {
        refuse(req, reply == -EPERM ? "chown" : "truncate", number, NULL, (int)-reply);
        return;
    }
    if (is_refused(req, reply)) return;
    attributes_of(number, &is);
    fuse_reply_attr(req, &is, 0);
    deliver();
}

/* Modes are kept and not enforced, but for what the kernel asks of every file system: a file that nobody may execute. */
void on_access(fuse_req_t req, fuse_ino_t number, int mask) {
    struct stat is;
    begin(req);
    if (!attributes_of(number, &is)) fuse_reply_err(req, ENOENT);
    else fuse_reply_err(req, (mask & X_OK) && S_ISREG(is.st_mode) && !(is.st_mode & 0111) ? EACCES : 0);
}

void on_statfs(fuse_req_t req, fuse_ino_t number) {
    (void)number;
    struct statvfs is = { .f_bsize = 4096, .f_frsize = 4096, .f_blocks = 1 << 22, .f_bfree = 1 << 21,
                          .f_bavail = 1 << 21, .f_files = 1 << 20, .f_ffree = 1 << 19, .f_namemax = 255 };
    fuse_reply_statfs(req, &is);
}
