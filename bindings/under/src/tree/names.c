/* Requests that make, remove and move names. */
#include "inotify/instances.h"
#include "tree/files.h"
#include "tree/requests.h"
#include "tree/tree.h"
#include <errno.h>
#include <stdio.h>

/* ---- new files
 * wt_create opens and closes, as a script's line does, so it raises IN_CREATE, IN_OPEN and IN_CLOSE_WRITE. A program's
 * file raises the latter when it is closed. So it is made in a directory that nobody can watch, and linked to its path,
 * which raises only IN_CREATE. */

static const char nursery[] = "/" NURSERY, newborn[] = "/" NEWBORN;

void make_nursery(void) {
    must(CALL(0, wt_mkdir(&tree, PATH(nursery), 0700)), nursery);
}

static void made(uint64_t number, uint64_t parent, const char *name) {
    tick();
    seen_at(number, parent, name);
    stamp(number, MODIFIED);
    stamp(parent, MODIFIED);
}

int64_t make_file(uint64_t parent, const char *name, const char *path, mode_t mode) {
    struct wt_stat is;
    if (wt_peek_stat(&tree, PATH(path), &is) >= 0) return -EEXIST;
    int64_t number = CALL(0, wt_create(&tree, PATH(newborn), mode & 07777));
    if (number < 0) return number;
    int64_t reply = CALL(0, wt_link(&tree, PATH(newborn), PATH(path)));
    must(CALL(0, wt_unlink(&tree, PATH(newborn))), newborn);
    if (reply < 0) return reply;
    made((uint64_t)number, parent, name);
    return number;
}

static void make(fuse_req_t req, fuse_ino_t parent, const char *name, mode_t mode, bool is_directory) {
    char path[PATH_SIZE];
    begin(req);
    int error = path_in(parent, name, path);
    int64_t number = -error;
    if (!error && is_directory) {
        number = CALL(0, wt_mkdir(&tree, PATH(path), mode & 07777));
        if (number >= 0) made((uint64_t)number, parent, name);
    } else if (!error) number = make_file(parent, name, path, mode);
    if (is_refused(req, number)) return;
    reply_entry(req, (uint64_t)number);
    deliver();
}

void on_mknod(fuse_req_t req, fuse_ino_t parent, const char *name, mode_t mode, dev_t device) {
    (void)device;
    if (S_ISREG(mode)) make(req, parent, name, mode, false);
    else refuse(req, S_ISSOCK(mode) ? "bind" : "mknod", parent, name, EPERM);
}

void on_mkdir(fuse_req_t req, fuse_ino_t parent, const char *name, mode_t mode) {
    make(req, parent, name, mode, true);
}

void on_link(fuse_req_t req, fuse_ino_t number, fuse_ino_t parent, const char *name) {
    char from[PATH_SIZE], to[PATH_SIZE];
    struct wt_stat is;
    begin(req);
    int error = number == INSTANCE ? EXDEV : path_in(parent, name, to);
    if (!error && !find_file(number, from, &is)) error = ENOENT;
    int64_t reply = error ? -error : CALL(0, wt_link(&tree, PATH(from), PATH(to)));
    if (is_refused(req, reply)) return;
    tick();
    seen_at(number, parent, name);
    stamp(number, ALTERED);
    stamp(parent, MODIFIED);
    reply_entry(req, number);
    deliver();
}

/* ---- names that go */

static void remove_name(fuse_req_t req, fuse_ino_t parent, const char *name, bool is_directory) {
    char path[PATH_SIZE];
    begin(req);
    int error = path_in(parent, name, path);
    if (error) {
        fuse_reply_err(req, error);
        return;
    }
    struct wt_stat is = { 0 };
    bool has_more = wt_peek_stat(&tree, PATH(path), &is) >= 0 && !is.is_directory && is.links > 1;
    struct rescue rescue = before_loss(path);
    int64_t reply = is_directory ? CALL(0, wt_rmdir(&tree, PATH(path))) : CALL(0, wt_unlink(&tree, PATH(path)));
    tick();
    after_loss(&rescue, reply >= 0);
    if (reply >= 0) stamp(parent, MODIFIED);
    if (reply >= 0 && has_more) stamp(is.number, ALTERED);
    fuse_reply_err(req, reply < 0 ? errno_of(reply) : 0);
    deliver();
}

void on_unlink(fuse_req_t req, fuse_ino_t parent, const char *name) { remove_name(req, parent, name, false); }
void on_rmdir(fuse_req_t req, fuse_ino_t parent, const char *name) { remove_name(req, parent, name, true); }

/* ---- names that move */

void on_rename(fuse_req_t req, fuse_ino_t parent, const char *name, fuse_ino_t to_parent, const char *to_name,
               unsigned flags) {
    char from[PATH_SIZE], to[PATH_SIZE];
    struct wt_stat old = { 0 }, new = { 0 };
    begin(req);
    if (flags & RENAME_WHITEOUT) {
        refuse(req, "renameat2", parent, name, EINVAL);
        return;
    }
    int error = path_in(parent, name, from);
    if (!error) error = path_in(to_parent, to_name, to);
    if (error) {
        fuse_reply_err(req, error);
        return;
    }
    bool has_old = wt_peek_stat(&tree, PATH(from), &old) >= 0, has_new = wt_peek_stat(&tree, PATH(to), &new) >= 0;
    struct rescue rescue = { 0 };
    if (!flags) rescue = before_loss(to);
    int64_t reply = CALL(0, wt_rename2(&tree, PATH(from), PATH(to), flags));
    bool moved = reply >= 0 && has_old && !(has_new && old.number == new.number);
    tick();
    after_loss(&rescue, moved);
    if (moved) {
        seen_at(old.number, to_parent, to_name);
        if (flags & 2) seen_at(new.number, parent, name);
        if (flags & 2) stamp(new.number, ALTERED);
        stamp(old.number, ALTERED);
        stamp(parent, MODIFIED);
        stamp(to_parent, MODIFIED);
    }
    fuse_reply_err(req, reply < 0 ? errno_of(reply) : 0);
    deliver();
}
