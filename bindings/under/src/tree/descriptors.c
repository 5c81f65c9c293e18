/* Requests of open files. The tree opens and closes within each of its calls, so a descriptor raises what it has to when
 * it is closed: IN_OPEN, IN_ACCESS if it read, IN_MODIFY if it wrote, and the close. */
#include "inotify/instances.h"
#include "tree/files.h"
#include "tree/requests.h"
#include "tree/tree.h"
#include "tree/waiting.h"
#include <errno.h>
#include <fcntl.h>
#include <linux/fuse.h>
#include <poll.h>
#include <stdlib.h>

struct descriptor { bool may_write, has_read, is_of_second; };

enum { LARGEST_READ = 1 << 20 };
static char buffer[LARGEST_READ];

/* ---- open */

/* What a descriptor that may write cuts reaches the tree with what it writes. */
static int64_t cut(fuse_req_t req, uint64_t number, int flags) {
    return (flags & O_ACCMODE) == O_RDONLY ? resize_file(number, 0) : empty_file(number, fuse_req_ctx(req)->pid);
}

static bool open_descriptor(uint64_t number, struct fuse_file_info *file) {
    struct descriptor *it = calloc(1, sizeof *it);
    if (!it) return false;
    it->may_write = (file->flags & O_ACCMODE) != O_RDONLY;
    it->is_of_second = served == SECOND;
    node_of(number)->opens++;
    file->fh = (uintptr_t)it;
    file->direct_io = 1;
    file->noflush = 1;
    return true;
}

bool is_opened_by_second(uint64_t file) { return ((const struct descriptor *)(uintptr_t)file)->is_of_second; }

static void close_descriptor(uint64_t number, struct descriptor *it) {
    free(it);
    node_of(number)->opens--;
    drop_if_unused(number);
}

void on_open(fuse_req_t req, fuse_ino_t number, struct fuse_file_info *file) {
    char path[PATH_SIZE];
    struct wt_stat is;
    if (number == INSTANCE) {
        open_instance(req, file);
        return;
    }
    begin(req);
    int64_t reply = 0;
    if (!find_file(number, path, &is) && !node_of(number)->content) reply = -ENOENT;
    else if (file->flags & O_TRUNC) reply = cut(req, number, file->flags);
    if (reply >= 0 && !open_descriptor(number, file)) reply = -ENOMEM;
    if (is_refused(req, reply)) return;
    if (fuse_reply_open(req, file) < 0) close_descriptor(number, (struct descriptor *)(uintptr_t)file->fh);
    deliver();
}

void on_create(fuse_req_t req, fuse_ino_t parent, const char *name, mode_t mode, struct fuse_file_info *file) {
    char path[PATH_SIZE];
    struct wt_stat is;
    struct fuse_entry_param entry = { .generation = 1 };
    begin(req);
    int error = path_in(parent, name, path);
    int64_t number = error ? -error : make_file(parent, name, path, mode);
    if (number == -EEXIST && !(file->flags & O_EXCL) && wt_peek_stat(&tree, PATH(path), &is) >= 0) {
        number = is.is_directory ? -EISDIR : (int64_t)is.number;
        seen_at(is.number, parent, name);
        if (number > 0 && (file->flags & O_TRUNC)) {
            int64_t reply = cut(req, is.number, file->flags);
            if (reply < 0) number = reply;
        }
    }
    if (number >= 0 && !open_descriptor((uint64_t)number, file)) number = -ENOMEM;
    if (is_refused(req, number)) return;
    entry.ino = (uint64_t)number;
    attributes_of(entry.ino, &entry.attr);
    node_of(entry.ino)->lookups++;
    if (fuse_reply_create(req, &entry, file) < 0) {
        node_of(entry.ino)->lookups--;
        close_descriptor(entry.ino, (struct descriptor *)(uintptr_t)file->fh);
    }
    deliver();
}

/* ---- read and write */

void on_read(fuse_req_t req, fuse_ino_t number, size_t size, off_t offset, struct fuse_file_info *file) {
    if (number == INSTANCE) {
        read_instance(req, size, file);
        return;
    }
    begin(req);
    pid_t writer = silent_writer(number);
    if (writer && writer != fuse_req_ctx(req)->pid) announce(number);
    int64_t count = read_file(number, buffer, size < sizeof buffer ? size : sizeof buffer, (uint64_t)offset);
    if (is_refused(req, count)) return;
    if (count > 0) ((struct descriptor *)(uintptr_t)file->fh)->has_read = true;
    node_of(number)->atime = now();
    fuse_reply_buf(req, buffer, (size_t)count);
    deliver();
}

void on_write(fuse_req_t req, fuse_ino_t number, const char *bytes, size_t size, off_t offset,
              struct fuse_file_info *file) {
    if (number == INSTANCE) {
        fuse_reply_err(req, EBADF);
        return;
    }
    begin(req);
    struct stat is;
    if (!attributes_of(number, &is)) {
        fuse_reply_err(req, ENOENT);
        return;
    }
    if (file->flags & O_APPEND) offset = is.st_size;
    int64_t count = write_file(number, bytes, size, (uint64_t)offset, fuse_req_ctx(req)->pid);
    if (count == -EFBIG) {
        refuse(req, "write", number, NULL, EFBIG);
        return;
    }
    if (is_refused(req, count)) return;
    if (file->flags & (O_SYNC | O_DSYNC)) announce(number);
    fuse_reply_write(req, (size_t)count);
    deliver();
}

void on_fsync(fuse_req_t req, fuse_ino_t number, int datasync, struct fuse_file_info *file) {
    (void)datasync, (void)file;
    if (number == INSTANCE) {
        fuse_reply_err(req, EINVAL);
        return;
    }
    begin(req);
    announce(number);
    fuse_reply_err(req, 0);
    deliver();
}

/* ---- close: the kernel says so when the last descriptor of an open file is closed */

static void raise_close(uint64_t number, const struct descriptor *it) {
    char path[PATH_SIZE];
    struct wt_stat is;
    char byte;
    if (!find_file(number, path, &is)) return;
    if (!it->may_write) {
        uint64_t from = it->has_read ? 0 : is.size;
        must(CALL(1, wt_pread(&tree, PATH(path), from, &byte, it->has_read ? 1 : 0)), path);
    } else if (node_of(number)->content) commit(number);
    else must(CALL(0, wt_write(&tree, PATH(path), 0, "", 0)), path);
}

void on_release(fuse_req_t req, fuse_ino_t number, struct fuse_file_info *file) {
    if (number == INSTANCE) close_instance(file);
    else {
        struct descriptor *it = (struct descriptor *)(uintptr_t)file->fh;
        count_work();
        raise_close(number, it);
        close_descriptor(number, it);
    }
    fuse_reply_err(req, 0);
    deliver();
}

/* ---- poll and ioctl */

void on_poll(fuse_req_t req, fuse_ino_t number, struct fuse_file_info *file, struct fuse_pollhandle *handle) {
    if (number == INSTANCE) {
        poll_instance(req, file, handle);
        return;
    }
    if (handle) fuse_pollhandle_destroy(handle);
    fuse_reply_poll(req, POLLIN | POLLOUT | POLLRDNORM | POLLWRNORM);
}

void on_ioctl(fuse_req_t req, fuse_ino_t number, unsigned command, void *argument, struct fuse_file_info *file,
              unsigned flags, const void *in, size_t in_size, size_t out_size) {
    (void)argument, (void)flags, (void)out_size;
    if (number == INSTANCE && by_supervisor(req)) call_instance(req, command, file, in, in_size);
    else if (number == ROOT && command == CALL_TURN && by_supervisor(req)) fuse_reply_ioctl(req, 0, NULL, 0);
    else fuse_reply_err(req, ENOTTY);
}
