/* Requests about directories. A descriptor lists the names of the moment at which it was opened or rewound. */
#include "inotify/instances.h"
#include "tree/nodes.h"
#include "tree/requests.h"
#include "tree/tree.h"
#include <errno.h>
#include <stdlib.h>

struct listing {
    char *names;
    size_t size;
    bool was_read;
};

static int64_t fill(uint64_t number, struct listing *it) {
    char path[PATH_SIZE];
    struct wt_stat is;
    free(it->names);
    it->names = NULL;
    it->size = 0;
    it->was_read = true;
    if (!find_file(number, path, &is)) return -ENOENT;
    int64_t size = names_below(path, &it->names);
    if (size > 0) it->size = (size_t)size;
    return size;
}

void on_opendir(fuse_req_t req, fuse_ino_t number, struct fuse_file_info *file) {
    struct listing *it = calloc(1, sizeof *it);
    begin(req);
    if (!it) {
        fuse_reply_err(req, ENOMEM);
        return;
    }
    file->fh = (uintptr_t)it;
    node_of(number)->opens++;
    if (fuse_reply_open(req, file) < 0) {
        node_of(number)->opens--;
        free(it);
    }
}

/* What a listing says of a name: false if it is gone. */
static bool name_attributes(uint64_t directory, const char *name, struct stat *out) {
    char path[PATH_SIZE];
    struct wt_stat is;
    if (path_in(directory, name, path) || wt_peek_stat(&tree, PATH(path), &is) < 0) return false;
    *out = (struct stat){ .st_ino = is.number, .st_mode = is.is_directory ? S_IFDIR : S_IFREG };
    return true;
}

void on_readdir(fuse_req_t req, fuse_ino_t number, size_t size, off_t offset, struct fuse_file_info *file) {
    struct listing *it = (struct listing *)(uintptr_t)file->fh;
    begin(req);
    int64_t reply = offset == 0 || !it->was_read ? fill(number, it) : 0;
    if (is_refused(req, reply)) return;
    char *out = malloc(size);
    if (!out) {
        fuse_reply_err(req, ENOMEM);
        return;
    }
    size_t used = 0;
    while (offset < 2 + (off_t)it->size) {
        const char *name = offset == 0 ? "." : offset == 1 ? ".." : it->names + (offset - 2);
        off_t next = offset < 2 ? offset + 1 : offset + (off_t)strlen(name) + 1;
        struct stat is = { .st_ino = offset == 0 ? number : ROOT, .st_mode = S_IFDIR };
        if (offset < 2 || name_attributes(number, name, &is)) {
            size_t more = fuse_add_direntry(req, out + used, size - used, name, &is, next);
            if (more > size - used) break;
            used += more;
        }
        offset = next;
    }
    fuse_reply_buf(req, out, used);
    free(out);
}

void on_releasedir(fuse_req_t req, fuse_ino_t number, struct fuse_file_info *file) {
    struct listing *it = (struct listing *)(uintptr_t)file->fh;
    free(it->names);
    free(it);
    node_of(number)->opens--;
    drop_if_unused(number);
    fuse_reply_err(req, 0);
}
