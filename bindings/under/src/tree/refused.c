/* Calls that would make what a tree cannot hold. The program gets an error, and a recording says which call it was. */
#include "output/calls.h"
#include "output/trace.h"
#include "tree/nodes.h"
#include "tree/requests.h"
#include <errno.h>
#include <stdio.h>

void refuse(fuse_req_t req, const char *call, uint64_t number, const char *name, int error) {
    static char shown[6 * PATH_SIZE];
    char path[PATH_SIZE], whole[2 * PATH_SIZE] = "?";
    struct wt_stat is;
    if (known_node(number) && find_file(number, path, &is))
        snprintf(whole, sizeof whole, "%s%s%s", number == ROOT && name ? "" : path, name ? "/" : "", name ? name : "");
    spell(whole, shown);            /* a name may have any bytes */
    /* By ENOSYS the kernel knows that there is no such request, and answers EOPNOTSUPP from then on. */
    say_unrecorded(call, shown, error == ENOSYS ? EOPNOTSUPP : error);
    fuse_reply_err(req, error);
}

void on_symlink(fuse_req_t req, const char *target, fuse_ino_t parent, const char *name) {
    (void)target;
    refuse(req, "symlink", parent, name, EPERM);
}

/* These two are asked once. */

void on_setxattr(fuse_req_t req, fuse_ino_t number, const char *name, const char *value, size_t size, int flags) {
    (void)name, (void)value, (void)size, (void)flags;
    refuse(req, "setxattr", number, NULL, ENOSYS);
}

void on_fallocate(fuse_req_t req, fuse_ino_t number, int mode, off_t offset, off_t length, struct fuse_file_info *file) {
    (void)mode, (void)offset, (void)length, (void)file;
    refuse(req, "fallocate", number, NULL, ENOSYS);
}
