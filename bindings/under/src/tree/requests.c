/* The table of the requests, and the first step of each. */
#include "tree/requests.h"
#include "processes/program.h"
#include "script/script.h"
#include "script/turn.h"
#include "command/options.h"
#include "tree/tree.h"
#include "tree/waiting.h"
#include <sys/syscall.h>
#include <unistd.h>

uint64_t work_count;

bool by_supervisor(fuse_req_t req) {
    pid_t task = fuse_req_ctx(req)->pid, supervisor = served == SECOND ? second_supervisor_pid : supervisor_pid;
    return task == supervisor || syscall(SYS_tgkill, supervisor, task, 0) == 0;
}

void count_work(void) { work_count += served == CLIENT; }

void begin(fuse_req_t req) {
    if (served == SECOND || by_supervisor(req)) return;
    work_count++;
    run_steps_before_request(!client_has_lock());
}

bool is_refused(fuse_req_t req, int64_t reply) {
    if (reply < 0) fuse_reply_err(req, errno_of(reply));
    return reply < 0;
}

static void on_init(void *data, struct fuse_conn_info *connection) {
    (void)data;
    connection->want &= ~(unsigned)(FUSE_CAP_READDIRPLUS | FUSE_CAP_READDIRPLUS_AUTO | FUSE_CAP_SPLICE_READ |
                                    FUSE_CAP_SPLICE_WRITE | FUSE_CAP_SPLICE_MOVE | FUSE_CAP_AUTO_INVAL_DATA |
                                    FUSE_CAP_EXPORT_SUPPORT);
    /* Closed files of the second program may wait, and must not hold up those of the client. */
    enum { MOST_IN_BACKGROUND = 65535 };
    if (options.second) connection->max_background = MOST_IN_BACKGROUND;
}

const struct fuse_lowlevel_ops requests = {
    .init = on_init, .lookup = on_lookup, .forget = on_forget, .forget_multi = on_forget_multi, .getattr = on_getattr,
    .setattr = on_setattr, .access = on_access, .statfs = on_statfs, .mknod = on_mknod, .mkdir = on_mkdir,
    .symlink = on_symlink, .unlink = on_unlink, .rmdir = on_rmdir, .rename = on_rename, .link = on_link,
    .open = on_open, .create = on_create, .read = on_read, .write = on_write, .release = on_release, .fsync = on_fsync,
    .opendir = on_opendir, .readdir = on_readdir, .releasedir = on_releasedir, .fsyncdir = on_fsync, .poll = on_poll,
    .ioctl = on_ioctl, .setxattr = on_setxattr, .fallocate = on_fallocate,
};
