/* What the program asks. FUSE splits a system call into requests: open(2) of /d/f is a lookup of /d, one of f in it, and an
 * open. Their names are those of FUSE, but for calls of inotify. */
#include "output/asked.h"
#include "command/options.h"
#include "inotify/instances.h"
#include "output/trace.h"
#include "script/schedule.h"
#include "tree/nodes.h"
#include "tree/waiting.h"
#include <stdio.h>

/* Turns of the second program may come between a request of the client and its answer. */
enum { SIZE = 6 * PATH_SIZE + 64 };
static char all_asked[SIDES][SIZE];

static bool is_needed(void) { return (has_schedule() || options.second) && is_traced(); }

/* The path of a file, perhaps of a name in it, as scripts spell it. */
static void ask_name(const char *call, uint64_t number, const char *name) {
    char path[PATH_SIZE] = "", shown[3 * PATH_SIZE] = "", *asked = all_asked[served];
    struct wt_stat is;
    if (!is_needed()) return;
    bool is_known = known_node(number) && find_file(number, path, &is);
    if (is_known) spell(path, shown);
    size_t length = (size_t)snprintf(asked, SIZE, "%s %s", call, is_known ? shown : number ? "gone" : "outside");
    if (!name || length + 3 * 256 + 2 > SIZE) return;
    spell(name, shown);
    snprintf(asked + length, SIZE - length, "%s%s", path[1] ? "/" : "", shown);
}

void ask(const char *call) {
    if (is_needed()) snprintf(all_asked[served], SIZE, "%s", call);
}

void ask_file(const char *call, uint64_t number) { ask_name(call, number, NULL); }

void ask_instance(const char *call, uint32_t instance) {
    if (is_needed()) snprintf(all_asked[served], SIZE, "%s %u", call, instance);
}

void trace_asked(uint64_t request) {
    if (has_schedule() && is_traced()) trace("? %llu %s\n", (unsigned long long)request, all_asked[CLIENT]);
}

void trace_second(void) {
    if (is_traced()) trace("& %s\n", all_asked[SECOND]);
}

/* ---- the handlers: each says what is asked of a name in a directory, or of a file */

#define OF_NAME(call, types, values)                                                                                     \
    static void ask_##call types { ask_name(#call, parent, name); on_##call values; }
#define OF_FILE(call, types, values)                                                                                     \
    static void ask_##call types { ask_file(#call, number); on_##call values; }

OF_NAME(lookup, (fuse_req_t req, fuse_ino_t parent, const char *name), (req, parent, name))
OF_NAME(mknod, (fuse_req_t req, fuse_ino_t parent, const char *name, mode_t mode, dev_t device),
        (req, parent, name, mode, device))
OF_NAME(mkdir, (fuse_req_t req, fuse_ino_t parent, const char *name, mode_t mode), (req, parent, name, mode))
OF_NAME(unlink, (fuse_req_t req, fuse_ino_t parent, const char *name), (req, parent, name))
OF_NAME(rmdir, (fuse_req_t req, fuse_ino_t parent, const char *name), (req, parent, name))
OF_NAME(rename, (fuse_req_t req, fuse_ino_t parent, const char *name, fuse_ino_t to_parent, const char *to_name,
                 unsigned flags), (req, parent, name, to_parent, to_name, flags))
OF_NAME(link, (fuse_req_t req, fuse_ino_t number, fuse_ino_t parent, const char *name), (req, number, parent, name))
OF_NAME(create, (fuse_req_t req, fuse_ino_t parent, const char *name, mode_t mode, struct fuse_file_info *file),
        (req, parent, name, mode, file))
OF_FILE(getattr, (fuse_req_t req, fuse_ino_t number, struct fuse_file_info *file), (req, number, file))
OF_FILE(setattr, (fuse_req_t req, fuse_ino_t number, struct stat *wanted, int which, struct fuse_file_info *file),
        (req, number, wanted, which, file))
OF_FILE(access, (fuse_req_t req, fuse_ino_t number, int mask), (req, number, mask))
OF_FILE(open, (fuse_req_t req, fuse_ino_t number, struct fuse_file_info *file), (req, number, file))
OF_FILE(read, (fuse_req_t req, fuse_ino_t number, size_t size, off_t offset, struct fuse_file_info *file),
        (req, number, size, offset, file))
OF_FILE(write, (fuse_req_t req, fuse_ino_t number, const char *bytes, size_t size, off_t offset,
                struct fuse_file_info *file), (req, number, bytes, size, offset, file))
OF_FILE(release, (fuse_req_t req, fuse_ino_t number, struct fuse_file_info *file), (req, number, file))
OF_FILE(fsync, (fuse_req_t req, fuse_ino_t number, int datasync, struct fuse_file_info *file),
        (req, number, datasync, file))
OF_FILE(opendir, (fuse_req_t req, fuse_ino_t number, struct fuse_file_info *file), (req, number, file))
OF_FILE(readdir, (fuse_req_t req, fuse_ino_t number, size_t size, off_t offset, struct fuse_file_info *file),
        (req, number, size, offset, file))

void trace_handlers(struct fuse_lowlevel_ops *handlers) {
    if (!is_needed()) return;
    handlers->lookup = ask_lookup;
    handlers->mknod = ask_mknod;
    handlers->mkdir = ask_mkdir;
    handlers->unlink = ask_unlink;
    handlers->rmdir = ask_rmdir;
    handlers->rename = ask_rename;
    handlers->link = ask_link;
    handlers->create = ask_create;
    handlers->getattr = ask_getattr;
    handlers->setattr = ask_setattr;
    handlers->access = ask_access;
    handlers->open = ask_open;
    handlers->read = ask_read;
    handlers->write = ask_write;
    handlers->release = ask_release;
    handlers->fsync = handlers->fsyncdir = ask_fsync;
    handlers->opendir = ask_opendir;
    handlers->readdir = ask_readdir;
}
