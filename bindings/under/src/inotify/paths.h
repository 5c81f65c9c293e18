/* What a path is to a caller. */
#ifndef PATHS_H
#define PATHS_H
#include "under.h"
#include <linux/seccomp.h>
#include <sys/stat.h>

/* Keeps the root of this process, before the first open_for(). */
void keep_own_root(void);
/* How a path is opened: also through a link at its end; only if the caller may read the file. (It may read the
 * tree.) */
enum { FOLLOWS = 1, READS = 2 };
/* Opens (O_PATH) what the path is to the caller: its descriptor, or -errno. Meanwhile the thread has the caller's
 * root, so it shares its own with no other thread (unshare(2) with CLONE_FS). */
int open_for(const struct seccomp_notif *call, const char *path, int how);
/* What a file is, as far as the kernel knows without asking its file system, which may wait for the program. */
bool look(int fd, struct statx *out);
/* Whether it is a file of the tree, whose device this is. */
bool is_of_tree(const struct statx *it);
extern dev_t device;
#endif
