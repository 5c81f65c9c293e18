/* Takes descriptors and memory from a caller for the supervisor, by the rules of ptrace(2), so that nobody learns more
 * through the supervisor than without it. */
#ifndef CALLER_H
#define CALLER_H
#include "under.h"
#include <limits.h>
#include <linux/seccomp.h>

extern int listener;
/* The directory /proc. The supervisor's threads reach it so, as they take the roots of callers. */
extern int proc_root;

/* False if the call is over. Its number may belong to another task by then. */
bool is_valid(const struct seccomp_notif *call);
/* Opens a file of the caller's directory in /proc, for a look at whether the call is valid afterwards; -errno. */
int open_in_proc(const struct seccomp_notif *call, const char *name, int flags);
/* A copy of the caller's descriptor; -errno. */
int borrow(const struct seccomp_notif *call, int fd);
/* Each answers 0 or -errno. */
int read_path(const struct seccomp_notif *call, uint64_t from, char path[PATH_MAX]);
int write_memory(const struct seccomp_notif *call, uint64_t to, const void *bytes, size_t size);
#endif
