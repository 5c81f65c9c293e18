/* Who a caller is to the kernel, and its rights for what this thread opens. */
#ifndef RIGHTS_H
#define RIGHTS_H
#include "under.h"
#include <limits.h>
#include <linux/seccomp.h>

enum { MOST_GROUPS = NGROUPS_MAX };
struct identity {
    pid_t process;
    uid_t uid;
    gid_t gid;
    uint64_t capabilities;          /* of a user namespace of its own: none, as they are worth nothing here */
    int group_count;
    gid_t groups[MOST_GROUPS];
};

/* False if it cannot be read. The caller of this looks afterwards whether the call is valid. */
bool read_identity(const struct seccomp_notif *call, struct identity *out);
/* Keeps the rights of this process, before the first act_as(). */
void keep_own_rights(void);
/* This thread opens as somebody, and as this process again. False if it may not: then its rights are as they were. */
bool act_as(const struct identity *who);
void act_as_self(void);
#endif
