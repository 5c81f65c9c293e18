/* Who a caller is to the kernel, and its rights for what this thread opens. The kernel keeps all of them by thread; the
 * calls are made by number where the C library would make them for all threads. */
#include "inotify/rights.h"
#include "inotify/caller.h"
#include <fcntl.h>
#include <linux/capability.h>
#include <stdio.h>
#include <stdlib.h>
#include <sys/fsuid.h>
#include <sys/stat.h>
#include <sys/syscall.h>
#include <unistd.h>

/* ---- who it is */

static bool has_our_users(const struct seccomp_notif *call) {
    char theirs[64];
    struct stat one, other;
    snprintf(theirs, sizeof theirs, "%u/ns/user", call->pid);
    return fstatat(proc_root, theirs, &one, 0) == 0 && fstatat(proc_root, "self/ns/user", &other, 0) == 0 &&
           one.st_dev == other.st_dev && one.st_ino == other.st_ino;
}

static void read_groups(const char *at, struct identity *out) {
    char *end;
    out->group_count = 0;
    for (unsigned long group; out->group_count < MOST_GROUPS; at = end) {
        group = strtoul(at, &end, 10);
        if (end == at) break;
        out->groups[out->group_count++] = (gid_t)group;
    }
}

/* Takes what a line of /proc/PID/status has: false if it has nothing that is wanted. */
static bool read_status_line(const char *line, struct identity *out) {
    unsigned long long capabilities;
    if (sscanf(line, "Tgid: %d", &out->process) == 1) return true;
    if (sscanf(line, "Uid: %*u %*u %*u %u", &out->uid) == 1) return true;
    if (sscanf(line, "Gid: %*u %*u %*u %u", &out->gid) == 1) return true;
    if (!strncmp(line, "Groups:", 7)) return read_groups(line + 7, out), true;
    if (sscanf(line, "CapEff: %llx", &capabilities) == 1) return out->capabilities = capabilities, true;
    return false;
}

bool read_identity(const struct seccomp_notif *call, struct identity *out) {
    enum { WANTED = 5 };
    static _Thread_local char *line;
    static _Thread_local size_t capacity;
    int fd = open_in_proc(call, "status", O_RDONLY), found = 0;
    FILE *file = fd < 0 ? NULL : fdopen(fd, "r");
    while (file && found < WANTED && getline(&line, &capacity, file) > 0) found += read_status_line(line, out);
    if (file) fclose(file);
    if (found == WANTED && out->capabilities && !has_our_users(call)) out->capabilities = 0;
    return found == WANTED;
}

/* ---- its rights, and none of ours */

static struct identity self;
static _Thread_local bool has_other_ids, has_other_capabilities;

static void get_capabilities(struct __user_cap_header_struct *head, struct __user_cap_data_struct data[2]) {
    *head = (struct __user_cap_header_struct){ _LINUX_CAPABILITY_VERSION_3, 0 };
    if (syscall(SYS_capget, head, data) < 0) fail("capget");
}

/* Of those that are permitted to this thread. */
static void set_capabilities(uint64_t wanted) {
    struct __user_cap_header_struct head;
    struct __user_cap_data_struct data[2];
    get_capabilities(&head, data);
    for (int i = 0; i < 2; i++) data[i].effective = data[i].permitted & (uint32_t)(wanted >> 32 * i);
    if (syscall(SYS_capset, &head, data) < 0) fail("capset");
}

void keep_own_rights(void) {
    struct __user_cap_header_struct head;
    struct __user_cap_data_struct data[2];
    get_capabilities(&head, data);
    self.capabilities = data[0].effective | (uint64_t)data[1].effective << 32;
    self.uid = geteuid();
    self.gid = getegid();
    if ((self.group_count = getgroups(MOST_GROUPS, self.groups)) < 0) fail("getgroups");
}

static bool has_our_ids(const struct identity *who) {
    return who->uid == self.uid && who->gid == self.gid && who->group_count == self.group_count &&
           !memcmp(who->groups, self.groups, (size_t)self.group_count * sizeof *self.groups);
}

/* The groups last, so that nothing is to be taken back but the other two. */
static bool take_ids(const struct identity *who) {
    setfsgid(who->gid);
    setfsuid(who->uid);
    return setfsuid((uid_t)-1) == (int)who->uid && setfsgid((gid_t)-1) == (int)who->gid &&
           syscall(SYS_setgroups, who->group_count, who->groups) == 0;
}

bool act_as(const struct identity *who) {
    if (!has_our_ids(who)) {
        has_other_ids = take_ids(who);
        if (!has_other_ids) {
            setfsgid(self.gid);
            setfsuid(self.uid);
            set_capabilities(self.capabilities);    /* another user of files lost some */
            return false;
        }
    }
    has_other_capabilities = has_other_ids || who->capabilities != self.capabilities;
    if (has_other_capabilities) set_capabilities(who->capabilities);
    return true;
}

void act_as_self(void) {
    if (has_other_capabilities) set_capabilities(self.capabilities);
    if (has_other_ids) {
        if (!take_ids(&self)) fail("setgroups");
        set_capabilities(self.capabilities);
    }
    has_other_ids = has_other_capabilities = false;
}
