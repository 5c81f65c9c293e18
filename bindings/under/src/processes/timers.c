/* Does a task of the program wait with a time limit? The kernel shows in which system call a task sleeps, with its
 * arguments. A call that is not known here counts as one with a limit. */
#include "processes/timers.h"
#include "command/options.h"
#include "processes/proc.h"
#include "processes/program.h"
#include "processes/rest.h"
#include <ctype.h>
#include <dirent.h>
#include <fcntl.h>
#include <linux/futex.h>
#include <stdio.h>
#include <stdlib.h>
#include <sys/syscall.h>
#include <unistd.h>

enum { NO_LIMIT = -1, LIMIT = -2 };

/* Which argument of a call is its limit: a pointer to a time, or a number of milliseconds. NO_LIMIT if it has none. */
static int limit_of(long call, bool *is_number) {
    *is_number = false;
    switch (call) {
    case SYS_read: case SYS_readv: case SYS_pread64: case SYS_recvfrom: case SYS_recvmsg: case SYS_accept:
    case SYS_accept4: case SYS_wait4: case SYS_waitid: case SYS_pause: case SYS_rt_sigsuspend: return NO_LIMIT;
    case SYS_poll: *is_number = true; return 2;
    case SYS_epoll_wait: case SYS_epoll_pwait: *is_number = true; return 3;
    case SYS_ppoll: case SYS_rt_sigtimedwait: return 2;
    case SYS_epoll_pwait2: case SYS_futex: return 3;
    case SYS_select: case SYS_pselect6: return 4;
    default: return LIMIT;
    }
}

static bool is_waiting(long call, const unsigned long long arguments[6]) {
    if (call != SYS_futex) return true;
    int operation = (int)arguments[1] & FUTEX_CMD_MASK;
    return operation == FUTEX_WAIT || operation == FUTEX_WAIT_BITSET;
}

/* Whether a task sleeps in a call that has a limit. */
static bool is_limited(pid_t pid, const char *task) {
    char name[400], text[256];
    unsigned long long a[6];
    long call;
    bool is_number;
    snprintf(name, sizeof name, "%d/task/%s/syscall", pid, task);
    if (!read_proc_file(name, text, sizeof text)) return true;
    if (sscanf(text, "%ld %llx %llx %llx %llx %llx %llx", &call, a, a + 1, a + 2, a + 3, a + 4, a + 5) != 7) return true;
    int at = limit_of(call, &is_number);
    if (at < 0) return at == LIMIT;
    if (!is_waiting(call, a)) return true;
    return is_number ? (int)a[at] >= 0 : a[at] != 0;
}

/* A timer that is due shows no time left before it has woken its task, and that may take a while on a virtual machine. So one
 * that was armed so short ago still counts. */
enum { LATE_MS = 100 };
static int64_t armed_at = -LATE_MS;     /* when a timer was last seen armed */

/* Whether a descriptor is a timer that is armed, or was not long ago. */
static bool is_armed(pid_t pid, const char *descriptor) {
    char name[400], text[1024];
    unsigned long long seconds, nanoseconds;
    snprintf(name, sizeof name, "%d/fd/%s", pid, descriptor);
    if (!read_proc_link(name, text, sizeof text) || strcmp(text, "anon_inode:[timerfd]")) return false;
    snprintf(name, sizeof name, "%d/fdinfo/%s", pid, descriptor);
    if (!read_proc_file(name, text, sizeof text)) return true;
    const char *value = strstr(text, "it_value: (");
    if (!value || sscanf(value, "it_value: (%llu, %llu)", &seconds, &nanoseconds) != 2) return true;
    if (seconds || nanoseconds) armed_at = clock_ms();
    return clock_ms() - armed_at < LATE_MS;
}

static bool process_has_timer(pid_t pid) {
    char name[64], text[16];
    bool is_any = false;
    struct dirent *it;
    snprintf(name, sizeof name, "%d/timers", pid);
    if (read_proc_file(name, text, sizeof text)) return true;
    snprintf(name, sizeof name, "%d/fd", pid);
    DIR *all = open_proc_folder(name);
    if (!all) return true;
    while (!is_any && (it = readdir(all))) is_any = isdigit((unsigned char)*it->d_name) && is_armed(pid, it->d_name);
    closedir(all);
    return is_any;
}

static bool task_has_timer(pid_t pid, const char *task) {
    bool is_first = atoi(task) == pid;
    return is_limited(pid, task) || (is_first && process_has_timer(pid));
}

/* Whether no task of a side ran since an earlier look, and none is about to. */
static bool slept_on(enum side side, const struct tasks *before) {
    struct tasks now = look_at_tasks(side);
    return now.all_sleep && now.runs == before->runs;
}

/* Tasks are looked at one after another: a task that wakes by its limit may wake one that was looked at before, and wait
 * without a limit by the time it is looked at itself. So nothing may have run meanwhile. */
bool has_timer(void) {
    int sides = options.second ? SIDES : CLIENT + 1;
    struct tasks before[SIDES];
    for (int side = 0; side < sides; side++) before[side] = look_at_tasks((enum side)side);
    if (any_task(task_has_timer)) return true;
    for (int side = 0; side < sides; side++)
        if (!slept_on((enum side)side, before + side)) return true;
    return false;
}
