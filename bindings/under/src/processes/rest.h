/* Are the programs of a run at rest? */
#ifndef REST_H
#define REST_H
#include "under.h"

/* Who waits for a lock of the other program waits for long; who waits for a disk does not. Who is on its way to sleep is there
 * soon. */
enum { BLOCKED_MS = 200, QUEUED_MS = 100 };

/* The two programs of a run: that of the command line, and that of --and. */
enum side { CLIENT, SECOND, SIDES };

/* The state of the tasks of a side below this process. */
struct tasks {
    bool all_sleep;
    bool none_runs;     /* those that do not sleep wait for a lock, a disk or the supervisor */
    uint64_t blocked;   /* how many these are */
    uint64_t queued;    /* how many seem to sleep, and may have a CPU or wait for one */
    uint64_t runs;      /* changes whenever one of them ran */
    uint64_t set;       /* changes whenever one started or ended */
    uint64_t time;      /* the CPU time of the program, in nanoseconds */
};
/* All tasks slept at one moment if two looks in a row say that all sleep and none is queued, with the same `runs`. Where some are
 * queued, if this holds for QUEUED_MS. */
struct tasks look_at_tasks(enum side side);
/* Where a task stands: itself first, and then its ancestors up to the program, each with the time at which it started. */
enum { MOST_ANCESTORS = 64 };
struct descent { int count; struct { unsigned long long started; pid_t task; } of[MOST_ANCESTORS]; };
/* Of which side a task is, and its descent. */
enum side side_of(pid_t task, struct descent *out);
/* Whether a task is before another one: a child, with its descendants, is before those that its parent started later. */
bool is_before(const struct descent *one, const struct descent *other);
/* Whether any task of the last look is such a one, the supervisors excepted. */
bool any_task(bool (*is_such)(pid_t pid, const char *task));
/* Sends a signal to every process below this one, except `but` and the supervisor of the second program. Returns how many
 * there were. */
int signal_all(int signal, pid_t but);
/* Whether the kernel keeps what all_sleep() reads. */
bool can_tell_rest(void);
#endif
