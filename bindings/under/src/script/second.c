/* The turns of the second program. Its requests wait (waiting.h) whenever it has none. */
#include "script/second.h"
#include "command/options.h"
#include "inotify/instances.h"
#include "output/asked.h"
#include "processes/program.h"
#include "processes/rest.h"
#include "tree/serve.h"
#include "tree/waiting.h"
#include <stdio.h>
#include <sys/wait.h>

/* How many requests that only look, and calls that begin, a turn has at most: a program may ask again and again for what the
 * client is to do. */
enum { MOST_LOOKS = 10000, MOST_CALLS = 100 };
/* After a request more may come soon. And how long a program works at most in a turn without a request, and how long it is
 * waited for. */
enum { FIRST_WAIT_US = 50, LONGEST_WAIT_US = 2000, LONGEST_NS = 1000000000, LONGEST_MS = 10000, IDLE_MS = 20 };

static enum second how;
static int status;

void note_second(void) { how = how_second_is(&status); }

bool second_is_ready(void) { return second_waits(); }
bool second_goes_on(void) { return options.second && (how == NO_SECOND || how == SECOND_GOES_ON || second_waits()); }
bool second_is_broken(void) { return how == SECOND_NOT_STARTED || how == SECOND_IS_LOST; }

/* ---- a turn */

/* Takes what came, and answers what only looks while there are looks left. Whether anything came. */
static bool take_and_look(uint64_t *looks) {
    bool is_any = take_all();
    uint64_t count = serve_looks(*looks);
    *looks -= count;
    return is_any || count;
}

/* Whether it worked for long since the last request. */
static bool has_worked_long(const struct tasks *now, uint64_t *since) {
    if (now->time < *since) *since = now->time;     /* a task ended */
    return now->time - *since > LONGEST_NS;
}

static bool has_ended(void) {
    note_second();
    return how != SECOND_GOES_ON;
}

/* Waits until it is at rest: all its tasks slept at one moment, and one of them with a request, or for a while; or some of them
 * wait for a lock, which the client has. It counts as at rest too if it works for long without a request, or wakes again and
 * again for long. */
static void await_rest(uint64_t looks) {
    struct tasks last = { 0 }, now;
    uint64_t worked = UINT64_MAX;
    int64_t same_since = 0, wait_us = FIRST_WAIT_US;
    for (int64_t began = clock_ms(); clock_ms() - began < LONGEST_MS; await_request(wait_us)) {
        if (take_and_look(&looks)) {
            last = (struct tasks){ 0 };
            worked = UINT64_MAX;
            wait_us = FIRST_WAIT_US;
            continue;
        }
        now = look_at_tasks(SECOND);
        bool is_same = last.none_runs && now.none_runs && now.runs == last.runs, may_go_on = last.queued;
        bool all_wait = now.none_runs && now.blocked <= supervised();
        if (!is_same) same_since = clock_ms();
        last = now;
        int64_t least_ms = !all_wait ? BLOCKED_MS : may_go_on ? QUEUED_MS : second_waits() || has_ended() ? 0 : IDLE_MS;
        if (is_same && clock_ms() - same_since >= least_ms && !take_and_look(&looks)) break;
        if (has_worked_long(&now, &worked)) break;
        wait_us = is_same || !all_wait ? (wait_us * 2 < LONGEST_WAIT_US ? wait_us * 2 + 1 : LONGEST_WAIT_US) : 0;
    }
}

/* Calls may begin that change nothing, such as one that makes a directory which is there. */
bool second_goes(void) {
    enum step step = CALL_BEGAN;
    for (int i = 0; i < MOST_CALLS && step == CALL_BEGAN; i++) {
        await_rest(MOST_LOOKS);
        step = serve_step();
    }
    if (step == NOTHING_WAITS) return false;
    await_rest(0);
    return step == TREE_CHANGED;
}

bool second_is_at_rest(void) { return look_at_tasks(SECOND).none_runs; }

/* ---- its end */

static int say_end(void) {
    const char *name = *options.second;
    if (second_goes_on()) say("the second program, %s, was not over", name);
    else if (WIFSIGNALED(status)) say("the second program, %s, was ended by signal %d", name, WTERMSIG(status));
    else if (WEXITSTATUS(status)) say("the second program, %s, ended with status %d", name, WEXITSTATUS(status));
    else return 0;
    return STATUS_LINES_LEFT;
}

int status_of_second(void) {
    if (!options.second) return 0;
    switch (how) {
    case SECOND_NOT_STARTED: return status;
    case SECOND_IS_LOST: say("the keeper of the second program was ended"); return STATUS_FAULT;
    default: return say_end();
    }
}
