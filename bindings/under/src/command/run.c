/* A run: mounts the tree, starts the programs, and gives turns until the first one ends. One thread does it all. */
#include "command/run.h"
#include "command/needs.h"
#include "command/options.h"
#include "inotify/instances.h"
#include "output/calls.h"
#include "output/out.h"
#include "output/record.h"
#include "output/trace.h"
#include "processes/keeper.h"
#include "processes/proc.h"
#include "processes/program.h"
#include "processes/rest.h"
#include "script/from.h"
#include "script/schedule.h"
#include "script/script.h"
#include "script/second.h"
#include "script/turn.h"
#include "tree/files.h"
#include "tree/mount.h"
#include "tree/serve.h"
#include "tree/tree.h"
#include <errno.h>
#include <limits.h>
#include <poll.h>
#include <signal.h>
#include <stdlib.h>
#include <sys/prctl.h>
#include <sys/signalfd.h>
#include <sys/wait.h>
#include <unistd.h>

/* A program that wakes for less (a JVM does, 20 times a second) is quiet all the same. */
enum { QUIET_NS = 3000000 };
/* After a request more may come soon, and would wait until all tasks were looked at. */
enum { REST_US = 100, LONGEST_US = 2000 };
/* The first look reads of every process of the machine, so it waits until the program has started. */
enum { FIRST_LOOK_MS = 10 };
/* How long a program may take to end, and how much longer than quiet a stall without rest may be. */
enum { ENDING_MS = 10000, BUSY_STALLS = 6 };

/* CUT: the second program cannot go on. */
enum ending { RUNNING, OVER, STALLED, CUT, BROKEN };

static struct fuse_session *session;
static int signals;
static enum ending ending;
static const char *broken;          /* which process of the tool was ended */
static int64_t ended_at;            /* when the program was asked to end */
static int64_t worked_at;           /* when it last worked */
static int64_t second_worked_at;    /* when the second program did, as far as it mattered */
static int64_t blocked_since;       /* since when it has waited for a lock */
static int64_t progress_at;         /* when a record was taken or a line ran */
static bool has_ended;
static int wait_status;

/* ---- signals */

static void note_broken(const char *what) {
    ending = BROKEN;
    broken = what;
}

/* What was sent to the tool is passed on. What came to the process group came to the program too, if it is still in it. */
static bool is_for_program(const struct signalfd_siginfo *it) {
    if (it->ssi_signo == SIGCHLD) return false;
    if ((pid_t)it->ssi_pid == parent_pid && it->ssi_code == SI_USER) return true;
    return getpgid(program_pid) != getpgrp() && (pid_t)it->ssi_pid != program_pid;
}

static void take_signals(void) {
    struct signalfd_siginfo it;
    while (read(signals, &it, sizeof it) == sizeof it)
        if (is_for_program(&it)) kill(program_pid, (int)it.ssi_signo);
    if (getppid() != parent_pid) note_broken("the process that began the run");
    int status;
    for (pid_t pid; (pid = waitpid(-1, &status, WNOHANG)) > 0;) {
        if (is_supervisor(pid)) note_broken("the supervisor of the system calls");
        if (pid != program_pid) continue;
        wait_status = status;
        has_ended = true;
    }
}

/* ---- the end */

static void ask_to_end(enum ending why) {
    ending = why;
    ended_at = clock_ms();
    if (why != OVER) kill(program_pid, SIGTERM);
    else if (options.end_signal) kill(program_pid, options.end_signal);
}

static bool was_asked_to_end(void) { return ending == STALLED || ending == CUT || (ending == OVER && options.end_signal); }

static void insist(void) {
    static bool is_said;
    if (clock_ms() - ended_at <= ENDING_MS) return;
    kill(program_pid, SIGKILL);
    if (!is_said) say("the program did not end by the signal, and was killed");
    is_said = true;
}

static void note_progress(void) {
    static uint64_t last_work, last_progress;
    uint64_t progress = line_count + instance_counts.reads + instance_counts.calls;
    if (work_count != last_work) worked_at = clock_ms();
    if (progress != last_progress) progress_at = clock_ms();
    last_work = work_count;
    last_progress = progress;
}

/* The second program works, and asks nothing. */
static void note_second_work(void) {
    static uint64_t counted_time;
    if (!options.second) return;
    uint64_t now = look_at_tasks(SECOND).time;
    if (now > counted_time + QUIET_NS) second_worked_at = clock_ms();
    if (now > counted_time + QUIET_NS || now < counted_time) counted_time = now;
}

/* Nothing happens any more, though something is left to happen or the program has watched. A program that works goes on: while
 * something is left for some time, and otherwise for as long as it likes. */
static bool is_stalled(void) {
    int64_t now = clock_ms(), since = now - progress_at, last = worked_at > second_worked_at ? worked_at : second_worked_at;
    if (since < options.stall_ms) return false;
    bool is_any_left = lines_left() || second_goes_on() || (options.second && !second_is_at_rest());
    bool is_quiet = now - last >= options.stall_ms;
    if (!is_quiet && (!is_any_left || since < (int64_t)BUSY_STALLS * options.stall_ms)) return false;
    if (is_waiting_for_lines()) progress_at = now;
    return progress_at != now && (instance_counts.made || is_any_left);
}

/* ---- turns */

/* Whether the program is at rest, by two looks of which this is one. Sets how long to wait for the next, in microseconds. */
static bool is_at_rest(int64_t *wait_us) {
    static struct tasks last;
    static uint64_t counted_time, last_work;
    static int64_t same_since;
    struct tasks now = look_at_tasks(CLIENT);
    if (now.time < counted_time) counted_time = now.time;   /* a task ended */
    if (now.time > counted_time + QUIET_NS || now.set != last.set) {
        worked_at = clock_ms();
        counted_time = now.time;
    }
    bool is_unchanged = now.runs == last.runs && work_count == last_work;
    bool is_same = last.all_sleep && now.all_sleep && is_unchanged, may_go_on = last.queued;
    if (!is_unchanged || !now.none_runs || now.all_sleep) blocked_since = clock_ms();
    if (!is_same) same_since = clock_ms();
    last = now;
    last_work = work_count;
    if (now.all_sleep && !is_same) *wait_us = 0;
    else *wait_us = *wait_us < REST_US ? REST_US : *wait_us * 2 < LONGEST_US ? *wait_us * 2 : LONGEST_US;
    return is_same && (!may_go_on || clock_ms() - same_since >= QUEUED_MS);
}

/* The client waits for a lock, such as that of a directory, which the second program has during a call that waits here. Then the
 * second program goes on, as it would on a disk. */
static bool is_blocked(void) {
    return second_is_ready() && clock_ms() - blocked_since >= BLOCKED_MS && next_in_script() == NEXT_TURN;
}

/* The program is at rest. Sets how long it may stay so before the next look. */
static void give_turn(int64_t *wait_us) {
    uint64_t before = work_count;
    int64_t quiet = clock_ms() - worked_at;
    /* Without an instance nobody is notified at once. Then a rest counts if it lasts, as a program may also sleep for a
     * moment that nobody knows of, such as when the kernel ends it: a recording would have that moment. */
    if (instance_counts.open || quiet >= options.debounce_ms) announce_all();
    deliver();
    *wait_us = 0;
    if (work_count != before) return;
    switch (take_turn(quiet)) {
    case TURN_WAITS:
        note_second_work();
        *wait_us = quiet < 1000 ? 5000 : 20000;
        break;
    case TURN_TAKEN: worked_at = clock_ms(); break;
    case TURN_OVER: ask_to_end(OVER); break;
    }
}

/* Waits for what comes, and answers it. Whether it was a request. */
static bool serve_what_comes(int64_t wait_us) {
    struct timespec limit = { .tv_sec = wait_us / 1000000, .tv_nsec = wait_us % 1000000 * 1000 };
    struct pollfd fds[] = { { fuse_session_fd(session), POLLIN, 0 }, { signals, POLLIN, 0 },
                            { live_script(), POLLIN, 0 }, { second_report(), POLLIN, 0 } };
    if (client_is_kept()) limit = (struct timespec){ 0 };
    if (ppoll(fds, 4, &limit, NULL) < 0 && errno != EINTR) fail("poll");
    if (fds[1].revents) take_signals();
    if (fds[2].revents) read_live_script();
    if (fds[3].revents) note_second();
    bool is_asked = fds[0].revents || client_is_kept();
    if (is_asked) serve_burst();
    note_progress();
    return is_asked;
}

/* Whether the run has to end now. Then the program is asked to. */
static bool is_over(int64_t started_at) {
    if (is_stalled()) say("stalled: for %d ms no record was taken and no line ran", options.stall_ms);
    else if (options.limit_ms && clock_ms() - started_at >= options.limit_ms)
        say("the run was not over after %d ms (--limit)", options.limit_ms);
    else if (!ending && second_is_broken()) {
        ask_to_end(CUT);
        return true;
    } else return false;
    ask_to_end(STALLED);
    return true;
}

static bool is_anything_asked(void) {
    struct pollfd request = { fuse_session_fd(session), POLLIN, 0 };
    return client_is_kept() || poll(&request, 1, 0) != 0;
}

static void loop(void) {
    int64_t wait_us = FIRST_LOOK_MS * 1000, started_at = clock_ms();
    worked_at = progress_at = blocked_since = started_at;
    while (!has_ended && ending != BROKEN) {
        bool is_asked = serve_what_comes(wait_us);
        if (was_asked_to_end()) {
            insist();
            wait_us = 10000;
        } else if (is_over(started_at)) continue;
        else if (is_asked) wait_us = clock_ms() - started_at < FIRST_LOOK_MS ? FIRST_LOOK_MS * 1000 : REST_US;
        else if (ending) wait_us = 10000;
        else if (is_at_rest(&wait_us)) {
            if (!is_anything_asked()) give_turn(&wait_us);
        } else if (is_blocked()) run_turn();
    }
    serve_all();                    /* its files were closed before its end was known */
}

/* ---- before and after */

static int take_over_signals(void) {
    sigprocmask(SIG_BLOCK, &passed_signals, NULL);
    int fd = signalfd(-1, &passed_signals, SFD_CLOEXEC | SFD_NONBLOCK);
    if (fd < 0) fail("signalfd");
    return fd;
}

static int status_of_program(void) {
    if (WIFSIGNALED(wait_status)) {
        bool was_asked = ending == OVER && WTERMSIG(wait_status) == options.end_signal;
        if (was_asked) return 0;
        if (options.is_record) say("signal %d ended the program: the script has what it did before", WTERMSIG(wait_status));
        return 128 + WTERMSIG(wait_status);
    }
    int status = WEXITSTATUS(wait_status);
    return ending == OVER && options.end_signal && status == 128 + options.end_signal ? 0 : status;
}

/* Nothing looks like success in which no record was taken. (A program that ends by itself, and to which nothing was to
 * happen, may have waited for nothing.) */
static int status_of_delivery(void) {
    bool has_lines = lines_after_first_mark() > 0, was_asked = ending == OVER && options.end_signal;
    if (has_lines ? instance_counts.reads_after_line : instance_counts.reads || !instance_counts.made) return 0;
    const char *why = has_lines ? "" : options.second ? "the second program changed nothing, and "
                                                      : "no line stands after a line --, and ";
    say("nothing was delivered: %s%s", why,
        instance_counts.made ? "the program took no record" : "the program made no instance");
    return has_lines || was_asked ? STATUS_NOTHING_DELIVERED : 0;
}

static int exit_status(void) {
    long left = lines_left();
    if (ending == BROKEN && !has_ended) {
        say("%s was ended", broken);
        return STATUS_FAULT;
    }
    if (WIFEXITED(wait_status)) trace("# ended %d\n", WEXITSTATUS(wait_status));
    else trace("# ended by signal %d\n", WTERMSIG(wait_status));
    if (left) say("%ld line%s did not happen", left, left == 1 ? "" : "s");
    int of_second = status_of_second();
    if (second_is_broken()) return of_second;
    if (ending == STALLED) return STATUS_STALLED;
    int status = status_of_program();
    if (status) return status;
    if (left) return STATUS_LINES_LEFT;
    if (of_second) return of_second;
    return options.is_record ? 0 : status_of_delivery();
}

/* All that comes before the program starts. */
static void begin_run(const char *here) {
    open_proc();
    check_needs();
    check_from();
    open_out();
    open_script();
    draw_queue();
    remove_old_out();
    open_trace();
    open_record();
    open_calls();
    open_tree();
    make_nursery();
    stamp(ROOT, MODIFIED);
    copy_from();                    /* while the mount hides nothing of it */
    serve_session(session = mount_tree(here));
    run_first_lines();
    write_calls_mark();
}

/* All that comes after its end. The exit status. */
static int end_run(void) {
    commit_all();
    end_live_script();
    int status = exit_status();
    if (options.out) write_tree();
    close_trace();
    record_rest();
    close_record();
    status = close_calls(status);
    check_out();
    unmount_tree(session);
    close_tree();
    free_nodes();
    close_script();
    return status;
}

int run(void) {
    char here[PATH_MAX];
    /* Until there is a program to which they could go, signals end the tool. */
    sigprocmask(SIG_SETMASK, &first_mask, NULL);
    if (!getcwd(here, sizeof here)) fail("the working directory");
    begin_run(here);
    signals = take_over_signals();
    prctl(PR_SET_CHILD_SUBREAPER, 1);
    start_programs(here, &first_mask, fuse_session_fd(session));
    loop();
    end_processes();
    return end_run();
}
