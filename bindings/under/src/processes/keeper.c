/* What the user starts (the front) has one child, the keeper, and that one has the worker, which does what the tool is for.
 * The front and the keeper touch nothing of the run, so neither waits for it. If one of the three is killed, the front or the
 * keeper ends its descendants. Orphans become children of the keeper, a subreaper, so no process leaves it by a mount
 * namespace, by a session, or in a chain of processes that fork and end. A PID namespace would do that too, but the program
 * would see other process numbers than everybody else, and another /proc, which cannot be mounted in every container. */
#include "processes/keeper.h"
#include "command/options.h"
#include "processes/proc.h"
#include "processes/rest.h"
#include <errno.h>
#include <ftw.h>
#include <poll.h>
#include <stdio.h>
#include <stdlib.h>
#include <sys/mman.h>
#include <sys/prctl.h>
#include <sys/signalfd.h>
#include <sys/socket.h>
#include <sys/stat.h>
#include <sys/wait.h>
#include <unistd.h>

sigset_t passed_signals, first_mask;
pid_t parent_pid;
struct temporary *temporary;        /* the worker writes it, and the keeper reads it */
static char **program;              /* the words of keep_program */

pid_t start_child(void) {
    pid_t parent = getpid(), pid = fork();
    if (pid < 0) fail("fork");
    if (pid) return pid;
    prctl(PR_SET_PDEATHSIG, SIGTERM);
    if (getppid() != parent) _exit(STATUS_FAULT);
    parent_pid = parent;
    return 0;
}

/* Who loses its parent becomes a child of this process, so nobody is left once it has no child. Each round kills a child that
 * was there before it, so each wait ends. */
void end_all_below(void) {
    for (;;) {
        pid_t pid;
        while ((pid = waitpid(-1, NULL, WNOHANG)) > 0) {}
        if (pid < 0) return;
        signal_all(SIGKILL, 0);
        waitpid(-1, NULL, 0);
    }
}

static int remove_one(const char *path, const struct stat *is, int kind, struct FTW *at) {
    (void)is, (void)kind, (void)at;
    return remove(path);
}

void remove_folder(const char *path) { nftw(path, remove_one, 16, FTW_DEPTH | FTW_PHYS); }

/* ---- signals: one that is sent to the tool alone is passed on; one that is sent to its process group came to the program too.
 * The sender does not show which it was, as it may be gone. But what comes to the group comes to the keeper, which is in the
 * front's process group, and takes a signal only when the front asks. */

/* All but those of faults, those of job control, and SIGPIPE. */
static void block_signals(void) {
    static const int others[] = { SIGSEGV, SIGBUS, SIGFPE, SIGILL, SIGABRT, SIGTRAP, SIGSYS, SIGTSTP, SIGTTIN, SIGTTOU,
                                  SIGCONT, SIGPIPE };
    sigfillset(&passed_signals);
    for (size_t i = 0; i < sizeof others / sizeof *others; i++) sigdelset(&passed_signals, others[i]);
    sigprocmask(SIG_BLOCK, &passed_signals, &first_mask);
    signal(SIGCHLD, SIG_DFL);       /* where it is ignored, no status of a child is kept */
}

bool ends_programs(int number) {
    return number == SIGHUP || number == SIGINT || number == SIGQUIT || number == SIGTERM;
}

/* Takes a signal if it is pending. */
static bool take(int number) {
    static const struct timespec none;
    sigset_t one;
    sigemptyset(&one);
    sigaddset(&one, number);
    return sigtimedwait(&one, NULL, &none) == number;
}

/* A signal that is on its way to a process group has come to all of it before the kernel lets this call go on. */
static void wait_for_group(void) { setpgid(0, getpgrp()); }

/* What the front asks of the keeper: to take a signal, and to pass it on if it was not pending. */
struct question { int number; bool passes_on; };

static void answer_front(int front, pid_t worker) {
    struct question question;
    if (recv(front, &question, sizeof question, 0) != sizeof question) return;
    bool was_pending = take(question.number);
    wait_for_group();
    if (!was_pending && question.passes_on) kill(worker, question.number);
    send(front, &was_pending, sizeof was_pending, MSG_NOSIGNAL);
}

/* A second signal to the group may have become one with the first in the keeper, and come later to the front: it is none that
 * was sent to the tool. Signals from 32 on are queued, so they never become one. */
static void ask_keeper(int keeper, int number) {
    struct question question = { number, true };
    bool was_pending = false;
    do {
        wait_for_group();
        if (send(keeper, &question, sizeof question, MSG_NOSIGNAL) < 0) return;
        if (recv(keeper, &was_pending, sizeof was_pending, 0) != sizeof was_pending) return;
        question.passes_on = false;
    } while (was_pending && number < 32 && take(number));
}

/* ---- the three processes */

static int be_front(pid_t keeper, int to_keeper) {
    siginfo_t it;
    int status;
    do {
        if (sigwaitinfo(&passed_signals, &it) > 0 && it.si_signo != SIGCHLD) ask_keeper(to_keeper, it.si_signo);
    } while (waitpid(keeper, &status, WNOHANG) == 0);
    if (WIFEXITED(status)) return WEXITSTATUS(status);
    say("the keeper of the processes was ended by signal %d", WTERMSIG(status));
    end_all_below();
    return STATUS_FAULT;
}

/* Signals that end programs end the worker before there is a program. Others are a fault. */
int status_of_worker(int status) {
    if (WIFEXITED(status)) return WEXITSTATUS(status);
    if (ends_programs(WTERMSIG(status))) {
        if (options.is_record) say("signal %d ended the run before the program started", WTERMSIG(status));
        return 128 + WTERMSIG(status);
    }
    say("the tool was ended by signal %d", WTERMSIG(status));
    return STATUS_FAULT;
}

/* Until the worker has ended, or the front. The exit status. */
static int wait_for_worker(pid_t worker, int front) {
    sigset_t child;
    sigemptyset(&child);
    sigaddset(&child, SIGCHLD);
    int children = signalfd(-1, &child, SFD_CLOEXEC | SFD_NONBLOCK), status;
    struct pollfd both[] = { { front, POLLIN, 0 }, { children, POLLIN, 0 } };
    if (children < 0) fail("signalfd");
    for (;;) {
        struct signalfd_siginfo it;
        if (poll(both, 2, -1) < 0) {
            if (errno == EINTR) continue;
            fail("poll");
        }
        if (both[0].revents & POLLHUP) return STATUS_FAULT;
        if (both[0].revents) answer_front(front, worker);
        while (read(children, &it, sizeof it) > 0) {}
        for (pid_t pid; (pid = waitpid(-1, &status, WNOHANG)) > 0;)
            if (pid == worker) return status_of_worker(status);
    }
}

_Noreturn static void be_keeper(int front, int (*work)(void)) {
    prctl(PR_SET_CHILD_SUBREAPER, 1);
    open_proc();
    pid_t worker = start_child();
    if (worker == 0) {
        close(front);
        exit(work());
    }
    prctl(PR_SET_NAME, "wt-keeper");        /* so that killall(1) of the tool's name leaves it */
    int status = wait_for_worker(worker, front);
    /* A worker that has a tree goes last: it ends the others if this process is killed meanwhile. One that starts runs and
     * checks would take their end for a failure. */
    if (!options.many_seeds && !program) signal_all(SIGKILL, worker);
    end_all_below();
    if (*temporary->folder) remove_folder(temporary->folder);
    if (*temporary->above) rmdir(temporary->above);
    _exit(status);
}

int keep(int (*work)(void)) {
    int pair[2];
    temporary = mmap(NULL, sizeof *temporary, PROT_READ | PROT_WRITE, MAP_SHARED | MAP_ANONYMOUS, -1, 0);
    if (temporary == MAP_FAILED) fail("mmap");
    if (socketpair(AF_UNIX, SOCK_SEQPACKET | SOCK_CLOEXEC, 0, pair) < 0) fail("socketpair");
    block_signals();
    prctl(PR_SET_CHILD_SUBREAPER, 1);       /* for the case that the keeper is killed */
    open_proc();
    pid_t keeper = fork();
    if (keeper < 0) fail("fork");
    if (keeper == 0) {
        close(pair[0]);
        be_keeper(pair[1], work);
    }
    close(pair[1]);
    return be_front(keeper, pair[0]);
}

static int become_program(void) {
    const char *above = getenv("TMPDIR");
    snprintf(temporary->folder, sizeof temporary->folder, "%s/watchtree-explore-XXXXXX", above && *above ? above : "/tmp");
    if (!mkdtemp(temporary->folder)) fail(temporary->folder);
    setenv("WATCHTREE_ROOM", temporary->folder, 1);
    sigprocmask(SIG_SETMASK, &first_mask, NULL);
    execvp(*program, program);
    fail(*program);
}

int keep_program(char **words) {
    program = words;
    return keep(become_program);
}
