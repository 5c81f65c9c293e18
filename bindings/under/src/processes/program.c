/* The processes of a run: the programs, and the supervisors of their calls. */
#include "processes/program.h"
#include "command/needs.h"
#include "command/options.h"
#include "inotify/filter.h"
#include "inotify/supervisor.h"
#include "output/out.h"
#include "processes/rest.h"
#include "tree/serve.h"
#include <errno.h>
#include <fcntl.h>
#include <signal.h>
#include <sys/prctl.h>
#include <sys/socket.h>
#include <sys/wait.h>
#include <unistd.h>

pid_t supervisor_pid, program_pid, second_supervisor_pid, second_keeper_pid;

bool is_supervisor(pid_t pid) { return pid == supervisor_pid || (pid == second_supervisor_pid && pid); }

/* What a program is started with. */
struct start {
    const char *here;
    const sigset_t *blocked;
    char **words;
    int written[2];                 /* where its output goes, of --out */
    int supervisor;                 /* the socket to its supervisor */
    int report;                     /* the pipe of the second program: -1 for the client */
};

/* What comes by the pipe: how the second program is, and its status. */
struct report { enum second how; int status; };

static void send_report(int to, enum second how, int status) {
    struct report it = { how, status };
    if (write(to, &it, sizeof it) != sizeof it) _exit(STATUS_FAULT);
}

static void take_nothing(void) {
    int nothing = open("/dev/null", O_RDONLY | O_CLOEXEC);
    if (nothing < 0 || dup2(nothing, 0) < 0) fail("/dev/null");
}

_Noreturn static void become_program(const struct start *it, pid_t parent) {
    prctl(PR_SET_PDEATHSIG, SIGKILL);
    if (getppid() != parent) _exit(STATUS_FAULT);
    sigprocmask(SIG_SETMASK, it->blocked, NULL);
    if (chdir(it->here) < 0) fail(it->here);        /* again, as it may be below the mount */
    if (it->report >= 0 || !strcmp(options.script, "-")) take_nothing();
    int tool_error = fcntl(2, F_DUPFD_CLOEXEC, 3);
    if (options.out && (dup2(it->written[0], 1) < 0 || dup2(it->written[1], 2) < 0)) fail("--out");
    /* The standard output has the script. */
    if (options.is_record && !options.recording && dup2(2, 1) < 0) fail("standard error");
    int listener = install_filter(it->report >= 0);
    if (listener < 0) lack_filter(errno);
    send_fd(it->supervisor, listener);
    close(listener);
    /* The supervisor looks at the root first: until then the kernel takes it for a file of somebody else. */
    char is_ready;
    if (read(it->supervisor, &is_ready, 1) != 1) fault("the supervisor of the system calls did not start");
    execvp(*it->words, it->words);
    int error = errno, status = error == ENOENT || error == ENOTDIR ? STATUS_NOT_FOUND : STATUS_NOT_EXECUTABLE;
    dup2(tool_error, 2);
    say("%s: %s", *it->words, strerror(error));
    if (it->report >= 0) send_report(it->report, SECOND_NOT_STARTED, status);
    _exit(status);
}

/* ---- the second program: its keeper waits for it and for all that it started */

static int report_fd = -1;
static struct report second = { NO_SECOND, 0 };

_Noreturn static void keep_second(const struct start *it, pid_t tool) {
    sigset_t all;
    sigfillset(&all);
    sigprocmask(SIG_SETMASK, &all, NULL);
    prctl(PR_SET_PDEATHSIG, SIGKILL);
    if (getppid() != tool) _exit(STATUS_FAULT);
    prctl(PR_SET_CHILD_SUBREAPER, 1);
    pid_t self = getpid(), program = fork(), ended;
    if (program < 0) fail("fork");
    if (program == 0) become_program(it, self);
    /* The tool's descriptors are not for here: while one of /dev/fuse is open the mount lives. */
    if (dup2(it->report, 3) < 0 || close_range(4, ~0u, 0) < 0) fail("close_range");
    for (int status; (ended = waitpid(-1, &status, 0)) > 0;)
        if (ended == program) send_report(3, SECOND_ENDED, status);
    _exit(0);
}

enum second how_second_is(int *status) {
    struct report it;
    ssize_t size = 0;
    while (report_fd >= 0 && (size = read(report_fd, &it, sizeof it)) == sizeof it)
        if (second.how == SECOND_GOES_ON) second = it;
    if (report_fd >= 0 && size == 0) {
        close(report_fd);
        report_fd = -1;
        second_keeper_pid = 0;      /* the number may be another process's by now */
        if (second.how == SECOND_GOES_ON) second.how = SECOND_IS_LOST;
    }
    *status = second.status;
    return second.how;
}

int second_report(void) { return report_fd; }

/* ---- both */

/* Starts a program, or its keeper, and its supervisor. */
static pid_t start(struct start *it, pid_t *supervisor, int mount_fd) {
    int pair[2];
    pid_t tool = getpid(), pid;
    if (socketpair(AF_UNIX, SOCK_STREAM | SOCK_CLOEXEC, 0, pair) < 0) fail("socketpair");
    if ((*supervisor = fork()) < 0) fail("fork");
    if (*supervisor == 0) {
        close(pair[1]);
        supervise(pair[0], tool, it->report >= 0);
    }
    if ((pid = fork()) < 0) fail("fork");
    if (pid == 0) {
        /* Each waits for the other, and the supervisor for the tool: the descriptor that shows an end is open in nobody else. */
        close(pair[0]);
        close(mount_fd);
        it->supervisor = pair[1];
        if (it->report >= 0) keep_second(it, tool);
        become_program(it, tool);
    }
    close(pair[0]);
    close(pair[1]);
    return pid;
}

static void make_out_files(struct start *it, enum out_file output, enum out_file errors) {
    if (!options.out) return;
    it->written[0] = make_out_file(output);
    it->written[1] = make_out_file(errors);
}

void start_programs(const char *here, const sigset_t *blocked, int mount_fd) {
    struct start client = { here, blocked, options.program, { -1, -1 }, -1, -1 };
    make_out_files(&client, OUT_STDOUT, OUT_STDERR);
    program_pid = start(&client, &supervisor_pid, mount_fd);
    if (!options.second) return;
    int ends[2];
    if (pipe2(ends, O_CLOEXEC) < 0 || fcntl(ends[0], F_SETFL, O_NONBLOCK) < 0) fail("pipe");
    struct start other = { here, blocked, options.second, { -1, -1 }, -1, ends[1] };
    make_out_files(&other, OUT_SECOND_STDOUT, OUT_SECOND_STDERR);
    second.how = SECOND_GOES_ON;
    report_fd = ends[0];
    second_keeper_pid = start(&other, &second_supervisor_pid, mount_fd);
    close(ends[1]);
}

/* The supervisor of the second program has the root open, and its end closes it. */
static void end_second_supervisor(void) {
    if (!second_supervisor_pid) return;
    kill(second_supervisor_pid, SIGKILL);
    while (waitpid(second_supervisor_pid, NULL, WNOHANG) == 0) {
        serve_all();
        usleep(500);
    }
}

void end_processes(void) {
    enum { POLITE = 20, PATIENT = 400 };
    refuse_second();
    for (int i = 0; i < PATIENT && signal_all(i < POLITE ? SIGTERM : SIGKILL, supervisor_pid); i++) {
        serve_all();
        usleep(5000);
        while (waitpid(-1, NULL, WNOHANG) > 0) {}
    }
    serve_all();
    kill(supervisor_pid, SIGKILL);
    end_second_supervisor();
    serve_all();
}
