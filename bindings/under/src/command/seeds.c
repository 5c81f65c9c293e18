/* A run for each seed, and a check of what each left. */
#include "command/options.h"
#include "command/run.h"
#include "output/out.h"
#include "processes/keeper.h"
#include "processes/proc.h"
#include <errno.h>
#include <stdio.h>
#include <stdlib.h>
#include <sys/prctl.h>
#include <sys/stat.h>
#include <sys/wait.h>
#include <unistd.h>

static int ended_by;                /* the signal that ends the runs, once one did */

static void set_number(const char *name, unsigned long long value) {
    char text[32];
    snprintf(text, sizeof text, "%llu", value);
    setenv(name, text, 1);
}

/* Signals that end programs end the runs too, unless the tool was started to ignore them, as by nohup(1). */
static bool ends_runs(int number) {
    struct sigaction it;
    return ends_programs(number) && sigaction(number, NULL, &it) == 0 && it.sa_handler != SIG_IGN;
}

/* Waits for a child, for at most `limit_ms` milliseconds (0: without a limit), and passes on to it what is sent to the tool.
 * False if it did not end. */
static bool await(pid_t child, int limit_ms, int *status) {
    int64_t end = clock_ms() + limit_ms;
    while (waitpid(child, status, WNOHANG) != child) {
        siginfo_t it;
        int64_t left = end - clock_ms();
        struct timespec most = { .tv_sec = left / 1000, .tv_nsec = left % 1000 * 1000000 };
        if (limit_ms && left <= 0) return false;
        int number = limit_ms ? sigtimedwait(&passed_signals, &it, &most) : sigwaitinfo(&passed_signals, &it);
        if (number <= 0 || number == SIGCHLD) continue;
        if (it.si_pid == parent_pid && it.si_code == SI_USER) kill(child, number);
        if (ends_runs(number)) ended_by = number;
    }
    return true;
}

static int run_one(uint64_t seed, const char *out) {
    int status;
    pid_t pid = start_child();
    if (pid == 0) {
        options.seed = seed;
        options.out = out;
        exit(run());
    }
    await(pid, 0, &status);
    if (!WIFEXITED(status)) end_all_below();
    return status_of_worker(status);
}

/* Whether the command exits with 0. What it started ends with it where it takes too long. */
static bool is_right(uint64_t seed) {
    int status;
    pid_t pid = fork();
    if (pid < 0) fail("fork");
    if (pid == 0) {
        sigprocmask(SIG_SETMASK, &first_mask, NULL);
        execl("/bin/sh", "sh", "-c", options.check, (char *)NULL);
        fail("/bin/sh");
    }
    if (await(pid, options.limit_ms, &status)) return WIFEXITED(status) && WEXITSTATUS(status) == 0;
    end_all_below();
    say("seed %llu: the check was not over after %d ms (--limit)", (unsigned long long)seed, options.limit_ms);
    return false;
}

/* Whether the run passes: by its status alone, or by the command. */
static bool is_passed(uint64_t seed, const char *out, int status) {
    if (!options.check) return status == 0;
    set_number("WT_SEED", seed);
    set_number("WT_STATUS", (unsigned long long)status);
    setenv("WT_OUT", out, 1);
    return is_right(seed);
}

/* The folder above those of the runs. Without --out the keeper removes it, unless a seed fails. */
static const char *prepare_above(void) {
    struct stat is;
    if (stat(options.script, &is) < 0) fail(options.script);
    if (!S_ISREG(is.st_mode) && strcmp(options.script, "/dev/null")) fault("--seeds needs a script that can be read again");
    if (options.out && mkdir(options.out, 0755) < 0 && errno != EEXIST) fail(options.out);
    if (options.out) return options.out;
    snprintf(temporary->above, sizeof temporary->above, "/tmp/watchtree-under.XXXXXX");
    if (!mkdtemp(temporary->above)) fail(temporary->above);
    return temporary->above;
}

int run_seeds(void) {
    char out[PATH_SIZE];
    const char *above = prepare_above();
    uint64_t failed = 0;
    prctl(PR_SET_CHILD_SUBREAPER, 1);       /* so that all of a check is below this process */
    open_proc();
    hold_out_above(above);
    for (uint64_t seed = options.seed; seed <= options.last_seed; seed++) {
        snprintf(out, sizeof out, "%s/%llu", above, (unsigned long long)seed);
        if (!options.out) memcpy(temporary->folder, out, sizeof out);
        int status = run_one(seed, out);
        bool passes = !ended_by && is_passed(seed, out, status);
        if (ended_by) {
            say("ended by signal %d in the run of seed %llu", ended_by, (unsigned long long)seed);
            return 128 + ended_by;
        }
        if (!passes) {
            failed++;
            *temporary->folder = 0;
            printf("seed %llu fails (status %d): %s\n", (unsigned long long)seed, status, out);
            fflush(stdout);
        } else if (!options.out) remove_folder(out);
    }
    printf("%llu of %llu seeds fail\n", (unsigned long long)failed,
           (unsigned long long)(options.last_seed - options.seed + 1));
    return failed ? 1 : 0;
}
