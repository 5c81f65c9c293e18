/* Is the program at rest? This process is a subreaper, so that all processes of the program stay below it. */
#include "processes/rest.h"
#include "processes/proc.h"
#include "processes/program.h"
#include <ctype.h>
#include <signal.h>
#include <stdio.h>
#include <stdlib.h>
#include <unistd.h>

struct process { pid_t pid, parent; ino_t folder; };
static struct process *unknown;             /* those of which this look does not know yet whose they are */
static size_t unknown_count, unknown_capacity;
static struct member { pid_t pid; enum side side; } *ours;
static size_t our_count, our_capacity;
/* Processes that are not ours, by the inode number of their folder in /proc: another process with the same number has
 * another one. The parent of each is none of ours either, as this process is a subreaper. */
static ino_t *foreign;
static size_t foreign_count;

struct state {
    char letter;
    pid_t parent;
    unsigned long long faults;      /* page faults of its children that ended: another number whenever one did */
};

/* Of a process or a task. */
static bool read_state(const char *name, struct state *out) {
    char text[1024];
    if (!read_proc_file(name, text, sizeof text)) return false;
    char *end = strrchr(text, ')');
    return end && sscanf(end + 1, " %c %d %*d %*d %*d %*d %*u %*u %llu", &out->letter, &out->parent, &out->faults) == 3;
}

/* Whether it is ours, and of which side its children are. */
static bool is_ours(pid_t pid, enum side *side) {
    *side = CLIENT;
    if (pid == getpid()) return true;
    for (size_t i = 0; i < our_count; i++) {
        if (ours[i].pid != pid) continue;
        *side = ours[i].side;
        return true;
    }
    return false;
}

/* Whether a process, with its descendants, is of the second program. */
static bool begins_second(pid_t pid) { return pid == second_keeper_pid || pid == second_supervisor_pid; }

static void *grow(void *old, size_t *capacity, size_t least, size_t size) {
    size_t now = *capacity ? *capacity : 256;
    while (now <= least) now *= 2;
    char *all = realloc(old, now * size);
    if (!all) fail("realloc");
    memset(all + *capacity * size, 0, (now - *capacity) * size);
    *capacity = now;
    return all;
}

static void add(pid_t pid, enum side side) {
    if (our_count == our_capacity) ours = grow(ours, &our_capacity, our_count, sizeof *ours);
    ours[our_count++] = (struct member){ pid, begins_second(pid) ? SECOND : side };
}

static ino_t *foreign_entry(pid_t pid) {
    if ((size_t)pid >= foreign_count) foreign = grow(foreign, &foreign_count, (size_t)pid, sizeof *foreign);
    return foreign + pid;
}

/* The processes that are not known to be foreign. */
static void read_processes(void) {
    DIR *proc = proc_from_start();
    struct dirent *it;
    unknown_count = 0;
    while ((it = readdir(proc))) {
        char name[300];
        struct state state;
        pid_t pid = isdigit((unsigned char)*it->d_name) ? atoi(it->d_name) : 0;
        if (pid <= 0 || pid == getpid() || *foreign_entry(pid) == it->d_ino) continue;
        *foreign_entry(pid) = 0;
        snprintf(name, sizeof name, "%d/stat", pid);
        if (!read_state(name, &state)) continue;
        if (unknown_count == unknown_capacity)
            unknown = grow(unknown, &unknown_capacity, unknown_count, sizeof *unknown);
        unknown[unknown_count++] = (struct process){ pid, state.parent, it->d_ino };
    }
}

/* A child of ours is ours, a child of a foreign one is foreign. A parent mostly stands before its children. */
static void find_ours(void) {
    read_processes();
    our_count = 0;
    for (bool is_new = true; is_new;) {
        is_new = false;
        size_t left = 0;
        for (size_t i = 0; i < unknown_count; i++) {
            struct process *it = unknown + i;
            enum side side;
            if (is_ours(it->parent, &side)) add(it->pid, side);
            else if (!it->parent || *foreign_entry(it->parent)) *foreign_entry(it->pid) = it->folder;
            else {
                unknown[left++] = *it;
                continue;
            }
            is_new = true;
        }
        unknown_count = left;
    }
}

/* Mixes a number into a sum (FNV-1a). */
static uint64_t mix(uint64_t sum, uint64_t number) {
    for (int i = 0; i < 8; i++) sum = (sum ^ (number >> 8 * i & 255)) * 1099511628211u;
    return sum;
}

/* Whether a task that seems to sleep is on its way to sleep or back. It says so before it leaves its CPU, and may lose that in
 * between, or find that there is nothing to wait for. Only of a task that has left it the kernel names the function in which it
 * waits. */
static bool is_queued(pid_t pid, const char *task) {
    char name[400], text[128];
    snprintf(name, sizeof name, "%d/task/%s/wchan", pid, task);
    return read_proc_file(name, text, sizeof text) && !strcmp(text, "0");
}

static void look_at_task(pid_t pid, const char *task, struct tasks *all) {
    char name[400], text[128];
    struct state state;
    unsigned long long ran, waited, count;
    snprintf(name, sizeof name, "%d/task/%s/stat", pid, task);
    if (!read_state(name, &state) || state.letter == 'Z' || state.letter == 'X') return;
    snprintf(name, sizeof name, "%d/task/%s/schedstat", pid, task);
    if (!read_proc_file(name, text, sizeof text)) return;
    bool is_known = sscanf(text, "%llu %llu %llu", &ran, &waited, &count) == 3;
    if (!is_known || !strchr("STtI", state.letter)) all->all_sleep = false;
    if (!is_known || !strchr("STtID", state.letter)) all->none_runs = false;
    all->blocked += state.letter == 'D';
    all->queued += state.letter == 'S' && is_queued(pid, task);
    uint64_t number = strtoull(task, NULL, 10);
    all->runs = mix(mix(all->runs, number), count);
    if (is_supervisor(pid)) return;
    all->set = mix(mix(all->set, number), state.faults);
    all->time += ran;
}

struct tasks look_at_tasks(enum side side) {
    enum { START = 0x7bf29ce4 };
    struct tasks all = { .all_sleep = true, .none_runs = true, .runs = START, .set = START };
    find_ours();
    for (size_t i = 0; i < our_count; i++) {
        char name[64];
        struct dirent *it;
        if (ours[i].side != side) continue;
        snprintf(name, sizeof name, "%d/task", ours[i].pid);
        DIR *tasks = open_proc_folder(name);
        while (tasks && (it = readdir(tasks))) if (*it->d_name != '.') look_at_task(ours[i].pid, it->d_name, &all);
        if (tasks) closedir(tasks);
    }
    return all;
}

bool any_task(bool (*is_such)(pid_t pid, const char *task)) {
    bool is_any = false;
    for (size_t i = 0; i < our_count && !is_any; i++) {
        char name[64];
        struct state state;
        struct dirent *it;
        pid_t pid = ours[i].pid;
        if (is_supervisor(pid)) continue;
        snprintf(name, sizeof name, "%d/task", pid);
        DIR *tasks = open_proc_folder(name);
        while (tasks && !is_any && (it = readdir(tasks))) {
            if (*it->d_name == '.') continue;
            snprintf(name, sizeof name, "%d/task/%.20s/stat", pid, it->d_name);
            is_any = read_state(name, &state) && state.letter != 'Z' && state.letter != 'X' && is_such(pid, it->d_name);
        }
        if (tasks) closedir(tasks);
    }
    return is_any;
}

int signal_all(int signal, pid_t but) {
    int count = 0;
    find_ours();
    for (size_t i = 0; i < our_count; i++) {
        pid_t pid = ours[i].pid;
        if (pid != but && pid != second_supervisor_pid) count += kill(pid, signal) == 0;
    }
    return count;
}

/* The parent of a task, and when the task started: 0 if it is gone. */
static pid_t parent_of(pid_t task, unsigned long long *started) {
    char name[32], text[1024];
    pid_t parent = 0;
    *started = 0;
    snprintf(name, sizeof name, "%d/stat", task);
    if (!read_proc_file(name, text, sizeof text)) return 0;
    const char *end = strrchr(text, ')');
    if (!end || sscanf(end + 1, " %*c %d %*d %*d %*d %*d %*u %*u %*u %*u %*u %*u %*u %*d %*d %*d %*d %*d %*d %llu", &parent,
                       started) != 2) return 0;
    return parent;
}

enum side side_of(pid_t first, struct descent *out) {
    pid_t task = first;
    out->count = 0;
    while (task > 1 && task != getpid() && task != second_keeper_pid) {
        unsigned long long started;
        pid_t above = parent_of(task, &started);
        if (!started && task != first) {    /* it ended meanwhile, and its child has another parent */
            task = first;
            out->count = 0;
            continue;
        }
        if (out->count < MOST_ANCESTORS) {
            out->of[out->count].started = started;
            out->of[out->count++].task = task;
        }
        task = above;
    }
    return task && task == second_keeper_pid ? SECOND : CLIENT;
}

bool is_before(const struct descent *one, const struct descent *other) {
    for (int i = one->count - 1, j = other->count - 1; i >= 0 && j >= 0; i--, j--) {
        if (one->of[i].started != other->of[j].started) return one->of[i].started < other->of[j].started;
        if (one->of[i].task != other->of[j].task) return one->of[i].task < other->of[j].task;
    }
    return one->count < other->count;
}

bool can_tell_rest(void) {
    char text[128];
    unsigned long long ran, waited, count;
    return read_proc_file("self/schedstat", text, sizeof text) &&
           sscanf(text, "%llu %llu %llu", &ran, &waited, &count) == 3 && count;
}
