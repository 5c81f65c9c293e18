/* Each call under the lock answers as the one without it: random calls on two trees, one of each kind, and on forks of
 * them. */
#include "checks.h"

enum { CALLS = 60000 };
static struct wt_tree trees[2], *plain = &trees[0];
static struct wtt *shared;
static const char *const PATHS[] = { "/", "/d", "/d/a", "/d/b", "/d/e", "/d/e/f", "/g", "/g/a", "relative", "/d/.." };

static unsigned choose(unsigned count) {
    static uint32_t state = 1;
    state = state * 1664525 + 1013904223;
    return (state >> 8) % count;
}

/* The same call on both trees; what it writes is compared by the caller. */
#define BOTH(name, ...) both(#name, wt_##name(plain, __VA_ARGS__), wtt_##name(shared, __VA_ARGS__))
static int64_t both(const char *name, int64_t wanted, int64_t number) {
    is("calls.c", __LINE__, name, number, wanted);
    return number;
}

static _Alignas(uint32_t) char out[2][512];
static struct wt_stat stats[2];
#define INTO_OUT(name, ...) \
    both(#name, wt_##name(plain, __VA_ARGS__, out[0], size), wtt_##name(shared, __VA_ARGS__, out[1], size))

static void call_on_files(unsigned which, const char *path, const char *other) {
    uint32_t mode = choose(5) ? 0644 : 010000, few = choose(6);
    size_t size = choose(sizeof out[0]);
    switch (which) {
    case 0: BOTH(mkdir, PATH(path), mode); break;
    case 1: BOTH(create, PATH(path), mode); break;
    case 2: BOTH(write, PATH(path), few, "bytes", few); break;
    case 3: INTO_OUT(pread, PATH(path), few); break;
    case 4: BOTH(truncate, PATH(path), few); break;
    case 5: BOTH(chmod, PATH(path), mode); break;
    case 6: BOTH(link, PATH(path), PATH(other)); break;
    case 7: BOTH(unlink, PATH(path)); break;
    case 8: BOTH(rmdir, PATH(path)); break;
    case 9: BOTH(rename, PATH(path), PATH(other)); break;
    case 10: BOTH(rename2, PATH(path), PATH(other), few); break;
    case 11: both("stat", wt_stat(plain, PATH(path), &stats[0]), wtt_stat(shared, PATH(path), &stats[1])); break;
    case 12: INTO_OUT(list, PATH(path)); break;
    case 13: both("peek_stat", wt_peek_stat(plain, PATH(path), &stats[0]), wtt_peek_stat(shared, PATH(path), &stats[1])); break;
    case 14: INTO_OUT(peek_list, PATH(path)); break;
    case 15: INTO_OUT(path_of, few); break;
    default: INTO_OUT(peek_pread, PATH(path), few); break;
    }
}

static void call_on_instances(unsigned which, const char *path, uint32_t instance) {
    static const char *const LINES[] = { "create /d/a 644", "list /", "watch 3 /d 0xfff", "nothing", "close 5", "init" };
    const char *line = LINES[choose(6)];
    size_t size = choose(sizeof out[0]);
    uint32_t few = choose(9);
    switch (which) {
    case 0: BOTH(inotify_init, few * 8); break;
    case 1: case 2: BOTH(inotify_add_watch, instance, PATH(path), few ? IN_ALL_EVENTS : 0); break;
    case 3: BOTH(inotify_rm_watch, instance, (int32_t)few); break;
    case 4: if (few == 0) BOTH(inotify_close, instance); break;
    case 5: BOTH(waiting, instance); break;
    case 8: BOTH(bytes_waiting, instance); break;
    case 9: {
        size_t count = few / 3;
        both("ready", wt_ready(plain, (uint32_t *)out[0], count), wtt_ready(shared, (uint32_t *)out[1], count));
        break;
    }
    case 11: both("first_place", wt_first_place(plain), wtt_first_place(shared)); break;
    case 12: {
        int64_t last = both("last_place", wt_last_place(plain), wtt_last_place(shared));
        INTO_OUT(entry, (uint64_t)last + 1 - few);
        break;
    }
    case 6: INTO_OUT(line, 64, PATH(line)); break;
    case 7: both("text", wt_text(plain, out[0], size), wtt_text(shared, out[1], size)); break;
    default: {
        /* wtt_read makes no call if no record waits. */
        int64_t count = wt_waiting(plain, instance);
        if (count > 0) count = wt_read(plain, instance, out[0], size);
        else if (count == 0) count = -EAGAIN;
        both("read", count, wtt_read(shared, instance, out[1], size, 0));
    }
    }
}

/* The calls go on with forks, which answer as their trees would. */
static void fork_both(void) {
    struct wt_tree *tree = plain;
    struct wtt *with_lock = shared;
    plain = &trees[plain == &trees[0]];
    IS(wt_fork(tree, plain), 0), IS(wtt_fork(with_lock, &shared), 0);
    wt_close(tree), wtt_close(with_lock);
}

int main(void) {
    IS(wt_open(plain), 0), IS(wtt_open(&shared), 0);
    unsigned answered = 0;
    for (int turn = 0; turn < CALLS; turn++) {
        const char *path = PATHS[choose(10)], *other = PATHS[choose(10)];
        if (choose(2)) call_on_files(choose(17), path, other);
        else call_on_instances(choose(13), path, choose(12) + 1);
        HOLDS(!memcmp(out[0], out[1], sizeof out[0]) && !memcmp(&stats[0], &stats[1], sizeof stats[0]));
        /* (a descriptor changes no answer) */
        if (turn % 1000 == 0) {
            int64_t fd = wtt_fd(shared, choose(12) + 1);
            answered += fd >= 0;
            if (fd >= 0) close((int)fd);
        }
        if (turn % 7000 == 6999) fork_both();
        if (turn % 10000 == 0) IS(wtt_cut(shared) >= 0, wt_cut(plain) >= 0);
    }
    IS(wtt_cut(shared), wt_cut(plain));
    wt_close(plain), wtt_close(shared);
    printf("%d random calls, each answered as without the lock, also by forks\n", CALLS);
    return !answered;
}
