/* The calls of churn.make, by the functions of the library and by wt_line: nanoseconds a call, the fastest of seven
 * runs. */
#include "watchtree.h"
#include <stdio.h>
#include <string.h>
#include <time.h>

enum { ROUNDS = 10000, CALLS = 5 * ROUNDS, RUNS = 7 };
#define PATH(s) s, strlen(s)

static char out[4096];
static int64_t refused;

static void must(int64_t number) { refused += number < 0; }

static void by_call(struct wt_tree *t) {
    for (int i = 0; i < ROUNDS; i++) {
        must(wt_create(t, PATH("/d/f"), 0644));
        must(wt_write(t, PATH("/d/f"), 0, "ab", 2));
        must(wt_rename(t, PATH("/d/f"), PATH("/d/g")));
        must(wt_unlink(t, PATH("/d/g")));
        must(wt_read(t, 1, out, sizeof out));
    }
}

static void by_line(struct wt_tree *t) {
    const char *lines[] = { "create /d/f 644", "write /d/f 0 6162", "rename /d/f /d/g", "unlink /d/g", "read 1 4096" };
    for (int i = 0; i < CALLS; i++) must(wt_line(t, 16384, PATH(lines[i % 5]), out, sizeof out));
}

static void measure(const char *name, void (*run)(struct wt_tree *)) {
    long least = 0;
    for (int turn = 0; turn < RUNS; turn++) {
        struct wt_tree t = WT_TREE_INIT;
        struct timespec begin, end;
        must(wt_open(&t)), must(wt_mkdir(&t, PATH("/d"), 0755)), must(wt_inotify_init(&t, 16384));
        must(wt_inotify_add_watch(&t, 1, PATH("/d"), 0xfff));
        clock_gettime(CLOCK_MONOTONIC, &begin);
        run(&t);
        clock_gettime(CLOCK_MONOTONIC, &end);
        wt_close(&t);
        long took = (end.tv_sec - begin.tv_sec) * 1000000000L + (end.tv_nsec - begin.tv_nsec);
        if (!least || took < least) least = took;
    }
    printf("%-20s %7d calls %7ld ns a call\n", name, CALLS, least / CALLS);
}

int main(void) {
    measure("churn from C", by_call);
    measure("churn by wt_line", by_line);
    return refused != 0;
}
