/* Prints the events that libev's stat watcher reports for a file. */
#include <ev.h>
#include <stdio.h>

static void changed(struct ev_loop *loop, ev_stat *it, int events) {
    (void)loop, (void)events;
    printf("%s %lld\n", it->attr.st_nlink ? "is there" : "is not there", (long long)it->attr.st_size);
    fflush(stdout);
}

int main(int count, char **words) {
    struct ev_loop *loop = ev_default_loop(0);
    ev_stat it;
    if (count != 2) return 1;
    ev_stat_init(&it, changed, words[1], 0.);
    ev_stat_start(loop, &it);
    ev_run(loop, 0);
    return 0;
}
