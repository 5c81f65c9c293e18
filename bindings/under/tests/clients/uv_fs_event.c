/* Prints the events that libuv's fs event reports for a directory. */
#include <stdio.h>
#include <uv.h>

static void changed(uv_fs_event_t *it, const char *name, int events, int status) {
    (void)it;
    printf("%d %d %s\n", status, events, name ? name : "");
    fflush(stdout);
}

int main(int count, char **words) {
    uv_fs_event_t it;
    if (count != 2 || uv_fs_event_init(uv_default_loop(), &it) || uv_fs_event_start(&it, changed, words[1], 0)) return 1;
    return uv_run(uv_default_loop(), UV_RUN_DEFAULT);
}
