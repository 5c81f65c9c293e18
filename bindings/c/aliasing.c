/* Two arguments that are the same handle or the same buffer, and what lies beside a buffer that a call writes. Linked
 * with --wrap=malloc,--wrap=realloc,--wrap=free. */
#include "checks.h"
#include "counting.h"
#include "watchtree.h"
#include <errno.h>
#include <stdio.h>
#include <string.h>
#include <sys/inotify.h>

#define TREE struct wt_tree
#define CALL(name) wt_##name
#include "one_buffer.h"

/* A tree with the file /d/f, a record that waits, and the text of a line. */
static void begin(struct wt_tree *t) {
    IS(wt_open(t), 0), IS(wt_mkdir(t, PATH("/d"), 0755), 2), IS(wt_inotify_init(t, WT_QUEUE), 1);
    IS(wt_inotify_add_watch(t, 1, PATH("/d"), IN_CREATE), 1), IS(wt_create(t, PATH("/d/f"), 0644), 3);
    IS(wt_line(t, WT_QUEUE, PATH("stat /d"), NULL, 0), 16);
}

/* A tree does not become a fork of itself: it stays as it is, and no memory is lost. */
static void one_handle(void) {
    struct wt_tree t = WT_TREE_INIT;
    char out[64];
    IS(wt_fork(&t, &t), -EBADF), HOLDS(!t.at && !t.ready), IS(allocated, 0);
    begin(&t);
    void *at = t.at;
    size_t before = allocated;
    for (int i = 0; i < 3; i++) {
        IS(wt_fork(&t, &t), -EBUSY), HOLDS(t.at == at && t.ready), IS(allocated, before);
        IS(wt_first_place(&t), 1), IS(wt_last_place(&t), 5), IS(wt_waiting(&t, 1), 1);
        IS(wt_text(&t, out, sizeof out), 16), HOLDS(!memcmp(out, "ok 2 d 0755 1 0\n", 16));
    }
    IS(wt_create(&t, PATH("/d/g"), 0644), 4), IS(wt_read(&t, 1, out, sizeof out), 64);
    wt_close(&t);
    IS(allocated, 0), IS(wt_fork(&t, &t), -EBADF), IS(allocated, 0);
}

/* A handle, a path, what a call writes, and other bytes, with nothing between them. */
static struct {
    struct wt_tree tree;
    char path[8];
    union { char bytes[32]; uint32_t numbers[8]; struct wt_stat stat; } out;
    char behind[8];
} it;
_Static_assert(sizeof it == 64, "no byte lies between them");

/* A call wrote to the whole of `out` what begins with `front`, and nothing beside it. */
static void wrote(int line, void *at, int64_t number, int64_t wanted, const char *front) {
    is(__FILE__, line, "the answer", number, wanted);
    is(__FILE__, line, "what it wrote", !memcmp(it.out.bytes, front, strlen(front)), 1);
    is(__FILE__, line, "what lies before that", memcmp(it.path, "----/d/f", 8), 0);
    is(__FILE__, line, "what lies behind that", memcmp(it.behind, "========", 8), 0);
    is(__FILE__, line, "the handle", it.tree.at == at && it.tree.ready, 1);
    memset(&it.out, '-', sizeof it.out);
}
#define WROTE(call, wanted, front) wrote(__LINE__, at, (call), (wanted), (front))

/* Each function that writes a buffer, with as much to write as fits, or more. */
static void adjoining(void) {
    struct wt_tree *t = &it.tree;
    char *path = it.path + 4, *out = it.out.bytes, *name = "/a-name-of-more-than-thirty-two-bytes";
    memcpy(it.path, "----/d/f", 8), memset(&it.out, '-', sizeof it.out), memset(it.behind, '=', 8);
    begin(t);
    void *at = t->at;
    WROTE(wt_read(t, 1, out, 32), 32, "\1");
    IS(wt_write(t, path, 4, 0, PATH(name)), 37), IS(wt_create(t, PATH(name), 0644), 4);
    WROTE(wt_pread(t, path, 4, 0, out, 32), 32, "/a-name-of-more-than-thirty-two-");
    WROTE(wt_peek_pread(t, path, 4, 0, out, 32), 32, "/a-name-of-more-than-thirty-two-");
    WROTE(wt_list(t, PATH("/"), out, 32), 39, "a-name-of-more-than-thirty-two-b");
    WROTE(wt_peek_list(t, PATH("/"), out, 32), 39, "a-name-of-more-than-thirty-two-b");
    WROTE(wt_path_of(t, 4, out, 32), 37, "/a-name-of-more-than-thirty-two-");
    WROTE(wt_entry(t, 8, out, 32), 56, "create /a-name-of-more-than-thir");
    WROTE(wt_line(t, WT_QUEUE, PATH("cat /d/f 0 37"), out, 32), 78, "ok 2f612d6e616d652d6f662d6d6f726");
    WROTE(wt_text(t, out, 32), 78, "ok 2f612d6e616d652d6f662d6d6f726");
    WROTE(wt_error_text(-ENAMETOOLONG, out, 32), 32, "ENAMETOOLONG: File name too long");
    for (uint32_t i = 2; i < 9; i++)
        IS(wt_inotify_init(t, 1), i), IS(wt_inotify_add_watch(t, i, path, 4, IN_ATTRIB), 1);
    IS(wt_inotify_add_watch(t, 1, path, 4, IN_ATTRIB), 2), IS(wt_chmod(t, path, 4, 0600), 0);
    WROTE(wt_ready(t, it.out.numbers, 8), 8, "\1\0\0\0\2");
    IS(wt_stat(t, path, 4, &it.out.stat), 0), HOLDS(it.out.stat.number == 3);
    WROTE(wt_stat(t, path, 4, &it.out.stat), 0, "\1"), WROTE(wt_peek_stat(t, path, 4, &it.out.stat), 0, "\1");
    wt_close(t);
    IS(allocated, 0);
}

int main(void) {
    struct wt_tree t = WT_TREE_INIT;
    IS(wt_open(&t), 0);
    one_buffer(&t);
    wt_close(&t);
    one_handle();
    adjoining();
    puts("one handle twice, one buffer twice, and what lies beside a buffer: as promised");
    return 0;
}
