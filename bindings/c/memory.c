/* Each allocation of a run fails in turn. A call that answers -ENOMEM is made again, and the run then ends as if
 * nothing had happened: the same numbers and bytes. Linked with --wrap=malloc --wrap=realloc. */
#include "watchtree.h"
#include <errno.h>
#include <stdio.h>
#include <stdlib.h>
#include <string.h>

#define PATH(s) s, strlen(s)
#define TRY(call) ({ int64_t r_ = (call); if (r_ == -ENOMEM) { refused++; r_ = (call); } note(r_); r_; })

void *__real_malloc(size_t n);
void *__real_realloc(void *p, size_t n);
static long left = -1, refused;
static char kept[1 << 16];
static size_t used;

static int lacking(void) { return left > 0 && --left == 0; }
void *__wrap_malloc(size_t n) { return lacking() ? NULL : __real_malloc(n); }
void *__wrap_realloc(void *p, size_t n) { return lacking() ? NULL : __real_realloc(p, n); }
static void note(int64_t number) {
    used += (size_t)snprintf(kept + used, sizeof kept - used, "%lld ", (long long)number);
}

static void on_files(struct wt_tree *t, int k) {
    char path[16], out[512];
    struct wt_stat s;
    snprintf(path, sizeof path, "/d/f%d", k);
    TRY(wt_create(t, PATH(path), 0644)), TRY(wt_write(t, PATH(path), (uint64_t)k * 3, "abc", 3));
    TRY(wt_link(t, PATH(path), PATH("/e/x"))), TRY(wt_rename(t, PATH(path), PATH("/e/y")));
    TRY(wt_pread(t, PATH("/e/y"), 0, out, 9)), TRY(wt_unlink(t, PATH("/e/x")));
    TRY(wt_rename2(t, PATH("/e/y"), PATH("/d"), 2)), TRY(wt_rename2(t, PATH("/e/y"), PATH("/d"), 2));
    TRY(wt_truncate(t, PATH("/e/y"), 1)), TRY(wt_chmod(t, PATH("/e/y"), 0600)), TRY(wt_stat(t, PATH("/e/y"), &s));
    TRY(wt_list(t, PATH("/e"), out, sizeof out)), TRY(wt_inotify_rm_watch(t, 2, 7));
    TRY(wt_peek_list(t, PATH("/e/y"), out, sizeof out)), TRY(wt_path_of(t, 3, out, sizeof out));
    if (k == 3) TRY(wt_cut(t));
}

/* A fork, and entries of the journal as text. The tree goes on as if there had been none. */
static void on_fork(struct wt_tree *t) {
    struct wt_tree fork = WT_TREE_INIT;
    char out[512] = "";
    TRY(wt_fork(t, &fork)), TRY(wt_rename(&fork, PATH("/d"), PATH("/e/y"))), TRY(wt_read(&fork, 2, out, sizeof out));
    for (int i = 0; i < 64; i++) note(out[i]);
    for (int64_t place = wt_first_place(&fork); place <= wt_last_place(&fork); place++) {
        int64_t count = TRY(wt_entry(&fork, (uint64_t)place, out, sizeof out));
        for (int64_t i = 0; i < count && i < (int64_t)sizeof out; i++) note(out[i]);
    }
    wt_close(&fork);
}

static void run(long fail) {
    struct wt_tree t = WT_TREE_INIT;
    char out[512];
    left = fail, used = 0;
    TRY(wt_open(&t)), TRY(wt_mkdir(&t, PATH("/d"), 0755)), TRY(wt_mkdir(&t, PATH("/e"), 0755));
    TRY(wt_inotify_init(&t, 16)), TRY(wt_inotify_init(&t, 3)), TRY(wt_inotify_add_watch(&t, 1, PATH("/d"), 0xfff));
    TRY(wt_inotify_add_watch(&t, 2, PATH("/d"), 0xfff)), TRY(wt_inotify_add_watch(&t, 2, PATH("/e"), 0xfff));
    for (int k = 0; k < 6; k++) on_files(&t, k);
    on_fork(&t);
    for (uint32_t i = 1; i <= 2; i++) {
        int64_t count;
        while ((count = TRY(wt_read(&t, i, out, sizeof out))) > 0)
            for (int64_t j = 0; j < count; j++) note(out[j]);
    }
    TRY(wt_inotify_close(&t, 1)), TRY(wt_rmdir(&t, PATH("/d")));
    left = -1;
    wt_close(&t);
}

int main(void) {
    static char wanted[sizeof kept];
    run(-1);
    memcpy(wanted, kept, sizeof kept);
    long n = 0, before;
    do {
        before = refused;
        run(++n);
        if (strcmp(kept, wanted)) {
            printf("differs where allocation %ld fails\n%s\n%s\n", n, wanted, kept);
            return 1;
        }
    } while (refused > before);
    printf("each of %ld allocations failed once, and was returned as -ENOMEM\n", n - 1);
    return n < 100;
}
