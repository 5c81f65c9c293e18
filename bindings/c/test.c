/* Each call of watchtree.h, and each error that it can return except -ENOMEM, which memory.c tests. */
#include "checks.h"
#include "watchtree.h"
#include <errno.h>
#include <inttypes.h>
#include <stddef.h>
#include <stdio.h>
#include <stdlib.h>
#include <string.h>
#include <sys/inotify.h>

_Static_assert(sizeof(struct wt_tree) == 16 && sizeof(struct wt_stat) == 32, "the structs of the crate");

/* A tree that is not open answers -EBADF to each call, and closing it does nothing. */
static void closed_trees(void) {
    struct wt_tree t = WT_TREE_INIT, fork = WT_TREE_INIT;
    struct wt_stat s = { 7, 7, 7, 7, 7 };
    char out[8] = "before";
    uint32_t number = 7;
    for (int turn = 0; turn < 2; turn++) {
        wt_close(&t);
        IS(wt_cut(&t), -EBADF), IS(wt_mkdir(&t, PATH("/d"), 0755), -EBADF), IS(wt_create(&t, PATH("/d"), 0644), -EBADF);
        IS(wt_write(&t, PATH("/d"), 0, "x", 1), -EBADF), IS(wt_pread(&t, PATH("/d"), 0, out, sizeof out), -EBADF);
        IS(wt_truncate(&t, PATH("/d"), 0), -EBADF), IS(wt_chmod(&t, PATH("/d"), 0), -EBADF);
        IS(wt_link(&t, PATH("/d"), PATH("/e")), -EBADF), IS(wt_unlink(&t, PATH("/d")), -EBADF);
        IS(wt_rmdir(&t, PATH("/d")), -EBADF), IS(wt_rename(&t, PATH("/d"), PATH("/e")), -EBADF);
        IS(wt_rename2(&t, PATH("/d"), PATH("/e"), 0), -EBADF);
        IS(wt_stat(&t, PATH("/d"), &s), -EBADF), IS(wt_list(&t, PATH("/"), out, sizeof out), -EBADF);
        IS(wt_inotify_init(&t, 1), -EBADF), IS(wt_inotify_add_watch(&t, 1, PATH("/"), IN_CREATE), -EBADF);
        IS(wt_inotify_rm_watch(&t, 1, 1), -EBADF), IS(wt_read(&t, 1, out, sizeof out), -EBADF);
        IS(wt_waiting(&t, 1), -EBADF), IS(wt_inotify_close(&t, 1), -EBADF);
        IS(wt_line(&t, 1, PATH("mkdir /d 755"), out, sizeof out), -EBADF), IS(wt_text(&t, out, sizeof out), -EBADF);
        IS(wt_bytes_waiting(&t, 1), -EBADF), IS(wt_ready(&t, &number, 1), -EBADF), HOLDS(number == 7);
        IS(wt_peek_stat(&t, PATH("/d"), &s), -EBADF), IS(wt_peek_list(&t, PATH("/"), out, sizeof out), -EBADF);
        IS(wt_path_of(&t, 1, out, sizeof out), -EBADF);
        IS(wt_peek_pread(&t, PATH("/d"), 0, out, sizeof out), -EBADF), IS(wt_fork(&t, &fork), -EBADF), HOLDS(!fork.ready);
        IS(wt_first_place(&t), -EBADF), IS(wt_last_place(&t), -EBADF), IS(wt_entry(&t, 1, out, sizeof out), -EBADF);
        HOLDS(!strcmp(out, "before") && s.links == 7 && s.is_directory == 7);
        if (turn == 0) IS(wt_open(&t), 0), IS(wt_open(&t), -EBUSY);
    }
}

static void files(struct wt_tree *t) {
    struct wt_stat s;
    char out[8] = { 0 };
    IS(wt_mkdir(t, PATH("/d"), 0755), 2), IS(wt_create(t, PATH("/d/f"), 0640), 3);
    IS(wt_write(t, PATH("/d/f"), 2, "hello", 5), 5), IS(wt_pread(t, PATH("/d/f"), 1, out, 3), 3);
    HOLDS(!memcmp(out, "\0he\0", 4));
    IS(wt_pread(t, PATH("/d/f"), 7, out, 3), 0), IS(wt_pread(t, PATH("/d/f"), 0, NULL, 0), 0);
    IS(wt_truncate(t, PATH("/d/f"), 3), 0), IS(wt_chmod(t, PATH("/d/f"), 07700), 0);
    IS(wt_link(t, PATH("/d/f"), PATH("/d/g")), 0), IS(wt_stat(t, PATH("/d/g"), &s), 0);
    HOLDS(s.number == 3 && s.mode == 07700 && s.links == 2 && s.size == 3 && s.is_directory == 0);
    IS(wt_rename(t, PATH("/d/g"), PATH("/d/f")), 0), IS(wt_unlink(t, PATH("/d/g")), 0);
    IS(wt_rename(t, PATH("/d/f"), PATH("/d/a name")), 0), IS(wt_stat(t, PATH("/d"), &s), 0);
    HOLDS(s.number == 2 && s.is_directory == 1);
    /* A short buffer: the names are truncated, and the length of all is returned. */
    memset(out, '-', sizeof out);
    IS(wt_create(t, PATH("/d/b"), 0644), 4), IS(wt_list(t, PATH("/d"), out, 4), 9);
    HOLDS(!memcmp(out, "a na----", 8));
    char names[9];
    IS(wt_list(t, PATH("/d"), names, sizeof names), 9);
    HOLDS(!memcmp(names, "a name\0b", 9));
    IS(wt_rename2(t, PATH("/d/b"), PATH("/d/c"), 1), 0), IS(wt_rename2(t, PATH("/d/c"), PATH("/d/a name"), 2), 0);
    IS(wt_stat(t, PATH("/d/c"), &s), 0), HOLDS(s.number == 3), IS(wt_stat(t, PATH("/d/a name"), &s), 0);
    HOLDS(s.number == 4);
    IS(wt_rename2(t, PATH("/d/a name"), PATH("/d/b"), 0), 0), IS(wt_rename2(t, PATH("/d/c"), PATH("/d/a name"), 0), 0);
    IS(wt_unlink(t, PATH("/d/b")), 0), IS(wt_list(t, PATH("/d"), NULL, 0), 7);
}

static void refused_files(struct wt_tree *t) {
    struct wt_stat s;
    char out[8], name[258] = "/", deep[4200];
    memset(name + 1, 'n', 256), memset(deep, '/', sizeof deep - 1), deep[sizeof deep - 1] = 0;
    for (size_t i = 1; i < sizeof deep - 1; i += 2) deep[i] = 'p';
    IS(wt_mkdir(t, PATH("d"), 0755), -EINVAL), IS(wt_mkdir(t, PATH(""), 0755), -ENOENT);
    IS(wt_mkdir(t, PATH(name), 0755), -ENAMETOOLONG), IS(wt_mkdir(t, PATH(deep), 0755), -ENAMETOOLONG);
    IS(wt_mkdir(t, PATH("/d"), 010000), -EINVAL), IS(wt_mkdir(t, PATH("/d"), 0755), -EEXIST);
    IS(wt_mkdir(t, PATH("/no/d"), 0755), -ENOENT), IS(wt_create(t, PATH("/d/a name/f"), 0644), -ENOTDIR);
    IS(wt_create(t, PATH("/d"), 0644), -EEXIST), IS(wt_create(t, PATH("/x"), 1u << 31), -EINVAL);
    IS(wt_write(t, PATH("/d"), 0, "x", 1), -EISDIR), IS(wt_write(t, PATH("/no"), 0, "x", 1), -ENOENT);
    IS(wt_write(t, PATH("/d/a name"), 1 << 24, "x", 1), -EFBIG);
    IS(wt_write(t, PATH("/d/a name"), UINT64_MAX, "", 0), 0);
    IS(wt_pread(t, PATH("/d"), 0, out, 1), -EISDIR), IS(wt_pread(t, PATH("/no"), 0, out, 1), -ENOENT);
    IS(wt_truncate(t, PATH("/d"), 0), -EISDIR), IS(wt_truncate(t, PATH("/d/a name"), (1 << 24) + 1), -EFBIG);
    IS(wt_truncate(t, PATH("/no"), 0), -ENOENT), IS(wt_chmod(t, PATH("/no"), 0), -ENOENT);
    IS(wt_chmod(t, PATH("/d"), 010000), -EINVAL), IS(wt_link(t, PATH("/d"), PATH("/e")), -EPERM);
    IS(wt_link(t, PATH("/no"), PATH("/e")), -ENOENT), IS(wt_link(t, PATH("/d/a name"), PATH("/d")), -EEXIST);
    IS(wt_link(t, PATH("no"), PATH("")), -EINVAL), IS(wt_unlink(t, PATH("/d")), -EPERM);
    IS(wt_unlink(t, PATH("/no")), -ENOENT);
    IS(wt_rmdir(t, PATH("/")), -EBUSY), IS(wt_rmdir(t, PATH("/d")), -ENOTEMPTY), IS(wt_rmdir(t, PATH("/no")), -ENOENT);
    IS(wt_rmdir(t, PATH("/d/a name")), -ENOTDIR), IS(wt_mkdir(t, PATH("/e"), 0755), 5);
    IS(wt_rename(t, PATH("/"), PATH("/x")), -EBUSY), IS(wt_rename(t, PATH("/no"), PATH("/x")), -ENOENT);
    IS(wt_rename(t, PATH("/d"), PATH("/d/x")), -EINVAL), IS(wt_rename(t, PATH("/d"), PATH("/d/a name")), -EINVAL);
    IS(wt_rename(t, PATH("/e"), PATH("/d/a name")), -ENOTDIR), IS(wt_rename(t, PATH("/d/a name"), PATH("/e")), -EISDIR);
    IS(wt_rename2(t, PATH("/e"), PATH("/d"), 1), -EEXIST), IS(wt_rename2(t, PATH("/e"), PATH("/x"), 2), -ENOENT);
    IS(wt_rename2(t, PATH("/e"), PATH("/x"), 3), -EINVAL), IS(wt_rename2(t, PATH("/e"), PATH("/"), 2), -EBUSY);
    IS(wt_rename2(t, PATH("/d"), PATH("/d/a name"), 2), -EINVAL), IS(wt_rename2(t, PATH("e"), PATH(""), 4), -EINVAL);
    IS(wt_rename(t, PATH("/e"), PATH("/d")), -ENOTEMPTY), IS(wt_stat(t, PATH("/no"), &s), -ENOENT);
    IS(wt_list(t, PATH("/d/a name"), out, sizeof out), -ENOTDIR), IS(wt_list(t, PATH("/no"), out, sizeof out), -ENOENT);
    IS(wt_rmdir(t, PATH("/e")), 0);
}

static void instances(struct wt_tree *t) {
    _Alignas(struct inotify_event) char out[64];
    struct inotify_event *event = (struct inotify_event *)out;
    IS(wt_inotify_init(t, 0), -EINVAL), IS(wt_inotify_init(t, 65536), -EINVAL), IS(wt_inotify_init(t, 2), 1);
    IS(wt_read(t, 1, out, sizeof out), -EAGAIN), IS(wt_read(t, 2, out, sizeof out), -EBADF);
    IS(wt_inotify_add_watch(t, 2, PATH("/"), IN_CREATE), -EBADF), IS(wt_inotify_add_watch(t, 1, PATH("/"), 0), -EINVAL);
    IS(wt_inotify_add_watch(t, 1, PATH("/no"), IN_CREATE), -ENOENT);
    IS(wt_inotify_add_watch(t, 1, PATH("/d/a name"), IN_CREATE | IN_ONLYDIR), -ENOTDIR);
    IS(wt_inotify_add_watch(t, 1, PATH("/"), IN_ALL_EVENTS), 1);
    IS(wt_inotify_add_watch(t, 1, PATH("/"), IN_CREATE | IN_MASK_CREATE), -EEXIST);
    IS(wt_inotify_add_watch(t, 1, PATH("/"), IN_CREATE | IN_MASK_CREATE | IN_MASK_ADD), -EINVAL);
    IS(wt_mkdir(t, PATH("/e"), 0755), 6), IS(wt_rename(t, PATH("/e"), PATH("/g")), 0), IS(wt_waiting(t, 1), 3);
    /* A short buffer loses nothing. */
    for (size_t room = 0; room < 32; room++) IS(wt_read(t, 1, out, room), -EINVAL);
    IS(wt_waiting(t, 1), 3), IS(wt_read(t, 1, out, 47), 32);
    HOLDS(event->wd == 1 && event->mask == (IN_CREATE | IN_ISDIR) && event->cookie == 0 && !strcmp(event->name, "e"));
    IS(wt_read(t, 1, out, sizeof out), 48);
    HOLDS(event->mask == (IN_MOVED_FROM | IN_ISDIR) && event->cookie == 7 && event->len == 16);
    event = (struct inotify_event *)(out + 32);
    HOLDS(event->wd == -1 && event->mask == IN_Q_OVERFLOW && event->len == 0);
    IS(wt_inotify_rm_watch(t, 1, 2), -EINVAL), IS(wt_inotify_rm_watch(t, 2, 1), -EBADF);
    IS(wt_inotify_rm_watch(t, 1, 1), 0), IS(wt_waiting(t, 1), 1), IS(wt_waiting(t, 2), -EBADF);
    IS(wt_inotify_close(t, 2), -EBADF), IS(wt_inotify_close(t, 1), 0);
    for (int i = 0; i < 128; i++) IS(wt_inotify_init(t, 1), i + 2);
    IS(wt_inotify_init(t, 1), -EMFILE);
    for (uint32_t i = 2; i < 130; i++) IS(wt_inotify_close(t, i), 0);
}

/* Functions that are not calls of the tree: they return what the call would, leave no entry in the journal, and raise no
 * event. */
static void peeks(struct wt_tree *t) {
    struct wt_stat s, told;
    char out[8], told_out[8];
    uint32_t ready[3] = { 9, 9, 9 };
    IS(wt_inotify_init(t, WT_QUEUE), 130), IS(wt_inotify_init(t, WT_QUEUE), 131), IS(wt_inotify_init(t, WT_QUEUE), 132);
    IS(wt_ready(t, ready, 3), 0), IS(wt_bytes_waiting(t, 131), 0), IS(wt_bytes_waiting(t, 133), -EBADF);
    HOLDS(ready[0] == 9 && ready[2] == 9);
    IS(wt_inotify_add_watch(t, 130, PATH("/d"), IN_ALL_EVENTS), 1);
    IS(wt_inotify_add_watch(t, 132, PATH("/d/a name"), IN_ALL_EVENTS), 1);
    IS(wt_write(t, PATH("/d/a name"), 0, "hello", 5), 5);
    IS(wt_bytes_waiting(t, 130), 96), IS(wt_bytes_waiting(t, 132), 48), IS(wt_waiting(t, 130), 3);
    IS(wt_ready(t, NULL, 0), 2), IS(wt_ready(t, ready, 1), 2), HOLDS(ready[0] == 130 && ready[1] == 9);
    IS(wt_ready(t, ready, 3), 2), HOLDS(ready[0] == 130 && ready[1] == 132 && ready[2] == 9);
    int64_t place = wt_cut(t);
    IS(wt_peek_stat(t, PATH("/d/a name"), &s), 0), IS(wt_peek_stat(t, PATH("/no"), &s), -ENOENT);
    IS(wt_peek_stat(t, PATH("d"), &s), -EINVAL);
    HOLDS(s.size == 5 && s.is_directory == 0);
    memset(out, '-', sizeof out), memset(told_out, '-', sizeof told_out);
    IS(wt_peek_pread(t, PATH("/d/a name"), 1, out, 3), 3), HOLDS(!memcmp(out, "ell-", 4));
    IS(wt_peek_pread(t, PATH("/d/a name"), 3, out, sizeof out), 2), HOLDS(!memcmp(out, "lol-", 4));
    IS(wt_peek_pread(t, PATH("/d/a name"), 5, out, sizeof out), 0), IS(wt_peek_pread(t, PATH("/d"), 0, out, 1), -EISDIR);
    IS(wt_peek_list(t, PATH("/d"), out, 4), 7), HOLDS(!memcmp(out, "a na-", 5));
    IS(wt_peek_list(t, PATH("/d/a name"), out, sizeof out), -ENOTDIR), IS(wt_peek_list(t, PATH("/no"), out, 1), -ENOENT);
    IS(wt_path_of(t, s.number, out, 4), 9), HOLDS(!memcmp(out, "/d/aa-lo", 4)), IS(wt_path_of(t, 1, out, sizeof out), 1);
    HOLDS(!memcmp(out, "/d/a", 4)), IS(wt_path_of(t, 99999, out, sizeof out), -ENOENT), IS(wt_path_of(t, 0, out, 8), -ENOENT);
    IS(wt_path_of(t, UINT64_MAX, NULL, 0), -ENOENT), IS(wt_path_of(t, (1ull << 32) + 1, NULL, 0), -ENOENT);
    IS(wt_bytes_waiting(t, 130), 96), IS(wt_bytes_waiting(t, 132), 48), IS(wt_cut(t), place);
    IS(wt_stat(t, PATH("/d/a name"), &told), 0), IS(wt_cut(t), place + 1);
    /* (behind the last field there are four bytes of padding) */
    HOLDS(!memcmp(&s, &told, offsetof(struct wt_stat, is_directory) + sizeof s.is_directory));
    IS(wt_list(t, PATH("/d"), told_out, 4), 7), HOLDS(!memcmp(told_out, "a na-", 5)), IS(wt_waiting(t, 130), 3);
    for (uint32_t i = 130; i < 133; i++) IS(wt_inotify_close(t, i), 0);
}

/* Looks whether two trees answer alike: numbers, cookies, overflow. */
static void alike(struct wt_tree *t, struct wt_tree *u) {
    char out[2][256];
    HOLDS(wt_create(t, PATH("/d/g"), 0644) == wt_create(u, PATH("/d/g"), 0644));
    IS(wt_rename(t, PATH("/d/f"), PATH("/d/h")), 0), IS(wt_rename(u, PATH("/d/f"), PATH("/d/h")), 0);
    IS(wt_read(t, 1, out[0], 256), 48), IS(wt_read(u, 1, out[1], 256), 48), HOLDS(!memcmp(out[0], out[1], 48));
    HOLDS(wt_last_place(t) == wt_last_place(u) && wt_inotify_init(t, 1) == wt_inotify_init(u, 1));
}

/* A fork answers as its tree, and neither sees what the other does. */
static void forks(void) {
    struct wt_tree t = WT_TREE_INIT, fork = WT_TREE_INIT, last = WT_TREE_INIT;
    struct wt_stat s;
    char out[8];
    IS(wt_open(&t), 0), IS(wt_mkdir(&t, PATH("/d"), 0755), 2), IS(wt_inotify_init(&t, 1), 1);
    IS(wt_inotify_add_watch(&t, 1, PATH("/d"), IN_CREATE | IN_MOVE), 1), IS(wt_create(&t, PATH("/d/f"), 0644), 3);
    IS(wt_fork(&t, &fork), 0), IS(wt_fork(&t, &fork), -EBUSY), IS(wt_fork(&fork, &last), 0);
    IS(wt_last_place(&fork), 4), IS(wt_first_place(&fork), 5), IS(wt_first_place(&t), 1), IS(wt_waiting(&fork, 1), 1);
    IS(wt_entry(&fork, 4, out, sizeof out), -ENOENT), IS(wt_entry(&fork, 5, out, sizeof out), -ENOENT);
    alike(&t, &fork);
    IS(wt_unlink(&fork, PATH("/d/g")), 0), IS(wt_peek_stat(&t, PATH("/d/g"), &s), 0), IS(wt_inotify_close(&t, 1), 0);
    IS(wt_waiting(&fork, 1), 0), IS(wt_last_place(&last), 4);
    wt_close(&t);
    IS(wt_mkdir(&fork, PATH("/e"), 0755), 5), IS(wt_open(&t), 0), wt_close(&fork);
    IS(wt_fork(&last, &fork), 0);
    alike(&last, &fork);
    wt_close(&last), wt_close(&fork), wt_close(&t);
}

static void is_entry(struct wt_tree *t, uint64_t place, const char *wanted) {
    char out[128] = "";
    int64_t count = wt_entry(t, place, out, sizeof out - 1);
    if (strcmp(out, wanted)) printf("entry %" PRIu64 " is %s, expected %s\n", place, out, wanted);
    IS(count, (int64_t)strlen(wanted)), HOLDS(!strcmp(out, wanted));
}

/* The entries of the journal, and where it begins and ends. */
static void entries(void) {
    struct wt_tree t = WT_TREE_INIT;
    char out[8] = "-------";
    IS(wt_open(&t), 0), IS(wt_first_place(&t), 1), IS(wt_last_place(&t), 0), IS(wt_entry(&t, 0, out, 8), -ENOENT);
    IS(wt_entry(&t, 1, out, 8), -ENOENT), IS(wt_entry(&t, UINT64_MAX, NULL, 0), -ENOENT);
    IS(wt_mkdir(&t, PATH("/d"), 0755), 2), IS(wt_mkdir(&t, PATH("/d"), 0755), -EEXIST), IS(wt_inotify_init(&t, 9), 1);
    IS(wt_inotify_add_watch(&t, 1, PATH("/d"), IN_CREATE), 1), IS(wt_create(&t, PATH("/d/a b"), 0644), 3);
    IS(wt_line(&t, 7, PATH("hex 1 4096"), NULL, 0), 73), IS(wt_line(&t, 7, PATH("init"), NULL, 0), 5);
    is_entry(&t, 1, "mkdir /d 755\n# ok 2\n"), is_entry(&t, 2, "mkdir /d 755\n# err EEXIST 17\n");
    is_entry(&t, 3, "init 9\n# ok 1\n"), is_entry(&t, 5, "create /d/a%20b 644\n# ok 3\n");
    is_entry(&t, 7, "init 7\n# ok 2\n");
    IS(wt_entry(&t, 1, out, 3), 20), HOLDS(!memcmp(out, "mkd----", 7)), IS(wt_entry(&t, 8, out, 8), -ENOENT);
    IS(wt_first_place(&t), 1), IS(wt_last_place(&t), 7), IS(wt_cut(&t), 7), IS(wt_first_place(&t), 8);
    IS(wt_last_place(&t), 7), IS(wt_entry(&t, 7, out, 8), -ENOENT), IS(wt_chmod(&t, PATH("/d"), 0700), 0);
    IS(wt_last_place(&t), 8), is_entry(&t, 8, "chmod /d 700\n# ok\n");
    IS(wt_chmod(&t, PATH("/d"), 01000000), -EINVAL), IS(wt_chmod(&t, PATH("/d"), 0777777), -EINVAL);
    is_entry(&t, 9, "# chmod /d 1000000 (no line of a script makes this call)\n# err EINVAL 22\n");
    is_entry(&t, 10, "chmod /d 777777\n# err EINVAL 22\n");
    wt_close(&t);
}

/* The version, and each number that has a text: those of errno(3) have the words of strerror(3). */
static void texts(void) {
    char out[80] = "", file[16] = "", wanted[80];
    FILE *home = fopen("../VERSION", "r");
    HOLDS(home && fgets(file, sizeof file, home));
    if (home) fclose(home);
    int64_t len = wt_version(out, 3), found = 0;
    HOLDS(len + 1 == (int64_t)strlen(file) && !strncmp(out, file, 3) && out[3] == 0);
    IS(wt_version(out, sizeof out), len), HOLDS(!memcmp(out, file, (size_t)len));
    for (int number = -1200; number <= 1200; number++) {
        memset(out, 0, sizeof out);
        len = wt_error_text(number, out, sizeof out - 1);
        if (len == -EINVAL) continue;
        char *words = strstr(out, ": ");
        HOLDS(number < 0 && (size_t)len == strlen(out) && words), found++;
        if (number > -1000 && words) HOLDS(!strcmp(words + 2, strerror(-number)));
    }
    IS(found, 31), IS(wt_error_text(INT64_MIN, out, 1), -EINVAL), IS(wt_error_text(-ENOENT, wanted, 6), 33);
    HOLDS(!memcmp(wanted, "ENOENT", 6)), IS(wt_error_text(-WT_BAD_MASK, NULL, 0), 55);
}

static void lines(struct wt_tree *t) {
    char out[16] = "----------";
    IS(wt_text(t, out, sizeof out), 0), IS(wt_line(t, 9, PATH("chmod /d 700"), out, sizeof out), 3);
    HOLDS(!memcmp(out, "ok\n-", 4));
    IS(wt_line(t, 9, PATH("stat /d"), out, 4), 16), IS(wt_text(t, out, sizeof out), 16);
    HOLDS(!memcmp(out, "ok 2 d 0700 1 0\n", 16));
    IS(wt_line(t, 9, PATH("# nothing"), out, sizeof out), 0), IS(wt_text(t, out, sizeof out), 0);
    IS(wt_line(t, 9, PATH("rmdir /no"), out, sizeof out), 13), HOLDS(!memcmp(out, "err ENOENT 2\n", 13));
    IS(wt_line(t, 9, PATH("mkdir \xff 755"), out, sizeof out), -WT_BAD_BYTE), IS(wt_text(t, out, sizeof out), 0);
    IS(wt_line(t, 9, PATH("make /d"), out, sizeof out), -WT_UNKNOWN_COMMAND);
    IS(wt_line(t, 9, PATH("mkdir /x"), out, sizeof out), -WT_WRONG_NUMBER);
    IS(wt_line(t, 9, PATH("mkdir /%q 755"), out, sizeof out), -WT_BAD_ESCAPE);
    IS(wt_line(t, 9, PATH("mkdir /x 9"), out, sizeof out), -WT_BAD_MODE);
    IS(wt_line(t, 9, PATH("write /x 0 1"), out, sizeof out), -WT_BAD_HEX);
    IS(wt_line(t, 9, PATH("watch 1 / many"), out, sizeof out), -WT_BAD_MASK);
    IS(wt_line(t, 9, PATH("close one"), out, sizeof out), -WT_BAD_NUMBER);
    HOLDS(!memcmp(out, "err ENOENT 2\n", 13));
}

/* The limits of a tree: links, watches, calls between cuts, and numbers of files. */
static void limits(struct wt_tree *t) {
    char path[32];
    int64_t number = 0, cuts = 0, place = 0, first = wt_cut(t);
    IS(wt_mkdir(t, PATH("/l"), 0755), 7), IS(wt_create(t, PATH("/l/f"), 0644), 8), IS(wt_inotify_init(t, 1), 133);
    for (int i = 1; i < 65000; i++) {
        snprintf(path, sizeof path, "/l/%d", i);
        IS(wt_link(t, PATH("/l/f"), PATH(path)), 0);
    }
    IS(wt_link(t, PATH("/l/f"), PATH("/l/more")), -EMLINK);
    for (int i = 0; i < 8193; i++) {
        snprintf(path, sizeof path, "/w%d", i);
        IS(wt_create(t, PATH(path), 0644), i + 9);
        IS(wt_inotify_add_watch(t, 133, PATH(path), IN_MODIFY), i < 8192 ? i + 1 : -ENOSPC);
    }
    for (;;) {
        number = wt_create(t, PATH("/f"), 0644);
        if (number > 0) number = wt_unlink(t, PATH("/f"));
        if (number == -WT_JOURNAL_FULL) {
            IS(wt_chmod(t, PATH("/d"), 0755), -WT_JOURNAL_FULL);
            place = wt_cut(t), cuts++;
            IS(place, first + 1000000 * cuts);
            if (wt_unlink(t, PATH("/f")) != 0) continue;
        } else if (number < 0) break;
    }
    IS(number, -WT_NUMBERS_SPENT), IS(cuts, 2), IS(wt_mkdir(t, PATH("/f"), 0755), -WT_NUMBERS_SPENT);
}

int main(void) {
    struct wt_tree t = WT_TREE_INIT;
    closed_trees();
    IS(wt_open(&t), 0);
    files(&t);
    refused_files(&t);
    instances(&t);
    peeks(&t);
    forks();
    entries();
    texts();
    lines(&t);
    limits(&t);
    wt_close(&t);
    IS(wt_open(&t), 0), IS(wt_mkdir(&t, PATH("/d"), 0755), 2);
    wt_close(&t);
    puts("each call and refusal as declared");
    return 0;
}
