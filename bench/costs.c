/* Single calls, each measured alone: costs NAME runs one, with callgrind collecting during the measured calls only, and
 * prints how many there were and how many bytes of memory they left allocated. */
#include "watchtree.h"
#include <malloc.h>
#include <stdio.h>
#include <stdlib.h>
#include <string.h>
#include <valgrind/callgrind.h>

enum { MOST = 128, FOLDERS = 1000, FORKS = 400, ROUNDS = 200 };
enum { ALL = 0xfff, MODIFY = 0x2, DELETE_SELF = 0x400, ONESHOT = 0x80000000u };

static char out[1 << 16];
static char path[8192], other[8192];
static struct wt_tree tree, forks[FORKS];
static long long calls;
static size_t before, kept;
static uint32_t queue = WT_QUEUE;

/* What is measured: a function, and what it is given. Each function uses the fields that it names. */
struct shape {
    const char *name;
    void (*run)(const struct shape *);
    int count, name_len, folders, files, watchers;
    int watched;           /* directories that one instance watches; -1: there is no instance */
    int drops;             /* whether each fork is dropped at once */
    int queue;             /* records that a queue holds; 0: WT_QUEUE */
    int beside_others;     /* whether 600 files in 40 folders are there too */
    const char *path;
};

/* A call that must succeed. */
static int64_t must(int64_t number) {
    if (number >= 0) return number;
    fprintf(stderr, "costs: a call was answered %lld\n", (long long)number);
    exit(1);
}

static size_t in_use(void) {
    struct mallinfo2 all = mallinfo2();
    return all.uordblks + all.hblkhd;
}

static void begin(void) { before = in_use(); CALLGRIND_TOGGLE_COLLECT; }

static void end(long long measured) {
    CALLGRIND_TOGGLE_COLLECT;
    calls += measured;
    kept += in_use() - before;
}

#define PATH(s) s, strlen(s)

static void mkdir_at(const char *p) { must(wt_mkdir(&tree, PATH(p), 0755)); }
static void create_at(const char *p) { must(wt_create(&tree, PATH(p), 0644)); }
static int64_t watch(uint32_t id, const char *p, uint32_t mask) { return must(wt_inotify_add_watch(&tree, id, PATH(p), mask)); }

/* Makes instances, and returns the number of the first. */
static uint32_t instances(int count) {
    uint32_t first = 0;
    for (int i = 0; i < count; i++) {
        uint32_t id = (uint32_t)must(wt_inotify_init(&tree, queue));
        if (!first) first = id;
    }
    return first;
}

static void read_all(uint32_t first, int count) {
    for (int i = 0; i < count; i++)
        while (must(wt_waiting(&tree, first + i)) > 0) must(wt_read(&tree, first + i, out, sizeof out));
}

static char *folder(int i) { sprintf(path, "/src/folder%d", i); return path; }

/* A tree of `count` directories, each watched by `watchers` instances. */
static uint32_t watched_folders(int count, int watchers) {
    uint32_t first = instances(watchers ? watchers : 1);
    mkdir_at("/src");
    for (int i = 0; i < count; i++) mkdir_at(folder(i));
    for (int w = 0; w < watchers; w++)
        for (int i = 0; i < count; i++) watch(first + w, folder(i), ALL);
    return first;
}

/* A rename over a watched file whose directory `count` instances watch; names have `name_len` bytes. */
static void save_over(const struct shape *s) {
    uint32_t first = instances(s->count);
    mkdir_at("/d");
    for (int i = 0; i < s->count; i++) watch(first + i, "/d", ALL);
    memset(path, 't', 256), memset(other, 'f', 256);
    memcpy(path, "/d/", 3), memcpy(other, "/d/", 3);
    path[3 + s->name_len] = other[3 + s->name_len] = 0;
    create_at(other);
    for (int round = 0; round < 40; round++) {
        create_at(path);
        watch(first, other, ALL);
        read_all(first, s->count);
        begin();
        must(wt_rename(&tree, PATH(path), PATH(other)));
        end(1);
    }
}

/* The last unlink of a watched file. */
static void unlink_watched(const struct shape *s) {
    uint32_t first = instances(s->count);
    mkdir_at("/d");
    for (int i = 0; i < s->count; i++) watch(first + i, "/d", ALL);
    for (int round = 0; round < 40; round++) {
        create_at("/d/file");
        watch(first, "/d/file", ALL);
        read_all(first, s->count);
        begin();
        must(wt_unlink(&tree, PATH("/d/file")));
        end(1);
    }
}

/* A write that uses up a watch of each instance. */
static void oneshot(const struct shape *s) {
    uint32_t first = instances(s->count);
    mkdir_at("/d"), create_at("/d/file");
    for (int round = 0; round < 40; round++) {
        for (int i = 0; i < s->count; i++) watch(first + i, "/d/file", MODIFY | ONESHOT);
        begin();
        must(wt_write(&tree, PATH("/d/file"), 0, "ab", 2));
        end(1);
        read_all(first, s->count);
    }
}

/* Forks of a small tree that are kept, or each dropped again. */
static void small_forks(const struct shape *s) {
    mkdir_at("/d");
    for (int i = 0; i < s->files; i++) sprintf(path, "/d/file%d", i), create_at(path);
    if (s->watched >= 0) {
        uint32_t first = instances(1);
        for (int i = 0; i < s->watched; i++) sprintf(path, "/d/folder%d", i), mkdir_at(path), watch(first, path, ALL);
    }
    begin();
    for (int i = 0; i < FORKS; i++) {
        must(wt_fork(&tree, &forks[i]));
        if (s->drops) wt_close(&forks[i]);
    }
    end(FORKS);
}

static void open_close(const struct shape *s) {
    (void)s;
    begin();
    for (int i = 0; i < FORKS; i++) must(wt_open(&forks[i])), wt_close(&forks[i]);
    end(FORKS);
}

static void new_trees(const struct shape *s) {
    (void)s;
    begin();
    for (int i = 0; i < FORKS; i++) must(wt_open(&forks[i]));
    end(FORKS);
}

/* `files` files in each of `folders` folders of a tree. */
static void fill(struct wt_tree *in, int folders, int files) {
    must(wt_mkdir(in, PATH("/other"), 0755));
    for (int i = 0; i < folders; i++) {
        sprintf(path, "/other/folder%d", i);
        must(wt_mkdir(in, PATH(path), 0755));
        for (int k = 0; k < files; k++) sprintf(path, "/other/folder%d/file%d", i, k), must(wt_create(in, PATH(path), 0644));
    }
}

/* Trees that grow to `folders` folders with `files` files each. */
static void grow(const struct shape *s) {
    begin();
    for (int i = 0; i < 20; i++) must(wt_open(&forks[i])), fill(&forks[i], s->folders, s->files);
    end(20);
}

/* Forks of such a tree that are kept, with one more file in each. */
static void fork_and_create(const struct shape *s) {
    fill(&tree, s->folders, s->files);
    begin();
    for (int i = 0; i < 20; i++) {
        must(wt_fork(&tree, &forks[i]));
        must(wt_create(&forks[i], PATH("/other/folder0/more"), 0644));
    }
    end(20);
}

static void fork_folders(const struct shape *s) {
    watched_folders(FOLDERS, s->watchers);
    begin();
    for (int i = 0; i < 10; i++) must(wt_fork(&tree, &forks[i]));
    end(10);
}

/* Watches of a thousand directories by one instance after another. */
static void add_watches(const struct shape *s) {
    watched_folders(FOLDERS, 0);
    uint32_t first = instances(s->watchers);
    begin();
    for (int w = 0; w < s->watchers; w++)
        for (int i = 0; i < FOLDERS; i++) watch(first + w, folder(i), ALL);
    end((long long)s->watchers * FOLDERS);
}

static void watch_anew(const struct shape *s) {
    uint32_t first = watched_folders(FOLDERS, s->watchers);
    begin();
    for (int w = 0; w < s->watchers; w++)
        for (int i = 0; i < FOLDERS; i++) watch(first + w, folder(i), MODIFY);
    end((long long)s->watchers * FOLDERS);
}

static void unwatch(const struct shape *s) {
    uint32_t first = watched_folders(FOLDERS, s->watchers);
    begin();
    for (int w = 0; w < s->watchers; w++)
        for (int32_t wd = 1; wd <= FOLDERS; wd++) must(wt_inotify_rm_watch(&tree, first + w, wd));
    end((long long)s->watchers * FOLDERS);
}

static void rmdir_watched(const struct shape *s) {
    (void)s;
    watched_folders(FOLDERS, 1);
    begin();
    for (int i = 0; i < FOLDERS; i++) must(wt_rmdir(&tree, PATH(folder(i))));
    end(FOLDERS);
}

static void close_instance(const struct shape *s) {
    uint32_t first = watched_folders(FOLDERS, s->watchers);
    begin();
    for (int w = 0; w < s->watchers; w++) must(wt_inotify_close(&tree, first + w));
    end(s->watchers);
}

static void close_tree(const struct shape *s) {
    watched_folders(s->count, 1);
    begin();
    wt_close(&tree);
    end(1);
}

/* A look for what is missing, in the root and below nothing. */
static void missing(const struct shape *s) {
    struct wt_stat stat;
    mkdir_at("/d");
    begin();
    for (int i = 0; i < ROUNDS; i++)
        if (wt_stat(&tree, PATH(s->path), &stat) != -2) exit(1);
    end(ROUNDS);
}

static void exchange(const struct shape *s) {
    (void)s;
    mkdir_at("/a0"), mkdir_at("/a1"), create_at("/a0/f"), create_at("/a1/f");
    begin();
    for (int i = 0; i < ROUNDS; i++) must(wt_rename(&tree, PATH("/a0"), PATH("/b"))), must(wt_rename(&tree, PATH("/b"), PATH("/a0")));
    end(2 * ROUNDS);
}

/* Renames of a short file's path in a directory. */
static void rename_short(const struct shape *s) {
    (void)s;
    mkdir_at("/d"), create_at("/d/a");
    begin();
    for (int i = 0; i < ROUNDS; i++) must(wt_rename(&tree, PATH("/d/a"), PATH("/d/b"))), must(wt_rename(&tree, PATH("/d/b"), PATH("/d/a")));
    end(2 * ROUNDS);
}

/* Directories that are moved, each followed by a write below. */
static void move_and_save(const struct shape *s) {
    (void)s;
    mkdir_at("/src"), mkdir_at("/src/main"), mkdir_at("/src/main/java");
    create_at("/src/main/java/App.java");
    begin();
    for (int i = 0; i < ROUNDS; i++) {
        must(wt_rename(&tree, PATH("/src/main"), PATH("/src/test")));
        must(wt_write(&tree, PATH("/src/test/java/App.java"), 0, "ab", 2));
        must(wt_rename(&tree, PATH("/src/test"), PATH("/src/main")));
        must(wt_write(&tree, PATH("/src/main/java/App.java"), 0, "ab", 2));
    }
    end(4 * ROUNDS);
}

/* Writes of a file in each of `count` directories in turn. */
static void in_turn(const struct shape *s) {
    for (int i = 0; i < s->count; i++) {
        sprintf(path, s->path, i);
        for (char *slash = strchr(path + 1, '/'); slash; slash = strchr(slash + 1, '/')) {
            *slash = 0;
            wt_mkdir(&tree, PATH(path), 0755);
            *slash = '/';
        }
        create_at(path);
    }
    begin();
    for (int round = 0; round < 20; round++)
        for (int i = 0; i < s->count; i++) sprintf(path, s->path, i), must(wt_write(&tree, PATH(path), 0, "ab", 2));
    end(20LL * s->count);
}

static const char module[] = "/services/module-%d/src/main/resources/application.yaml";

static const struct shape shapes[] = {
    { "save_128", save_over, .count = MOST, .name_len = 1 },
    { "save_128_long", save_over, .count = MOST, .name_len = 60 },
    { "save_20", save_over, .count = 20, .name_len = 1 },
    { "save_3", save_over, .count = 3, .name_len = 1 },
    { "save_3_long", save_over, .count = 3, .name_len = 60 },
    { "save_1", save_over, .count = 1, .name_len = 8 },
    { "unlink_128", unlink_watched, .count = MOST },
    { "unlink_3", unlink_watched, .count = 3 },
    { "oneshot_128", oneshot, .count = MOST },
    { "oneshot_2", oneshot, .count = 2 },
    { "fork_10", small_forks, .files = 10, .watched = -1 },
    { "fork_10_dropped", small_forks, .files = 10, .watched = -1, .drops = 1 },
    { "fork_10_instance", small_forks, .files = 10, .watched = 0 },
    { "fork_10_watched", small_forks, .files = 0, .watched = 10 },
    { "fork_10_watched_dropped", small_forks, .files = 0, .watched = 10, .drops = 1 },
    { "open_close", .run = open_close },
    { "new_trees", .run = new_trees },
    { "tree_4_by_10", grow, .folders = 4, .files = 10 },
    { "tree_1_by_600", grow, .folders = 1, .files = 600 },
    { "tree_40_by_15", grow, .folders = 40, .files = 15 },
    { "fork_4_by_10_create", fork_and_create, .folders = 4, .files = 10 },
    { "fork_40_by_15_create", fork_and_create, .folders = 40, .files = 15 },
    { "fork_folders_1", fork_folders, .watchers = 1 },
    { "fork_folders_4", fork_folders, .watchers = 4 },
    { "fork_folders_8", fork_folders, .watchers = 8 },
    { "fork_folders_16", fork_folders, .watchers = 16 },
    { "fork_folders_1_short", fork_folders, .watchers = 1, .queue = 16 },
    { "fork_folders_2_short", fork_folders, .watchers = 2, .queue = 16 },
    { "fork_folders_4_short", fork_folders, .watchers = 4, .queue = 16 },
    { "fork_folders_5_short", fork_folders, .watchers = 5, .queue = 16 },
    { "fork_folders_9_short", fork_folders, .watchers = 9, .queue = 16 },
    { "fork_folders_17_short", fork_folders, .watchers = 17, .queue = 16 },
    { "watch_1", add_watches, .watchers = 1 },
    { "watch_2", add_watches, .watchers = 2 },
    { "watch_3", add_watches, .watchers = 3 },
    { "watch_4", add_watches, .watchers = 4 },
    { "watch_5", add_watches, .watchers = 5 },
    { "watch_8", add_watches, .watchers = 8 },
    { "watch_9", add_watches, .watchers = 9 },
    { "watch_16", add_watches, .watchers = 16 },
    { "watch_17", add_watches, .watchers = 17 },
    { "watch_anew_1", watch_anew, .watchers = 1 },
    { "watch_anew_4", watch_anew, .watchers = 4 },
    { "unwatch_1", unwatch, .watchers = 1 },
    { "unwatch_4", unwatch, .watchers = 4 },
    { "unwatch_8", unwatch, .watchers = 8 },
    { "unwatch_16", unwatch, .watchers = 16 },
    { "rmdir_watched", .run = rmdir_watched },
    { "close_instance_1", close_instance, .watchers = 1 },
    { "close_instance_4", close_instance, .watchers = 4 },
    { "close_instance_8", close_instance, .watchers = 8 },
    { "close_instance_16", close_instance, .watchers = 16 },
    { "close_tree_1000", close_tree, .count = 1000 },
    { "close_tree_8000", close_tree, .count = 8000 },
    { "missing_root", missing, .path = "/a" },
    { "missing_below_nothing", missing, .path = "/a/b" },
    { "missing_below_long_nothing", missing, .path = "/no-such-folder/file" },
    { "move_in_root", .run = exchange },
    { "rename_short", .run = rename_short },
    { "move_and_save", .run = move_and_save },
    { "short_folders", in_turn, .path = "/d%d/f", .count = 100 },
    { "modules", in_turn, .path = module, .count = 100 },
    { "two_modules", in_turn, .path = module, .count = 2 },
    { "missing_root_crowded", missing, .path = "/a", .beside_others = 1 },
    { "missing_below_nothing_crowded", missing, .path = "/a/b", .beside_others = 1 },
    { "missing_below_long_nothing_crowded", missing, .path = "/no-such-folder/file", .beside_others = 1 },
    { "move_in_root_crowded", exchange, .beside_others = 1 },
    { "rename_short_crowded", rename_short, .beside_others = 1 },
    { "move_and_save_crowded", move_and_save, .beside_others = 1 },
    { "modules_crowded", in_turn, .path = module, .count = 100, .beside_others = 1 },
    { "two_modules_crowded", in_turn, .path = module, .count = 2, .beside_others = 1 },
};

int main(int count, char **words) {
    for (size_t i = 0; i < sizeof shapes / sizeof *shapes; i++) {
        if (count < 2) puts(shapes[i].name);
        else if (!strcmp(words[1], shapes[i].name)) {
            must(wt_open(&tree));
            if (shapes[i].queue) queue = (uint32_t)shapes[i].queue;
            if (shapes[i].beside_others) fill(&tree, 40, 15);
            shapes[i].run(&shapes[i]);
            printf("%lld %lld\n", calls, (long long)kept / calls);
        }
    }
    return 0;
}
