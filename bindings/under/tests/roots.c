/* Paths of a program that changes its root, its working directory, its mounts or its user: roots MODE USER TREE
 * OUTSIDE. Both directories are filled here. A line for each path: what a watch and statfs(2) of it answer. USER is
 * `same`; `nobody`, after the roots are changed; or `mapped`: root in a user namespace of its own. */
#define _GNU_SOURCE
#include "checks.h"
#include <errno.h>
#include <fcntl.h>
#include <sched.h>
#include <signal.h>
#include <stdio.h>
#include <stdlib.h>
#include <string.h>
#include <sys/inotify.h>
#include <sys/mount.h>
#include <sys/prctl.h>
#include <sys/stat.h>
#include <sys/syscall.h>
#include <sys/vfs.h>
#include <sys/wait.h>
#include <unistd.h>

static const char *user, *tree, *outside;
static int instance;

/* ---- what a path is */

static void show_answer(const char *call, long result) { printf(" %s %s", call, result < 0 ? strerrorname_np(errno) : "ok"); }

static void ask_as(const char *label, const char *path) {
    struct statfs is;
    printf("%s:", label);
    show_answer("watch", inotify_add_watch(instance, path, IN_CREATE));
    show_answer("watch of a link", inotify_add_watch(instance, path, IN_CREATE | IN_DONT_FOLLOW));
    int result = statfs(path, &is);
    show_answer("statfs", result);
    printf(result ? "\n" : " %lx\n", (long)is.f_type);
}

static void ask(const char *path) { ask_as(path, path); }

/* The paths that lead out of a root, and some that do not. */
static void ask_all(void) {
    static const char *const paths[] = {
        ".", "..", "/", "/..", "/d", "/d/", "/d/.", "d", "../d", "../../d", "../../../../d", "/../d", "f", "/f", "d/f",
        "d/f/", "d/f/..", "../jail", "../jail/d", "/jail", "/only", "../only", "../only/f", "d/../../only",
        "/d/../../only", "/etc/passwd", "../etc/passwd", "../../etc/passwd", "../../../etc/passwd",
        "../../../../../etc/passwd", "/proc/self/cwd", "/proc/self/cwd/..", "/proc/self/root", "/proc/self/root/d",
        "/proc/self/root/../only", "/proc/self/../..", "/proc/1/root/etc/passwd", "/dev/fd/0", "/none", "none/..",
        "t/d", "t/../..", "abs", "abs/f", "up", "up/only", "own", "own/d", "here", "loop", "/etc",
    };
    for (size_t i = 0; i < sizeof paths / sizeof *paths; i++) ask(paths[i]);
}

/* ---- users */

static void put(const char *file, const char *text) {
    int fd = open(file, O_WRONLY);
    if (fd < 0 || write(fd, text, strlen(text)) < 0) fail(file);
    close(fd);
}

/* Before the roots are changed: the rights to change them. */
static void map_user(void) {
    char text[64];
    uid_t uid = geteuid();
    gid_t gid = getegid();
    if (strcmp(user, "mapped")) return;
    must(unshare(CLONE_NEWUSER | CLONE_NEWNS), "unshare");
    put("/proc/self/setgroups", "deny");
    snprintf(text, sizeof text, "0 %u 1", uid);
    put("/proc/self/uid_map", text);
    snprintf(text, sizeof text, "0 %u 1", gid);
    put("/proc/self/gid_map", text);
}

static void leave_user(void) {
    enum { NOBODY = 65534 };
    if (strcmp(user, "nobody")) return;
    must((int)syscall(SYS_setgroups, 0, NULL), "setgroups");
    must(setgid(NOBODY), "setgid");
    must(setuid(NOBODY), "setuid");
}

static void unshare_mounts(void) {
    must(unshare(CLONE_NEWNS), "unshare");
    must(mount(NULL, "/", NULL, MS_REC | MS_PRIVATE, NULL), "private");
}

/* ---- modes */

static void as_it_is(void) { leave_user(); }

static void with_root(void) {
    must(chdir("jail"), "jail");
    must(chroot("."), "chroot");
    leave_user();
}

/* The working directory is not below the root, so .. leads up to the real one. */
static void outside_root(void) {
    must(chdir("d"), "d");
    must(chroot("../jail"), "chroot");
    leave_user();
}

/* The working directory is below the root. */
static void deep_in_root(void) {
    with_root();
    must(chdir("d"), "d");
}

/* A root that has the tree, /proc, and links that begin at a root. */
static void root_with_links(void) {
    unshare_mounts();
    must(chdir(outside), outside);
    must(mount(tree, "jail/t", NULL, MS_BIND, NULL), "bind");
    must(mount("/proc", "jail/proc", NULL, MS_BIND | MS_REC, NULL), "proc");
    must(chdir("jail"), "jail");
    must(chroot("."), "chroot");
    leave_user();
}

/* A /proc of its own, of the same processes. */
static void root_with_proc(void) {
    unshare_mounts();
    must(chdir(outside), outside);
    must(mount("proc", "jail/proc", "proc", 0, NULL), "proc");
    must(chroot("jail"), "chroot");
    must(chdir("/"), "/");
    leave_user();
}

static void with_pivot(void) {
    unshare_mounts();
    must(mount("jail", "jail", NULL, MS_BIND | MS_REC, NULL), "bind");
    must(chdir("jail"), "jail");
    must((int)syscall(SYS_pivot_root, ".", "."), "pivot_root");
    must(umount2(".", MNT_DETACH), "umount");
    leave_user();
}

/* Files that are elsewhere, or others, in a namespace of mounts. */
static void with_mounts(void) {
    unshare_mounts();
    must(mount("other", "d", "tmpfs", 0, "mode=755"), "tmpfs");
    must(mkdir("d/f", 0755), "d/f");
    must(chdir(outside), outside);
    must(mount(tree, "jail/t", NULL, MS_BIND | MS_REC, NULL), "bind");
    must(chdir("jail"), "jail");
    leave_user();
}

/* A /proc in which the processes have other numbers. */
static void with_numbers(void) {
    unshare_mounts();
    must(unshare(CLONE_NEWPID), "unshare");
    pid_t child = fork();
    must(child, "fork");
    if (child) {
        must(waitpid(child, NULL, 0), "wait");
        exit(0);
    }
    must(mount("proc", "/proc", "proc", 0, NULL), "proc");
    leave_user();
    ask("/proc/1/cwd");
    ask("/proc/1/cwd/d");
    ask("/proc/self/cwd/d");
    ask("/proc/thread-self/cwd/d");
}

/* Something is mounted in the program's own directory of /proc: a directory that it may not search, and another
 * process. */
static void over_proc(void) {
    unshare_mounts();
    must(chdir(outside), outside);
    must(mount("secret", "/proc/self/task", NULL, MS_BIND, NULL), "bind");
    must(mount("/proc/1", "/proc/self/ns", NULL, MS_BIND, NULL), "bind");
    leave_user();
    ask("/proc/self/task");
    ask("/proc/self/task/there");
    ask("/proc/self/task/none");
    ask("/proc/self/task/link");
    ask("/proc/self/ns/status");
    ask("/proc/self/ns/cwd");
    ask("/proc/self/ns/root/etc/passwd");
    ask("/proc/self/cwd/jail");
}

/* A child whose working directory is `d`, which waits until its parent ends. */
static pid_t start_child(void) {
    char byte;
    int ready[2];
    must(pipe(ready), "pipe");
    pid_t child = fork();
    must(child, "fork");
    if (!child) {
        prctl(PR_SET_PDEATHSIG, SIGKILL);
        must(chdir("d"), "d");
        close(ready[1]);
        for (;;) pause();
    }
    close(ready[1]);
    if (read(ready[0], &byte, 1) != 0) fail("the child");
    return child;
}

/* A path that a form makes of a number. */
static void ask_of(const char *form, int number) {
    char path[300];
    snprintf(path, sizeof path, form, number);
    ask_as(form, path);
}

/* Links of /proc, each way to write them. */
static void in_proc(void) {
    pid_t child = start_child();
    leave_user();
    int at = must(open("d", O_RDONLY | O_DIRECTORY), "d"), file = must(open("d/f", O_RDONLY), "d/f");
    static const char *const forms[] = {
        "/proc/self/fd/%d", "//proc/self/fd/%d", "/proc//self/./fd/%d", "/proc/self/../self/fd/%d",
        "/proc/thread-self/fd/%d", "/dev/fd/%d", "/dev//fd/%d", "/proc/self/fd/%d/", "/proc/self/fd/%d/f",
        "/proc/self/fd/%d/..", "/proc/self/fd/%d/../only",
        "/proc/self/task/../fd/%d", "/proc/self/task/../../self/fd/%d", "../../../../../../proc/self/fd/%d",
        "/proc/self/fd/../fd/%d", "/proc/self/root/proc/self/fd/%d",
    };
    for (size_t i = 0; i < sizeof forms / sizeof *forms; i++)
        ask_of(forms[i], at), ask_of(forms[i], file), ask_of(forms[i], 777);
    static const char *const numbered[] = { "/proc/%d/cwd", "/proc/%d/cwd/d", "/proc/%d/root", "/proc/%d/cwd/../only/f",
                                            "/proc/self/task/%d", "/proc/self/task/%d/cwd/d", "/proc/%d/none" };
    for (size_t i = 0; i < sizeof numbered / sizeof *numbered; i++) ask_of(numbered[i], getpid()), ask_of(numbered[i], child);
    must(chdir("/proc"), "/proc");
    ask_of("self/fd/%d", at);
    must(chdir("self"), "self");
    if (strcmp(user, "nobody")) ask_of("fd/%d", at);
    must(chdir(outside), outside);
    must(chdir("jail"), "jail");
}

/* The links of a directory that everybody may write to, and one that nobody may search. */
static void in_shared(void) {
    must(chdir(outside), outside);
    must(chdir("shared"), "shared");
    leave_user();
    ask("of-root");
    ask("of-nobody");
    ask("of-root/f");
    ask("of-nobody/f");
    ask("../secret/there");
    ask("../secret/none");
    ask("to-secret");
}

static const struct { const char *name; void (*change)(void); } modes[] = {
    { "as-it-is", as_it_is }, { "root", with_root }, { "outside-root", outside_root }, { "deep-in-root", deep_in_root },
    { "root-with-links", root_with_links }, { "root-with-proc", root_with_proc }, { "pivot", with_pivot },
    { "mounts", with_mounts }, { "over-proc", over_proc }, { "numbers", with_numbers }, { "proc", in_proc },
    { "shared", in_shared },
};
enum { MODES = sizeof modes / sizeof *modes };

/* ---- the files */

static void make_file(const char *path) {
    int fd = open(path, O_CREAT | O_WRONLY, 0644);
    if (fd < 0) fail(path);
    close(fd);
}

static void make_folder(const char *path) { must(mkdir(path, 0755), path); }

static void make_link(const char *text, const char *path) { must(symlink(text, path), path); }

static void make_tree(void) {
    must(chdir(tree), tree);
    make_folder("d");
    make_file("d/f");
    make_folder("only");
    make_file("only/f");
    make_folder("jail");
    make_folder("jail/d");
    make_file("jail/d/f");
}

static void make_outside(void) {
    char text[300];
    must(chdir(outside), outside);
    make_folder("jail");
    make_folder("jail/t");
    make_folder("jail/proc");
    make_link("/t/d", "jail/abs");
    make_link("../../..", "jail/up");
    make_link("/proc/self/root", "jail/own");
    make_link("/proc/self/cwd", "jail/here");
    make_link("loop", "jail/loop");
    make_folder("secret");
    make_file("secret/there");
    make_link("there", "secret/link");
    make_folder("shared");
    snprintf(text, sizeof text, "%s/d", tree);
    make_link(text, "shared/of-root");
    make_link(text, "shared/of-nobody");
    make_link("../secret/there", "shared/to-secret");
    if (geteuid() == 0) must(lchown("shared/of-nobody", 65534, 65534), "of-nobody");
    must(chmod("shared", 01777), "shared");
    must(chmod("secret", 0700), "secret");
}

int main(int words, char **word) {
    umask(022);
    if (words != 5) return 2;
    setvbuf(stdout, NULL, _IOLBF, 0);
    user = word[2], tree = word[3], outside = word[4];
    make_outside();
    make_tree();
    if ((instance = inotify_init1(0)) < 0) fail("inotify_init1");
    map_user();
    for (int i = 0; i < MODES; i++) if (!strcmp(word[1], modes[i].name)) modes[i].change();
    ask_all();
    return 0;
}
