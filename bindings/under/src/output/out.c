/* The files of --out. Their directory is opened before the program starts, and each of them is made anew below that
 * descriptor, so nothing is written through a link, whoever may write into the directory. */
#include "output/out.h"
#include "command/options.h"
#include <errno.h>
#include <fcntl.h>
#include <limits.h>
#include <stdlib.h>
#include <sys/stat.h>
#include <unistd.h>

static const char *const names[OUT_FILES] = { "trace", "schedule", "stdout", "stderr", "listing", "and.stdout", "and.stderr" };
static int above = AT_FDCWD, directory = -1;
static int made[OUT_FILES] = { -1, -1, -1, -1, -1, -1, -1 };

void hold_out_above(const char *path) {
    if ((above = open(path, O_PATH | O_DIRECTORY | O_CLOEXEC)) < 0) fail(path);
}

/* The path of the directory that is open, wherever the words led. */
static const char *real_path(void) {
    char link[64];
    snprintf(link, sizeof link, "/proc/self/fd/%d", directory);
    const char *path = realpath(link, NULL);
    if (!path) fail(options.out);
    return path;
}

static void check_names(void) {
    struct stat is;
    if (fstatat(directory, "tree", &is, AT_SYMLINK_NOFOLLOW) == 0)
        fault("--out: %s/tree is there already, of another run", options.out);
    for (int i = 0; i < OUT_FILES; i++) {
        if (fstatat(directory, names[i], &is, AT_SYMLINK_NOFOLLOW) == 0 && !S_ISREG(is.st_mode))
            fault("--out: %s/%s is no regular file, so it is not replaced", options.out, names[i]);
    }
}

void open_out(void) {
    char dir[PATH_MAX];
    if (!options.out) return;
    bool is_below = above != AT_FDCWD;      /* there a link was made by somebody else than the user */
    const char *name = is_below ? strrchr(options.out, '/') + 1 : options.out;
    if (mkdirat(above, name, 0755) < 0 && errno != EEXIST) fail(options.out);
    directory = openat(above, name, O_PATH | O_DIRECTORY | O_CLOEXEC | (is_below ? O_NOFOLLOW : 0));
    if (directory < 0) fail(options.out);
    options.out = real_path();
    size_t length = realpath(options.dir, dir) ? strlen(dir) : 0;
    if (length && !strncmp(options.out, dir, length) && (!options.out[length] || options.out[length] == '/'))
        fault("--out: %s is below the mount", options.out);
    check_names();
}

void remove_old_out(void) {
    for (int i = 0; options.out && i < OUT_FILES; i++) {
        if (unlinkat(directory, names[i], 0) < 0 && errno != ENOENT)
            fault("--out: %s/%s: %s", options.out, names[i], strerror(errno));
    }
}

_Noreturn static void refuse(const char *name) {
    if (errno == EEXIST) fault("--out: somebody made %s/%s during the run, and it is not replaced", options.out, name);
    fault("--out: %s/%s: %s", options.out, name, strerror(errno));
}

int make_out_file(enum out_file which) {
    int fd = openat(directory, names[which], O_WRONLY | O_CREAT | O_EXCL | O_NOFOLLOW | O_CLOEXEC, 0644);
    if (fd < 0) refuse(names[which]);
    return made[which] = fd;
}

FILE *make_out_stream(enum out_file which) {
    int fd = fcntl(make_out_file(which), F_DUPFD_CLOEXEC, 3);
    FILE *stream = fd < 0 ? NULL : fdopen(fd, "w");
    if (!stream) refuse(names[which]);
    return stream;
}

int make_out_tree(void) {
    if (mkdirat(directory, "tree", 0755) < 0) refuse("tree");
    int fd = openat(directory, "tree", O_PATH | O_DIRECTORY | O_NOFOLLOW | O_CLOEXEC);
    if (fd < 0) refuse("tree");
    return fd;
}

/* Whether a path, or a name below a directory, is still what was opened. */
static bool is_still(int opened, int at, const char *name, int flags) {
    struct stat ours, there;
    if (fstat(opened, &ours) < 0 || fstatat(at, name, &there, flags) < 0) return false;
    return ours.st_dev == there.st_dev && ours.st_ino == there.st_ino;
}

void check_out(void) {
    if (!options.out) return;
    if (!is_still(directory, AT_FDCWD, options.out, 0)) fault("--out: %s was moved away during the run", options.out);
    for (int i = 0; i < OUT_FILES; i++) {
        if (made[i] >= 0 && !is_still(made[i], directory, names[i], AT_SYMLINK_NOFOLLOW))
            fault("--out: somebody moved %s/%s away during the run", options.out, names[i]);
    }
}
