/* What --out leaves of the tree: a line for each file in DIR/listing, and a copy below DIR/tree. */
#include "output/out.h"
#include "output/trace.h"
#include "tree/nodes.h"
#include "tree/tree.h"
#include <errno.h>
#include <fcntl.h>
#include <linux/openat2.h>
#include <stdlib.h>
#include <sys/stat.h>
#include <sys/syscall.h>
#include <unistd.h>

static int top;                     /* DIR/tree */

/* Opens what a path of the tree is in the copy: beneath its top, and through no link. */
static int open_copy(const char *path, int flags, mode_t mode) {
    struct open_how how = { .flags = (uint64_t)(flags | O_NOFOLLOW | O_CLOEXEC), .mode = mode,
                            .resolve = RESOLVE_BENEATH | RESOLVE_NO_SYMLINKS };
    int fd = (int)syscall(SYS_openat2, top, *path ? path + 1 : ".", &how, sizeof how);
    if (fd < 0) fault("--out: tree%s: %s", path, strerror(errno));
    return fd;
}

static void copy_file(const char *path, uint64_t size) {
    char *bytes = malloc(size + 1);
    int fd = open_copy(path, O_CREAT | O_EXCL | O_WRONLY, 0644);
    if (!bytes) fail("malloc");
    int64_t count = wt_peek_pread(&tree, PATH(path), 0, bytes, size);
    if (count != (int64_t)size) fault("%s: only %lld bytes were read", path, (long long)count);
    for (size_t done = 0; done < size;) {
        ssize_t more = write(fd, bytes + done, size - done);
        if (more < 0) fault("--out: tree%s: %s", path, strerror(errno));
        done += (size_t)more;
    }
    close(fd);
    free(bytes);
}

static void make_directory(char *path) {
    char *slash = strrchr(path, '/');
    *slash = 0;
    int above = open_copy(path, O_PATH | O_DIRECTORY, 0);
    *slash = '/';
    if (mkdirat(above, slash + 1, 0755) < 0) fault("--out: tree%s: %s", path, strerror(errno));
    close(above);
}

/* The path grows and shrinks in place, as a tree may be 2,000 directories deep, which are more than descriptors. */
static void copy(FILE *listing, char path[PATH_SIZE]) {
    static char spelled[3 * PATH_SIZE];
    struct wt_stat is;
    char *names = NULL;
    size_t length = strlen(path);
    const char *shown = length ? path : "/";
    if (!strcmp(path, "/" NURSERY) || wt_peek_stat(&tree, PATH(shown), &is) < 0) return;
    spell(shown, spelled);
    fprintf(listing, "%s %s %o %llu %llu\n", spelled, is.is_directory ? "dir" : "file", is.mode,
            (unsigned long long)is.links, (unsigned long long)is.size);
    if (!is.is_directory) {
        copy_file(path, is.size);
        return;
    }
    if (length) make_directory(path);
    int64_t size = names_below(shown, &names);
    if (size < 0) fault("%s: %s", shown, strerror(errno_of(size)));
    for (char *name = names; name < names + size; name += strlen(name) + 1) {
        if (length + 1 + strlen(name) > 4095) continue;
        path[length] = '/';
        strcpy(path + length + 1, name);
        copy(listing, path);
        path[length] = 0;
    }
    free(names);
}

void write_tree(void) {
    char path[PATH_SIZE] = "";
    FILE *listing = make_out_stream(OUT_LISTING);
    top = make_out_tree();
    copy(listing, path);
    close(top);
    if (ferror(listing) || fclose(listing)) fault("--out: the listing was not written");
}
