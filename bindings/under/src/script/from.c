/* Copies a directory into the tree, by lines of a script in the order of names. */
#include "script/from.h"
#include "command/options.h"
#include "output/calls.h"
#include "output/trace.h"
#include "script/script.h"
#include "tree/files.h"
#include <errno.h>
#include <fts.h>
#include <limits.h>
#include <search.h>
#include <stdarg.h>
#include <stdio.h>
#include <stdlib.h>
#include <sys/stat.h>

static char top[PATH_MAX];          /* the directory, through no link */
static long line_count;

/* ---- each file of it */

static int by_name(const FTSENT **one, const FTSENT **other) { return strcmp((*one)->fts_name, (*other)->fts_name); }

static void visit_all(void (*visit)(const FTSENT *it)) {
    char *paths[] = { top, NULL };
    FTS *all = fts_open(paths, FTS_PHYSICAL | FTS_NOCHDIR, by_name);
    if (!all) fail(top);
    errno = 0;
    for (FTSENT *it; (it = fts_read(all)); errno = 0) {
        if (it->fts_info == FTS_DNR || it->fts_info == FTS_ERR || it->fts_info == FTS_NS)
            fault("--from: %s: %s", it->fts_path, strerror(it->fts_errno));
        if (it->fts_info != FTS_DP) visit(it);
    }
    if (errno) fail(top);
    fts_close(all);
}

/* Its path in the tree, as scripts spell it. */
static const char *spelled(const FTSENT *it) {
    static char text[3 * PATH_MAX];
    const char *path = it->fts_path + (top[1] ? strlen(top) : 0);
    if (strlen(path) >= PATH_MAX) fault("--from: %s: %s", it->fts_path, strerror(ENAMETOOLONG));
    spell(*path ? path : "/", text);
    return text;
}

/* ---- what a tree cannot hold */

static long refused;

/* NULL if a tree can hold it. */
static const char *refusal(const FTSENT *it) {
    mode_t mode = it->fts_statp->st_mode;
    if (S_ISLNK(mode)) return "a symbolic link";
    if (S_ISREG(mode)) return it->fts_statp->st_size > LONGEST_FILE ? "longer than 16 MiB" : NULL;
    return S_ISDIR(mode) ? NULL : S_ISFIFO(mode) ? "a FIFO" : S_ISSOCK(mode) ? "a socket" : "a device";
}

static void check(const FTSENT *it) {
    const char *why = refusal(it);
    if (!why) return;
    say("--from: %s is %s", it->fts_path, why);
    refused++;
}

void check_from(void) {
    struct stat is;
    if (!options.from) return;
    if (!realpath(options.from, top) || stat(top, &is) < 0) fault("--from: %s: %s", options.from, strerror(errno));
    if (!S_ISDIR(is.st_mode)) fault("--from: %s is not a directory", options.from);
    visit_all(check);
    if (refused) fault("--from: a tree cannot hold %ld of the files of %s: copy it without them, and record from the copy",
                       refused, options.from);
}

/* ---- the copy */

/* A file with more names: the first one is its path in the tree. */
struct linked { dev_t device; ino_t number; char *path; };
static void *all_linked;

static int by_number(const void *one, const void *other) {
    const struct linked *a = one, *b = other;
    if (a->device != b->device) return a->device < b->device ? -1 : 1;
    return (a->number > b->number) - (a->number < b->number);
}

/* The path that a file has in the tree already, or NULL. */
static const char *earlier_path(const struct stat *is, const char *path) {
    struct linked *it = malloc(sizeof *it), **found;
    if (!it || !(it->path = strdup(path))) fail("malloc");
    it->device = is->st_dev;
    it->number = is->st_ino;
    if (!(found = tsearch(it, &all_linked, by_number))) fail("tsearch");
    if (*found == it) return NULL;
    free(it->path);
    free(it);
    return (*found)->path;
}

static void free_linked(void *it) {
    free(((struct linked *)it)->path);
    free(it);
}

/* A line is printed into memory, and runs. */
static char *line;
static size_t line_size;

static FILE *begin_line(void) {
    FILE *it = open_memstream(&line, &line_size);
    if (!it) fail("open_memstream");
    return it;
}

static void run_begun(FILE *it) {
    if (fclose(it)) fail("--from");
    if (!run_text(line, line_size, ++line_count, true)) fault("--from: %s was not copied", top);
    free(line);
}

__attribute__((format(printf, 1, 2))) static void run_printed(const char *format, ...) {
    FILE *it = begin_line();
    va_list list;
    va_start(list, format);
    vfprintf(it, format, list);
    va_end(list);
    run_begun(it);
}

static void copy_bytes(const char *from, const char *path) {
    static const char digits[] = "0123456789abcdef";
    FILE *file = fopen(from, "re");
    if (!file) fail(from);
    int byte = getc(file);
    if (byte != EOF) {
        FILE *out = begin_line();
        fprintf(out, "write %s 0 ", path);
        for (; byte != EOF; byte = getc_unlocked(file)) {
            putc_unlocked(digits[byte >> 4], out);
            putc_unlocked(digits[byte & 15], out);
        }
        run_begun(out);
    }
    if (ferror(file)) fail(from);
    fclose(file);
}

static void copy(const FTSENT *it) {
    const struct stat *is = it->fts_statp;
    const char *path = spelled(it), *why = refusal(it), *earlier;
    unsigned mode = is->st_mode & 07777;
    if (is_calls_file(is)) return;
    if (why) fault("--from: %s is %s now", it->fts_path, why);
    if (it->fts_level == 0) run_printed("chmod / %o", mode);
    else if (S_ISDIR(is->st_mode)) run_printed("mkdir %s %o", path, mode);
    else if (is->st_nlink > 1 && (earlier = earlier_path(is, path))) run_printed("link %s %s", earlier, path);
    else {
        run_printed("create %s %o", path, mode);
        copy_bytes(it->fts_path, path);
    }
}

void copy_from(void) {
    if (!options.from) return;
    visit_all(copy);
    tdestroy(all_linked, free_linked);
}
