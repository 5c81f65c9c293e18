/* What `watchtree record` writes: the calls of the tree's journal that changed the tree, in order, as lines of a script. */
#include "output/calls.h"
#include "command/options.h"
#include "script/script.h"
#include "tree/nodes.h"
#include "tree/tree.h"
#include <errno.h>
#include <fcntl.h>
#include <signal.h>
#include <stdio.h>
#include <stdlib.h>
#include <unistd.h>

static int file = -1;
static uint64_t next_entry = 1;     /* of the journal */
static unsigned long long lines, length;
static unsigned long long shortest; /* the length of the script without contents */

/* ---- lines: each is written whole, or not at all */

static const char *name(void) { return options.recording ? options.recording : "standard output"; }

/* Takes back what was written of a line, and ends the run. */
_Noreturn static void give_up(size_t written) {
    const char *why = strerror(errno);
    off_t end = lseek(file, 0, SEEK_CUR);
    bool is_whole = !written || (end >= 0 && ftruncate(file, end - (off_t)written) == 0);
    fault("%s: %s: the recording ends after %llu lines%s", name(), why, lines,
          is_whole ? "" : ", and with a part of one that cannot be taken back");
}

/* No signal comes meanwhile: before the program starts it could end the tool in the middle of the line. */
static void write_line(const char *line, size_t size) {
    sigset_t all, before;
    sigfillset(&all);
    sigprocmask(SIG_BLOCK, &all, &before);
    for (size_t done = 0; done < size;) {
        ssize_t count = write(file, line + done, size - done);
        if (count < 0) give_up(done);
        done += (size_t)count;
    }
    lines++;
    length += size;
    sigprocmask(SIG_SETMASK, &before, NULL);
}

/* The line of a write of the last byte alone: the file gets the same length, and its watchers the same events. Its length;
 * 0 if the line is no write, or one of at most `most` bytes. */
static size_t shorten(const char *line, uint64_t most, char *out, size_t size) {
    char *digits;
    if (strncmp(line, "write ", 6)) return 0;
    const char *offset = strchr(line + 6, ' ') + 1;
    unsigned long long from = strtoull(offset, &digits, 10);
    size_t count = strcspn(++digits, "\n") / 2;         /* - is no bytes */
    if (count <= most || count <= 1) return 0;
    return (size_t)snprintf(out, size, "%.*s%llu %.2s\n", (int)(offset - line), line, from + count - 1,
                            digits + 2 * (count - 1));
}

static void record_call(const char *line, size_t size) {
    static char made[3 * PATH_SIZE + 64];
    size_t least = shorten(line, 1, made, sizeof made);
    shortest += least ? least : size;
    size_t without = shorten(line, options.contents, made, sizeof made);
    write_line(without ? made : line, without ? without : size);
}

/* ---- entries of the journal: the line that makes the call, and its reply in comments */

/* The text of an entry, which is kept until the next one. */
static char *read_entry(uint64_t entry, size_t *size) {
    static char *text;
    static size_t capacity;
    int64_t reply = wt_entry(&tree, entry, text, capacity);
    if (reply >= 0 && (size_t)reply >= capacity) {
        capacity = 2 * (size_t)reply + 1;
        if (!(text = realloc(text, capacity))) fail("realloc");
        reply = wt_entry(&tree, entry, text, capacity);
    }
    must(reply, "the journal");
    text[*size = (size_t)reply] = 0;
    return text;
}

static bool begins(const char *text, const char *with) { return !strncmp(text, with, strlen(with)); }

static bool only_looks(const char *line) {
    static const char *const looks[] = { "cat ", "stat ", "list ", "init ", "watch ", "unwatch ", "read ", "close " };
    for (size_t i = 0; i < sizeof looks / sizeof *looks; i++) if (begins(line, looks[i])) return true;
    return false;
}

static bool is_about_nursery(const char *line) {
    const char *path = strchr(line, ' ');
    return path && begins(path, " /" NURSERY) && strchr(" /\n", path[sizeof " /" NURSERY - 1]);
}

/* A new file of the program is made in a directory of the runner, and linked to its path: for a script that is `create`. */
static void record_newborn(const char *line) {
    static const char made[] = "create /" NEWBORN " ", linked[] = "link /" NEWBORN " ";
    static char mode[16], create[3 * PATH_SIZE + 64];
    if (begins(line, made)) snprintf(mode, sizeof mode, "%s", line + sizeof made - 1);      /* with its line feed */
    if (!begins(line, linked)) return;
    const char *path = line + sizeof linked - 1;
    int size = snprintf(create, sizeof create, "create %.*s %s", (int)strcspn(path, "\n"), path, mode);
    record_call(create, (size_t)size);
}

static void record_entry(uint64_t entry) {
    size_t size;
    char *line = read_entry(entry, &size), *reply = strchr(line, '\n') + 1;
    bool is_done = begins(reply, "# ok");
    size = (size_t)(reply - line);
    reply[0] = 0;
    if (is_about_nursery(line)) {
        if (is_done) record_newborn(line);
    } else if (options.keeps_looks || (is_done && !only_looks(line))) record_call(line, size);
}

void write_calls(void) {
    if (file < 0) return;
    int64_t last = wt_last_place(&tree);
    while ((int64_t)next_entry <= last) record_entry(next_entry++);
}

void write_calls_mark(void) {
    write_calls();
    if (file < 0) return;
    write_line("--\n", 3);
    shortest += 3;
}

void say_unrecorded(const char *call, const char *path, int error) {
    if (file < 0) return;
    write_calls();
    say("after line %llu: %s %s: a tree cannot hold it, so it is refused (%s) and not recorded", lines, call, path,
        strerror(error));
}

/* ---- the file */

void open_calls(void) {
    if (!options.is_record) return;
    file = options.recording ? open(options.recording, O_WRONLY | O_CREAT | O_TRUNC | O_CLOEXEC, 0644)
                             : fcntl(STDOUT_FILENO, F_DUPFD_CLOEXEC, 3);
    if (file < 0) fail(name());
}

bool is_calls_file(const struct stat *it) {
    struct stat is;
    return fstat(file, &is) == 0 && is.st_dev == it->st_dev && is.st_ino == it->st_ino;
}

int close_calls(int status) {
    if (file < 0) return status;
    write_calls();
    if (close(file) < 0) fail(name());
    file = -1;
    if (length <= LONGEST_SCRIPT) return status;
    say("%s has %llu bytes, and a script has at most %d: record less, or give --contents; with --contents 0 it has %llu",
        name(), length, LONGEST_SCRIPT, shortest);
    return STATUS_FAULT;
}
