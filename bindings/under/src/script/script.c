/* The script: what stands next in it. */
#include "script/script.h"
#include "command/options.h"
#include "output/record.h"
#include "output/trace.h"
#include "inotify/instances.h"
#include "output/asked.h"
#include "script/schedule.h"
#include "script/second.h"
#include "script/turn.h"
#include <errno.h>
#include <fcntl.h>
#include <poll.h>
#include <stdlib.h>
#include <sys/ioctl.h>
#include <sys/stat.h>
#include <unistd.h>

static char *text;
static size_t at, end, capacity;
static long number, refused, happened_after_mark;
static int fd = -1;
static bool is_ended, had_mark;
static bool is_over;                /* nothing more is read */

/* The next line that is whole: its length, or -1. */
static ssize_t line_length(void) {
    char *stop = at < end ? memchr(text + at, '\n', end - at) : NULL;
    if (stop) return stop - (text + at);
    return is_ended && at < end ? (ssize_t)(end - at) : -1;
}

/* How many bytes came. */
static ssize_t read_some(void) {
    if (at && end == capacity) {
        memmove(text, text + at, end - at);
        end -= at;
        at = 0;
    }
    if (end == capacity) {
        if (capacity >= 2 * LONGEST_SCRIPT && line_length() < 0) fault("%s: a line is too long", options.script);
        capacity = capacity ? capacity * 2 : 1 << 16;
        if (!(text = realloc(text, capacity))) fail("realloc");
    }
    ssize_t count = read(fd, text + end, capacity - end);
    if (count < 0 && (errno == EINTR || errno == EAGAIN)) return 0;
    if (count < 0) fail(options.script);
    if (count == 0) is_ended = true;
    end += (size_t)count;
    return count;
}

static bool has_come(void) {
    struct pollfd one = { fd, POLLIN, 0 };
    return !is_ended && !is_over && poll(&one, 1, 0) > 0;
}

/* While a whole line waits nothing is read, so a writer that is faster than the program waits at the full pipe. */
void read_live_script(void) {
    while (line_length() < 0 && has_come()) read_some();
}

void end_live_script(void) {
    int waiting = 0;
    if (!is_ended) ioctl(fd, FIONREAD, &waiting);   /* 0 where there is no such call, as of /dev/zero */
    for (ssize_t left = waiting; left >= 0 && has_come();) left -= read_some();
    is_over = true;
}

static void pass(size_t length) {
    at += length;
    if (at < end) at++;
    number++;
}

static bool is_empty(const char *line, size_t length) {
    while (length && *line == ' ') line++, length--;
    return !length || *line == '#';
}

/* Behind the last line all turns that are left follow. */
static enum next next_behind_all(void) {
    if (!second_goes_on()) return NEXT_END;
    if (!turns_left()) pass_end();
    return NEXT_TURN;
}

enum next next_in_script(void) {
    for (;;) {
        if (turns_left()) return second_goes_on() ? NEXT_TURN : NEXT_END;
        read_live_script();
        ssize_t length = line_length();
        if (length < 0) return is_ended ? next_behind_all() : NEXT_NOT_YET;
        if (length == 2 && !memcmp(text + at, "--", 2)) return NEXT_MARK;
        if (!is_empty(text + at, (size_t)length)) return NEXT_LINE;
        if (is_directive(text + at, (size_t)length)) pass_directive(text + at, (size_t)length);
        pass((size_t)length);
    }
}

void run_line(void) {
    char line[1 << 12], *copy = line;
    size_t length = (size_t)line_length();
    if (length > sizeof line && !(copy = malloc(length))) fail("malloc");
    memcpy(copy, text + at, length);        /* the line may be moved by a read */
    pass(length);
    line_happened(next_request());
    happened_after_mark += had_mark;        /* before a record of it is taken */
    if (!run_text(copy, length, number, !had_mark)) {
        refused++;
        happened_after_mark -= had_mark;
    }
    if (copy != line) free(copy);
}

void pass_mark(void) {
    pass(2);
    had_mark = true;
    record_mark();
    trace("> --\n");
}

/* What the turn raises is handed over after it, so that the client rests meanwhile. */
bool run_turn(void) {
    bool was_held = hold_deliveries(true), has_changed = second_goes();
    if (has_changed) {
        happened_after_mark++;
        line_happened(next_request());
        turn_happened();
        record_turn(request_of_line());
        line_count++;
        trace_point();
        trace_second();
    }
    hold_deliveries(was_held);
    deliver();
    return has_changed;
}

/* A second program begins behind a mark, whether one stands there or not. */
static void pass_first_mark(void) {
    if (next_in_script() == NEXT_MARK) pass_mark();
    if (had_mark || !options.second) return;
    had_mark = true;
    record_mark();
    trace("> --\n");
}

void run_first_lines(void) {
    for (;;) {
        enum next next = next_in_script();
        if (next == NEXT_LINE) run_line();
        else if (next == NEXT_NOT_YET) read_some();
        else break;
    }
    pass_first_mark();
}

long lines_left(void) {
    long count = refused;
    size_t saved_at = at;
    long saved_number = number;
    for (ssize_t length; (length = line_length()) >= 0; pass((size_t)length)) {
        bool is_mark = length == 2 && !memcmp(text + at, "--", 2);
        count += !is_mark && !is_empty(text + at, (size_t)length);
    }
    at = saved_at;
    number = saved_number;
    return count;
}

void record_rest(void) {
    struct wt_tree scratch = WT_TREE_INIT;
    if (!options.out) return;
    if (wt_open(&scratch) < 0) fault("wt_open");
    for (enum next next; (next = next_in_script()) == NEXT_LINE || next == NEXT_MARK;) {
        size_t length = (size_t)line_length();
        if (next == NEXT_MARK) record_mark();
        else if (!fault_of_text(&scratch, text + at, length)) record_line(text + at, length, 0);
        pass(length);
    }
    wt_close(&scratch);
}

long lines_after_first_mark(void) { return happened_after_mark; }

int live_script(void) { return is_ended || line_length() >= 0 ? -1 : fd; }

/* A script that is read at once has no fault in its middle. */
static void try_all(void) {
    struct wt_tree scratch = WT_TREE_INIT;
    long lines = 0;
    bool is_setup = true;
    if (wt_open(&scratch) < 0) fault("wt_open");
    for (ssize_t length; (length = line_length()) >= 0; pass((size_t)length)) {
        const char *line = text + at;
        bool is_mark = length == 2 && !memcmp(line, "--", 2);
        if (is_directive(line, (size_t)length)) expect_directive(line, (size_t)length, number + 1, lines, is_setup);
        if (is_mark) is_setup = false;
        if (is_mark || is_empty(line, (size_t)length)) continue;
        const char *why = fault_of_text(&scratch, line, (size_t)length);
        if (why) fault("line %ld: %s", number + 1, why);
        if (options.second && !is_setup) fault("line %ld: with --and the second program makes the changes after `--`", number + 1);
        lines++;
    }
    wt_close(&scratch);
    at = 0;
    number = 0;
}

void open_script(void) {
    struct stat is;
    fd = strcmp(options.script, "-") ? open(options.script, O_RDONLY | O_CLOEXEC) : fcntl(0, F_DUPFD_CLOEXEC, 3);
    if (fd < 0 || fstat(fd, &is) < 0) fail(options.script);
    if (!S_ISREG(is.st_mode) && strcmp(options.script, "/dev/null")) {
        if (options.has_schedule) fault("--schedule: %s is not a file", options.script);
        if (options.second) fault("--and: %s is not a file, and the script sets the tree up", options.script);
        return;
    }
    if (is.st_size > LONGEST_SCRIPT) fault("%s: script too long", options.script);
    while (!is_ended && end <= LONGEST_SCRIPT) read_some();
    if (end > LONGEST_SCRIPT) fault("%s: script too long", options.script);
    try_all();
}

void close_script(void) {
    free(text);
    if (fd >= 0) close(fd);
    text = NULL;
    free_text();
}
