/* Runs a line of the script. The tree keeps no times and no open files, so what a line changes of these is read out of its
 * words. */
#include "command/options.h"
#include "inotify/instances.h"
#include "output/record.h"
#include "output/trace.h"
#include "script/script.h"
#include "script/turn.h"
#include "tree/files.h"
#include "tree/tree.h"
#include <ctype.h>
#include <errno.h>
#include <stdio.h>
#include <stdlib.h>

static char *reply_text;
static size_t reply_capacity;

void free_text(void) {
    free(reply_text);
    reply_text = NULL;
    reply_capacity = 0;
}

/* ---- the words of a line */

struct words {
    char command[16];
    char first[PATH_SIZE], second[PATH_SIZE];   /* empty: no path */
    unsigned flags;
};

static const char *read_word(const char *at, const char *end, char *out, size_t size) {
    size_t length = 0;
    while (at < end && *at == ' ') at++;
    for (; at < end && *at != ' ' && length + 1 < size; at++) {
        char hex[3] = { at + 1 < end ? at[1] : 0, at + 2 < end ? at[2] : 0, 0 };
        bool is_byte = *at == '%' && isxdigit((unsigned char)hex[0]) && isxdigit((unsigned char)hex[1]);
        out[length++] = is_byte ? (char)strtol(hex, NULL, 16) : *at;
        if (is_byte) at += 2;
    }
    out[length] = 0;
    return at;
}

static void read_words(const char *line, size_t length, struct words *out) {
    const char *end = line + length;
    char flags[16];
    line = read_word(line, end, out->command, sizeof out->command);
    line = read_word(line, end, out->first, sizeof out->first);
    line = read_word(line, end, out->second, sizeof out->second);
    read_word(line, end, flags, sizeof flags);
    out->flags = (unsigned)strtoul(flags, NULL, 10);
    if (*out->first != '/') *out->first = 0;
    if (*out->second != '/') *out->second = 0;
}

static bool is_one_of(const char *command, const char *const *names) {
    while (*names && strcmp(command, *names)) names++;
    return *names;
}

/* ---- before and after */

static uint64_t number_at(const char *path) {
    struct wt_stat is;
    return *path && wt_peek_stat(&tree, PATH(path), &is) >= 0 ? is.number : 0;
}

/* What the program wrote reaches the tree before a line looks at it. */
static void settle_content(const struct words *words) {
    static const char *const bytes[] = { "cat", "write", "truncate", NULL };
    uint64_t number = number_at(words->first);
    if (!number || !known_node(number)) return;
    if (is_one_of(words->command, bytes)) commit(number);
    else if (!strcmp(words->command, "stat")) announce(number);
}

static const char *lost_path(const struct words *words) {
    static const char *const removals[] = { "unlink", "rmdir", NULL }, *const moves[] = { "rename", "rename2", NULL };
    if (is_one_of(words->command, removals)) return words->first;
    return is_one_of(words->command, moves) && words->flags != 2 ? words->second : "";
}

/* The hint and the time of what stands at a path now. */
static void seen_and_stamped(const char *path, int which) {
    char above[PATH_SIZE];
    uint64_t number = number_at(path);
    char *slash;
    if (!number) return;
    stamp(number, which);
    snprintf(above, sizeof above, "%s", path);
    slash = strrchr(above, '/');
    if (number == ROOT || !slash || !slash[1]) return;
    const char *name = path + (slash - above) + 1;
    slash[slash == above] = 0;
    uint64_t directory = number_at(above);
    if (directory) seen_at(number, directory, name);
}

static void note_change(const struct words *words) {
    const char *command = words->command;
    if (!strcmp(command, "mkdir") || !strcmp(command, "create")) {
        seen_and_stamped(words->first, MODIFIED);
        stamp_parent(words->first);
    } else if (!strcmp(command, "write") || !strcmp(command, "truncate")) stamp_path(words->first, MODIFIED);
    else if (!strcmp(command, "chmod")) stamp_path(words->first, ALTERED);
    else if (!strcmp(command, "unlink") || !strcmp(command, "rmdir")) stamp_parent(words->first);
    else if (!strcmp(command, "link")) {
        stamp_path(words->first, ALTERED);
        stamp_parent(words->second);
    } else if (!strncmp(command, "rename", 6)) {
        seen_and_stamped(words->second, ALTERED);
        if (words->flags == 2) seen_and_stamped(words->first, ALTERED);
        stamp_parent(words->first);
        stamp_parent(words->second);
    }
}

/* ---- the reply */

/* The directory of new files is no part of a listing. */
static void hide_nursery(char *text, size_t *length) {
    static const char line[] = "\n  " NURSERY "\n";
    long count;
    char *at = memmem(text, *length, line, sizeof line - 1);
    if (!at || sscanf(text, "ok %ld", &count) != 1) return;
    memmove(at + 1, at + sizeof line - 1, *length - (size_t)(at + sizeof line - 1 - text));
    *length -= sizeof line - 2;
    char head[32], *rest = memchr(text, '\n', *length);
    int size = snprintf(head, sizeof head, "ok %ld", count - 1);
    memmove(text + size, rest, *length - (size_t)(rest - text));
    *length -= (size_t)(rest - text) - (size_t)size;
    memcpy(text, head, (size_t)size);
}

static const char *text_of(int64_t reply) {
    static const char *const faults[] = {
        "bad byte: a line has spaces and the bytes from ! to ~", "unknown command: watchtree(1) has all commands",
        "wrong number of words: watchtree(1) has the words of each command",
        "bad escape: after a % there are two hexadecimal digits", "bad mode: it has 1 to 6 octal digits",
        "bad hex: bytes are an even number of hexadecimal digits, or -", "bad mask: it is 0x and 1 to 8 hexadecimal digits",
        "bad number: it has 1 to 20 decimal digits, and fits 32 bits, an offset or a length 64 bits" };
    int64_t i = -reply - WT_BAD_BYTE;
    return i >= 0 && i < (int64_t)(sizeof faults / sizeof *faults) ? faults[i] : strerror(errno_of(reply));
}

/* The text of the reply, which is kept until the next line. */
static int64_t call_line(const char *line, size_t length, size_t *size) {
    if (!reply_text && !(reply_text = malloc(reply_capacity = 1 << 16))) fail("malloc");
    int64_t reply = CALL(length, wt_line(&tree, options.queue, line, length, reply_text, reply_capacity));
    if (reply < 0) return reply;
    if ((size_t)reply > reply_capacity) {
        reply_capacity = (size_t)reply;
        if (!(reply_text = realloc(reply_text, reply_capacity))) fail("realloc");
        wt_text(&tree, reply_text, reply_capacity);
    }
    reserve_entry((uint64_t)reply);
    *size = (size_t)reply;
    return 0;
}

/* Names the line, of which a long one is cut, and the reply without its newline. */
_Noreturn static void refuse_setup(const char *line, size_t length, long number, size_t size) {
    enum { SHOWN = 1024 };
    fault("line %ld: '%.*s' before `--` is refused: %.*s", number, (int)(length < SHOWN ? length : SHOWN), line,
          (int)size - 1, reply_text);
}

bool run_text(const char *line, size_t length, long number, bool is_setup) {
    struct words words;
    size_t size;
    read_words(line, length, &words);
    settle_content(&words);
    const char *lost = lost_path(&words);
    struct rescue rescue = { 0 };
    if (*lost) rescue = before_loss(lost);
    uint64_t moved = strncmp(words.command, "rename", 6) ? 0 : number_at(words.first);
    tick();
    int64_t reply = call_line(line, length, &size);
    bool is_done = reply == 0 && size >= 2 && !memcmp(reply_text, "ok", 2);
    after_loss(&rescue, is_done && number_at(lost) != rescue.number && (!moved || number_at(words.first) != moved));
    if (reply < 0) {
        say("line %ld: %s", number, text_of(reply));
        return false;
    }
    if (is_setup && !is_done) refuse_setup(line, length, number, size);
    record_line(line, length, request_of_line());
    if (is_done) note_change(&words);
    if (!strcmp(words.command, "list") && number_at(words.first) == ROOT) hide_nursery(reply_text, &size);
    line_count++;
    trace_point();
    trace("> %.*s\n%.*s", (int)length, line, (int)size, reply_text);
    deliver();
    return true;
}

const char *fault_of_text(struct wt_tree *scratch, const char *line, size_t length) {
    char none;
    int64_t reply = wt_line(scratch, options.queue, line, length, &none, 0);
    return reply < 0 && -reply >= WT_BAD_BYTE ? text_of(reply) : NULL;
}
