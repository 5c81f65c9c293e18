/* The bytes of files: what was written and is not in the tree, and files that are gone and still open. */
#include "tree/files.h"
#include "tree/tree.h"
#include <errno.h>
#include <stdlib.h>

struct content {
    uint64_t number;
    uint64_t length;                /* of the file */
    uint64_t from, to;              /* which bytes of the file are in `bytes` */
    char *bytes;
    size_t capacity;
    bool is_whole;                  /* the file is gone, and these are all its bytes */
    bool is_emptied;                /* by O_TRUNC: what the tree has is no part of the file any more */
    bool is_announced;
    pid_t writer;
    struct content *next, **link;   /* the list of those that are not whole */
};
static struct content *pending;

static struct content *new_content(uint64_t number, uint64_t length) {
    struct content *it = calloc(1, sizeof *it);
    if (it) *it = (struct content){ .number = number, .length = length };
    return it;
}

static void unlist(struct content *it) {
    if (!it->link) return;
    *it->link = it->next;
    if (it->next) it->next->link = it->link;
    it->link = NULL;
}

static void list(struct content *it) {
    it->next = pending;
    if (pending) pending->link = &it->next;
    it->link = &pending;
    pending = it;
}

static void free_content(struct content *it) {
    if (!it) return;
    unlist(it);
    free(it->bytes);
    free(it);
}

void drop_content(struct node *node) {
    free_content(node->content);
    node->content = NULL;
}

pid_t silent_writer(uint64_t number) {
    struct node *node = known_node(number);
    struct content *it = node ? node->content : NULL;
    return it && !it->is_whole && !it->is_announced ? it->writer : 0;
}

/* ---- reading */

/* The bytes of a file in the tree, zeros past its end, and zeros alone if the tree has none of it. */
static int64_t read_tree(const struct content *it, const char *path, char *out, size_t size, uint64_t offset) {
    bool has_some = path && !(it && it->is_emptied);
    int64_t count = has_some ? wt_peek_pread(&tree, PATH(path), offset, out, size) : 0;
    if (count >= 0 && (size_t)count < size) memset(out + count, 0, size - (size_t)count);
    return count < 0 ? -errno_of(count) : (int64_t)size;
}

uint64_t length_of(uint64_t number) {
    struct node *node = node_of(number);
    return node->content ? node->content->length : node->last.size;
}

int64_t read_file(uint64_t number, char *out, size_t size, uint64_t offset) {
    char path[PATH_SIZE];
    struct wt_stat is;
    struct content *it = node_of(number)->content;
    bool is_found = find_file(number, path, &is);
    if (!is_found && !it) return -ENOENT;
    uint64_t length = it ? it->length : is.size;
    if (offset >= length) return 0;
    if (size > length - offset) size = (size_t)(length - offset);
    int64_t count = read_tree(it, is_found ? path : NULL, out, size, offset);
    if (count < 0 || !it) return count;
    uint64_t from = it->from > offset ? it->from : offset, to = it->to < offset + size ? it->to : offset + size;
    if (from < to) memcpy(out + (from - offset), it->bytes + (from - it->from), (size_t)(to - from));
    return count;
}

/* ---- writing */

static bool reserve(struct content *it, size_t size) {
    if (size <= it->capacity) return true;
    size_t capacity = it->capacity ? it->capacity : 4096;
    while (capacity < size) capacity *= 2;
    char *bytes = realloc(it->bytes, capacity);
    if (!bytes) return false;
    it->bytes = bytes;
    it->capacity = capacity;
    return true;
}

/* Extends `bytes` to the bytes from `from` to `to`, with what the file has there. */
static int64_t cover(struct content *it, const char *path, uint64_t from, uint64_t to) {
    if (it->from == it->to) it->from = it->to = from;
    /* If a file is written backwards, `bytes` doubles at its front, so that not each write moves all of it. */
    uint64_t more = it->to - it->from;
    if (from < it->from && it->from - from < more) from = it->from > more ? it->from - more : 0;
    if (from > it->from) from = it->from;
    if (to < it->to) to = it->to;
    if (!reserve(it, (size_t)(to - from))) return -ENOMEM;
    size_t before = (size_t)(it->from - from), held = (size_t)(it->to - it->from), after = (size_t)(to - it->to);
    if (before) memmove(it->bytes + before, it->bytes, held);
    it->from = from;
    int64_t count = 0;
    if (before) count = read_tree(it, path, it->bytes, before, from);
    if (count >= 0 && after) count = read_tree(it, path, it->bytes + before + held, after, it->to);
    it->to = to;
    return count < 0 ? count : 0;
}

/* What is pending of a file: made if there is nothing. */
static struct content *pending_of(struct node *node, uint64_t number, uint64_t length) {
    if (!node->content && (node->content = new_content(number, length))) list(node->content);
    return node->content;
}

static void note_write(struct content *it, pid_t writer) {
    it->writer = writer;
    it->is_announced = false;
    tick();
    stamp(it->number, MODIFIED);
}

int64_t write_file(uint64_t number, const char *bytes, size_t size, uint64_t offset, pid_t writer) {
    char path[PATH_SIZE];
    struct wt_stat is = { 0 };
    struct node *node = node_of(number);
    bool is_found = find_file(number, path, &is);
    if (!is_found && !node->content) return -ENOENT;
    if (offset > LONGEST_FILE || size > LONGEST_FILE - offset) return -EFBIG;
    if (!size) return 0;
    struct content *it = pending_of(node, number, is.size);
    if (!it) return -ENOMEM;
    int64_t reply = cover(it, is_found ? path : NULL, offset, offset + size);
    if (reply < 0) return reply;
    memcpy(it->bytes + (offset - it->from), bytes, size);
    if (it->length < offset + size) it->length = offset + size;
    note_write(it, writer);
    return (int64_t)size;
}

int64_t empty_file(uint64_t number, pid_t writer) {
    char path[PATH_SIZE];
    struct wt_stat is;
    struct node *node = node_of(number);
    if (!find_file(number, path, &is)) return resize_file(number, 0);
    struct content *it = pending_of(node, number, 0);
    if (!it) return -ENOMEM;
    it->length = it->from = it->to = 0;
    it->is_emptied = true;
    note_write(it, writer);
    return 0;
}

/* The tree's own file gets a length, and IN_MODIFY is raised. */
static int64_t resize_in_tree(struct content *it, const char *path, uint64_t length) {
    int64_t reply = it && it->is_emptied && length ? CALL(0, wt_truncate(&tree, PATH(path), 0)) : 0;
    if (reply >= 0) reply = CALL(0, wt_truncate(&tree, PATH(path), length));
    if (it && reply >= 0) it->is_emptied = false;
    return reply < 0 ? -errno_of(reply) : 0;
}

int64_t resize_file(uint64_t number, uint64_t length) {
    char path[PATH_SIZE];
    struct wt_stat is;
    struct node *node = node_of(number);
    bool is_found = find_file(number, path, &is);
    struct content *it = node->content;
    if (!is_found && !it) return -ENOENT;
    if (length > LONGEST_FILE) return -EFBIG;
    int64_t reply = 0;
    if (is_found) reply = resize_in_tree(it, path, length);
    else if (length > it->to) reply = cover(it, NULL, it->from, length);
    if (reply < 0) return reply;
    tick();
    stamp(number, MODIFIED);
    if (!it) return 0;
    it->length = length;
    it->is_announced = true;
    if (it->to > length) it->to = length;
    if (it->from >= it->to && !it->is_whole) drop_content(node);
    else if (it->from > it->to) it->from = it->to;
    return 0;
}

/* ---- what reaches the tree */

void announce(uint64_t number) {
    char path[PATH_SIZE];
    struct wt_stat is;
    struct content *it = node_of(number)->content;
    if (!it || it->is_whole || it->is_announced || !find_file(number, path, &is)) return;
    must(CALL(0, wt_truncate(&tree, PATH(path), it->length)), path);
    it->is_announced = true;
}

/* After O_TRUNC all bytes of the file are written anew. The tree's file is cut only if it is longer, so that a file that is
 * not shorter than before raises one IN_MODIFY. */
static void renew(struct content *it, const char *path, uint64_t length_in_tree) {
    must(cover(it, path, 0, it->length), path);
    if (it->length < length_in_tree || (!it->length && !it->is_announced))
        must(CALL(0, wt_truncate(&tree, PATH(path), it->length)), path);
}

void commit(uint64_t number) {
    char path[PATH_SIZE];
    struct wt_stat is;
    struct node *node = node_of(number);
    struct content *it = node->content;
    if (!it || it->is_whole || !find_file(number, path, &is)) return;
    if (it->is_emptied) renew(it, path, is.size);
    size_t size = (size_t)(it->to - it->from);
    must(CALL(size, wt_write(&tree, PATH(path), it->from, size ? it->bytes : "", size)), path);
    drop_content(node);
}

void announce_all(void) {
    for (struct content *it = pending; it; it = it->next) announce(it->number);
}

void commit_all(void) {
    for (struct content *it = pending, *next; it; it = next) {
        next = it->next;
        commit(it->number);
    }
}

/* ---- files without a name */

struct rescue before_loss(const char *path) {
    struct wt_stat is;
    struct rescue rescue = { 0 };
    if (wt_peek_stat(&tree, PATH(path), &is) < 0 || (!is.is_directory && is.links > 1)) return rescue;
    rescue.number = is.number;
    struct node *node = known_node(is.number);
    if (!node) return rescue;
    node->last = is;
    if (is.is_directory || (!node->lookups && !node->opens)) return rescue;
    uint64_t length = length_of(is.number);
    struct content *it = new_content(is.number, length);
    if (!it || !reserve(it, length ? (size_t)length : 1)) fail("malloc");
    int64_t count = read_file(is.number, it->bytes, (size_t)length, 0);
    if (count != (int64_t)length) fault("%s: only %lld bytes were read", path, (long long)count);
    it->to = length;
    it->is_whole = true;
    rescue.content = it;
    return rescue;
}

void after_loss(struct rescue *rescue, bool lost) {
    if (lost && rescue->content) {
        struct node *node = node_of(rescue->number);
        drop_content(node);
        node->content = rescue->content;
    } else free_content(rescue->content);
    if (lost && rescue->number) is_gone(rescue->number);
}
