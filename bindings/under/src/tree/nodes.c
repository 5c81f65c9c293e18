/* Files by number, where each was seen, and its times. */
#include "tree/nodes.h"
#include "tree/files.h"
#include "tree/tree.h"
#include <errno.h>
#include <stdio.h>
#include <stdlib.h>

/* A tree gives at most 2^20 numbers. */
enum { MOST_NODES = 1 << 21 };
static struct node **nodes;
static size_t node_count;

struct node *known_node(uint64_t number) { return number < node_count ? nodes[number] : NULL; }

struct node *node_of(uint64_t number) {
    if (number >= MOST_NODES) fault("a file has the number %llu", (unsigned long long)number);
    if (number >= node_count) {
        size_t count = node_count ? node_count * 2 : 1024;
        while (count <= number) count *= 2;
        if (!(nodes = realloc(nodes, count * sizeof *nodes))) fail("realloc");
        memset(nodes + node_count, 0, (count - node_count) * sizeof *nodes);
        node_count = count;
    }
    if (!nodes[number] && !(nodes[number] = calloc(1, sizeof *nodes[number]))) fail("calloc");
    return nodes[number];
}

void drop_if_unused(uint64_t number) {
    struct node *it = known_node(number);
    if (!it || it->lookups || it->opens || !it->is_gone) return;
    drop_content(it);
    free(it->name);
    free(it);
    nodes[number] = NULL;
}

void free_nodes(void) {
    for (size_t i = 0; i < node_count; i++) {
        if (!nodes[i]) continue;
        drop_content(nodes[i]);
        free(nodes[i]->name);
        free(nodes[i]);
    }
    free(nodes);
    nodes = NULL;
    node_count = 0;
}

/* ---- paths */

void seen_at(uint64_t number, uint64_t directory, const char *name) {
    struct node *it = node_of(number);
    it->parent = directory;
    if (it->name && !strcmp(it->name, name)) return;
    free(it->name);
    if (!(it->name = strdup(name))) fail("strdup");
}

/* The path that the hints make. */
static bool hinted_path(uint64_t number, char path[PATH_SIZE]) {
    char reversed[PATH_SIZE];
    size_t at = sizeof reversed - 1;
    reversed[at] = 0;
    while (number != ROOT) {
        struct node *it = known_node(number);
        if (!it || !it->name) return false;
        size_t length = strlen(it->name);
        if (length + 1 > at) return false;
        at -= length;
        memcpy(reversed + at, it->name, length);
        reversed[--at] = '/';
        number = it->parent;
    }
    if (!reversed[at]) reversed[--at] = '/';
    memcpy(path, reversed + at, sizeof reversed - at);
    return true;
}

static bool is_there(const char *path, uint64_t number, struct wt_stat *out) {
    return wt_peek_stat(&tree, PATH(path), out) >= 0 && out->number == number;
}

/* Remembers a path that the tree found: the hints of the directories on it too. */
static void learn(char *path, uint64_t number) {
    static char hinted[PATH_SIZE];          /* not on the stack, as paths may have 2,000 names */
    struct wt_stat is;
    char *slash = strrchr(path, '/');
    if (number == ROOT || !slash) return;
    uint64_t above = ROOT;
    if (slash != path) {
        *slash = 0;
        if (wt_peek_stat(&tree, PATH(path), &is) >= 0) {
            above = is.number;
            struct node *it = known_node(above);
            if (!it || !hinted_path(above, hinted) || strcmp(hinted, path)) learn(path, above);
        }
        *slash = '/';
    }
    seen_at(number, above, slash + 1);
}

bool find_file(uint64_t number, char path[PATH_SIZE], struct wt_stat *out) {
    struct node *it = node_of(number);
    if (it->is_gone) return false;
    bool found = hinted_path(number, path) && is_there(path, number, out);
    if (!found) {
        int64_t length = path_of(number, path);
        if (length == -ENOENT) it->is_gone = true;
        if (length < 0) return false;
        found = is_there(path, number, out);
        if (found) learn(path, number);
    }
    if (found) it->last = *out;
    return found;
}

int path_in(uint64_t directory, const char *name, char path[PATH_SIZE]) {
    struct wt_stat is;
    if (directory == ROOT && !strcmp(name, NURSERY)) return EPERM;
    if (!find_file(directory, path, &is)) return ENOENT;
    size_t length = strcmp(path, "/") ? strlen(path) : 0, more = strlen(name);
    if (more > 255 || length + 1 + more > 4095) return ENAMETOOLONG;
    path[length] = '/';
    memcpy(path + length + 1, name, more + 1);
    return 0;
}

void is_gone(uint64_t number) {
    struct node *it = known_node(number);
    if (!it) return;
    it->is_gone = true;
    it->ctime = now();
    drop_if_unused(number);
}

/* ---- times: whole seconds from 2001 on */

static time_t seconds = 1000000000;

void tick(void) { seconds++; }

struct timespec now(void) { return (struct timespec){ .tv_sec = seconds }; }

void stamp(uint64_t number, int which) {
    struct node *it = node_of(number);
    it->ctime = now();
    if (which & MODIFIED) it->mtime = it->atime = now();
}

void stamp_path(const char *path, int which) {
    struct wt_stat is;
    if (wt_peek_stat(&tree, PATH(path), &is) >= 0) stamp(is.number, which);
}

void stamp_parent(const char *path) {
    char above[PATH_SIZE];
    snprintf(above, sizeof above, "%s", path);
    char *slash = strrchr(above, '/');
    if (!slash) return;
    slash[slash == above] = 0;
    stamp_path(above, MODIFIED);
}
