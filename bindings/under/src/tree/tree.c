/* The tree, and its journal, which is cut before it is full. */
#include "tree/tree.h"
#include "output/calls.h"
#include <errno.h>
#include <stdlib.h>

struct wt_tree tree = WT_TREE_INIT;

/* The journal takes 1,000,000 calls, and holds the bytes of each read and write. */
enum { MOST_CALLS = 900000, MOST_BYTES = 128 << 20 };
static uint64_t calls, held;

void reserve_entry(uint64_t bytes) {
    write_calls();
    if (++calls < MOST_CALLS && (held += bytes) < MOST_BYTES) return;
    int64_t reply = wt_cut(&tree);
    if (reply < 0) fault("wt_cut: %s", strerror(errno_of(reply)));
    calls = held = 0;
}

int errno_of(int64_t reply) {
    if (reply == -WT_COOKIES_SPENT || reply == -WT_NUMBERS_SPENT) return ENOSPC;
    return reply < -1000 ? EIO : (int)-reply;
}

void must(int64_t reply, const char *path) {
    if (reply < 0) fault("%s: %s", path, strerror(errno_of(reply)));
}

int64_t names_below(const char *path, char **names) {
    int64_t size = wt_peek_list(&tree, PATH(path), NULL, 0);
    if (size < 0) return size;
    if (!(*names = malloc((size_t)size + 1))) return -ENOMEM;
    return wt_peek_list(&tree, PATH(path), *names, (size_t)size);
}

void open_tree(void) {
    int64_t reply = wt_open(&tree);
    if (reply < 0) fault("wt_open: %s", strerror(errno_of(reply)));
}

void close_tree(void) { wt_close(&tree); }
