/* A cut frees what the entries of the journal held, and the memory for the entries: all bytes of the library are counted.
 * Linked with --wrap=malloc,--wrap=realloc,--wrap=free. */
#include "checks.h"
#include "counting.h"
#include "watchtree.h"
#include <stdio.h>

enum { CALLS = 20000, BYTES = 1000 };

/* Calls that leave the tree as it is. The entry of each holds the bytes that it read. */
static void read_often(struct wt_tree *t, int calls) {
    static char out[BYTES];
    for (int i = 0; i < calls; i++) IS(wt_pread(t, PATH("/f"), 0, out, BYTES), BYTES);
}

int main(void) {
    struct wt_tree t = WT_TREE_INIT;
    static const char bytes[BYTES] = "hello";
    IS(wt_open(&t), 0), IS(wt_create(&t, PATH("/f"), 0644), 2), IS(wt_write(&t, PATH("/f"), 0, bytes, BYTES), BYTES);
    read_often(&t, 1), IS(wt_cut(&t), 3);
    size_t least = allocated;
    read_often(&t, CALLS);
    size_t held = allocated - least;
    IS(held >= (size_t)CALLS * BYTES, 1), IS(wt_cut(&t), 3 + CALLS), IS(allocated - least, 0);
    wt_close(&t);
    IS(allocated, 0);
    printf("%zu bytes of %d entries, all of which a cut freed\n", held, CALLS);
}
