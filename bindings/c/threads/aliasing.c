/* A fork that is stored where its tree was, and calls with the same buffer twice. */
#include "checks.h"

#define TREE struct wtt
#define CALL(name) wtt_##name
#include "one_buffer.h"

/* The variable has the fork then. The tree is open, and whoever has it ends it. */
static void one_variable(void) {
    struct wtt *tree, *first;
    IS(wtt_open(&tree), 0), IS(wtt_create(tree, PATH("/f"), 0644), 2);
    first = tree;
    IS(wtt_fork(tree, &tree), 0), HOLDS(tree != first);
    IS(wtt_first_place(tree), 2), IS(wtt_first_place(first), 1), IS(wtt_last_place(first), 1);
    IS(wtt_unlink(tree, PATH("/f")), 0), IS(wtt_unlink(first, PATH("/f")), 0);
    wtt_shutdown(first);
    tree = (wtt_close(tree), first);
    IS(wtt_fork(tree, &tree), -EBADF), HOLDS(!tree);
    wtt_close(first);
}

int main(void) {
    struct wtt *tree;
    IS(wtt_open(&tree), 0);
    one_buffer(tree);
    wtt_close(tree);
    one_variable();
    puts("a fork in the variable of its tree, and one buffer twice: as promised");
    return 0;
}
