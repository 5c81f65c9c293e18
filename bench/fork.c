/* Runs the script on standard input, and then forks the tree as often as the first word says. The forks stay open. */
#include "watchtree.h"
#include <stdio.h>
#include <stdlib.h>
#include <string.h>

int main(int count, char **words) {
    struct wt_tree tree = WT_TREE_INIT;
    char line[4096];
    int forks = count > 1 ? atoi(words[1]) : 0;
    if (wt_open(&tree) < 0) return 1;
    while (fgets(line, sizeof line, stdin))
        if (wt_line(&tree, WT_QUEUE, line, strcspn(line, "\n"), NULL, 0) < 0) return 1;
    for (int i = 0; i < forks; i++) {
        struct wt_tree fork = WT_TREE_INIT;
        if (wt_fork(&tree, &fork) < 0 || wt_last_place(&fork) != wt_last_place(&tree)) return 1;
    }
    return 0;
}
