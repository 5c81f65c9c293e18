/* A path of a file by its number. */
#include "tree/nodes.h"
#include "tree/tree.h"
#include <errno.h>

int64_t path_of(uint64_t number, char path[PATH_SIZE]) {
    int64_t length = wt_path_of(&tree, number, path, PATH_SIZE - 1);
    if (length >= PATH_SIZE) return -ENAMETOOLONG;
    if (length >= 0) path[length] = 0;
    return length;
}
