/* Files by number. The kernel speaks of numbers, wt_* of paths, and lines of the script move files meanwhile: a node
 * remembers the directory and the name under which its file was seen, a hint that is verified each time. */
#ifndef NODES_H
#define NODES_H
#include "under.h"

enum { ROOT = 1 };
/* The runner's own directory in the root, which the program neither sees nor replaces (names.c). */
#define NURSERY ".watchtree-new"
/* Where a new file is made, before it is linked to its path. */
#define NEWBORN NURSERY "/new"

struct content;                     /* files.h */

struct node {
    uint64_t parent;                /* the hint: a name in a directory, or NULL */
    char *name;
    bool is_gone;                   /* it has no path any more, and numbers never come again */
    struct wt_stat last;            /* what it was when it was last looked at */
    struct timespec atime, mtime, ctime;
    uint64_t lookups;               /* how often the kernel looked it up and has not forgotten it */
    uint32_t opens;
    struct content *content;        /* what is written and not yet in the tree, or all of a file that is gone */
};

struct node *node_of(uint64_t number);
/* The node of a number if there is one. */
struct node *known_node(uint64_t number);
/* Where the file of this number is now, and what it is. False if it is gone. */
bool find_file(uint64_t number, char path[PATH_SIZE], struct wt_stat *out);
/* A path of the file as the tree has it: its length, or -ENOENT. */
int64_t path_of(uint64_t number, char path[PATH_SIZE]);
/* The path of a name in a directory: 0 or an errno. */
int path_in(uint64_t directory, const char *name, char path[PATH_SIZE]);
/* Notes that the file of this number has this name. */
void seen_at(uint64_t number, uint64_t directory, const char *name);
/* Notes that the file of this number has no path any more. */
void is_gone(uint64_t number);
/* Frees the node of a file that is gone, that the kernel has forgotten, and of which no descriptor is open. */
void drop_if_unused(uint64_t number);
void free_nodes(void);

/* Times. They are a clock of the changes, one second each, so that whatever is changed later is newer. */
void tick(void);
struct timespec now(void);
enum { MODIFIED = 1, ALTERED = 2 };
void stamp(uint64_t number, int which);
void stamp_path(const char *path, int which);
/* The directory that has the last name of the path. */
void stamp_parent(const char *path);
#endif
