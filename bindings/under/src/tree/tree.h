/* The tree, and its journal, which is cut before it is full. */
#ifndef TREE_H
#define TREE_H
#include "under.h"

extern struct wt_tree tree;

/* Cuts the journal if it cannot take an entry of `bytes` more bytes. A recording has all of it first. */
void reserve_entry(uint64_t bytes);
/* A call of the tree that its journal keeps. */
#define CALL(bytes, call) (reserve_entry(bytes), (call))

/* The errno of a reply below zero. */
int errno_of(int64_t reply);
/* Ends the run if a call was refused that can only be refused when out of memory. */
void must(int64_t reply, const char *path);

/* All names of a directory, each ended by a zero byte, for free(3). How many bytes they are; a reply below zero. */
int64_t names_below(const char *path, char **names);

void open_tree(void);
void close_tree(void);
#endif
