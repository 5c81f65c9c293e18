/* What `watchtree record` writes: the calls of the tree's journal that changed the tree, in order, as lines of a script. */
#ifndef CALLS_H
#define CALLS_H
#include "under.h"
#include <sys/stat.h>

/* In a run of `watchtree under` these do nothing. */
void open_calls(void);
/* Whether a file is the one that is written. */
bool is_calls_file(const struct stat *it);
/* Writes what came into the journal since the last time. */
void write_calls(void);
/* Writes the line -- behind those that make the tree with which the program begins. */
void write_calls_mark(void);
/* Says that a call of the program was refused, with this errno, as a tree cannot hold what it makes. */
void say_unrecorded(const char *call, const char *path, int error);
/* The exit status: that of the run, or STATUS_FAULT if the script is too long to be run. */
int close_calls(int status);
#endif
