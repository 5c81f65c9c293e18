/* The files of --out, below a descriptor of their directory. */
#ifndef OUT_H
#define OUT_H
#include "under.h"
#include <stdio.h>

enum out_file { OUT_TRACE, OUT_SCHEDULE, OUT_STDOUT, OUT_STDERR, OUT_LISTING, OUT_SECOND_STDOUT, OUT_SECOND_STDERR, OUT_FILES };

/* The directory of each run of --seeds is one below this, which is opened once. */
void hold_out_above(const char *path);
/* Makes and opens the directory. A fault if something is there that the run would have to replace, but for the files of
 * an earlier run, which remove_old_out() removes. */
void open_out(void);
void remove_old_out(void);
/* Makes a file, and lends its descriptor, which stays open until the end, or a stream of its own. A fault if the name
 * is taken. */
int make_out_file(enum out_file which);
FILE *make_out_stream(enum out_file which);
/* Makes DIR/tree, and opens it. */
int make_out_tree(void);
/* A fault if a file, or the directory, is no longer where it was made. */
void check_out(void);
#endif
