/* A run: mounts the tree, starts the program, and gives turns until it ends. */
#ifndef RUN_H
#define RUN_H

/* The exit status. */
int run(void);
/* A run for each seed, and a check of what each left. */
int run_seeds(void);
#endif
