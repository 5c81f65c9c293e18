/* The keeper: whichever process of the tool is killed, neither a process nor a temporary folder of it stays behind. */
#ifndef KEEPER_H
#define KEEPER_H
#include "under.h"
#include <signal.h>

/* The signals that the tool passes on, and SIGCHLD; all are blocked. And what was blocked at first, as it is for the program. */
extern sigset_t passed_signals, first_mask;
/* The process that started this one. It passes on what is sent to the tool. */
extern pid_t parent_pid;

/* Whether it is a signal by which a user ends programs: SIGHUP, SIGINT, SIGQUIT, SIGTERM. */
bool ends_programs(int number);

/* Does the work in a process below a keeper. The exit status. */
int keep(int (*work)(void));
/* The same, where the work is another program. It has a new temporary folder, which WATCHTREE_ROOM names. */
int keep_program(char **words);
/* Starts a process that gets SIGTERM if this one ends. 0 in it. */
pid_t start_child(void);
/* The exit status of the tool by the status of the process that did the work, and a line where that is a fault. */
int status_of_worker(int status);
/* Kills all processes below this one, which is a subreaper, and waits until none is left. */
void end_all_below(void);

/* Removes a folder, with all in it. */
void remove_folder(const char *path);
/* What the keeper removes at the end: a folder with all in it, and one above it if that is empty then. */
struct temporary { char folder[PATH_SIZE], above[64]; };
extern struct temporary *temporary;
#endif
