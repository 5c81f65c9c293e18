/* The processes of a run: the programs, and the supervisors of their calls. */
#ifndef PROGRAM_H
#define PROGRAM_H
#include "under.h"
#include <signal.h>

extern pid_t supervisor_pid, program_pid;
/* Those of the second program: 0 if there is none. Whatever it starts is below its keeper, as that is a subreaper. */
extern pid_t second_supervisor_pid, second_keeper_pid;
/* Whether a process is one of the supervisors. */
bool is_supervisor(pid_t pid);

/* Starts them. A program starts in the directory `here`, with these signals blocked, and without the mount's descriptor. */
void start_programs(const char *here, const sigset_t *blocked, int mount_fd);

/* How the second program is. */
enum second { NO_SECOND, SECOND_GOES_ON, SECOND_ENDED, SECOND_NOT_STARTED, SECOND_IS_LOST };
/* Its status as of wait(2) if it has ended, or the tool's exit status if it could not be started. */
enum second how_second_is(int *status);
/* The descriptor that shows when that changes: -1 if it does not any more. */
int second_report(void);

/* Ends what the programs left behind, and answers its requests meanwhile. */
void end_processes(void);
#endif
