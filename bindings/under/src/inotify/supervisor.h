/* The supervisor: answers the calls that the filter holds. */
#ifndef SUPERVISOR_H
#define SUPERVISOR_H
#include "under.h"

/* Takes the listener from a socket and serves it until no process is left. `tool` is the process that owns the tree. The second
 * program has no inotify: its turns follow what the client's instances have. */
_Noreturn void supervise(int from, pid_t tool, bool is_of_second);
#endif
