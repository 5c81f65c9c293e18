/* Does a task of the program wait with a time limit? */
#ifndef TIMERS_H
#define TIMERS_H
#include "under.h"

/* Whether a task of a program at rest wakes up by itself, as far as can be seen. False only if each waits in a system call
 * without a limit, and no timer of timerfd_create(2) or timer_create(2) is armed, or was a moment ago. alarm(2) and
 * setitimer(2) are not seen. */
bool has_timer(void);
#endif
