/* The turns of the second program, which changes the tree in place of lines. In a turn the client gets nothing to do, and the
 * second program goes on until the tree has changed once and it is at rest again. */
#ifndef SECOND_H
#define SECOND_H
#include "under.h"

/* Whether it goes on: it has not ended, or what it asked waits. */
bool second_goes_on(void);
/* Whether it can be given a turn: something that it asked waits. */
bool second_is_ready(void);
/* Whether nothing of it runs, also of what it left behind. */
bool second_is_at_rest(void);
/* Gives it a turn. Whether the tree changed. */
bool second_goes(void);
/* Notes how it is. */
void note_second(void);
/* What a run has to know of it once it does not go on: the tool's exit status, or 0. Says why, if that is not said yet. */
int status_of_second(void);
/* Whether it was not started, or its keeper was ended: the run is over. */
bool second_is_broken(void);
#endif
