/* Whose turn is it: the program's, or that of the script's next line? */
#ifndef TURN_H
#define TURN_H
#include "under.h"

/* How many lines ran. */
extern uint64_t line_count;

/* Called before a request of the program is answered: lets lines happen first, by the schedule, and turns of the second program
 * if they may. Returns its number. */
uint64_t run_steps_before_request(bool may_turn);
/* The same of a request during which the kernel has no lock. */
uint64_t run_lines_before_request(void);
/* The request before which a line happens now: 0 if it happens at rest. */
uint64_t request_of_line(void);
/* The request that is answered next. */
uint64_t next_request(void);
/* Traces the request before which a line happens. */
void trace_point(void);

enum turn { TURN_WAITS, TURN_TAKEN, TURN_OVER };
/* Takes a turn. The program is at rest and has been quiet for `quiet_ms`. */
enum turn take_turn(int64_t quiet_ms);
/* Whether the run waits for a line of a live script, which may still come. */
bool is_waiting_for_lines(void);
#endif
