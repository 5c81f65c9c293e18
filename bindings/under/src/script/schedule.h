/* A schedule: which lines happen before which request of the program, how many records a read hands over at most, and the
 * limit of each queue. It comes from a generator (--seed) or from a file (--schedule). Requests count from 1. */
#ifndef SCHEDULE_H
#define SCHEDULE_H
#include "under.h"

/* Whether the run has a schedule. Without one lines happen at rest alone, and reads take all they can. */
bool has_schedule(void);
/* Draws the limit of each queue if the seed decides it. Called before the tree is opened. */
void draw_queue(void);

/* Does the next line happen before this request? Lines that already did are counted. */
bool line_comes_before(uint64_t request, uint64_t count);
/* How many records the read that is this request hands over at most: 0 for all. */
uint64_t most_records(uint64_t request);

/* ---- directives: comments of a script that begin with #@ */

/* Whether a comment is one, of a script that --schedule names. */
bool is_directive(const char *line, size_t length);
/* Called for each directive before the program starts; it keeps reads of absolute requests and the queue's limit. A fault
 * if there is no such directive. `lines` lines come before it; in the set-up no mark does. */
void expect_directive(const char *line, size_t length, long number, long lines, bool is_setup);
/* Passes a directive, which decides where the lines after it happen. */
void pass_directive(const char *line, size_t length);
/* How many turns of the second program a directive that was passed still has. */
uint64_t turns_left(void);
void turn_happened(void);
/* Notes that nothing stands behind what was passed: what still happens happens at rest, unless a seed decides. */
void pass_end(void);
/* Notes that a line happened, or a turn, and that directives count from this request, the next to be answered. */
void line_happened(uint64_t next_request);
#endif
