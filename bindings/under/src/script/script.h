/* The script: a file that is read at once, or a pipe or terminal whose lines come while the program runs. */
#ifndef SCRIPT_H
#define SCRIPT_H
#include "under.h"

/* The longest script that is a file, here and of `watchtree run`. */
enum { LONGEST_SCRIPT = 1 << 20 };

/* What stands next: a line, a mark, a turn of the second program, or nothing, yet or any more. */
enum next { NEXT_LINE, NEXT_MARK, NEXT_TURN, NEXT_NOT_YET, NEXT_END };

void open_script(void);
void close_script(void);
/* What stands next. Empty lines and comments are passed over. */
enum next next_in_script(void);
/* Runs the next line, or passes over the next mark, which has to be there. */
void run_line(void);
void pass_mark(void);
/* Gives the second program the turn that is next. False if the tree did not change: then the turn is still next. */
bool run_turn(void);
/* Runs the lines before the first mark, and waits for them if the script is live. */
void run_first_lines(void);
/* How many lines did not happen. */
long lines_left(void);
/* Records the lines that did not happen, in the form of a script, without those that are no lines of one. */
void record_rest(void);
/* How many lines after the first mark, and turns, happened so far. */
long lines_after_first_mark(void);

/* The descriptor that more lines come from: -1 if none do, or a whole line waits. */
int live_script(void);
/* Reads until a whole line waits, or nothing more has come. */
void read_live_script(void);
/* The program ended: what has come is the rest of the script. */
void end_live_script(void);

/* line.c: runs and records a line. False if it is no line of a script, which it reports. A line of the set-up that is
 * refused is a fault. */
bool run_text(const char *line, size_t length, long number, bool is_setup);
void free_text(void);
/* Returns what is wrong with a line, which it runs on a scratch tree, or NULL if it is a line of a script. */
const char *fault_of_text(struct wt_tree *scratch, const char *line, size_t length);
#endif
