/* DIR/schedule of --out: the script with the schedule that the run took, which --schedule replays. */
#ifndef RECORD_H
#define RECORD_H
#include "under.h"

void open_record(void);
void close_record(void);
/* Records that a line happened: before this request, or at rest if it is 0. Lines before the first mark set the tree up. */
void record_line(const char *line, size_t length, uint64_t request);
void record_mark(void);
/* Records that the second program had a turn: before this request, or at rest if it is 0. */
void record_turn(uint64_t request);
/* Records that the read of this request handed over `records` records and left others. */
void record_short_read(uint64_t request, uint64_t records);
#endif
