/* Writes down the schedule that a run takes. */
#include "output/record.h"
#include "command/options.h"
#include "output/out.h"

static FILE *file;
static uint64_t before;             /* the request of the last directive: 0 at rest */
/* The last line of the file, if it is one of turns: where it begins, and how many turns it has. It is written anew for each. */
static struct { long start; unsigned long long count; } turns;

void open_record(void) {
    enum { USUAL_QUEUE = 16384 };
    if (!options.out) return;
    file = make_out_stream(OUT_SCHEDULE);
    setvbuf(file, NULL, _IOLBF, 0);         /* what ran is kept if the tool is ended */
    if (options.queue != USUAL_QUEUE) fprintf(file, "#@ queue %u\n", options.queue);
}

void close_record(void) {
    if (file && fclose(file)) fail("schedule");
    file = NULL;
}

static void record_place(uint64_t request) {
    if (request == before) return;
    if (request) fprintf(file, "#@ before %llu\n", (unsigned long long)request);
    else fprintf(file, "#@ at rest\n");
    before = request;
    turns.count = 0;
}

void record_line(const char *line, size_t length, uint64_t request) {
    if (!file) return;
    record_place(request);
    fprintf(file, "%.*s\n", (int)length, line);
    turns.count = 0;
}

void record_mark(void) {
    if (file) fprintf(file, "--\n");
    turns.count = 0;
}

void record_turn(uint64_t request) {
    if (!file) return;
    record_place(request);
    if (!turns.count) turns.start = ftell(file);
    else if (fseek(file, turns.start, SEEK_SET) < 0) fail("schedule");
    fprintf(file, "#@ and %llu\n", ++turns.count);
}

void record_short_read(uint64_t request, uint64_t records) {
    if (file) fprintf(file, "#@ read %llu %llu\n", (unsigned long long)request, (unsigned long long)records);
    turns.count = 0;
}
