/* Whose turn is it? Lines happen at two kinds of points: when the program is at rest and asked an instance in vain, and, in
 * a run with a schedule, before a request is answered. */
#include "script/turn.h"
#include "command/options.h"
#include "inotify/instances.h"
#include "output/asked.h"
#include "output/record.h"
#include "output/trace.h"
#include "processes/timers.h"
#include "script/schedule.h"
#include "script/script.h"
#include "script/second.h"

/* After an edge-triggered event and a short read no poll follows, so 'was polled, and is empty' is enough after a while. */
enum { POLLED_MS = 20 };
/* How long records that nobody takes hold the script up. */
enum { UNREAD_MS = 1000 };

uint64_t line_count;
static uint64_t request_count;
static uint64_t answered_next;      /* the request before which lines happen now: 0 at rest */

uint64_t run_lines_before_request(void) { return run_steps_before_request(true); }

uint64_t run_steps_before_request(bool may_turn) {
    uint64_t request = ++request_count, lines = 0;
    if (!has_schedule()) return request;
    answered_next = request;
    hold_deliveries(true);
    for (enum next next; (next = next_in_script()) == NEXT_LINE || (next == NEXT_TURN && may_turn); lines++) {
        if (!line_comes_before(request, lines)) break;
        if (next == NEXT_LINE) run_line();
        else if (!run_turn()) break;
    }
    hold_deliveries(false);
    answered_next = 0;
    trace_asked(request);
    if (lines) deliver();
    return request;
}

uint64_t request_of_line(void) { return answered_next; }
uint64_t next_request(void) { return answered_next ? answered_next : request_count + 1; }

void trace_point(void) {
    if (answered_next) trace("@%llu ", (unsigned long long)answered_next);
}

/* Lines run until somebody has a record to take. */
static void run_lines(void) {
    uint64_t reads = instance_counts.reads;
    while (next_in_script() == NEXT_LINE) {
        run_line();
        struct asking who = who_asks();
        if (!who.in_vain || who.unread || instance_counts.reads != reads) break;
    }
}

/* The program is at rest. Without a time limit no task of it wakes up before a line happens. */
static bool is_quiet_for_good(void) { return options.is_quick && !has_timer(); }

enum turn take_turn(int64_t quiet_ms) {
    struct asking who = who_asks();
    bool is_asked = who.in_vain || (who.polled && quiet_ms >= POLLED_MS);
    if (!is_asked || (who.unread && quiet_ms < UNREAD_MS)) return TURN_WAITS;
    switch (next_in_script()) {
    case NEXT_LINE:
        run_lines();
        return TURN_TAKEN;
    case NEXT_TURN:
        if (!second_is_ready()) return TURN_WAITS;
        run_turn();
        return TURN_TAKEN;
    case NEXT_MARK:
        if (quiet_ms < options.debounce_ms && !is_quiet_for_good()) return TURN_WAITS;
        pass_mark();
        return TURN_TAKEN;
    case NEXT_NOT_YET: return TURN_WAITS;
    case NEXT_END: break;
    }
    if (options.second && !second_is_at_rest()) return TURN_WAITS;
    return quiet_ms < options.settle_ms && !is_quiet_for_good() ? TURN_WAITS : TURN_OVER;
}

bool is_waiting_for_lines(void) { return next_in_script() == NEXT_NOT_YET; }
