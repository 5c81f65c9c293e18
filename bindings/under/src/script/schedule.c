/* What a schedule decides, asked by a generator or by the directives of a file. */
#include "script/schedule.h"
#include "command/options.h"
#include <ctype.h>
#include <stdio.h>
#include <stdlib.h>

bool has_schedule(void) { return options.has_seed || options.has_schedule; }

/* ---- a generator for each kind of choice, so that a choice of one kind moves none of another */

enum kind { LINES, READS, QUEUE, KINDS };

/* splitmix64 */
static uint64_t draw(enum kind kind) {
    static uint64_t states[KINDS];
    static bool is_open;
    for (int i = 0; i < KINDS && !is_open; i++) states[i] = options.seed ^ (uint64_t)i << 56;
    is_open = true;
    uint64_t z = states[kind] += 0x9e3779b97f4a7c15;
    z = (z ^ z >> 30) * 0xbf58476d1ce4e5b9;
    z = (z ^ z >> 27) * 0x94d049bb133111eb;
    return z ^ z >> 31;
}

/* One of `count` alternatives. */
static uint64_t choose(enum kind kind, uint64_t count) { return draw(kind) % count; }

static bool drawn_line(uint64_t count) {
    static uint64_t odds;           /* each seed has its own, so that lines come early in some runs and late in others */
    if (!odds) odds = 2 + choose(LINES, 16);
    return count ? choose(LINES, 2) == 1 : choose(LINES, odds) == odds - 1;
}

/* In every other seed, every other read is short. */
static uint64_t drawn_records(void) {
    static int is_short = -1;
    if (is_short < 0) is_short = choose(READS, 2) == 1;
    return is_short && choose(READS, 2) ? 1 + choose(READS, 3) : 0;
}

/* Three seeds of four have a small limit, most of these a very small one. */
void draw_queue(void) {
    enum { LARGEST = 16 };
    if (!options.has_seed || !(options.vary & VARY_QUEUE)) return;
    if (choose(QUEUE, 4)) options.queue = (uint32_t)(1 + choose(QUEUE, 1 + choose(QUEUE, LARGEST)));
}

/* ---- directives */

/* Where the lines below a directive happen. A relative request counts from the one that was next when the line above the
 * directive had happened. */
static struct { bool is_before; uint64_t request; } place;
static struct short_read { uint64_t request, records; } *reads;
static size_t read_count, read_capacity;
static uint64_t origin = 1;         /* what relative requests count from */

static uint64_t turns;              /* of the second program, of a directive that was passed */

enum directive { NO_DIRECTIVE, QUEUE_LIMIT, BEFORE, AT_REST, SHORT_READ, TURNS };
struct parsed { enum directive kind; bool is_relative; uint64_t request, number; };

/* A request: its number, or + and how many follow first. */
static const char *parse_request(const char *word, struct parsed *out) {
    char *end;
    out->is_relative = *word == '+';
    if (out->is_relative) word++;
    if (*word < '0' || *word > '9') return NULL;
    out->request = strtoull(word, &end, 10);
    return out->is_relative || out->request ? end : NULL;
}

static struct parsed parse(const char *line, size_t length) {
    struct parsed out = { 0 };
    char text[128];
    unsigned long long number;
    int end = -1;
    const char *at;
    if (length >= sizeof text) return out;
    memcpy(text, line, length);
    text[length] = 0;
    while (length && (text[length - 1] == ' ' || text[length - 1] == '\r')) text[--length] = 0;
    if (!strcmp(text, "#@ at rest")) out.kind = AT_REST;
    else if (sscanf(text, "#@ queue %llu%n", &number, &end) == 1 && !text[end]) {
        out.number = number;
        if (number >= 1 && number <= 65535) out.kind = QUEUE_LIMIT;
    } else if (sscanf(text, "#@ and %llu%n", &number, &end) == 1 && !text[end]) {
        out.number = number;
        if (number >= 1 && isdigit((unsigned char)text[7])) out.kind = TURNS;
    } else if (!strncmp(text, "#@ before ", 10)) {
        if ((at = parse_request(text + 10, &out)) && !*at) out.kind = BEFORE;
    } else if (!strncmp(text, "#@ read ", 8)) {
        if ((at = parse_request(text + 8, &out)) && sscanf(at, " %llu%n", &number, &end) == 1 && !at[end] && number)
            out.kind = SHORT_READ;
        out.number = number;
    }
    return out;
}

static void expect_read(uint64_t request, uint64_t records) {
    if (read_count == read_capacity) {
        read_capacity = read_capacity ? read_capacity * 2 : 64;
        if (!(reads = realloc(reads, read_capacity * sizeof *reads))) fail("realloc");
    }
    reads[read_count++] = (struct short_read){ request, records };
}

bool is_directive(const char *line, size_t length) {
    return options.has_schedule && length >= 2 && !memcmp(line, "#@", 2);
}

void expect_directive(const char *line, size_t length, long number, long lines, bool is_setup) {
    struct parsed it = parse(line, length);
    if (!it.kind) fault("line %ld: not a directive of a schedule: %.*s", number, (int)length, line);
    if (it.kind == QUEUE_LIMIT && lines) fault("line %ld: the queue's limit must come before all lines", number);
    if (it.kind == TURNS && !options.second) fault("line %ld: turns of a second program, and there is none (--and)", number);
    if (it.kind == TURNS && is_setup) fault("line %ld: turns of a second program before the first line `--`", number);
    if (it.kind == QUEUE_LIMIT) options.queue = (uint32_t)it.number;
    if (it.kind == SHORT_READ && !it.is_relative) expect_read(it.request, it.number);
}

void pass_directive(const char *line, size_t length) {
    struct parsed it = parse(line, length);
    uint64_t request = it.is_relative ? origin + it.request : it.request;
    if (it.kind == BEFORE || it.kind == AT_REST) {
        place.is_before = it.kind == BEFORE;
        place.request = request;
    }
    if (it.kind == SHORT_READ && it.is_relative) expect_read(request, it.number);
    if (it.kind == TURNS) turns = it.number;
}

uint64_t turns_left(void) { return turns; }

void turn_happened(void) { turns -= turns > 0; }

void pass_end(void) { place.is_before = false; }

void line_happened(uint64_t next_request) { origin = next_request; }

/* ---- what is asked */

bool line_comes_before(uint64_t request, uint64_t count) {
    if (options.has_schedule) return place.is_before && place.request <= request;
    return options.has_seed && (options.vary & VARY_LINES) && drawn_line(count);
}

uint64_t most_records(uint64_t request) {
    if (options.has_seed) return options.vary & VARY_READS ? drawn_records() : 0;
    for (size_t i = 0; i < read_count; i++) if (reads[i].request == request) return reads[i].records;
    return 0;
}
