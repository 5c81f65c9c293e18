/* The command line: words of options, and what each may be. */
#include "command/options.h"
#include <ctype.h>
#include <errno.h>
#include <getopt.h>
#include <inttypes.h>
#include <limits.h>
#include <sched.h>
#include <signal.h>
#include <stdio.h>
#include <stdlib.h>

struct options options = { .dir = "/wt", .queue = 16384, .debounce_ms = 100, .settle_ms = 300, .stall_ms = 10000,
                           .end_signal = SIGTERM, .vary = VARY_LINES | VARY_READS };

_Noreturn static void refuse(const char *option, const char *value, const char *wanted) {
    fault("--%s: bad value '%s': expected %s", option, value, wanted);
}

static uint64_t number(const char *option, const char *word, uint64_t least, uint64_t most) {
    char *end;
    errno = 0;
    unsigned long long value = strtoull(word, &end, 0);
    if (errno || end == word || *end || strchr(word, '-') || value < least || value > most) {
        char wanted[64];
        snprintf(wanted, sizeof wanted, "a number from %" PRIu64 " to %" PRIu64, least, most);
        refuse(option, word, wanted);
    }
    return value;
}

static int milliseconds(const char *option, const char *word) { return (int)number(option, word, 0, INT_MAX); }

static int signal_named(const char *word) {
    if (!strcmp(word, "none")) return 0;
    const char *name = strncmp(word, "SIG", 3) ? word : word + 3;
    for (int i = 1; i < SIGRTMIN; i++) {
        const char *known = sigabbrev_np(i);
        if (known && !strcmp(known, name)) return i;
    }
    if (!isdigit((unsigned char)*word))
        refuse("end", word, "the name of a signal, such as TERM or INT, a number from 1 to 64, or none");
    return (int)number("end", word, 1, 64);
}

static void seeds(const char *word) {
    char text[64];
    const char *dots = strstr(word, "..");
    if (!dots || dots == word || !dots[2] || (size_t)(dots - word) >= sizeof text)
        refuse("seeds", word, "A..B, the first seed and the last, such as 1..200");
    memcpy(text, word, (size_t)(dots - word));
    text[dots - word] = 0;
    options.seed = number("seeds", text, 0, UINT64_MAX - 1);
    options.last_seed = number("seeds", dots + 2, options.seed, UINT64_MAX - 1);
    options.has_seed = options.many_seeds = true;
}

static void stay_on_one_cpu(void) {
    cpu_set_t one;
    CPU_ZERO(&one);
    CPU_SET(sched_getcpu(), &one);
    if (sched_setaffinity(0, sizeof one, &one) < 0) fail("--one-cpu");
}

static void outside(const char *word) {
    if (!strcmp(word, "ignore")) options.ignores_outside = true;
    else if (!strcmp(word, "refuse")) options.ignores_outside = false;
    else refuse("outside", word, "refuse or ignore");
}

static void vary(const char *list) {
    static const char *const names[] = { "lines", "reads", "queue" };
    options.vary = 0;
    for (const char *at = list; at; at = strchr(at, ',')) {
        at += at != list;
        size_t length = strcspn(at, ",");
        int i = 0;
        while (i < 3 && (strlen(names[i]) != length || memcmp(at, names[i], length))) i++;
        if (i == 3) refuse("vary", list, "words of lines, reads and queue, such as lines,reads");
        options.vary |= 1 << i;
    }
}

_Noreturn static void print_help(void) {
    fputs(usage(), stdout);
    exit(0);
}

_Noreturn static void print_usage(void) {
    fputs(usage(), stderr);
    exit(STATUS_FAULT);
}

/* Parts the words at the first --and: behind it is the second program. How many words are before it. */
static int part_words(int argc, char **argv, int at) {
    int end = at;
    while (end < argc && strcmp(argv[end], "--and")) end++;
    if (end == argc) return argc;
    if (end + 1 == argc) fault("--and: there is no program behind it");
    options.second = argv + end + 1;
    argv[end] = NULL;
    return end;
}

/* The words behind the options: the script, unless a schedule has it, and the program. A script is not needed where a second
 * program makes the changes. */
static void read_words(int argc, char **argv, int at) {
    argc = part_words(argc, argv, at);
    bool has_none = options.second && !options.has_schedule && !strcmp(argv[at - 1], "--");
    if (has_none) options.script = "/dev/null";
    bool is_named = !options.has_schedule && !has_none && at + 1 < argc;
    if (is_named) options.script = argv[at++];
    if (is_named && !strcmp(argv[at], "--")) at++;
    if (!options.script || at >= argc) print_usage();
    options.program = argv + at;
    if (options.check && !options.many_seeds) fault("--check goes with --seeds");
    if (options.has_schedule && options.has_seed) fault("--schedule and --seed are two schedules");
    if (options.has_schedule && at + 1 < argc && !strcmp(argv[at + 1], "--"))
        fault("--schedule has the script: %s is one more", argv[at]);
}

/* The same of record, where a -- stands before the program in any case, and a script may stand before that. */
static void read_words_of_record(int argc, char **argv, int at) {
    bool is_named = at < argc && strcmp(argv[at - 1], "--");
    options.script = is_named ? argv[at++] : "/dev/null";
    if (is_named && (at >= argc || strcmp(argv[at++], "--"))) print_usage();
    if (at >= argc) print_usage();
    options.program = argv + at;
}

static const struct option words_of_under[] = {
    { "dir", 1, NULL, 'd' }, { "trace", 0, NULL, 't' }, { "out", 1, NULL, 'o' }, { "seed", 1, NULL, 's' },
    { "seeds", 1, NULL, 'S' }, { "check", 1, NULL, 'c' }, { "queue", 1, NULL, 'q' }, { "settle", 1, NULL, 'e' },
    { "debounce", 1, NULL, 'b' }, { "stall", 1, NULL, 'l' }, { "refuse-outside", 0, NULL, 'n' },
    { "limit", 1, NULL, 'L' }, { "vary", 1, NULL, 'v' }, { "schedule", 1, NULL, 'R' }, { "quick", 0, NULL, 'Q' },
    { "outside", 1, NULL, 'u' }, { "end", 1, NULL, 'E' }, { "one-cpu", 0, NULL, '1' }, { "help", 0, NULL, 'h' },
    { 0 } };
static const struct option words_of_record[] = {
    { "from", 1, NULL, 'f' }, { "out", 1, NULL, 'O' }, { "contents", 1, NULL, 'C' }, { "looks", 0, NULL, 'k' },
    { "dir", 1, NULL, 'd' }, { "limit", 1, NULL, 'L' }, { "outside", 1, NULL, 'u' }, { "end", 1, NULL, 'E' },
    { "one-cpu", 0, NULL, '1' }, { "help", 0, NULL, 'h' }, { 0 } };

/* A program that is recorded ends by itself, unless the words say how, and may wait for its user as long as it likes. */
static void begin_record(void) {
    options.is_record = true;
    options.contents = UINT64_MAX;
    options.end_signal = 0;
    options.stall_ms = INT_MAX;
}

void read_options(int argc, char **argv) {
    static char under[] = "watchtree under", record[] = "watchtree record";
    if (argc > 1 && !strcmp(argv[1], "--record")) begin_record();
    argc -= options.is_record;
    argv += options.is_record;
    argv[0] = options.is_record ? record : under;       /* getopt_long begins its messages with it */
    const struct option *words = options.is_record ? words_of_record : words_of_under;
    for (int c; (c = getopt_long(argc, argv, "+h", words, NULL)) >= 0;) switch (c) {
        case 'd': options.dir = optarg; break;
        case 't': options.traces = true; break;
        case 'o': options.out = optarg; break;
        case 'O': options.recording = optarg; break;
        case 's': options.has_seed = true; options.seed = number("seed", optarg, 0, UINT64_MAX); break;
        case 'S': seeds(optarg); break;
        case 'c': options.check = optarg; break;
        case 'v': vary(optarg); break;
        case 'R': options.has_schedule = true; options.script = optarg; break;
        case 'Q': options.is_quick = true; break;
        case 'q': options.queue = (uint32_t)number("queue", optarg, 1, 65535); break;
        case 'e': options.settle_ms = milliseconds("settle", optarg); break;
        case 'b': options.debounce_ms = milliseconds("debounce", optarg); break;
        case 'L': options.limit_ms = (int)number("limit", optarg, 1, INT_MAX); break;
        case 'l': options.stall_ms = milliseconds("stall", optarg); break;
        case 'n': options.ignores_outside = false; break;
        case 'u': outside(optarg); break;
        case 'E': options.end_signal = signal_named(optarg); break;
        case '1': stay_on_one_cpu(); break;
        case 'h': print_help();
        case 'f': options.from = optarg; break;
        case 'k': options.keeps_looks = true; break;
        case 'C': options.contents = number("contents", optarg, 0, UINT64_MAX); break;
        default: print_usage();
    }
    if (options.is_record) read_words_of_record(argc, argv, optind);
    else read_words(argc, argv, optind);
}
