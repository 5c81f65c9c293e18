/* The command line. */
#ifndef OPTIONS_H
#define OPTIONS_H
#include "under.h"

/* What a seed decides. */
enum vary { VARY_LINES = 1, VARY_READS = 2, VARY_QUEUE = 4 };

struct options {
    const char *dir;            /* where the tree is mounted */
    const char *script;
    const char *out;            /* NULL: no files */
    const char *check;          /* the command of --check */
    const char *recording;      /* the file that record writes; NULL: standard output */
    const char *from;           /* the directory that record copies in first; NULL: none */
    char **program;             /* its words, NULL at the end */
    char **second;              /* those of the second program (--and); NULL: there is none */
    bool is_record;             /* the command is record, and not under */
    bool traces;
    bool has_seed;
    bool has_schedule;          /* the script is that of --schedule */
    bool is_quick;
    bool many_seeds;
    bool ignores_outside;
    bool keeps_looks;           /* record writes calls that changed nothing too */
    uint64_t seed, last_seed;
    uint64_t contents;          /* the most bytes of a write that record keeps */
    uint32_t queue;
    int vary;
    int debounce_ms, settle_ms, stall_ms;
    int limit_ms;               /* 0: none */
    int end_signal;             /* 0: none */
};
extern struct options options;

/* The words of `watchtree under`, or behind a first word --record those of `watchtree record`. */
void read_options(int argc, char **argv);
/* usage.c: the help of the command. */
const char *usage(void);
#endif
