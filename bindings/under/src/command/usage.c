/* The help of the two commands that the runner is: `watchtree under` and `watchtree record`. */
#include "command/options.h"

static const char of_under[] =
    "usage: watchtree under [OPTIONS] SCRIPT -- PROGRAM [ARGUMENT..]\n"
    "       watchtree under [OPTIONS] --schedule FILE -- PROGRAM [ARGUMENT..]\n"
    "       watchtree under [OPTIONS] [SCRIPT] -- CLIENT [ARGUMENT..] --and PROGRAM [ARGUMENT..]\n"
    "                     PROGRAM changes the tree in place of lines: each change waits until CLIENT is at rest\n"
    "  --dir DIR          mount the tree at DIR (/wt)\n"
    "  --trace            print each line, watch and record on standard error\n"
    "  --out DIR          write trace, schedule, stdout, stderr, listing and tree into DIR\n"
    "  --queue N          the limit of each queue of records, 1 to 65535 (16384)\n"
    "  --seed N           lines also happen before requests are answered, by a generator\n"
    "  --vary WORDS       what a seed decides: lines, reads, queue (lines,reads)\n"
    "  --schedule FILE    replay what a run left in DIR/schedule\n"
    "  --seeds A..B       a run for each seed\n"
    "  --check COMMAND    what decides whether a run of --seeds passed\n"
    "  --limit MS         the most that a run takes, and the COMMAND of --check (none)\n"
    "  --outside=ignore   a watch outside the mount is taken and never fires (else EACCES)\n"
    "  --end SIGNAL       how the program is ended after the script: TERM, INT, .., none (TERM)\n"
    "  --debounce MS      quiet time before a line -- is passed (100)\n"
    "  --settle MS        quiet time before the program is ended (300)\n"
    "  --quick            do not wait for --debounce and --settle if no task has a time limit\n"
    "  --stall MS         end a run after this long without a record or a line (10000)\n"
    "  --one-cpu          keep everything on one CPU\n";

static const char of_record[] =
    "usage: watchtree record [OPTIONS] [SCRIPT] -- PROGRAM [ARGUMENT..]\n"
    "  --from DIR         begin with a copy of a directory: its directories, files, modes and hard links\n"
    "  --out FILE         write the script into FILE (standard output; what PROGRAM prints then goes to standard error)\n"
    "  --contents N       keep of a longer write the last byte alone: the length and the events stay (all bytes)\n"
    "  --looks            keep calls that changed nothing: reads, calls of inotify, and refused calls\n"
    "  --dir DIR          mount the tree at DIR (/wt)\n"
    "  --limit MS         the most that a run takes (none)\n"
    "  --outside=ignore   a watch outside the mount is taken and never fires (else EACCES)\n"
    "  --end SIGNAL       how a program that watches is ended after SCRIPT: TERM, INT, .., none (none)\n"
    "  --one-cpu          keep everything on one CPU\n";

const char *usage(void) { return options.is_record ? of_record : of_under; }
