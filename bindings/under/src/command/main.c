#include "command/options.h"
#include "command/run.h"
#include "processes/keeper.h"

int main(int argc, char **argv) {
    /* `watchtree explore` starts itself so, below a keeper. */
    if (argc > 2 && !strcmp(argv[1], "--explore")) return keep_program(argv + 2);
    read_options(argc, argv);
    return keep(options.many_seeds ? run_seeds : run);
}
