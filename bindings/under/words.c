/* Checks the words of the runner and runs nothing: read_options ends the process for --help and for a fault. */
#include "command/options.h"

enum { WORDS_ARE_RIGHT = 3 };

int main(int argc, char **argv) {
    read_options(argc, argv);
    return WORDS_ARE_RIGHT;
}
